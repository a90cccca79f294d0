/* Does each of the bench's jobs once for the library and for each rival in C, so that callgrind can count the
   instructions: bench/cost runs it. It prints a line a job: its name, whose turn it was, and by how much the count is
   to be divided (the words of a block; 1 for a call). The data are those of src/data.rs. */
#include <stdbool.h>
#include <stdint.h>
#include <stdio.h>
#include <stdlib.h>
#include <string.h>

#include "../include/fadc250.h"
#include "peer.h"

enum { MOST_NW = 500, ROOM = 40000, SMALL_BLOCK = 4096, MOST_EVENTS = 255, SLOT = 5, FRAMES = 4096 };

struct side {
    const char *name;
    uint32_t (*set_up)(const uint64_t *, size_t, uint64_t *, size_t);
    uint32_t (*open_block)(uint64_t *, size_t, uint32_t *, size_t, uint32_t, uint32_t);
    uint32_t (*open_event)(uint64_t *, size_t, uint32_t, uint64_t);
    uint32_t (*post)(uint64_t *, size_t, uint16_t *, size_t, uint32_t, const uint16_t *, size_t);
    uint32_t (*close)(uint64_t *, size_t, const uint16_t *, size_t, uint32_t *, size_t);
    uint32_t (*count)(uint64_t *, size_t, const uint16_t *, size_t);
    uint32_t (*find)(const uint64_t *, size_t, uint32_t, const uint16_t *, size_t, uint32_t *, size_t);
    uint64_t (*check)(const uint8_t *, size_t);
};

#define SIDE(name, prefix)                                                                                   \
    {name,           prefix##_set_up, prefix##_open_block, prefix##_open_event, prefix##_post,               \
     prefix##_close, prefix##_count,  prefix##_find,       prefix##_check}

static const struct side sides[] = {SIDE("library", fadc250), SIDE("plain", plain), SIDE("sse2", sse2)};

static uint64_t settings[FADC250_SETTINGS], state[FADC250_STATE];
static uint16_t store[FADC250_STORE(MOST_NW)], window[MOST_NW];
static uint32_t words[ROOM];

/* The instructions since the last call of this are the job's: callgrind writes them out before it. */
__attribute__((noinline)) void job_done(void)
{
    __asm__ volatile("" ::: "memory");
}

static void done(const struct side *side, const char *job, size_t units)
{
    printf("%s\t%s\t%zu\n", job, side->name, units);
    job_done();
}

static void accepted(uint64_t refusal, const char *what)
{
    if (refusal == 0)
        return;
    fprintf(stderr, "%s: %s\n", what, fadc250_text(refusal));
    exit(1);
}

static void set(uint64_t mode, size_t nw)
{
    const struct fadc250_settings named = {
        .mode = mode, .nw = nw, .pl = 20, .nsb = 3, .nsa = 10, .limit = 3, .slot = SLOT, .parameters = 1, .times = 2,
        .multiple = 2};
    fadc250_put_settings(&named, settings);
    for (size_t c = 0; c < 16; c++)
        settings[FADC250_THRESHOLDS + c] = 100;
}

/* A quiet line, or one with a pulse in every twenty samples. */
static void fill(size_t nw, bool busy)
{
    static const uint16_t pulse[20] = {40, 120, 300, 500, 420, 260, 130, 60};
    for (size_t k = 0; k < nw; k++)
        window[k] = (uint16_t)(10 + k % 3 + (busy ? pulse[(k + 14) % 20] : 0));
}

/* A quiet line, or one with a flat pulse in the middle of every hundred samples. */
static void fill_sparse(size_t nw, bool busy)
{
    for (size_t k = 0; k < nw; k++)
        window[k] = (uint16_t)(10 + k % 3 + (busy && k % 100 > 50 && k % 100 < 60 ? 300 : 0));
}

/* Frames in which no channel is over, or in which each is in about half of them. */
static void fill_frames(uint16_t *frames, bool busy)
{
    uint32_t bits = 1;
    for (size_t i = 0; i < FRAMES; i++) {
        bits = bits * 1664525u + 1013904223u;
        for (size_t c = 0; c < 16; c++)
            frames[16 * i + c] = (uint16_t)(10 + i % 3 + (busy && (bits >> (16 + c) & 1) != 0 ? 300 : 0));
    }
}

static void find(const struct side *side, size_t nw, bool busy)
{
    char job[64];
    uint32_t out[FADC250_FOUND];
    snprintf(job, sizeof job, "find_%zu_%s", nw, busy ? "busy" : "quiet");
    set(7, nw);
    fill(nw, busy);
    accepted(side->find(settings, FADC250_SETTINGS, 3, window, nw, out, FADC250_FOUND), job);
    done(side, job, 1);
}

/* What stands before a job is left to the library and not counted: its counts are thrown away with job_done. */

static void in_block(void)
{
    accepted(fadc250_set_up(settings, FADC250_SETTINGS, state, FADC250_STATE), "set up");
    accepted(fadc250_open_block(state, FADC250_STATE, words, ROOM, 1, MOST_EVENTS), "open block");
}

static void in_event(void)
{
    in_block();
    accepted(fadc250_open_event(state, FADC250_STATE, 9, 256), "open event");
}

static void posted(size_t nw)
{
    in_event();
    for (uint32_t c = 0; c < 16; c++)
        accepted(fadc250_post(state, FADC250_STATE, store, FADC250_STORE(nw), c, window, nw), "post");
}

static void forget(void)
{
    printf("-\n");
    job_done();
}

static void open_event(const struct side *side)
{
    set(7, 100);
    in_block();
    forget();
    accepted(side->open_event(state, FADC250_STATE, 9, 256), "open event");
    done(side, "open_event", 1);
}

static void post(const struct side *side, size_t nw)
{
    char job[64];
    snprintf(job, sizeof job, "post_%zu", nw);
    set(7, nw);
    fill(nw, true);
    in_event();
    forget();
    accepted(side->post(state, FADC250_STATE, store, FADC250_STORE(nw), 3, window, nw), job);
    done(side, job, 1);
}

static void close_event(const struct side *side, uint64_t mode, size_t nw, bool busy)
{
    char job[64];
    snprintf(job, sizeof job, "close_%u_%zu_%s", (unsigned)mode, nw, busy ? "busy" : "quiet");
    set(mode, nw);
    fill(nw, busy);
    posted(nw);
    forget();
    accepted(side->close(state, FADC250_STATE, store, FADC250_STORE(nw), words, ROOM), job);
    done(side, job, 1);
}

static void whole_event(const struct side *side, uint64_t mode, size_t nw, bool busy)
{
    char job[64];
    snprintf(job, sizeof job, "event_%u_%zu_%s", (unsigned)mode, nw, busy ? "pulses" : "quiet");
    set(mode, nw);
    fill_sparse(nw, busy);
    in_block();
    forget();
    accepted(side->open_event(state, FADC250_STATE, 9, 256), job);
    for (uint32_t c = 0; c < 16; c++)
        accepted(side->post(state, FADC250_STATE, store, FADC250_STORE(nw), c, window, nw), job);
    accepted(side->close(state, FADC250_STATE, store, FADC250_STORE(nw), words, ROOM), job);
    done(side, job, 1);
}

static void count(const struct side *side, const char *job, bool busy)
{
    static uint16_t frames[16 * FRAMES];
    set(7, 100);
    fill_frames(frames, busy);
    accepted(fadc250_set_up(settings, FADC250_SETTINGS, state, FADC250_STATE), "set up");
    forget();
    accepted(side->count(state, FADC250_STATE, frames, 16 * FRAMES), job);
    done(side, job, 1);
}

/* An event's words, all windows busy. */
struct event {
    size_t length;
    uint32_t words[2 * SMALL_BLOCK];
};

static void write_event(struct event *event, uint64_t mode, size_t nw)
{
    set(mode, nw);
    fill(nw, true);
    posted(nw);
    const size_t before = state[FADC250_WORDS];
    accepted(fadc250_close(state, FADC250_STATE, store, FADC250_STORE(nw), words, ROOM), "close");
    event->length = state[FADC250_WORDS] - before;
    memcpy(event->words, words + before, event->length * sizeof *words);
}

/* An event of header, time words and so many integrals. */
static void write_integrals(struct event *event, size_t count)
{
    write_event(event, 3, 16);
    event->length = 3 + count;
    for (size_t i = 3; i < event->length; i++)
        event->words[i] = 0xB98002BC;
}

/* The check of a block of these events in turn, as many as fit. */
static void check(const struct side *side, const char *job, const struct event *events, size_t n)
{
    static uint32_t block[SMALL_BLOCK];
    static uint8_t bytes[4 * SMALL_BLOCK];
    size_t length = 1;
    uint32_t count = 0;
    for (; count < MOST_EVENTS; count++) {
        const struct event *event = &events[count % n];
        if (length + event->length + 1 > SMALL_BLOCK)
            break;
        memcpy(block + length, event->words, event->length * sizeof *block);
        length += event->length;
    }
    block[0] = 0x80000000u | SLOT << 22 | 1 << 18 | 1 << 8 | count;
    length++;
    block[length - 1] = 0x88000000u | SLOT << 22 | (uint32_t)length;
    fadc250_to_bytes(block, length, bytes, sizeof bytes);
    forget();
    const uint64_t answer = side->check(bytes, 4 * length);
    accepted(answer == length ? 0 : answer >> 32, job);
    done(side, job, length);
}

static void check_event(const struct side *side, const char *job, uint64_t mode, size_t nw)
{
    static struct event event;
    write_event(&event, mode, nw);
    check(side, job, &event, 1);
}

static void checks(const struct side *side)
{
    static struct event mixed[3];
    write_integrals(mixed, 4000);
    check(side, "check_integrals", mixed, 1);
    check_event(side, "check_windows_16", 1, 16);
    check_event(side, "check_windows_500", 1, 500);
    check_event(side, "check_mode_7", 7, 100);
    check_event(side, "check_mode_8", 8, 101);
    check_event(side, "check_raw", 2, 60);
    write_event(&mixed[0], 8, 101);
    write_event(&mixed[1], 7, 100);
    write_event(&mixed[2], 2, 60);
    check(side, "check_mixed", mixed, 3);
    write_integrals(mixed, 0);
    check(side, "check_empty", mixed, 1);
}

static void of_every_mode(const struct side *side, void (*job)(const struct side *, uint64_t, size_t, bool))
{
    static const uint64_t modes[] = {1, 2, 3, 4, 7, 8};
    static const size_t lengths[] = {100, 500};
    for (size_t i = 0; i < 6; i++)
        for (size_t j = 0; j < 2; j++)
            for (int busy = 0; busy < 2; busy++)
                job(side, modes[i], lengths[j], busy);
}

static void all_jobs(const struct side *side)
{
    static const size_t lengths[] = {16, 100, 500};
    for (size_t i = 0; i < 3; i++) {
        find(side, lengths[i], false);
        find(side, lengths[i], true);
    }
    open_event(side);
    for (size_t i = 0; i < 3; i++)
        post(side, lengths[i]);
    of_every_mode(side, close_event);
    of_every_mode(side, whole_event);
    count(side, "count_quiet", false);
    count(side, "count_busy", true);
    checks(side);
}

int main(void)
{
    for (size_t i = 0; i < sizeof sides / sizeof sides[0]; i++)
        all_jobs(&sides[i]);
    return 0;
}
