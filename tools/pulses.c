/* Writes one block of made-up tube pulses to standard output, the same at every run: pulses MODE NW EVENTS. It is to
   try the lister and the picture with; samples/scope.bin is `pulses 8 100 2`. */
#include "fadc250.h"
#include <stdio.h>
#include <stdlib.h>

enum { CHANNELS = 16, LONGEST = 500, ROOM = 1 << 22 };

static uint64_t settings[FADC250_SETTINGS] = {[FADC250_PL] = 60,        [FADC250_NSB] = 4,   [FADC250_NSA] = 20,
                                              [FADC250_LIMIT] = 3,      [FADC250_SLOT] = 5,  [FADC250_PARAMETERS] = 1,
                                              [FADC250_TIMES] = 2,      [FADC250_MULTIPLE] = 2};
static uint64_t state[FADC250_STATE];
static uint16_t store[CHANNELS * LONGEST];
static uint32_t words[ROOM];

/* A number from 0 to below - 1. */
static uint32_t any(uint32_t below)
{
    static uint64_t seed = 12;
    seed = seed * 6364136223846793005u + 1442695040888963407u;
    return (uint32_t)(seed >> 33) % below;
}

/* A quiet window: a pedestal and noise. */
static void quiet(uint32_t *window, size_t nw)
{
    uint32_t pedestal = 140 + any(60);
    for (size_t i = 0; i < nw; i++)
        window[i] = pedestal + any(12) + any(12) + any(12);
}

/* Adds a pulse that began so many quarters of a sample before from: up in four samples, down by an eighth in each. */
static void pulse(uint32_t *window, size_t nw, size_t from, size_t quarters, uint32_t height)
{
    static const uint32_t rise[] = {0, 0, 1, 1, 2, 3, 5, 7, 9, 11, 13, 14, 15, 16, 16, 16};
    for (size_t i = from; i < nw; i++) {
        size_t step = 4 * (i - from) + quarters;
        window[i] += step < 16 ? height * rise[step] / 16 : height;
        height -= step < 16 ? 0 : height / 8;
    }
}

/* A converter that is full says 4095 and sets the overflow flag, bit 12. */
static void convert(const uint32_t *window, size_t nw, uint16_t *samples)
{
    for (size_t i = 0; i < nw; i++)
        samples[i] = (uint16_t)(window[i] <= 4095 ? window[i] : 8191);
}

/* Adds a pulse of that height that begins in the quarter of the window behind first. Each call has one drawn number at
   most: C leaves open which of its arguments is worked out first. */
static void pulse_behind(uint32_t *window, size_t nw, size_t first, uint32_t height)
{
    size_t quarters = any(4);
    pulse(window, nw, first + any((uint32_t)nw / 4 + 1), quarters, height);
}

static uint32_t post(uint32_t channel, size_t nw)
{
    uint32_t window[LONGEST];
    uint16_t samples[LONGEST];
    quiet(window, nw);
    if (any(4) > 0)
        pulse_behind(window, nw, nw / 8, 300 + any(2200));
    if (any(3) == 0)
        pulse_behind(window, nw, nw / 2, any(8) == 0 ? 6000 : 300 + any(1200));
    convert(window, nw, samples);
    return fadc250_post(state, FADC250_STATE, store, CHANNELS * nw, channel, samples, nw);
}

/* An event; not every channel has a window. Answers the first refusal. */
static uint32_t event(uint32_t number, size_t nw)
{
    uint32_t refused = fadc250_open_event(state, FADC250_STATE, number, UINT64_C(250000000) * number);
    for (uint32_t channel = 0; refused == 0 && channel < CHANNELS; channel++)
        if (any(5) > 0)
            refused = post(channel, nw);
    return refused ? refused : fadc250_close(state, FADC250_STATE, store, CHANNELS * nw, words, ROOM);
}

/* The block; answers its length, or (refusal << 32). */
static uint64_t block(uint32_t events)
{
    uint32_t refused = fadc250_set_up(settings, FADC250_SETTINGS, state, FADC250_STATE);
    if (refused == 0)
        refused = fadc250_open_block(state, FADC250_STATE, words, ROOM, 1, events);
    for (uint32_t number = 1; refused == 0 && number <= events; number++)
        refused = event(number, settings[FADC250_NW]);
    return refused ? (uint64_t)refused << 32 : fadc250_finish(state, FADC250_STATE, words, ROOM);
}

static int write_words(size_t length)
{
    for (size_t i = 0; i < 4 * length; i++)
        putchar(words[i / 4] >> (24 - 8 * (i % 4)) & 255);
    return fflush(stdout) == 0 && !ferror(stdout);
}

int main(int count, char **arguments)
{
    if (count != 4) {
        fprintf(stderr, "usage: pulses MODE NW EVENTS\n");
        return 2;
    }
    settings[FADC250_MODE] = strtoul(arguments[1], NULL, 10);
    settings[FADC250_NW] = strtoul(arguments[2], NULL, 10);
    for (int channel = 0; channel < CHANNELS; channel++)
        settings[FADC250_THRESHOLDS + channel] = 300;
    uint64_t length = block((uint32_t)strtoul(arguments[3], NULL, 10));
    if (length >> 32 != 0) {
        fprintf(stderr, "pulses: refused %u\n", (unsigned)(length >> 32));
        return 1;
    }
    if (!write_words((size_t)length)) {
        perror("pulses");
        return 1;
    }
    return 0;
}
