/* What the header promises, in C and C++: its own functions and sizes, NULL with the length 0 for every array of every
   call, the places of what is counted, and the ways out of a block. Prints each refusal with its text, and whatever is
   not as promised. */
#include <fadc250.h>
#include <stdio.h>
#include <string.h>

uint64_t one_block(uint32_t *words, size_t w);
#include "one_block.h" /* the example at the header's end */

#define ROOM FADC250_BLOCK_WORDS(2)
#define REFUSED(number, place) (((uint64_t)(number) << 32) + (place))

static uint64_t settings[FADC250_SETTINGS];
static uint64_t state[FADC250_STATE];
static uint64_t copy[FADC250_STATE];
static uint16_t store[FADC250_STORE(1)];
static uint32_t words[ROOM];
static const uint16_t window[1] = {200};
static int wrong;

static void expect(const char *what, uint64_t is, uint64_t should)
{
    if (is != should) {
        printf("%s: %lu, not %lu\n", what, (unsigned long)is, (unsigned long)should);
        wrong = 1;
    }
}

/* The texts are those of the man page, which the caller compares. */
static void texts(void)
{
    for (unsigned i = 0; i <= FADC250_BAD_ARRAY; i++)
        if (strcmp(fadc250_text(i), "unknown") != 0)
            printf("%2u  %s\n", i, fadc250_text(i));
    expect("text past the last", (uint64_t)strcmp(fadc250_text(65), "unknown"), 0);
    expect("text of 2^32", (uint64_t)strcmp(fadc250_text((uint64_t)1 << 32), "unknown"), 0);
}

static void sizes(void)
{
    char version[16];
    sprintf(version, "%d.%d", FADC250_VERSION_MAJOR, FADC250_VERSION_MINOR);
    expect("version", (uint64_t)strcmp(version, FADC250_VERSION), 0);
    expect("words of 255 events", FADC250_BLOCK_WORDS(200 + 55), 3077856);
    expect("store of 500", FADC250_STORE(499 + 1), 8000);
    expect("a state", FADC250_STATE, 72);
    expect("its settings", FADC250_STATE_SETTINGS, FADC250_WORDS + 1 + 16 + 4 + FADC250_SCALERS);
    expect("the latched counts", FADC250_SCALERS, FADC250_FRAME + 2);
}

/* Each setting has its own place as its value. */
static void named_settings(void)
{
    static struct fadc250_settings named;
    named.mode = FADC250_MODE;
    named.nw = FADC250_NW;
    named.pl = FADC250_PL;
    named.nsb = FADC250_NSB;
    named.nsa = FADC250_NSA;
    named.limit = FADC250_LIMIT;
    named.slot = FADC250_SLOT;
    named.parameters = FADC250_PARAMETERS;
    named.times = FADC250_TIMES;
    named.multiple = FADC250_MULTIPLE;
    for (unsigned c = 0; c < 16; c++)
        named.thresholds[c] = FADC250_THRESHOLDS + c;
    fadc250_put_settings(&named, settings);
    for (size_t i = 0; i < FADC250_SETTINGS; i++)
        expect("setting", settings[i], i);
}

static void bytes(void)
{
    const uint32_t two[2] = {0x81440101, 0x00FF7F80};
    uint32_t back[3] = {0, 0, 5};
    uint8_t eight[9] = {0, 0, 0, 0, 0, 0, 0, 0, 9};
    expect("bytes that do not fit", fadc250_to_bytes(two, 2, eight, 7), 8);
    expect("stay", eight[0], 0);
    expect("bytes", fadc250_to_bytes(two, 2, eight, 9), 8);
    expect("the first", eight[0], 0x81);
    expect("the last", eight[7], 0x80);
    expect("behind them", eight[8], 9);
    expect("words that do not fit", fadc250_from_bytes(eight, 8, back, 1), 2);
    expect("stay", back[0], 0);
    expect("words", fadc250_from_bytes(eight, 9, back, 3), 2);
    expect("the first", back[0], two[0]);
    expect("the second", back[1], two[1]);
    expect("behind them", back[2], 5);
    expect("no words", fadc250_to_bytes(NULL, 0, NULL, 0), 0);
    expect("no bytes", fadc250_from_bytes(NULL, 0, NULL, 0), 0);
}

/* Every call with nothing at all. */
static void nothing(void)
{
    expect("set up", fadc250_set_up(NULL, 0, NULL, 0), FADC250_BAD_SETTING);
    expect("open block", fadc250_open_block(NULL, 0, NULL, 0, 1, 1), FADC250_BAD_STATE);
    expect("open event", fadc250_open_event(NULL, 0, 1, 1), FADC250_BAD_STATE);
    expect("post", fadc250_post(NULL, 0, NULL, 0, 1, NULL, 0), FADC250_BAD_STATE);
    expect("close", fadc250_close(NULL, 0, NULL, 0, NULL, 0), FADC250_BAD_STATE);
    expect("close with scalers", fadc250_close_with_scalers(NULL, 0, NULL, 0, NULL, 0), FADC250_BAD_STATE);
    expect("finish", fadc250_finish(NULL, 0, NULL, 0), REFUSED(FADC250_BAD_STATE, 0));
    expect("count", fadc250_count(NULL, 0, NULL, 0), FADC250_BAD_STATE);
    expect("latch", fadc250_latch(NULL, 0), FADC250_BAD_STATE);
    expect("reset", fadc250_reset(NULL, 0), FADC250_BAD_STATE);
    expect("find", fadc250_find(NULL, 0, 1, NULL, 0, NULL, 0), FADC250_BAD_SETTING);
    expect("check", fadc250_check(NULL, 0), REFUSED(FADC250_ENDS_EARLY, 0));
    expect("next", fadc250_next(NULL, 0, NULL, 0, NULL, 0), REFUSED(FADC250_BAD_ARRAY, 0));
    expect("samples", fadc250_samples(NULL, 0, 0, 0, NULL, 0), 0);
    expect("list", fadc250_list(NULL, 0, NULL, 0), 0);
}

/* Mode 1, a sample a window, two time words. */
static void small_settings(void)
{
    static struct fadc250_settings named;
    named.mode = 1;
    named.nw = 1;
    named.nsa = 1;
    named.limit = 1;
    named.times = 2;
    named.multiple = 1;
    named.thresholds[3] = 100;
    fadc250_put_settings(&named, settings);
}

static uint32_t open_block(void)
{
    return fadc250_open_block(state, FADC250_STATE, words, ROOM, 1, 2);
}

static uint32_t open_event(void)
{
    return fadc250_open_event(state, FADC250_STATE, 9, 256);
}

static uint32_t post(void)
{
    return fadc250_post(state, FADC250_STATE, store, FADC250_STORE(1), 3, window, 1);
}

static uint32_t close_event(void)
{
    return fadc250_close(state, FADC250_STATE, store, FADC250_STORE(1), words, ROOM);
}

static uint32_t close_with_scalers(void)
{
    return fadc250_close_with_scalers(state, FADC250_STATE, store, FADC250_STORE(1), words, ROOM);
}

/* Each array in turn with nothing, where the call looks further than that. */
static void nothing_else(void)
{
    uint32_t scan[FADC250_SCAN] = {0, 0, 0, 0, 0, 0};
    uint64_t record[FADC250_RECORD] = {1, 1, 1, 1, 1, 1};
    expect("no state", fadc250_set_up(settings, FADC250_SETTINGS, NULL, 0), FADC250_BAD_ARRAY);
    expect("set up", fadc250_set_up(settings, FADC250_SETTINGS, state, FADC250_STATE), 0);
    expect("no words to open", fadc250_open_block(state, FADC250_STATE, NULL, 0, 1, 2), FADC250_SHORT_WORDS);
    expect("open block", open_block(), 0);
    expect("open event", open_event(), 0);
    expect("no store", fadc250_post(state, FADC250_STATE, NULL, 0, 3, window, 1), FADC250_SHORT_STORE);
    expect("no window", fadc250_post(state, FADC250_STATE, store, FADC250_STORE(1), 3, NULL, 0), FADC250_BAD_LENGTH);
    expect("post", post(), 0);
    expect("no frames", fadc250_count(state, FADC250_STATE, NULL, 0), 0);
    expect("no store to close", fadc250_close(state, FADC250_STATE, NULL, 0, words, ROOM), FADC250_SHORT_STORE);
    expect("no words", fadc250_close(state, FADC250_STATE, store, FADC250_STORE(1), NULL, 0), FADC250_SHORT_WORDS);
    expect("no window to find", fadc250_find(settings, FADC250_SETTINGS, 3, NULL, 0, NULL, 0), FADC250_BAD_LENGTH);
    expect("no room", fadc250_find(settings, FADC250_SETTINGS, 3, window, 1, NULL, 0), FADC250_BAD_ARRAY);
    expect("no block", fadc250_next(scan, FADC250_SCAN, NULL, 0, record, FADC250_RECORD),
           REFUSED(FADC250_ENDS_EARLY, 0));
    expect("no record", fadc250_next(scan, FADC250_SCAN, words, 1, NULL, 0), REFUSED(FADC250_BAD_ARRAY, 0));
    expect("zeros", record[0] + record[FADC250_RECORD - 1], 0);
}

/* The sum of so many numbers of the state, each of which has another weight. */
static uint64_t weighed(size_t place, size_t count)
{
    uint64_t sum = 0;
    for (size_t i = 0; i < count; i++)
        sum += (i + 1) * state[place + i];
    return sum;
}

/* What two frames leave at the places of an idle state: channel 3 is over in both, channel 5 in the second. A frame
   and a half are refused. */
static void count_frames(void)
{
    uint16_t frames[2 * FADC250_FRAME] = {0};
    frames[3] = frames[FADC250_FRAME + 3] = 101;
    frames[FADC250_FRAME + 5] = 1;
    expect("set up", fadc250_set_up(settings, FADC250_SETTINGS, state, FADC250_STATE), 0);
    expect("all zero", weighed(0, FADC250_STATE_SETTINGS), 0);
    expect("a frame and a half", fadc250_count(state, FADC250_STATE, frames, 24), FADC250_BAD_FRAMES);
    expect("count", fadc250_count(state, FADC250_STATE, frames, 2 * FADC250_FRAME), 0);
    expect("channels 3 and 5", weighed(FADC250_COUNTS, 16), 4 + 6);
    expect("part", state[FADC250_PART], 2);
    expect("over", state[FADC250_OVER], 1 << 3 | 1 << 5);
    state[FADC250_PART] = 511;
    expect("the 512th", fadc250_count(state, FADC250_STATE, frames, FADC250_FRAME), 0);
    expect("timer", state[FADC250_TIMER], 1);
    expect("latch", fadc250_latch(state, FADC250_STATE), 0);
    expect("latched", weighed(FADC250_LATCHED, FADC250_SCALERS), 4 + 6 + 17);
    expect("reset", fadc250_reset(state, FADC250_STATE), 0);
    expect("running", weighed(FADC250_COUNTS, FADC250_PART + 1 - FADC250_COUNTS), 0);
    expect("still over", state[FADC250_OVER], 1 << 3);
    expect("still latched", weighed(FADC250_LATCHED, FADC250_SCALERS), 4 + 6 + 17);
    state[FADC250_OVER] = 1 << 16;
    expect("no such channel", fadc250_latch(state, FADC250_STATE), FADC250_BAD_STATE);
    state[FADC250_OVER] = 0;
}

/* From what count_frames left: a block of two events, of which the second ends with the scalers. The record says where
   they stand, and a scan within them reads a word. */
static void scalers(void)
{
    uint32_t scan[FADC250_SCAN] = {0, 0, 0, 0, 0, 0};
    uint64_t record[FADC250_RECORD] = {0, 0, 0, 0, 0, 0};
    expect("open block", open_block(), 0);
    expect("open event", open_event(), 0);
    expect("close", close_event(), 0);
    expect("open the second", open_event(), 0);
    expect("triggers", state[FADC250_TRIGGERS], 2);
    expect("latch", fadc250_latch(state, FADC250_STATE), 0);
    expect("close it with scalers", close_with_scalers(), 0);
    expect("finish", fadc250_finish(state, FADC250_STATE, words, ROOM), 27);
    expect("kept", state[FADC250_TRIGGERS] + state[FADC250_LATCHED + 17], 4);
    for (int i = 0; i < 6; i++) /* block header, twice event header and time, scalers */
        fadc250_next(scan, FADC250_SCAN, words, 27, record, FADC250_RECORD);
    expect("scalers", record[FADC250_KIND], FADC250_KIND_SCALERS);
    expect("how many", record[FADC250_FIELD_COUNT], FADC250_SCALERS);
    expect("where", record[FADC250_FIELD_PLACE], 8);
    expect("the last of them", words[record[FADC250_FIELD_PLACE] + 17], 2);
    expect("stage", scan[FADC250_SCAN_STAGE], FADC250_STAGE_SCALERS);
    expect("none to come", scan[FADC250_SCAN_FIRST], 0);
    scan[FADC250_SCAN_PLACE] = 25;
    scan[FADC250_SCAN_FIRST] = 1;
    expect("a word", fadc250_next(scan, FADC250_SCAN, words, 27, record, FADC250_RECORD), 26);
    expect("alone", record[FADC250_KIND], FADC250_KIND_SCALER);
    expect("its value", record[FADC250_FIELD_VALUE], 2);
}

/* A count is answered with and without room; a module empty is a block of one word. */
static void counts(void)
{
    const uint8_t empty[4] = {0xF0, 0, 0, 0};
    const uint32_t pairs[2] = {0x000A0014, 0x001E2000};
    uint16_t samples[4] = {0, 0, 0, 9};
    uint8_t text[8];
    expect("module empty", fadc250_check(empty, 4), 1);
    expect("characters", fadc250_list(empty, 4, NULL, 0), 8);
    expect("list", fadc250_list(empty, 4, text, 8), 8);
    expect("its line", (uint64_t)memcmp(text, "empty\t0\n", 8), 0);
    expect("samples", fadc250_samples(pairs, 2, 0, 2, NULL, 0), 3);
    expect("and written", fadc250_samples(pairs, 2, 0, 2, samples, 4), 3);
    expect("the last", samples[2], 30);
    expect("behind it", samples[3], 9);
    expect("pairs past the words", fadc250_samples(pairs, 2, 1, 2, samples, 4), 0);
}

/* From the event that is now open and posted: back to a copy, and on without posts. */
static void give_up(void)
{
    expect("close", close_event(), 0);
    memcpy(copy, state, sizeof state);
    expect("open the second", open_event(), 0);
    expect("post it", post(), 0);
    expect("close it", close_event(), 0);
    memcpy(state, copy, sizeof state);
    expect("open it again", open_event(), 0);
    expect("close it empty", close_event(), 0);
    expect("finish", fadc250_finish(state, FADC250_STATE, words, ROOM), 10);
    memcpy(copy, state, sizeof state);
    expect("the next block", open_block(), 0);
    memcpy(state, copy, sizeof state);
    expect("and again", open_block(), 0);
    expect("set up over it", fadc250_set_up(settings, FADC250_SETTINGS, state, FADC250_STATE), 0);
    expect("a block", open_block(), 0);
}

int main(void)
{
    texts();
    sizes();
    named_settings();
    bytes();
    nothing();
    small_settings();
    nothing_else();
    give_up();
    count_frames();
    scalers();
    expect("the example", one_block(words, ROOM), 6);
    counts();
    return wrong;
}
