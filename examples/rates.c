/* Rates beside the pulses: frames are counted, the counts latched and written behind an event, and read back from the
   block. */
#include <fadc250.h>
#include <inttypes.h>
#include <stdio.h>

#define NW 4
#define FRAMES 1024
#define ROOM FADC250_BLOCK_WORDS(1)
#define COUNT(array) (sizeof(array) / sizeof((array)[0]))

static const struct fadc250_settings named = {
    .mode = 1, .nw = NW, .nsa = 1, .limit = 1, .slot = 5, .multiple = 1, .thresholds = {[3] = 100, [15] = 100}};

static uint64_t settings[FADC250_SETTINGS];
static uint64_t state[FADC250_STATE];
static uint16_t store[FADC250_STORE(NW)];
static uint16_t frames[FRAMES * FADC250_FRAME];
static uint32_t words[ROOM];

/* Prints a refusal; answers whether there is none. */
static int accepted(const char *call, uint64_t number)
{
    if (number != FADC250_ACCEPTED)
        printf("%s: refused %" PRIu64 ", %s\n", call, number, fadc250_text(number));
    return number == FADC250_ACCEPTED;
}

/* Channel 3 is over in one frame of every 100, channel 15 in the upper half of every 64. The others stay at 0. */
static void fill(void)
{
    for (size_t i = 0; i < FRAMES; i++) {
        frames[FADC250_FRAME * i + 3] = i % 100 == 99 ? 300 : 50;
        frames[FADC250_FRAME * i + 15] = i % 64 < 32 ? 20 : 120;
    }
}

/* The frames come in two parts, as they would while the events go on. A latch leaves the counts running; a reset sets
   them to 0 for the next latch. */
static int count(void)
{
    const size_t half = FRAMES / 2 * FADC250_FRAME;
    return accepted("count", fadc250_count(state, COUNT(state), frames, half)) &&
           accepted("count", fadc250_count(state, COUNT(state), frames + half, half)) &&
           accepted("latch", fadc250_latch(state, COUNT(state))) &&
           accepted("reset", fadc250_reset(state, COUNT(state)));
}

/* A block of one event without a window, which ends with the latched counts; answers its length, 0 if a call is
   refused. */
static size_t write_block(void)
{
    if (!accepted("set up", fadc250_set_up(settings, COUNT(settings), state, COUNT(state))) ||
        !accepted("open block", fadc250_open_block(state, COUNT(state), words, ROOM, 1, 1)) ||
        !accepted("open event", fadc250_open_event(state, COUNT(state), 9, 256)) || !count() ||
        !accepted("close", fadc250_close_with_scalers(state, COUNT(state), store, COUNT(store), words, ROOM)))
        return 0;
    uint64_t answer = fadc250_finish(state, COUNT(state), words, ROOM);
    return accepted("finish", answer >> 32) ? (size_t)answer : 0;
}

/* The counts stand in the block's words, at the place that the record gives. The library writes FADC250_SCALERS of
   them; another's block may have up to 63. */
static void print_scalers(const uint64_t *record)
{
    const uint32_t *scalers = words + record[FADC250_FIELD_PLACE];
    for (uint64_t i = 0; i < record[FADC250_FIELD_COUNT]; i++) {
        if (i < FADC250_FRAME)
            printf("channel %2" PRIu64 ": %" PRIu32 "\n", i, scalers[i]);
        else if (i < FADC250_SCALERS)
            printf("%s: %" PRIu32 "\n", i == FADC250_FRAME ? "groups of 512 frames" : "triggers", scalers[i]);
    }
}

int main(void)
{
    uint32_t scan[FADC250_SCAN] = {0};
    uint64_t record[FADC250_RECORD] = {0};
    fill();
    fadc250_put_settings(&named, settings);
    size_t length = write_block();
    while (length != 0 && record[FADC250_KIND] != FADC250_KIND_END) {
        uint64_t answer = fadc250_next(scan, COUNT(scan), words, length, record, COUNT(record));
        if (!accepted("next", answer >> 32))
            return 1;
        if (record[FADC250_KIND] == FADC250_KIND_SCALERS)
            print_scalers(record);
    }
    /* a frame has sixteen samples, so that this is refused */
    accepted("count", fadc250_count(state, COUNT(state), frames, FADC250_FRAME + 1));
    return length == 0;
}
