/* One block of one event, from set up to the check; then the finder, and a call that is refused. */
#include <fadc250.h>
#include <inttypes.h>
#include <stdio.h>

#define NW 16
#define ROOM FADC250_BLOCK_WORDS(1)
#define COUNT(array) (sizeof(array) / sizeof((array)[0]))

static const struct fadc250_settings named = {
    .mode = 7, .nw = NW, .pl = 20, .nsb = 2, .nsa = 5, .limit = 3, .slot = 5,
    .parameters = 1, .times = 2, .multiple = 2, .thresholds = {[3] = 100}};
static const uint16_t window[NW] = {10, 11, 12, 11, 10, 40, 120, 200, 180, 90, 60, 30, 12, 11, 10, 11};

static uint64_t settings[FADC250_SETTINGS];
static uint64_t state[FADC250_STATE];
static uint16_t store[FADC250_STORE(NW)];
static uint32_t words[ROOM];
static uint32_t found[FADC250_FOUND];
static uint8_t bytes[4 * ROOM];

/* Prints a refusal; answers whether there is none. */
static int accepted(const char *call, uint64_t number)
{
    if (number != FADC250_ACCEPTED)
        printf("%s: refused %" PRIu64 ", %s\n", call, number, fadc250_text(number));
    return number == FADC250_ACCEPTED;
}

/* Writes the block and answers its length, 0 if a call is refused. */
static size_t write_block(void)
{
    if (!accepted("set up", fadc250_set_up(settings, COUNT(settings), state, COUNT(state))) ||
        !accepted("open block", fadc250_open_block(state, COUNT(state), words, ROOM, 1, 1)) ||
        !accepted("open event", fadc250_open_event(state, COUNT(state), 9, 256)) ||
        !accepted("post", fadc250_post(state, COUNT(state), store, COUNT(store), 3, window, NW)) ||
        !accepted("close", fadc250_close(state, COUNT(state), store, COUNT(store), words, ROOM)))
        return 0;
    uint64_t answer = fadc250_finish(state, COUNT(state), words, ROOM);
    return accepted("finish", answer >> 32) ? (size_t)answer : 0;
}

/* Prints how many words a block has, or where it is refused and why. */
static void check(size_t n)
{
    uint64_t answer = fadc250_check(bytes, n);
    uint64_t refusal = answer >> 32;
    if (refusal == FADC250_ACCEPTED)
        printf("check: %" PRIu64 " words\n", answer);
    else
        printf("check: refused %" PRIu64 " at word %" PRIu32 ", %s\n",
               refusal, (uint32_t)answer, fadc250_text(refusal));
}

/* Prints the first pulse of the window. */
static void find(void)
{
    const uint32_t *pulse = found + 1;
    if (!accepted("find", fadc250_find(settings, COUNT(settings), 3, window, NW, found, COUNT(found))))
        return;
    printf("find: %" PRIu32 " pulse, TC %" PRIu32 ", set %" PRIu32 "-%" PRIu32 ", sum %" PRIu32,
           found[0], pulse[FADC250_PULSE_TC], pulse[FADC250_PULSE_FIRST], pulse[FADC250_PULSE_LAST],
           pulse[FADC250_PULSE_SUM]);
    printf(", time %" PRIu32 " + %" PRIu32 "/64, rule %" PRIu32 "\n",
           pulse[FADC250_PULSE_COARSE], pulse[FADC250_PULSE_FINE], pulse[FADC250_PULSE_RULE]);
}

int main(void)
{
    fadc250_put_settings(&named, settings);
    size_t length = write_block();
    if (length == 0)
        return 1;
    for (size_t i = 0; i < length; i++)
        printf("%08" PRIX32 "%c", words[i], i + 1 < length ? ' ' : '\n');
    size_t n = fadc250_to_bytes(words, length, bytes, sizeof bytes);
    check(n);
    bytes[n - 5] = 10; /* the trailer counts one word too many */
    check(n);
    find();
    /* no event is open, so that this is refused */
    accepted("post", fadc250_post(state, COUNT(state), store, COUNT(store), 3, window, NW));
    return 0;
}
