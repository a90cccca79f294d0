/* The inner loops in plain C. What can end early does so at every sample or word; what cannot is left to the
   compiler, which makes vector code of it. */
#include "words.h"

/* None is over 8191. No early exit: almost every window is good, and so the loop becomes vector code. */
static inline bool samples_ok(const uint16_t *samples, size_t n)
{
    uint16_t all = 0;
    for (size_t i = 0; i < n; i++)
        all |= samples[i];
    return all <= MOST_SAMPLE;
}

/* The least i from `from` on that is over; n if there is none. */
static inline size_t first_over(const uint16_t *samples, size_t from, size_t n, uint32_t threshold)
{
    for (size_t i = from; i < n; i++)
        if (amplitude(samples[i]) > threshold)
            return i;
    return n;
}

/* The least i behind `from` that is over and whose neighbour before is not; n if there is none. So it is the first
   that is over behind the first that is not. */
static inline size_t first_start(const uint16_t *samples, size_t from, size_t n, uint32_t threshold)
{
    while (from < n && amplitude(samples[from]) > threshold)
        from++;
    return first_over(samples, from, n, threshold);
}

static inline uint32_t sum_of(const uint16_t *samples, size_t n)
{
    uint32_t sum = 0;
    for (size_t i = 0; i < n; i++)
        sum += amplitude(samples[i]);
    return sum;
}

/* Counts so many frames. No early exit: the channels of a frame become vector code. */
static inline void count_frames(const uint16_t *frames, size_t count, struct tally *into)
{
    struct tally tally = *into;
    for (size_t i = 0; i < count; i++)
        for (size_t c = 0; c < CHANNELS; c++) {
            const uint16_t sample = frames[CHANNELS * i + c];
            const int16_t over = (int16_t)(sample & AMPLITUDE) > tally.threshold[c] ? -1 : 0;
            tally.seen[c] |= sample;
            tally.edges[c] = (uint16_t)(tally.edges[c] - (over & ~tally.before[c]));
            tally.before[c] = over;
        }
    *into = tally;
}

static inline void put_whole_pairs(const uint16_t *samples, size_t pairs, uint32_t *to)
{
    for (size_t i = 0; i < pairs; i++)
        to[i] = pair(samples[2 * i], samples[2 * i + 1]);
}

/* How many of the words, from the first on, are pairs of two samples. */
static inline size_t count_whole_pairs(const uint8_t *bytes, size_t most)
{
    size_t i = 0;
    while (i < most && (word_at(bytes, i) & PAIR_ZERO) == 0)
        i++;
    return i;
}

/* The same where only a few are expected. */
static inline size_t count_few_pairs(const uint8_t *bytes, size_t most)
{
    return count_whole_pairs(bytes, most);
}

/* How many of the words, from the first on, are good items of one word. */
static inline size_t count_short_items(const uint8_t *bytes, size_t most)
{
    size_t i = 0;
    while (i < most && is_short_item(word_at(bytes, i)))
        i++;
    return i;
}
