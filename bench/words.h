/* What the two rivals share about samples and words: document 01's numbers, and how bytes become a word. */
#ifndef WORDS_H
#define WORDS_H

#include <stdbool.h>
#include <stddef.h>
#include <stdint.h>
#include <string.h>

/* A defining word by its highest five bits: bit 31 and the type. A continuation word has less than 16 there. */
enum kind {
    BLOCK_HEADER = 16,
    TRAILER = 17,
    EVENT_HEADER = 18,
    TRIGGER_TIME = 19,
    WINDOW = 20,
    PULSE_RAW = 22,
    INTEGRAL = 23,
    TIME = 24,
    PEDESTAL = 26,
    SCALERS = 28,
    MODULE_EMPTY = 30,
    FILLER = 31
};

enum {
    CHANNELS = 16,
    MOST_SAMPLE = 8191,
    AMPLITUDE = 0xFFF,
    SECOND_NOT_VALID = 1 << 13,
    TIME_ZERO = 0xF << 15
};

/* Bits 31 to 29 and 15 to 13: all clear in a pair of two samples. */
#define PAIR_ZERO 0xE000E000u

static inline uint32_t kind_of(uint32_t word)
{
    return word >> 27;
}

static inline bool is_continuation(uint32_t word)
{
    return word >> 31 == 0;
}

static inline uint32_t word_at(const uint8_t *bytes, size_t place)
{
    uint32_t word;
    memcpy(&word, bytes + 4 * place, sizeof word);
    return __builtin_bswap32(word);
}

/* An item of one word whose zero bits are zero: an integral, a time or a pedestal. */
static inline bool is_short_item(uint32_t word)
{
    const uint32_t kinds = 1u << INTEGRAL | 1u << TIME | 1u << PEDESTAL;
    const uint32_t kind = kind_of(word);
    return (kinds >> kind & 1) != 0 && (kind != TIME || (word & TIME_ZERO) == 0);
}

static inline uint32_t amplitude(uint16_t sample)
{
    return sample & AMPLITUDE;
}

/* What frames are counted into, a channel each: its threshold; all ones if it was over in the frame before; how often
   it came to be over, which 65535 frames cannot make too many; and every bit that one of its samples had. */
struct tally {
    int16_t threshold[CHANNELS], before[CHANNELS];
    uint16_t edges[CHANNELS], seen[CHANNELS];
};

static inline uint32_t pair(uint16_t first, uint16_t second)
{
    return (uint32_t)first << 16 | second;
}

static inline size_t least(size_t a, size_t b)
{
    return a < b ? a : b;
}

#endif
