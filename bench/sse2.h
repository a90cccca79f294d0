/* The inner loops by hand, 16 bytes at a time. See plain.h for what each answers. */
#include <emmintrin.h>

#include "words.h"

static inline __m128i load(const void *from)
{
    return _mm_loadu_si128(from);
}

static inline __m128i either(__m128i a, __m128i b)
{
    return _mm_or_si128(a, b);
}

/* The "or" of the eight 16-bit numbers. */
static inline uint16_t fold(__m128i v)
{
    v = either(v, _mm_srli_si128(v, 8));
    v = either(v, _mm_srli_si128(v, 4));
    v = either(v, _mm_srli_si128(v, 2));
    return (uint16_t)_mm_extract_epi16(v, 0);
}

/* The last eight overlap those before: a sample may well be looked at twice. */
static inline bool samples_ok(const uint16_t *samples, size_t n)
{
    uint16_t all = 0;
    size_t i = 0;
    if (n < 8) {
        for (; i < n; i++)
            all |= samples[i];
        return all <= MOST_SAMPLE;
    }
    __m128i a = load(samples + n - 8), b = a;
    for (; i + 32 <= n; i += 32) {
        a = either(a, either(load(samples + i), load(samples + i + 8)));
        b = either(b, either(load(samples + i + 16), load(samples + i + 24)));
    }
    for (; i + 8 <= n; i += 8)
        a = either(a, load(samples + i));
    return fold(either(a, b)) <= MOST_SAMPLE;
}

static inline __m128i amplitudes(const uint16_t *samples)
{
    return _mm_and_si128(load(samples), _mm_set1_epi16(AMPLITUDE));
}

/* A bit for each of 16 samples: it is over. */
static inline uint32_t over_mask(const uint16_t *samples, __m128i threshold)
{
    const __m128i low = _mm_cmpgt_epi16(amplitudes(samples), threshold);
    const __m128i high = _mm_cmpgt_epi16(amplitudes(samples + 8), threshold);
    return (uint32_t)_mm_movemask_epi8(_mm_packs_epi16(low, high));
}

/* One of 32 samples is over: their greatest is. */
static inline bool any_over(const uint16_t *samples, __m128i threshold)
{
    const __m128i low = _mm_max_epi16(amplitudes(samples), amplitudes(samples + 8));
    const __m128i high = _mm_max_epi16(amplitudes(samples + 16), amplitudes(samples + 24));
    return _mm_movemask_epi8(_mm_cmpgt_epi16(_mm_max_epi16(low, high), threshold)) != 0;
}

/* 16 samples, as pulses are often near, then 32 at a time while none is over. The last 16 overlap those before, which
   are shifted out. */
static inline size_t first_over(const uint16_t *samples, size_t from, size_t n, uint32_t threshold)
{
    const __m128i limit = _mm_set1_epi16((short)threshold);
    size_t i = from;
    while (i + 16 <= n) {
        const uint32_t over = over_mask(samples + i, limit);
        if (over != 0)
            return i + (size_t)__builtin_ctz(over);
        i += 16;
        while (i + 32 <= n && !any_over(samples + i, limit))
            i += 32;
    }
    if (n >= 16 && i < n) {
        const uint32_t over = over_mask(samples + n - 16, limit) >> (i + 16 - n);
        return over != 0 ? i + (size_t)__builtin_ctz(over) : n;
    }
    while (i < n && amplitude(samples[i]) <= threshold)
        i++;
    return i;
}

/* Few samples behind a pulse are still over: they are passed one by one. */
static inline size_t first_start(const uint16_t *samples, size_t from, size_t n, uint32_t threshold)
{
    while (from < n && amplitude(samples[from]) > threshold)
        from++;
    return first_over(samples, from, n, threshold);
}

static inline uint32_t sum_of(const uint16_t *samples, size_t n)
{
    const __m128i bits = _mm_set1_epi16(AMPLITUDE), ones = _mm_set1_epi16(1);
    __m128i sums = _mm_setzero_si128();
    size_t i = 0;
    for (; i + 8 <= n; i += 8)
        sums = _mm_add_epi32(sums, _mm_madd_epi16(amplitudes(samples + i), ones));
    if (i + 4 <= n) {
        const __m128i four = _mm_loadl_epi64((const void *)(samples + i));
        sums = _mm_add_epi32(sums, _mm_madd_epi16(_mm_and_si128(four, bits), ones));
        i += 4;
    }
    sums = _mm_add_epi32(sums, _mm_srli_si128(sums, 8));
    sums = _mm_add_epi32(sums, _mm_srli_si128(sums, 4));
    uint32_t sum = (uint32_t)_mm_cvtsi128_si32(sums);
    for (; i < n; i++)
        sum += amplitude(samples[i]);
    return sum;
}

/* Eight channels of a tally, in the registers. What is over is all ones. */
struct half {
    __m128i threshold, before, edges, seen;
};

static inline struct half half_of(const struct tally *tally, size_t first)
{
    const struct half half = {load(tally->threshold + first), load(tally->before + first), load(tally->edges + first),
                              load(tally->seen + first)};
    return half;
}

static inline void put_half(const struct half *half, struct tally *tally, size_t first)
{
    _mm_storeu_si128((__m128i *)(tally->before + first), half->before);
    _mm_storeu_si128((__m128i *)(tally->edges + first), half->edges);
    _mm_storeu_si128((__m128i *)(tally->seen + first), half->seen);
}

/* Of one frame. Taking away all ones adds one. */
static inline void count_half(struct half *half, const uint16_t *samples)
{
    const __m128i over = _mm_cmpgt_epi16(amplitudes(samples), half->threshold);
    half->seen = either(half->seen, load(samples));
    half->edges = _mm_sub_epi16(half->edges, _mm_andnot_si128(half->before, over));
    half->before = over;
}

/* Which channels are over in one of eight frames: their greatest is. */
static inline __m128i over_in_eight(struct half *half, const uint16_t *samples)
{
    __m128i top = _mm_setzero_si128();
    for (size_t i = 0; i < 8; i++) {
        half->seen = either(half->seen, load(samples + CHANNELS * i));
        top = _mm_max_epi16(top, amplitudes(samples + CHANNELS * i));
    }
    return _mm_cmpgt_epi16(top, half->threshold);
}

static inline bool none(__m128i low, __m128i high)
{
    return _mm_movemask_epi8(either(low, high)) == 0;
}

/* Eight frames at a time. Behind a frame in which no channel was over the next eight are mostly as quiet. */
static inline void count_frames(const uint16_t *frames, size_t count, struct tally *tally)
{
    struct half low = half_of(tally, 0), high = half_of(tally, 8);
    for (size_t i = 0; i < count;) {
        const uint16_t *at = frames + CHANNELS * i;
        const size_t end = least(i + 8, count);
        if (end == i + 8 && none(low.before, high.before) &&
            none(over_in_eight(&low, at), over_in_eight(&high, at + 8))) {
            i = end;
            continue;
        }
        for (; i < end; i++) {
            count_half(&low, frames + CHANNELS * i);
            count_half(&high, frames + CHANNELS * i + 8);
        }
    }
    put_half(&low, tally, 0);
    put_half(&high, tally, 8);
}

/* A word of memory holds the second sample above the first: the halves change places. */
static inline void put_four_pairs(const uint16_t *samples, uint32_t *to)
{
    const __m128i swapped = _mm_shufflehi_epi16(_mm_shufflelo_epi16(load(samples), 0xB1), 0xB1);
    _mm_storeu_si128((__m128i *)to, swapped);
}

static inline void put_whole_pairs(const uint16_t *samples, size_t pairs, uint32_t *to)
{
    size_t i = 0;
    for (; i + 8 <= pairs; i += 8) {
        put_four_pairs(samples + 2 * i, to + i);
        put_four_pairs(samples + 2 * i + 8, to + i + 4);
    }
    if (i + 4 <= pairs) {
        put_four_pairs(samples + 2 * i, to + i);
        i += 4;
    }
    for (; i < pairs; i++)
        to[i] = pair(samples[2 * i], samples[2 * i + 1]);
}

/* How many words from the first on are good, by the mask of their 16 bytes. */
static inline size_t leading(uint32_t good)
{
    return (size_t)__builtin_ctz(~good) / 4;
}

/* The bytes are big-endian: they are left as they stand, and the masks are turned. */
static inline uint32_t whole_pair_mask(__m128i four)
{
    const __m128i zero_bits = _mm_set1_epi32((int)__builtin_bswap32(PAIR_ZERO));
    return (uint32_t)_mm_movemask_epi8(_mm_cmpeq_epi32(_mm_and_si128(four, zero_bits), _mm_setzero_si128()));
}

static inline size_t count_few_pairs(const uint8_t *bytes, size_t most)
{
    size_t i = 0;
    while (i + 4 <= most && whole_pair_mask(load(bytes + 4 * i)) == 0xFFFF)
        i += 4;
    while (i < most && (word_at(bytes, i) & PAIR_ZERO) == 0)
        i++;
    return i;
}

/* Of four words or more: one "or" over all and one test. The last four overlap those before. */
static inline bool are_whole_pairs(const uint8_t *bytes, size_t n)
{
    __m128i all = load(bytes + 4 * (n - 4));
    size_t i = 0;
    for (; i + 16 <= n; i += 16) {
        const uint8_t *at = bytes + 4 * i;
        all = either(all, either(either(load(at), load(at + 16)), either(load(at + 32), load(at + 48))));
    }
    for (; i + 4 <= n; i += 4)
        all = either(all, load(bytes + 4 * i));
    return whole_pair_mask(all) == 0xFFFF;
}

static inline size_t count_whole_pairs(const uint8_t *bytes, size_t most)
{
    return most >= 4 && are_whole_pairs(bytes, most) ? most : count_few_pairs(bytes, most);
}

/* Four words that begin with this kind and are zero in these bits. */
static inline __m128i are(__m128i words, uint32_t kind, uint32_t zero_bits)
{
    const __m128i looked_at = _mm_set1_epi32((int)__builtin_bswap32(0xF8000000u | zero_bits));
    const __m128i wanted = _mm_set1_epi32((int)__builtin_bswap32(kind << 27));
    return _mm_cmpeq_epi32(_mm_and_si128(words, looked_at), wanted);
}

static inline size_t count_short_items(const uint8_t *bytes, size_t most)
{
    size_t i = 0;
    for (; i + 4 <= most; i += 4) {
        const __m128i four = load(bytes + 4 * i);
        const __m128i items = either(either(are(four, INTEGRAL, 0), are(four, PEDESTAL, 0)),
                                     are(four, TIME, TIME_ZERO));
        const uint32_t good = (uint32_t)_mm_movemask_epi8(items);
        if (good != 0xFFFF)
            return i + leading(good);
    }
    while (i < most && is_short_item(word_at(bytes, i)))
        i++;
    return i;
}
