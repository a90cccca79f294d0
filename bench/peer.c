/* Rivals for the bench: what a C programmer would write for speed from documents 01 and 02 and include/fadc250.h, with
   every refusal asked. Compiled twice: with the inner loops of plain.h as `plain_`, and with -DSSE2 those of sse2.h as
   `sse2_`. The settings and the state are used where they stand, as the host's numbers. */
#include "peer.h"

#include "../include/fadc250.h"

#ifdef SSE2
#include "sse2.h"
#define CALL(name) sse2_##name
#else
#include "plain.h"
#define CALL(name) plain_##name
#endif

enum phase { IDLE = 0, IN_BLOCK = 1, IN_EVENT = 2 };
enum { MOST_PULSES = 3, MOST_SUM = 524287, MOST_VMIN = 511, MOST_RAW_PAIRS = 250, MOST_WIDTH = 500 };
enum { MOST_BLOCK = 1023, MOST_EVENTS = 255, MOST_EVENT = 4194303 };
enum { GROUP = 512, CHUNK = 32768 };

#define MOST_TIME ((1ull << 48) - 1)

/* ---- Settings and state. */

static bool among(uint64_t number, uint64_t set)
{
    return number < 64 && (set >> number & 1) != 0;
}

/* A number from 1 to most: 0 becomes the greatest there is. */
static bool from_one(uint64_t number, uint64_t most)
{
    return number - 1 < most;
}

static bool settings_ok(const uint64_t *settings)
{
    const uint64_t modes = 1 << 1 | 1 << 2 | 1 << 3 | 1 << 4 | 1 << 7 | 1 << 8;
    const uint64_t multiples = 1 << 1 | 1 << 2 | 1 << 4;
    uint64_t thresholds = 0;
    for (size_t c = 0; c < CHANNELS; c++)
        thresholds |= settings[FADC250_THRESHOLDS + c];
    return thresholds <= 4095 && among(settings[FADC250_MODE], modes) && from_one(settings[FADC250_NW], 500) &&
           settings[FADC250_PL] <= 2047 && settings[FADC250_NSB] <= 511 && from_one(settings[FADC250_NSA], 511) &&
           from_one(settings[FADC250_LIMIT], MOST_PULSES) && settings[FADC250_SLOT] <= 31 &&
           settings[FADC250_PARAMETERS] <= 1 && settings[FADC250_TIMES] <= 2 &&
           among(settings[FADC250_MULTIPLE], multiples);
}

static bool open_event_ok(const uint64_t *state)
{
    return state[FADC250_CLOSED] < state[FADC250_EVENTS] && state[FADC250_EVENT] <= MOST_EVENT &&
           state[FADC250_TIME] <= MOST_TIME && state[FADC250_MARKS] < 1u << CHANNELS;
}

static bool no_event_ok(const uint64_t *state)
{
    return (state[FADC250_EVENT] | state[FADC250_TIME] | state[FADC250_MARKS]) == 0;
}

static bool block_ok(const uint64_t *state, const uint64_t *settings)
{
    const uint64_t closed = state[FADC250_CLOSED], words = state[FADC250_WORDS];
    return state[FADC250_BLOCK] <= MOST_BLOCK && from_one(state[FADC250_EVENTS], MOST_EVENTS) &&
           closed <= state[FADC250_EVENTS] && words <= 2 + FADC250_EVENT_WORDS * closed &&
           words >= 1 + settings[FADC250_PARAMETERS] + (1 + settings[FADC250_TIMES]) * closed;
}

static bool counts_ok(const uint64_t *state)
{
    uint64_t counts = state[FADC250_TIMER] | state[FADC250_TRIGGERS];
    for (size_t c = 0; c < CHANNELS; c++)
        counts |= state[FADC250_COUNTS + c];
    for (size_t i = 0; i < FADC250_SCALERS; i++)
        counts |= state[FADC250_LATCHED + i];
    return counts >> 32 == 0 && state[FADC250_PART] < GROUP && state[FADC250_OVER] < 1u << CHANNELS;
}

static bool state_ok(const uint64_t *state, size_t m)
{
    if (m != FADC250_STATE || !settings_ok(state + FADC250_STATE_SETTINGS) || !counts_ok(state))
        return false;
    switch (state[FADC250_PHASE]) {
    case IDLE:
        return no_event_ok(state) && (state[FADC250_BLOCK] | state[FADC250_EVENTS] | state[FADC250_CLOSED] |
                                      state[FADC250_WORDS]) == 0;
    case IN_BLOCK:
        return no_event_ok(state) && block_ok(state, state + FADC250_STATE_SETTINGS);
    case IN_EVENT:
        return open_event_ok(state) && block_ok(state, state + FADC250_STATE_SETTINGS);
    default:
        return false;
    }
}

/* ---- Finding pulses. Indices count from 0, the numbers of samples from 1: TC is the index of its sample plus 1. */

/* The place of the next pulse behind the one at `start`; NW if there is none. */
static inline size_t next_start(const uint64_t *settings, uint32_t threshold, const uint16_t *window, size_t start)
{
    const size_t nw = settings[FADC250_NW], neighbour = start + settings[FADC250_NSA];
    return neighbour < nw ? first_start(window, neighbour, nw, threshold) : nw;
}

/* The data set: from `first`, up to and without `end`. */
struct set {
    size_t first, end;
};

static inline struct set set_of(const uint64_t *settings, size_t start)
{
    const size_t nsb = settings[FADC250_NSB];
    const struct set set = {start > nsb ? start - nsb : 0,
                            least(start + settings[FADC250_NSA], settings[FADC250_NW])};
    return set;
}

struct timing {
    uint32_t coarse, fine, vmin, vpeak, rule;
};

/* The first sample behind which a lower one stands; NW if there is none. */
static inline size_t find_peak(const uint16_t *window, size_t start, size_t nw)
{
    for (size_t i = start + 1; i < nw; i++)
        if (amplitude(window[i]) < amplitude(window[i - 1]))
            return i - 1;
    return nw;
}

/* Rule 4. The search ends: one of the first four samples is not above their mean, and the mean is not above VMID. */
static inline struct timing interpolated(const uint16_t *window, size_t peak, uint32_t vmin)
{
    const uint32_t vpeak = amplitude(window[peak]), vmid = (vpeak + vmin) / 2;
    size_t i = peak - 1;
    while (amplitude(window[i]) > vmid)
        i--;
    const uint32_t low = amplitude(window[i]), high = amplitude(window[i + 1]);
    const struct timing timing = {(uint32_t)i + 1, 64 * (vmid - low) / (high - low), vmin, vpeak, 4};
    return timing;
}

/* `first` is the window's first pulse: one of the first four samples is over just if it is among them. */
static inline struct timing timing_of(const uint16_t *window, size_t nw, size_t first, size_t start)
{
    struct timing timing = {(uint32_t)start + 1, 0, 0, 0, 1};
    if (nw < 4 || first < 4)
        return timing;
    timing.vmin = (amplitude(window[0]) + amplitude(window[1]) + amplitude(window[2]) + amplitude(window[3])) / 4;
    timing.rule = 2;
    if (nw - (start + 1) < 5)
        return timing;
    const size_t peak = find_peak(window, start, nw);
    timing.rule = 3;
    return peak < nw ? interpolated(window, peak, timing.vmin) : timing;
}

static void answer_pulse(const uint64_t *settings, const uint16_t *window, size_t first, size_t start, uint32_t *out)
{
    const struct set set = set_of(settings, start);
    const struct timing timing = timing_of(window, settings[FADC250_NW], first, start);
    out[FADC250_PULSE_TC] = (uint32_t)start + 1;
    out[FADC250_PULSE_FIRST] = (uint32_t)set.first + 1;
    out[FADC250_PULSE_LAST] = (uint32_t)set.end;
    out[FADC250_PULSE_SUM] = sum_of(window + set.first, set.end - set.first);
    out[FADC250_PULSE_COARSE] = timing.coarse;
    out[FADC250_PULSE_FINE] = timing.fine;
    out[FADC250_PULSE_VMIN] = timing.vmin;
    out[FADC250_PULSE_VPEAK] = timing.vpeak;
    out[FADC250_PULSE_RULE] = timing.rule;
}

static uint32_t find_refusal(const uint64_t *settings, size_t n, uint32_t channel, const uint16_t *window, size_t len)
{
    if (n != FADC250_SETTINGS || !settings_ok(settings))
        return FADC250_BAD_SETTING;
    if (channel >= CHANNELS)
        return FADC250_BAD_CHANNEL;
    if (len != settings[FADC250_NW])
        return FADC250_BAD_LENGTH;
    return samples_ok(window, len) ? FADC250_ACCEPTED : FADC250_BAD_SAMPLE;
}

uint32_t CALL(find)(const uint64_t *settings, size_t n, uint32_t channel, const uint16_t *window, size_t len,
                    uint32_t *out, size_t o)
{
    const uint32_t refusal = find_refusal(settings, n, channel, window, len);
    if (o < FADC250_FOUND)
        return refusal != FADC250_ACCEPTED ? refusal : FADC250_BAD_ARRAY;
    memset(out, 0, FADC250_FOUND * sizeof *out);
    if (refusal != FADC250_ACCEPTED)
        return refusal;
    const uint32_t threshold = (uint32_t)settings[FADC250_THRESHOLDS + channel];
    const size_t first = first_over(window, 0, len, threshold);
    size_t start = first;
    uint32_t count = 0;
    while (start < len && count < settings[FADC250_LIMIT]) {
        answer_pulse(settings, window, first, start, out + 1 + count * FADC250_PULSE);
        count++;
        start = next_start(settings, threshold, window, start);
    }
    out[0] = count;
    return FADC250_ACCEPTED;
}

/* ---- Writing words. Each answers where the next word goes. */

static inline uint32_t defining(uint32_t kind, uint32_t rest)
{
    return kind << 27 | rest;
}

static inline uint32_t of_pulse(uint32_t kind, uint32_t channel, uint32_t pulse, uint32_t rest)
{
    return kind << 27 | channel << 23 | pulse << 21 | rest;
}

static inline uint32_t *put_samples(const uint16_t *samples, size_t n, uint32_t *to)
{
    put_whole_pairs(samples, n / 2, to);
    to += n / 2;
    if (n % 2 != 0)
        *to++ = pair(samples[n - 1], SECOND_NOT_VALID);
    return to;
}

static inline uint32_t *put_raw(const uint64_t *settings, uint32_t channel, uint32_t pulse, const uint16_t *window,
                                size_t start, uint32_t *to)
{
    const struct set set = set_of(settings, start);
    *to++ = of_pulse(PULSE_RAW, channel, pulse, (uint32_t)start + 1);
    return put_samples(window + set.first, set.end - set.first, to);
}

static inline uint32_t *put_integral(const uint64_t *settings, uint32_t channel, uint32_t pulse,
                                     const uint16_t *window, size_t start, uint32_t *to)
{
    const struct set set = set_of(settings, start);
    const uint32_t sum = sum_of(window + set.first, set.end - set.first);
    *to++ = of_pulse(INTEGRAL, channel, pulse, sum > MOST_SUM ? 1u << 19 | MOST_SUM : sum);
    return to;
}

static inline uint32_t *put_timing(uint32_t channel, uint32_t pulse, const struct timing *timing, uint32_t *to)
{
    const uint32_t vmin = timing->vmin < MOST_VMIN ? timing->vmin : MOST_VMIN;
    *to++ = of_pulse(TIME, channel, pulse, timing->coarse << 6 | timing->fine);
    *to++ = of_pulse(PEDESTAL, channel, pulse, vmin << 12 | timing->vpeak);
    return to;
}

/* The words of one pulse in the modes that have any. */
static inline uint32_t *put_pulse(const uint64_t *settings, uint32_t channel, uint32_t pulse, const uint16_t *window,
                                  size_t first, size_t start, uint32_t *to)
{
    const uint64_t mode = settings[FADC250_MODE];
    if (mode == 2)
        return put_raw(settings, channel, pulse, window, start, to);
    if (mode == 3 || mode == 7)
        to = put_integral(settings, channel, pulse, window, start, to);
    if (mode == 3) {
        *to++ = of_pulse(TIME, channel, pulse, ((uint32_t)start + 1) << 6);
        return to;
    }
    const struct timing timing = timing_of(window, settings[FADC250_NW], first, start);
    return put_timing(channel, pulse, &timing, to);
}

/* Without a sample that is over there is no word in any mode. */
static uint32_t *put_channel(const uint64_t *settings, uint32_t channel, const uint16_t *window, uint32_t *to)
{
    const uint64_t mode = settings[FADC250_MODE];
    const uint32_t threshold = (uint32_t)settings[FADC250_THRESHOLDS + channel];
    const size_t nw = settings[FADC250_NW], first = first_over(window, 0, nw, threshold);
    if (first < nw && (mode == 1 || mode == 8)) {
        *to++ = defining(WINDOW, channel << 23 | (uint32_t)nw);
        to = put_samples(window, nw, to);
    }
    if (mode == 1)
        return to;
    size_t start = first;
    for (uint32_t pulse = 0; start < nw && pulse < settings[FADC250_LIMIT]; pulse++) {
        to = put_pulse(settings, channel, pulse, window, first, start, to);
        start = next_start(settings, threshold, window, start);
    }
    return to;
}

static uint32_t *put_event(const uint64_t *state, const uint16_t *store, uint32_t *to)
{
    const uint64_t *settings = state + FADC250_STATE_SETTINGS;
    const uint64_t time = state[FADC250_TIME];
    *to++ = defining(EVENT_HEADER, (uint32_t)settings[FADC250_SLOT] << 22 | (uint32_t)state[FADC250_EVENT]);
    if (settings[FADC250_TIMES] >= 1)
        *to++ = defining(TRIGGER_TIME, (uint32_t)(time & 0x7FFFFFF));
    if (settings[FADC250_TIMES] == 2)
        *to++ = (uint32_t)(time >> 24);
    for (uint64_t left = state[FADC250_MARKS]; left != 0; left &= left - 1) {
        const uint32_t channel = (uint32_t)__builtin_ctzll(left);
        to = put_channel(settings, channel, store + channel * settings[FADC250_NW], to);
    }
    return to;
}

/* What an event ends with on request. */
static uint32_t *put_scalers(const uint64_t *state, uint32_t *to)
{
    *to++ = defining(SCALERS, FADC250_SCALERS);
    for (size_t i = 0; i < FADC250_SCALERS; i++)
        *to++ = (uint32_t)state[FADC250_LATCHED + i];
    return to;
}

/* ---- How many words an event has. Asked only where the longest there can be would not fit. */

static size_t raw_length(const uint64_t *settings, size_t start)
{
    const struct set set = set_of(settings, start);
    return 1 + (set.end - set.first + 1) / 2;
}

static size_t channel_length(const uint64_t *settings, uint32_t channel, const uint16_t *window)
{
    static const uint8_t words_of_pulse[] = {[3] = 2, [4] = 2, [7] = 3, [8] = 2};
    const uint64_t mode = settings[FADC250_MODE];
    const uint32_t threshold = (uint32_t)settings[FADC250_THRESHOLDS + channel];
    const size_t nw = settings[FADC250_NW];
    size_t start = first_over(window, 0, nw, threshold);
    size_t length = start < nw && (mode == 1 || mode == 8) ? 1 + (nw + 1) / 2 : 0;
    if (mode == 1)
        return length;
    for (uint32_t pulse = 0; start < nw && pulse < settings[FADC250_LIMIT]; pulse++) {
        length += mode == 2 ? raw_length(settings, start) : words_of_pulse[mode];
        start = next_start(settings, threshold, window, start);
    }
    return length;
}

static size_t event_length(const uint64_t *state, const uint16_t *store)
{
    const uint64_t *settings = state + FADC250_STATE_SETTINGS;
    size_t length = 1 + settings[FADC250_TIMES];
    for (uint32_t channel = 0; channel < CHANNELS; channel++)
        if ((state[FADC250_MARKS] >> channel & 1) != 0)
            length += channel_length(settings, channel, store + channel * settings[FADC250_NW]);
    return length;
}

/* ---- The calls of writing. */

uint32_t CALL(set_up)(const uint64_t *settings, size_t n, uint64_t *state, size_t m)
{
    const bool good = n == FADC250_SETTINGS && settings_ok(settings);
    if (m != FADC250_STATE)
        return good ? FADC250_BAD_ARRAY : FADC250_BAD_SETTING;
    memset(state, 0, FADC250_STATE * sizeof *state);
    if (!good)
        return FADC250_BAD_SETTING;
    memcpy(state + FADC250_STATE_SETTINGS, settings, FADC250_SETTINGS * sizeof *settings);
    return FADC250_ACCEPTED;
}

uint32_t CALL(open_block)(uint64_t *state, size_t m, uint32_t *words, size_t w, uint32_t number, uint32_t events)
{
    if (!state_ok(state, m))
        return FADC250_BAD_STATE;
    if (state[FADC250_PHASE] != IDLE)
        return FADC250_OUT_OF_TURN;
    if (number > MOST_BLOCK || !from_one(events, MOST_EVENTS))
        return FADC250_BAD_NUMBER;
    const uint64_t *settings = state + FADC250_STATE_SETTINGS;
    const size_t length = 1 + settings[FADC250_PARAMETERS];
    if (w < length)
        return FADC250_SHORT_WORDS;
    words[0] = defining(BLOCK_HEADER, (uint32_t)settings[FADC250_SLOT] << 22 | 1u << 18 | number << 8 | events);
    if (length == 2)
        words[1] = (uint32_t)(settings[FADC250_PL] << 18 | settings[FADC250_NSB] << 9 | settings[FADC250_NSA]);
    state[FADC250_PHASE] = IN_BLOCK;
    state[FADC250_BLOCK] = number;
    state[FADC250_EVENTS] = events;
    state[FADC250_WORDS] = length;
    return FADC250_ACCEPTED;
}

uint32_t CALL(open_event)(uint64_t *state, size_t m, uint32_t number, uint64_t time)
{
    if (!state_ok(state, m))
        return FADC250_BAD_STATE;
    if (state[FADC250_PHASE] != IN_BLOCK || state[FADC250_CLOSED] == state[FADC250_EVENTS])
        return FADC250_OUT_OF_TURN;
    if (number > MOST_EVENT || time > MOST_TIME)
        return FADC250_BAD_NUMBER;
    state[FADC250_PHASE] = IN_EVENT;
    state[FADC250_EVENT] = number;
    state[FADC250_TIME] = time;
    state[FADC250_TRIGGERS] = (uint32_t)(state[FADC250_TRIGGERS] + 1);
    return FADC250_ACCEPTED;
}

uint32_t CALL(post)(uint64_t *state, size_t m, uint16_t *store, size_t s, uint32_t channel, const uint16_t *window,
                    size_t n)
{
    if (!state_ok(state, m))
        return FADC250_BAD_STATE;
    const size_t nw = state[FADC250_STATE_SETTINGS + FADC250_NW];
    if (state[FADC250_PHASE] != IN_EVENT)
        return FADC250_OUT_OF_TURN;
    if (channel >= CHANNELS)
        return FADC250_BAD_CHANNEL;
    if (n != nw)
        return FADC250_BAD_LENGTH;
    if ((state[FADC250_MARKS] >> channel & 1) != 0)
        return FADC250_POSTED;
    if (s < CHANNELS * nw)
        return FADC250_SHORT_STORE;
    if (!samples_ok(window, nw))
        return FADC250_BAD_SAMPLE;
    memcpy(store + channel * nw, window, nw * sizeof *window);
    state[FADC250_MARKS] |= 1u << channel;
    return FADC250_ACCEPTED;
}

/* Runs of posted rows stand behind each other in the store and are asked as one: mostly that is all of it. */
static bool rows_ok(uint64_t marks, const uint16_t *store, size_t nw)
{
    while (marks != 0) {
        const uint32_t first = (uint32_t)__builtin_ctzll(marks);
        const uint32_t rows = (uint32_t)__builtin_ctzll(~(marks >> first));
        if (!samples_ok(store + first * nw, rows * nw))
            return false;
        marks &= ~0ull << (first + rows);
    }
    return true;
}

/* With so many words behind the channels'. */
static bool event_fits(const uint64_t *state, const uint16_t *store, size_t w, size_t more)
{
    const uint64_t words = state[FADC250_WORDS];
    return w >= words && (w - words >= FADC250_EVENT_WORDS || w - words >= event_length(state, store) + more);
}

static inline uint32_t close_event(uint64_t *state, size_t m, const uint16_t *store, size_t s, uint32_t *words,
                                   size_t w, bool scalers)
{
    if (!state_ok(state, m))
        return FADC250_BAD_STATE;
    const size_t nw = state[FADC250_STATE_SETTINGS + FADC250_NW];
    if (state[FADC250_PHASE] != IN_EVENT)
        return FADC250_OUT_OF_TURN;
    if (s < CHANNELS * nw)
        return FADC250_SHORT_STORE;
    if (!rows_ok(state[FADC250_MARKS], store, nw))
        return FADC250_BAD_SAMPLE;
    if (!event_fits(state, store, w, scalers ? 1 + FADC250_SCALERS : 0))
        return FADC250_SHORT_WORDS;
    uint32_t *end = put_event(state, store, words + state[FADC250_WORDS]);
    if (scalers)
        end = put_scalers(state, end);
    state[FADC250_WORDS] = (uint64_t)(end - words);
    state[FADC250_PHASE] = IN_BLOCK;
    state[FADC250_EVENT] = 0;
    state[FADC250_TIME] = 0;
    state[FADC250_MARKS] = 0;
    state[FADC250_CLOSED]++;
    return FADC250_ACCEPTED;
}

uint32_t CALL(close)(uint64_t *state, size_t m, const uint16_t *store, size_t s, uint32_t *words, size_t w)
{
    return close_event(state, m, store, s, words, w, false);
}

uint32_t CALL(close_with_scalers)(uint64_t *state, size_t m, const uint16_t *store, size_t s, uint32_t *words,
                                  size_t w)
{
    return close_event(state, m, store, s, words, w, true);
}

uint64_t CALL(finish)(uint64_t *state, size_t m, uint32_t *words, size_t w)
{
    if (!state_ok(state, m))
        return (uint64_t)FADC250_BAD_STATE << 32;
    if (state[FADC250_PHASE] != IN_BLOCK || state[FADC250_CLOSED] != state[FADC250_EVENTS])
        return (uint64_t)FADC250_OUT_OF_TURN << 32;
    const uint64_t *settings = state + FADC250_STATE_SETTINGS;
    const uint64_t multiple = settings[FADC250_MULTIPLE];
    const uint64_t trailer = state[FADC250_WORDS], length = (trailer + multiple) / multiple * multiple;
    const uint32_t slot = (uint32_t)settings[FADC250_SLOT] << 22;
    if (w < length)
        return (uint64_t)FADC250_SHORT_WORDS << 32;
    words[trailer] = defining(TRAILER, slot | (uint32_t)(trailer + 1));
    for (size_t i = trailer + 1; i < length; i++)
        words[i] = defining(FILLER, slot);
    memset(state, 0, FADC250_COUNTS * sizeof *state);
    return length;
}

/* ---- Counting. */

static void start_tally(const uint64_t *state, struct tally *tally)
{
    memset(tally->seen, 0, sizeof tally->seen);
    for (size_t c = 0; c < CHANNELS; c++) {
        tally->threshold[c] = (int16_t)state[FADC250_STATE_SETTINGS + FADC250_THRESHOLDS + c];
        tally->before[c] = (state[FADC250_OVER] >> c & 1) != 0 ? -1 : 0;
    }
}

/* Adds the edges of so many frames, a chunk at a time: those of a chunk are counted in 16 bits. */
static void count_all(const uint16_t *frames, size_t count, struct tally *tally, uint32_t *counts)
{
    for (size_t done = 0; done < count; done += CHUNK) {
        memset(tally->edges, 0, sizeof tally->edges);
        count_frames(frames + CHANNELS * done, least(CHUNK, count - done), tally);
        for (size_t c = 0; c < CHANNELS; c++)
            counts[c] += tally->edges[c];
    }
}

static void put_counts(uint64_t *state, const uint32_t *counts, const struct tally *tally, size_t frames)
{
    const uint64_t part = state[FADC250_PART] + frames;
    uint64_t over = 0;
    for (size_t c = 0; c < CHANNELS; c++) {
        state[FADC250_COUNTS + c] = counts[c];
        over |= (uint64_t)(tally->before[c] & 1) << c;
    }
    state[FADC250_TIMER] = (uint32_t)(state[FADC250_TIMER] + part / GROUP);
    state[FADC250_PART] = part % GROUP;
    state[FADC250_OVER] = over;
}

/* The samples are looked at while they are counted, and nothing is stored before all of them are known to be good. */
uint32_t CALL(count)(uint64_t *state, size_t m, const uint16_t *frames, size_t n)
{
    struct tally tally;
    uint32_t counts[CHANNELS];
    const size_t whole = n / CHANNELS;
    if (!state_ok(state, m))
        return FADC250_BAD_STATE;
    start_tally(state, &tally);
    for (size_t c = 0; c < CHANNELS; c++)
        counts[c] = (uint32_t)state[FADC250_COUNTS + c];
    count_all(frames, whole, &tally, counts);
    if (!samples_ok(tally.seen, CHANNELS) || !samples_ok(frames + CHANNELS * whole, n % CHANNELS))
        return FADC250_BAD_SAMPLE;
    if (n % CHANNELS != 0)
        return FADC250_BAD_FRAMES;
    put_counts(state, counts, &tally, whole);
    return FADC250_ACCEPTED;
}

uint32_t CALL(latch)(uint64_t *state, size_t m)
{
    if (!state_ok(state, m))
        return FADC250_BAD_STATE;
    memcpy(state + FADC250_LATCHED, state + FADC250_COUNTS, FADC250_SCALERS * sizeof *state);
    return FADC250_ACCEPTED;
}

uint32_t CALL(reset)(uint64_t *state, size_t m)
{
    if (!state_ok(state, m))
        return FADC250_BAD_STATE;
    memset(state + FADC250_COUNTS, 0, FADC250_SCALERS * sizeof *state);
    state[FADC250_PART] = 0;
    return FADC250_ACCEPTED;
}

/* ---- The check. A part that is passed answers the place behind it; refused, the check's answer, which is greater
   than every place. */

/* No word may stand here before the trailer, and so no block is longer. */
#define BLOCK_LIMIT 4194303u

static inline uint64_t refused(uint64_t refusal, uint64_t place)
{
    return refusal << 32 | place;
}

static inline bool is_refused(uint64_t answer)
{
    return answer >> 32 != 0;
}

/* The words of a block, and how many of them may stand before the trailer's end. */
struct block {
    const uint8_t *bytes;
    size_t end;
};

static inline uint64_t no_word(uint64_t place)
{
    return refused(place == BLOCK_LIMIT ? FADC250_BAD_COUNT : FADC250_ENDS_EARLY, place);
}

/* A place where a pair must stand, and none that is good does. */
static uint64_t bad_pair(struct block block, uint64_t place)
{
    if (place == block.end)
        return no_word(place);
    return refused(is_continuation(word_at(block.bytes, place)) ? FADC250_BAD_FIELD : FADC250_BAD_WORD, place);
}

static inline bool is_half_pair(uint32_t word)
{
    return (word & ~(MOST_SAMPLE << 16)) == SECOND_NOT_VALID;
}

static inline uint64_t check_window(struct block block, uint64_t place, uint32_t header)
{
    const uint32_t width = header & 0xFFF, pairs = width / 2;
    if ((header & 0x7FF000) != 0 || !from_one(width, MOST_WIDTH))
        return refused(FADC250_BAD_FIELD, place);
    place++;
    const size_t found = count_whole_pairs(block.bytes + 4 * place, least(pairs, block.end - place));
    place += found;
    if (found < pairs)
        return bad_pair(block, place);
    if (width % 2 == 0)
        return place;
    if (place == block.end || !is_half_pair(word_at(block.bytes, place)))
        return bad_pair(block, place);
    return place + 1;
}

/* Whether a word that no pair may be is there, is for the next item to say. */
static inline uint64_t check_raw(struct block block, uint64_t place, uint32_t header)
{
    if ((header & 0x1FFC00) != 0)
        return refused(FADC250_BAD_FIELD, place);
    place++;
    const size_t most = least(MOST_RAW_PAIRS, block.end - place);
    const size_t found = count_few_pairs(block.bytes + 4 * place, most);
    place += found;
    if (found == most)
        return place;
    const uint32_t word = word_at(block.bytes, place);
    if (is_half_pair(word))
        return place + 1;
    return found == 0 || is_continuation(word) ? bad_pair(block, place) : place;
}

/* Their words may be any. Behind them only an event header or the trailer may stand. */
static inline uint64_t check_scalers(struct block block, uint64_t place, uint32_t header)
{
    if ((header & 0x7FFFFC0) != 0)
        return refused(FADC250_BAD_FIELD, place);
    place += 1 + (header & 63);
    if (place >= block.end)
        return no_word(block.end);
    const uint32_t kind = kind_of(word_at(block.bytes, place));
    return kind == EVENT_HEADER || kind == TRAILER ? place : refused(FADC250_BAD_WORD, place);
}

static inline uint64_t check_times(struct block block, uint64_t place)
{
    if (place == block.end)
        return place;
    const uint32_t low = word_at(block.bytes, place);
    if (kind_of(low) != TRIGGER_TIME)
        return place;
    place++;
    if (place == block.end)
        return place;
    const uint32_t high = word_at(block.bytes, place);
    if (!is_continuation(high))
        return place;
    if (high >> 24 != 0 || (high & 7) != (low >> 24 & 7))
        return refused(FADC250_BAD_FIELD, place);
    return place + 1;
}

static inline uint32_t slot_of(uint32_t word)
{
    return word >> 22 & 31;
}

/* The fillers, and with them the block's length in words. */
static uint64_t check_fillers(const uint8_t *bytes, size_t words, uint64_t place, uint32_t slot)
{
    const uint64_t end = least(place + 3, words);
    while (place < end && kind_of(word_at(bytes, place)) == FILLER) {
        if (slot_of(word_at(bytes, place)) != slot)
            return refused(FADC250_BAD_SLOT, place);
        place++;
    }
    return place;
}

/* From the first event header on, up to and with the trailer. */
static uint64_t check_events(struct block block, uint64_t place, uint32_t slot, uint32_t events)
{
    while (place < block.end) {
        const uint32_t word = word_at(block.bytes, place);
        switch (kind_of(word)) {
        case INTEGRAL:
        case TIME:
        case PEDESTAL: {
            const size_t items = count_short_items(block.bytes + 4 * place, block.end - place);
            if (items == 0)
                return refused(FADC250_BAD_FIELD, place);
            place += items;
            break;
        }
        case WINDOW:
            place = check_window(block, place, word);
            break;
        case PULSE_RAW:
            place = check_raw(block, place, word);
            break;
        case SCALERS:
            place = check_scalers(block, place, word);
            break;
        case EVENT_HEADER:
            if (slot_of(word) != slot)
                return refused(FADC250_BAD_SLOT, place);
            if (events == 0)
                return refused(FADC250_BAD_COUNT, place);
            events--;
            place = check_times(block, place + 1);
            break;
        case TRAILER:
            if (slot_of(word) != slot)
                return refused(FADC250_BAD_SLOT, place);
            if (events != 0 || (word & 0x3FFFFF) != place + 1)
                return refused(FADC250_BAD_COUNT, place);
            return place + 1;
        default:
            return refused(FADC250_BAD_WORD, place);
        }
        if (is_refused(place))
            return place;
    }
    return no_word(place);
}

/* Behind the block header: parameters, if they are there, and then an event header or the trailer. */
static uint64_t check_front(struct block block)
{
    uint64_t place = 1;
    if (place == block.end)
        return no_word(place);
    uint32_t word = word_at(block.bytes, place);
    if (is_continuation(word)) {
        if (word >> 29 != 0)
            return refused(FADC250_BAD_FIELD, place);
        place++;
        if (place == block.end)
            return no_word(place);
        word = word_at(block.bytes, place);
    }
    const uint32_t kind = kind_of(word);
    return kind == EVENT_HEADER || kind == TRAILER ? place : refused(FADC250_BAD_WORD, place);
}

uint64_t CALL(check)(const uint8_t *bytes, size_t n)
{
    const size_t words = n / 4;
    const struct block block = {bytes, least(words, BLOCK_LIMIT)};
    if (n % 4 != 0)
        return refused(FADC250_BAD_BYTES, 0);
    if (words == 0)
        return no_word(0);
    const uint32_t header = word_at(bytes, 0);
    if (kind_of(header) == MODULE_EMPTY)
        return 1;
    if (kind_of(header) != BLOCK_HEADER)
        return refused(FADC250_BAD_WORD, 0);
    if ((header >> 18 & 15) != 1 || (header & 255) == 0)
        return refused(FADC250_BAD_FIELD, 0);
    uint64_t place = check_front(block);
    if (!is_refused(place))
        place = check_events(block, place, slot_of(header), header & 255);
    return is_refused(place) ? place : check_fillers(bytes, words, place, slot_of(header));
}

#ifdef SSE2
uint64_t sse2_read(const uint8_t *bytes, size_t n)
{
    __m128i a = _mm_setzero_si128(), b = a;
    for (size_t i = 0; i + 64 <= n; i += 64) {
        a = either(a, either(load(bytes + i), load(bytes + i + 16)));
        b = either(b, either(load(bytes + i + 32), load(bytes + i + 48)));
    }
    return fold(either(a, b));
}
#endif
