/* FADC250 blocks, for the acquisition host: pulses found, blocks written, blocks read. Link with -lfadc250.

   Writing: fadc250_set_up once; then for each block fadc250_open_block, for each of its events fadc250_open_event,
   fadc250_post for every channel that has a window, fadc250_close, and at the end of the block fadc250_finish.
   Rates: fadc250_count at any time with the frames as they come, fadc250_latch, fadc250_reset; an event that is closed
   by fadc250_close_with_scalers ends with the latched counts.
   Reading: fadc250_check judges a block, fadc250_next reads it record by record, fadc250_list makes a text of it.
   fadc250_find looks for the pulses of one window. The example at the end of this file writes a block.

   Memory. No function allocates, keeps anything between two calls or touches anything that was not lent to it. All
   that a run knows is in the state, FADC250_STATE numbers that the host keeps, may copy and may hand to another
   thread. Calls may run at the same time if none writes an array that another is lent. Every array goes with its
   length in elements; with the length 0 the pointer may be NULL, as an empty std::vector gives it. An array that a
   call writes must not overlap another of the same call.

   Answers. fadc250_set_up, _open_block, _open_event, _post, _close, _close_with_scalers, _count, _latch, _reset and
   _find answer 0 if they are accepted, else the refusal. fadc250_finish, _check and _next answer 64 bits: the upper 32
   are 0 if they are accepted, else the refusal; the lower 32 are a number of words, or the place of the refused word.
   fadc250_samples and _list answer a count and are never refused. fadc250_text gives a refusal's text.

   Order. If a call is to be refused for more than one reason, the answer is the first of the refusals in the order
   that stands with the call. For all the calls of writing but set up it is 10, 7, 8, 4, 5, 6, 2, 3, 9; for those of
   counting 10, 3, 19.

   A refused call changes nothing that was lent, but for what it was to fill as a whole: set up's state, find's
   numbers and next's record become zeros, so that nothing older is taken for its answer.

   Giving up. No call takes back a block or an event. Go back to a copy of the state from before fadc250_open_block,
   or from before fadc250_open_event to keep the events that were closed until then, or set up again; the words
   written since are not to be used. Such a copy has the counts of then too: to keep those of now, go back only with
   the numbers before FADC250_COUNTS. Or close the open event, open and close the remaining ones without a post, and
   finish: that is a whole block. */
#ifndef FADC250_H
#define FADC250_H

#include <stddef.h>
#include <stdint.h>

#ifdef __cplusplus
extern "C" {
#endif

/* The version of this header and of the library that was installed with it. */
#define FADC250_VERSION_MAJOR 2
#define FADC250_VERSION_MINOR 0
#define FADC250_VERSION "2.0"

/* The most words of an event, its scalers counted, and of a block of so many events: header, parameters, events,
   trailer, fillers. */
#define FADC250_EVENT_WORDS 12070
#define FADC250_BLOCK_WORDS(events) (2 + FADC250_EVENT_WORDS * (events) + 1 + 3)

/* The samples of a store: sixteen rows of NW. */
#define FADC250_STORE(nw) (16 * (nw))

/* The samples of a frame, one of each channel, and the latched counts: of each channel, the timer, the triggers. */
#define FADC250_FRAME 16
#define FADC250_SCALERS 18

/* The refusals. */
enum fadc250_refusal {
    FADC250_ACCEPTED = 0,
    FADC250_BAD_SETTING = 1, /* set up, find: not FADC250_SETTINGS settings, or one that is out of its range */
    FADC250_SHORT_STORE = 2, /* post, close: the store has fewer than 16 * NW samples */
    FADC250_BAD_SAMPLE = 3,  /* post, find: a sample of the window is over 8191; close: one in a posted channel's row
                                of the store is; count: one of the samples is, behind the last whole frame too */
    FADC250_BAD_CHANNEL = 4, /* post, find: the channel is over 15 */
    FADC250_BAD_LENGTH = 5,  /* post, find: the window has not NW samples */
    FADC250_POSTED = 6,      /* post: the channel was already posted in this event */
    FADC250_OUT_OF_TURN = 7, /* not the phase for this call; an event more than the block states;
                                finish before the last of them */
    FADC250_BAD_NUMBER = 8,  /* block number over 1023, events not 1 to 255, event number over 4194303,
                                time over 2^48 - 1 */
    FADC250_SHORT_WORDS = 9, /* the word buffer is too short for all that the call writes */
    FADC250_BAD_STATE = 10,  /* not FADC250_STATE numbers, one that its field cannot hold, or a state out of its
                                ranges */
    FADC250_ENDS_EARLY = 11, /* check, next: the input ends inside the block */
    FADC250_BAD_WORD = 12,   /* check, next: this word may not stand here, a pair is missing or one too many */
    FADC250_BAD_FIELD = 13,  /* check, next: a bit that must be zero is set, or a field or a sample flag is wrong */
    FADC250_BAD_COUNT = 14,  /* check, next: an event header too many, a trailer too early, a wrong word count,
                                or a block that is too long */
    FADC250_BAD_SLOT = 15,   /* check, next: the slot differs from the block header's */
    FADC250_BAD_BYTES = 16,  /* check: the bytes are no multiple of 4 */
    FADC250_BAD_FRAMES = 19, /* count: the samples are no multiple of 16, no whole frames */
    FADC250_BAD_ARRAY = 64   /* set up's state, find's numbers, a scan or a record: not as many as the call asks for,
                                or numbers that are no scan */
};

/* The text of a refusal: an answer of 32 bits as it is, one of 64 bits by its upper half, answer >> 32. */
static inline const char *fadc250_text(uint64_t number)
{
    static const char *const texts[] = {
        "accepted",
        "a setting is out of range",
        "the store is too short",
        "a sample is over 8191",
        "the channel is over 15",
        "the window has not NW samples",
        "the channel is already posted",
        "out of turn",
        "a number is out of range",
        "the word buffer is too short",
        "the state breaks its ranges",
        "the input ends inside the block",
        "the word may not stand here",
        "a bit, a field or a sample flag is wrong",
        "a count or the length is wrong",
        "the slot differs from the block header's",
        "the bytes are no multiple of 4",
    };
    if (number == FADC250_BAD_FRAMES)
        return "the samples are no whole frames";
    if (number == FADC250_BAD_ARRAY)
        return "an array has a wrong length, or is no scan";
    return number < sizeof texts / sizeof texts[0] ? texts[number] : "unknown";
}

/* The settings by name. 64 bits each, so that no value is cut before it is looked at. A sample's amplitude is its low
   12 bits; it is over if its amplitude is greater than the channel's threshold. */
struct fadc250_settings {
    uint64_t mode;           /* what is written of a posted channel, its pulses in order:
                                1  the whole window, if any sample is over (type 4)
                                2  of each pulse the samples of its data set (type 6)
                                3  of each pulse the integral, and TC as its time (types 7, 8)
                                4  of each pulse the time and the pedestal (types 8, 10)
                                7  of each pulse the integral, the time and the pedestal (types 7, 8, 10)
                                8  the window as in mode 1, then as in mode 4 (types 4, 8, 10) */
    uint64_t nw;             /* NW, samples in a window, 1 to 500 */
    uint64_t pl;             /* PL, the programmed latency: how many samples before the trigger the window starts, 0 to
                                2047. It is written into the parameter word, and changes no window and no pulse */
    uint64_t nsb;            /* NSB, samples of a data set before TC, the threshold crossing, 0 to 511 */
    uint64_t nsa;            /* NSA, samples of it from TC on, 1 to 511 */
    uint64_t limit;          /* the most pulses of a window, 1 to 3 */
    uint64_t slot;           /* 0 to 31 */
    uint64_t parameters;     /* 1 writes a parameter word behind each block header, 0 none */
    uint64_t times;          /* trigger-time words of an event, 0, 1 or 2 */
    uint64_t multiple;       /* a block is filled to a multiple of 1, 2 or 4 words */
    uint64_t thresholds[16]; /* of each channel, 0 to 4095 */
};

/* The places of the settings as numbers, which is how the calls take them. */
enum fadc250_setting {
    FADC250_MODE = 0,
    FADC250_NW = 1,
    FADC250_PL = 2,
    FADC250_NSB = 3,
    FADC250_NSA = 4,
    FADC250_LIMIT = 5,
    FADC250_SLOT = 6,
    FADC250_PARAMETERS = 7,
    FADC250_TIMES = 8,       /* a setting; FADC250_TIME below is a place of the state */
    FADC250_MULTIPLE = 9,
    FADC250_THRESHOLDS = 10, /* channel c's at FADC250_THRESHOLDS + c */
    FADC250_SETTINGS = FADC250_THRESHOLDS + 16 /* how many they are */
};

/* Writes the named settings as FADC250_SETTINGS numbers. */
static inline void fadc250_put_settings(const struct fadc250_settings *named, uint64_t settings[FADC250_SETTINGS])
{
    settings[FADC250_MODE] = named->mode;
    settings[FADC250_NW] = named->nw;
    settings[FADC250_PL] = named->pl;
    settings[FADC250_NSB] = named->nsb;
    settings[FADC250_NSA] = named->nsa;
    settings[FADC250_LIMIT] = named->limit;
    settings[FADC250_SLOT] = named->slot;
    settings[FADC250_PARAMETERS] = named->parameters;
    settings[FADC250_TIMES] = named->times;
    settings[FADC250_MULTIPLE] = named->multiple;
    for (size_t c = 0; c < 16; c++)
        settings[FADC250_THRESHOLDS + c] = named->thresholds[c];
}

/* The places of the state, behind which the settings stand. Only fadc250_set_up writes the settings; the other calls
   change what is before them. The host may read all; a state that it changes itself is refused with 10 if it breaks
   the ranges. What is counted stays through all phases, idle too: only set up, count, open event (its trigger), latch
   and reset change it. */
enum fadc250_place {
    FADC250_PHASE = 0,          /* 0 idle, 1 in a block, 2 in an event */
    FADC250_BLOCK = 1,          /* the open block's number */
    FADC250_EVENTS = 2,         /* the events that it is to hold */
    FADC250_EVENT = 3,          /* the open event's number */
    FADC250_TIME = 4,           /* and its time */
    FADC250_MARKS = 5,          /* bit c is set once channel c is posted */
    FADC250_CLOSED = 6,         /* events closed in this block */
    FADC250_WORDS = 7,          /* words written to it */
    FADC250_COUNTS = 8,         /* channel c's running count at FADC250_COUNTS + c; below 2^32, as are all counts */
    FADC250_TIMER = 24,         /* the running timer: whole groups of 512 frames */
    FADC250_TRIGGERS = 25,      /* the running count of events opened */
    FADC250_PART = 26,          /* frames of the group that is not whole yet, under 512 */
    FADC250_OVER = 27,          /* bit c is set if channel c was over in the last frame */
    FADC250_LATCHED = 28,       /* FADC250_SCALERS latched counts: the channels', the timer, the triggers */
    FADC250_STATE_SETTINGS = FADC250_LATCHED + FADC250_SCALERS, /* setting i stands at FADC250_STATE_SETTINGS + i */
    FADC250_STATE = FADC250_STATE_SETTINGS + FADC250_SETTINGS   /* how many numbers a state is */
};

/* ---- Writing a block. The arrays are: the n settings; the m numbers of the state; the store, s samples, at least
   FADC250_STORE(NW); the word buffer, w words, of which FADC250_BLOCK_WORDS(events) are always enough. */

/* Sets up a run: n settings (FADC250_SETTINGS), and the m numbers (FADC250_STATE) of the state to be filled. Their old
   values do not matter. Refusals: 1, 64 if m is not FADC250_STATE. A refused call fills FADC250_STATE numbers with
   zeros, a state that every call refuses with 10; an array of another length stays as it is. */
uint32_t fadc250_set_up(const uint64_t *settings, size_t n, uint64_t *state, size_t m);

/* Opens a block with its number and how many events it is to hold. Writes the block header and any parameter word to
   words[0] and words[1]; lend the same buffer of w words until the block is finished. Refusals: 10, 7, 8, 9. */
uint32_t fadc250_open_block(uint64_t *state, size_t m, uint32_t *words, size_t w, uint32_t number, uint32_t events);

/* Opens an event with its number and 48-bit time. Writes no word, and clears no row of any store.
   Refusals: 10, 7, 8. */
uint32_t fadc250_open_event(uint64_t *state, size_t m, uint32_t number, uint64_t time);

/* Posts a channel: copies its window, n samples, into its row of the store, NW samples from store[channel * NW], and
   nowhere else. The store need not be cleared. Refusals: 10, 7, 4, 5, 6, 2, 3. */
uint32_t fadc250_post(uint64_t *state, size_t m, uint16_t *store, size_t s, uint32_t channel,
                      const uint16_t *window, size_t n);

/* Closes the event: writes its header, its time words and the words of the posted channels, in channel order, behind
   the words already in the block. The store is read as it is then lent, and must be lent even if no channel was
   posted. Refusals: 10, 7, 2, 3, 9. */
uint32_t fadc250_close(uint64_t *state, size_t m, const uint16_t *store, size_t s, uint32_t *words, size_t w);

/* The same, and the event ends with its scalers, behind the words of the last channel: a word of type 12 that says how
   many there are, FADC250_SCALERS, and the latched counts as they stand in the state, a word each. They are the
   event's and no channel's. Refusals: 10, 7, 2, 3, 9, which asks for room for them too. */
uint32_t fadc250_close_with_scalers(uint64_t *state, size_t m, const uint16_t *store, size_t s, uint32_t *words,
                                    size_t w);

/* Finishes the block: writes its trailer and the fewest fillers that make its length a multiple of the setting; the
   state is idle. Answers the block's length in words, fillers counted, or (refusal << 32), which is never a length.
   Refusals: 10, 7, 9. */
uint64_t fadc250_finish(uint64_t *state, size_t m, uint32_t *words, size_t w);

/* ---- Counting, in every phase. All counts wrap at 2^32: they go on at 0 behind 4294967295. */

/* Counts frames: n samples, FADC250_FRAME a frame, channel 0's first, the oldest frame first. A channel counts a frame
   in which it is over and was not in the frame before, which may have come with an earlier call; before the first
   frame after set up all were under. The timer counts every 512th frame (2,048 ns) since set up or the last reset. No
   frames (n 0) change nothing.
   Refusals: 10, 3, 19 if n is no multiple of FADC250_FRAME. Refused, none of the frames counts. */
uint32_t fadc250_count(uint64_t *state, size_t m, const uint16_t *frames, size_t n);

/* Latches: copies the running counts, timer and triggers to FADC250_LATCHED, all FADC250_SCALERS at once. They are
   zero before the first latch. Refusals: 10. */
uint32_t fadc250_latch(uint64_t *state, size_t m);

/* Resets: the running counts, the timer, the triggers and the timer's part group become zero; not the latched counts,
   nor which channels were over in the last frame. Refusals: 10. */
uint32_t fadc250_reset(uint64_t *state, size_t m);

/* ---- Finding pulses. */

/* The places of what fadc250_find writes: the count, then FADC250_PULSE numbers a pulse, pulse p's from
   1 + p * FADC250_PULSE. Samples are numbered from 1. */
enum fadc250_pulse {
    FADC250_PULSE_TC = 0,     /* the sample that crosses the threshold */
    FADC250_PULSE_FIRST = 1,  /* the first sample of its data set */
    FADC250_PULSE_LAST = 2,   /* the last */
    FADC250_PULSE_SUM = 3,    /* the integral, the sum over them; its word holds at most 524287 */
    FADC250_PULSE_COARSE = 4, /* its time: a sample */
    FADC250_PULSE_FINE = 5,   /* and 64ths of one */
    FADC250_PULSE_VMIN = 6,   /* the pedestal: the mean of the window's first four samples, rounded down; 0 by rule 1;
                                 its word holds at most 511 */
    FADC250_PULSE_VPEAK = 7,  /* the peak: from TC on the first sample with a lower one behind it;
                                 0 if the time is only TC */
    FADC250_PULSE_RULE = 8,   /* which rule gave the time: 4 it is interpolated on the rising edge. It is only TC:
                                 1 NW is under 4 or one of the first four samples is over, 2 TC is among the last
                                 five samples, 3 no sample behind TC falls */
    FADC250_PULSE = 9,        /* how many numbers a pulse has */
    FADC250_FOUND = 1 + 3 * FADC250_PULSE /* how many numbers it writes */
};

/* Finds the pulses of a window of len samples, whatever the mode, with the threshold of that channel: n settings
   (FADC250_SETTINGS) and o numbers (FADC250_FOUND or more) to be filled; numbers past FADC250_FOUND stay, and those
   of pulses past the count are set to 0, the rule too. Refusals: 1, 4, 5, 3, 64 if o is less than FADC250_FOUND. A
   refused call fills in FADC250_FOUND zeros, no pulses, so that no older window's are taken for this one's; fewer
   numbers than that stay as they are. */
uint32_t fadc250_find(const uint64_t *settings, size_t n, uint32_t channel, const uint16_t *window, size_t len,
                      uint32_t *out, size_t o);

/* ---- Reading a block. */

/* The big-endian bytes of w words, the first byte of each its highest. Answers how many they are, 4 * w. Writes them
   if they fit into n; if not, it writes nothing. */
static inline size_t fadc250_to_bytes(const uint32_t *words, size_t w, uint8_t *bytes, size_t n)
{
    for (size_t i = 0; w <= n / 4 && i < w; i++) {
        bytes[4 * i] = (uint8_t)(words[i] >> 24);
        bytes[4 * i + 1] = (uint8_t)(words[i] >> 16);
        bytes[4 * i + 2] = (uint8_t)(words[i] >> 8);
        bytes[4 * i + 3] = (uint8_t)words[i];
    }
    return 4 * w;
}

/* The words of n big-endian bytes; one to three bytes at the end that make no word are left out. Answers how many they
   are, n / 4. Writes them if they fit into w; if not, it writes nothing. */
static inline size_t fadc250_from_bytes(const uint8_t *bytes, size_t n, uint32_t *words, size_t w)
{
    for (size_t i = 0; n / 4 <= w && i < n / 4; i++)
        words[i] = (uint32_t)bytes[4 * i] << 24 | (uint32_t)bytes[4 * i + 1] << 16 |
                   (uint32_t)bytes[4 * i + 2] << 8 | (uint32_t)bytes[4 * i + 3];
    return n / 4;
}

/* Checks one block: n bytes, the words big-endian. It reads the bytes and writes nothing.

   An accepted block answers how many words it has, fillers counted: less than 2^32. What stands behind it is not
   looked at, so that the next block starts at bytes + 4 * that number. A module empty (type 14) in place of the block
   header is a block of its own, and answers 1.

   A refused one answers (refusal << 32) + place, where place is the index of the refused word, from 0: first 16 if n
   is no multiple of 4, with the place 0; then at each word 14 if the block is too long (no trailer before the place
   4194303), 11, 12, 15, 13, 14. */
uint64_t fadc250_check(const uint8_t *bytes, size_t n);

/* A scan says where the reading of a block stands: FADC250_SCAN numbers that the host keeps, and may copy to come back
   to a place. All zeros is the scan before a block's first word. Only fadc250_next moves it; the host need not look
   into it. The numbers mean the following. */
enum fadc250_scan_place {
    FADC250_SCAN_PLACE = 0,  /* the place of the next word, from 0 at the block's first: so many words were read */
    FADC250_SCAN_SLOT = 1,   /* the block header's slot; 0 before it, and behind a module empty */
    FADC250_SCAN_LEFT = 2,   /* event headers that are still to come; 0 before the block header */
    FADC250_SCAN_STAGE = 3,  /* a stage, below */
    FADC250_SCAN_FIRST = 4,  /* a number that goes with the stage; 0 for a stage without one */
    FADC250_SCAN_SECOND = 5, /* the same: 0 or 1 */
    FADC250_SCAN = 6         /* how many numbers a scan is */
};

/* The stages of a scan: what stands before its place. */
enum fadc250_stage {
    FADC250_STAGE_START = 0,  /* nothing: the block's first word is next */
    FADC250_STAGE_HEAD = 1,   /* the block header */
    FADC250_STAGE_FRONT = 2,  /* the parameters */
    FADC250_STAGE_OPENED = 3, /* an event header */
    FADC250_STAGE_TIMED = 4,  /* a first time word; first: its bits 26-24 */
    FADC250_STAGE_ITEMS = 5,  /* a second time word or a whole item of an event (of type 4, 7, 8 or 10) */
    FADC250_STAGE_WINDOW = 6, /* type 4 or one of its pairs; first: pairs to come, 1 or more; second: 1 if the last
                                 holds one sample */
    FADC250_STAGE_RAW = 7,    /* type 6 or one of its pairs; first: pairs that may still come; second: 1 if one was
                                 read */
    FADC250_STAGE_TAIL = 8,   /* the trailer, a filler, or a module empty; first: fillers that may still come */
    FADC250_STAGE_SCALERS = 9 /* type 12 or one of its words; first: words of it to come */
};

/* The kinds of record. */
enum fadc250_kind {
    FADC250_KIND_NONE = 0,       /* none: the call was refused */
    FADC250_KIND_BLOCK = 1,      /* block header: SLOT, NUMBER, EVENTS */
    FADC250_KIND_PARAMETERS = 2, /* parameters: PL, NSB, NSA */
    FADC250_KIND_EVENT = 3,      /* event header: SLOT, NUMBER */
    FADC250_KIND_TIME27 = 4,     /* trigger time of one word: TIME, its low 27 bits */
    FADC250_KIND_TIME48 = 5,     /* trigger time of two words: TIME, all 48 bits */
    FADC250_KIND_TIME_HIGH = 6,  /* a second time word on its own: TIME, bits 47-24 shifted down (see fadc250_next) */
    FADC250_KIND_WINDOW = 7,     /* type 4, all samples of a window: CHANNEL, WIDTH, PLACE, PAIRS */
    FADC250_KIND_PULSE_RAW = 8,  /* type 6, the samples of a pulse: CHANNEL, PULSE, TC, PLACE, PAIRS */
    FADC250_KIND_PAIR = 9,       /* a pair on its own: FIRST, SECOND, NOT_FIRST, NOT_SECOND (see fadc250_next) */
    FADC250_KIND_INTEGRAL = 10,  /* type 7: CHANNEL, PULSE, QUALITY, SUM */
    FADC250_KIND_TIME = 11,      /* type 8: CHANNEL, PULSE, QUALITY, COARSE, FINE */
    FADC250_KIND_PEDESTAL = 12,  /* type 10: CHANNEL, PULSE, VMIN, VPEAK */
    FADC250_KIND_TRAILER = 13,   /* trailer: SLOT, WORDS */
    FADC250_KIND_FILLERS = 14,   /* fillers that follow each other: SLOT, COUNT */
    FADC250_KIND_EMPTY = 15,     /* module empty: SLOT */
    FADC250_KIND_END = 16,       /* no record: the block has ended */
    FADC250_KIND_SCALERS = 17,   /* type 12, an event's scalers: COUNT, PLACE; they are COUNT words from words[PLACE]
                                    on, the place behind the word of type 12, also if there are none */
    FADC250_KIND_SCALER = 18     /* a scaler word on its own: VALUE (see fadc250_next) */
};

/* The places of a record's numbers: its kind, then the fields that its kind has. The others are 0. */
enum fadc250_field {
    FADC250_KIND = 0,
    FADC250_FIELD_SLOT = 1,
    FADC250_FIELD_CHANNEL = 1,
    FADC250_FIELD_PL = 1,
    FADC250_FIELD_TIME = 1,
    FADC250_FIELD_FIRST = 1,      /* a pair's first sample */
    FADC250_FIELD_VALUE = 1,      /* a scaler word */
    FADC250_FIELD_NUMBER = 2,     /* of the block, of the event */
    FADC250_FIELD_PULSE = 2,      /* which pulse of the window, from 0 */
    FADC250_FIELD_NSB = 2,
    FADC250_FIELD_WORDS = 2,      /* words from the block header to the trailer */
    FADC250_FIELD_COUNT = 2,      /* how many fillers, how many scaler words: 0 to 63 */
    FADC250_FIELD_SECOND = 2,     /* a pair's second sample */
    FADC250_FIELD_EVENTS = 3,
    FADC250_FIELD_NSA = 3,
    FADC250_FIELD_WIDTH = 3,      /* samples of the window */
    FADC250_FIELD_TC = 3,
    FADC250_FIELD_QUALITY = 3,    /* of an integral 1: the sum was greater than its word holds */
    FADC250_FIELD_NOT_FIRST = 3,  /* 1: a pair's first sample is not valid */
    FADC250_FIELD_PLACE = 4,      /* the place of the first word of pairs, or of scalers */
    FADC250_FIELD_SUM = 4,
    FADC250_FIELD_COARSE = 4,
    FADC250_FIELD_VMIN = 4,
    FADC250_FIELD_NOT_SECOND = 4, /* 1: a pair's second sample is not valid */
    FADC250_FIELD_PAIRS = 5,      /* how many words of pairs */
    FADC250_FIELD_FINE = 5,
    FADC250_FIELD_VPEAK = 5,
    FADC250_RECORD = 6            /* how many numbers a record is */
};

/* Reads the next record of a block: w words, words[0] the block's first, in the host's own order (fadc250_from_bytes
   makes them of bytes); k numbers of a scan; and r numbers (FADC250_RECORD or more) to be filled; what is past
   FADC250_RECORD stays.

   Accepted, it fills in the record, moves the scan behind it and answers how many words of the block were read so far,
   less than 2^32. A raw item is read with all its pairs, scalers with all their words, and refused if one of them is.
   A time is read with its second word, and fillers together, up to a word that is refused: that is for the next call.
   Scaler words may have any bits: one that looks like an event header is a scaler. At the block's end the kind is
   FADC250_KIND_END, the scan stays, and the answer is the block's length, as fadc250_check gives it; the next block
   starts at words + that number, with a scan of zeros.

   Refused, it answers (refusal << 32) + place, as fadc250_check does for the same block: 11 to 15. Then the scan
   stays, and the record is filled with zeros. (64 << 32) if the numbers are no scan (not FADC250_SCAN, a stage over 9,
   a second number over 1), and, after all others, if r is less than FADC250_RECORD: such a record stays as it is.

   FADC250_KIND_TIME_HIGH, FADC250_KIND_PAIR and FADC250_KIND_SCALER come only to a scan that the host made itself, or
   if the words are not those that the scan was read from: lend all words of a block from the first call on. */
uint64_t fadc250_next(uint32_t *scan, size_t k, const uint32_t *words, size_t w, uint64_t *record, size_t r);

/* The samples of a raw item: place and pairs are the record's FADC250_FIELD_PLACE and FADC250_FIELD_PAIRS, the w words
   those that it was read from. A sample has thirteen bits, bit 12 the overflow flag; one that is marked not valid is
   left out. Answers how many they are; none if the pairs do not lie in the words. Writes them to samples[0] on if they
   fit into s; if not, it writes nothing. It is never refused. */
uint64_t fadc250_samples(const uint32_t *words, size_t w, uint32_t place, uint32_t pairs, uint16_t *samples, size_t s);

/* The lister's text of n bytes, without its limit of 65,536: a line a record, block after block up to the first
   refusal; `refused 16 0` if n is no multiple of 4. docs/FORMAT.md has the lines. Answers how many characters the text
   has. Writes it to text[0] on, without an end mark, if it fits into t; if not, it writes nothing. No text is longer
   than 23 x (n / 4) + 22 characters: with as much room it is not counted first, which takes half the time. It is never
   refused. */
uint64_t fadc250_list(const uint8_t *bytes, size_t n, uint8_t *text, size_t t);

/* An example in C and C++: a block of one event, for which FADC250_BLOCK_WORDS(1) words are enough. The settings that
   it does not name stay 0, since they are static. The sources have whole programs under examples/.

uint64_t one_block(uint32_t *words, size_t w)
{
    static const uint16_t window[16] = {
        10, 11, 12, 11, 10, 40, 120, 200,
        180, 90, 60, 30, 12, 11, 10, 11};
    static uint16_t store[FADC250_STORE(16)];
    static struct fadc250_settings named;
    uint64_t settings[FADC250_SETTINGS], state[FADC250_STATE];
    const size_t n = FADC250_SETTINGS, m = FADC250_STATE;
    const size_t s = FADC250_STORE(16);

    named.mode = 7;
    named.nw = 16;
    named.nsb = 2;
    named.nsa = 5;
    named.limit = 3;
    named.multiple = 2;
    named.thresholds[3] = 100;
    fadc250_put_settings(&named, settings);

    uint64_t refusal = fadc250_set_up(settings, n, state, m);
    if (refusal == 0)
        refusal = fadc250_open_block(state, m, words, w, 1, 1);
    if (refusal == 0)
        refusal = fadc250_open_event(state, m, 9, 256);
    if (refusal == 0)
        refusal = fadc250_post(state, m, store, s, 3, window, 16);
    if (refusal == 0)
        refusal = fadc250_close(state, m, store, s, words, w);
    if (refusal == 0)
        return fadc250_finish(state, m, words, w);
    return refusal << 32;
} */

#ifdef __cplusplus
}
#endif

#endif
