/* Reads the blocks of a file record by record, those of samples/long.bin if none is named. */
#include <fadc250.h>
#include <inttypes.h>
#include <stdio.h>

#define ROOM 16384

/* The name of each kind of record and of its fields, each in its place. */
static const char *const names[FADC250_KIND_SCALERS + 1][FADC250_RECORD] = {
    [FADC250_KIND_BLOCK] = {"block", "slot", "number", "events"},
    [FADC250_KIND_PARAMETERS] = {"parameters", "PL", "NSB", "NSA"},
    [FADC250_KIND_EVENT] = {"event", "slot", "number"},
    [FADC250_KIND_TIME27] = {"clock of 27 bits", "time"},
    [FADC250_KIND_TIME48] = {"clock", "time"},
    [FADC250_KIND_WINDOW] = {"window", "channel", NULL, "width", "place", "pairs"},
    [FADC250_KIND_PULSE_RAW] = {"raw pulse", "channel", "pulse", "TC", "place", "pairs"},
    [FADC250_KIND_INTEGRAL] = {"integral", "channel", "pulse", "quality", "sum"},
    [FADC250_KIND_TIME] = {"time", "channel", "pulse", "quality", "coarse", "fine"},
    [FADC250_KIND_PEDESTAL] = {"pedestal", "channel", "pulse", NULL, "VMIN", "VPEAK"},
    [FADC250_KIND_TRAILER] = {"trailer", "slot", "words"},
    [FADC250_KIND_FILLERS] = {"fillers", "slot", "count"},
    [FADC250_KIND_EMPTY] = {"module empty", "slot"},
    [FADC250_KIND_END] = {"end"},
    [FADC250_KIND_SCALERS] = {"scalers", NULL, "count", NULL, "place"}};

static uint8_t bytes[4 * ROOM];
static uint32_t words[ROOM];

static void print_record(const uint64_t *record)
{
    const char *const *name = names[record[FADC250_KIND]];
    printf("%s", name[0]);
    for (size_t i = 1; i < FADC250_RECORD; i++)
        if (name[i] != NULL)
            printf(", %s %" PRIu64, name[i], record[i]);
    printf("\n");
}

/* A raw item's samples are in the block's words, at the place that its record gives. */
static void print_samples(const uint32_t *block, size_t w, const uint64_t *record)
{
    uint16_t samples[500];
    if (record[FADC250_KIND] != FADC250_KIND_WINDOW && record[FADC250_KIND] != FADC250_KIND_PULSE_RAW)
        return;
    uint64_t count = fadc250_samples(block, w, (uint32_t)record[FADC250_FIELD_PLACE],
                                     (uint32_t)record[FADC250_FIELD_PAIRS], samples, 500);
    printf("   ");
    for (uint64_t i = 0; i < count; i++)
        printf(" %u", samples[i]);
    printf("\n");
}

/* So are an event's scalers, each of them a word. */
static void print_scalers(const uint32_t *block, const uint64_t *record)
{
    if (record[FADC250_KIND] != FADC250_KIND_SCALERS || record[FADC250_FIELD_COUNT] == 0)
        return;
    printf("   ");
    for (uint64_t i = 0; i < record[FADC250_FIELD_COUNT]; i++)
        printf(" %" PRIu32, block[record[FADC250_FIELD_PLACE] + i]);
    printf("\n");
}

/* Prints the records of a block and answers its length in words, 0 if it is refused. */
static size_t read_block(const uint32_t *block, size_t w)
{
    uint32_t scan[FADC250_SCAN] = {0};
    uint64_t record[FADC250_RECORD];
    uint64_t answer;
    do {
        answer = fadc250_next(scan, FADC250_SCAN, block, w, record, FADC250_RECORD);
        uint64_t refusal = answer >> 32;
        if (refusal != FADC250_ACCEPTED) {
            printf("refused %" PRIu64 " at word %" PRIu32 ", %s\n", refusal, (uint32_t)answer, fadc250_text(refusal));
            return 0;
        }
        print_record(record);
        print_samples(block, w, record);
        print_scalers(block, record);
    } while (record[FADC250_KIND] != FADC250_KIND_END);
    return (size_t)answer;
}

/* Reads at most ROOM words of a file; answers how many. */
static size_t read_words(const char *path)
{
    FILE *file = fopen(path, "rb");
    if (file == NULL)
        return 0;
    size_t n = fread(bytes, 1, sizeof bytes, file);
    fclose(file);
    return fadc250_from_bytes(bytes, n, words, ROOM);
}

int main(int argc, char **argv)
{
    size_t w = read_words(argc > 1 ? argv[1] : "samples/long.bin");
    size_t place = 0;
    size_t length = 1;
    while (place < w && length != 0) {
        length = read_block(words + place, w - place);
        place += length;
    }
    return 0;
}
