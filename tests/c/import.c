/*
 * The library called from C: document 01's worked example of a whole import, the same in steps, two views without a hierarchy descriptor, and
 * what only C can hand over: unknown readings, columns of unequal length, rooms that are too small, and null pointers of buffers of no elements.
 * Ends with status 0 when all is as it should be.
 */
#include "thoquenry.h"

#include <stdio.h>
#include <string.h>

/* The struct lies over the 80 numbers. */
_Static_assert(sizeof(thq_entry) == 2 * THQ_ENTRY_NUMBERS, "an entry is 80 numbers of 16 bits");
_Static_assert(offsetof(thq_entry, hierarchy_layer_index) == 2 * 8, "hierarchy_layer_index is number 8");
_Static_assert(offsetof(thq_entry, num_embedded_layers) == 2 * 15, "num_embedded_layers is number 15");
_Static_assert(offsetof(thq_entry, zero) == 2 * 79, "the last number is 79");

static int failures;

#define EXPECT(fact) \
    do { \
        if (!(fact)) { \
            fprintf(stderr, "%s:%d: not so: %s\n", __FILE__, __LINE__, #fact); \
            failures++; \
        } \
    } while (0)

#define LENGTH(list) (sizeof(list) / sizeof((list)[0]))

static const uint8_t loop_a[] = {
    0x1B, 0xE1, 0x00, 0xF0, 0x06, 0x04, 0x04, 0xFF, 0xC0, 0xFF, 0xC0, 0x1F, 0xE1, 0x01, 0xF0, 0x06, 0x04, 0x04, 0xD1,
    0xC1, 0x40, 0xC1, 0x28, 0xE1, 0x02, 0xF0, 0x0A, 0x3F, 0x08, 0x06, 0x00, 0x02, 0x08, 0x03, 0xC1, 0xC2, 0xC0,
};

static const uint8_t indices[] = {0, 1, 0, 1};
static const uint64_t decodings[] = {9000, 9000, 12600, 12000};
static const uint64_t matches[] = {9000, 9000, 12600, 12600};

/* The import of the first `rows` rows of each column, with so many places in each list. */
static uint64_t import(uint64_t reading, uint64_t target, size_t rows, size_t last_column, uint64_t *numbers, int64_t *lags,
                       uint64_t *sizes, size_t places, uint64_t *summary, size_t summary_length)
{
    return thq_import(reading, loop_a, sizeof loop_a, target, indices, rows, decodings, rows, matches, last_column, numbers,
                      places, lags, places, sizes, places, summary, summary_length);
}

static void whole_import(void)
{
    const uint64_t expected_numbers[] = {0, 1, 2, 3, 77};
    const int64_t expected_lags[] = {0, 0, 600, 0, -77};
    const uint64_t expected_sizes[] = {2, 2, 77, 77, 77};
    const uint64_t expected_summary[] = {3, 2, 77};
    uint64_t numbers[] = {77, 77, 77, 77, 77};
    int64_t lags[] = {-77, -77, -77, -77, -77};
    uint64_t sizes[] = {77, 77, 77, 77, 77};
    uint64_t summary[] = {77, 77, 77};

    /* Refusals first: each leaves the lists as they are, so the acceptance after them finds them so. */
    EXPECT(import(2012, 1, 4, 4, numbers, lags, sizes, 5, summary, 3) == THQ_NOT_A_CALL);
    EXPECT(import(THQ_2009, 2, 4, 3, numbers, lags, sizes, 5, summary, 3) == THQ_REFUSED_NO_SUCH_LAYER);
    EXPECT(import(THQ_2015, UINT64_MAX, 4, 4, numbers, lags, sizes, 5, summary, 3) == THQ_REFUSED_NO_SUCH_LAYER);
    EXPECT(import(THQ_2015, 1, 4, 3, numbers, lags, sizes, 5, summary, 3) == THQ_REFUSED_OUT_OF_RANGE);
    EXPECT(import(THQ_2015, 1, 4, 4, numbers, lags, sizes, 3, summary, 3) == THQ_REFUSED_NO_ROOM);
    EXPECT(import(THQ_2015, 1, 4, 4, numbers, lags, sizes, 5, summary, 1) == THQ_REFUSED_NO_ROOM);
    EXPECT(numbers[0] == 77 && lags[0] == -77 && sizes[0] == 77 && summary[0] == 77);

    uint64_t answer = import(THQ_2015, 1, 4, 4, numbers, lags, sizes, 5, summary, 3);
    EXPECT(THQ_NUMBER(answer) == 0);
    EXPECT(THQ_VALUE(answer) == 4);
    EXPECT(memcmp(numbers, expected_numbers, sizeof numbers) == 0);
    EXPECT(memcmp(lags, expected_lags, sizeof lags) == 0);
    EXPECT(memcmp(sizes, expected_sizes, sizeof sizes) == 0);
    EXPECT(memcmp(summary, expected_summary, sizeof summary) == 0);
}

static void in_steps(void)
{
    thq_entry entries[3];
    uint8_t again[sizeof loop_a];
    uint64_t set = 0;
    const uint64_t embedded[] = {0, 1};
    uint64_t numbers[4], sizes[4], summary[2];
    int64_t lags[4];

    EXPECT(thq_read_loop(THQ_2015, loop_a, sizeof loop_a, (uint16_t *)entries, 3 * THQ_ENTRY_NUMBERS) == 3 * 256);
    EXPECT(entries[2].record == THQ_EXTENSION && entries[2].hierarchy_layer_index == 2 && entries[2].nuh_layer_id == 1);
    EXPECT(thq_read_loop(THQ_2015, loop_a, sizeof loop_a, (uint16_t *)entries, 3 * THQ_ENTRY_NUMBERS - 1) == 17);
    EXPECT(thq_write_loop((const uint16_t *)entries, 3 * THQ_ENTRY_NUMBERS, again, sizeof again - 1) == 17);
    EXPECT(thq_write_loop((const uint16_t *)entries, 3 * THQ_ENTRY_NUMBERS, again, sizeof again) == 256 * sizeof loop_a);
    EXPECT(memcmp(again, loop_a, sizeof loop_a) == 0);

    EXPECT(thq_closure(THQ_2015, loop_a, sizeof loop_a, 2, &set, 0) == 17);
    EXPECT(thq_closure(THQ_2015, loop_a, sizeof loop_a, 2, &set, 1) == 2 * 256 && set == 5);

    EXPECT(thq_join(3, embedded, LENGTH(embedded), 1, indices, 4, decodings, 4, matches, 4, numbers, 4, lags, 4, sizes, 4, summary, 2) == 4 * 256);
    EXPECT(numbers[2] == 2 && lags[2] == 600 && sizes[1] == 2 && summary[1] == 2);
    /* A set that is not there is empty. */
    EXPECT(thq_join(3, embedded, 0, 1, indices, 4, decodings, 4, matches, 4, numbers, 4, lags, 4, sizes, 4, summary, 2) == 2 * 256);
    EXPECT(numbers[0] == 1 && numbers[1] == 3 && sizes[0] == 1 && sizes[1] == 1 && summary[0] == 2 && summary[1] == 2);
}

/* A base at full rate and an enhancement at every second picture, 1,000 of these, in one table. */
static void more_than_512_rows(void)
{
    enum { PICTURES = 1000, ROWS = PICTURES + PICTURES / 2 };
    static uint8_t layer[ROWS];
    static uint64_t decoding[ROWS], match[ROWS], keys[ROWS], numbers[ROWS], sizes[ROWS];
    static size_t order[ROWS], kept[ROWS], places[ROWS], heads[ROWS];
    static bool claimed[ROWS], used[ROWS];
    static int64_t lags[ROWS];
    const uint64_t embedded[] = {0, 1};
    uint64_t summary[2];
    size_t rows = 0;

    for (uint64_t picture = 0; picture < PICTURES; picture++)
        for (uint8_t index = 0; index <= (picture % 2 == 0); index++, rows++) {
            layer[rows] = index;
            decoding[rows] = match[rows] = 3600 * picture;
        }
    EXPECT(rows == ROWS);
    for (size_t most = ROWS - 1; most <= ROWS; most++) {
        uint64_t answer = thq_join_long(3, embedded, 2, 1, layer, ROWS, decoding, ROWS, match, ROWS, order, ROWS, keys, most, kept, ROWS, places,
                                        ROWS, heads, ROWS, claimed, ROWS, used, ROWS, numbers, ROWS, lags, ROWS, sizes, ROWS, summary, 2);
        EXPECT(answer == (most < ROWS ? THQ_REFUSED_OUT_OF_RANGE : 256 * ROWS));
    }
    EXPECT(summary[0] == 3 && summary[1] == PICTURES);
    for (size_t k = 0; k < ROWS; k++)
        EXPECT(numbers[k] == k && lags[k] == 0);
    for (size_t unit = 0; unit < PICTURES; unit++)
        EXPECT(sizes[unit] == (unit % 2 == 0 ? 2 : 1));
}

/* Every field of the struct, by values that tell the fields apart. */
static void fields(void)
{
    const uint8_t loop[] = {
        0x1F, 0xEA, 0xBC, 0xF0, 0x06, 0x04, 0x04, 0xB3, 0xE9, 0xE8, 0xF2, 0x2B, 0xF2, 0x34,
        0xF0, 0x0C, 0x3F, 0x0A, 0x06, 0xFF, 0xFE, 0xFA, 0xC2, 0xC3, 0xD1, 0xFD, 0xC0, 0xE5,
    };
    const thq_entry expected[] = {
        {
            .stream_type = 0x1F,
            .elementary_pid = 0x0ABC,
            .record = THQ_HIERARCHY,
            .no_view_scalability_flag = 1,
            .no_temporal_scalability_flag = 0,
            .no_spatial_scalability_flag = 1,
            .no_quality_scalability_flag = 1,
            .hierarchy_type = 3,
            .hierarchy_layer_index = 41,
            .tref_present_flag = 1,
            .hierarchy_embedded_layer_index = 40,
            .hierarchy_channel = 50,
        },
        {
            .stream_type = 0x2B,
            .elementary_pid = 0x1234,
            .record = THQ_EXTENSION,
            .hierarchy_layer_index = 62,
            .tref_present_flag = 0,
            .hierarchy_channel = 17,
            .extension_dimension_bits = 0xFFFE,
            .temporal_id = 5,
            .nuh_layer_id = 33,
            .num_embedded_layers = 3,
            .embedded = {61, 0, 37},
        },
    };
    thq_entry read[2];
    uint8_t written[sizeof loop];

    EXPECT(thq_read_loop(THQ_2015, loop, sizeof loop, (uint16_t *)read, 2 * THQ_ENTRY_NUMBERS) == 2 * 256);
    EXPECT(memcmp(read, expected, sizeof expected) == 0);
    EXPECT(thq_write_loop((const uint16_t *)expected, 2 * THQ_ENTRY_NUMBERS, written, sizeof written) == 256 * sizeof loop);
    EXPECT(memcmp(written, loop, sizeof loop) == 0);
}

/* Two views without a hierarchy descriptor, and an audio stream between them. */
static void two_views(void)
{
    const uint8_t sports[] = {0x1B, 0xE1, 0x20, 0xF0, 0x00, 0x0F, 0xE1, 0x22, 0xF0, 0x00, 0x20, 0xE1, 0x21, 0xF0, 0x00};
    const thq_entry expected[] = {
        {.stream_type = 0x1B, .elementary_pid = 288, .record = THQ_IMPLIED},
        {.stream_type = 0x0F, .elementary_pid = 290, .record = THQ_NO_RECORD},
        {.stream_type = 0x20, .elementary_pid = 289, .record = THQ_IMPLIED},
    };
    const uint64_t readings[] = {THQ_2009, THQ_2015};
    thq_entry entries[3];
    uint8_t written[sizeof sports];
    uint64_t set, numbers[4], sizes[4], summary[2];
    int64_t lags[4];

    for (size_t k = 0; k < LENGTH(readings); k++) {
        EXPECT(thq_read_loop(readings[k], sports, sizeof sports, (uint16_t *)entries, 3 * THQ_ENTRY_NUMBERS) == 3 * 256);
        EXPECT(memcmp(entries, expected, sizeof expected) == 0);
        EXPECT(thq_closure(readings[k], sports, sizeof sports, 1, &set, 1) == 2 * 256 && set == 3);
        EXPECT(thq_import(readings[k], sports, sizeof sports, 1, indices, 4, decodings, 4, matches, 4, numbers, 4, lags, 4, sizes, 4, summary, 2) == 4 * 256);
        EXPECT(numbers[2] == 2 && lags[2] == 600 && sizes[0] == 2 && summary[0] == 3 && summary[1] == 2);
    }
    EXPECT(THQ_LAYER_INDEX(expected[0]) == 0 && THQ_LAYER_INDEX(expected[2]) == 1);

    /* No other field of a record is looked at, and no descriptor is written. */
    memset(&entries[2].no_view_scalability_flag, 0xFF, sizeof entries[2] - offsetof(thq_entry, no_view_scalability_flag));
    EXPECT(thq_write_loop((const uint16_t *)entries, 3 * THQ_ENTRY_NUMBERS, written, sizeof written) == 256 * sizeof sports);
    EXPECT(memcmp(written, sports, sizeof sports) == 0);

    /* The mark where none is given, and none where one is. */
    entries[1].record = THQ_IMPLIED;
    EXPECT(thq_write_loop((const uint16_t *)entries, 3 * THQ_ENTRY_NUMBERS, written, sizeof written) == THQ_REFUSED_TYPE_NOT_ALLOWED + 256 * 1);
    entries[1].record = THQ_NO_RECORD;
    entries[2].record = THQ_NO_RECORD;
    EXPECT(thq_write_loop((const uint16_t *)entries, 3 * THQ_ENTRY_NUMBERS, written, sizeof written) == THQ_REFUSED_TYPE_NOT_ALLOWED + 256 * 2);
    entries[2].record = THQ_IMPLIED + 1;
    EXPECT(thq_write_loop((const uint16_t *)entries, 3 * THQ_ENTRY_NUMBERS, written, sizeof written) == THQ_REFUSED_TOO_WIDE);
}

static void times(void)
{
    const uint8_t with_tref[] = {
        0x00, 0x00, 0x01, 0xE0, 0x00, 0x00, 0x84, 0x81, 0x0D, 0x21, 0x00, 0x01, 0x5D, 0xC1, 0x0F, 0x86, 0xFE, 0xF1, 0x00, 0x01, 0x62, 0x71,
    };
    uint64_t read[5];
    uint8_t written[sizeof with_tref];

    EXPECT(thq_read_times(with_tref, sizeof with_tref, read, 4) == 17);
    EXPECT(thq_read_times(with_tref, sizeof with_tref, read, 5) == 5 * 256);
    EXPECT(read[0] == 12000 && read[1] == 12000 && read[2] == 12600 && read[3] == 1 && read[4] == sizeof with_tref);
    EXPECT(thq_write_times(12000, 12000, 12600, 1, written, sizeof written - 1) == 17);
    EXPECT(thq_write_times(12000, 12000, 12600, 1, written, sizeof written) == 256 * sizeof written);
    EXPECT(memcmp(written, with_tref, sizeof written) == 0);
    EXPECT(thq_write_times(12000, 12000, UINT64_MAX, 1, written, 0) == THQ_REFUSED_TOO_WIDE);
    EXPECT(thq_write_times(12000, 12000, 12600, 0, written, 0) == THQ_REFUSED_TOO_WIDE);
    EXPECT(thq_write_times(12000, 12000, 12600, 2, written, 0) == THQ_REFUSED_TOO_WIDE);

    /* a TREF that equals the decoding time is written where it is asked for, and read as sent */
    EXPECT(thq_write_times(12000, 12000, 12000, 1, written, sizeof written) == 256 * sizeof written);
    EXPECT(thq_read_times(written, sizeof written, read, 5) == 5 * 256);
    EXPECT(read[2] == 12000 && read[3] == 1 && read[4] == sizeof written);
    EXPECT(thq_write_times(12000, 12000, 12000, 0, written, sizeof written) == 256 * 14);
    EXPECT(thq_read_times(written, sizeof written, read, 5) == 5 * 256);
    EXPECT(read[2] == 12000 && read[3] == 0 && read[4] == 14);
}

/* A buffer of no elements may be null, in every place of every call. */
static void null_buffers(void)
{
    uint64_t summary[] = {77, 77};
    uint64_t read[5];

    EXPECT(thq_read_loop(THQ_2015, NULL, 0, NULL, 0) == 0);
    EXPECT(thq_read_loop(THQ_2015, loop_a, sizeof loop_a, NULL, 0) == THQ_REFUSED_NO_ROOM);
    EXPECT(thq_write_loop(NULL, 0, NULL, 0) == 0);
    EXPECT(thq_closure(THQ_2009, NULL, 0, 0, NULL, 0) == THQ_REFUSED_NO_SUCH_LAYER);
    EXPECT(thq_closure(THQ_2015, loop_a, sizeof loop_a, 1, NULL, 0) == THQ_REFUSED_NO_ROOM);
    EXPECT(thq_read_times(NULL, 0, NULL, 0) == THQ_REFUSED_NO_ROOM);
    EXPECT(thq_read_times(NULL, 0, read, 5) == THQ_REFUSED_NOT_VIDEO_HEADER);
    EXPECT(thq_write_times(9000, 9000, 9000, 0, NULL, 0) == THQ_REFUSED_NO_ROOM);
    EXPECT(thq_join(1, NULL, 0, 0, NULL, 0, NULL, 0, NULL, 0, NULL, 0, NULL, 0, NULL, 0, NULL, 0) == THQ_REFUSED_NO_ROOM);
    EXPECT(thq_join(1, NULL, 0, 0, NULL, 0, NULL, 0, NULL, 0, NULL, 0, NULL, 0, NULL, 0, summary, 2) == 0);
    EXPECT(summary[0] == 1 && summary[1] == 0);
    EXPECT(thq_join(3, NULL, 0, 1, indices, 4, decodings, 4, matches, 4, NULL, 0, NULL, 0, NULL, 0, summary, 2) == THQ_REFUSED_NO_ROOM);
    EXPECT(thq_join_long(1, NULL, 0, 0, NULL, 0, NULL, 0, NULL, 0, NULL, 0, NULL, 0, NULL, 0, NULL, 0, NULL, 0, NULL, 0, NULL, 0, NULL, 0, NULL, 0, NULL,
                         0, summary, 2) == 0);
    EXPECT(thq_join_long(1, NULL, 0, 0, indices, 1, decodings, 1, matches, 1, NULL, 0, NULL, 0, NULL, 0, NULL, 0, NULL, 0, NULL, 0, NULL, 0, NULL, 0, NULL,
                         0, NULL, 0, summary, 2) == THQ_REFUSED_OUT_OF_RANGE);
    EXPECT(thq_import(THQ_2015, NULL, 0, 0, NULL, 0, NULL, 0, NULL, 0, NULL, 0, NULL, 0, NULL, 0, NULL, 0) == THQ_REFUSED_NO_SUCH_LAYER);
    EXPECT(thq_import(THQ_2015, loop_a, sizeof loop_a, 1, NULL, 0, NULL, 0, NULL, 0, NULL, 0, NULL, 0, NULL, 0, summary, 2) == 0);
    EXPECT(summary[0] == 3 && summary[1] == 0);
}

/* The library that is linked is the header's. */
static void version(void)
{
    EXPECT(thq_version() == THQ_VERSION_NUMBER);
}

int main(void)
{
    whole_import();
    in_steps();
    more_than_512_rows();
    fields();
    two_views();
    times();
    null_buffers();
    version();
    return failures != 0;
}
