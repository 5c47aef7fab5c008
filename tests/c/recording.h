/*
 * A recording made by hand, over document 01's loop A, in which PIDs 256, 257 and 258 are those of layers 0, 1 and 2: eight packets, whose rows are document 01's
 * table and one of layer 2 between the last two.
 */
#include "thoquenry.h"

#include <stdio.h>
#include <string.h>

static int failures;

#define EXPECT(fact) \
    do { \
        if (!(fact)) { \
            fprintf(stderr, "%s:%d: not so: %s\n", __FILE__, __LINE__, #fact); \
            failures++; \
        } \
    } while (0)

static const uint8_t loop_a[] = {
    0x1B, 0xE1, 0x00, 0xF0, 0x06, 0x04, 0x04, 0xFF, 0xC0, 0xFF, 0xC0, 0x1F, 0xE1, 0x01, 0xF0, 0x06, 0x04, 0x04, 0xD1,
    0xC1, 0x40, 0xC1, 0x28, 0xE1, 0x02, 0xF0, 0x0A, 0x3F, 0x08, 0x06, 0x00, 0x02, 0x08, 0x03, 0xC1, 0xC2, 0xC0,
};

/* Layers 0 and 2, of which 2 rests on 1, which is absent. */
static const uint8_t absent[] = {
    0x1B, 0xE1, 0x00, 0xF0, 0x06, 0x04, 0x04, 0xFF, 0xC0, 0xFF, 0xC0, 0x1F, 0xE1, 0x02, 0xF0, 0x06, 0x04, 0x04, 0xD1, 0xC2, 0x41, 0xC1,
};

enum { PACKETS = 8, ROWS = 5, RECORDING = PACKETS * THQ_PACKET_BYTES };

/* For each packet its PID, whether a unit starts in it, its counter, its decoding time, and its TREF where one is sent. The fourth is a copy of the third. */
static const struct { uint16_t pid; bool starts; uint8_t counter; uint64_t decoding, tref; } made[PACKETS] = {
    {8191, false, 0, 0, 0}, {256, true, 5, 9000, 0}, {257, true, 15, 9000, 9000}, {257, true, 15, 9000, 9000},
    {256, false, 6, 0, 0}, {256, true, 7, 12600, 0}, {258, true, 3, 9000, 0}, {257, true, 0, 12000, 12600},
};

static const uint8_t indices_made[ROWS] = {0, 1, 0, 2, 1}, trefs_made[ROWS] = {0, 1, 0, 0, 1};
static const uint64_t decodings_made[ROWS] = {9000, 9000, 12600, 9000, 12000}, matches_made[ROWS] = {9000, 9000, 12600, 9000, 12600}, numbers_made[ROWS] = {1, 2, 5, 6, 7};

/* The units for target 1: rows 0 and 1, and rows 2 and 4, whose second is decoded 600 ticks before the first. */
static const uint64_t units_made[] = {0, 1, 2, 4}, sizes_made[] = {2, 2}, summary_made[] = {3, 2};
static const int64_t lags_made[] = {0, 0, 600, 0};

/* Lays the recording into its bytes. */
static inline void make(uint8_t *packets)
{
    memset(packets, 0xFF, RECORDING);
    for (size_t k = 0; k < PACKETS; k++, packets += THQ_PACKET_BYTES) {
        packets[0] = 0x47;
        packets[1] = (uint8_t)(made[k].starts << 6 | made[k].pid >> 8);
        packets[2] = (uint8_t)made[k].pid;
        packets[3] = (uint8_t)(0x10 | made[k].counter);
        if (made[k].starts) {
            uint64_t match = made[k].tref ? made[k].tref : made[k].decoding;
            EXPECT(THQ_NUMBER(thq_write_times(made[k].decoding, made[k].decoding, match, made[k].tref != 0, packets + 4, 64)) == 0);
        }
    }
}

/* Columns and lists of so many places each, and work space, whose contents tell what was written. */
enum { PLACES = 600 };
static uint8_t indices[PLACES], trefs[PLACES];
static uint64_t decodings[PLACES], matches[PLACES], packet_numbers[PLACES], keys[PLACES], numbers[PLACES], sizes[PLACES], summary[3];
static size_t order[PLACES], kept[PLACES], places[PLACES], heads[PLACES];
static bool claimed[PLACES], used[PLACES];
static int64_t lags[PLACES];

#define FILLED 0x7777777777777777

static inline void fill(void)
{
    memset(indices, 0x77, sizeof indices), memset(trefs, 0x77, sizeof trefs);
    memset(decodings, 0x77, sizeof decodings), memset(matches, 0x77, sizeof matches), memset(packet_numbers, 0x77, sizeof packet_numbers);
    memset(numbers, 0x77, sizeof numbers), memset(lags, 0x77, sizeof lags), memset(sizes, 0x77, sizeof sizes), memset(summary, 0x77, sizeof summary);
}

/* Whether the columns hold the first rows of the recording, so many, and beyond them what they held. */
static inline bool columns_hold(size_t rows)
{
    bool held = memcmp(indices, indices_made, rows) == 0 && memcmp(trefs, trefs_made, rows) == 0 && memcmp(decodings, decodings_made, 8 * rows) == 0
                && memcmp(matches, matches_made, 8 * rows) == 0 && memcmp(packet_numbers, numbers_made, 8 * rows) == 0;
    for (size_t k = rows; k < PLACES; k++)
        held = held && indices[k] == 0x77 && trefs[k] == 0x77 && decodings[k] == FILLED && matches[k] == FILLED && packet_numbers[k] == FILLED;
    return held;
}

/* Whether the lists hold the units for target 1, or nothing, and beyond that what they held. */
static inline bool lists_hold(bool units)
{
    size_t rows = units ? 4 : 0, count = units ? 2 : 0;
    bool held = memcmp(numbers, units_made, 8 * rows) == 0 && memcmp(lags, lags_made, 8 * rows) == 0 && memcmp(sizes, sizes_made, 8 * count) == 0
                && memcmp(summary, summary_made, 8 * count) == 0;
    for (size_t k = rows; k < PLACES; k++)
        held = held && numbers[k] == FILLED && lags[k] == FILLED;
    for (size_t k = count; k < PLACES; k++)
        held = held && sizes[k] == FILLED;
    return held && summary[2] == FILLED && (units || (summary[0] == FILLED && summary[1] == FILLED));
}
