/*
 * A recording in pieces called from C: the one made by hand, cut byte by byte and at every place, with the rows, the answers and the units of the whole; columns that are too short; and buffers that hold
 * no recording. Ends with status 0 when all is as it should be.
 */
#include "recording.h"

static uint8_t packets[RECORDING];
static thq_recording recording;

static uint64_t start(void)
{
    return thq_packets_start(loop_a, sizeof loop_a, recording.state, THQ_PACKETS_STATE, recording.counts, THQ_PACKETS_COUNTS);
}

/* One piece more, with so many places in each column. */
static uint64_t feed(const uint8_t *piece, size_t length, size_t room)
{
    return thq_packets_feed(piece, length, recording.state, THQ_PACKETS_STATE, recording.counts, THQ_PACKETS_COUNTS, indices, room, decodings, room,
                            matches, room, trefs, room, packet_numbers, room);
}

static uint64_t told(void)
{
    return thq_packets_told(recording.state, THQ_PACKETS_STATE, recording.counts, THQ_PACKETS_COUNTS);
}

/* The units, with so many places in the columns, in the work space and in the lists. */
static uint64_t units(uint64_t target, size_t columns, size_t work, size_t room)
{
    return thq_packets_units(loop_a, sizeof loop_a, target, recording.state, THQ_PACKETS_STATE, recording.counts, THQ_PACKETS_COUNTS, indices, columns,
                             decodings, columns, matches, columns, order, work, keys, work, kept, work, places, work, heads, work, claimed, work, used,
                             work, numbers, room, lags, room, sizes, room, summary, 2);
}

/* What is told at the end of the recording. */
static void expect_the_whole(void)
{
    EXPECT(told() == 256 * ROWS);
    EXPECT(columns_hold(ROWS));
    EXPECT(units(1, PLACES, PLACES, PLACES) == 256 * 4);
    EXPECT(lists_hold(true));
}

static void byte_by_byte(void)
{
    make(packets);
    fill();
    EXPECT(start() == 256 * 3);
    EXPECT(told() == 0);
    for (size_t at = 0; at < RECORDING; at++) {
        size_t rows = 0, whole = (at + 1) / THQ_PACKET_BYTES;
        while (rows < ROWS && numbers_made[rows] < whole)
            rows++;
        EXPECT(feed(packets + at, 1, PLACES) == 256 * rows);
        EXPECT(columns_hold(rows));
        EXPECT(told() == ((at + 1) % THQ_PACKET_BYTES == 0 ? 256 * rows : THQ_REFUSED_LOST_SYNC + 256 * whole));
    }
    expect_the_whole();
    EXPECT(recording.counts[64] == 0 && recording.counts[65] == PACKETS && recording.counts[70] == ROWS && recording.counts[71] == 0);
}

/* Two pieces, cut at every place. */
static void at_every_place(void)
{
    make(packets);
    for (size_t at = 0; at <= RECORDING; at++) {
        fill();
        EXPECT(start() == 256 * 3);
        EXPECT(THQ_NUMBER(feed(packets, at, PLACES)) == 0);
        EXPECT(feed(NULL, 0, PLACES) == 256 * recording.counts[70]);
        EXPECT(feed(packets + at, RECORDING - at, ROWS) == 256 * ROWS);
        expect_the_whole();
    }
}

static void refusals(void)
{
    make(packets);
    fill();
    /* 11 and 12 before those of the packets, and those before 13, which comes before joining's */
    EXPECT(start() == 256 * 3);
    EXPECT(feed(packets, RECORDING - 1, PLACES) == 256 * (ROWS - 1));
    EXPECT(units(3, PLACES, PLACES, PLACES) == THQ_REFUSED_NO_SUCH_LAYER);
    EXPECT(units(1, 0, 0, 0) == THQ_REFUSED_LOST_SYNC + 256 * (PACKETS - 1));
    EXPECT(feed(packets + RECORDING - 1, 1, PLACES) == 256 * ROWS);
    EXPECT(units(1, ROWS - 1, PLACES, PLACES) == THQ_REFUSED_OUT_OF_RANGE);
    EXPECT(units(1, PLACES, ROWS - 1, PLACES) == THQ_REFUSED_OUT_OF_RANGE);
    EXPECT(units(1, PLACES, PLACES, 3) == THQ_REFUSED_NO_ROOM);
    EXPECT(lists_hold(false));
    EXPECT(units(1, ROWS, ROWS, 4) == 256 * 4);
    EXPECT(lists_hold(true));

    /* a PES header with its packet; a counter later is lower; and a byte that is not the sync byte lower still */
    packets[5 * THQ_PACKET_BYTES + 7] = 0xC0;
    EXPECT(start() == 256 * 3);
    EXPECT(feed(packets, RECORDING, PLACES) == 256 * (ROWS - 1));
    EXPECT(told() == THQ_REFUSED_NOT_VIDEO_HEADER + 256 * 5);
    EXPECT(feed(packets + THQ_PACKET_BYTES, 100, PLACES) == 256 * (ROWS - 1));
    EXPECT(feed(packets + THQ_PACKET_BYTES + 100, 88, PLACES) == 256 * (ROWS - 1));
    EXPECT(told() == THQ_REFUSED_COUNTER_GAP + 256 * 8);
    EXPECT(units(1, PLACES, PLACES, PLACES) == told());
    EXPECT(feed((const uint8_t *)"", 1, PLACES) == 256 * (ROWS - 1));
    EXPECT(told() == THQ_REFUSED_LOST_SYNC + 256 * 9);
}

/* Columns that are too short: the rows that find room are laid, all are counted, and the answer is 13 from then on. */
static void no_room(void)
{
    make(packets);
    fill();
    EXPECT(start() == 256 * 3);
    EXPECT(feed(packets, RECORDING / 2, 1) == 256 * 2);
    EXPECT(columns_hold(1));
    EXPECT(feed(packets + RECORDING / 2, RECORDING / 2, PLACES) == 256 * ROWS);
    EXPECT(recording.counts[71] == 1);
    EXPECT(told() == THQ_REFUSED_OUT_OF_RANGE);
    EXPECT(units(1, PLACES, PLACES, PLACES) == THQ_REFUSED_OUT_OF_RANGE);
    EXPECT(units(3, PLACES, PLACES, PLACES) == THQ_REFUSED_NO_SUCH_LAYER);
    EXPECT(lists_hold(false));
}

/* Lengths and numbers that no recording has: nothing is written. */
static void no_recording(void)
{
    const struct { size_t place; uint64_t value; } wrong[] = {
        {0, 2}, {63, UINT64_MAX}, {64, 188}, {65, (UINT64_C(1) << 48) + 1}, {66, 29}, {66, 35}, {68, 19}, {68, 26}, {70, PACKETS + 1}, {71, 2},
    };
    const uint8_t no_loop[4] = {0};
    thq_recording before;

    make(packets);
    fill();
    EXPECT(start() == 256 * 3);
    EXPECT(feed(packets, RECORDING, PLACES) == 256 * ROWS);
    before = recording;
    EXPECT(thq_packets_start(no_loop, sizeof no_loop, recording.state, THQ_PACKETS_STATE, recording.counts, THQ_PACKETS_COUNTS) == THQ_REFUSED_DOES_NOT_FIT);
    for (int by = -1; by <= 1; by++) {
        size_t state_length = THQ_PACKETS_STATE - (by == -1), counts_length = THQ_PACKETS_COUNTS - (by == 1);
        if (by == 0)
            continue;
        EXPECT(thq_packets_start(no_loop, sizeof no_loop, recording.state, state_length, recording.counts, counts_length) == THQ_NOT_A_CALL);
        EXPECT(thq_packets_told(recording.state, state_length, recording.counts, counts_length) == THQ_NOT_A_CALL);
        EXPECT(thq_packets_feed(packets, RECORDING, recording.state, state_length, recording.counts, counts_length, indices, PLACES, decodings, PLACES, matches,
                                PLACES, trefs, PLACES, packet_numbers, PLACES) == THQ_NOT_A_CALL);
    }
    EXPECT(memcmp(&before, &recording, sizeof before) == 0);
    for (size_t k = 0; k < sizeof wrong / sizeof wrong[0]; k++) {
        recording.counts[wrong[k].place] = wrong[k].value;
        EXPECT(told() == THQ_NOT_A_CALL);
        EXPECT(feed(packets, RECORDING, PLACES) == THQ_NOT_A_CALL);
        EXPECT(units(3, 0, 0, 0) == THQ_NOT_A_CALL);
        recording.counts[wrong[k].place] = before.counts[wrong[k].place];
        EXPECT(memcmp(&before, &recording, sizeof before) == 0);
    }
    EXPECT(columns_hold(ROWS) && lists_hold(false));
    expect_the_whole();
}

/* A buffer of no elements may be null. */
static void null_buffers(void)
{
    EXPECT(thq_packets_start(NULL, 0, NULL, 0, NULL, 0) == THQ_NOT_A_CALL);
    EXPECT(thq_packets_told(NULL, 0, NULL, 0) == THQ_NOT_A_CALL);
    EXPECT(thq_packets_feed(NULL, 0, NULL, 0, NULL, 0, NULL, 0, NULL, 0, NULL, 0, NULL, 0, NULL, 0) == THQ_NOT_A_CALL);
    EXPECT(thq_packets_start(NULL, 0, recording.state, THQ_PACKETS_STATE, recording.counts, THQ_PACKETS_COUNTS) == 0);
    EXPECT(thq_packets_feed(packets, RECORDING, recording.state, THQ_PACKETS_STATE, recording.counts, THQ_PACKETS_COUNTS, NULL, 0, NULL, 0, NULL, 0, NULL, 0,
                            NULL, 0) == 0);
    EXPECT(told() == 0);
    EXPECT(start() == 256 * 3);
    EXPECT(units(1, 0, 0, 0) == 0 && summary[0] == 3 && summary[1] == 0);
}

int main(void)
{
    byte_by_byte();
    at_every_place();
    refusals();
    no_room();
    no_recording();
    null_buffers();
    return failures != 0;
}
