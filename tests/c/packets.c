/*
 * Recordings of transport packets called from C, all bytes at once: the rows of one made by hand, the whole import with columns of the library's own and of the caller's, what each list holds
 * afterwards, refusals in their order, rooms that are too small, and null pointers of buffers of no elements. Ends with status 0 when all is as it should be.
 */
#include "recording.h"

static uint8_t packets[RECORDING];
static uint64_t starts[PLACES];

/* The rows of the first bytes, with so many places in each column and in `starts`. */
static uint64_t rows_of(size_t length, size_t room, size_t room_of_starts)
{
    return thq_packets_rows(loop_a, sizeof loop_a, packets, length, starts, room_of_starts, indices, room, decodings, room, matches, room, trefs, room,
                            packet_numbers, room);
}

/* The import of the first bytes with so many places in each list. */
static uint64_t import(uint64_t target, size_t length, size_t room, size_t room_of_summary)
{
    return thq_packets_import(loop_a, sizeof loop_a, target, packets, length, numbers, room, lags, room, sizes, room, summary, room_of_summary);
}

/* The same with so many places in each column, in the work space and in each list. */
static uint64_t import_long(uint64_t target, size_t length, size_t columns, size_t work, size_t room, size_t room_of_summary)
{
    return thq_packets_import_long(loop_a, sizeof loop_a, target, packets, length, indices, columns, decodings, columns, matches, columns, trefs, columns,
                                   packet_numbers, columns, order, work, keys, work, kept, work, places, work, heads, work, claimed, work, used, work,
                                   numbers, room, lags, room, sizes, room, summary, room_of_summary);
}

static void rows(void)
{
    make(packets);
    fill();
    EXPECT(rows_of(RECORDING, ROWS - 1, PLACES) == THQ_REFUSED_OUT_OF_RANGE);
    EXPECT(rows_of(RECORDING, PLACES, ROWS - 1) == THQ_REFUSED_OUT_OF_RANGE);
    EXPECT(rows_of(RECORDING - 1, PLACES, PLACES) == THQ_REFUSED_LOST_SYNC + 256 * (PACKETS - 1));
    EXPECT(columns_hold(0));
    EXPECT(rows_of(RECORDING, ROWS, ROWS) == 256 * ROWS);
    EXPECT(columns_hold(ROWS));
    fill();
    EXPECT(rows_of(RECORDING, PLACES, PLACES) == 256 * ROWS);
    EXPECT(columns_hold(ROWS));
    fill();
    EXPECT(rows_of(2 * THQ_PACKET_BYTES, PLACES, PLACES) == 256 * 1);
    EXPECT(columns_hold(1));
}

static void whole_import(void)
{
    make(packets);
    fill();
    EXPECT(import(3, RECORDING - 1, PLACES, 2) == THQ_REFUSED_NO_SUCH_LAYER);
    EXPECT(import(1, RECORDING - 1, PLACES, 2) == THQ_REFUSED_LOST_SYNC + 256 * (PACKETS - 1));
    EXPECT(import(1, RECORDING, 3, 2) == THQ_REFUSED_NO_ROOM);
    EXPECT(import(1, RECORDING, 4, 1) == THQ_REFUSED_NO_ROOM);
    EXPECT(lists_hold(false));
    EXPECT(import(1, RECORDING, 4, 2) == 256 * 4);
    EXPECT(lists_hold(true));
    fill();
    EXPECT(import(1, RECORDING, PLACES, 3) == 256 * 4);
    EXPECT(lists_hold(true));
}

static void long_import(void)
{
    make(packets);
    fill();
    EXPECT(import_long(3, RECORDING - 1, ROWS, ROWS, 4, 2) == THQ_REFUSED_NO_SUCH_LAYER);
    EXPECT(import_long(1, RECORDING - 1, ROWS, ROWS, 4, 2) == THQ_REFUSED_LOST_SYNC + 256 * (PACKETS - 1));
    EXPECT(import_long(1, RECORDING, ROWS - 1, ROWS, 4, 2) == THQ_REFUSED_OUT_OF_RANGE);
    EXPECT(import_long(1, RECORDING, ROWS, ROWS - 1, 4, 2) == THQ_REFUSED_OUT_OF_RANGE);
    EXPECT(columns_hold(0) && lists_hold(false));

    /* the columns hold the rows although the lists have no room */
    EXPECT(import_long(1, RECORDING, ROWS, ROWS, 3, 2) == THQ_REFUSED_NO_ROOM);
    EXPECT(columns_hold(ROWS) && lists_hold(false));
    fill();
    EXPECT(import_long(1, RECORDING, ROWS, ROWS, 4, 2) == 256 * 4);
    EXPECT(columns_hold(ROWS) && lists_hold(true));

    /* the last row has no partner: its packet is to be seen */
    fill();
    memcpy(packets + 5 * THQ_PACKET_BYTES, packets, THQ_PACKET_BYTES);
    EXPECT(import_long(1, RECORDING, PLACES, PLACES, PLACES, 2) == THQ_REFUSED_UNPAIRED + 256 * 3);
    EXPECT(indices[3] == 1 && decodings[3] == 12000 && matches[3] == 12600 && trefs[3] == 1 && packet_numbers[3] == 7 && packet_numbers[4] == FILLED);
    EXPECT(lists_hold(false));
}

/* A byte of one packet changed: what the recording is refused with. */
static uint64_t with(size_t packet, size_t place, uint8_t byte)
{
    make(packets);
    packets[packet * THQ_PACKET_BYTES + place] = byte;
    return rows_of(RECORDING, PLACES, PLACES);
}

static void refusals(void)
{
    fill();
    EXPECT(with(0, 0, 0x48) == THQ_REFUSED_LOST_SYNC);
    EXPECT(with(4, 3, 0x17) == THQ_REFUSED_COUNTER_GAP + 256 * 4);
    EXPECT(with(3, 187, 0x00) == THQ_REFUSED_COUNTER_GAP + 256 * 3);
    EXPECT(with(6, 12, 176) == THQ_REFUSED_OUTSIDE_PACKET + 256 * 6);
    EXPECT(with(4, 3, 0x56) == THQ_REFUSED_SCRAMBLED + 256 * 4);
    EXPECT(with(5, 7, 0xC0) == THQ_REFUSED_NOT_VIDEO_HEADER + 256 * 5);
    EXPECT(with(5, 11, 0x00) == THQ_REFUSED_NO_PTS + 256 * 5);
    EXPECT(with(5, 12, 4) == THQ_REFUSED_FIELDS_DO_NOT_FIT + 256 * 5);
    EXPECT(with(5, 17, 0x50) == THQ_REFUSED_WRONG_MARKER + 256 * 5);
    EXPECT(columns_hold(0));
    /* skipped whole, with its counter: the next on its PID then has another than the last one's */
    EXPECT(with(4, 1, 0x81) == THQ_REFUSED_COUNTER_GAP + 256 * 5);
    EXPECT(with(6, 1, 0xC1) == 256 * (ROWS - 1));
    /* nothing of a packet of no layer but its first byte */
    fill();
    EXPECT(with(0, 3, 0xC7) == 256 * ROWS);
    EXPECT(columns_hold(ROWS));
}

/* Lowest first: the loop's, 11 and 12, the packets', 13, joining's. */
static void in_order(void)
{
    const uint8_t no_loop[4] = {0};

    make(packets);
    fill();
    EXPECT(thq_packets_rows(no_loop, sizeof no_loop, packets, 1, NULL, 0, NULL, 0, NULL, 0, NULL, 0, NULL, 0, NULL, 0) == THQ_REFUSED_DOES_NOT_FIT);
    EXPECT(thq_packets_import(absent, sizeof absent, 2, packets, 1, NULL, 0, NULL, 0, NULL, 0, NULL, 0) == THQ_REFUSED_EMBEDDED_LAYER_ABSENT + 256 * 1);
    EXPECT(thq_packets_import(absent, sizeof absent, 1, packets, 1, NULL, 0, NULL, 0, NULL, 0, NULL, 0) == THQ_REFUSED_NO_SUCH_LAYER);
    EXPECT(import(1, 1, 0, 0) == THQ_REFUSED_LOST_SYNC);
    EXPECT(rows_of(RECORDING - 1, 0, 0) == THQ_REFUSED_LOST_SYNC + 256 * (PACKETS - 1));
    EXPECT(import_long(1, RECORDING, 0, 0, 0, 0) == THQ_REFUSED_OUT_OF_RANGE);
    EXPECT(columns_hold(0) && lists_hold(false));
}

/* 513 units of the base, one a packet: too many for the first call, and not for the second. */
static void more_than_512_rows(void)
{
    enum { MANY = 513 };
    static uint8_t recording[MANY * THQ_PACKET_BYTES];

    make(packets);
    for (size_t k = 0; k < MANY; k++) {
        uint8_t *packet = recording + k * THQ_PACKET_BYTES;
        memcpy(packet, packets + THQ_PACKET_BYTES, THQ_PACKET_BYTES);
        packet[3] = (uint8_t)(0x10 | k % 16);
        EXPECT(THQ_NUMBER(thq_write_times(3600 * k, 3600 * k, 3600 * k, 0, packet + 4, 64)) == 0);
    }
    for (size_t rows = MANY - 1; rows <= MANY; rows++) {
        uint64_t answer = thq_packets_import(loop_a, sizeof loop_a, 1, recording, rows * THQ_PACKET_BYTES, numbers, PLACES, lags, PLACES, sizes, PLACES, summary, 2);
        EXPECT(answer == (rows < MANY ? 256 * rows : THQ_REFUSED_OUT_OF_RANGE));
    }
    uint64_t answer = thq_packets_import_long(loop_a, sizeof loop_a, 1, recording, sizeof recording, indices, MANY, decodings, MANY, matches, MANY, trefs, MANY, packet_numbers,
                                              MANY, order, MANY, keys, MANY, kept, MANY, places, MANY, heads, MANY, claimed, MANY, used, MANY, numbers, MANY, lags, MANY,
                                              sizes, MANY, summary, 2);
    EXPECT(answer == 256 * MANY && summary[0] == 3 && summary[1] == MANY);
    for (size_t k = 0; k < MANY; k++)
        EXPECT(packet_numbers[k] == k && decodings[k] == 3600 * k && numbers[k] == k && lags[k] == 0 && sizes[k] == 1);
}

/* A buffer of no elements may be null, in every place. */
static void null_buffers(void)
{
    EXPECT(thq_packets_rows(NULL, 0, NULL, 0, NULL, 0, NULL, 0, NULL, 0, NULL, 0, NULL, 0, NULL, 0) == 0);
    EXPECT(thq_packets_import(NULL, 0, 0, NULL, 0, NULL, 0, NULL, 0, NULL, 0, NULL, 0) == THQ_REFUSED_NO_SUCH_LAYER);
    EXPECT(thq_packets_import(loop_a, sizeof loop_a, 1, NULL, 0, NULL, 0, NULL, 0, NULL, 0, NULL, 0) == THQ_REFUSED_NO_ROOM);
    EXPECT(thq_packets_import(loop_a, sizeof loop_a, 1, NULL, 0, NULL, 0, NULL, 0, NULL, 0, summary, 2) == 0 && summary[0] == 3 && summary[1] == 0);
    EXPECT(thq_packets_import_long(loop_a, sizeof loop_a, 1, NULL, 0, NULL, 0, NULL, 0, NULL, 0, NULL, 0, NULL, 0, NULL, 0, NULL, 0, NULL, 0, NULL, 0, NULL, 0, NULL, 0,
                                   NULL, 0, NULL, 0, NULL, 0, NULL, 0, summary, 2) == 0);
}

int main(void)
{
    rows();
    whole_import();
    long_import();
    refusals();
    in_order();
    more_than_512_rows();
    null_buffers();
    return failures != 0;
}
