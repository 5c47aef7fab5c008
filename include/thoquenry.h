/*
 * Thoquenry: a verified importer for layered television recordings.
 *
 * Every call takes whatever it is handed, ends, and answers with one number, `answer`:
 *
 *     THQ_NUMBER(answer)   0 where the call is accepted, or else the number of the refusal, an enum thq_refusal
 *     THQ_VALUE(answer)    the place of the refusal, or what the function says that it counts
 *
 * A refusal is the lowest number that applies, at the earliest place; THQ_NOT_A_CALL comes before all others. After a refusal every
 * output buffer holds what it held (thq_packets_import_long alone leaves rows in its columns, as it says); after an accepted call it holds
 * what it held beyond what was written.
 *
 * A buffer is a pointer and the number of its elements (not of its bytes). The pointer of a buffer of no elements may be null; no other
 * may. Buffers of one call may not overlap where one of them is written. A call takes up to 70 KB of stack (docs/BENCHMARKS.md in its
 * repository has what each takes), no heap, and keeps nothing between calls, so that threads may call at the same time. The library is
 * for x86-64 Linux.
 */
#ifndef THOQUENRY_H
#define THOQUENRY_H

#include <stdbool.h>
#include <stddef.h>
#include <stdint.h>

#ifdef __cplusplus
extern "C" {
#endif

/*
 * The version of this header, and the same as one number: 10,000 times the first part, 100 times the second, and the third. While the first
 * part is 0, a change by which a program that was built before would misread an answer raises the second, and after that the first; the
 * shared object's name goes with it (libthoquenry.so.0.5).
 */
#define THQ_VERSION "0.5.0"
#define THQ_VERSION_NUMBER 500

/* The version of the library that is linked, as such a number. */
uint64_t thq_version(void);

#define THQ_NUMBER(answer) ((answer) % 256)
#define THQ_VALUE(answer) ((answer) / 256)

/* The amendments by which a loop is read. */
#define THQ_2009 2009
#define THQ_2015 2015

/*
 * The refusals, in the words of words/refusals.tsv. {} stands for the place: an entry, a row, a packet or a layer index, from 0 on; a refusal
 * without it has place 0, but 20 to 24 in a recording have the number of the packet. No call gives 10, which older libraries gave for more than
 * 8 embedded layers.
 */
enum thq_refusal {
    /* the loop is longer than 1,008 bytes */
    THQ_REFUSED_LOOP_TOO_LONG = 1,
    /* entry {}, or a descriptor in it, doesn't fit in the bytes that hold it */
    THQ_REFUSED_DOES_NOT_FIT = 2,
    /* entry {} has a PID seen in an earlier entry */
    THQ_REFUSED_REPEATED_PID = 3,
    /* entry {}, a known stream, has tag 4 with length not 4, or the extension with another length than its count demands */
    THQ_REFUSED_WRONG_LENGTH = 4,
    /* entry {}, a known stream, has two hierarchy records */
    THQ_REFUSED_SECOND_RECORD = 5,
    /* entry {} has a type not allowed on this stream, or an extension on 0x1B, 0x1F or 0x20; or, to be written, its implied mark isn't what two views without a hierarchy descriptor give */
    THQ_REFUSED_TYPE_NOT_ALLOWED = 6,
    /* entry {} has type 9 with a flag at 0, or more than one flag at 0 and type not 8 */
    THQ_REFUSED_WRONG_FLAGS = 7,
    /* entry {} has a layer index, written or implied, held by an earlier layer */
    THQ_REFUSED_REPEATED_LAYER_INDEX = 8,
    /* entry {} has an embedded index not below the layer's own, or listed twice */
    THQ_REFUSED_WRONG_EMBEDDED_INDEX = 9,
    /* there is no layer with the target index */
    THQ_REFUSED_NO_SUCH_LAYER = 11,
    /* layer index {} is in the closure, and its layer is not in the loop */
    THQ_REFUSED_EMBEDDED_LAYER_ABSENT = 12,
    /* row {} is out of range; or, at row 0, the row columns are of unequal length or there are more than 512 rows, or than the columns or the work space have places */
    THQ_REFUSED_OUT_OF_RANGE = 13,
    /* row {} breaks the time order in its layer, which is in the closure */
    THQ_REFUSED_TIME_ORDER_BROKEN = 14,
    /* row {}, the head of a unit, has no assembly */
    THQ_REFUSED_UNPAIRED = 15,
    /* row {}, the head of a unit, would share a row with a head before it */
    THQ_REFUSED_USED_TWICE = 16,
    /* the output room is too small */
    THQ_REFUSED_NO_ROOM = 17,
    /* the decoding times of the closure rows lie 2^32 ticks or more apart */
    THQ_REFUSED_SPAN_TOO_WIDE = 18,
    /* this is not a video PES header */
    THQ_REFUSED_NOT_VIDEO_HEADER = 20,
    /* PTS_DTS_flags is 00 or 01 */
    THQ_REFUSED_NO_PTS = 21,
    /* flagged fields don't fit PES_header_data_length or their own length byte */
    THQ_REFUSED_FIELDS_DO_NOT_FIT = 22,
    /* a marker or prefix bit of PTS, DTS, TREF or the extension length is wrong */
    THQ_REFUSED_WRONG_MARKER = 23,
    /* PTS lies before DTS */
    THQ_REFUSED_PTS_BEFORE_DTS = 24,
    /* a value to be written is too wide for its field */
    THQ_REFUSED_TOO_WIDE = 25,
    /* packet {} has lost sync, or is the last part of one */
    THQ_REFUSED_LOST_SYNC = 30,
    /* packet {}, on a layer's PID, has another counter than the next one, and no discontinuity indicator */
    THQ_REFUSED_COUNTER_GAP = 31,
    /* packet {}, on a layer's PID, has an adaptation field, or a PES header (9 bytes and its data), that is not within it */
    THQ_REFUSED_OUTSIDE_PACKET = 32,
    /* packet {}, on a layer's PID, has a scrambled payload */
    THQ_REFUSED_SCRAMBLED = 33,
    /* the program's descriptor loop is longer than 1,008 bytes, a descriptor in it runs past it, or the fields of an operation point descriptor don't fill its length exactly */
    THQ_REFUSED_POINTS_DO_NOT_FIT = 40,
    /* an operation point has the reserved ES_count 0xFF */
    THQ_REFUSED_RESERVED_ES_COUNT = 41,
    /* an operation point refers to, or is to prepend, what is no layer of the loop */
    THQ_REFUSED_UNKNOWN_REFERENCE = 42,
    /* the loop has not exactly two layers, a base of type 0x1B and index 0 and a view of type 0x20 and index 1 resting on it */
    THQ_REFUSED_NOT_STEREO_SET = 44,
    /* on one of the two views the MVC extension descriptor is missing, doubled or of another length than 8 */
    THQ_REFUSED_WRONG_MVC_EXTENSION = 45,
    /* a range of view order index has a least above its greatest, or the two ranges share an index */
    THQ_REFUSED_RANGES_MEET = 46,

    /* the reading is neither THQ_2009 nor THQ_2015, or the buffers hold no layer set, or no recording */
    THQ_NOT_A_CALL = 255
};

/*
 * What an entry's `record` says: the stream is no layer, or which of the two descriptors makes it one, or that it is one without any.
 *
 * THQ_IMPLIED is the mark of two views: where a loop holds exactly one stream of type 0x1B and exactly one of type 0x20, in whichever order
 * and with whatever beside them, and neither has a hierarchy descriptor, the 0x1B is a base layer of index 0, and the 0x20 a layer of index 1
 * that rests on 0, each with channel 0. All of it follows from the stream type: an entry with this mark has no other field of a record.
 */
#define THQ_NO_RECORD 0
#define THQ_HIERARCHY 1
#define THQ_EXTENSION 2
#define THQ_IMPLIED 3

/*
 * One entry of an elementary-stream loop: 80 numbers of 16 bits each, 160 bytes, in the machine's byte order. A field that the entry's
 * record does not have is 0, and so is what stands in `embedded` beyond `num_embedded_layers`. "Both" are the two descriptors.
 *
 *     number  bytes      field                           in records
 *     0       0..1       stream_type                     all
 *     1       2..3       elementary_PID                  all
 *     2       4..5       record (THQ_..)                 all
 *     3       6..7       no_view_scalability_flag        hierarchy (0 means "enhances")
 *     4       8..9       no_temporal_scalability_flag    hierarchy
 *     5       10..11     no_spatial_scalability_flag     hierarchy
 *     6       12..13     no_quality_scalability_flag     hierarchy
 *     7       14..15     hierarchy_type                  hierarchy
 *     8       16..17     hierarchy_layer_index           both
 *     9       18..19     tref_present_flag               both
 *     10      20..21     hierarchy_embedded_layer_index  hierarchy
 *     11      22..23     hierarchy_channel               both
 *     12      24..25     extension_dimension_bits        extension
 *     13      26..27     temporal_id                     extension
 *     14      28..29     nuh_layer_id                    extension
 *     15      30..31     num_embedded_layers             extension
 *     16..78  32..157    the embedded layer indices, in the descriptor's order
 *     79      158..159   0
 */
typedef struct thq_entry {
    uint16_t stream_type;
    uint16_t elementary_pid;
    uint16_t record;
    uint16_t no_view_scalability_flag;
    uint16_t no_temporal_scalability_flag;
    uint16_t no_spatial_scalability_flag;
    uint16_t no_quality_scalability_flag;
    uint16_t hierarchy_type;
    uint16_t hierarchy_layer_index;
    uint16_t tref_present_flag;
    uint16_t hierarchy_embedded_layer_index;
    uint16_t hierarchy_channel;
    uint16_t extension_dimension_bits;
    uint16_t temporal_id;
    uint16_t nuh_layer_id;
    uint16_t num_embedded_layers;
    uint16_t embedded[63];
    uint16_t zero;
} thq_entry;

#define THQ_ENTRY_NUMBERS 80

/* The layer index of an entry that is a layer: of an implied one by its stream type, else its hierarchy_layer_index. */
#define THQ_LAYER_INDEX(entry) ((entry).record == THQ_IMPLIED ? (entry).stream_type == 0x20 : (entry).hierarchy_layer_index)

/*
 * Reads a loop. `entries` receives 80 numbers for each entry, in loop order, as laid out above. Counts the entries.
 * Refusals: 1 to 9, at an entry; 17 where `entries_length` is below 80 numbers for each entry.
 */
uint64_t thq_read_loop(uint64_t reading, const uint8_t *bytes, size_t bytes_length, uint16_t *entries, size_t entries_length);

/*
 * Writes a loop, by the 2015 reading's rules: one entry for each 80 numbers of `entries`, as laid out above. Counts the bytes written to
 * `out`. Numbers of `entries` after the last whole entry, fields that the entry's record does not have, and embedded indices
 * beyond the count are not looked at. No descriptor is written for THQ_IMPLIED.
 * Refusals: 25 first, where a value is too wide for its field, a `record` above 3 and a flag above 1 among them; then 1, which more than
 * 201 entries give too; then 3 and 6 to 9, at an entry; then 17. 6 is also given where THQ_IMPLIED stands on an entry that is not one of two
 * such views, and where it does not stand on one that is.
 */
uint64_t thq_write_loop(const uint16_t *entries, size_t entries_length, uint8_t *out, size_t out_length);

/*
 * The layers that a target rests on, itself included. `set` receives one number, whose bit i is 1 when layer index i is one of them.
 * Counts the layers.
 * Refusals: 1 to 9, 11, 12; then 17 where `set_length` is 0.
 */
uint64_t thq_closure(uint64_t reading, const uint8_t *bytes, size_t bytes_length, uint64_t target, uint64_t *set, size_t set_length);

/*
 * Reads the times of a PES header, and whether a TREF stands in it. `times` receives five numbers: PTS, decoding time and match time; 1 where a
 * TREF stood in the header, and else 0; and the offset at which the header ends, 9 plus its PES_header_data_length, stuffing included. Counts
 * them, 5.
 * Refusals: 17 where `times_length` is below 5; then 20 to 24.
 */
uint64_t thq_read_times(const uint8_t *bytes, size_t bytes_length, uint64_t *times, size_t times_length);

/*
 * Writes a PES header with these times, with a TREF where `with_tref` is 1, also one that equals the decoding time, and without one where it is 0.
 * Counts the bytes written to `out`.
 * Refusals: 25 where a time is 2^33 or more, where `with_tref` is above 1, and where it is 0 although the match time is not the decoding time;
 * then 17, 24.
 */
uint64_t thq_write_times(uint64_t pts, uint64_t decoding, uint64_t match, uint64_t with_tref, uint8_t *out, size_t out_length);

/*
 * Joins rows to units, over layers that the caller gives: bit i of `present` is 1 when there is a layer of index i, and number i of
 * `embedded` is the set of the indices that this layer names (a number that is not there is the empty set; those of `i` and above count
 * for nothing). Row k of the table is what stands at place k of `indices`, `decodings` and `matches`.
 *
 * A row of a layer that the target rests on is claimed if a row of such a layer that names its layer has a match time equal to its decoding
 * time. Every such row that is not claimed heads a unit. `numbers` receives the row numbers of the units, each in rising layer index; `lags` a
 * lag beside each, against the head; `sizes` the number of rows of each unit. The units come in order of the signed 33-bit distance of the
 * head's decoding time from that of the first row of such a layer, then by lower layer of the head, then by row. Each row of such a layer
 * stands in exactly one unit. `summary` receives two numbers: the set of the layer indices that the target rests on, and the number of units.
 * Counts the rows of such layers, which is how many places of `numbers` and of `lags` are written; of `sizes` there is one for each unit.
 * Refusals: 11, 12; then 13, at place 0 for more than 512 rows; then 14 to 16, and 18; then 17 where one of `numbers`, `lags` and `sizes` has
 * fewer places than there are rows of such layers, or `summary` fewer than two.
 */
uint64_t thq_join(uint64_t present, const uint64_t *embedded, size_t embedded_length, uint64_t target, const uint8_t *indices,
                  size_t indices_length, const uint64_t *decodings, size_t decodings_length, const uint64_t *matches,
                  size_t matches_length, uint64_t *numbers, size_t numbers_length, int64_t *lags, size_t lags_length,
                  uint64_t *sizes, size_t sizes_length, uint64_t *summary, size_t summary_length);

/*
 * Joins rows to units as thq_join does, of tables of any length: the caller lends work space. Each of `order`, `keys`, `kept`, `places`, `heads`,
 * `claimed` and `used` needs a place for every row of the table, and 13 is given at place 0 for more rows than the shortest of them has. What
 * they hold before is not looked at (a `bool` is 0 or 1), and what they hold after says nothing.
 */
uint64_t thq_join_long(uint64_t present, const uint64_t *embedded, size_t embedded_length, uint64_t target, const uint8_t *indices,
                       size_t indices_length, const uint64_t *decodings, size_t decodings_length, const uint64_t *matches,
                       size_t matches_length, size_t *order, size_t order_length, uint64_t *keys, size_t keys_length, size_t *kept,
                       size_t kept_length, size_t *places, size_t places_length, size_t *heads, size_t heads_length, bool *claimed,
                       size_t claimed_length, bool *used, size_t used_length, uint64_t *numbers, size_t numbers_length, int64_t *lags,
                       size_t lags_length, uint64_t *sizes, size_t sizes_length, uint64_t *summary, size_t summary_length);

/*
 * The whole import: the layers of a loop's bytes, and the rows joined over them. The lists are as in thq_join.
 * Refusals: 1 to 9; then as thq_join.
 */
uint64_t thq_import(uint64_t reading, const uint8_t *bytes, size_t bytes_length, uint64_t target, const uint8_t *indices,
                    size_t indices_length, const uint64_t *decodings, size_t decodings_length, const uint64_t *matches,
                    size_t matches_length, uint64_t *numbers, size_t numbers_length, int64_t *lags, size_t lags_length,
                    uint64_t *sizes, size_t sizes_length, uint64_t *summary, size_t summary_length);

/*
 * A RECORDING: transport packets of 188 bytes, one right after another, as they were received. Every unit that starts in a packet of a layer's PID is a row; the layers are
 * those of the loop by the 2015 reading, implied ones and those that the target does not rest on included. Row k, in order of arrival, is what stands at place k of five columns:
 *
 *     indices     its layer index
 *     decodings   its decoding time
 *     matches     its match time
 *     trefs       1 where a TREF stood in its PES header, also one that equals the decoding time, and else 0; joining does not read it
 *     numbers     the number of the packet in which it starts, from 0 on (`packet_numbers` where the units' row numbers stand beside)
 *
 * A recording is refused with the lowest of 30 to 33 at its earliest packet; or else with the lowest of 20 to 24 at its earliest packet, which is the place of these too:
 *
 *     30         a packet, of whichever PID and also one that is skipped, that does not begin with 0x47, or a last one of fewer than 188 bytes. The next packet stands 188 bytes after it all the same
 *     31         a counter that has not moved by one, modulo 16, from the last packet of the PID, or, on a packet without payload, that has moved; and no discontinuity indicator in the
 *                packet's own adaptation field, which is then at least one byte long and within the packet. The first packet of a PID has any counter
 *     32         an adaptation field that runs past its packet, or, where a unit starts and the payload is not scrambled, a PES header (9 bytes and its data) that does
 *     33         scrambling bits other than 00 on a packet with payload
 *     20 to 24   the PES header of a unit, as in thq_read_times
 *
 * 31 to 33 and 20 to 24 are asked on the PIDs of layers alone. A packet with its error bit set, or with adaptation control 00, is skipped whole: it has no row, and no counter is compared with
 * its own. So is a packet with payload that repeats the counter and all other bytes of the last one of its PID, the 6 bytes of the PCR aside where both have one: a copy counts once, however often
 * it comes. A recording of no bytes is accepted.
 */
#define THQ_PACKET_BYTES 188

/*
 * The rows of a recording, of which `packets` is all bytes. The five columns receive them from place 0 on. `starts` is work space: what it holds before is not looked at, and what it holds
 * after says nothing. Counts the rows.
 * Refusals: 1 to 9 of the loop `bytes`, at an entry; then 30 to 33 and 20 to 24, at a packet; then 13, at place 0, for more rows than the shortest of `starts` and the columns has places.
 */
uint64_t thq_packets_rows(const uint8_t *bytes, size_t bytes_length, const uint8_t *packets, size_t packets_length, uint64_t *starts,
                          size_t starts_length, uint8_t *indices, size_t indices_length, uint64_t *decodings, size_t decodings_length,
                          uint64_t *matches, size_t matches_length, uint8_t *trefs, size_t trefs_length, uint64_t *numbers,
                          size_t numbers_length);

/*
 * The whole import of a recording: its rows, joined over the layers of the loop `bytes`. The lists, the summary and what is counted are as in thq_import, with the numbers of rows as
 * thq_packets_rows has them.
 * Refusals: 1 to 9, at an entry; 11, 12; then 30 to 33 and 20 to 24, at a packet; then 13, at place 0, for more than 512 rows, of whichever layers; then 14 to 18 as in thq_import.
 */
uint64_t thq_packets_import(const uint8_t *bytes, size_t bytes_length, uint64_t target, const uint8_t *packets, size_t packets_length,
                            uint64_t *numbers, size_t numbers_length, int64_t *lags, size_t lags_length, uint64_t *sizes,
                            size_t sizes_length, uint64_t *summary, size_t summary_length);

/*
 * The whole import of a recording of any length: the caller lends the columns and the work space, each of which needs a place for every row, and 13 is given at place 0 for more rows than the shortest
 * of these twelve has. The work space, `order` to `used`, is as in thq_join_long. The columns receive the rows as soon as none of 1 to 13, 20 to 24 and 30 to 33 is given: after 14 to 18,
 * of which 14 to 16 name a row, they hold them too, and only after a lower number, or one of the packets', what they held. `numbers`, `lags`, `sizes` and `summary` are as in thq_import, and so is what is counted, the
 * rows in units: whoever wants to know how many rows of all layers there are fills `packet_numbers` with UINT64_MAX before, which is no packet's number.
 * Refusals: as thq_packets_import, but for 13.
 */
uint64_t thq_packets_import_long(const uint8_t *bytes, size_t bytes_length, uint64_t target, const uint8_t *packets, size_t packets_length,
                                 uint8_t *indices, size_t indices_length, uint64_t *decodings, size_t decodings_length, uint64_t *matches,
                                 size_t matches_length, uint8_t *trefs, size_t trefs_length, uint64_t *packet_numbers,
                                 size_t packet_numbers_length, size_t *order, size_t order_length, uint64_t *keys, size_t keys_length,
                                 size_t *kept, size_t kept_length, size_t *places, size_t places_length, size_t *heads,
                                 size_t heads_length, bool *claimed, size_t claimed_length, bool *used, size_t used_length,
                                 uint64_t *numbers, size_t numbers_length, int64_t *lags, size_t lags_length, uint64_t *sizes,
                                 size_t sizes_length, uint64_t *summary, size_t summary_length);

/*
 * A RECORDING IN PIECES, of any lengths and cut anywhere: two buffers of fixed length, which the caller owns and the functions below fill, whatever the length of the recording; and the five
 * columns, into which the rows are laid as they come. `state` is 20,412 bytes: for each of 8,192 PIDs the index of its layer, or 255; then the 188 of the packet that is not whole yet; then
 * 188 for each layer index, the last packet on its PID. Bytes behind the part of a packet, and at a layer without a last packet, say nothing. `counts` is 72 numbers:
 *
 *     counts[i]     for i below 64: 1 where a last packet on the PID of layer i is kept, and else 0
 *     counts[64]    the bytes of the packet that is not whole yet, below 188
 *     counts[65]    the number of whole packets
 *     counts[66]    the lowest of 30 to 33 so far, and 34 where there is none
 *     counts[67]    its earliest packet
 *     counts[68]    the lowest of 20 to 24 so far, and 25 where there is none
 *     counts[69]    its earliest packet
 *     counts[70]    the number of rows
 *     counts[71]    1 where a row found no room, and else 0
 *
 * However a recording is cut, thq_packets_told and thq_packets_units answer of it what thq_packets_rows and thq_packets_import_long answer of all its bytes at once, and the columns hold the same
 * rows. Buffers hold a recording where their lengths are exactly these, counts[0] to counts[63] and counts[71] are 0 or 1, counts[64] is below 188, counts[65] is at most 2^48, counts[66] is from 30 to 34,
 * counts[68] from 20 to 25, and counts[70] from counts[71] to counts[65]. Anything else is refused with THQ_NOT_A_CALL, before all other numbers, and nothing is written.
 */
#define THQ_PACKETS_STATE 20412
#define THQ_PACKETS_COUNTS 72

typedef struct thq_recording {
    uint8_t state[THQ_PACKETS_STATE];
    uint64_t counts[THQ_PACKETS_COUNTS];
} thq_recording;

/*
 * A recording of no bytes yet, over the layers of the loop `bytes`. `counts` and the first 8,192 bytes of `state` are written, whatever they held; the bytes after them are as they were, and are not looked at before
 * packets have been put there. Counts the layers.
 * Refusals: THQ_NOT_A_CALL where a length is not exactly that of a recording; 1 to 9, at an entry.
 */
uint64_t thq_packets_start(const uint8_t *bytes, size_t bytes_length, uint8_t *state, size_t state_length, uint64_t *counts,
                           size_t counts_length);

/*
 * One piece more. Its rows are laid behind those before, in the same columns, as far as the shortest of them has places: with as many more places than there are rows as the piece has whole packets, and
 * one, each finds room. That one did not is kept in counts[71]. A piece is taken whatever is in it: what is refused of the recording, thq_packets_told tells. Counts the rows of the recording so far, those
 * that found no room included.
 * Refusals: THQ_NOT_A_CALL where the buffers hold no recording, and where the bytes of the piece and the packets before it are together more than 2^48.
 */
uint64_t thq_packets_feed(const uint8_t *piece, size_t piece_length, uint8_t *state, size_t state_length, uint64_t *counts,
                          size_t counts_length, uint8_t *indices, size_t indices_length, uint64_t *decodings, size_t decodings_length,
                          uint64_t *matches, size_t matches_length, uint8_t *trefs, size_t trefs_length, uint64_t *numbers,
                          size_t numbers_length);

/*
 * What is told of a recording that ends here. Nothing is written, so that it can be asked at any time, and more pieces may follow. Counts the rows.
 * Refusals: THQ_NOT_A_CALL where the buffers hold no recording; then 30 to 33, 30 also where the last packet is not whole, and 20 to 24, at a packet; then 13, at place 0, where a row found no room.
 */
uint64_t thq_packets_told(const uint8_t *state, size_t state_length, const uint64_t *counts, size_t counts_length);

/*
 * The rows of a recording that ends here, joined over the layers of the loop `bytes`, which is that of thq_packets_start. The columns are those that the pieces filled, and may be longer than there are rows. The work space,
 * `order` to `used`, is as in thq_join_long, with a place for every row, and the lists, the summary and what is counted as in thq_import. It can be asked at any time, of several targets.
 * Refusals: THQ_NOT_A_CALL where the buffers hold no recording; then 1 to 9, at an entry; 11, 12; then as thq_packets_told; 13, at place 0, also for more rows than the shortest of the columns and of the work space
 * has places; then 14 to 18 as in thq_import.
 */
uint64_t thq_packets_units(const uint8_t *bytes, size_t bytes_length, uint64_t target, const uint8_t *state, size_t state_length,
                           const uint64_t *counts, size_t counts_length, const uint8_t *indices, size_t indices_length,
                           const uint64_t *decodings, size_t decodings_length, const uint64_t *matches, size_t matches_length,
                           size_t *order, size_t order_length, uint64_t *keys, size_t keys_length, size_t *kept, size_t kept_length,
                           size_t *places, size_t places_length, size_t *heads, size_t heads_length, bool *claimed,
                           size_t claimed_length, bool *used, size_t used_length, uint64_t *numbers, size_t numbers_length,
                           int64_t *lags, size_t lags_length, uint64_t *sizes, size_t sizes_length, uint64_t *summary,
                           size_t summary_length);

/*
 * An MVC extension descriptor (tag 49, length 8; Table AMD4.1 of the 2009 amendment for MVC): 8 numbers of 16 bits each, 16 bytes, in the machine's byte order, one for each
 * field of the table, in its order. Rates are in thousands of bits a second, 0 where none is told; the view order indices are a range, both ends in it.
 *
 *     number  bytes    field                        bits
 *     0       0..1     average_bit_rate             16
 *     1       2..3     maximum_bitrate              16
 *     2       4..5     view_order_index_min         10
 *     3       6..7     view_order_index_max         10
 *     4       8..9     temporal_id_start            3
 *     5       10..11   temporal_id_end              3
 *     6       12..13   no_sei_nal_unit_present      1
 *     7       14..15   no_prefix_nal_unit_present   1
 */
typedef struct thq_mvc_extension {
    uint16_t average_bit_rate;
    uint16_t maximum_bitrate;
    uint16_t view_order_index_min;
    uint16_t view_order_index_max;
    uint16_t temporal_id_start;
    uint16_t temporal_id_end;
    uint16_t no_sei_nal_unit_present;
    uint16_t no_prefix_nal_unit_present;
} thq_mvc_extension;

#define THQ_MVC_EXTENSION_NUMBERS 8

/*
 * Reads a stereo set, by the 2015 reading: a loop with exactly two layers, a base of type 0x1B and index 0 and one of type 0x20 and index 1 that rests on it, each
 * with one MVC extension descriptor. `entries` receives 160 numbers: the entry of layer 0, then that of layer 1, as laid out above. `extensions` receives 16 numbers:
 * the descriptor of layer 0, then that of layer 1. Counts the layers, 2. Entries that are no layers may stand beside, and a descriptor of tag 49 on them is not looked at.
 * Refusals: 1 to 9, at an entry; then 44 where the loop has not these two layers; 45 where on one of them the descriptor is missing, doubled or of another length than 8;
 * 46 where the least index of a range exceeds its greatest, or the two ranges share an index; then 17 where `entries_length` is below 160 or `extensions_length` below 16.
 */
uint64_t thq_read_stereo(const uint8_t *bytes, size_t bytes_length, uint16_t *entries, size_t entries_length, uint16_t *extensions,
                         size_t extensions_length);

/*
 * Writes a loop that is a stereo set: all its entries, as thq_write_loop takes them, and behind the hierarchy descriptor of the two layers, if any, the MVC extension
 * descriptor of each. `extensions` has the descriptor of layer 0, then that of layer 1; a number that is not there is 0, and those after the 16th are not looked at. Counts
 * the bytes written to `out`.
 * Refusals: 25 first, where a value of `entries` or of `extensions` is too wide for its field; then 1, which more than 201 entries give too, and in which the two descriptors
 * count with 20 bytes whatever the layers are; then 3 and 6 to 9, at an entry; then 44 and 46, as in reading; then 17.
 */
uint64_t thq_write_stereo(const uint16_t *entries, size_t entries_length, const uint16_t *extensions, size_t extensions_length, uint8_t *out,
                          size_t out_length);

/*
 * One operation point of a program (Table 2-111bis of the 2015 amendment): 12 numbers of 32 bits each, 48 bytes, in the machine's byte order. Numbers 0 to 9 are the fields
 * of its table, 7, 8 and 9 with 0 where the field is not there: frame_rate_indicator is there where constant_frame_rate_info_idc is not 0, and each of the two rates, in
 * thousands of bits a second, where its flag is 1. The last two are worked out, and not looked at where a point is given.
 *
 *     number  bytes    field                           bits
 *     0       0..3     target_ols                      8
 *     1       4..7     ES_count                        8      the number of its references
 *     2       8..11    numEsInOp                       6      the number of its layers
 *     3       12..15   avg_bit_rate_info_flag          1
 *     4       16..19   max_bit_rate_info_flag          1
 *     5       20..23   constant_frame_rate_info_idc    2      0, or what the indicator tells: ticks, frames a second, frames in 1.001 seconds
 *     6       24..27   applicable_temporal_id          3      the highest TemporalId
 *     7       28..31   frame_rate_indicator            12
 *     8       32..35   avg_bit_rate                    24
 *     9       36..39   max_bit_rate                    24
 *     10      40..43   streams                                the number of the members of its stream list
 *     11      44..47   closed                                 1 where that list has every layer that a member of it names, and else 0
 *
 * What a point has several of stands in lists that all points share, in the order of the points:
 *
 *     references   a byte each: prepend_dependencies times 64, plus ES_reference, which is a layer index
 *     layers       a byte each: necessary_layer_flag times 128, plus output_layer_flag times 64, plus ptl_ref_idx, which counts the profiles of all descriptors from 0 on
 *     streams      a byte each: a layer index
 *
 * and `profiles` is 12 bytes for each profile_tier_level_info, kept whole and not looked into.
 */
typedef struct thq_point {
    uint32_t target_ols;
    uint32_t es_count;
    uint32_t num_es_in_op;
    uint32_t avg_bit_rate_info_flag;
    uint32_t max_bit_rate_info_flag;
    uint32_t constant_frame_rate_info_idc;
    uint32_t applicable_temporal_id;
    uint32_t frame_rate_indicator;
    uint32_t avg_bit_rate;
    uint32_t max_bit_rate;
    uint32_t streams;
    uint32_t closed;
} thq_point;

#define THQ_POINT_NUMBERS 12

/*
 * Reads the operation points of a program, by the 2015 reading: out of every operation point descriptor (tag 63, extension tag 5) in `program`, the program's own descriptor loop,
 * which is what stands in program_info, over the layers of the elementary-stream loop `bytes`. `descriptors` receives two numbers for each descriptor, num_ptl and
 * operation_points_count; `profiles` the profiles of all descriptors, in order; `points`, `references`, `layers` and `streams` what is laid out above. `summary` receives six
 * numbers: how many descriptors, profiles, points, references, layers and streams these are. Counts the points.
 *
 * The stream list of a point is built by its references in order: each is put at the end where it is not present yet; and then, where its prepend_dependencies is 1, the
 * layers that it names (a base layer names none) and that are not present yet, immediately before its place, in ascending order. Other descriptors are skipped, and so is tag 63 of
 * length 0. Lists of 402, 1,008, 3,024, 1,008, 1,008 and 12,864 places hold what any program has.
 * Refusals: 1 to 9 of `bytes`, at an entry; then 40 where `program` is longer than 1,008 bytes, a descriptor runs past it, or the fields of an operation point descriptor do not
 * fill its length exactly; 41 where an ES_count is 255, which ends its descriptor, so that what stands behind it gives no 40; 42 where a reference, or a layer to be put before it, is no
 * layer of the loop; then 17 where a list is shorter than what it is to receive, or `summary` than 6.
 */
uint64_t thq_read_points(const uint8_t *program, size_t program_length, const uint8_t *bytes, size_t bytes_length, uint32_t *descriptors,
                         size_t descriptors_length, uint8_t *profiles, size_t profiles_length, uint32_t *points, size_t points_length,
                         uint8_t *references, size_t references_length, uint8_t *layers, size_t layers_length, uint8_t *streams,
                         size_t streams_length, uint32_t *summary, size_t summary_length);

/*
 * Writes one operation point descriptor, its tag and length included: the profiles, 12 bytes each, and the points, 12 numbers each, with their references and layers, all laid out as
 * above. Counts the bytes written to `out`, at most 257.
 * Refusals: 25 first, where a value is too wide for its field, a reference above 127 among them; where a field is other than 0 that is not there; where `profiles` or `points` is no multiple of 12
 * long, or `references` or `layers` not as long as the points say; and for more than 63 profiles, 255 points, 255 references or 63 layers. Then 41 for a point of 255 references; then 25
 * for a descriptor_length above 255; then 17.
 */
uint64_t thq_write_points(const uint8_t *profiles, size_t profiles_length, const uint32_t *points, size_t points_length,
                          const uint8_t *references, size_t references_length, const uint8_t *layers, size_t layers_length, uint8_t *out,
                          size_t out_length);

/*
 * A LAYER SET, which changes as layers come and go: two buffers of fixed length, which the caller owns and the functions below fill.
 *
 * `layers` is 64 entries of 80 numbers each, as laid out above, one for each layer index: entry i is the layer of index i, or 80 zeros where the set
 * has none. `stored` is what each layer rests on, worked out and never given, in three columns of 64 numbers each:
 *
 *     stored[i]          the closure of layer i: bit j is 1 where j is in it, i itself and absent indices as they are named among them
 *     stored[64 + i]     the number of indices in it
 *     stored[128 + i]    1 where one of them is absent, and else 0
 *
 * and 0 in all three where the set has no layer of index i. What lies below an absent index is unknown and adds nothing until that layer is there. All zeros is
 * the empty set.
 *
 * Buffers hold a set where their lengths are exactly these; where each entry is 80 zeros, or else a layer of its place's index, laid out as thq_read_loop lays it,
 * to which none of 6, 7 and 9 applies (THQ_IMPLIED is right on 0x1B and on 0x20, whatever else is in the set); where no two layers have the same PID; and where the
 * stored numbers are what would be worked out afresh. Anything else is refused with THQ_NOT_A_CALL, before all other numbers, so that no one can hand them in. What
 * the functions leave behind holds a set.
 */
#define THQ_SET_LAYERS 5120
#define THQ_SET_STORED 192

typedef struct thq_set {
    thq_entry layers[64];
    uint64_t stored[THQ_SET_STORED];
} thq_set;

/*
 * The set of the layers of a loop, implied ones included. Whatever the two buffers held is overwritten. Counts the layers of the set.
 * Refusals: THQ_NOT_A_CALL also where a length is not exactly that of a set; 1 to 9, at an entry.
 */
uint64_t thq_set_read(uint64_t reading, const uint8_t *bytes, size_t bytes_length, uint16_t *layers, size_t layers_length,
                      uint64_t *stored, size_t stored_length);

/*
 * A layer more, the entry of 80 numbers as thq_write_loop takes it: fields that its record does not have, and embedded indices beyond the count, are not looked at.
 * Counts the layers of the set after it.
 * Refusals: THQ_NOT_A_CALL where the buffers hold no set, and where `entry_length` is not 80; then 25; then 3 where a layer of the set has the PID; then 6 to 9 as
 * the 2015 reading judges: 6 also for a stream type that it doesn't know, for THQ_IMPLIED and for THQ_NO_RECORD, 8 where the set has a layer of the index. The place is 0.
 */
uint64_t thq_set_add(uint16_t *layers, size_t layers_length, uint64_t *stored, size_t stored_length, const uint16_t *entry, size_t entry_length);

/*
 * A layer less, that of an index. Counts the layers of the set after it.
 * Refusals: THQ_NOT_A_CALL where the buffers hold no set; then 11 where the set has no layer of the index, also where one is only named.
 */
uint64_t thq_set_remove(uint16_t *layers, size_t layers_length, uint64_t *stored, size_t stored_length, uint64_t index);

/*
 * The layers that a target rests on, itself included, from what is stored. `closure` receives one number, as in thq_closure. Counts the layers in it.
 * Refusals: THQ_NOT_A_CALL where the buffers hold no set; then 11, 12; then 17 where `closure_length` is 0.
 */
uint64_t thq_set_closure(const uint16_t *layers, size_t layers_length, const uint64_t *stored, size_t stored_length, uint64_t target,
                         uint64_t *closure, size_t closure_length);

#ifdef __cplusplus
}
#endif

#endif
