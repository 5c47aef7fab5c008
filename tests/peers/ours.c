/* What Thoquenry answers on the cases of cases.h. */
#include "cases.h"
#include "thoquenry.h"

#include <inttypes.h>

static void write_header(uint64_t pts, uint64_t dts)
{
    uint8_t out[HEADER_ROOM];
    uint64_t answer = thq_write_times(pts, dts, dts, 0, out, sizeof out);
    if (THQ_NUMBER(answer) == 0)
        print_bytes(out, THQ_VALUE(answer));
    else
        printf("refused %" PRIu64 "\n", THQ_NUMBER(answer));
}

static void read_header(const uint8_t *bytes, size_t length)
{
    uint64_t times[5];
    uint64_t answer = thq_read_times(bytes, length, times, 5);
    if (THQ_NUMBER(answer) == 0)
        printf("pts %" PRIu64 " decoding %" PRIu64 "\n", times[0], times[1]);
    else
        printf("refused %" PRIu64 "\n", THQ_NUMBER(answer));
}

static void write_hierarchy(struct hierarchy fields)
{
    const thq_entry entry = {
        .stream_type = fields.stream_type,
        .elementary_pid = 256,
        .record = THQ_HIERARCHY,
        .no_view_scalability_flag = 1,
        .no_temporal_scalability_flag = 1,
        .no_spatial_scalability_flag = 1,
        .no_quality_scalability_flag = 1,
        .hierarchy_type = fields.type,
        .hierarchy_layer_index = fields.index,
        .tref_present_flag = 1,
        .hierarchy_embedded_layer_index = fields.embedded,
        .hierarchy_channel = fields.channel,
    };
    uint8_t out[11];
    uint64_t answer = thq_write_loop((const uint16_t *)&entry, THQ_ENTRY_NUMBERS, out, sizeof out);
    if (THQ_NUMBER(answer) == 0)
        print_bytes(out + 5, THQ_VALUE(answer) - 5);
    else
        printf("refused %" PRIu64 "\n", THQ_NUMBER(answer));
}

static void read_hierarchy(uint8_t stream_type, const uint8_t *payload)
{
    const uint8_t bytes[] = {
        stream_type, 0xE1, 0x00, 0xF0, 0x06, 0x04, 0x04, payload[0], payload[1], payload[2], payload[3],
    };
    thq_entry entry;
    uint64_t answer = thq_read_loop(THQ_2015, bytes, sizeof bytes, (uint16_t *)&entry, THQ_ENTRY_NUMBERS);
    if (THQ_NUMBER(answer) == 0)
        printf("type %d index %d embedded %d channel %d\n", entry.hierarchy_type, entry.hierarchy_layer_index,
               entry.hierarchy_embedded_layer_index, entry.hierarchy_channel);
    else
        printf("refused %" PRIu64 "\n", THQ_NUMBER(answer));
}
