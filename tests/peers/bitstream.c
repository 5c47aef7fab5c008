/* What Debian's libbitstream-dev answers on the cases of cases.h. */
#include "cases.h"

#include <bitstream/mpeg/pes.h>
#include <bitstream/mpeg/psi/desc_04.h>
#include <inttypes.h>

static void write_header(uint64_t pts, uint64_t dts)
{
    uint8_t out[HEADER_ROOM];
    bool has_dts = dts != pts;
    pes_init(out);
    pes_set_streamid(out, PES_STREAM_ID_VIDEO_MPEG);
    pes_set_length(out, 0);
    pes_set_headerlength(out, 0);
    pes_set_dataalignment(out);
    pes_set_pts(out, pts);
    if (has_dts) pes_set_dts(out, dts);
    print_bytes(out, has_dts ? PES_HEADER_SIZE_PTSDTS : PES_HEADER_SIZE_PTS);
}

static void read_header(const uint8_t *bytes, size_t length)
{
    (void)length;
    bool video = pes_get_streamid(bytes) >= 0xE0 && pes_get_streamid(bytes) <= 0xEF;
    /* pes_validate_pts takes either prefix, with a DTS and without. */
    bool prefix_of_dts_alone = !pes_has_dts(bytes) && (bytes[9] & 0x10) != 0;
    if (!pes_validate(bytes) || !video || !pes_validate_header(bytes))
        puts("refused 20");
    else if (!pes_has_pts(bytes))
        puts("refused 21");
    else if (!pes_validate_pts(bytes) || prefix_of_dts_alone || (pes_has_dts(bytes) && !pes_validate_dts(bytes)))
        puts("refused 23");
    else
        printf("pts %" PRIu64 " decoding %" PRIu64 "\n", pes_get_pts(bytes),
               pes_has_dts(bytes) ? pes_get_dts(bytes) : pes_get_pts(bytes));
}

static void write_hierarchy(struct hierarchy fields)
{
    uint8_t out[DESC04_HEADER_SIZE];
    desc04_init(out);
    desc04_set_type(out, fields.type);
    desc04_set_layer_index(out, fields.index);
    desc04_set_embedded_layer_index(out, fields.embedded);
    desc04_set_channel(out, fields.channel);
    print_bytes(out, sizeof out);
}

static void read_hierarchy(uint8_t stream_type, const uint8_t *payload)
{
    const uint8_t bytes[] = {0x04, 0x04, payload[0], payload[1], payload[2], payload[3]};
    (void)stream_type;
    printf("type %d index %d embedded %d channel %d\n", desc04_get_type(bytes), desc04_get_layer_index(bytes),
           desc04_get_embedded_layer_index(bytes), desc04_get_channel(bytes));
}
