/* What Debian's libdvbpsi-dev answers on the cases of cases.h. It knows the hierarchy descriptor, and no PES header. */
#include "cases.h"

#include <sys/types.h>

#include <dvbpsi/dvbpsi.h>
#include <dvbpsi/descriptor.h>
#include <dvbpsi/dr_04.h>

static void write_header(uint64_t pts, uint64_t dts)
{
    (void)pts, (void)dts;
    exit(2);
}

static void read_header(const uint8_t *bytes, size_t length)
{
    (void)bytes, (void)length;
    exit(2);
}

static void write_hierarchy(struct hierarchy fields)
{
    dvbpsi_hierarchy_dr_t record = {
        .i_h_type = fields.type,
        .i_h_layer_index = fields.index,
        .i_h_embedded_layer = fields.embedded,
        .i_h_priority = fields.channel,
    };
    dvbpsi_descriptor_t *made = dvbpsi_GenHierarchyDr(&record, false);
    if (made == NULL) exit(2);
    printf("%02X%02X", made->i_tag, made->i_length);
    print_bytes(made->p_data, made->i_length);
    dvbpsi_DeleteDescriptors(made);
}

static void read_hierarchy(uint8_t stream_type, const uint8_t *payload)
{
    uint8_t bytes[4];
    (void)stream_type;
    memcpy(bytes, payload, sizeof bytes);
    dvbpsi_descriptor_t *descriptor = dvbpsi_NewDescriptor(0x04, sizeof bytes, bytes);
    dvbpsi_hierarchy_dr_t *record = dvbpsi_DecodeHierarchyDr(descriptor);
    if (record == NULL) exit(2);
    /* What was called hierarchy_priority is hierarchy_channel. */
    printf("type %d index %d embedded %d channel %d\n", record->i_h_type, record->i_h_layer_index, record->i_h_embedded_layer,
           record->i_h_priority);
    dvbpsi_DeleteDescriptors(descriptor);
}
