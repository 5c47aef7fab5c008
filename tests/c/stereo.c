/*
 * The stereo set called from C: a set read and written with every field by its name, and what only C can hand over: rooms that are too small, lists of
 * descriptors that are too short or too long, values too wide for a field but not for a number, and null pointers of buffers of no elements. Ends with
 * status 0 when all is as it should be.
 */
#include "thoquenry.h"

#include <stdio.h>
#include <string.h>

/* The struct lies over the 8 numbers. */
_Static_assert(sizeof(thq_mvc_extension) == 2 * THQ_MVC_EXTENSION_NUMBERS, "a descriptor is 8 numbers of 16 bits");
_Static_assert(offsetof(thq_mvc_extension, view_order_index_min) == 2 * 2, "view_order_index_min is number 2");
_Static_assert(offsetof(thq_mvc_extension, no_prefix_nal_unit_present) == 2 * 7, "no_prefix_nal_unit_present is number 7");

static int failures;

#define EXPECT(fact) \
    do { \
        if (!(fact)) { \
            fprintf(stderr, "%s:%d: not so: %s\n", __FILE__, __LINE__, #fact); \
            failures++; \
        } \
    } while (0)

/* A set whose second view comes first, with audio between the two: every field tells itself from the others. */
static const uint8_t loop[] = {
    0x20, 0xE1, 0x01, 0xF0, 0x10, 0x04, 0x04, 0xF9, 0xC1, 0xC0, 0xC7, 0x31, 0x08, 0xFE, 0xDC, 0xBA, 0x98, 0xFA, 0xAF, 0xE8, 0x55,
    0x0F, 0xE1, 0x02, 0xF0, 0x00,
    0x1B, 0xE1, 0x00, 0xF0, 0x10, 0x04, 0x04, 0xFF, 0xC0, 0x45, 0xE9, 0x31, 0x08, 0x12, 0x34, 0x56, 0x78, 0xF5, 0x56, 0xAA, 0xAA,
};

static const thq_entry base = {
    .stream_type = 0x1B,
    .elementary_pid = 256,
    .record = THQ_HIERARCHY,
    .no_view_scalability_flag = 1,
    .no_temporal_scalability_flag = 1,
    .no_spatial_scalability_flag = 1,
    .no_quality_scalability_flag = 1,
    .hierarchy_type = 15,
    .hierarchy_embedded_layer_index = 5,
    .hierarchy_channel = 41,
};

static const thq_entry second = {
    .stream_type = 0x20,
    .elementary_pid = 257,
    .record = THQ_HIERARCHY,
    .no_view_scalability_flag = 1,
    .no_temporal_scalability_flag = 1,
    .no_spatial_scalability_flag = 1,
    .no_quality_scalability_flag = 1,
    .hierarchy_type = 9,
    .hierarchy_layer_index = 1,
    .tref_present_flag = 1,
    .hierarchy_channel = 7,
};

static const thq_entry audio = {.stream_type = 0x0F, .elementary_pid = 258};

static const thq_mvc_extension extensions[] = {
    {
        .average_bit_rate = 0x1234,
        .maximum_bitrate = 0x5678,
        .view_order_index_min = 341,
        .view_order_index_max = 682,
        .temporal_id_start = 5,
        .temporal_id_end = 2,
        .no_sei_nal_unit_present = 1,
        .no_prefix_nal_unit_present = 0,
    },
    {
        .average_bit_rate = 0xFEDC,
        .maximum_bitrate = 0xBA98,
        .view_order_index_min = 683,
        .view_order_index_max = 1000,
        .temporal_id_start = 2,
        .temporal_id_end = 5,
        .no_sei_nal_unit_present = 0,
        .no_prefix_nal_unit_present = 1,
    },
};

/* Reads a loop with room for so many numbers in each list. */
static uint64_t read(const uint8_t *bytes, size_t length, thq_entry *entries, size_t numbers, thq_mvc_extension *descriptors, size_t more)
{
    return thq_read_stereo(bytes, length, (uint16_t *)entries, numbers, (uint16_t *)descriptors, more);
}

/* Writes a loop of so many entries, with so many numbers of descriptors. */
static uint64_t write(const thq_entry *entries, size_t count, const void *descriptors, size_t numbers, uint8_t *out, size_t room)
{
    return thq_write_stereo((const uint16_t *)entries, count * THQ_ENTRY_NUMBERS, descriptors, numbers, out, room);
}

static void reading(void)
{
    thq_entry entries[3], before;
    thq_mvc_extension read_extensions[3], descriptor_before;
    uint8_t meeting[sizeof loop], missing[sizeof loop], absent[sizeof loop];

    memset(entries, 0x77, sizeof entries);
    memset(read_extensions, 0x77, sizeof read_extensions);
    memset(&before, 0x77, sizeof before);
    memset(&descriptor_before, 0x77, sizeof descriptor_before);

    /* Refusals first: each leaves the lists as they are. 17 comes after all others. */
    memcpy(meeting, loop, sizeof loop);
    meeting[17] = 0xF0; /* of the second view: 43 to 1000, and so over the base's 341 to 682 */
    memcpy(missing, loop, sizeof loop);
    missing[11] = 0x32;
    memcpy(absent, loop, sizeof loop);
    absent[0] = 0x1F;
    absent[7] = 0xD1;
    EXPECT(read(loop, sizeof loop, entries, 2 * THQ_ENTRY_NUMBERS - 1, read_extensions, 24) == THQ_REFUSED_NO_ROOM);
    EXPECT(read(loop, sizeof loop, entries, 240, read_extensions, 2 * THQ_MVC_EXTENSION_NUMBERS - 1) == THQ_REFUSED_NO_ROOM);
    EXPECT(read(loop, sizeof loop, NULL, 0, NULL, 0) == THQ_REFUSED_NO_ROOM);
    EXPECT(read(meeting, sizeof meeting, NULL, 0, read_extensions, 24) == THQ_REFUSED_RANGES_MEET);
    EXPECT(read(missing, sizeof missing, entries, 240, NULL, 0) == THQ_REFUSED_WRONG_MVC_EXTENSION);
    EXPECT(read(absent, sizeof absent, NULL, 0, NULL, 0) == THQ_REFUSED_NOT_STEREO_SET);
    EXPECT(read(NULL, 0, NULL, 0, NULL, 0) == THQ_REFUSED_NOT_STEREO_SET);
    EXPECT(read(loop, sizeof loop - 1, entries, 240, read_extensions, 24) == THQ_REFUSED_DOES_NOT_FIT + 256 * 2);
    for (size_t k = 0; k < 3; k++) {
        EXPECT(memcmp(&entries[k], &before, sizeof before) == 0);
        EXPECT(memcmp(&read_extensions[k], &descriptor_before, sizeof descriptor_before) == 0);
    }

    EXPECT(read(loop, sizeof loop, entries, 240, read_extensions, 24) == 2 * 256);
    EXPECT(memcmp(&entries[0], &base, sizeof base) == 0);
    EXPECT(memcmp(&entries[1], &second, sizeof second) == 0);
    EXPECT(memcmp(&entries[2], &before, sizeof before) == 0);
    EXPECT(memcmp(read_extensions, extensions, sizeof extensions) == 0);
    EXPECT(memcmp(&read_extensions[2], &descriptor_before, sizeof descriptor_before) == 0);

    /* exactly enough room */
    EXPECT(read(loop, sizeof loop, entries, 160, read_extensions, 16) == 2 * 256);
}

static void writing(void)
{
    const thq_entry entries[] = {second, audio, base};
    const thq_entry views[] = {
        {.stream_type = 0x1B, .elementary_pid = 256, .record = THQ_IMPLIED},
        {.stream_type = 0x20, .elementary_pid = 257, .record = THQ_IMPLIED},
    };
    const uint8_t of_one[] = {
        0x1B, 0xE1, 0x00, 0xF0, 0x0A, 0x31, 0x08, 0x00, 0x00, 0x00, 0x00, 0xF0, 0x04, 0x01, 0x00,
        0x20, 0xE1, 0x01, 0xF0, 0x0A, 0x31, 0x08, 0x00, 0x00, 0x00, 0x00, 0xF0, 0x00, 0x00, 0x00,
    };
    thq_mvc_extension changed[3];
    uint16_t *numbers = (uint16_t *)changed;
    uint8_t out[sizeof loop + 2];

    memset(out, 0x77, sizeof out);
    EXPECT(write(entries, 3, extensions, 16, out, sizeof loop - 1) == THQ_REFUSED_NO_ROOM);
    EXPECT(write(entries, 3, extensions, 16, NULL, 0) == THQ_REFUSED_NO_ROOM);
    EXPECT(out[0] == 0x77);
    EXPECT(write(entries, 3, extensions, 16, out, sizeof out) == 256 * sizeof loop);
    EXPECT(memcmp(out, loop, sizeof loop) == 0 && out[sizeof loop] == 0x77 && out[sizeof loop + 1] == 0x77);

    /* Each number of the two descriptors: its field's greatest value is none too wide, and one more is. */
    const uint16_t most[] = {65535, 65535, 1023, 1023, 7, 7, 1, 1};
    for (size_t k = 2; k < 16; k++) {
        if (k == 8 || k == 9)
            continue;
        memcpy(changed, extensions, sizeof extensions);
        numbers[k] = most[k % 8] + 1;
        EXPECT(write(entries, 3, changed, 16, NULL, 0) == THQ_REFUSED_TOO_WIDE);
        EXPECT(write(NULL, 0, changed, 16, NULL, 0) == THQ_REFUSED_TOO_WIDE);
        numbers[k] = most[k % 8];
        EXPECT(THQ_NUMBER(write(entries, 3, changed, 16, out, sizeof out)) != THQ_REFUSED_TOO_WIDE);
    }

    /* A number that is not there is 0, and one after the sixteenth is not looked at. */
    memset(changed, 0, sizeof changed);
    changed[0].view_order_index_min = changed[0].view_order_index_max = 1;
    memset(&changed[2], 0xFF, sizeof changed[2]);
    for (size_t k = 4; k <= 24; k++) {
        memset(out, 0x77, sizeof out);
        EXPECT(write(views, 2, changed, k, out, sizeof of_one) == 256 * sizeof of_one);
        EXPECT(memcmp(out, of_one, sizeof of_one) == 0);
    }
    EXPECT(write(views, 2, changed, 3, out, sizeof of_one) == THQ_REFUSED_RANGES_MEET);
    EXPECT(write(views, 2, NULL, 0, out, sizeof of_one) == THQ_REFUSED_RANGES_MEET);
    EXPECT(write(NULL, 0, NULL, 0, NULL, 0) == THQ_REFUSED_NOT_STEREO_SET);

    /* Numbers after the last whole entry are not looked at. */
    EXPECT(thq_write_stereo((const uint16_t *)entries, 3 * THQ_ENTRY_NUMBERS - 1, numbers, 16, out, sizeof out) == THQ_REFUSED_NOT_STEREO_SET);
}

/* The two descriptors count among the bytes, and every row is asked for 25. */
static void long_loops(void)
{
    static thq_entry entries[400];

    for (size_t k = 0; k < 400; k++)
        entries[k] = (thq_entry){.stream_type = 0x02, .elementary_pid = (uint16_t)(k + 1000)};
    EXPECT(write(entries, 197, extensions, 16, NULL, 0) == THQ_REFUSED_NOT_STEREO_SET);
    EXPECT(write(entries, 198, extensions, 16, NULL, 0) == THQ_REFUSED_LOOP_TOO_LONG);
    EXPECT(write(entries, 400, extensions, 16, NULL, 0) == THQ_REFUSED_LOOP_TOO_LONG);
    entries[399].elementary_pid = 8192;
    EXPECT(write(entries, 400, extensions, 16, NULL, 0) == THQ_REFUSED_TOO_WIDE);

    static uint8_t out[1008];
    entries[0] = base;
    entries[100] = second;
    EXPECT(write(entries, 195, extensions, 16, out, 1007) == 256 * 1007);
    EXPECT(write(entries, 195, extensions, 16, out, 1006) == THQ_REFUSED_NO_ROOM);
    EXPECT(write(entries, 196, extensions, 16, out, 1008) == THQ_REFUSED_LOOP_TOO_LONG);
}

int main(void)
{
    reading();
    writing();
    long_loops();
    return failures != 0;
}
