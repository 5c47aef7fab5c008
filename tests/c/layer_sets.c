/*
 * Layer sets from C: a set read, a layer removed and added again, each refusal, and buffers that hold no set, which stay as they were. The whole of
 * both buffers is held to what is expected after each call. Ends with status 0 when all is as it should be.
 */
#include "thoquenry.h"

#include <stdio.h>
#include <string.h>

static int failures;

#define EXPECT(fact) \
    do { \
        if (!(fact)) { \
            fprintf(stderr, "%s:%d: not so: %s\n", __FILE__, __LINE__, #fact); \
            failures++; \
        } \
    } while (0)

#define SAME(one, other) (memcmp(&(one), &(other), sizeof(one)) == 0)

static const uint8_t loop_a[] = {
    0x1B, 0xE1, 0x00, 0xF0, 0x06, 0x04, 0x04, 0xFF, 0xC0, 0xFF, 0xC0, 0x1F, 0xE1, 0x01, 0xF0, 0x06, 0x04, 0x04, 0xD1,
    0xC1, 0x40, 0xC1, 0x28, 0xE1, 0x02, 0xF0, 0x0A, 0x3F, 0x08, 0x06, 0x00, 0x02, 0x08, 0x03, 0xC1, 0xC2, 0xC0,
};

static const thq_entry base = {
    .stream_type = 0x1B, .elementary_pid = 256, .record = THQ_HIERARCHY, .no_view_scalability_flag = 1, .no_temporal_scalability_flag = 1,
    .no_spatial_scalability_flag = 1, .no_quality_scalability_flag = 1, .hierarchy_type = 15, .tref_present_flag = 1,
    .hierarchy_embedded_layer_index = 63,
};

static const thq_entry spatial = {
    .stream_type = 0x1F, .elementary_pid = 257, .record = THQ_HIERARCHY, .no_view_scalability_flag = 1, .no_temporal_scalability_flag = 1,
    .no_quality_scalability_flag = 1, .hierarchy_type = 1, .hierarchy_layer_index = 1, .hierarchy_channel = 1,
};

static const thq_entry hevc = {
    .stream_type = 0x28, .elementary_pid = 258, .record = THQ_EXTENSION, .hierarchy_layer_index = 2, .tref_present_flag = 1, .hierarchy_channel = 2,
    .extension_dimension_bits = 2, .nuh_layer_id = 1, .num_embedded_layers = 1,
};

/* a layer of index 5 on 2 and 1 */
static const thq_entry upper = {
    .stream_type = 0x29, .elementary_pid = 261, .record = THQ_EXTENSION, .hierarchy_layer_index = 5, .hierarchy_channel = 9,
    .num_embedded_layers = 2, .embedded = {2, 1},
};

static uint64_t read_set(uint64_t reading, const uint8_t *bytes, size_t length, thq_set *set)
{
    return thq_set_read(reading, bytes, length, (uint16_t *)set->layers, THQ_SET_LAYERS, set->stored, THQ_SET_STORED);
}

static uint64_t add(thq_set *set, const thq_entry *entry)
{
    return thq_set_add((uint16_t *)set->layers, THQ_SET_LAYERS, set->stored, THQ_SET_STORED, (const uint16_t *)entry, THQ_ENTRY_NUMBERS);
}

static uint64_t remove_layer(thq_set *set, uint64_t index)
{
    return thq_set_remove((uint16_t *)set->layers, THQ_SET_LAYERS, set->stored, THQ_SET_STORED, index);
}

static uint64_t closure(const thq_set *set, uint64_t target, uint64_t *members)
{
    return thq_set_closure((const uint16_t *)set->layers, THQ_SET_LAYERS, set->stored, THQ_SET_STORED, target, members, 1);
}

/* Puts a layer into an expected set, with its three values. */
static void expect_layer(thq_set *set, const thq_entry *entry, uint64_t members, uint64_t size, uint64_t absent)
{
    size_t index = THQ_LAYER_INDEX(*entry);
    set->layers[index] = *entry;
    set->stored[index] = members;
    set->stored[64 + index] = size;
    set->stored[128 + index] = absent;
}

/* The set of loop A. */
static thq_set set_of_a(void)
{
    thq_set set = {0};
    expect_layer(&set, &base, 1, 1, 0);
    expect_layer(&set, &spatial, 3, 2, 0);
    expect_layer(&set, &hevc, 5, 2, 0);
    return set;
}

static void read_and_changed(void)
{
    const thq_set of_a = set_of_a();
    thq_set set, expected = of_a;
    uint64_t members = 77;

    EXPECT(sizeof(thq_set) == 11776 && sizeof(thq_set) == sizeof(uint16_t) * THQ_SET_LAYERS + sizeof(uint64_t) * THQ_SET_STORED);
    memset(&set, 0xA5, sizeof set);
    EXPECT(read_set(THQ_2015, loop_a, sizeof loop_a, &set) == 3 * 256 && SAME(set, of_a));
    EXPECT(closure(&set, 2, &members) == 2 * 256 && members == 5 && SAME(set, of_a));

    /* one layer on the others, which are removed below it */
    EXPECT(add(&set, &upper) == 4 * 256);
    expect_layer(&expected, &upper, 0x27, 4, 0);
    EXPECT(SAME(set, expected));
    EXPECT(closure(&set, 5, &members) == 4 * 256 && members == 0x27);
    EXPECT(remove_layer(&set, 2) == 3 * 256);
    memset(&expected.layers[2], 0, sizeof expected.layers[2]);
    expected.stored[2] = expected.stored[64 + 2] = 0;
    expect_layer(&expected, &upper, 0x27, 4, 1);
    EXPECT(SAME(set, expected));
    EXPECT(closure(&set, 5, &members) == THQ_REFUSED_EMBEDDED_LAYER_ABSENT + 256 * 2 && members == 0x27);
    EXPECT(remove_layer(&set, 1) == 2 * 256);
    memset(&expected.layers[1], 0, sizeof expected.layers[1]);
    expected.stored[1] = expected.stored[64 + 1] = 0;
    expect_layer(&expected, &upper, 0x26, 3, 1);
    EXPECT(SAME(set, expected));
    EXPECT(closure(&set, 5, &members) == THQ_REFUSED_EMBEDDED_LAYER_ABSENT + 256 * 1);

    /* back again, and the last one removed: loop A's set */
    EXPECT(add(&set, &hevc) == 3 * 256 && add(&set, &spatial) == 4 * 256);
    EXPECT(closure(&set, 5, &members) == 4 * 256 && members == 0x27);
    EXPECT(remove_layer(&set, 5) == 3 * 256 && SAME(set, of_a));

    /* the empty set, and a loop that is refused */
    EXPECT(remove_layer(&set, 0) == 2 * 256 && remove_layer(&set, 1) == 256 && remove_layer(&set, 2) == 0);
    memset(&expected, 0, sizeof expected);
    EXPECT(SAME(set, expected));
    EXPECT(read_set(THQ_2015, loop_a, 4, &set) == THQ_REFUSED_DOES_NOT_FIT && SAME(set, expected));
    EXPECT(read_set(2014, loop_a, sizeof loop_a, &set) == THQ_NOT_A_CALL && SAME(set, expected));
    EXPECT(read_set(THQ_2009, loop_a, sizeof loop_a, &set) == 2 * 256 && set.layers[2].record == THQ_NO_RECORD);
}

static void two_views(void)
{
    const uint8_t sports[] = {0x1B, 0xE1, 0x20, 0xF0, 0x00, 0x0F, 0xE1, 0x22, 0xF0, 0x00, 0x20, 0xE1, 0x21, 0xF0, 0x00};
    const thq_entry view = {.stream_type = 0x1B, .elementary_pid = 288, .record = THQ_IMPLIED};
    const thq_entry second = {.stream_type = 0x20, .elementary_pid = 289, .record = THQ_IMPLIED};
    thq_set set, expected = {0};
    uint64_t members = 77;

    EXPECT(read_set(THQ_2009, sports, sizeof sports, &set) == 2 * 256);
    expect_layer(&expected, &view, 1, 1, 0);
    expect_layer(&expected, &second, 3, 2, 0);
    EXPECT(SAME(set, expected));
    EXPECT(remove_layer(&set, 0) == 256);
    memset(&expected, 0, sizeof expected);
    expect_layer(&expected, &second, 3, 2, 1);
    EXPECT(SAME(set, expected));
    EXPECT(closure(&set, 1, &members) == THQ_REFUSED_EMBEDDED_LAYER_ABSENT && members == 77);
    EXPECT(add(&set, &view) == THQ_REFUSED_TYPE_NOT_ALLOWED && SAME(set, expected));
    EXPECT(add(&set, &base) == 2 * 256 && closure(&set, 1, &members) == 2 * 256 && members == 3);
}

/* Fields that the record does not have are not looked at, and are 0 in the set. */
static void unread_fields(void)
{
    thq_set set = {0}, expected = {0};
    thq_entry entry = upper;

    entry.hierarchy_type = entry.no_view_scalability_flag = entry.hierarchy_embedded_layer_index = entry.zero = 0xFFFF;
    entry.embedded[2] = entry.embedded[62] = 0xFFFF;
    EXPECT(add(&set, &entry) == 256);
    expect_layer(&expected, &upper, 0x26, 3, 1);
    EXPECT(SAME(set, expected));
}

static void refusals(void)
{
    const thq_set of_a = set_of_a();
    thq_set set = of_a;
    thq_entry entry = upper;
    uint64_t members = 77;

    entry.hierarchy_channel = 64, entry.elementary_pid = 256;
    EXPECT(add(&set, &entry) == THQ_REFUSED_TOO_WIDE);
    entry.hierarchy_channel = 0, entry.stream_type = 0x1F;
    EXPECT(add(&set, &entry) == THQ_REFUSED_REPEATED_PID);
    entry.elementary_pid = 300, entry.hierarchy_layer_index = 2;
    EXPECT(add(&set, &entry) == THQ_REFUSED_TYPE_NOT_ALLOWED);
    entry.stream_type = 0x2C;
    EXPECT(add(&set, &entry) == THQ_REFUSED_TYPE_NOT_ALLOWED);
    entry.stream_type = 0x2B;
    EXPECT(add(&set, &entry) == THQ_REFUSED_REPEATED_LAYER_INDEX);
    entry.hierarchy_layer_index = 3, entry.embedded[0] = 3;
    EXPECT(add(&set, &entry) == THQ_REFUSED_WRONG_EMBEDDED_INDEX);
    entry.embedded[0] = 1;
    EXPECT(add(&set, &entry) == THQ_REFUSED_WRONG_EMBEDDED_INDEX);
    entry = spatial, entry.elementary_pid = 300, entry.no_view_scalability_flag = 0;
    EXPECT(add(&set, &entry) == THQ_REFUSED_WRONG_FLAGS);
    entry.record = THQ_NO_RECORD;
    EXPECT(add(&set, &entry) == THQ_REFUSED_TYPE_NOT_ALLOWED);
    EXPECT(remove_layer(&set, 3) == THQ_REFUSED_NO_SUCH_LAYER && remove_layer(&set, 64) == THQ_REFUSED_NO_SUCH_LAYER);
    EXPECT(remove_layer(&set, UINT64_MAX) == THQ_REFUSED_NO_SUCH_LAYER && closure(&set, 256, &members) == THQ_REFUSED_NO_SUCH_LAYER);
    EXPECT(thq_set_closure((uint16_t *)set.layers, THQ_SET_LAYERS, set.stored, THQ_SET_STORED, 2, NULL, 0) == THQ_REFUSED_NO_ROOM);
    EXPECT(members == 77 && SAME(set, of_a));
}

/* Every call refuses these buffers, and leaves them as they were. */
static void no_set(int line, const thq_set *given)
{
    thq_set set = *given;
    uint64_t members = 77;
    int before = failures;

    EXPECT(add(&set, &upper) == THQ_NOT_A_CALL && remove_layer(&set, 0) == THQ_NOT_A_CALL && remove_layer(&set, 99) == THQ_NOT_A_CALL);
    EXPECT(closure(&set, 0, &members) == THQ_NOT_A_CALL && closure(&set, 99, &members) == THQ_NOT_A_CALL);
    EXPECT(SAME(set, *given) && members == 77);
    if (failures != before)
        fprintf(stderr, "these are the buffers of line %d\n", line);
}

#define NO_SET(change) \
    do { \
        thq_set set = set_of_a(); \
        change; \
        no_set(__LINE__, &set); \
    } while (0)

static void buffers_that_hold_no_set(void)
{
    /* stored values of one's own */
    NO_SET(set.stored[2] = 7);
    NO_SET(set.stored[2] = 4);
    NO_SET(set.stored[64 + 1] = 3);
    NO_SET(set.stored[128] = 1);
    NO_SET(set.stored[128 + 1] = 2);
    NO_SET(set.stored[5] = 32);
    NO_SET(set.stored[64 + 63] = 1);
    NO_SET(set.stored[191] = 1);
    NO_SET((set.stored[1] = 2, set.stored[64 + 1] = 1));
    /* a layer that went, and one that came, with nothing stored of it */
    NO_SET(memset(&set.layers[0], 0, sizeof set.layers[0]));
    NO_SET(set.layers[5] = upper);
    /* one in another's place, one PID twice, one that no call would have put there */
    NO_SET((set.layers[3] = set.layers[2], set.stored[3] = 13, set.stored[64 + 3] = 3));
    NO_SET(set.layers[2].hierarchy_layer_index = 3);
    NO_SET(set.layers[2].elementary_pid = 256);
    NO_SET(set.layers[2].elementary_pid = 8192);
    NO_SET(set.layers[2].stream_type = 0x1F);
    NO_SET(set.layers[2].stream_type = 0x2C);
    NO_SET(set.layers[1].no_view_scalability_flag = 0);
    NO_SET(set.layers[1].no_view_scalability_flag = 2);
    NO_SET(set.layers[1].hierarchy_type = 9);
    NO_SET(set.layers[0].record = THQ_IMPLIED);
    NO_SET(set.layers[0].record = 4);
    NO_SET((set.layers[2].num_embedded_layers = 2, set.layers[2].embedded[1] = 0));
    NO_SET((set.layers[2].num_embedded_layers = 2, set.layers[2].embedded[1] = 2));
    /* numbers that are 0 in every set */
    NO_SET(set.layers[0].nuh_layer_id = 1);
    NO_SET(set.layers[1].zero = 1);
    NO_SET(set.layers[2].hierarchy_type = 1);
    NO_SET(set.layers[2].embedded[1] = 1);
    NO_SET(set.layers[63].zero = 1);
    NO_SET(set.layers[40].elementary_pid = 100);
}

/* Another length holds no set, null or not. */
static void lengths(void)
{
    thq_set set = set_of_a();
    const thq_set before = set;
    uint16_t *layers = (uint16_t *)set.layers;
    const uint16_t *entry = (const uint16_t *)&upper;
    uint64_t members = 77;

    EXPECT(thq_set_read(THQ_2015, NULL, 0, NULL, 0, NULL, 0) == THQ_NOT_A_CALL);
    EXPECT(thq_set_read(THQ_2015, loop_a, sizeof loop_a, layers, THQ_SET_LAYERS - 1, set.stored, THQ_SET_STORED) == THQ_NOT_A_CALL);
    EXPECT(thq_set_read(THQ_2015, loop_a, sizeof loop_a, layers, THQ_SET_LAYERS, set.stored, THQ_SET_STORED - 1) == THQ_NOT_A_CALL);
    EXPECT(thq_set_add(NULL, 0, NULL, 0, entry, THQ_ENTRY_NUMBERS) == THQ_NOT_A_CALL);
    EXPECT(thq_set_add(layers, THQ_SET_LAYERS, set.stored, THQ_SET_STORED, NULL, 0) == THQ_NOT_A_CALL);
    EXPECT(thq_set_add(layers, THQ_SET_LAYERS, set.stored, THQ_SET_STORED, entry, THQ_ENTRY_NUMBERS - 1) == THQ_NOT_A_CALL);
    EXPECT(thq_set_add(layers, THQ_SET_LAYERS - THQ_ENTRY_NUMBERS, set.stored, THQ_SET_STORED, entry, THQ_ENTRY_NUMBERS) == THQ_NOT_A_CALL);
    EXPECT(thq_set_remove(layers, THQ_SET_LAYERS, set.stored, THQ_SET_STORED - 1, 0) == THQ_NOT_A_CALL);
    EXPECT(thq_set_remove(NULL, 0, NULL, 0, 0) == THQ_NOT_A_CALL);
    EXPECT(thq_set_closure(NULL, 0, NULL, 0, 0, NULL, 0) == THQ_NOT_A_CALL);
    EXPECT(thq_set_closure(layers, THQ_SET_LAYERS, set.stored, 64, 0, &members, 1) == THQ_NOT_A_CALL);
    EXPECT(members == 77 && SAME(set, before));
    EXPECT(thq_set_read(THQ_2015, NULL, 0, layers, THQ_SET_LAYERS, set.stored, THQ_SET_STORED) == 0);
}

int main(void)
{
    read_and_changed();
    two_views();
    unread_fields();
    refusals();
    buffers_that_hold_no_set();
    lengths();
    return failures != 0;
}
