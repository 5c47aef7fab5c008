/*
 * Operation points called from C: two descriptors read with every list by its layout, one written, and what only C can hand over: lists that are a place too short, lists whose
 * lengths don't fit one another, values too wide for a field but not for a number, and null pointers of buffers of no elements. Ends with status 0 when all is as it should be.
 */
#include "thoquenry.h"

#include <stdio.h>
#include <string.h>

/* The struct lies over the 12 numbers. */
_Static_assert(sizeof(thq_point) == 4 * THQ_POINT_NUMBERS, "a point is 12 numbers of 32 bits");
_Static_assert(offsetof(thq_point, num_es_in_op) == 4 * 2, "num_es_in_op is number 2");
_Static_assert(offsetof(thq_point, frame_rate_indicator) == 4 * 7, "frame_rate_indicator is number 7");
_Static_assert(offsetof(thq_point, closed) == 4 * 11, "closed is number 11");

static int failures;

#define EXPECT(fact) \
    do { \
        if (!(fact)) { \
            fprintf(stderr, "%s:%d: not so: %s\n", __FILE__, __LINE__, #fact); \
            failures++; \
        } \
    } while (0)

/* Layer 0 is a base; 1 and 2 rest on it, and 3 on both. */
static const uint8_t loop[] = {
    0x24, 0xE1, 0x00, 0xF0, 0x06, 0x04, 0x04, 0xFF, 0xC0, 0xFF, 0xC0,
    0x28, 0xE1, 0x01, 0xF0, 0x0A, 0x3F, 0x08, 0x06, 0x00, 0x02, 0x04, 0x03, 0xC1, 0xC1, 0xC0,
    0x28, 0xE1, 0x02, 0xF0, 0x0A, 0x3F, 0x08, 0x06, 0x00, 0x02, 0x08, 0x05, 0xC1, 0xC2, 0xC0,
    0x28, 0xE1, 0x03, 0xF0, 0x0B, 0x3F, 0x09, 0x06, 0x00, 0x02, 0x0C, 0x07, 0xC2, 0xC3, 0xC1, 0xC2,
};

/* A descriptor with a profile and a point with every field, another descriptor, and one with a point without optional fields. */
static const uint8_t program[] = {
    0x3F, 0x1F, 0x05, 0xC1, 0x10, 0x11, 0x12, 0x13, 0x14, 0x15, 0x16, 0x17, 0x18, 0x19, 0x1A, 0x1B, 0x01,
    0x09, 0x02, 0x80, 0xC3, 0xC2, 0xC0, 0x41, 0xF5, 0xF0, 0x3C, 0x01, 0x02, 0x03, 0xFE, 0xFD, 0xFC,
    0x05, 0x01, 0x77,
    0x3F, 0x09, 0x05, 0xC0, 0x01, 0x0A, 0x01, 0xC3, 0xC1, 0xBF, 0x82,
};
static const size_t first_length = 33;

static const thq_point points[] = {
    {
        .target_ols = 9,
        .es_count = 2,
        .num_es_in_op = 2,
        .avg_bit_rate_info_flag = 1,
        .max_bit_rate_info_flag = 1,
        .constant_frame_rate_info_idc = 2,
        .applicable_temporal_id = 5,
        .frame_rate_indicator = 60,
        .avg_bit_rate = 0x010203,
        .max_bit_rate = 0xFEFDFC,
        .streams = 4,
        .closed = 1,
    },
    {
        .target_ols = 10,
        .es_count = 1,
        .num_es_in_op = 1,
        .applicable_temporal_id = 2,
        .streams = 3,
        .closed = 0,
    },
};

/* The seven lists, with room for more than these two descriptors have. */
typedef struct lists {
    uint32_t descriptors[5];
    uint8_t profiles[13];
    thq_point points[3];
    uint8_t references[4];
    uint8_t layers[4];
    uint8_t streams[8];
    uint32_t summary[7];
} lists;

/* How many places of each are handed over. */
typedef struct places {
    size_t descriptors, profiles, points, references, layers, streams, summary;
} places;

static const places enough = {4, 12, 24, 3, 3, 7, 6};

static uint64_t read(const uint8_t *own, size_t own_length, const uint8_t *bytes, size_t length, lists *to, places of)
{
    return thq_read_points(own, own_length, bytes, length, to->descriptors, of.descriptors, to->profiles, of.profiles,
                           (uint32_t *)to->points, of.points, to->references, of.references, to->layers, of.layers, to->streams, of.streams,
                           to->summary, of.summary);
}

/* What stands in the lists after the two descriptors were read, and before anything was. */
static void fill(lists *all)
{
    memset(all, 0x77, sizeof *all);
}

static void fill_read(lists *all)
{
    static const uint32_t descriptors[] = {1, 1, 0, 1}, summary[] = {2, 1, 2, 3, 3, 7};
    static const uint8_t references[] = {0x00, 0x43, 0x43}, layers[] = {0xC0, 0x41, 0xBF}, streams[] = {0, 1, 2, 3, 1, 2, 3};

    fill(all);
    memcpy(all->descriptors, descriptors, sizeof descriptors);
    memcpy(all->profiles, program + 4, 12);
    memcpy(all->points, points, sizeof points);
    memcpy(all->references, references, sizeof references);
    memcpy(all->layers, layers, sizeof layers);
    memcpy(all->streams, streams, sizeof streams);
    memcpy(all->summary, summary, sizeof summary);
}

static void reading(void)
{
    static const uint8_t reserved[] = {0x3F, 0x05, 0x05, 0xC0, 0x01, 0x01, 0xFF};
    lists got, before, expected;
    size_t *place;
    uint8_t other[sizeof program];

    fill(&got);
    fill(&before);
    fill_read(&expected);

    /* Refusals first: each leaves the lists as they are. 17 comes after all others. */
    for (size_t k = 0; k < 7; k++) {
        places short_of = enough;
        place = (size_t *)&short_of;
        place[k]--;
        EXPECT(read(program, sizeof program, loop, sizeof loop, &got, short_of) == THQ_REFUSED_NO_ROOM);
        place[k] = 0;
        EXPECT(read(program, sizeof program, loop, sizeof loop, &got, short_of) == THQ_REFUSED_NO_ROOM);
    }
    EXPECT(thq_read_points(program, sizeof program, loop, sizeof loop, NULL, 0, NULL, 0, NULL, 0, NULL, 0, NULL, 0, NULL, 0, NULL, 0) == THQ_REFUSED_NO_ROOM);
    EXPECT(thq_read_points(NULL, 0, NULL, 0, NULL, 0, NULL, 0, NULL, 0, NULL, 0, NULL, 0, NULL, 0, NULL, 0) == THQ_REFUSED_NO_ROOM);
    EXPECT(read(program, sizeof program, NULL, 0, &got, enough) == THQ_REFUSED_UNKNOWN_REFERENCE);
    EXPECT(thq_read_points(program, sizeof program, loop, 52, NULL, 0, NULL, 0, NULL, 0, NULL, 0, NULL, 0, NULL, 0, NULL, 0) == THQ_REFUSED_DOES_NOT_FIT + 256 * 3);
    EXPECT(read(program, sizeof program, loop, 41, &got, enough) == THQ_REFUSED_UNKNOWN_REFERENCE);
    EXPECT(read(reserved, sizeof reserved, loop, 41, &got, enough) == THQ_REFUSED_RESERVED_ES_COUNT);
    EXPECT(read(program, sizeof program - 1, loop, 41, &got, enough) == THQ_REFUSED_POINTS_DO_NOT_FIT);
    EXPECT(read(program, sizeof program - 1, loop, 4, &got, enough) == THQ_REFUSED_DOES_NOT_FIT);
    EXPECT(memcmp(&got, &before, sizeof got) == 0);

    /* Exactly enough room, and more: what was not written stays as it was. */
    EXPECT(read(program, sizeof program, loop, sizeof loop, &got, enough) == 2 * 256);
    EXPECT(memcmp(&got, &expected, sizeof got) == 0);
    fill(&got);
    EXPECT(read(program, sizeof program, loop, sizeof loop, &got, (places){5, 13, 36, 4, 4, 8, 7}) == 2 * 256);
    EXPECT(memcmp(&got, &expected, sizeof got) == 0);

    /* Without points every list but the summary may be null. */
    const uint32_t none[6] = {0};
    uint32_t summary[6] = {1, 1, 1, 1, 1, 1};
    EXPECT(thq_read_points(NULL, 0, NULL, 0, NULL, 0, NULL, 0, NULL, 0, NULL, 0, NULL, 0, NULL, 0, summary, 6) == 0);
    EXPECT(memcmp(summary, none, sizeof none) == 0);
    memcpy(other, program, sizeof program);
    other[2] = other[38] = 0x04;
    memset(summary, 0x77, sizeof summary);
    EXPECT(thq_read_points(other, sizeof other, loop, sizeof loop, NULL, 0, NULL, 0, NULL, 0, NULL, 0, NULL, 0, NULL, 0, summary, 6) == 0);
    EXPECT(memcmp(summary, none, sizeof none) == 0);
}

/* The first descriptor of `program`, from a point, two references and two layers. */
static uint64_t write(const thq_point *point, uint8_t *out, size_t room)
{
    static const uint8_t references[] = {0x00, 0x43}, layers[] = {0xC0, 0x41};

    return thq_write_points(program + 4, 12, (const uint32_t *)point, THQ_POINT_NUMBERS, references, 2, layers, 2, out, room);
}

static void writing(void)
{
    static const uint32_t most[] = {255, 2, 2, 1, 1, 3, 7, 4095, 16777215, 16777215};
    thq_point changed;
    uint32_t *numbers = (uint32_t *)&changed;
    uint8_t out[64];

    memset(out, 0x77, sizeof out);
    EXPECT(write(points, out, first_length - 1) == THQ_REFUSED_NO_ROOM);
    EXPECT(write(points, NULL, 0) == THQ_REFUSED_NO_ROOM);
    EXPECT(out[0] == 0x77);
    EXPECT(write(points, out, first_length) == 256 * first_length);
    EXPECT(memcmp(out, program, first_length) == 0 && out[first_length] == 0x77);

    /* Each number: its field's greatest value is none too wide, or, of a count, what the lists hold, and one more is. 2^32 - 1 is too wide for all. */
    for (size_t k = 0; k < 10; k++) {
        changed = points[0];
        numbers[k] = most[k] + 1;
        EXPECT(write(&changed, NULL, 0) == THQ_REFUSED_TOO_WIDE);
        numbers[k] = UINT32_MAX;
        EXPECT(write(&changed, NULL, 0) == THQ_REFUSED_TOO_WIDE);
        numbers[k] = most[k];
        EXPECT(write(&changed, out, sizeof out) == 256 * first_length);
    }
    /* A field that is not there is 0: of the frame rate, the average, the maximum. */
    for (size_t k = 0; k < 3; k++) {
        const size_t says[] = {5, 3, 4}, holds[] = {7, 8, 9}, bytes[] = {2, 3, 3};
        changed = points[0];
        numbers[says[k]] = 0;
        EXPECT(write(&changed, NULL, 0) == THQ_REFUSED_TOO_WIDE);
        numbers[holds[k]] = 0;
        EXPECT(write(&changed, out, sizeof out) == 256 * (first_length - bytes[k]));
    }
    /* The last two are not looked at. */
    changed = points[0];
    changed.streams = changed.closed = UINT32_MAX;
    EXPECT(write(&changed, out, first_length) == 256 * first_length && memcmp(out, program, first_length) == 0);
}

/* Lists whose lengths don't fit one another, counts that are too wide, and lengths. */
static void lengths(void)
{
    static uint8_t bytes[800], out[300];
    static thq_point many[256];
    const uint32_t *numbers = (const uint32_t *)many;

    EXPECT(thq_write_points(NULL, 0, NULL, 0, NULL, 0, NULL, 0, out, 5) == 256 * 5);
    EXPECT(memcmp(out, (const uint8_t[]){0x3F, 0x03, 0x05, 0xC0, 0x00, 0x00}, 6) == 0);
    EXPECT(thq_write_points(NULL, 0, NULL, 0, NULL, 0, NULL, 0, NULL, 0) == THQ_REFUSED_NO_ROOM);
    for (size_t k = 1; k < 12; k++) {
        EXPECT(thq_write_points(bytes, k, NULL, 0, NULL, 0, NULL, 0, out, 300) == THQ_REFUSED_TOO_WIDE);
        EXPECT(thq_write_points(NULL, 0, numbers, k, NULL, 0, NULL, 0, out, 300) == THQ_REFUSED_TOO_WIDE);
    }
    EXPECT(thq_write_points(NULL, 0, NULL, 0, bytes, 1, NULL, 0, out, 300) == THQ_REFUSED_TOO_WIDE);
    EXPECT(thq_write_points(NULL, 0, NULL, 0, NULL, 0, bytes, 1, out, 300) == THQ_REFUSED_TOO_WIDE);

    many[0].es_count = 2;
    for (size_t k = 0; k < 4; k++)
        EXPECT(thq_write_points(NULL, 0, numbers, 12, bytes, k, NULL, 0, out, 300) == (k == 2 ? 256 * 11 : THQ_REFUSED_TOO_WIDE));
    many[0].es_count = 0, many[0].num_es_in_op = 2;
    for (size_t k = 0; k < 4; k++)
        EXPECT(thq_write_points(NULL, 0, numbers, 12, NULL, 0, bytes, k, out, 300) == (k == 2 ? 256 * 11 : THQ_REFUSED_TOO_WIDE));
    /* two counts of 2^31 are no list of nothing */
    many[0].num_es_in_op = 0;
    many[0].es_count = many[1].es_count = UINT32_C(1) << 31;
    EXPECT(thq_write_points(NULL, 0, numbers, 24, NULL, 0, NULL, 0, out, 300) == THQ_REFUSED_TOO_WIDE);
    many[0].es_count = many[1].es_count = 0;

    /* 63 layers and 64; 248 references, 249, 255, 256 */
    many[0].num_es_in_op = 63;
    EXPECT(thq_write_points(NULL, 0, numbers, 12, NULL, 0, bytes, 63, out, 300) == 256 * 72);
    many[0].num_es_in_op = 64;
    EXPECT(thq_write_points(NULL, 0, numbers, 12, NULL, 0, bytes, 64, out, 300) == THQ_REFUSED_TOO_WIDE);
    many[0].num_es_in_op = 0;
    const struct { uint32_t count; size_t room; uint64_t answer; } references[] = {
        {248, 257, 256 * 257}, {248, 256, THQ_REFUSED_NO_ROOM}, {249, 0, THQ_REFUSED_TOO_WIDE}, {254, 0, THQ_REFUSED_TOO_WIDE},
        {255, 0, THQ_REFUSED_RESERVED_ES_COUNT}, {256, 0, THQ_REFUSED_TOO_WIDE},
    };
    for (size_t k = 0; k < sizeof references / sizeof references[0]; k++) {
        many[0].es_count = references[k].count;
        EXPECT(thq_write_points(NULL, 0, numbers, 12, bytes, references[k].count, NULL, 0, out, references[k].room) == references[k].answer);
    }
    /* 41 after 25 for a value, for lists and for counts, and before 25 for the length */
    many[0].es_count = 255;
    bytes[254] = 0x80;
    EXPECT(thq_write_points(NULL, 0, numbers, 12, bytes, 255, NULL, 0, out, 300) == THQ_REFUSED_TOO_WIDE);
    bytes[254] = 0x7F;
    EXPECT(thq_write_points(NULL, 0, numbers, 12, bytes, 254, NULL, 0, out, 300) == THQ_REFUSED_TOO_WIDE);
    EXPECT(thq_write_points(bytes, 756, numbers, 12, bytes, 255, NULL, 0, out, 300) == THQ_REFUSED_RESERVED_ES_COUNT);
    EXPECT(thq_write_points(bytes, 768, numbers, 12, bytes, 255, NULL, 0, out, 300) == THQ_REFUSED_TOO_WIDE);
    EXPECT(thq_write_points(NULL, 0, numbers, 12 * 255, bytes, 255, NULL, 0, out, 300) == THQ_REFUSED_RESERVED_ES_COUNT);
    EXPECT(thq_write_points(NULL, 0, numbers, 12 * 256, bytes, 255, NULL, 0, out, 300) == THQ_REFUSED_TOO_WIDE);
    /* 21 profiles, 63 points */
    many[0].es_count = 0;
    EXPECT(thq_write_points(bytes, 252, NULL, 0, NULL, 0, NULL, 0, out, 257) == 256 * 257);
    EXPECT(thq_write_points(bytes, 264, NULL, 0, NULL, 0, NULL, 0, out, 300) == THQ_REFUSED_TOO_WIDE);
    EXPECT(thq_write_points(NULL, 0, numbers, 12 * 63, NULL, 0, NULL, 0, out, 257) == 256 * 257);
    EXPECT(thq_write_points(NULL, 0, numbers, 12 * 64, NULL, 0, NULL, 0, out, 300) == THQ_REFUSED_TOO_WIDE);
}

int main(void)
{
    reading();
    writing();
    lengths();
    return failures != 0;
}
