/*
 * The cases on which Thoquenry is compared with Debian's peers, made alike in every program from one seed. A program includes this file and
 * defines the four functions below; `run` hands it each case, and what it prints is compared line by line with what the others print.
 *
 * A case is one that the peers can judge: they look at no length, so every length is right, and they know neither a TREF nor the flags of
 * the hierarchy descriptor, which they write as ones.
 */
#ifndef CASES_H
#define CASES_H

#include <stdbool.h>
#include <stddef.h>
#include <stdint.h>
#include <stdio.h>
#include <stdlib.h>
#include <string.h>

#define TIMES_MODULUS ((uint64_t)1 << 33)
#define HEADER_ROOM 64

/* The fields of a hierarchy descriptor that the peers know, and a stream type on which its type is allowed. */
struct hierarchy {
    uint8_t stream_type, type, index, embedded, channel;
};

/* Prints the bytes of a header with these times, and those of a descriptor with these fields. */
static void write_header(uint64_t pts, uint64_t dts);
static void write_hierarchy(struct hierarchy fields);

/* Prints what a header says, or the number by which it is refused; and what the payload of a descriptor says. */
static void read_header(const uint8_t *bytes, size_t length);
static void read_hierarchy(uint8_t stream_type, const uint8_t *payload);

static inline void print_bytes(const uint8_t *bytes, size_t length)
{
    for (size_t k = 0; k < length; k++) printf("%02X", bytes[k]);
    putchar('\n');
}

static uint64_t state;

/* The next number of the sequence (splitmix64). */
static uint64_t next(void)
{
    uint64_t z = state += 0x9E3779B97F4A7C15u;
    z = (z ^ (z >> 30)) * 0xBF58476D1CE4E5B9u;
    z = (z ^ (z >> 27)) * 0x94D049BB133111EBu;
    return z ^ (z >> 31);
}

/* A number below a limit. (C leaves the order open in which parts of one expression are evaluated, so each draw has a statement of its own.) */
static uint64_t below(uint64_t limit)
{
    return next() % limit;
}

/* A time: any, or one near an end of its range or of one of its three pieces. */
static uint64_t some_time(void)
{
    static const uint64_t edges[] = {0, 1 << 15, 1 << 30, (uint64_t)1 << 32};
    if (below(2) != 0) return below(TIMES_MODULUS);
    uint64_t edge = edges[below(4)];
    return (edge + TIMES_MODULUS - 2 + below(4)) % TIMES_MODULUS;
}

/* A decoding time at which PTS does not lie before DTS: often PTS itself. */
static uint64_t some_dts(uint64_t pts)
{
    static const uint64_t farthest = ((uint64_t)1 << 32) - 1;
    uint64_t distance = below(3) == 0 ? 0 : below(8) == 0 ? farthest : below(farthest);
    return (pts + TIMES_MODULUS - distance) % TIMES_MODULUS;
}

static void put_time(uint8_t *bytes, uint8_t prefix, uint64_t time)
{
    bytes[0] = (uint8_t)(prefix << 4 | ((time >> 30) & 7) << 1 | 1);
    bytes[1] = (uint8_t)(time >> 22);
    bytes[2] = (uint8_t)(((time >> 15) & 127) << 1 | 1);
    bytes[3] = (uint8_t)(time >> 7);
    bytes[4] = (uint8_t)((time & 127) << 1 | 1);
}

/* A header to be read, with or without a TREF, stuffed, with one damage or none to what both sides judge. */
static void header_to_read(void)
{
    uint8_t bytes[HEADER_ROOM];
    uint64_t pts = some_time();
    uint64_t dts = some_dts(pts);
    uint64_t tref = some_time();
    bool has_dts = dts != pts, has_tref = below(4) == 0;
    size_t at = 9;

    memset(bytes, 0xFF, sizeof bytes);
    bytes[0] = 0, bytes[1] = 0, bytes[2] = 1;
    bytes[3] = (uint8_t)(0xE0 + below(16));
    bytes[4] = (uint8_t)next();
    bytes[5] = (uint8_t)next();
    bytes[6] = (uint8_t)(0x80 + below(64));
    bytes[7] = (uint8_t)(0x80 | has_dts << 6 | has_tref);
    put_time(bytes + at, has_dts ? 3 : 2, pts), at += 5;
    if (has_dts) put_time(bytes + at, 1, dts), at += 5;
    if (has_tref) {
        bytes[at++] = 0x01 | (uint8_t)(next() & 0x0E);
        bytes[at++] = 0x86;
        bytes[at++] = 0xFE;
        put_time(bytes + at, (uint8_t)below(16), tref), at += 5;
    }
    /* Room for a DTS in any case, so that a flag too many finds no length at fault. */
    if (at < 19) at = 19;
    bytes[8] = (uint8_t)(at - 9 + below(8));

    switch (below(8)) {
    case 0: bytes[below(3)] ^= (uint8_t)(1 << below(8)); break;      /* the prefix */
    case 1: bytes[3] ^= (uint8_t)(0x10 << below(4)); break;          /* stream_id */
    case 2: bytes[6] ^= (uint8_t)(0x40 << below(2)); break;          /* '10' */
    case 3: if (!has_tref) bytes[7] ^= (uint8_t)(0x40 << below(2)); break; /* PTS_DTS_flags */
    case 4: bytes[9] ^= (uint8_t)(0x10 << below(4)); break;          /* '0010', '0011' */
    case 5: bytes[9 + 2 * below(3)] ^= 1; break;                     /* a marker of PTS */
    case 6: if (has_dts) bytes[14 + 2 * below(3)] ^= 1; break;       /* a marker of DTS */
    case 7: break;
    }
    read_header(bytes, (size_t)9 + bytes[8]);
}

static struct hierarchy some_hierarchy(void)
{
    static const uint8_t types[] = {1, 2, 3, 4, 5, 6, 7, 8, 9, 15};
    struct hierarchy fields;
    fields.type = types[below(10)];
    fields.stream_type = fields.type == 9 ? 0x20 : fields.type == 15 ? 0x1B : 0x1F;
    fields.index = (uint8_t)(1 + below(63));
    fields.embedded = (uint8_t)below(fields.type == 15 ? 64 : fields.index);
    fields.channel = (uint8_t)below(64);
    return fields;
}

/* A descriptor to be read: any reserved bits, any tref_present_flag, and flags that its type allows. */
static void hierarchy_to_read(void)
{
    struct hierarchy fields = some_hierarchy();
    uint64_t reserved = next();
    uint8_t flags = 15;
    if (fields.type == 8)
        flags = (uint8_t)below(16);
    else if (fields.type != 9)
        flags ^= (uint8_t)(1 << below(5));
    const uint8_t payload[] = {
        (uint8_t)((flags & 15) << 4 | fields.type),
        (uint8_t)((reserved & 3) << 6 | fields.index),
        (uint8_t)((reserved & 12) << 4 | fields.embedded),
        (uint8_t)((reserved & 48) << 2 | fields.channel),
    };
    read_hierarchy(fields.stream_type, payload);
}

/* PROGRAM times|hierarchy SEED COUNT */
int main(int count_of_words, char **words)
{
    if (count_of_words != 4) return 2;
    bool of_times = strcmp(words[1], "times") == 0;
    state = strtoull(words[2], NULL, 10);
    unsigned long count = strtoul(words[3], NULL, 10);
    for (unsigned long k = 0; k < count; k++) {
        if (of_times && k % 2 == 0) {
            uint64_t pts = some_time();
            write_header(pts, some_dts(pts));
        } else if (of_times) {
            header_to_read();
        } else if (k % 2 == 0) {
            write_hierarchy(some_hierarchy());
        } else {
            hierarchy_to_read();
        }
    }
    return 0;
}

#endif
