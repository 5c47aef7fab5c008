"""Document 01's worked examples, and what the module adds: types, the numbers' names and words, values that C's types do not hold, and a library
that is missing or of another version."""

import os
import tempfile
import time
import unittest
from dataclasses import replace
from unittest.mock import patch

import thoquenry
from thoquenry import (Component, Entry, Extension, Header, Hierarchy, Implied, Number, Reading, Refused, Row, Times, Units, closure, import_, join, join_long,
                       read_loop, read_times, write_loop, write_times)
from thoquenry._library import load

LOOP_A = bytes.fromhex("1BE100F0060404FFC0FFC0" "1FE101F0060404D1C140C1" "28E102F00A3F08060002 0803C1C2C0")

ENTRIES_OF_LOOP_A = [
    Entry(0x1B, 256, Hierarchy(no_view=True, no_temporal=True, no_spatial=True, no_quality=True, hierarchy_type=15, layer_index=0,
                               tref_present=True, embedded_layer_index=63, channel=0)),
    Entry(0x1F, 257, Hierarchy(no_view=True, no_temporal=True, no_spatial=False, no_quality=True, hierarchy_type=1, layer_index=1,
                               tref_present=False, embedded_layer_index=0, channel=1)),
    Entry(0x28, 258, Extension(dimension_bits=2, layer_index=2, temporal_id=0, nuh_layer_id=1, tref_present=True, channel=2,
                               embedded=(0,))),
]

UNITS = Units((0, 1), [[Component(0, 0), Component(1, 0)], [Component(2, 600), Component(3, 0)]])


# Two views without a hierarchy descriptor, and an audio stream between them.
SPORTS = bytes.fromhex("1BE120F000" "0FE122F000" "20E121F000")

ENTRIES_OF_SPORTS = [Entry(0x1B, 288, Implied()), Entry(0x0F, 290), Entry(0x20, 289, Implied())]


def table(last_matching):
    """Document 01's table, with its last match time."""
    return [Row(0, 9000, 9000), Row(1, 9000, 9000), Row(0, 12600, 12600), Row(1, 12000, last_matching)]


def two_rows(first, second):
    """The units of two rows of one layer at these times."""
    return join({0: ()}, 0, [Row(0, first, first), Row(0, second, second)]).units


class Answers(unittest.TestCase):
    def refused(self, number, place, call, *words):
        with self.assertRaises(Refused) as caught:
            call(*words)
        self.assertEqual((caught.exception.number, caught.exception.place), (number, place))


class WorkedExamples(Answers):
    def test_loop_a_is_read_with_all_fields(self):
        self.assertEqual(read_loop(Reading.EDITION_2015, LOOP_A), ENTRIES_OF_LOOP_A)

    def test_the_2009_reading_knows_no_hevc_stream(self):
        self.assertEqual(read_loop(Reading.EDITION_2009, LOOP_A), ENTRIES_OF_LOOP_A[:2] + [Entry(0x28, 258)])

    def test_loop_a_is_written(self):
        self.assertEqual(write_loop(ENTRIES_OF_LOOP_A), LOOP_A)

    def test_every_field_has_its_place(self):
        loop = bytes.fromhex("1FEABCF0060404B3E9E8F2" "2BF234F00C3F0A06FFFEFAC2C3D1FDC0E5" "02E000F000")
        entries = [
            Entry(0x1F, 0x0ABC, Hierarchy(no_view=True, no_temporal=False, no_spatial=True, no_quality=True, hierarchy_type=3,
                                          layer_index=41, tref_present=True, embedded_layer_index=40, channel=50)),
            Entry(0x2B, 0x1234, Extension(dimension_bits=0xFFFE, layer_index=62, temporal_id=5, nuh_layer_id=33, tref_present=False,
                                          channel=17, embedded=(61, 0, 37))),
            Entry(0x02, 0),
        ]
        self.assertEqual(read_loop(Reading.EDITION_2015, loop), entries)
        self.assertEqual(write_loop(entries), loop)

    def test_a_list_longer_than_its_count_can_say_is_too_wide(self):
        def with_list(length):
            embedded = tuple(index % 64 for index in range(length))
            return [replace(ENTRIES_OF_LOOP_A[2], record=replace(ENTRIES_OF_LOOP_A[2].record, layer_index=63, embedded=embedded))]
        for length in (64, 65535, 65536, 65544):
            self.refused(Number.TOO_WIDE, 0, write_loop, with_list(length))
        for length in (8, 9, 12, 62, 63):
            written = write_loop(with_list(length))
            self.assertEqual(len(written), 5 + 2 + 7 + length)
            self.assertEqual(read_loop(Reading.EDITION_2015, written), with_list(length))

    def test_values_wider_than_their_c_type_are_too_wide(self):
        self.refused(Number.TOO_WIDE, 0, write_loop, [Entry(0x1B, 65536 + 256)])
        self.refused(Number.TOO_WIDE, 0, write_loop, [Entry(0x1B + 65536, 256)])
        extension = ENTRIES_OF_LOOP_A[2]
        self.refused(Number.TOO_WIDE, 0, write_loop, [replace(extension, record=replace(extension.record, dimension_bits=65536))])
        self.refused(Number.TOO_WIDE, 0, write_times, Times(2**64 + 1, 1, 1), False)
        self.refused(Number.NO_SUCH_LAYER, 0, closure, Reading.EDITION_2015, LOOP_A, 2**64)
        self.refused(Number.OUT_OF_RANGE, 0, join, {0: ()}, 0, [Row(256, 0, 0)])
        self.refused(Number.OUT_OF_RANGE, 0, join, {0: ()}, 0, [Row(0, 2**64, 0)])
        self.refused(Number.OUT_OF_RANGE, 0, join, {0: ()}, 0, [Row(0, 0, 2**64)])
        with self.assertRaises(ValueError):
            closure(Reading.EDITION_2015, LOOP_A, -1)
        with self.assertRaises(ValueError):
            closure(2012, LOOP_A, 1)

    def test_closures(self):
        self.assertEqual(closure(Reading.EDITION_2015, LOOP_A, 1), (0, 1))
        self.assertEqual(closure(Reading.EDITION_2009, LOOP_A, 1), (0, 1))
        self.assertEqual(closure(Reading.EDITION_2015, LOOP_A, 2), (0, 2))
        self.refused(Number.NO_SUCH_LAYER, 0, closure, Reading.EDITION_2009, LOOP_A, 2)

    def test_short_and_long_loops(self):
        for reading in Reading:
            self.assertEqual(read_loop(reading, b""), [])
            self.refused(Number.NO_SUCH_LAYER, 0, closure, reading, b"", 0)
            self.refused(Number.DOES_NOT_FIT, 0, read_loop, reading, bytes(4))
            self.refused(Number.LOOP_TOO_LONG, 0, read_loop, reading, bytes(1009))

    def test_the_whole_import(self):
        self.assertEqual(import_(Reading.EDITION_2015, LOOP_A, 1, table(12600)), UNITS)
        self.refused(Number.UNPAIRED, 3, import_, Reading.EDITION_2015, LOOP_A, 1, table(12601))
        self.refused(Number.USED_TWICE, 3, import_, Reading.EDITION_2015, LOOP_A, 1, table(9000))

    def test_joining_over_given_layers(self):
        layers = {0: (), 1: (0,), 5: (1, 4)}
        self.assertEqual(join(layers, 1, table(12600)), UNITS)
        self.refused(Number.NO_SUCH_LAYER, 0, join, layers, 2, table(12600))
        self.refused(Number.EMBEDDED_LAYER_ABSENT, 4, join, layers, 5, table(12600))

    def test_time_order_across_the_wrap(self):
        self.assertEqual(two_rows(8589934000, 400), [[Component(0, 0)], [Component(1, 0)]])
        self.refused(Number.TIME_ORDER_BROKEN, 1, two_rows, 7, 7)
        self.assertEqual(len(two_rows(0, 4294967295)), 2)
        self.refused(Number.TIME_ORDER_BROKEN, 1, two_rows, 0, 4294967296)

    def test_lags_and_how_far_rows_lie_apart(self):
        def joined(time):
            return join({0: (), 1: (0,)}, 1, [Row(0, time, time), Row(1, 0, time)]).units
        self.assertEqual(joined(4294967295), [[Component(0, 4294967295), Component(1, 0)]])
        self.refused(Number.SPAN_TOO_WIDE, 0, joined, 4294967296)
        self.assertEqual(joined(4294967297), [[Component(0, -4294967295), Component(1, 0)]])

    def test_every_picture_of_a_base_at_full_rate(self):
        layers = {0: (), 1: (0,)}
        rows = [Row(0, 0, 0), Row(1, 0, 0), Row(0, 3600, 3600), Row(0, 7200, 7200), Row(1, 7000, 7200)]
        units = Units((0, 1), [[Component(0, 0), Component(1, 0)], [Component(2, 0)], [Component(3, 200), Component(4, 0)]])
        self.assertEqual(join(layers, 1, rows), units)
        self.assertEqual(join_long(layers, 1, iter(rows)), units)
        self.assertEqual(join(layers, 0, rows), Units((0,), [[Component(0, 0)], [Component(2, 0)], [Component(3, 0)]]))

    def test_tables_at_the_limits(self):
        rows = [Row(0, k, k) for k in range(513)]
        self.assertEqual(len(join({0: ()}, 0, rows[:512]).units), 512)
        self.refused(Number.OUT_OF_RANGE, 0, join, {0: ()}, 0, rows)
        self.assertEqual(join_long({0: ()}, 0, rows).units, [[Component(k, 0)] for k in range(513)])
        self.assertEqual(join({0: ()}, 0, []), Units((0,), []))
        self.assertEqual(join_long({0: ()}, 0, []), Units((0,), []))
        self.refused(Number.OUT_OF_RANGE, 1, join, {0: ()}, 0, [Row(0, 0, 0), Row(0, 1, 2**33)])

    def test_headers(self):
        pts_alone = bytes.fromhex("000001E0000084 8005 2100014651")
        with_tref = bytes.fromhex("000001E0000084 810D 2100015DC1 0F86FE F100016271")
        equal_tref = bytes.fromhex("000001E0000084 810D 2100014651 0F86FE F100014651")
        for times, tref_sent, header in ((Times(9000, 9000, 9000), False, pts_alone), (Times(9000, 9000, 9000), True, equal_tref),
                                         (Times(12000, 12000, 12600), True, with_tref)):
            self.assertEqual(read_times(header), Header(times, tref_sent, len(header)))
            self.assertEqual(write_times(times, tref_sent), header)
        self.assertEqual(read_times(write_times(Times(3, 2, 1), True)), Header(Times(3, 2, 1), True, 27))
        self.refused(Number.NOT_VIDEO_HEADER, 0, read_times, b"")
        self.refused(Number.PTS_BEFORE_DTS, 0, write_times, Times(1, 2, 2), False)
        self.refused(Number.TOO_WIDE, 0, write_times, Times(2**33, 2, 2), False)
        self.refused(Number.TOO_WIDE, 0, write_times, Times(12000, 12000, 12600), False)
        self.refused(Number.TOO_WIDE, 0, write_times, Times(9000, 9000, 9000), 2)

    def test_every_number_has_its_name_and_its_words(self):
        self.assertEqual([number.value for number in Number], [*range(1, 10), *range(11, 19), *range(20, 26), *range(30, 34), 40, 41, 42, 44, 45, 46])
        self.assertEqual(str(Refused(15, 3)), "15: row 3, the head of a unit, has no assembly")
        self.assertEqual(Refused(17, 0).words, "the output room is too small")
        self.assertEqual(len({Refused(number, 7).words for number in Number}), len(Number))
        self.assertFalse([number for number in Number if "{}" in str(Refused(number, 7))])

    def test_what_is_no_whole_number_is_a_type_error(self):
        for wrong in (1.0, 0.5, "1", None):
            for call in (lambda: closure(Reading.EDITION_2015, LOOP_A, wrong), lambda: join({0: ()}, 0, [Row(0, wrong, 0)]),
                         lambda: join({0: ()}, 0, [Row(0, 0, wrong)]), lambda: join({wrong: ()}, 0, []),
                         lambda: write_times(Times(wrong, 0, 0), False), lambda: write_loop([Entry(0x1B, wrong)]), lambda: read_loop(wrong, LOOP_A)):
                self.assertRaises(TypeError, call)
        for wrong in (37, [0x1B], "loop"):
            self.assertRaises(TypeError, read_loop, Reading.EDITION_2015, wrong)
        for call in (lambda: join({0: ()}, 0, [Row(0, -1, 0)]), lambda: write_loop([Entry(0x1B, -1)]), lambda: write_times(Times(-1, 0, 0), False)):
            self.assertRaises(ValueError, call)

    def test_all_kinds_of_bytes(self):
        for kind in (bytes, bytearray, memoryview):
            self.assertEqual(read_loop(Reading.EDITION_2015, kind(LOOP_A)), ENTRIES_OF_LOOP_A)
            self.assertEqual(read_loop(Reading.EDITION_2015, kind(b"")), [])
        self.assertEqual(read_loop(Reading.EDITION_2015, memoryview(b"-" + LOOP_A)[1:]), ENTRIES_OF_LOOP_A)

    def test_what_is_too_long_is_not_copied(self):
        long = bytes(50_000_000)
        header = write_times(Times(3, 2, 1), True)
        began = time.monotonic()
        for kind in (bytes, memoryview):
            self.refused(Number.LOOP_TOO_LONG, 0, read_loop, Reading.EDITION_2015, kind(long))
            self.refused(Number.LOOP_TOO_LONG, 0, import_, Reading.EDITION_2015, kind(long), 0, [])
            self.refused(Number.NOT_VIDEO_HEADER, 0, read_times, kind(long))
        self.refused(Number.OUT_OF_RANGE, 0, join, {0: ()}, 0, (Row(0, k, k) for k in range(10**12)))
        self.assertLess(time.monotonic() - began, 1)
        self.assertEqual(read_times(header + long), Header(Times(3, 2, 1), True, len(header)))

    def test_more_entries_than_a_loop_has(self):
        for last in (201, 202, 403, 1000, 10_000):
            entries = [Entry(0x02, k % 8192) for k in range(last)]
            if last == 201:
                self.assertEqual(len(write_loop(iter(entries))), 1005)
            else:
                self.refused(Number.LOOP_TOO_LONG, 0, write_loop, iter(entries))
            self.refused(Number.TOO_WIDE, 0, write_loop, [*entries, Entry(0x02, 8192)])
            self.refused(Number.TOO_WIDE, 0, write_loop, [Entry(0x02, 8192), *entries])

    def test_the_longest_header(self):
        # PTS, then stuffing up to the most that PES_header_data_length can say
        header = bytes.fromhex("000001E0000084 80FF 2100014651") + b"\xff" * 250
        self.assertEqual(read_times(header + b"more"), Header(Times(9000, 9000, 9000), False, len(header)))
        self.refused(Number.NOT_VIDEO_HEADER, 0, read_times, header[:-1])

    def test_what_is_offered(self):
        self.assertEqual([name for name in thoquenry.__all__ if not hasattr(thoquenry, name)], [])
        self.assertRegex(thoquenry.__version__, r"^\d+\.\d+\.\d+$")


class TwoViews(Answers):
    """Two views and no hierarchy descriptor: a base layer of index 0, and a layer of index 1 that rests on it."""

    BASE, SECOND = Entry(0x1B, 256, Implied()), Entry(0x20, 257, Implied())
    PLAIN_BASE, PLAIN_SECOND, AUDIO = Entry(0x1B, 256), Entry(0x20, 257), Entry(0x0F, 258)

    def layer(self, stream_type, pid, hierarchy_type, layer_index, embedded, no_spatial=True, no_quality=True):
        return Entry(stream_type, pid, Hierarchy(True, True, no_spatial, no_quality, hierarchy_type, layer_index, False, embedded, 0))

    def test_they_are_read(self):
        for reading in Reading:
            self.assertEqual(read_loop(reading, SPORTS), ENTRIES_OF_SPORTS)
            self.assertEqual([entry.layer_index for entry in read_loop(reading, SPORTS)], [0, None, 1])
            self.assertEqual(read_loop(reading, SPORTS[10:] + SPORTS[:5]), [ENTRIES_OF_SPORTS[2], ENTRIES_OF_SPORTS[0]])
            self.assertEqual([closure(reading, SPORTS, target) for target in (0, 1)], [(0,), (0, 1)])
            self.refused(Number.NO_SUCH_LAYER, 0, closure, reading, SPORTS, 2)
        self.assertEqual([entry.layer_index for entry in ENTRIES_OF_LOOP_A], [0, 1, 2])

    def test_an_extension_on_one_of_them(self):
        loop = bytes.fromhex("1BE100F000" "20E101F00A3F080600020402C1C1C0")
        self.assertEqual(read_loop(Reading.EDITION_2009, loop), [self.BASE, self.SECOND])
        self.refused(Number.TYPE_NOT_ALLOWED, 1, read_loop, Reading.EDITION_2015, loop)

    def test_an_implied_index_meets_a_written_one(self):
        base, second, hevc = (bytes.fromhex(entry) for entry in ("1BE100F000", "20E101F000", "24E102F0060404FFC0FFC0"))
        for loop, place in ((hevc + base + second, 1), (base + hevc + second, 1), (base + second + hevc, 2), (second + hevc + base, 2)):
            self.refused(Number.REPEATED_LAYER_INDEX, place, read_loop, Reading.EDITION_2015, loop)
            self.assertEqual(closure(Reading.EDITION_2009, loop, 1), (0, 1))

    def test_rows_are_joined_over_them(self):
        for reading in Reading:
            self.assertEqual(import_(reading, SPORTS, 1, table(12600)), UNITS)
            self.assertEqual(import_(reading, SPORTS, 0, table(12600)), Units((0,), [[Component(0, 0)], [Component(2, 0)]]))
            self.refused(Number.UNPAIRED, 3, import_, reading, SPORTS, 1, table(12601))
            self.refused(Number.USED_TWICE, 3, import_, reading, SPORTS, 1, table(9000))

    def test_they_are_written_without_a_descriptor(self):
        self.assertEqual(write_loop(ENTRIES_OF_SPORTS), SPORTS)
        self.assertEqual(write_loop([self.SECOND, self.BASE]), bytes.fromhex("20E101F000" "1BE100F000"))
        third = self.layer(0x1F, 258, 1, 2, 1, no_spatial=False)
        written = write_loop([self.BASE, self.SECOND, third])
        self.assertEqual(written, bytes.fromhex("1BE100F000" "20E101F000" "1FE102F0060404D1C241C0"))
        self.assertEqual(closure(Reading.EDITION_2015, written, 2), (0, 1, 2))

    def test_a_mark_that_is_missing(self):
        for entries, place in (
            ([self.PLAIN_BASE, self.PLAIN_SECOND], 0),
            ([self.BASE, self.PLAIN_SECOND], 1),
            ([self.PLAIN_BASE, self.SECOND], 0),
            ([self.AUDIO, self.SECOND, self.PLAIN_BASE], 2),
        ):
            self.refused(Number.TYPE_NOT_ALLOWED, place, write_loop, entries)

    def test_a_mark_where_none_is_given(self):
        another = Entry(0x1B, 259)
        for entries, place in (
            ([self.BASE], 0),
            ([self.AUDIO, self.SECOND], 1),
            ([self.BASE, self.SECOND, replace(self.AUDIO, record=Implied())], 2),
            ([self.BASE, self.SECOND, Entry(0x1F, 258, Implied())], 2),
            ([self.BASE, self.SECOND, Entry(0x24, 258, Implied())], 2),
            # two of one type
            ([another, self.BASE, self.SECOND], 1),
            ([self.PLAIN_BASE, self.PLAIN_SECOND, replace(another, record=Implied())], 2),
            ([self.PLAIN_BASE, self.SECOND, Entry(0x20, 258)], 1),
            # a hierarchy descriptor on the other
            ([self.layer(0x1B, 256, 15, 0, 63), self.SECOND], 1),
            ([self.BASE, self.layer(0x20, 257, 9, 1, 0)], 0),
        ):
            self.refused(Number.TYPE_NOT_ALLOWED, place, write_loop, entries)
        for entries in (
            [self.PLAIN_BASE, another, self.PLAIN_SECOND],
            [self.layer(0x1B, 256, 15, 0, 63), self.PLAIN_SECOND],
            [self.PLAIN_BASE, self.layer(0x20, 257, 9, 1, 0)],
        ):
            self.assertEqual(read_loop(Reading.EDITION_2015, write_loop(entries)), entries)

    def test_an_extension_to_be_written_on_one_of_them_does_not_undo_the_rule(self):
        second = Entry(0x20, 257, Extension(2, 1, 0, 1, False, 1, (0,)))
        self.refused(Number.TYPE_NOT_ALLOWED, 0, write_loop, [self.PLAIN_BASE, second])
        self.refused(Number.TYPE_NOT_ALLOWED, 1, write_loop, [self.BASE, second])

    def test_a_wrong_mark_beside_other_faults(self):
        not_allowed = self.layer(0x1F, 258, 9, 5, 0)
        wrong_flags = self.layer(0x1F, 258, 1, 5, 0, no_spatial=False, no_quality=False)
        hevc = self.layer(0x24, 258, 15, 0, 63)
        for number, place, entries in (
            (Number.TOO_WIDE, 0, [replace(self.PLAIN_BASE, elementary_pid=8192), self.SECOND]),
            (Number.REPEATED_PID, 1, [self.PLAIN_BASE, replace(self.SECOND, elementary_pid=256)]),
            (Number.TYPE_NOT_ALLOWED, 0, [not_allowed, self.PLAIN_BASE, self.SECOND]),
            (Number.TYPE_NOT_ALLOWED, 0, [self.PLAIN_BASE, not_allowed, self.SECOND]),
            (Number.TYPE_NOT_ALLOWED, 1, [wrong_flags, self.PLAIN_BASE, self.SECOND]),
            (Number.TYPE_NOT_ALLOWED, 2, [hevc, self.BASE, self.PLAIN_SECOND]),
            (Number.WRONG_FLAGS, 2, [self.BASE, self.SECOND, wrong_flags]),
            (Number.REPEATED_LAYER_INDEX, 1, [hevc, self.BASE, self.SECOND]),
            (Number.REPEATED_LAYER_INDEX, 1, [self.BASE, hevc, self.SECOND]),
            (Number.REPEATED_LAYER_INDEX, 2, [self.SECOND, self.BASE, hevc]),
        ):
            self.refused(number, place, write_loop, entries)


class MissingLibrary(unittest.TestCase):
    def said(self, library):
        with patch.dict(os.environ, {"THOQUENRY_SO": library}), self.assertRaises(ImportError) as caught:
            load()
        return str(caught.exception)

    def test_the_remedy_is_named(self):
        for remedy in ("scripts/build-library", "THOQUENRY_SO"):
            self.assertIn(remedy, self.said("/nowhere/libthoquenry.so"))

    def test_a_library_of_another_kind(self):
        self.assertIn("has no thq_version", self.said("libc.so.6"))
        with tempfile.NamedTemporaryFile(suffix=".so") as empty:
            self.assertIn("could not be loaded", self.said(empty.name))


if __name__ == "__main__":
    unittest.main()
