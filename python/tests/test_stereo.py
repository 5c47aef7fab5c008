"""The stereo set from Python: the two samples, every field, the refusals in their order, and values that C's types do not hold."""

import unittest
from dataclasses import replace
from pathlib import Path

from thoquenry import (Entry, Hierarchy, Implied, MvcExtension, Number, Reading, Refused, StereoSet, closure, read_loop, read_stereo,
                       write_stereo)

SAMPLES = Path(__file__).resolve().parent.parent.parent / "samples"

# The sample with hierarchy descriptors, which is as write_stereo writes it; and the one without, with other descriptors and the second view first.
WRITTEN = (SAMPLES / "stereo.bin").read_bytes()
IMPLIED = (SAMPLES / "stereo-implied.bin").read_bytes()

BASE = Entry(0x1B, 320, Hierarchy(True, True, True, True, hierarchy_type=15, layer_index=0, tref_present=True, embedded_layer_index=63, channel=0))
SECOND = Entry(0x20, 321, Hierarchy(True, True, True, True, hierarchy_type=9, layer_index=1, tref_present=False, embedded_layer_index=0, channel=1))
AUDIO = Entry(0x0F, 322)
VIEWS = (Entry(0x1B, 336, Implied()), Entry(0x20, 337, Implied()))

# The descriptors of both samples.
FIRST = MvcExtension(4000, 6000, 0, 0, 0, 7, False, True)
OTHER = MvcExtension(8000, 12000, 1, 1, 0, 7, True, True)


def ranges(first, second):
    """The descriptors of the samples with other ranges."""
    return tuple(replace(extension, view_order_index_min=least, view_order_index_max=greatest)
                 for extension, (least, greatest) in zip((FIRST, OTHER), (first, second)))


class Stereo(unittest.TestCase):
    def refused(self, number, place, call, *words):
        with self.assertRaises(Refused) as caught:
            call(*words)
        self.assertEqual((caught.exception.number, caught.exception.place), (number, place))

    def test_a_written_set_is_read_and_written(self):
        self.assertEqual(read_stereo(WRITTEN), StereoSet((BASE, SECOND), (FIRST, OTHER)))
        self.assertEqual(write_stereo([BASE, SECOND, AUDIO], (FIRST, OTHER)), WRITTEN)

    def test_an_implied_set_is_read_by_layer_index(self):
        self.assertEqual(read_stereo(IMPLIED), StereoSet(VIEWS, (FIRST, OTHER)))
        again = write_stereo(reversed(VIEWS), (FIRST, OTHER))
        self.assertEqual(again.hex(), "20e151f00a31081f402ee0f004011f" "1be150f00a31080fa01770f000001d")
        self.assertEqual(read_stereo(again), read_stereo(IMPLIED))

    def test_both_readings_accept_a_set_and_skip_its_descriptors(self):
        for reading in Reading:
            self.assertEqual(read_loop(reading, WRITTEN), [BASE, SECOND, AUDIO])
            self.assertEqual(read_loop(reading, IMPLIED), [VIEWS[1], Entry(0x0F, 338), VIEWS[0]])
            for loop in (WRITTEN, IMPLIED):
                self.assertEqual([closure(reading, loop, target) for target in (0, 1)], [(0,), (0, 1)])

    def test_every_field_has_its_place(self):
        entries = [Entry(0x1B, 256, Implied()), Entry(0x20, 257, Implied())]
        extensions = (MvcExtension(0x1234, 0x5678, 341, 682, 5, 2, True, False), MvcExtension(0xFEDC, 0xBA98, 683, 1000, 2, 5, False, True))
        loop = bytes.fromhex("1BE100F00A310812345678F556AAAA" "20E101F00A3108FEDCBA98FAAFE855")
        self.assertEqual(write_stereo(entries, extensions), loop)
        self.assertEqual(read_stereo(loop), StereoSet(tuple(entries), extensions))
        greatest = (MvcExtension(65535, 65535, 1022, 1022, 7, 7, True, True), MvcExtension(65535, 65535, 1023, 1023, 7, 7, True, True))
        self.assertEqual(read_stereo(write_stereo(entries, greatest)).extensions, greatest)

    def test_what_is_no_stereo_set_is_refused(self):
        self.refused(Number.NOT_STEREO_SET, 0, read_stereo, b"")
        self.refused(Number.NOT_STEREO_SET, 0, read_stereo, (SAMPLES / "mvc.bin").read_bytes())
        self.refused(Number.WRONG_MVC_EXTENSION, 0, read_stereo, (SAMPLES / "sports.bin").read_bytes())
        # the second view's least index 0, as the base's
        self.refused(Number.RANGES_MEET, 0, read_stereo, WRITTEN[:39] + b"\0" + WRITTEN[40:])
        self.refused(Number.DOES_NOT_FIT, 2, read_stereo, WRITTEN[:46])
        self.refused(Number.LOOP_TOO_LONG, 0, read_stereo, bytes(50_000_000))
        self.assertRaises(TypeError, read_stereo, 47)

    def test_the_writer_refuses_in_its_order(self):
        meeting = (FIRST, FIRST)
        pids = [Entry(0x02, pid) for pid in range(300)]
        for number, place, entries, extensions in (
            (Number.TOO_WIDE, 0, [], (FIRST, replace(OTHER, temporal_id_end=8))),
            (Number.TOO_WIDE, 0, [AUDIO, AUDIO], ranges((0, 1024), (0, 0))),
            (Number.TOO_WIDE, 0, pids, ranges((0, 0), (1024, 0))),
            (Number.TOO_WIDE, 0, [BASE, Entry(0x02, 8192)], meeting),
            (Number.LOOP_TOO_LONG, 0, pids[:198], meeting),
            (Number.LOOP_TOO_LONG, 0, pids, meeting),
            (Number.REPEATED_PID, 1, [AUDIO, AUDIO], meeting),
            (Number.TYPE_NOT_ALLOWED, 0, [Entry(0x1B, 256), Entry(0x20, 257)], meeting),
            (Number.WRONG_EMBEDDED_INDEX, 1, [BASE, replace(SECOND, record=replace(SECOND.record, embedded_layer_index=1))], meeting),
            (Number.NOT_STEREO_SET, 0, pids[:197], meeting),
            (Number.NOT_STEREO_SET, 0, [BASE, SECOND, Entry(0x20, 323, replace(SECOND.record, layer_index=2))], meeting),
            (Number.RANGES_MEET, 0, [BASE, SECOND], meeting),
            (Number.RANGES_MEET, 0, [BASE, SECOND], ranges((1, 0), (5, 9))),
            (Number.RANGES_MEET, 0, [BASE, SECOND], ranges((0, 3), (3, 7))),
        ):
            self.refused(number, place, write_stereo, iter(entries), extensions)
        for apart in (ranges((0, 3), (4, 7)), ranges((4, 7), (0, 3))):
            self.assertEqual(read_stereo(write_stereo([SECOND, BASE], apart)).extensions, apart)

    def test_values_wider_than_their_c_type_are_too_wide(self):
        for field in ("average_bit_rate", "maximum_bitrate", "view_order_index_min", "view_order_index_max", "temporal_id_start", "temporal_id_end"):
            for value in (2**16, 2**16 + 1, 2**64):
                self.refused(Number.TOO_WIDE, 0, write_stereo, [BASE, SECOND], (FIRST, replace(OTHER, **{field: value})))
            self.assertRaises(ValueError, write_stereo, [BASE, SECOND], (replace(FIRST, **{field: -1}), OTHER))
            self.assertRaises(TypeError, write_stereo, [BASE, SECOND], (replace(FIRST, **{field: 0.5}), OTHER))
        self.refused(Number.TOO_WIDE, 0, write_stereo, [BASE, SECOND], (replace(FIRST, no_sei_nal_unit_present=2), OTHER))
        self.refused(Number.TOO_WIDE, 0, write_stereo, [BASE, SECOND], (FIRST, replace(OTHER, no_prefix_nal_unit_present=2)))

    def test_two_descriptors_are_asked_for(self):
        for extensions in ((), (FIRST,), (FIRST, OTHER, OTHER)):
            self.assertRaises(ValueError, write_stereo, [BASE, SECOND], extensions)


if __name__ == "__main__":
    unittest.main()
