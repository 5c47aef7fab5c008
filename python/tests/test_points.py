"""Operation points from Python: the sample of two descriptors and five points, every field, lists that are closed or not, the refusals in their order, and values that C's types
do not hold."""

import unittest
from dataclasses import replace
from pathlib import Path

from thoquenry import (Entry, Extension, FrameRate, FrameRateKind, Hierarchy, Number, Point, PointDescriptor, PointLayer, PointStreams, ProgramPoints, Reading, Reference,
                       Refused, closure, read_points, write_loop, write_points)

SAMPLES = Path(__file__).resolve().parent.parent.parent / "samples"

# Two operation point descriptors, and others before and between them; and its streams, layers 0 to 5, three views in two temporal levels.
VIEWS = (SAMPLES / "points" / "views.bin").read_bytes()
STREAMS = (SAMPLES / "mv-hevc.bin").read_bytes()

# Layers 0 and 2, of which 2 rests on 1, which is absent.
ABSENT = (SAMPLES / "absent.bin").read_bytes()


def layers(flags):
    """What a point says of its streams, by their bytes."""
    return tuple(PointLayer(byte & 128 != 0, byte & 64 != 0, byte & 63) for byte in bytes.fromhex(flags))


def prepended(*indices):
    return tuple(Reference(index, prepend_dependencies=True) for index in indices)


def per_second(frames):
    return FrameRate(FrameRateKind.PER_SECOND, frames)


FIRST = PointDescriptor(
    (bytes.fromhex("016000000090000000000078"), bytes.fromhex("06020000009000000000007B")),
    (
        Point(0, (Reference(0),), layers("C0"), 0, per_second(30), 2000, 3000),
        Point(1, prepended(1), layers("C0C0"), 1, FrameRate(FrameRateKind.PER_1001_MILLISECONDS, 60), 3000, 4500),
        Point(2, prepended(2), layers("C0C1"), 0, per_second(30), None, 5000),
    ))
SECOND = PointDescriptor(
    (bytes.fromhex("060200000090000000000096"),),
    (
        Point(3, prepended(2, 4), layers("80C1C2"), 0, FrameRate(FrameRateKind.TICKS, 3003), 7000, None),
        Point(4, prepended(3, 5), layers("C0C1C1C2C2"), 1),
    ))
POINT = Point(1, (Reference(0),))
RESERVED = bytes.fromhex("3F0505C00101FF")


class Points(unittest.TestCase):
    def refused(self, number, place, call, *words):
        with self.assertRaises(Refused) as caught:
            call(*words)
        self.assertEqual((caught.exception.number, caught.exception.place), (number, place))

    def unwritten(self, number, **changes):
        """A point with these changes is refused."""
        self.refused(number, 0, write_points, PointDescriptor((), (replace(POINT, **changes),)))

    def test_the_sample_is_read(self):
        points = read_points(VIEWS, STREAMS)
        self.assertEqual(points.descriptors, (FIRST, SECOND))
        self.assertEqual([streams.layers for streams in points.streams], [(0,), (0, 1), (0, 2), (0, 2, 4), (1, 2, 3, 4, 5)])
        self.assertEqual([streams.closed for streams in points.streams], [True, True, True, True, False])
        self.assertEqual(points.profiles, FIRST.profiles + SECOND.profiles)
        self.assertEqual([(point.target_ols, streams.closed) for point, streams in points][3:], [(3, True), (4, False)])
        self.assertEqual(len(points), 5)
        self.assertEqual(read_points(bytearray(VIEWS), memoryview(STREAMS)), points)

    def test_a_closed_list_is_the_union_of_closures(self):
        for _, streams in read_points(VIEWS, STREAMS):
            union = {index for layer in streams.layers for index in closure(Reading.EDITION_2015, STREAMS, layer)}
            self.assertEqual(union == set(streams.layers), streams.closed)

    def test_each_descriptor_is_written(self):
        self.assertEqual(write_points(FIRST), VIEWS[6:76])
        self.assertEqual(write_points(SECOND), VIEWS[80:])
        self.assertEqual(write_points(PointDescriptor()).hex(), "3f0305c000")

    def test_no_points(self):
        self.assertEqual(read_points(b"", b""), ProgramPoints())
        self.assertEqual(read_points((SAMPLES / "points" / "none.bin").read_bytes(), STREAMS), ProgramPoints())
        self.assertEqual(read_points(write_points(PointDescriptor((), (Point(0),))), b"").streams, (PointStreams((), True),))

    def test_the_most_of_everything(self):
        flags = dict(no_view=True, no_temporal=True, no_spatial=True, no_quality=True, tref_present=False, embedded_layer_index=0, channel=0)
        entries = [Entry(0x25 if index else 0x24, index, Hierarchy(**flags, hierarchy_type=3 if index else 15, layer_index=index)) for index in range(63)]
        loop = write_loop([*entries, Entry(0x28, 63, Extension(0, 63, 0, 0, False, 0, tuple(range(63))))])
        for descriptor in (
                PointDescriptor((bytes(12),) * 21),
                PointDescriptor(),
                PointDescriptor((), (Point(0),) * 63),
                PointDescriptor((), (Point(0, prepended(63)),) * 50),
                PointDescriptor((), (Point(0, (Reference(0),) * 248),)),
                PointDescriptor((), (Point(0, (), layers("C0" * 59)),) * 4)):
            written = write_points(descriptor)
            points = read_points(written * (1008 // len(written)), loop)
            self.assertEqual(set(points.descriptors), {descriptor})
            for point, streams in points:
                self.assertEqual(streams.layers, tuple(range(point.references[0].layer_index + 1)) if point.references else ())

    def test_refusals_of_reading(self):
        unknown = write_points(PointDescriptor((), (Point(0, (Reference(6),)),)))
        self.refused(Number.UNKNOWN_REFERENCE, 0, read_points, unknown, STREAMS)
        self.refused(Number.RESERVED_ES_COUNT, 0, read_points, RESERVED + unknown, STREAMS)
        self.refused(Number.POINTS_DO_NOT_FIT, 0, read_points, RESERVED + unknown + b"\x3F", STREAMS)
        self.refused(Number.POINTS_DO_NOT_FIT, 0, read_points, bytes(1009), STREAMS)
        self.refused(Number.POINTS_DO_NOT_FIT, 0, read_points, bytes(10**7), STREAMS)
        self.refused(Number.DOES_NOT_FIT, 0, read_points, bytes(1009), STREAMS[:4])
        self.refused(Number.LOOP_TOO_LONG, 0, read_points, bytes(1009), bytes(1009))
        # an absent layer: as a reference, as a dependency to be put before it, and as one that is not
        for references in ((Reference(1),), prepended(2)):
            self.refused(Number.UNKNOWN_REFERENCE, 0, read_points, write_points(PointDescriptor((), (Point(0, references),))), ABSENT)
        alone = write_points(PointDescriptor((), (Point(0, (Reference(2),)),)))
        self.assertEqual(read_points(alone, ABSENT).streams, (PointStreams((2,), False),))

    def test_refusals_of_writing(self):
        for changes in (
                dict(target_ols=256), dict(target_ols=2**40), dict(temporal_id=8), dict(average_bit_rate=2**24), dict(maximum_bit_rate=2**32),
                dict(references=(Reference(64),)), dict(references=(Reference(2**70, True),)), dict(layers=(PointLayer(False, False, 64),)),
                dict(layers=(PointLayer(True, True, 2**70),)), dict(layers=layers("00" * 64)), dict(frame_rate=per_second(4096)),
                dict(references=(Reference(0),) * 249), dict(references=(Reference(0),) * 256)):
            self.unwritten(Number.TOO_WIDE, **changes)
        self.unwritten(Number.RESERVED_ES_COUNT, references=(Reference(0),) * 255)
        reserved = Point(0, (Reference(0),) * 255)
        self.refused(41, 0, write_points, PointDescriptor((bytes(12),) * 63, (reserved,)))
        self.refused(25, 0, write_points, PointDescriptor((bytes(12),) * 64, (reserved,)))
        self.refused(25, 0, write_points, PointDescriptor((), (Point(0),) * 255 + (reserved,)))
        for profiles in ((bytes(11),), (bytes(13),), (bytes(6), bytes(18))):
            self.refused(25, 0, write_points, PointDescriptor(profiles))

    def test_what_is_no_value(self):
        for changes in (dict(target_ols=-1), dict(references=(Reference(-1),)), dict(layers=(PointLayer(True, True, -1),)), dict(frame_rate=FrameRate(0, 5)),
                        dict(frame_rate=FrameRate(4, 5))):
            with self.assertRaises(ValueError):
                write_points(PointDescriptor((), (replace(POINT, **changes),)))
        with self.assertRaises(TypeError):
            write_points(PointDescriptor((), (replace(POINT, temporal_id="1"),)))


if __name__ == "__main__":
    unittest.main()
