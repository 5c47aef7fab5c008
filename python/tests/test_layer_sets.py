"""Layer sets that change, through the module: what it answers, what it leaves behind, and what Python adds."""

import unittest
from dataclasses import replace
from pathlib import Path

from thoquenry import Entry, Extension, Hierarchy, Implied, Layer, LayerSet, Number, Reading, Refused, closure, read_loop

SPORTS = bytes.fromhex("1BE120F000" "0FE122F000" "20E121F000")
SAMPLES = Path(__file__).resolve().parents[2] / "samples"


def base(index, pid):
    """A base layer of type 0x24."""
    return Entry(0x24, pid, Hierarchy(True, True, True, True, 15, index, False, 63, 0))


def on(index, pid, *lower):
    """A layer with an extension, which rests on these."""
    return Entry(0x28, pid, Extension(0x8001, index, 3, 9, True, 5, lower))


def of(*entries):
    """The set of these layers, added one after another."""
    layers = LayerSet()
    for entry in entries:
        layers.add(entry)
    return layers


class LayerSets(unittest.TestCase):
    def refused(self, number, place, call, *words):
        with self.assertRaises(Refused) as caught:
            call(*words)
        self.assertEqual((caught.exception.number, caught.exception.place), (number, place))

    def test_a_chain_that_is_broken_and_mended(self):
        zero, one, two = base(0, 100), on(1, 101, 0), on(2, 102, 1)
        layers = of(two, zero, one)
        whole = [Layer(0, zero, (0,), 1, False), Layer(1, one, (0, 1), 2, False), Layer(2, two, (0, 1, 2), 3, False)]
        self.assertEqual(list(layers), whole)
        self.assertEqual(layers.closure(2), (0, 1, 2))
        layers.remove(1)
        self.assertEqual(list(layers), [whole[0], Layer(2, two, (1, 2), 2, True)])
        self.refused(Number.EMBEDDED_LAYER_ABSENT, 1, layers.closure, 2)
        self.refused(Number.NO_SUCH_LAYER, 0, layers.closure, 1)
        self.refused(Number.NO_SUCH_LAYER, 0, layers.remove, 1)
        layers.add(one)
        self.assertEqual(list(layers), whole)

    def test_removing_what_was_added_gives_the_set_that_was(self):
        layers = of(base(0, 100), on(5, 105, 3))
        before = layers.copy()
        layers.add(on(3, 103, 0))
        self.assertNotEqual(layers, before)
        self.assertEqual(layers.closure(5), (0, 3, 5))
        self.assertEqual(before[5], Layer(5, on(5, 105, 3), (3, 5), 2, True))
        layers.remove(3)
        self.assertEqual(layers, before)

    def test_refusals_leave_the_set_as_it_was(self):
        layers = of(base(0, 100), on(1, 101, 0))
        before = list(layers)
        two = on(2, 102, 0)
        for number, entry in (
            (Number.TOO_WIDE, on(64, 102, 0)),
            (Number.TOO_WIDE, on(2, 8192, 0)),
            (Number.TOO_WIDE, on(2, 65536 + 102, 0)),
            (Number.TOO_WIDE, on(63, 102, *range(64))),
            (Number.TOO_WIDE, on(64, 100, 0)),
            (Number.REPEATED_PID, on(2, 100, 0)),
            (Number.REPEATED_PID, on(1, 101, 1)),
            (Number.TYPE_NOT_ALLOWED, replace(two, stream_type=0x1F)),
            (Number.TYPE_NOT_ALLOWED, replace(two, stream_type=0x02)),
            (Number.TYPE_NOT_ALLOWED, Entry(0x1B, 102, Implied())),
            (Number.TYPE_NOT_ALLOWED, Entry(0x24, 102)),
            (Number.WRONG_FLAGS, Entry(0x24, 102, Hierarchy(False, True, True, False, 15, 2, False, 63, 0))),
            (Number.REPEATED_LAYER_INDEX, on(1, 102, 1)),
            (Number.WRONG_EMBEDDED_INDEX, on(2, 102, 2)),
            (Number.WRONG_EMBEDDED_INDEX, on(2, 102, 0, 0)),
        ):
            self.refused(number, 0, layers.add, entry)
            self.assertEqual(list(layers), before)
        for layer_index in (2, 63, 64, 2**64):
            self.refused(Number.NO_SUCH_LAYER, 0, layers.remove, layer_index)
            self.refused(Number.NO_SUCH_LAYER, 0, layers.closure, layer_index)
        for wrong in (1.0, "1", None):
            self.assertRaises(TypeError, layers.remove, wrong)
            self.assertRaises(TypeError, layers.closure, wrong)
        self.assertRaises(ValueError, layers.remove, -1)
        self.assertEqual(list(layers), before)

    def test_two_views_of_which_one_is_removed(self):
        first, second = Entry(0x1B, 288, Implied()), Entry(0x20, 289, Implied())
        for reading in Reading:
            layers = LayerSet.read(reading, SPORTS)
            self.assertEqual(list(layers), [Layer(0, first, (0,), 1, False), Layer(1, second, (0, 1), 2, False)])
            layers.add(on(2, 290, 1))
            layers.remove(0)
            self.assertEqual(layers[1], Layer(1, second, (0, 1), 2, True))
            self.refused(Number.TYPE_NOT_ALLOWED, 0, layers.add, first)
            layers.add(base(0, 288))
            self.assertEqual(layers.closure(2), (0, 1, 2))

    def test_a_set_of_a_loop_answers_as_the_loop(self):
        def answered(call, *words):
            try:
                return call(*words)
            except Refused as refused:
                return refused.number, refused.place
        for name in ("absent", "loop-a", "mv-hevc", "mvc", "sports", "svc", "twelve"):
            loop = (SAMPLES / f"{name}.bin").read_bytes()
            for reading in Reading:
                layers = LayerSet.read(reading, loop)
                entries = [entry for entry in read_loop(reading, loop) if entry.record]
                self.assertEqual([layer.entry for layer in layers], sorted(entries, key=lambda entry: entry.layer_index))
                for target in range(66):
                    self.assertEqual(answered(layers.closure, target), answered(closure, reading, loop, target))
        self.refused(Number.DOES_NOT_FIT, 0, LayerSet.read, Reading.EDITION_2015, bytes(4))
        self.refused(Number.LOOP_TOO_LONG, 0, LayerSet.read, Reading.EDITION_2015, bytes(2000))
        self.assertRaises(ValueError, LayerSet.read, 2012, SPORTS)

    def test_what_a_set_offers(self):
        self.assertEqual((len(LayerSet()), list(LayerSet()), LayerSet()), (0, [], LayerSet()))
        layers = of(on(63, 163, 7, 5), base(7, 107))
        self.assertEqual(len(layers), 2)
        self.assertEqual([index for index in range(-1, 70) if index in layers], [7, 63])
        self.assertEqual([layer.index for layer in layers], [7, 63])
        self.assertEqual(layers[63], Layer(63, on(63, 163, 7, 5), (5, 7, 63), 3, True))
        for missing in (5, 64, -1):
            self.assertRaises(KeyError, lambda: layers[missing])
        self.assertEqual(repr(of(base(0, 1))), f"LayerSet([{Layer(0, base(0, 1), (0,), 1, False)!r}])")
        self.assertNotEqual(layers, 5)
        self.assertRaises(TypeError, hash, layers)


if __name__ == "__main__":
    unittest.main()
