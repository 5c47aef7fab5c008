"""Recordings in pieces from Python: cut anywhere, read from a file and from what gives a few bytes at a time, with the answers of the whole."""

import io
import tempfile
import unittest
from pathlib import Path

from made import LOOP_A, PACKETS, RECORDING, REFUSED, ROWS, UNITS, long_recording
from thoquenry import RecordedRow, Recording, Refused, packets_import_long, packets_rows

ROOT = Path(__file__).resolve().parent.parent.parent

# Recordings that ffmpeg made, and what ffprobe lists of them.
SAMPLES = ROOT / "samples" / "recordings"
LISTED = ROOT / "tests" / "recordings"


def fed(*pieces):
    recording = Recording(LOOP_A)
    for piece in pieces:
        recording.feed(piece)
    return recording


def cut(whole, length):
    return [whole[at:at + length] for at in range(0, len(whole), length)]


def answer(call, *words):
    """What a call answers, or the number, place and words of its refusal."""
    try:
        return call(*words)
    except Refused as refused:
        return type(refused), refused.number, refused.place, str(refused)


class Halting(io.RawIOBase):
    """Gives a few bytes at a time."""

    def __init__(self, whole):
        self.left = io.BytesIO(whole)
        self.reads = 0

    def read(self, size=-1):
        self.reads += 1
        return self.left.read(min(size, 1 + self.reads % 300))


class Pieces(unittest.TestCase):
    def as_the_whole(self, recording, whole):
        """Holds a recording to the answers over all its bytes."""
        rows = answer(packets_rows, LOOP_A, whole)
        if isinstance(rows, list):
            self.assertEqual((recording.told(), list(recording)), (len(rows), rows))
        else:
            self.assertEqual(answer(recording.told), rows)
        for target in (0, 1, 2, 3, 2**70):
            imported = answer(packets_import_long, LOOP_A, target, whole)
            self.assertEqual(answer(recording.units, target), imported[1] if isinstance(imported[0], list) else imported)

    def test_cut_anywhere(self):
        for length in (*range(1, 40), *range(180, 200), 375, 376, 377, len(RECORDING) - 1, len(RECORDING)):
            self.as_the_whole(fed(*cut(RECORDING, length)), RECORDING)
        for at in range(0, len(RECORDING) + 1, 7):
            recording = fed(RECORDING[:at], b"", bytearray(RECORDING[at:]), memoryview(b""))
            self.assertEqual((list(recording), recording.told(), recording.packets), (ROWS, len(ROWS), len(PACKETS)))
            self.assertEqual(recording.units(1), UNITS[1])
            self.assertEqual(recording.units(2), UNITS[2])

    def test_asked_at_any_time(self):
        recording = Recording(bytearray(LOOP_A))
        for end in range(len(RECORDING)):
            if end % 47 == 0:
                self.as_the_whole(recording, RECORDING[:end])
            recording.feed(RECORDING[end:end + 1])
        self.as_the_whole(recording, RECORDING)

    def test_it_is_a_sequence_of_its_rows(self):
        recording = fed(RECORDING)
        self.assertEqual((len(recording), recording[0], recording[4], recording[-1]), (5, ROWS[0], ROWS[4], ROWS[4]))
        for outside in (5, -6):
            with self.assertRaises(IndexError):
                recording[outside]
        self.assertEqual(list(fed()), [])
        self.assertEqual(repr(recording), "<Recording of 8 packets, 5 rows>")

    def test_refusals(self):
        for packets, number, place in REFUSED:
            whole = b"".join(packets)
            for length in (1, 187, 188, 189, 1000):
                recording = fed(*cut(whole, length))
                self.as_the_whole(recording, whole)
                with self.assertRaises(Refused) as caught:
                    recording.told()
                self.assertEqual((caught.exception.number, caught.exception.place), (number, place))
        for loop, number in ((bytes(4), 2), (bytes(1009), 1)):
            with self.assertRaises(Refused) as caught:
                Recording(loop)
            self.assertEqual((caught.exception.number, caught.exception.place), (number, 0))

    def test_rows_as_they_are_read(self):
        recording = fed()
        self.assertEqual(list(recording.rows_from(Halting(RECORDING))), ROWS)
        self.as_the_whole(recording, RECORDING)
        # a second part of it gives its own rows, and then all of them are there
        recording = fed(RECORDING[:1000])
        self.assertEqual(list(recording.rows_from(io.BytesIO(RECORDING[1000:]))), ROWS[2:])
        self.as_the_whole(recording, RECORDING)

    def test_a_refusal_comes_last(self):
        for packets, *_ in REFUSED:
            whole = RECORDING + b"".join(packets)
            read = fed().rows_from(io.BytesIO(whole))
            self.assertEqual([next(read) for _ in ROWS], ROWS)
            with self.assertRaises(Refused) as caught:
                for _ in read:
                    pass
            with self.assertRaises(Refused) as expected:
                packets_rows(LOOP_A, whole)
            self.assertEqual(str(caught.exception), str(expected.exception))

    def test_files(self):
        whole = long_recording(5000)
        with tempfile.TemporaryDirectory() as folder:
            path = Path(folder) / "long.ts"
            path.write_bytes(whole)
            recording = fed()
            self.assertEqual(sum(1 for _ in recording.rows_from(str(path))), 7500)
            self.as_the_whole(recording, whole)
            recording = fed()
            recording.feed_from(path)
            self.as_the_whole(recording, whole)
            with open(path, "rb") as file:
                recording = fed()
                recording.feed_from(file)
                self.assertEqual(len(recording.units(1).units), 5000)
            with self.assertRaises(FileNotFoundError):
                recording.feed_from(path.with_name("none.ts"))
        with self.assertRaises(TypeError):
            recording.feed_from(io.StringIO("text"))
        with self.assertRaises(TypeError):
            recording.feed("text")

    def test_the_samples(self):
        loop = (SAMPLES / "two-rates.bin").read_bytes()
        for name in ("two-rates", "no-tref"):
            lines = (list(map(int, line.split())) for line in (LISTED / f"{name}.rows").read_text().splitlines())
            rows = [RecordedRow(layer, decoding, matching, tref == 1, packet) for _, packet, layer, decoding, matching, tref in lines]
            self.assertEqual(list(Recording(loop).rows_from(SAMPLES / f"{name}.ts")), rows)
        for name in ("two-rates", "copies"):
            recording = Recording(loop)
            recording.feed_from(SAMPLES / f"{name}.ts")
            lines = ([*(part.row for part in unit), *(part.lag for part in unit)] for unit in recording.units(1).units)
            self.assertEqual([" ".join(map(str, line)) for line in lines], (LISTED / "two-rates.units").read_text().splitlines())
        for name, number, place in (("gap", 31, 11), ("scrambled", 33, 11), ("cut", 30, 88)):
            with self.assertRaises(Refused) as caught:
                list(Recording(loop).rows_from(str(SAMPLES / f"{name}.ts")))
            self.assertEqual((caught.exception.number, caught.exception.place), (number, place))


if __name__ == "__main__":
    unittest.main()
