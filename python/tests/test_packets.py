"""Recordings of transport packets from Python, all bytes at once: rows, the whole import, and the refusals in their order."""

import unittest
from pathlib import Path

from made import LOOP_A, OTHER, PACKETS, RECORDING, REFUSED, ROWS, UNITS, changed, long_recording, unit
from thoquenry import Number, Reading, Refused, RefusedHeader, Units, import_, packets_import, packets_import_long, packets_rows

SAMPLES = Path(__file__).resolve().parent.parent.parent / "samples"


class Packets(unittest.TestCase):
    def refused(self, number, place, call, *words):
        with self.assertRaises(Refused) as caught:
            call(*words)
        self.assertEqual((caught.exception.number, caught.exception.place), (number, place))
        return caught.exception

    def test_rows(self):
        self.assertEqual(packets_rows(LOOP_A, RECORDING), ROWS)
        self.assertEqual(packets_rows(LOOP_A, b""), [])
        self.assertEqual(packets_rows(b"", RECORDING), [])
        for taken in (bytearray(RECORDING), memoryview(RECORDING), memoryview(bytes(5) + RECORDING)[5:]):
            self.assertEqual(packets_rows(bytearray(LOOP_A), taken), ROWS)
        self.assertEqual(import_(Reading.EDITION_2015, LOOP_A, 1, ROWS), UNITS[1])

    def test_the_whole_import(self):
        for target, units in UNITS.items():
            self.assertEqual(packets_import(LOOP_A, target, RECORDING), units)
            self.assertEqual(packets_import_long(LOOP_A, target, RECORDING), (ROWS, units))
        self.assertEqual(packets_import(LOOP_A, 1, b""), Units((0, 1)))
        # no rows; and one alone, in the first packet
        for recording, count in ((b"", 0), (OTHER, 0), (unit(256, 0, 0), 1), (PACKETS[1], 1)):
            rows, units = packets_import_long(LOOP_A, 1, recording)
            self.assertEqual((len(rows), len(units.units)), (count, count))

    def test_more_than_512_rows(self):
        for pictures, count in ((341, 512), (342, 513), (5000, 7500)):
            recording = long_recording(pictures)
            rows, units = packets_import_long(LOOP_A, 1, recording)
            self.assertEqual(len(rows), count)
            self.assertEqual(packets_rows(LOOP_A, recording), rows)
            self.assertEqual(len(units.units), pictures)
            if count <= 512:
                self.assertEqual(packets_import(LOOP_A, 1, recording), units)
            else:
                self.refused(13, 0, packets_import, LOOP_A, 1, recording)

    def test_refusals_of_packets(self):
        for packets, number, place in REFUSED:
            recording = b"".join(packets)
            self.refused(number, place, packets_rows, LOOP_A, recording)
            self.refused(number, place, packets_import, LOOP_A, 1, recording)
            self.refused(number, place, packets_import_long, LOOP_A, 1, recording)
            # on the PIDs of no layer only 30 is given
            if number == Number.LOST_SYNC:
                self.refused(number, place, packets_rows, b"", recording)
            else:
                self.assertEqual(packets_rows(b"", recording), [])

    def test_refusals_before_and_after_those_of_packets(self):
        lost = RECORDING + b"\0"
        absent = (SAMPLES / "absent.bin").read_bytes()
        self.refused(2, 0, packets_rows, bytes(4), lost)
        self.refused(1, 0, packets_rows, bytes(1009), lost)
        unpaired = PACKETS[:5] + PACKETS[6:]
        unpaired[4] = unit(256, 6, 8000)
        broken = b"".join(unpaired)
        unpaired[4] = OTHER
        alone = b"".join(unpaired)
        for call in (packets_import, packets_import_long):
            self.refused(2, 0, call, bytes(4), 1, lost)
            self.refused(11, 0, call, LOOP_A, 3, lost)
            self.refused(11, 0, call, LOOP_A, 2**70, lost)
            self.refused(12, 1, call, absent, 2, lost)
            self.refused(30, 8, call, LOOP_A, 1, lost)
            self.refused(14, 2, call, LOOP_A, 1, broken)
            self.refused(15, 3, call, LOOP_A, 1, alone)
        self.assertEqual(packets_rows(LOOP_A, alone)[3].packet, 6)

    def test_refusals_in_words(self):
        audio = changed(unit(256, 1, 9000), 7, 0xC0)
        refused = self.refused(20, 1, packets_rows, LOOP_A, unit(256, 0, 9000) + audio)
        self.assertIsInstance(refused, RefusedHeader)
        self.assertEqual(str(refused), "20: packet 1: this is not a video PES header")
        refused = self.refused(30, 1, packets_rows, LOOP_A, OTHER + b"\x47")
        self.assertEqual(str(refused), "30: packet 1 has lost sync, or is the last part of one")

    def test_what_is_no_value(self):
        with self.assertRaises(TypeError):
            packets_rows(LOOP_A, "packets")
        with self.assertRaises(ValueError):
            packets_import(LOOP_A, -1, RECORDING)


if __name__ == "__main__":
    unittest.main()
