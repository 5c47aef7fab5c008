"""Recordings made by hand, over document 01's loop A: PIDs 256, 257 and 258 are those of layers 0, 1 and 2."""

from thoquenry import Component, RecordedRow, Times, Units, write_times

LOOP_A = bytes.fromhex("1BE100F0060404FFC0FFC0" "1FE101F0060404D1C140C1" "28E102F00A3F08060002 0803C1C2C0")

# A PES header with PTS 9000 and DTS 9001.
PTS_BEFORE_DTS = bytes.fromhex("000001E0000084C00A 3100014651 1100014653")


def packet(pid, starts, counter, payload=b""):
    """A packet with payload: its PID, whether a unit starts in it, its counter, and the first bytes of the payload; the rest is 0xFF."""
    return (bytes([0x47, starts << 6 | pid >> 8, pid & 255, 0x10 | counter]) + payload).ljust(188, b"\xff")


def unit(pid, counter, decoding, tref=None):
    """A packet in which a unit starts, with these times and, where one is sent, a TREF."""
    times = Times(decoding, decoding, decoding if tref is None else tref)
    return packet(pid, True, counter, write_times(times, with_tref=tref is not None))


OTHER = packet(8191, False, 0)

# Document 01's table of rows and one of layer 2 as packets, with others between them; the fourth is a copy, counted once.
PACKETS = [
    OTHER,
    unit(256, 5, 9000),
    unit(257, 15, 9000, tref=9000),
    unit(257, 15, 9000, tref=9000),
    packet(256, False, 6, b"more of the picture"),
    unit(256, 7, 12600),
    unit(258, 3, 9000),
    unit(257, 0, 12000, tref=12600),
]
RECORDING = b"".join(PACKETS)

ROWS = [
    RecordedRow(0, 9000, 9000, False, 1),
    RecordedRow(1, 9000, 9000, True, 2),
    RecordedRow(0, 12600, 12600, False, 5),
    RecordedRow(2, 9000, 9000, False, 6),
    RecordedRow(1, 12000, 12600, True, 7),
]

# The units for target 1, and for target 2.
UNITS = {
    1: Units((0, 1), [[Component(0, 0), Component(1, 0)], [Component(2, 600), Component(4, 0)]]),
    2: Units((0, 2), [[Component(0, 0), Component(3, 0)], [Component(2, 0)]]),
}


def long_recording(pictures):
    """A recording of so many pictures: each a unit of the base, and every second one also of layer 1."""
    return b"".join(part for k in range(pictures)
                    for part in (unit(256, k % 16, 3600 * k), OTHER if k % 2 else unit(257, k // 2 % 16, 3600 * k)))


def changed(given, place, byte):
    """A packet with another byte at a place."""
    return given[:place] + bytes([byte]) + given[place + 1:]


def _start(counter):
    return unit(256, counter, 9000)


# What is to be refused, and how: the packets, the number and the packet.
REFUSED = [
    # a last part of a packet; a byte that is not the sync byte, also on a packet of no layer
    ([OTHER, b"\x47"], 30, 1),
    ([_start(0), changed(OTHER, 0, 0x46)], 30, 1),
    ([changed(_start(0), 0, 0), OTHER], 30, 0),
    # the lowest number at its earliest packet
    ([_start(0), _start(2), _start(4), bytes(5)], 30, 3),
    ([_start(0), _start(2), _start(4)], 31, 1),
    ([changed(_start(0), 3, 0xD0), _start(2)], 31, 1),
    ([_start(0), changed(_start(0), 187, 0)], 31, 1),
    # a PES header, and an adaptation field, that are not within their packet
    ([OTHER, changed(_start(0), 12, 176)], 32, 1),
    ([changed(changed(_start(0), 3, 0x30), 4, 184)], 32, 0),
    ([_start(0), changed(_start(1), 3, 0x91)], 33, 1),
    # PES headers: another stream_id, no PTS, fields that don't fit, a marker, PTS before DTS
    ([_start(0), changed(_start(1), 7, 0xC0)], 20, 1),
    ([_start(0), changed(_start(1), 11, 0)], 21, 1),
    ([_start(0), changed(_start(1), 12, 4)], 22, 1),
    ([_start(0), OTHER, changed(_start(1), 17, 0x50)], 23, 2),
    ([OTHER, packet(257, True, 9, PTS_BEFORE_DTS)], 24, 1),
    ([changed(_start(0), 17, 0x50), changed(_start(1), 7, 0xC0)], 20, 1),
    ([changed(_start(0), 7, 0xC0), changed(_start(1), 3, 0x91)], 33, 1),
]
