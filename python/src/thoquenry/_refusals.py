"""The refusals: their numbers by name, and their words."""

from enum import IntEnum
from pathlib import Path


class Number(IntEnum):
    """Document 01's refusals, each by its name."""

    LOOP_TOO_LONG = 1
    DOES_NOT_FIT = 2
    REPEATED_PID = 3
    WRONG_LENGTH = 4
    SECOND_RECORD = 5
    TYPE_NOT_ALLOWED = 6
    WRONG_FLAGS = 7
    REPEATED_LAYER_INDEX = 8
    WRONG_EMBEDDED_INDEX = 9
    NO_SUCH_LAYER = 11
    EMBEDDED_LAYER_ABSENT = 12
    OUT_OF_RANGE = 13
    TIME_ORDER_BROKEN = 14
    UNPAIRED = 15
    USED_TWICE = 16
    NO_ROOM = 17
    SPAN_TOO_WIDE = 18
    NOT_VIDEO_HEADER = 20
    NO_PTS = 21
    FIELDS_DO_NOT_FIT = 22
    WRONG_MARKER = 23
    PTS_BEFORE_DTS = 24
    TOO_WIDE = 25
    LOST_SYNC = 30
    COUNTER_GAP = 31
    OUTSIDE_PACKET = 32
    SCRAMBLED = 33
    POINTS_DO_NOT_FIT = 40
    RESERVED_ES_COUNT = 41
    UNKNOWN_REFERENCE = 42
    NOT_STEREO_SET = 44
    WRONG_MVC_EXTENSION = 45
    RANGES_MEET = 46


def _words():
    """For each number its words, with {} for the place, from the table that all languages share."""
    text = (Path(__file__).parent / "refusals.tsv").read_text(encoding="utf-8")
    rows = [line.split("\t") for line in text.splitlines() if not line.startswith("#")]
    return {Number(int(number)): words for number, _, _, words in rows}


class Refused(Exception):
    """A call is refused: the lowest number that applies, at the earliest place, which is an entry, a row, a packet or a layer index, or 0. It prints
    as its number and words: '15: row 3, the head of a unit, has no assembly'."""

    def __init__(self, number: int, place: int):
        super().__init__(number, place)
        self.number = Number(number)
        self.place = place

    @property
    def words(self) -> str:
        """What it means, in document 01's words."""
        return _words()[self.number].replace("{}", str(self.place))

    def __str__(self) -> str:
        return f"{self.number.value}: {self.words}"


class RefusedHeader(Refused):
    """A recording is refused for a PES header, with one of 20 to 24: the place is the packet in which it stands. It prints with that packet: '24: packet 8: PTS lies
    before DTS'."""

    @property
    def words(self) -> str:
        return f"packet {self.place}: {super().words}"
