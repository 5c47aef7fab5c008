"""Thoquenry: a verified importer for layered television recordings, called from Python.

The work is done by libthoquenry, whose every function is proved to meet its contract; include/thoquenry.h documents each. This module
gives its functions Python's types: an answer is what was asked for, or the exception Refused with its number and place.

The shared object is the file that the environment's THOQUENRY_SO names; or else the one that scripts/build-library has made in the clone that
this module stands in; or else the one that is installed. It is for x86-64 Linux.
"""

from array import array
from ctypes import c_bool, c_int64, c_size_t, c_uint8, c_uint16, c_uint32, c_uint64, memmove, memset, sizeof
from dataclasses import astuple, dataclass, field
from enum import IntEnum
from itertools import chain, islice
from operator import index
from os import PathLike
from struct import Struct
from typing import BinaryIO, Iterable, Iterator, List, Mapping, Optional, Tuple, Union

from ._library import load
from ._refusals import Number, Refused, RefusedHeader

__all__ = [
    "Component", "Entry", "Extension", "FrameRate", "FrameRateKind", "Header", "Hierarchy", "Implied", "Layer", "LayerSet", "MvcExtension", "Number", "Point",
    "PointDescriptor", "PointLayer", "PointStreams", "ProgramPoints", "Reading", "RecordedRow", "Recording", "Reference", "Refused", "RefusedHeader", "Row", "StereoSet",
    "Times", "Units", "closure", "import_", "join", "join_long", "packets_import", "packets_import_long", "packets_rows", "read_loop", "read_points", "read_stereo",
    "read_times", "write_loop", "write_points", "write_stereo", "write_times",
]
__version__ = "0.5.0"

_LIBRARY = load()

# The most bytes that a loop has, the least bytes of an entry and so the most entries, the numbers by which an entry crosses to the library, and how
# long the list of embedded layers is among them.
_LOOP_BYTES = 1008
_ENTRY_BYTES = 5
_ENTRIES = _LOOP_BYTES // _ENTRY_BYTES
_ENTRY_NUMBERS = 80
_EMBEDDED_ROOM = 63

# The numbers by which an MVC extension descriptor crosses to the library.
_MVC_EXTENSION_NUMBERS = 8

# The numbers by which an operation point crosses to the library, and the bytes of a profile; the most bytes of a descriptor; the least bytes of an operation point
# descriptor, of a point, and of a point with a reference; and the most streams of a point.
_POINT_NUMBERS = 12
_PROFILE_BYTES = 12
_DESCRIPTOR_BYTES = 257
_LEAST_DESCRIPTOR = 5
_LEAST_POINT = 4
_LEAST_WITH_REFERENCE = 5
_MOST_STREAMS = 64

# The stream type of the second of two views.
_MVC = 0x20

# The first 16 numbers of an entry, and the whole list of embedded layers after them.
_FIELDS = Struct("=16H")
_LIST = Struct("=63H")

# More bytes than any header that write_times writes, and the most bytes that read_times looks at: a head of 9 and 255 after it.
_HEADER_ROOM = 64
_HEADER_BYTES = 9 + 255

# The layer indices that there are, and the numbers of the two buffers of a layer set.
_INDICES = 64
_SET_LAYERS = _INDICES * _ENTRY_NUMBERS
_SET_STORED = 3 * _INDICES

# The most rows that a table has. Each row stands in one unit at most, so the lists of its units need no more places.
_ROWS = 512

# The bytes of a transport packet; in how many packets seldom more than one unit starts; and what is the number of none.
_PACKET_BYTES = 188
_PACKETS_OF_A_ROW = 32
_NO_PACKET = 2**64 - 1

# The bytes and the numbers of the two buffers of a recording in pieces, where the number of whole packets stands among the latter, and that of rows; and the bytes
# that are read of a file at a time: whole packets, so that few are cut.
_RECORDING_STATE = 20412
_RECORDING_COUNTS = 72
_PACKETS_AT = 65
_ROWS_AT = 70
_PIECE_BYTES = 1024 * _PACKET_BYTES


class Reading(IntEnum):
    """The amendments by which a loop is read."""

    EDITION_2009 = 2009
    EDITION_2015 = 2015


@dataclass(frozen=True)
class Hierarchy:
    """The hierarchy descriptor. A flag that is False "enhances"."""

    no_view: bool
    no_temporal: bool
    no_spatial: bool
    no_quality: bool
    hierarchy_type: int
    layer_index: int
    tref_present: bool
    embedded_layer_index: int
    channel: int


@dataclass(frozen=True)
class Extension:
    """The HEVC hierarchy extension."""

    dimension_bits: int
    layer_index: int
    temporal_id: int
    nuh_layer_id: int
    tref_present: bool
    channel: int
    embedded: Tuple[int, ...] = ()


@dataclass(frozen=True)
class Implied:
    """No descriptor: one of two views. Where a loop holds exactly one stream of type 0x1B and exactly one of type 0x20, and neither has a hierarchy
    descriptor, the 0x1B is a base layer of index 0, and the 0x20 a layer of index 1 that rests on 0, each with channel 0."""


@dataclass(frozen=True)
class Entry:
    """One entry of a loop. Its record is None where the stream is not a layer."""

    stream_type: int
    elementary_pid: int
    record: Union[None, Hierarchy, Extension, Implied] = None

    @property
    def layer_index(self) -> Optional[int]:
        """The index of the layer that the stream is, of an implied one by its stream type, or None where it is no layer."""
        if isinstance(self.record, Implied):
            return int(self.stream_type == _MVC)
        return None if self.record is None else self.record.layer_index


@dataclass(frozen=True)
class MvcExtension:
    """The MVC extension descriptor, tag 49. Rates are in thousands of bits a second, 0 where none is told; both ends of the range of view order
    index are in it; temporal ids are kept and not judged."""

    average_bit_rate: int
    maximum_bitrate: int
    view_order_index_min: int
    view_order_index_max: int
    temporal_id_start: int
    temporal_id_end: int
    no_sei_nal_unit_present: bool
    no_prefix_nal_unit_present: bool


@dataclass(frozen=True)
class StereoSet:
    """Two views: the base view, of type 0x1B and layer index 0, and the view of type 0x20 and layer index 1 that rests on it. The entry and the MVC
    extension descriptor of each, the base first, whichever stands first in the loop."""

    entries: Tuple[Entry, Entry]
    extensions: Tuple[MvcExtension, MvcExtension]


class FrameRateKind(IntEnum):
    """What a frame rate counts: the ticks from one picture to the next, the frames in a second, or the frames in 1.001 seconds."""

    TICKS = 1
    PER_SECOND = 2
    PER_1001_MILLISECONDS = 3


@dataclass(frozen=True)
class FrameRate:
    """The frame rate of an operation point: what is counted, and frame_rate_indicator, twelve bits."""

    kind: FrameRateKind
    indicator: int


@dataclass(frozen=True)
class Reference:
    """One reference of an operation point: the layer that is put at the end of its list of streams, where it is not in it yet, and whether the layers that it
    names, and that are not in the list yet, are put immediately before it."""

    layer_index: int
    prepend_dependencies: bool = False


@dataclass(frozen=True)
class PointLayer:
    """What an operation point says of one stream of its list. Where it is not necessary, the rest says nothing. `profile` is a place among the profiles of all
    descriptors of the program, not judged."""

    necessary: bool
    output: bool
    profile: int


@dataclass(frozen=True)
class Point:
    """One operation point, as its descriptor has it: the references by which its list of streams is built, and what it says of the streams of that list, one after
    another (whether there are as many is not judged). The temporal id is the highest of its pictures. Rates are in thousands of bits a second; what is not
    told is None."""

    target_ols: int
    references: Tuple[Reference, ...] = ()
    layers: Tuple[PointLayer, ...] = ()
    temporal_id: int = 0
    frame_rate: Optional[FrameRate] = None
    average_bit_rate: Optional[int] = None
    maximum_bit_rate: Optional[int] = None


@dataclass(frozen=True)
class PointDescriptor:
    """One operation point descriptor: its profiles, 12 bytes each, kept whole and not looked into, and its points."""

    profiles: Tuple[bytes, ...] = ()
    points: Tuple[Point, ...] = ()


@dataclass(frozen=True)
class PointStreams:
    """The streams of an operation point: their layer indices, each once, in the order of the point's list; and whether that list has every layer that one of its
    members names. It is then the union of their closures, each of them complete."""

    layers: Tuple[int, ...]
    closed: bool


@dataclass(frozen=True)
class ProgramPoints:
    """The operation points of a program: its descriptors, in the order of its loop, and the streams of each point, over all descriptors in order. It can be
    iterated for the points of this program, each with its streams."""

    descriptors: Tuple[PointDescriptor, ...] = ()
    streams: Tuple[PointStreams, ...] = ()

    @property
    def profiles(self) -> Tuple[bytes, ...]:
        """The profiles of all descriptors in order, which is what the layers of points refer to."""
        return tuple(profile for descriptor in self.descriptors for profile in descriptor.profiles)

    def __iter__(self) -> Iterator[Tuple[Point, PointStreams]]:
        points = (point for descriptor in self.descriptors for point in descriptor.points)
        return zip(points, self.streams)

    def __len__(self) -> int:
        return len(self.streams)


@dataclass(frozen=True)
class Times:
    """The times of a PES header, each below 2^33. The decoding time is DTS, or PTS without one; the match time is TREF, or the
    decoding time without one."""

    pts: int
    decoding: int
    matching: int


@dataclass(frozen=True)
class Header:
    """What a PES header says of its component: its times; whether a TREF stood in it, also one that equals the decoding time; and the offset at which
    it ends, stuffing included."""

    times: Times
    tref_sent: bool
    end: int


@dataclass(frozen=True)
class Row:
    """One component of a table, in arrival order."""

    layer_index: int
    decoding: int
    matching: int


@dataclass(frozen=True)
class RecordedRow(Row):
    """A row of a recording, a unit that starts in a packet of a layer's PID: also whether a TREF stood in its PES header, even one that equals the decoding
    time, which joining does not ask; and the number of the packet, from 0."""

    tref_sent: bool
    packet: int


@dataclass(frozen=True)
class Component:
    """One row that stands in a unit: its number in the table, from 0, and its lag, the decoding time minus the target row's, modulo
    2^33, from -2^32 to 2^32-1."""

    row: int
    lag: int


@dataclass(frozen=True)
class Units:
    """The rows of a table joined. The units come in order of time, each with one component for each layer that its head rests on, in rising layer
    index, so that the head comes last. Each row of a layer of the closure stands in exactly one."""

    closure: Tuple[int, ...]
    units: List[List[Component]] = field(default_factory=list)


def _number(value: int, bits: int) -> int:
    """A number as a C type of this width can hold it. One that is too large becomes the largest, which the library refuses for the same
    reason: every number that it accepts is smaller. (ctypes would cut it off.) What is no whole number is a TypeError."""
    number = index(value)
    if number < 0:
        raise ValueError(f"{number} is below 0")
    return min(number, 2**bits - 1)


def _year(reading: Reading) -> Reading:
    """The reading, by itself or by its year."""
    return Reading(index(reading))


def _column(code: str, kind, values: List[int]):
    """A C array of these values, and its length."""
    try:
        column = array(code, values)
    except OverflowError:
        column = array(code, [_number(value, 8 * array(code).itemsize) for value in values])
    return (kind * len(column)).from_buffer(column), len(column)


def _room(kind, length: int):
    """A C array of so many zeros, and its length."""
    return (kind * length)(), length


def _head(data: bytes, most: int):
    """The first bytes of any bytes-like object, so many at the most, and how many they are. Of a longer one no more is copied."""
    if type(data) is not bytes:
        data = memoryview(data).cast("B")[:most].tobytes()
    elif len(data) > most:
        data = data[:most]
    return data, len(data)


def _all(data: bytes):
    """All bytes of any bytes-like object, and how many they are. A bytes object is not copied."""
    if type(data) is not bytes:
        data = memoryview(data).tobytes()
    return data, len(data)


def _loop(loop: bytes):
    """A loop's bytes. One that is too long is refused for its length, so one byte more than the most is enough to know."""
    return _head(loop, _LOOP_BYTES + 1)


def _accepted(answer: int) -> int:
    """What an accepted call counts."""
    number = answer % 256
    if number != 0:
        raise Refused(number, answer // 256)
    return answer // 256


def _recorded(answer: int) -> int:
    """What an accepted call counts, of a recording, where 20 to 24 have a place too."""
    number = answer % 256
    if Number.NOT_VIDEO_HEADER <= number <= Number.PTS_BEFORE_DTS:
        raise RefusedHeader(number, answer // 256)
    return _accepted(answer)


def _indices(members: int) -> Tuple[int, ...]:
    """The members of a set, rising."""
    return tuple(index for index in range(64) if members >> index & 1)


def _set(indices: Iterable[int]) -> int:
    """The set of these layer indices. One above 63 is no layer's, and is left out."""
    return sum(1 << member for member in set(map(index, indices)) if 0 <= member < 64)


def _to_numbers(entry: Entry) -> List[int]:
    """The entry as its 80 numbers. A list of more than 63 layers has a count that is too wide for its field, by which it is refused; and so have
    dimension bits that are too wide, since they fill their C type."""
    record = entry.record
    fields = [entry.stream_type, entry.elementary_pid]
    if record is None:
        fields += [0]
    elif isinstance(record, Implied):
        fields += [3]
    elif isinstance(record, Hierarchy):
        fields += [1, record.no_view, record.no_temporal, record.no_spatial, record.no_quality, record.hierarchy_type,
                   record.layer_index, record.tref_present, record.embedded_layer_index, record.channel]
    else:
        count = len(record.embedded) if index(record.dimension_bits) < 2**16 else 2**16
        fields += [2, 0, 0, 0, 0, 0, record.layer_index, record.tref_present, 0, record.channel, record.dimension_bits,
                   record.temporal_id, record.nuh_layer_id, count, *record.embedded[:_EMBEDDED_ROOM]]
    return fields + [0] * (_ENTRY_NUMBERS - len(fields))


def _entry(entries, at: int) -> Entry:
    """The entry of the 80 numbers that the library has written from a byte on."""
    (stream_type, pid, record, no_view, no_temporal, no_spatial, no_quality, kind, layer, tref, embedded, channel, dimension_bits,
     temporal_id, nuh_layer_id, count) = _FIELDS.unpack_from(entries, at)
    if record == 1:
        return Entry(stream_type, pid, Hierarchy(
            no_view == 1, no_temporal == 1, no_spatial == 1, no_quality == 1, kind, layer, tref == 1, embedded, channel))
    if record == 2:
        listed = _LIST.unpack_from(entries, at + _FIELDS.size)[:count]
        return Entry(stream_type, pid, Extension(dimension_bits, layer, temporal_id, nuh_layer_id, tref == 1, channel, listed))
    if record == 3:
        return Entry(stream_type, pid, Implied())
    return Entry(stream_type, pid)


def read_loop(reading: Reading, loop: bytes) -> List[Entry]:
    """Reads a loop: every entry, in loop order. Refusals: 1 to 9."""
    given, length = _loop(loop)
    entries, room = _room(c_uint16, min(length, _LOOP_BYTES) // _ENTRY_BYTES * _ENTRY_NUMBERS)
    count = _accepted(_LIBRARY.thq_read_loop(_year(reading), given, length, entries, room))
    return [_entry(entries, at) for at in range(0, count * 2 * _ENTRY_NUMBERS, 2 * _ENTRY_NUMBERS)]


def write_loop(entries: Iterable[Entry]) -> bytes:
    """Writes a loop, by the 2015 reading's rules. Refusals: 25; then 1, 3, 6 to 9; 6 also where Implied stands on an entry that is not one of two such
    views, or does not stand on one that is."""
    return _written(_LIBRARY.thq_write_loop, entries)


def _written(function, entries: Iterable[Entry], *more) -> bytes:
    """The bytes that a function of the library writes of these entries, and of what more comes after them among its parameters. Where one entry too many is
    here, the answer is 1, unless a later value is too wide (25): those are looked at piece by piece, and not kept."""
    left = iter(entries)
    answer, out = _tried(function, islice(left, _ENTRIES + 1), more)
    for first in left:
        later = _tried(function, chain((first,), islice(left, _ENTRIES)), more)
        if later[0] % 256 == Number.TOO_WIDE:
            answer, out = later
    return bytes(out[:_accepted(answer)])


def _tried(function, entries: Iterable[Entry], more: tuple):
    """The library's answer for these entries, and the buffer."""
    numbers = [number for entry in entries for number in _to_numbers(entry)]
    out, room = _room(c_uint8, _LOOP_BYTES)
    return function(*_column("H", c_uint16, numbers), *more, out, room), out


def read_stereo(loop: bytes) -> StereoSet:
    """Reads a stereo set from a loop, by the 2015 reading. Refusals: 1 to 9; then 44 where the layers of the loop are not these two, 45 where one of the two
    has no MVC extension descriptor, several, or one of another length than 8, and 46 where their ranges of view order index meet or one has a least above
    its greatest."""
    entries, entries_room = _room(c_uint16, 2 * _ENTRY_NUMBERS)
    extensions, extensions_room = _room(c_uint16, 2 * _MVC_EXTENSION_NUMBERS)
    _accepted(_LIBRARY.thq_read_stereo(*_loop(loop), entries, entries_room, extensions, extensions_room))
    first, second = extensions[:_MVC_EXTENSION_NUMBERS], extensions[_MVC_EXTENSION_NUMBERS:]
    return StereoSet((_entry(entries, 0), _entry(entries, 2 * _ENTRY_NUMBERS)), (_mvc_extension(first), _mvc_extension(second)))


def _mvc_extension(numbers: List[int]) -> MvcExtension:
    """The descriptor of the numbers that the library has written."""
    *values, no_sei, no_prefix = numbers
    return MvcExtension(*values, no_sei == 1, no_prefix == 1)


def write_stereo(entries: Iterable[Entry], extensions: Tuple[MvcExtension, MvcExtension]) -> bytes:
    """Writes a whole loop with a stereo set in it: all of its entries, in loop order, and the MVC extension descriptors of layers 0 and 1. Refusals: 25;
    then 1, 3, 6 to 9, as write_loop gives them, with the two descriptors counted among the bytes; then 44, 46."""
    first, second = extensions
    numbers = [*astuple(first), *astuple(second)]
    # A rate fills its C type, so that the library could not be handed one that is too wide.
    if any(index(rate) >= 2**16 for rate in numbers):
        raise Refused(Number.TOO_WIDE, 0)
    return _written(_LIBRARY.thq_write_stereo, entries, *_column("H", c_uint16, numbers))


def read_points(program: bytes, loop: bytes) -> ProgramPoints:
    """Reads the operation points of a program, by the 2015 reading: from its own descriptor loop, the bytes of program_info, and its elementary-stream loop. Refusals: 1
    to 9 of the latter; then 40 where the former, or an operation point descriptor in it, does not fit, 41 where an ES_count is 255, and 42 where a reference, or a
    layer to be put before it, is no layer of the loop."""
    given, length = _loop(program)
    most = min(length, _LOOP_BYTES)
    rooms = [
        _room(c_uint32, most // _LEAST_DESCRIPTOR * 2),
        _room(c_uint8, most),
        _room(c_uint32, most // _LEAST_POINT * _POINT_NUMBERS),
        _room(c_uint8, most),
        _room(c_uint8, most),
        _room(c_uint8, most // _LEAST_WITH_REFERENCE * _MOST_STREAMS),
        _room(c_uint32, 6),
    ]
    _accepted(_LIBRARY.thq_read_points(given, length, *_loop(loop), *chain.from_iterable(rooms)))
    counts, profiles, numbers, references, layers, streams, summary = (room for room, _ in rooms)
    descriptors, _, points, *_ = summary
    left_profiles = (bytes(profiles[at:at + _PROFILE_BYTES]) for at in range(0, most, _PROFILE_BYTES))
    rows = [numbers[at:at + _POINT_NUMBERS] for at in range(0, points * _POINT_NUMBERS, _POINT_NUMBERS)]
    left_references, left_layers = map(_reference, references), map(_point_layer, layers)
    left_points = (_point(row, left_references, left_layers) for row in rows)
    left_streams = iter(streams)
    return ProgramPoints(
        tuple(PointDescriptor(tuple(islice(left_profiles, counts[at])), tuple(islice(left_points, counts[at + 1]))) for at in range(0, 2 * descriptors, 2)),
        tuple(PointStreams(tuple(islice(left_streams, row[10])), row[11] == 1) for row in rows))


def _reference(byte: int) -> Reference:
    return Reference(byte & 63, byte & 64 != 0)


def _point_layer(byte: int) -> PointLayer:
    return PointLayer(byte & 128 != 0, byte & 64 != 0, byte & 63)


def _point(numbers: List[int], references: Iterator[Reference], layers: Iterator[PointLayer]) -> Point:
    """The point of the numbers that the library has written, with the next references and layers."""
    target_ols, es_count, streams, has_average, has_maximum, kind, temporal_id, indicator, average, maximum, *_ = numbers
    return Point(target_ols, tuple(islice(references, es_count)), tuple(islice(layers, streams)), temporal_id,
                 FrameRate(FrameRateKind(kind), indicator) if kind else None, average if has_average else None, maximum if has_maximum else None)


def write_points(descriptor: PointDescriptor) -> bytes:
    """Writes one operation point descriptor, its tag and length included. Refusals: 25, for more profiles, points, references or layers than their counts can say
    too, and for a profile that is not 12 bytes long; then 41 for a point of 255 references; then 25 for a descriptor that would be longer than its length can say."""
    points = descriptor.points
    layers = [layer for point in points for layer in point.layers]
    profiles = [bytes(profile) for profile in descriptor.profiles]
    # A byte of a layer has no bit to spare, so that the library could not be handed a place that is too wide.
    if any(_number(layer.profile, 64) > 63 for layer in layers) or any(len(profile) != _PROFILE_BYTES for profile in profiles):
        raise Refused(Number.TOO_WIDE, 0)
    # Of an index above 63 a byte that is refused as too wide.
    references = bytes(255 if _number(one.layer_index, 64) > 63 else bool(one.prepend_dependencies) << 6 | one.layer_index
                       for point in points for one in point.references)
    flags = bytes(bool(layer.necessary) << 7 | bool(layer.output) << 6 | layer.profile for layer in layers)
    numbers = [number for point in points for number in _point_numbers(point)]
    out, room = _room(c_uint8, _DESCRIPTOR_BYTES)
    joined = b"".join(profiles)
    answer = _LIBRARY.thq_write_points(joined, len(joined), *_column("I", c_uint32, numbers), references, len(references), flags, len(flags), out, room)
    return bytes(out[:_accepted(answer)])


def _point_numbers(point: Point) -> List[int]:
    """The point as its numbers, those of its streams 0."""
    rate, average, maximum = point.frame_rate, point.average_bit_rate, point.maximum_bit_rate
    kind, indicator = (0, 0) if rate is None else (FrameRateKind(rate.kind), rate.indicator)
    return [point.target_ols, len(point.references), len(point.layers), average is not None, maximum is not None, kind, point.temporal_id, indicator,
            0 if average is None else average, 0 if maximum is None else maximum, 0, 0]


def closure(reading: Reading, loop: bytes, target: int) -> Tuple[int, ...]:
    """The layers that a target rests on, itself included, rising. Refusals: 1 to 12."""
    members, room = _room(c_uint64, 1)
    _accepted(_LIBRARY.thq_closure(_year(reading), *_loop(loop), _number(target, 64), members, room))
    return _indices(members[0])


def read_times(header: bytes) -> Header:
    """Reads the times of a PES header, which more may follow, whether a TREF stands in it, and where it ends. Refusals: 20 to 24."""
    numbers, room = _room(c_uint64, 5)
    _accepted(_LIBRARY.thq_read_times(*_head(header, _HEADER_BYTES), numbers, room))
    *times, tref_sent, end = numbers
    return Header(Times(*times), tref_sent == 1, end)


def write_times(times: Times, with_tref: bool) -> bytes:
    """Writes a PES header with these times, and with a TREF or without one. Refusals: 25, also without a TREF for a match time that is not the decoding
    time; 24."""
    out, room = _room(c_uint8, _HEADER_ROOM)
    values = (_number(value, 64) for value in (times.pts, times.decoding, times.matching, with_tref))
    return bytes(out[:_accepted(_LIBRARY.thq_write_times(*values, out, room))])


def join(layers: Mapping[int, Iterable[int]], target: int, rows: Iterable[Row]) -> Units:
    """Joins rows to units, over layers that the caller gives: for each layer index the indices that this layer names. Every row of a layer that the
    target rests on, and that no other row claims, heads a unit. Refusals: 11, 12; then 13, also for more than 512 rows; then 14 to 16, 18."""
    return _joined(_LIBRARY.thq_join, (*_layers(layers), _number(target, 64)), list(islice(rows, _ROWS + 1)))


def join_long(layers: Mapping[int, Iterable[int]], target: int, rows: Iterable[Row]) -> Units:
    """Joins rows to units as `join` does, of a table of any length. Refusals: 11, 12; then 13 to 16, 18."""
    table = list(rows)
    return _joined(_LIBRARY.thq_join_long, (*_layers(layers), _number(target, 64)), table, _work(len(table)))


def _work(rows: int) -> list:
    """The work space of a long join, for so many rows."""
    kinds = (c_size_t, c_uint64, c_size_t, c_size_t, c_size_t, c_bool, c_bool)
    return [part for kind in kinds for part in _room(kind, rows)]


def _layers(layers: Mapping[int, Iterable[int]]):
    """The set of the layers, and what each names."""
    return _set(layers), *_column("Q", c_uint64, [_set(layers.get(layer, ())) for layer in range(64)])


def import_(reading: Reading, loop: bytes, target: int, rows: Iterable[Row]) -> Units:
    """The whole import: the layers of a loop's bytes, and the rows joined over them. Refusals: 1 to 9; then those of `join`."""
    return _joined(_LIBRARY.thq_import, (_year(reading), *_loop(loop), _number(target, 64)), list(islice(rows, _ROWS + 1)))


def _joined(function, first: tuple, table: List[Row], work: Iterable = ()) -> Units:
    """The units that a function of the library answers for what comes first among its parameters, for these rows, and with this work space. (A table that
    is too long is refused for its length, so one row more than the most is enough to know.)"""
    columns = (
        *_column("B", c_uint8, [row.layer_index for row in table]),
        *_column("Q", c_uint64, [row.decoding for row in table]),
        *_column("Q", c_uint64, [row.matching for row in table]),
    )
    lists = _Lists(len(table))
    return lists.units(_accepted(function(*first, *columns, *work, *lists.parameters())))


class _Lists:
    """What a join fills: lists for the units of so many rows."""

    def __init__(self, rows: int) -> None:
        self._rooms = [_room(c_uint64, rows), _room(c_int64, rows), _room(c_uint64, rows), _room(c_uint64, 2)]

    def parameters(self) -> Iterator:
        return chain.from_iterable(self._rooms)

    def units(self, count: int) -> Units:
        """The units, of so many rows, that a join has filled the lists with."""
        (numbers, _), (lags, _), (sizes, _), (summary, _) = self._rooms
        members, units = summary
        components = (Component(row, lag) for row, lag in zip(numbers[:count], lags[:count]))
        return Units(_indices(members), [list(islice(components, size)) for size in sizes[:units]])


class _Columns:
    """The columns of a recording's rows."""

    def __init__(self, room: int) -> None:
        self._lists = [_room(kind, room) for kind in (c_uint8, c_uint64, c_uint64, c_uint8, c_uint64)]

    def parameters(self) -> Iterator:
        return chain.from_iterable(self._lists)

    def table(self) -> Iterator:
        """The columns that joining reads."""
        return chain.from_iterable(self._lists[:3])

    def rows(self, first: int, end: int) -> List[RecordedRow]:
        """The rows from one place to another."""
        indices, decodings, matches, trefs, numbers = (column[first:end] for column, _ in self._lists)
        return list(map(RecordedRow, indices, decodings, matches, map(bool, trefs), numbers))

    def make_room(self, rows: int) -> None:
        """Makes room for so many rows, and where there is too little, for twice as many as there was room for, so that it is seldom made."""
        _, room = self._lists[0]
        if rows > room:
            grown = _Columns(max(rows, 2 * room))
            for (new, _), (old, _) in zip(grown._lists, self._lists):
                memmove(new, old, sizeof(old))
            self._lists = grown._lists

    def unwritten(self) -> None:
        """Makes it known that no row is written yet."""
        numbers, _ = self._lists[-1]
        memset(numbers, 0xFF, sizeof(numbers))

    def written(self) -> int:
        """How many rows were written into columns that were unwritten."""
        numbers, _ = self._lists[-1]
        return [*numbers, _NO_PACKET].index(_NO_PACKET)


def _rooms(length: int) -> Tuple[int, ...]:
    """For how many rows there is to be room, of a recording of so many bytes: no packet starts two units, and few of them one, so that less is tried before."""
    most = length // _PACKET_BYTES
    less = most // _PACKETS_OF_A_ROW + _ROWS
    return (less, most) if less < most else (most,)


def packets_rows(loop: bytes, packets: bytes) -> List[RecordedRow]:
    """The rows of a recording, all its bytes at once, by the layers of a loop in the 2015 reading: every unit that starts on a layer's PID, in order of arrival. Refusals: 1 to 9 of
    the loop; then 30 to 33, and 20 to 24, at a packet."""
    given, length = _all(packets)
    for room in _rooms(length):
        columns = _Columns(room)
        answer = _LIBRARY.thq_packets_rows(*_loop(loop), given, length, *_room(c_uint64, room), *columns.parameters())
        if answer != Number.OUT_OF_RANGE:
            break
    return columns.rows(0, _recorded(answer))


def packets_import(loop: bytes, target: int, packets: bytes) -> Units:
    """The whole import of a recording of up to 512 rows: its rows joined over the layers of a loop, in the 2015 reading. Refusals: 1 to 9, 11, 12; then 30 to 33, and 20 to 24, at a
    packet; then 13 for more rows; then 14 to 16, 18."""
    lists = _Lists(_ROWS)
    return lists.units(_recorded(_LIBRARY.thq_packets_import(*_loop(loop), _number(target, 64), *_all(packets), *lists.parameters())))


def packets_import_long(loop: bytes, target: int, packets: bytes) -> Tuple[List[RecordedRow], Units]:
    """The whole import of a recording of any length: its rows, and the units that they are joined to. Refusals: as packets_import, but for 13. The row that 14 to 16 name is the one of
    that number among packets_rows."""
    given, length = _all(packets)
    for room in _rooms(length):
        columns, lists = _Columns(room), _Lists(room)
        columns.unwritten()
        answer = _LIBRARY.thq_packets_import_long(
            *_loop(loop), _number(target, 64), given, length, *columns.parameters(), *_work(room), *lists.parameters())
        if answer != Number.OUT_OF_RANGE:
            break
    units = lists.units(_recorded(answer))
    return columns.rows(0, columns.written()), units


class Recording:
    """A recording of transport packets that is fed piece after piece, of any lengths and cut anywhere, in the 2015 reading of its loop. However it is cut, the answers are those of
    packets_rows and packets_import_long over all its bytes; beside its rows it takes the same memory whatever its length. It is the sequence of its rows so far, in order of arrival.

        recording = Recording(loop)
        for row in recording.rows_from("recording.ts"):
            print(row.layer_index, row.packet)
        units = recording.units(1).units
    """

    def __init__(self, loop: bytes) -> None:
        """A recording of no bytes yet, by the layers of a loop. Refusals: 1 to 9."""
        self._loop = _loop(loop)
        # Both are written by the library alone, so that they always hold a recording.
        self._state, _ = _room(c_uint8, _RECORDING_STATE)
        self._counts, _ = _room(c_uint64, _RECORDING_COUNTS)
        self._columns = _Columns(0)
        _accepted(_LIBRARY.thq_packets_start(*self._loop, *self._buffers()))

    def feed(self, piece: bytes) -> None:
        """One piece more, of any length. What is refused in it, `told` tells."""
        given, length = _all(piece)
        # As many rows more as there are packets in the piece, and one that began before it.
        self._columns.make_room(len(self) + length // _PACKET_BYTES + 1)
        _accepted(_LIBRARY.thq_packets_feed(given, length, *self._buffers(), *self._columns.parameters()))

    def feed_from(self, source: Union[str, PathLike, BinaryIO]) -> None:
        """All that there is to be read of a file, up to its end: the file's name, or what gives bytes by `read`."""
        for piece in _pieces(source):
            self.feed(piece)

    def rows_from(self, source: Union[str, PathLike, BinaryIO]) -> Iterator[RecordedRow]:
        """Feeds all that there is to be read of a file, and gives its rows as they come. At the end, where the recording is refused, it raises the refusal: the rows before are then those
        of a recording that is not right. Whoever stops before the end leaves the rest unread. Refusals: those of `told`."""
        for piece in _pieces(source):
            first = len(self)
            self.feed(piece)
            yield from self._columns.rows(first, len(self))
        self.told()

    @property
    def packets(self) -> int:
        """The number of whole packets so far."""
        return self._counts[_PACKETS_AT]

    def told(self) -> int:
        """What is told of the recording if it ends here: the number of its rows. Refusals: 30 to 33, 30 also where the last packet is not whole, and 20 to 24, at a packet."""
        return _recorded(_LIBRARY.thq_packets_told(*self._buffers()))

    def units(self, target: int) -> Units:
        """The rows joined to units, if the recording ends here. It can be asked at any time, of several targets. Refusals: 11, 12; then those of `told`; then 14 to 16, 18."""
        lists = _Lists(len(self))
        answer = _LIBRARY.thq_packets_units(
            *self._loop, _number(target, 64), *self._buffers(), *self._columns.table(), *_work(len(self)), *lists.parameters())
        return lists.units(_recorded(answer))

    def _buffers(self):
        return self._state, _RECORDING_STATE, self._counts, _RECORDING_COUNTS

    def __len__(self) -> int:
        """The number of rows so far."""
        return self._counts[_ROWS_AT]

    def __getitem__(self, row: int) -> RecordedRow:
        """A row, by its number."""
        place = range(len(self))[index(row)]
        return self._columns.rows(place, place + 1)[0]

    def __iter__(self) -> Iterator[RecordedRow]:
        """The rows so far, whatever is refused."""
        return iter(self._columns.rows(0, len(self)))

    def __repr__(self) -> str:
        return f"<Recording of {self.packets} packets, {len(self)} rows>"


def _pieces(source: Union[str, PathLike, BinaryIO]) -> Iterator[bytes]:
    """The bytes of a file, by its name or as what gives bytes by `read`, piece after piece."""
    if hasattr(source, "read"):
        yield from iter(lambda: source.read(_PIECE_BYTES), b"")
        return
    with open(source, "rb", buffering=0) as file:
        yield from iter(lambda: file.read(_PIECE_BYTES), b"")


@dataclass(frozen=True)
class Layer:
    """A layer of a LayerSet, and what is stored of its closure: the layers that it rests on, itself included, how many these are, and whether one of
    them is absent. An absent one is among them as it is named; what lies below that is unknown."""

    index: int
    entry: Entry
    closure: Tuple[int, ...]
    closure_size: int
    absent: bool


class LayerSet:
    """The layers of a program, by index, each with its closure, which the library works out and keeps as layers come and go. A refused change leaves
    the set as it was. It begins with no layer, or with those of a loop (`LayerSet.read`)."""

    def __init__(self) -> None:
        # Both are written by the library alone, so that they always hold a set.
        self._layers, _ = _room(c_uint16, _SET_LAYERS)
        self._stored, _ = _room(c_uint64, _SET_STORED)

    @classmethod
    def read(cls, reading: Reading, loop: bytes) -> "LayerSet":
        """The layers of a loop, implied ones included; streams that are no layer are left out. Refusals: 1 to 9."""
        layer_set = cls()
        _accepted(_LIBRARY.thq_set_read(_year(reading), *_loop(loop), *layer_set._buffers()))
        return layer_set

    def add(self, entry: Entry) -> None:
        """Adds a layer, judged as the 2015 reading judges one of a loop. Refusals: 25; then 3 where a layer of the set has its PID; then 6 to 9, 6 also
        for Implied and for no record. The place is 0."""
        _accepted(_LIBRARY.thq_set_add(*self._buffers(), *_column("H", c_uint16, _to_numbers(entry))))

    def remove(self, layer_index: int) -> None:
        """Removes the layer of an index. Refusals: 11, also where the layer is only named."""
        _accepted(_LIBRARY.thq_set_remove(*self._buffers(), _number(layer_index, 64)))

    def closure(self, target: int) -> Tuple[int, ...]:
        """The layers that a target rests on, itself included, rising, from what is stored. Refusals: 11, 12."""
        members, room = _room(c_uint64, 1)
        _accepted(_LIBRARY.thq_set_closure(*self._buffers(), _number(target, 64), members, room))
        return _indices(members[0])

    def copy(self) -> "LayerSet":
        """The same set, which then changes by itself."""
        other = LayerSet()
        other._layers[:], other._stored[:] = self._layers, self._stored
        return other

    def _buffers(self):
        return self._layers, _SET_LAYERS, self._stored, _SET_STORED

    def __contains__(self, layer_index: int) -> bool:
        """Whether there is a layer of an index."""
        place = index(layer_index)
        return 0 <= place < _INDICES and self._layers[place * _ENTRY_NUMBERS + 2] != 0

    def __getitem__(self, layer_index: int) -> Layer:
        """The layer of an index."""
        if layer_index not in self:
            raise KeyError(layer_index)
        place = index(layer_index)
        closure_of_layer, size, absent = self._stored[place::_INDICES]
        return Layer(place, _entry(self._layers, place * 2 * _ENTRY_NUMBERS), _indices(closure_of_layer), size, absent == 1)

    def __iter__(self) -> Iterator[Layer]:
        """The layers, by rising index."""
        return (self[place] for place in range(_INDICES) if place in self)

    def __len__(self) -> int:
        return sum(place in self for place in range(_INDICES))

    def __eq__(self, other: object) -> bool:
        if not isinstance(other, LayerSet):
            return NotImplemented
        return bytes(self._layers) == bytes(other._layers)

    def __repr__(self) -> str:
        return f"LayerSet({list(self)})"
