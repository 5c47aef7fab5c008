//! The calls of `include/thoquenry.h` with their inputs and output buffers, made to the library and to the plain implementation. Both
//! leave their buffers in the call itself, so that two calls are equal when every buffer is, inputs included.

use crate::memory::{Memory, Placing};
use crate::points;
use crate::random::Random;
use crate::stereo;
use plain::{
    Columns, Embedded, Entry, Extension, Hierarchy, Layers, Reading, Record, Refusal, Times,
    MOST_ROWS,
};
use thoquenry_sys as raw;

/// The output buffers of joining.
#[derive(Clone, Debug, Default, PartialEq, Eq)]
pub struct Lists {
    pub numbers: Vec<u64>,
    pub lags: Vec<i64>,
    pub sizes: Vec<u64>,
    pub summary: Vec<u64>,
}

/// How many places each work space of a long table has: order, keys, kept, places, heads, claimed, used. What they hold says nothing.
pub type Work = [usize; 7];

/// A call.
#[derive(Clone, Debug, PartialEq, Eq)]
pub enum Call {
    ReadLoop {
        reading: u64,
        bytes: Vec<u8>,
        entries: Vec<u16>,
    },
    WriteLoop {
        entries: Vec<u16>,
        out: Vec<u8>,
    },
    Closure {
        reading: u64,
        bytes: Vec<u8>,
        target: u64,
        set: Vec<u64>,
    },
    ReadTimes {
        bytes: Vec<u8>,
        times: Vec<u64>,
    },
    WriteTimes {
        pts: u64,
        decoding: u64,
        matching: u64,
        with_tref: u64,
        out: Vec<u8>,
    },
    Join {
        present: u64,
        embedded: Vec<u64>,
        target: u64,
        rows: Columns,
        lists: Lists,
    },
    JoinLong {
        present: u64,
        embedded: Vec<u64>,
        target: u64,
        rows: Columns,
        work: Work,
        lists: Lists,
    },
    Import {
        reading: u64,
        bytes: Vec<u8>,
        target: u64,
        rows: Columns,
        lists: Lists,
    },
    ReadStereo(stereo::Read),
    WriteStereo(stereo::Write),
    ReadPoints(points::Read),
    WritePoints(points::Write),
}

/// The names of the calls and the numbers that each can answer, 0 for an accepted call.
pub const CALLS: [(&str, &[u64]); 12] = [
    ("read_loop", &[0, 1, 2, 3, 4, 5, 6, 7, 8, 9, 17, NOT_A_CALL]),
    ("write_loop", &[0, 1, 3, 6, 7, 8, 9, 17, 25]),
    (
        "closure",
        &[0, 1, 2, 3, 4, 5, 6, 7, 8, 9, 11, 12, 17, NOT_A_CALL],
    ),
    ("read_times", &[0, 17, 20, 21, 22, 23, 24]),
    ("write_times", &[0, 17, 24, 25]),
    ("join", &[0, 11, 12, 13, 14, 15, 16, 17, 18]),
    ("join_long", &[0, 11, 12, 13, 14, 15, 16, 17, 18]),
    (
        "import",
        &[
            0, 1, 2, 3, 4, 5, 6, 7, 8, 9, 11, 12, 13, 14, 15, 16, 17, 18, NOT_A_CALL,
        ],
    ),
    (
        "read_stereo",
        &[0, 1, 2, 3, 4, 5, 6, 7, 8, 9, 17, 44, 45, 46],
    ),
    ("write_stereo", &[0, 1, 3, 6, 7, 8, 9, 17, 25, 44, 46]),
    (
        "read_points",
        &[0, 1, 2, 3, 4, 5, 6, 7, 8, 9, 17, 40, 41, 42],
    ),
    ("write_points", &[0, 17, 25, 41]),
];

pub const NOT_A_CALL: u64 = raw::THQ_NOT_A_CALL;

/// The numbers that one entry takes.
pub const ENTRY: usize = raw::THQ_ENTRY_NUMBERS;

/// The number of an answer: 0 or the refusal's.
pub fn number(answer: u64) -> u64 {
    answer % 256
}

/// The place or count of an answer.
pub fn value(answer: u64) -> u64 {
    answer / 256
}

pub fn answer(result: Result<usize, Refusal>) -> u64 {
    match result {
        Ok(count) => count as u64 * 256,
        Err(Refusal { number, place }) => u64::from(number) + place as u64 * 256,
    }
}

impl Call {
    /// Its place in `CALLS`.
    pub fn kind(&self) -> usize {
        match self {
            Call::ReadLoop { .. } => 0,
            Call::WriteLoop { .. } => 1,
            Call::Closure { .. } => 2,
            Call::ReadTimes { .. } => 3,
            Call::WriteTimes { .. } => 4,
            Call::Join { .. } => 5,
            Call::JoinLong { .. } => 6,
            Call::Import { .. } => 7,
            Call::ReadStereo(_) => 8,
            Call::WriteStereo(_) => 9,
            Call::ReadPoints(_) => 10,
            Call::WritePoints(_) => 11,
        }
    }

    /// Whether its loop is accepted and has layers that no descriptor makes.
    pub fn has_implied_layers(&self) -> bool {
        let entries = match self {
            Call::ReadLoop { reading, bytes, .. }
            | Call::Closure { reading, bytes, .. }
            | Call::Import { reading, bytes, .. } => {
                reading_of(*reading).and_then(|reading| plain::read_loop(reading, bytes))
            }
            Call::WriteLoop { entries, .. } => entries_of(entries).and_then(|entries| {
                plain::write_loop(&entries, &mut [0; plain::LONGEST_LOOP]).map(|_| entries)
            }),
            Call::ReadStereo(read) => plain::read_stereo(&read.bytes).map(|set| set.entries.into()),
            Call::WriteStereo(write) => write
                .clone()
                .plain()
                .and_then(|_| entries_of(&write.entries)),
            Call::ReadPoints(read) => plain::read_loop(Reading::Of2015, &read.bytes),
            _ => return false,
        };
        let implied = |entry: &Entry| entry.record == Some(Record::Implied);
        entries.map_or(false, |entries| entries.iter().any(implied))
    }

    /// The same call over a table that differs in rows of layers alone on which the target doesn't rest, where no row is out of range: other layers, other
    /// times, none of them in the closure. Nothing where this one has no such row, or no closure.
    pub fn with_other_rows(&self, random: &mut Random) -> Option<Call> {
        let mut other = self.clone();
        let (closure, rows) = match &mut other {
            Call::Join {
                present,
                embedded,
                target,
                rows,
                ..
            }
            | Call::JoinLong {
                present,
                embedded,
                target,
                rows,
                ..
            } => (plain::closure(&layers(*present, embedded), *target), rows),
            Call::Import {
                reading,
                bytes,
                target,
                rows,
                ..
            } => {
                let reading = reading_of(*reading).ok()?;
                (plain::closure_of_loop(reading, bytes, *target), rows)
            }
            _ => return None,
        };
        let closure = closure.ok()?;
        let is_time = |times: &[u64]| times.iter().all(|&time| time < 1 << 33);
        let in_range = is_time(&rows.decodings) && is_time(&rows.matches);
        if !in_range || rows.indices.iter().any(|&index| index > 63) {
            return None;
        }
        let outside: Vec<u8> = (0..64).filter(|index| closure >> index & 1 == 0).collect();
        let mut changed = false;
        for row in 0..rows.indices.len() {
            if closure >> rows.indices[row] & 1 == 0 {
                changed = true;
                rows.indices[row] = random.pick(&outside);
                for column in [&mut rows.decodings, &mut rows.matches] {
                    if let Some(time) = column.get_mut(row) {
                        *time = random.next() % (1 << 33);
                    }
                }
            }
        }
        changed.then_some(other)
    }

    /// The rows that it is over, if it joins any.
    pub fn take_rows(&mut self, from: &Call) {
        if let (
            Call::Join { rows, .. } | Call::JoinLong { rows, .. } | Call::Import { rows, .. },
            Call::Join { rows: others, .. }
            | Call::JoinLong { rows: others, .. }
            | Call::Import { rows: others, .. },
        ) = (self, from)
        {
            rows.clone_from(others);
        }
    }

    /// Makes the call to the library. An error where it has written beside a buffer.
    pub fn library(&mut self, memory: &mut Memory, placing: Placing) -> Result<u64, &'static str> {
        memory.begin(placing);
        let mut untouched = true;
        // SAFETY of all calls: each pointer is of a region, with the length of what was placed there, and no two regions overlap.
        let answer = match self {
            Call::ReadLoop {
                reading,
                bytes,
                entries,
            } => {
                let given = memory.place(bytes);
                let room = memory.place(entries);
                let answer = unsafe {
                    raw::thq_read_loop(
                        *reading,
                        given.start(),
                        given.length(),
                        room.start(),
                        room.length(),
                    )
                };
                untouched &= given.take_back(bytes);
                untouched &= room.take_back(entries);
                answer
            }
            Call::WriteLoop { entries, out } => {
                let given = memory.place(entries);
                let room = memory.place(out);
                let answer = unsafe {
                    raw::thq_write_loop(given.start(), given.length(), room.start(), room.length())
                };
                untouched &= given.take_back(entries);
                untouched &= room.take_back(out);
                answer
            }
            Call::Closure {
                reading,
                bytes,
                target,
                set,
            } => {
                let given = memory.place(bytes);
                let room = memory.place(set);
                let answer = unsafe {
                    raw::thq_closure(
                        *reading,
                        given.start(),
                        given.length(),
                        *target,
                        room.start(),
                        room.length(),
                    )
                };
                untouched &= given.take_back(bytes);
                untouched &= room.take_back(set);
                answer
            }
            Call::ReadTimes { bytes, times } => {
                let given = memory.place(bytes);
                let room = memory.place(times);
                let answer = unsafe {
                    raw::thq_read_times(given.start(), given.length(), room.start(), room.length())
                };
                untouched &= given.take_back(bytes);
                untouched &= room.take_back(times);
                answer
            }
            Call::WriteTimes {
                pts,
                decoding,
                matching,
                with_tref,
                out,
            } => {
                let room = memory.place(out);
                let answer = unsafe {
                    raw::thq_write_times(
                        *pts,
                        *decoding,
                        *matching,
                        *with_tref,
                        room.start(),
                        room.length(),
                    )
                };
                untouched &= room.take_back(out);
                answer
            }
            Call::Join {
                present,
                embedded,
                target,
                rows,
                lists,
            } => {
                let given = memory.place(embedded);
                let joined = Joined::place(memory, rows, lists);
                let answer = unsafe {
                    raw::thq_join(
                        *present,
                        given.start(),
                        given.length(),
                        *target,
                        joined.indices.start(),
                        joined.indices.length(),
                        joined.decodings.start(),
                        joined.decodings.length(),
                        joined.matches.start(),
                        joined.matches.length(),
                        joined.numbers.start(),
                        joined.numbers.length(),
                        joined.lags.start(),
                        joined.lags.length(),
                        joined.sizes.start(),
                        joined.sizes.length(),
                        joined.summary.start(),
                        joined.summary.length(),
                    )
                };
                untouched &= given.take_back(embedded);
                untouched &= joined.take_back(rows, lists);
                answer
            }
            Call::JoinLong {
                present,
                embedded,
                target,
                rows,
                work,
                lists,
            } => {
                let given = memory.place(embedded);
                let joined = Joined::place(memory, rows, lists);
                let mut space = Space::of(*work);
                let placed = space.place(memory);
                let answer = unsafe {
                    raw::thq_join_long(
                        *present,
                        given.start(),
                        given.length(),
                        *target,
                        joined.indices.start(),
                        joined.indices.length(),
                        joined.decodings.start(),
                        joined.decodings.length(),
                        joined.matches.start(),
                        joined.matches.length(),
                        placed.order.start(),
                        placed.order.length(),
                        placed.keys.start(),
                        placed.keys.length(),
                        placed.kept.start(),
                        placed.kept.length(),
                        placed.places.start(),
                        placed.places.length(),
                        placed.heads.start(),
                        placed.heads.length(),
                        placed.claimed.start(),
                        placed.claimed.length(),
                        placed.used.start(),
                        placed.used.length(),
                        joined.numbers.start(),
                        joined.numbers.length(),
                        joined.lags.start(),
                        joined.lags.length(),
                        joined.sizes.start(),
                        joined.sizes.length(),
                        joined.summary.start(),
                        joined.summary.length(),
                    )
                };
                untouched &= given.take_back(embedded);
                untouched &= joined.take_back(rows, lists);
                untouched &= placed.take_back(&mut space);
                answer
            }
            Call::Import {
                reading,
                bytes,
                target,
                rows,
                lists,
            } => {
                let given = memory.place(bytes);
                let joined = Joined::place(memory, rows, lists);
                let answer = unsafe {
                    raw::thq_import(
                        *reading,
                        given.start(),
                        given.length(),
                        *target,
                        joined.indices.start(),
                        joined.indices.length(),
                        joined.decodings.start(),
                        joined.decodings.length(),
                        joined.matches.start(),
                        joined.matches.length(),
                        joined.numbers.start(),
                        joined.numbers.length(),
                        joined.lags.start(),
                        joined.lags.length(),
                        joined.sizes.start(),
                        joined.sizes.length(),
                        joined.summary.start(),
                        joined.summary.length(),
                    )
                };
                untouched &= given.take_back(bytes);
                untouched &= joined.take_back(rows, lists);
                answer
            }
            Call::ReadStereo(read) => {
                let (answer, kept) = read.library(memory);
                untouched &= kept;
                answer
            }
            Call::WriteStereo(write) => {
                let (answer, kept) = write.library(memory);
                untouched &= kept;
                answer
            }
            Call::ReadPoints(read) => {
                let (answer, kept) = read.library(memory);
                untouched &= kept;
                answer
            }
            Call::WritePoints(write) => {
                let (answer, kept) = write.library(memory);
                untouched &= kept;
                answer
            }
        };
        if untouched {
            Ok(answer)
        } else {
            Err("bytes beside a buffer were changed")
        }
    }

    /// Makes the call to the plain implementation.
    pub fn plain(&mut self) -> u64 {
        answer(match self {
            Call::ReadLoop {
                reading,
                bytes,
                entries,
            } => read_loop(*reading, bytes, entries),
            Call::WriteLoop { entries, out } => write_loop(entries, out),
            Call::Closure {
                reading,
                bytes,
                target,
                set,
            } => closure(*reading, bytes, *target, set),
            Call::ReadTimes { bytes, times } => read_times(bytes, times),
            Call::WriteTimes {
                pts,
                decoding,
                matching,
                with_tref,
                out,
            } => {
                let times = Times {
                    pts: *pts,
                    decoding: *decoding,
                    matching: *matching,
                };
                write_times(times, *with_tref, out)
            }
            Call::Join {
                present,
                embedded,
                target,
                rows,
                lists,
            } => join(MOST_ROWS, &layers(*present, embedded), *target, rows, lists),
            Call::JoinLong {
                present,
                embedded,
                target,
                rows,
                work,
                lists,
            } => {
                let most = work.iter().copied().min().unwrap_or(0);
                join(most, &layers(*present, embedded), *target, rows, lists)
            }
            Call::Import {
                reading,
                bytes,
                target,
                rows,
                lists,
            } => reading_of(*reading)
                .and_then(|reading| plain::layers_of_loop(reading, bytes))
                .and_then(|layers| join(MOST_ROWS, &layers, *target, rows, lists)),
            Call::ReadStereo(read) => read.plain(),
            Call::WriteStereo(write) => write.plain(),
            Call::ReadPoints(read) => read.plain(),
            Call::WritePoints(write) => write.plain(),
        })
    }
}

/// The buffers of joining, placed.
struct Joined {
    indices: crate::memory::Placed<u8>,
    decodings: crate::memory::Placed<u64>,
    matches: crate::memory::Placed<u64>,
    numbers: crate::memory::Placed<u64>,
    lags: crate::memory::Placed<i64>,
    sizes: crate::memory::Placed<u64>,
    summary: crate::memory::Placed<u64>,
}

impl Joined {
    fn place(memory: &mut Memory, rows: &Columns, lists: &Lists) -> Joined {
        Joined {
            indices: memory.place(&rows.indices),
            decodings: memory.place(&rows.decodings),
            matches: memory.place(&rows.matches),
            numbers: memory.place(&lists.numbers),
            lags: memory.place(&lists.lags),
            sizes: memory.place(&lists.sizes),
            summary: memory.place(&lists.summary),
        }
    }

    fn take_back(&self, rows: &mut Columns, lists: &mut Lists) -> bool {
        self.indices.take_back(&mut rows.indices)
            & self.decodings.take_back(&mut rows.decodings)
            & self.matches.take_back(&mut rows.matches)
            & self.numbers.take_back(&mut lists.numbers)
            & self.lags.take_back(&mut lists.lags)
            & self.sizes.take_back(&mut lists.sizes)
            & self.summary.take_back(&mut lists.summary)
    }
}

/// Work space, filled with what no table has.
pub struct Space {
    order: Vec<usize>,
    keys: Vec<u64>,
    kept: Vec<usize>,
    places: Vec<usize>,
    heads: Vec<usize>,
    claimed: Vec<bool>,
    used: Vec<bool>,
}

impl Space {
    pub fn of([order, keys, kept, places, heads, claimed, used]: Work) -> Space {
        Space {
            order: vec![usize::MAX; order],
            keys: vec![u64::MAX; keys],
            kept: vec![usize::MAX; kept],
            places: vec![usize::MAX; places],
            heads: vec![usize::MAX; heads],
            claimed: vec![true; claimed],
            used: vec![true; used],
        }
    }

    pub fn place(&self, memory: &mut Memory) -> PlacedSpace {
        PlacedSpace {
            order: memory.place(&self.order),
            keys: memory.place(&self.keys),
            kept: memory.place(&self.kept),
            places: memory.place(&self.places),
            heads: memory.place(&self.heads),
            claimed: memory.place(&self.claimed),
            used: memory.place(&self.used),
        }
    }
}

/// The same, placed.
pub struct PlacedSpace {
    pub order: crate::memory::Placed<usize>,
    pub keys: crate::memory::Placed<u64>,
    pub kept: crate::memory::Placed<usize>,
    pub places: crate::memory::Placed<usize>,
    pub heads: crate::memory::Placed<usize>,
    pub claimed: crate::memory::Placed<bool>,
    pub used: crate::memory::Placed<bool>,
}

impl PlacedSpace {
    pub fn take_back(&self, space: &mut Space) -> bool {
        self.order.take_back(&mut space.order)
            & self.keys.take_back(&mut space.keys)
            & self.kept.take_back(&mut space.kept)
            & self.places.take_back(&mut space.places)
            & self.heads.take_back(&mut space.heads)
            & self.claimed.take_back(&mut space.claimed)
            & self.used.take_back(&mut space.used)
    }
}

/// The reading that a number names.
pub fn reading_of(reading: u64) -> Result<Reading, Refusal> {
    match reading {
        raw::THQ_2009 => Ok(Reading::Of2009),
        raw::THQ_2015 => Ok(Reading::Of2015),
        _ => Err(Refusal::of(NOT_A_CALL as u8)),
    }
}

fn read_loop(reading: u64, bytes: &[u8], room: &mut [u16]) -> Result<usize, Refusal> {
    let entries = plain::read_loop(reading_of(reading)?, bytes)?;
    let room = room
        .get_mut(..entries.len() * ENTRY)
        .ok_or(Refusal::of(17))?;
    for (entry, numbers) in entries.iter().zip(room.chunks_exact_mut(ENTRY)) {
        numbers.copy_from_slice(&numbers_of(entry));
    }
    Ok(entries.len())
}

fn write_loop(entries: &[u16], out: &mut [u8]) -> Result<usize, Refusal> {
    plain::write_loop(&entries_of(entries)?, out)
}

/// The entries that the numbers of a list say.
pub fn entries_of(numbers: &[u16]) -> Result<Vec<Entry>, Refusal> {
    numbers.chunks_exact(ENTRY).map(entry_of).collect()
}

fn closure(reading: u64, bytes: &[u8], target: u64, set: &mut [u64]) -> Result<usize, Refusal> {
    let closure = plain::closure_of_loop(reading_of(reading)?, bytes, target)?;
    *set.first_mut().ok_or(Refusal::of(17))? = closure;
    Ok(closure.count_ones() as usize)
}

fn read_times(bytes: &[u8], room: &mut [u64]) -> Result<usize, Refusal> {
    // 17 is the lowest number of this call.
    let room = room.get_mut(..5).ok_or(Refusal::of(17))?;
    let header = plain::read_times(bytes)?;
    room.copy_from_slice(&[
        header.times.pts,
        header.times.decoding,
        header.times.matching,
        u64::from(header.tref_sent),
        header.end as u64,
    ]);
    Ok(5)
}

fn write_times(times: Times, with_tref: u64, out: &mut [u8]) -> Result<usize, Refusal> {
    // A flag of one bit, and 25 comes before all else.
    if with_tref > 1 {
        return Err(Refusal::of(25));
    }
    plain::write_times(times, with_tref == 1, out)
}

fn join(
    most: usize,
    layers: &Layers,
    target: u64,
    rows: &Columns,
    lists: &mut Lists,
) -> Result<usize, Refusal> {
    let mut left = lists.clone();
    let room = plain::Lists {
        numbers: &mut left.numbers,
        lags: &mut left.lags,
        sizes: &mut left.sizes,
    };
    let units = match most {
        MOST_ROWS => plain::join(layers, target, rows.rows(), room),
        most => plain::join_long(most, layers, target, rows.rows(), room),
    }?;
    let summary = left.summary.get_mut(..2).ok_or(Refusal::of(17))?;
    summary.copy_from_slice(&[units.closure, units.count as u64]);
    *lists = left;
    Ok(units.rows)
}

/// The layers that a call of `thq_join` describes.
pub fn layers(present: u64, embedded: &[u64]) -> Layers {
    let mut layers = Layers {
        present,
        ..Layers::default()
    };
    for (layer, &named) in layers.embedded.iter_mut().zip(embedded) {
        *layer = named;
    }
    layers
}

/// An entry as 80 numbers.
pub fn numbers_of(entry: &Entry) -> [u16; ENTRY] {
    let mut numbers = [0; ENTRY];
    numbers[0] = u16::from(entry.stream_type);
    numbers[1] = entry.pid;
    match &entry.record {
        None => numbers[2] = raw::THQ_NO_RECORD,
        Some(Record::Hierarchy(hierarchy)) => {
            numbers[2] = raw::THQ_HIERARCHY;
            numbers[3] = u16::from(hierarchy.no_view);
            numbers[4] = u16::from(hierarchy.no_temporal);
            numbers[5] = u16::from(hierarchy.no_spatial);
            numbers[6] = u16::from(hierarchy.no_quality);
            numbers[7] = u16::from(hierarchy.hierarchy_type);
            numbers[8] = u16::from(hierarchy.layer_index);
            numbers[9] = u16::from(hierarchy.tref_present);
            numbers[10] = u16::from(hierarchy.embedded_index);
            numbers[11] = u16::from(hierarchy.channel);
        }
        Some(Record::Extension(extension)) => {
            numbers[2] = raw::THQ_EXTENSION;
            numbers[8] = u16::from(extension.layer_index);
            numbers[9] = u16::from(extension.tref_present);
            numbers[11] = u16::from(extension.channel);
            numbers[12] = extension.dimension_bits;
            numbers[13] = u16::from(extension.temporal_id);
            numbers[14] = u16::from(extension.nuh_layer_id);
            let list = extension.embedded.as_slice();
            numbers[15] = list.len() as u16;
            for (number, &index) in numbers[16..].iter_mut().zip(list) {
                *number = u16::from(index);
            }
        }
        Some(Record::Implied) => numbers[2] = raw::THQ_IMPLIED,
    }
    numbers
}

/// The entry that 80 numbers say, or 25 where one of those that are looked at is too wide for any entry.
pub fn entry_of(numbers: &[u16]) -> Result<Entry, Refusal> {
    let byte = |place: usize| u8::try_from(numbers[place]).map_err(|_| Refusal::of(25));
    let flag = |place: usize| match numbers[place] {
        0 => Ok(false),
        1 => Ok(true),
        _ => Err(Refusal::of(25)),
    };
    let record = match numbers[2] {
        raw::THQ_NO_RECORD => None,
        raw::THQ_HIERARCHY => Some(Record::Hierarchy(Hierarchy {
            no_view: flag(3)?,
            no_temporal: flag(4)?,
            no_spatial: flag(5)?,
            no_quality: flag(6)?,
            hierarchy_type: byte(7)?,
            layer_index: byte(8)?,
            tref_present: flag(9)?,
            embedded_index: byte(10)?,
            channel: byte(11)?,
        })),
        raw::THQ_EXTENSION => {
            let list = numbers[16..79]
                .get(..usize::from(numbers[15]))
                .ok_or(Refusal::of(25))?;
            let indices: Result<Vec<u8>, Refusal> = (16..16 + list.len()).map(byte).collect();
            Some(Record::Extension(Extension {
                dimension_bits: numbers[12],
                layer_index: byte(8)?,
                temporal_id: byte(13)?,
                nuh_layer_id: byte(14)?,
                tref_present: flag(9)?,
                channel: byte(11)?,
                embedded: Embedded::new(&indices?)?,
            }))
        }
        raw::THQ_IMPLIED => Some(Record::Implied),
        _ => return Err(Refusal::of(25)),
    };
    Ok(Entry {
        stream_type: byte(0)?,
        pid: numbers[1],
        record,
    })
}
