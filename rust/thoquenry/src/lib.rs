//! Thoquenry: a verified importer for layered television recordings, called from Rust.
//!
//! The work is done by libthoquenry, whose every function is proved to meet its contract. This crate gives its functions Rust's types:
//! an answer is a `Result` with what was asked for, or the [`Refusal`] with its number and place. The crate `thoquenry-sys` has the functions
//! themselves.
//!
//! ```no_run
//! use thoquenry::{closure, LayerIndex, Reading};
//!
//! let bytes = std::fs::read("samples/loop-a.bin").unwrap();
//! let layers = closure(Reading::Edition2015, &bytes, LayerIndex(2)).unwrap();
//! assert_eq!(layers.iter().collect::<Vec<_>>(), [LayerIndex(0), LayerIndex(2)]);
//! ```

#![warn(missing_docs)]

mod entry;
mod layer_set;
mod layers;
mod packets;
mod points;
mod recording;
mod refusal;
mod stereo;

pub use entry::{Channel, Entry, NuhLayerId, Record, TemporalId};
pub use layer_set::{Layer, LayerSet};
pub use layers::{LayerIndex, LayerIndices, Layers};
pub use packets::{
    packets_import, packets_import_long, packets_rows, RecordedRow, RecordingRefusal,
};
pub use points::{
    read_points, write_points, FrameRate, Point, PointDescriptor, PointLayer, PointStreams,
    Profile, ProgramPoints, Reference,
};
pub use recording::{Recording, RecordingError, RowsFrom};
pub use refusal::Refusal;
pub use stereo::{read_stereo, write_stereo, MvcExtension, StereoSet};

use thoquenry_sys as raw;
use thoquenry_sys::THQ_ENTRY_NUMBERS;

/// The amendments by which a loop is read.
#[derive(Clone, Copy, Debug, PartialEq, Eq, Hash)]
pub enum Reading {
    /// Those of 2009: AVC, SVC and MVC streams, and the hierarchy descriptor.
    Edition2009,
    /// Those of 2015: HEVC streams too, and the HEVC hierarchy extension.
    Edition2015,
}

impl Reading {
    fn number(self) -> u64 {
        match self {
            Reading::Edition2009 => raw::THQ_2009,
            Reading::Edition2015 => raw::THQ_2015,
        }
    }
}

/// The times of a PES header, each below 2^33.
#[derive(Clone, Copy, Debug, PartialEq, Eq, Hash)]
pub struct Times {
    /// When the picture is shown.
    pub pts: u64,
    /// DTS, or PTS without a DTS.
    pub decoding: u64,
    /// TREF, or the decoding time without one.
    pub matching: u64,
}

/// What a PES header says of its component.
#[derive(Clone, Copy, Debug, PartialEq, Eq, Hash)]
pub struct Header {
    /// Its times.
    pub times: Times,
    /// Whether a TREF stood in the header, also one that equals the decoding time.
    pub tref_sent: bool,
    /// The offset at which the header ends, stuffing included.
    pub end: usize,
}

/// One component of a table, in arrival order.
#[derive(Clone, Copy, Debug, PartialEq, Eq, Hash)]
pub struct Row {
    /// The layer that the component belongs to.
    pub layer_index: LayerIndex,
    /// Its decoding time.
    pub decoding: u64,
    /// Its match time: TREF, or the decoding time without one. Its partners in lower layers are decoded then.
    pub matching: u64,
}

/// One row that stands in a unit.
#[derive(Clone, Copy, Debug, PartialEq, Eq, Hash)]
pub struct Component {
    /// The number of the row in the table, from 0.
    pub row: usize,
    /// Its decoding time minus that of the unit's head, which is its last component, modulo 2^33, from -2^32 to 2^32-1.
    pub lag: i64,
}

/// The rows of a table joined.
#[derive(Clone, Debug, PartialEq, Eq, Hash)]
pub struct Units {
    /// The target and the layers that it rests on.
    pub closure: LayerIndices,
    /// The units in order of time, each with one component for each layer that its head rests on, in rising layer index, so that the head comes
    /// last. Each row of a layer of the closure stands in exactly one.
    pub units: Vec<Vec<Component>>,
}

/// The most bytes that a loop has.
const LOOP_BYTES: usize = 1008;

/// The least bytes of an entry.
const ENTRY_BYTES: usize = 5;

/// More bytes than any header that `write_times` writes.
const HEADER_BYTES: usize = 64;

/// The most rows that a table of [`join`] and [`import`] has. Each row stands in one unit at most, so the lists of its units need no more places.
const ROWS: usize = 512;

/// The version of the library that is linked: its three parts.
pub fn version() -> (u64, u64, u64) {
    // SAFETY: it takes nothing.
    let number = unsafe { raw::thq_version() };
    (number / 10000, number / 100 % 100, number % 100)
}

/// What an accepted call counts, or the refusal.
fn accepted(answer: u64) -> Result<usize, Refusal> {
    let (number, value) = ((answer % 256) as u8, (answer / 256) as usize);
    if number == 0 {
        return Ok(value);
    }
    let refusal = Refusal::of(number, value);
    Err(refusal.unwrap_or_else(|| {
        panic!("libthoquenry answered {answer}, which its header does not list")
    }))
}

/// Reads a loop: every entry, in loop order. Refusals: 1 to 9.
pub fn read_loop(reading: Reading, bytes: &[u8]) -> Result<Vec<Entry>, Refusal> {
    let most = bytes.len().min(LOOP_BYTES) / ENTRY_BYTES;
    let mut numbers = vec![0; most * THQ_ENTRY_NUMBERS];
    // SAFETY: pointer and length of each buffer belong together; `numbers` is this call's own.
    let answer = unsafe {
        raw::thq_read_loop(
            reading.number(),
            bytes.as_ptr(),
            bytes.len(),
            numbers.as_mut_ptr(),
            numbers.len(),
        )
    };
    let count = accepted(answer)?;
    let rows = numbers.chunks_exact(THQ_ENTRY_NUMBERS).take(count);
    Ok(rows.map(Entry::of_numbers).collect())
}

/// Writes a loop, by the 2015 reading's rules. Refusals: 25; then 1, 3, 6 to 9; 6 also where [`Record::Implied`] stands on an entry that is not
/// one of two such views, or does not stand on one that is.
pub fn write_loop(entries: &[Entry]) -> Result<Vec<u8>, Refusal> {
    let numbers: Vec<u16> = entries.iter().flat_map(Entry::to_numbers).collect();
    let mut out = vec![0; LOOP_BYTES];
    // SAFETY: pointer and length of each buffer belong together; `out` is this call's own.
    let answer = unsafe {
        raw::thq_write_loop(numbers.as_ptr(), numbers.len(), out.as_mut_ptr(), out.len())
    };
    out.truncate(accepted(answer)?);
    Ok(out)
}

/// The layers that a target rests on, itself included. Refusals: 1 to 12.
pub fn closure(
    reading: Reading,
    bytes: &[u8],
    target: LayerIndex,
) -> Result<LayerIndices, Refusal> {
    let mut set = [0];
    // SAFETY: pointer and length of each buffer belong together; `set` is this call's own.
    let answer = unsafe {
        raw::thq_closure(
            reading.number(),
            bytes.as_ptr(),
            bytes.len(),
            u64::from(target.0),
            set.as_mut_ptr(),
            set.len(),
        )
    };
    accepted(answer)?;
    Ok(LayerIndices(set[0]))
}

/// Reads the times of a PES header, whether a TREF stands in it, and where it ends. Refusals: 20 to 24.
pub fn read_times(bytes: &[u8]) -> Result<Header, Refusal> {
    let mut times = [0; 5];
    // SAFETY: pointer and length of each buffer belong together; `times` is this call's own.
    let answer = unsafe {
        raw::thq_read_times(bytes.as_ptr(), bytes.len(), times.as_mut_ptr(), times.len())
    };
    accepted(answer)?;
    let [pts, decoding, matching, tref_sent, end] = times;
    Ok(Header {
        times: Times {
            pts,
            decoding,
            matching,
        },
        tref_sent: tref_sent == 1,
        end: end as usize,
    })
}

/// Writes a PES header with these times, and with a TREF or without one. Refusals: 25, also without a TREF for a match time that is not the
/// decoding time; 24.
pub fn write_times(times: Times, with_tref: bool) -> Result<Vec<u8>, Refusal> {
    let mut out = vec![0; HEADER_BYTES];
    // SAFETY: `out` is this call's own, and its length is beside it.
    let answer = unsafe {
        raw::thq_write_times(
            times.pts,
            times.decoding,
            times.matching,
            u64::from(with_tref),
            out.as_mut_ptr(),
            out.len(),
        )
    };
    out.truncate(accepted(answer)?);
    Ok(out)
}

/// Joins rows to units, over layers that the caller gives: every row of a layer that the target rests on, and that no other row claims, heads one. Refusals:
/// 11, 12; then 13, also for more than 512 rows; then 14 to 16, 18.
pub fn join(layers: &Layers, target: LayerIndex, rows: &[Row]) -> Result<Units, Refusal> {
    let embedded = layers.embedded.map(|set| set.0);
    joined(rows, ROWS, |table, lists| {
        // SAFETY: pointer and length of each buffer belong together; the lists are `joined`'s own.
        unsafe {
            raw::thq_join(
                layers.present.0,
                embedded.as_ptr(),
                embedded.len(),
                u64::from(target.0),
                table.indices.as_ptr(),
                table.indices.len(),
                table.decodings.as_ptr(),
                table.decodings.len(),
                table.matches.as_ptr(),
                table.matches.len(),
                lists.numbers.as_mut_ptr(),
                lists.numbers.len(),
                lists.lags.as_mut_ptr(),
                lists.lags.len(),
                lists.sizes.as_mut_ptr(),
                lists.sizes.len(),
                lists.summary.as_mut_ptr(),
                lists.summary.len(),
            )
        }
    })
}

/// Joins rows to units as [`join`] does, of a table of any length: the work space is on the heap. Refusals: 11, 12; then 13 to 16, 18.
pub fn join_long(layers: &Layers, target: LayerIndex, rows: &[Row]) -> Result<Units, Refusal> {
    let embedded = layers.embedded.map(|set| set.0);
    let count = rows.len();
    let mut work = WorkSpace::of(count);
    joined(rows, count, |table, lists| {
        // SAFETY: pointer and length of each buffer belong together; the work space is this call's own, and the lists are `joined`'s.
        unsafe {
            raw::thq_join_long(
                layers.present.0,
                embedded.as_ptr(),
                embedded.len(),
                u64::from(target.0),
                table.indices.as_ptr(),
                table.indices.len(),
                table.decodings.as_ptr(),
                table.decodings.len(),
                table.matches.as_ptr(),
                table.matches.len(),
                work.order.as_mut_ptr(),
                work.order.len(),
                work.keys.as_mut_ptr(),
                work.keys.len(),
                work.kept.as_mut_ptr(),
                work.kept.len(),
                work.places.as_mut_ptr(),
                work.places.len(),
                work.heads.as_mut_ptr(),
                work.heads.len(),
                work.claimed.as_mut_ptr(),
                work.claimed.len(),
                work.used.as_mut_ptr(),
                work.used.len(),
                lists.numbers.as_mut_ptr(),
                lists.numbers.len(),
                lists.lags.as_mut_ptr(),
                lists.lags.len(),
                lists.sizes.as_mut_ptr(),
                lists.sizes.len(),
                lists.summary.as_mut_ptr(),
                lists.summary.len(),
            )
        }
    })
}

/// The whole import: the layers of a loop's bytes, and the rows joined over them. Refusals: 1 to 9; then those of [`join`].
pub fn import(
    reading: Reading,
    bytes: &[u8],
    target: LayerIndex,
    rows: &[Row],
) -> Result<Units, Refusal> {
    joined(rows, ROWS, |table, lists| {
        // SAFETY: pointer and length of each buffer belong together; the lists are `joined`'s own.
        unsafe {
            raw::thq_import(
                reading.number(),
                bytes.as_ptr(),
                bytes.len(),
                u64::from(target.0),
                table.indices.as_ptr(),
                table.indices.len(),
                table.decodings.as_ptr(),
                table.decodings.len(),
                table.matches.as_ptr(),
                table.matches.len(),
                lists.numbers.as_mut_ptr(),
                lists.numbers.len(),
                lists.lags.as_mut_ptr(),
                lists.lags.len(),
                lists.sizes.as_mut_ptr(),
                lists.sizes.len(),
                lists.summary.as_mut_ptr(),
                lists.summary.len(),
            )
        }
    })
}

/// A table by its columns.
struct Table {
    indices: Vec<u8>,
    decodings: Vec<u64>,
    matches: Vec<u64>,
}

/// The work space of a long join.
struct WorkSpace {
    order: Vec<usize>,
    keys: Vec<u64>,
    kept: Vec<usize>,
    places: Vec<usize>,
    heads: Vec<usize>,
    claimed: Vec<bool>,
    used: Vec<bool>,
}

impl WorkSpace {
    /// Work space for so many rows.
    fn of(rows: usize) -> WorkSpace {
        WorkSpace {
            order: vec![0; rows],
            keys: vec![0; rows],
            kept: vec![0; rows],
            places: vec![0; rows],
            heads: vec![0; rows],
            claimed: vec![false; rows],
            used: vec![false; rows],
        }
    }
}

/// What a join fills.
struct Lists {
    numbers: Vec<u64>,
    lags: Vec<i64>,
    sizes: Vec<u64>,
    summary: [u64; 2],
}

impl Lists {
    /// Lists for the units of so many rows.
    fn of(rows: usize) -> Lists {
        Lists {
            numbers: vec![0; rows],
            lags: vec![0; rows],
            sizes: vec![0; rows],
            summary: [0; 2],
        }
    }

    /// The units, of so many rows, that a join has filled the lists with.
    fn units(&self, count: usize) -> Units {
        let [closure, units] = self.summary;
        let numbers = self.numbers[..count].iter();
        let mut components = numbers.zip(&self.lags).map(|(&row, &lag)| Component {
            row: row as usize,
            lag,
        });
        Units {
            closure: LayerIndices(closure),
            units: self.sizes[..units as usize]
                .iter()
                .map(|&size| components.by_ref().take(size as usize).collect())
                .collect(),
        }
    }
}

/// The units that a call fills the lists with, over these rows, of which it takes so many at the most.
fn joined(
    rows: &[Row],
    most: usize,
    call: impl FnOnce(&Table, &mut Lists) -> u64,
) -> Result<Units, Refusal> {
    let table = Table {
        indices: rows.iter().map(|row| row.layer_index.0).collect(),
        decodings: rows.iter().map(|row| row.decoding).collect(),
        matches: rows.iter().map(|row| row.matching).collect(),
    };
    let mut lists = Lists::of(rows.len().min(most));
    let count = accepted(call(&table, &mut lists))?;
    Ok(lists.units(count))
}

/// The code of docs/USING.md is run as documentation.
#[cfg(doctest)]
#[doc = include_str!("../../../docs/USING.md")]
struct Using;
