//! Recordings of transport packets, all bytes in one slice: their rows, and the whole import.

use crate::layers::LayerIndex;
use crate::{accepted, Lists, Refusal, Row, Units, WorkSpace, ROWS};
use std::error::Error;
use std::fmt;
use thoquenry_sys as raw;
use thoquenry_sys::THQ_PACKET_BYTES;

/// A row of a recording: a unit that starts in a packet of a layer's PID.
#[derive(Clone, Copy, Debug, PartialEq, Eq, Hash)]
pub struct RecordedRow {
    /// The layer that has the PID.
    pub layer_index: LayerIndex,
    /// The decoding time of its PES header.
    pub decoding: u64,
    /// Its match time: TREF, or the decoding time without one.
    pub matching: u64,
    /// Whether a TREF stood in the header, also one that equals the decoding time. Joining does not ask.
    pub tref_sent: bool,
    /// The number of the packet in which it starts, from 0.
    pub packet: usize,
}

impl From<RecordedRow> for Row {
    fn from(recorded: RecordedRow) -> Row {
        Row {
            layer_index: recorded.layer_index,
            decoding: recorded.decoding,
            matching: recorded.matching,
        }
    }
}

/// Why a recording is refused: the refusal, and the packet, which 20 to 24 do not have by themselves. It prints as its number and words:
/// `31: packet 8, on a layer's PID, has another counter than the next one, and no discontinuity indicator`, or `24: packet 8: PTS lies before DTS`.
#[derive(Clone, Copy, Debug, PartialEq, Eq, Hash)]
pub struct RecordingRefusal {
    /// The lowest number that applies.
    pub refusal: Refusal,
    /// Its earliest packet, from 0, where it is 30 to 33, or 20 to 24 of a PES header.
    pub packet: Option<usize>,
}

impl RecordingRefusal {
    /// The number of the refusal.
    pub fn number(self) -> u8 {
        self.refusal.number()
    }

    /// Its place: the packet where there is one, or else that of the refusal.
    pub fn place(self) -> usize {
        self.packet.unwrap_or_else(|| self.refusal.place())
    }

    /// What it means, with the packet.
    pub fn words(self) -> String {
        match self.packet {
            Some(packet) if is_of_header(self.number()) => {
                format!("packet {packet}: {}", self.refusal.words())
            }
            _ => self.refusal.words(),
        }
    }
}

impl From<Refusal> for RecordingRefusal {
    /// A refusal of no packet, or of its own.
    fn from(refusal: Refusal) -> RecordingRefusal {
        RecordingRefusal {
            refusal,
            packet: (30..=33)
                .contains(&refusal.number())
                .then(|| refusal.place()),
        }
    }
}

impl fmt::Display for RecordingRefusal {
    fn fmt(&self, to: &mut fmt::Formatter) -> fmt::Result {
        write!(to, "{}: {}", self.number(), self.words())
    }
}

impl Error for RecordingRefusal {}

/// Whether a number is one of a PES header.
fn is_of_header(number: u8) -> bool {
    (20..=24).contains(&number)
}

/// What an accepted call counts, or the refusal with its packet.
pub(crate) fn recorded(answer: u64) -> Result<usize, RecordingRefusal> {
    accepted(answer).map_err(|refusal| {
        if is_of_header(refusal.number()) {
            let packet = Some((answer / 256) as usize);
            return RecordingRefusal { refusal, packet };
        }
        refusal.into()
    })
}

/// The columns of rows.
#[derive(Clone, Default)]
pub(crate) struct Columns {
    pub(crate) indices: Vec<u8>,
    pub(crate) decodings: Vec<u64>,
    pub(crate) matches: Vec<u64>,
    pub(crate) trefs: Vec<u8>,
    pub(crate) numbers: Vec<u64>,
}

impl Columns {
    /// Columns for so many rows.
    fn of(rows: usize) -> Columns {
        Columns {
            indices: vec![0; rows],
            decodings: vec![0; rows],
            matches: vec![0; rows],
            trefs: vec![0; rows],
            numbers: vec![0; rows],
        }
    }

    /// Makes room for so many rows, and where there is too little, for twice as many as there was room for, so that it is seldom made.
    pub(crate) fn make_room(&mut self, rows: usize) {
        if rows <= self.numbers.len() {
            return;
        }
        let room = rows.max(2 * self.numbers.len());
        self.indices.resize(room, 0);
        self.decodings.resize(room, 0);
        self.matches.resize(room, 0);
        self.trefs.resize(room, 0);
        self.numbers.resize(room, 0);
    }

    /// Makes it known that no row is written yet: no packet has this number.
    fn unwritten(&mut self) {
        if let Some(first) = self.numbers.first_mut() {
            *first = u64::MAX;
        }
    }

    /// How many rows were written into columns that were [`unwritten`](Columns::unwritten): the numbers of their packets rise.
    fn written(&self) -> usize {
        if matches!(self.numbers.first(), None | Some(&u64::MAX)) {
            return 0;
        }
        let pairs = self.numbers.windows(2);
        1 + pairs.take_while(|pair| pair[0] < pair[1]).count()
    }

    /// The row at a place.
    pub(crate) fn row(&self, place: usize) -> RecordedRow {
        RecordedRow {
            layer_index: LayerIndex(self.indices[place]),
            decoding: self.decodings[place],
            matching: self.matches[place],
            tref_sent: self.trefs[place] == 1,
            packet: self.numbers[place] as usize,
        }
    }

    /// The first rows.
    fn rows(&self, count: usize) -> Vec<RecordedRow> {
        (0..count).map(|place| self.row(place)).collect()
    }
}

/// The rows of a recording, by the layers of a loop in the 2015 reading: every unit that starts on a layer's PID, in order of arrival. Refusals: 1 to 9 of the loop; then 30 to
/// 33, and 20 to 24, at a packet.
pub fn packets_rows(bytes: &[u8], packets: &[u8]) -> Result<Vec<RecordedRow>, RecordingRefusal> {
    // No packet starts two units. What is not written of it, the system need not find memory for.
    let room = packets.len() / THQ_PACKET_BYTES;
    let mut starts = vec![0; room];
    let mut columns = Columns::of(room);
    // SAFETY: pointer and length of each buffer belong together; all but the first two are this call's own.
    let answer = unsafe {
        raw::thq_packets_rows(
            bytes.as_ptr(),
            bytes.len(),
            packets.as_ptr(),
            packets.len(),
            starts.as_mut_ptr(),
            starts.len(),
            columns.indices.as_mut_ptr(),
            columns.indices.len(),
            columns.decodings.as_mut_ptr(),
            columns.decodings.len(),
            columns.matches.as_mut_ptr(),
            columns.matches.len(),
            columns.trefs.as_mut_ptr(),
            columns.trefs.len(),
            columns.numbers.as_mut_ptr(),
            columns.numbers.len(),
        )
    };
    Ok(columns.rows(recorded(answer)?))
}

/// The whole import of a recording of up to 512 rows: its rows joined over the layers of a loop, in the 2015 reading. Refusals: 1 to 9, 11, 12; then 30 to 33, and 20 to 24, at a
/// packet; then 13 for more rows; then 14 to 16, 18.
pub fn packets_import(
    bytes: &[u8],
    target: LayerIndex,
    packets: &[u8],
) -> Result<Units, RecordingRefusal> {
    let mut lists = Lists::of(ROWS);
    // SAFETY: pointer and length of each buffer belong together; the lists are this call's own.
    let answer = unsafe {
        raw::thq_packets_import(
            bytes.as_ptr(),
            bytes.len(),
            u64::from(target.0),
            packets.as_ptr(),
            packets.len(),
            lists.numbers.as_mut_ptr(),
            lists.numbers.len(),
            lists.lags.as_mut_ptr(),
            lists.lags.len(),
            lists.sizes.as_mut_ptr(),
            lists.sizes.len(),
            lists.summary.as_mut_ptr(),
            lists.summary.len(),
        )
    };
    Ok(lists.units(recorded(answer)?))
}

/// The whole import of a recording of any length: its rows, and the units that they are joined to; columns and work space are on the heap. Refusals: as [`packets_import`], but for 13. The row
/// that 14 to 16 name is the one of that number among [`packets_rows`].
pub fn packets_import_long(
    bytes: &[u8],
    target: LayerIndex,
    packets: &[u8],
) -> Result<(Vec<RecordedRow>, Units), RecordingRefusal> {
    let room = packets.len() / THQ_PACKET_BYTES;
    let mut columns = Columns::of(room);
    // What is counted are the rows of the target's layers.
    columns.unwritten();
    let mut work = WorkSpace::of(room);
    let mut lists = Lists::of(room);
    // SAFETY: pointer and length of each buffer belong together; all but the first two are this call's own.
    let answer = unsafe {
        raw::thq_packets_import_long(
            bytes.as_ptr(),
            bytes.len(),
            u64::from(target.0),
            packets.as_ptr(),
            packets.len(),
            columns.indices.as_mut_ptr(),
            columns.indices.len(),
            columns.decodings.as_mut_ptr(),
            columns.decodings.len(),
            columns.matches.as_mut_ptr(),
            columns.matches.len(),
            columns.trefs.as_mut_ptr(),
            columns.trefs.len(),
            columns.numbers.as_mut_ptr(),
            columns.numbers.len(),
            work.order.as_mut_ptr(),
            work.order.len(),
            work.keys.as_mut_ptr(),
            work.keys.len(),
            work.kept.as_mut_ptr(),
            work.kept.len(),
            work.places.as_mut_ptr(),
            work.places.len(),
            work.heads.as_mut_ptr(),
            work.heads.len(),
            work.claimed.as_mut_ptr(),
            work.claimed.len(),
            work.used.as_mut_ptr(),
            work.used.len(),
            lists.numbers.as_mut_ptr(),
            lists.numbers.len(),
            lists.lags.as_mut_ptr(),
            lists.lags.len(),
            lists.sizes.as_mut_ptr(),
            lists.sizes.len(),
            lists.summary.as_mut_ptr(),
            lists.summary.len(),
        )
    };
    let joined = recorded(answer)?;
    Ok((columns.rows(columns.written()), lists.units(joined)))
}
