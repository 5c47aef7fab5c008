//! A recording of transport packets in pieces, of any lengths and cut anywhere, from whatever can be read.

use crate::layers::LayerIndex;
use crate::packets::{recorded, Columns, RecordedRow, RecordingRefusal};
use crate::{accepted, Lists, Refusal, Units, WorkSpace};
use std::error::Error;
use std::fmt;
use std::io::{self, Read};
use thoquenry_sys as raw;
use thoquenry_sys::{THQ_PACKETS_COUNTS, THQ_PACKETS_STATE, THQ_PACKET_BYTES};

/// The bytes that are read at a time: whole packets, so that few are cut.
const PIECE_BYTES: usize = 1024 * THQ_PACKET_BYTES;

/// Where the number of whole packets stands among the counts, and that of rows.
const PACKETS_AT: usize = 65;
const ROWS_AT: usize = 70;

/// A recording that is fed piece after piece, in the 2015 reading of its loop. However it is cut, the answers are those of [`packets_rows`](crate::packets_rows) and
/// [`packets_import_long`](crate::packets_import_long) over all its bytes. Beside its rows, 26 bytes each and room for as many again, it takes the same memory whatever its length.
///
/// ```no_run
/// use std::fs::File;
/// use thoquenry::{LayerIndex, Recording};
///
/// let bytes = std::fs::read("samples/loop-a.bin")?;
/// let mut recording = Recording::new(&bytes)?;
/// for row in recording.rows_from(File::open("recording.ts")?) {
///     let row = row?;
///     println!("layer {} packet {}", row.layer_index, row.packet);
/// }
/// let units = recording.units(LayerIndex(1))?.units;
/// # Ok::<(), Box<dyn std::error::Error>>(())
/// ```
#[derive(Clone)]
pub struct Recording {
    bytes: Vec<u8>,
    // Both are written by the library alone, so that they always hold a recording.
    state: Box<[u8]>,
    counts: Box<[u64]>,
    columns: Columns,
}

impl Recording {
    /// A recording of no bytes yet, by the layers of a loop. Refusals: 1 to 9.
    pub fn new(bytes: &[u8]) -> Result<Recording, Refusal> {
        let mut state = vec![0; THQ_PACKETS_STATE].into_boxed_slice();
        let mut counts = vec![0; THQ_PACKETS_COUNTS].into_boxed_slice();
        // SAFETY: pointer and length of each buffer belong together; the state is this call's own.
        let answer = unsafe {
            raw::thq_packets_start(
                bytes.as_ptr(),
                bytes.len(),
                state.as_mut_ptr(),
                state.len(),
                counts.as_mut_ptr(),
                counts.len(),
            )
        };
        accepted(answer)?;
        Ok(Recording {
            bytes: bytes.into(),
            state,
            counts,
            columns: Columns::default(),
        })
    }

    /// One piece more, of any length. What is refused in it, [`told`](Recording::told) tells.
    pub fn feed(&mut self, piece: &[u8]) {
        // As many rows more as there are packets in the piece, and one that began before it.
        let most = self.len() + piece.len() / THQ_PACKET_BYTES + 1;
        self.columns.make_room(most);
        let columns = &mut self.columns;
        // SAFETY: pointer and length of each buffer belong together; state and columns are lent to this call alone.
        let answer = unsafe {
            raw::thq_packets_feed(
                piece.as_ptr(),
                piece.len(),
                self.state.as_mut_ptr(),
                self.state.len(),
                self.counts.as_mut_ptr(),
                self.counts.len(),
                columns.indices.as_mut_ptr(),
                columns.indices.len(),
                columns.decodings.as_mut_ptr(),
                columns.decodings.len(),
                columns.matches.as_mut_ptr(),
                columns.matches.len(),
                columns.trefs.as_mut_ptr(),
                columns.trefs.len(),
                columns.numbers.as_mut_ptr(),
                columns.numbers.len(),
            )
        };
        // No other refusal is given than that of buffers that hold no recording, or of a piece that no memory holds.
        assert_eq!(answer % 256, 0, "a recording takes every piece");
    }

    /// All that there is to be read, up to its end.
    pub fn feed_from(&mut self, mut from: impl Read) -> io::Result<()> {
        let mut piece = vec![0; PIECE_BYTES];
        while self.feed_once(&mut from, &mut piece)? {}
        Ok(())
    }

    /// Feeds what one read gives, and tells whether it gave something.
    fn feed_once(&mut self, from: &mut impl Read, piece: &mut [u8]) -> io::Result<bool> {
        loop {
            match from.read(piece) {
                Ok(length) => {
                    self.feed(&piece[..length]);
                    return Ok(length != 0);
                }
                Err(error) if error.kind() == io::ErrorKind::Interrupted => {}
                Err(error) => return Err(error),
            }
        }
    }

    /// Feeds all that there is to be read, and gives its rows as they come. At the end, where the recording is refused, the last thing that it gives is the refusal: the rows before are
    /// then those of a recording that is not right. Whoever stops before the end leaves the rest unread.
    pub fn rows_from<R: Read>(&mut self, from: R) -> RowsFrom<'_, R> {
        RowsFrom {
            next: self.len(),
            recording: self,
            from,
            piece: vec![0; PIECE_BYTES],
            ended: false,
        }
    }

    /// The number of whole packets so far.
    pub fn packets(&self) -> u64 {
        self.counts[PACKETS_AT]
    }

    /// The number of rows so far.
    pub fn len(&self) -> usize {
        self.counts[ROWS_AT] as usize
    }

    /// Whether there are none.
    pub fn is_empty(&self) -> bool {
        self.len() == 0
    }

    /// A row, by its number.
    pub fn get(&self, row: usize) -> Option<RecordedRow> {
        (row < self.len()).then(|| self.columns.row(row))
    }

    /// The rows so far, in order of arrival, whatever is refused.
    pub fn rows(&self) -> impl Iterator<Item = RecordedRow> + '_ {
        (0..self.len()).map(move |row| self.columns.row(row))
    }

    /// What is told of the recording if it ends here: the number of its rows. Refusals: 30 to 33, 30 also where the last packet is not whole, and 20 to 24, at a packet.
    pub fn told(&self) -> Result<usize, RecordingRefusal> {
        // SAFETY: pointer and length of each buffer belong together, and nothing is written.
        let answer = unsafe {
            raw::thq_packets_told(
                self.state.as_ptr(),
                self.state.len(),
                self.counts.as_ptr(),
                self.counts.len(),
            )
        };
        recorded(answer)
    }

    /// The rows joined to units, if the recording ends here. It can be asked at any time, of several targets. Refusals: 11, 12; then those of [`told`](Recording::told); then 14 to 16, 18.
    pub fn units(&self, target: LayerIndex) -> Result<Units, RecordingRefusal> {
        let mut work = WorkSpace::of(self.len());
        let mut lists = Lists::of(self.len());
        let columns = &self.columns;
        // SAFETY: pointer and length of each buffer belong together; work space and lists are this call's own.
        let answer = unsafe {
            raw::thq_packets_units(
                self.bytes.as_ptr(),
                self.bytes.len(),
                u64::from(target.0),
                self.state.as_ptr(),
                self.state.len(),
                self.counts.as_ptr(),
                self.counts.len(),
                columns.indices.as_ptr(),
                columns.indices.len(),
                columns.decodings.as_ptr(),
                columns.decodings.len(),
                columns.matches.as_ptr(),
                columns.matches.len(),
                work.order.as_mut_ptr(),
                work.order.len(),
                work.keys.as_mut_ptr(),
                work.keys.len(),
                work.kept.as_mut_ptr(),
                work.kept.len(),
                work.places.as_mut_ptr(),
                work.places.len(),
                work.heads.as_mut_ptr(),
                work.heads.len(),
                work.claimed.as_mut_ptr(),
                work.claimed.len(),
                work.used.as_mut_ptr(),
                work.used.len(),
                lists.numbers.as_mut_ptr(),
                lists.numbers.len(),
                lists.lags.as_mut_ptr(),
                lists.lags.len(),
                lists.sizes.as_mut_ptr(),
                lists.sizes.len(),
                lists.summary.as_mut_ptr(),
                lists.summary.len(),
            )
        };
        Ok(lists.units(recorded(answer)?))
    }
}

impl fmt::Debug for Recording {
    fn fmt(&self, to: &mut fmt::Formatter) -> fmt::Result {
        to.debug_struct("Recording")
            .field("packets", &self.packets())
            .field("rows", &self.len())
            .finish_non_exhaustive()
    }
}

/// Why a recording that is read is not told: it can't be read, or it is refused.
#[derive(Debug)]
#[non_exhaustive]
pub enum RecordingError {
    /// What reading it gave.
    Unreadable(io::Error),
    /// The refusal of what was read to its end.
    Refused(RecordingRefusal),
}

impl fmt::Display for RecordingError {
    fn fmt(&self, to: &mut fmt::Formatter) -> fmt::Result {
        match self {
            RecordingError::Unreadable(error) => write!(to, "the recording can't be read: {error}"),
            RecordingError::Refused(refusal) => refusal.fmt(to),
        }
    }
}

impl Error for RecordingError {
    fn source(&self) -> Option<&(dyn Error + 'static)> {
        match self {
            RecordingError::Unreadable(error) => Some(error),
            RecordingError::Refused(refusal) => Some(refusal),
        }
    }
}

impl From<io::Error> for RecordingError {
    fn from(error: io::Error) -> RecordingError {
        RecordingError::Unreadable(error)
    }
}

impl From<RecordingRefusal> for RecordingError {
    fn from(refusal: RecordingRefusal) -> RecordingError {
        RecordingError::Refused(refusal)
    }
}

/// The rows of a recording as it is read: [`Recording::rows_from`].
pub struct RowsFrom<'a, R> {
    recording: &'a mut Recording,
    from: R,
    piece: Vec<u8>,
    /// The number of the row that comes next.
    next: usize,
    ended: bool,
}

impl<R: Read> RowsFrom<'_, R> {
    /// What comes after the last row: nothing, or why that is not all.
    fn end(
        &mut self,
        outcome: Result<(), RecordingError>,
    ) -> Option<Result<RecordedRow, RecordingError>> {
        self.ended = true;
        outcome.err().map(Err)
    }
}

impl<R: Read> Iterator for RowsFrom<'_, R> {
    type Item = Result<RecordedRow, RecordingError>;

    fn next(&mut self) -> Option<Self::Item> {
        loop {
            if self.ended {
                return None;
            }
            if let Some(row) = self.recording.get(self.next) {
                self.next += 1;
                return Some(Ok(row));
            }
            match self.recording.feed_once(&mut self.from, &mut self.piece) {
                Ok(true) => {}
                Ok(false) => {
                    let told = self.recording.told().map(drop);
                    return self.end(told.map_err(RecordingError::from));
                }
                Err(error) => return self.end(Err(error.into())),
            }
        }
    }
}

impl<R: Read> std::iter::FusedIterator for RowsFrom<'_, R> {}
