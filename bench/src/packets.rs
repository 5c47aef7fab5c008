//! What is measured of recordings: their rows, from one call and from pieces, and the whole import.

use crate::measures::{answer, hide, repeat, Measure, Side};
use plain::PACKET;
use std::rc::Rc;
use thoquenry_sys as raw;

/// Two layers on the PIDs 256 and 257.
pub const LOOP: &[u8] = include_bytes!("../../samples/recordings/two-rates.bin");

/// A recording of two AVC streams by ffmpeg, with a TREF in each unit of the upper one.
const SAMPLE: &[u8] = include_bytes!("../../samples/recordings/two-rates.ts");

/// The pieces that a recording is handed over in.
pub const PIECE: usize = 65_536;

/// A recording of two layers: in a hundred packets one in which a unit starts, 89 ordinary ones of the layers and ten of another PID; or none but those.
fn recording(packets: usize, of_layers: bool) -> Vec<u8> {
    let mut counters = [0_u8; 2];
    let mut bytes = Vec::with_capacity(packets * PACKET);
    for number in 0..packets {
        let mut packet = [0xFF; PACKET];
        packet[..4].copy_from_slice(&[0x47, 0x1F, 0xFF, 0x10]);
        let layer = number / 100 % 2;
        if of_layers && number % 10 != 9 {
            let counter = counters[layer];
            counters[layer] = (counter + 1) % 16;
            packet[..4].copy_from_slice(&[0x47, 0x01, layer as u8, 0x10 | counter]);
            if number % 100 == 0 {
                packet[1] |= 0x40;
                let time = 3600 * (number / 200 + 1) as u64;
                let times = plain::Times {
                    pts: time + 3600,
                    decoding: time,
                    matching: time,
                };
                plain::write_times(times, layer == 1, &mut packet[4..]).expect("sound times");
            }
        }
        bytes.extend(packet);
    }
    bytes
}

/// Columns, work space and lists of one length, and the state of a recording in pieces.
pub struct Room {
    pub starts: Vec<u64>,
    pub indices: Vec<u8>,
    pub decodings: Vec<u64>,
    pub matches: Vec<u64>,
    pub trefs: Vec<u8>,
    pub packets: Vec<u64>,
    order: Vec<usize>,
    kept: Vec<usize>,
    places: Vec<usize>,
    heads: Vec<usize>,
    claimed: Vec<bool>,
    used: Vec<bool>,
    numbers: Vec<u64>,
    lags: Vec<i64>,
    sizes: Vec<u64>,
    summary: Vec<u64>,
    state: Vec<u8>,
    counts: Vec<u64>,
}

impl Room {
    pub fn new(rows: usize) -> Room {
        Room {
            starts: vec![0; rows],
            indices: vec![0; rows],
            decodings: vec![0; rows],
            matches: vec![0; rows],
            trefs: vec![0; rows],
            packets: vec![0; rows],
            order: vec![0; rows],
            kept: vec![0; rows],
            places: vec![0; rows],
            heads: vec![0; rows],
            claimed: vec![false; rows],
            used: vec![false; rows],
            numbers: vec![0; rows],
            lags: vec![0; rows],
            sizes: vec![0; rows],
            summary: vec![0; 2],
            state: vec![0; raw::THQ_PACKETS_STATE],
            counts: vec![0; raw::THQ_PACKETS_COUNTS],
        }
    }

    /// The rows, by one call of the library.
    pub fn library(&mut self, bytes: &[u8]) -> u64 {
        let (given, bytes) = (hide(LOOP), hide(bytes));
        // SAFETY: the slices' own pointers and lengths, here and below.
        unsafe {
            raw::thq_packets_rows(
                given.as_ptr(),
                given.len(),
                bytes.as_ptr(),
                bytes.len(),
                self.starts.as_mut_ptr(),
                self.starts.len(),
                self.indices.as_mut_ptr(),
                self.indices.len(),
                self.decodings.as_mut_ptr(),
                self.decodings.len(),
                self.matches.as_mut_ptr(),
                self.matches.len(),
                self.trefs.as_mut_ptr(),
                self.trefs.len(),
                self.packets.as_mut_ptr(),
                self.packets.len(),
            )
        }
    }

    /// The rows, by pieces of the library.
    pub fn pieces(&mut self, bytes: &[u8], length: usize) -> u64 {
        let (given, bytes) = (hide(LOOP), hide(bytes));
        // SAFETY: as above.
        unsafe {
            raw::thq_packets_start(
                given.as_ptr(),
                given.len(),
                self.state.as_mut_ptr(),
                self.state.len(),
                self.counts.as_mut_ptr(),
                self.counts.len(),
            );
            for piece in bytes.chunks(length) {
                raw::thq_packets_feed(
                    piece.as_ptr(),
                    piece.len(),
                    self.state.as_mut_ptr(),
                    self.state.len(),
                    self.counts.as_mut_ptr(),
                    self.counts.len(),
                    self.indices.as_mut_ptr(),
                    self.indices.len(),
                    self.decodings.as_mut_ptr(),
                    self.decodings.len(),
                    self.matches.as_mut_ptr(),
                    self.matches.len(),
                    self.trefs.as_mut_ptr(),
                    self.trefs.len(),
                    self.packets.as_mut_ptr(),
                    self.packets.len(),
                );
            }
            raw::thq_packets_told(
                self.state.as_ptr(),
                self.state.len(),
                self.counts.as_ptr(),
                self.counts.len(),
            )
        }
    }

    /// The rows, by plain's scan.
    pub fn plain(&mut self, bytes: &[u8]) -> u64 {
        let columns = plain::RecordingColumns {
            indices: &mut self.indices,
            decodings: &mut self.decodings,
            matches: &mut self.matches,
            trefs: &mut self.trefs,
            numbers: &mut self.packets,
        };
        answer(plain::scan_recording(hide(LOOP), hide(bytes), columns))
    }

    /// The units of target 1, by one call of the library.
    fn import(&mut self, bytes: &[u8]) -> u64 {
        let (given, bytes) = (hide(LOOP), hide(bytes));
        // SAFETY: as above.
        unsafe {
            raw::thq_packets_import_long(
                given.as_ptr(),
                given.len(),
                1,
                bytes.as_ptr(),
                bytes.len(),
                self.indices.as_mut_ptr(),
                self.indices.len(),
                self.decodings.as_mut_ptr(),
                self.decodings.len(),
                self.matches.as_mut_ptr(),
                self.matches.len(),
                self.trefs.as_mut_ptr(),
                self.trefs.len(),
                self.packets.as_mut_ptr(),
                self.packets.len(),
                self.order.as_mut_ptr(),
                self.order.len(),
                self.starts.as_mut_ptr(),
                self.starts.len(),
                self.kept.as_mut_ptr(),
                self.kept.len(),
                self.places.as_mut_ptr(),
                self.places.len(),
                self.heads.as_mut_ptr(),
                self.heads.len(),
                self.claimed.as_mut_ptr(),
                self.claimed.len(),
                self.used.as_mut_ptr(),
                self.used.len(),
                self.numbers.as_mut_ptr(),
                self.numbers.len(),
                self.lags.as_mut_ptr(),
                self.lags.len(),
                self.sizes.as_mut_ptr(),
                self.sizes.len(),
                self.summary.as_mut_ptr(),
                self.summary.len(),
            )
        }
    }

    /// The same with columns and work space of the library's own, for 512 rows.
    fn short_import(&mut self, bytes: &[u8]) -> u64 {
        let (given, bytes) = (hide(LOOP), hide(bytes));
        // SAFETY: as above.
        unsafe {
            raw::thq_packets_import(
                given.as_ptr(),
                given.len(),
                1,
                bytes.as_ptr(),
                bytes.len(),
                self.numbers.as_mut_ptr(),
                self.numbers.len(),
                self.lags.as_mut_ptr(),
                self.lags.len(),
                self.sizes.as_mut_ptr(),
                self.sizes.len(),
                self.summary.as_mut_ptr(),
                self.summary.len(),
            )
        }
    }

    /// The same by plain: its scan, and its joining.
    fn plain_import(&mut self, bytes: &[u8]) -> u64 {
        let layers =
            plain::layers_of_loop(plain::Reading::Of2015, hide(LOOP)).expect("a sound loop");
        let count = (self.plain(bytes) / 256) as usize;
        let rows = plain::Rows {
            indices: &self.indices[..count],
            decodings: &self.decodings[..count],
            matches: &self.matches[..count],
        };
        let lists = plain::Lists {
            numbers: &mut self.numbers,
            lags: &mut self.lags,
            sizes: &mut self.sizes,
        };
        answer(plain::join_long(count, &layers, 1, rows, lists).map(|units| units.rows))
    }
}

/// A side that does so with a recording.
fn side(bytes: &Rc<[u8]>, mut call: impl FnMut(&mut Room, &[u8]) -> u64 + 'static) -> Side {
    let bytes = bytes.clone();
    let mut room = Room::new(bytes.len() / PACKET);
    Box::new(move |calls| repeat(calls, || call(&mut room, &bytes)))
}

/// The measures of recordings.
pub fn measures() -> Vec<Measure> {
    let sample: Rc<[u8]> = SAMPLE.into();
    let layers: Rc<[u8]> = recording(10_000, true).into();
    let others: Rc<[u8]> = recording(10_000, false).into();
    let measure = |name: &str, bytes: &Rc<[u8]>, library: Side, plain: Side| Measure {
        name: name.to_string(),
        bytes: Some(bytes.len()),
        library,
        plain,
        search: None,
    };
    let rows = |bytes| (side(bytes, Room::library), side(bytes, Room::plain));
    let pieces = |bytes, length| {
        let library = side(bytes, move |room, bytes| room.pieces(bytes, length));
        (library, side(bytes, Room::plain))
    };
    let short = |bytes| {
        let library = side(bytes, Room::short_import);
        (library, side(bytes, Room::plain_import))
    };
    let import = |bytes| (side(bytes, Room::import), side(bytes, Room::plain_import));
    [
        (
            "rows of a recording, the sample's 89 packets",
            &sample,
            rows(&sample),
        ),
        (
            "rows of a recording, 10,000 packets, nine in ten of layers",
            &layers,
            rows(&layers),
        ),
        (
            "the same 10,000 packets in pieces of 65,536 bytes",
            &layers,
            pieces(&layers, PIECE),
        ),
        (
            "the same 10,000 packets in pieces of 1,316 bytes",
            &layers,
            pieces(&layers, 1_316),
        ),
        (
            "rows of a recording, 10,000 packets of other PIDs",
            &others,
            rows(&others),
        ),
        (
            "import a recording, the sample's 89 packets",
            &sample,
            short(&sample),
        ),
        (
            "import a recording, 10,000 packets, nine in ten of layers",
            &layers,
            import(&layers),
        ),
    ]
    .into_iter()
    .map(|(name, bytes, (library, plain))| measure(name, bytes, library, plain))
    .collect()
}
