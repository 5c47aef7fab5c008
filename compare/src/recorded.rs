//! A recording from a file, by the library and by plain, whole and in pieces: its rows, or its units.

use plain::{Columns, Reading, Recording, RecordingColumns, RecordingRow, Refusal};
use std::fmt::Write;
use thoquenry_sys as raw;

/// The lengths of the pieces that a recording is handed over in.
const PIECES: [usize; 4] = [65_536, 188 * 7, 1_000, 100_003];

/// The columns, work space and lists of the library, all of one length.
struct Lent {
    starts: Vec<u64>,
    indices: Vec<u8>,
    decodings: Vec<u64>,
    matches: Vec<u64>,
    trefs: Vec<u8>,
    packets: Vec<u64>,
    order: Vec<usize>,
    kept: Vec<usize>,
    places: Vec<usize>,
    heads: Vec<usize>,
    claimed: Vec<bool>,
    used: Vec<bool>,
    numbers: Vec<u64>,
    lags: Vec<i64>,
    sizes: Vec<u64>,
    summary: [u64; 2],
    state: Vec<u8>,
    counts: Vec<u64>,
}

impl Lent {
    fn new(length: usize) -> Lent {
        Lent {
            starts: vec![7; length],
            indices: vec![7; length],
            decodings: vec![7; length],
            matches: vec![7; length],
            trefs: vec![7; length],
            packets: vec![7; length],
            order: vec![7; length],
            kept: vec![7; length],
            places: vec![7; length],
            heads: vec![7; length],
            claimed: vec![true; length],
            used: vec![true; length],
            numbers: vec![7; length],
            lags: vec![7; length],
            sizes: vec![7; length],
            summary: [7; 2],
            state: vec![7; raw::THQ_PACKETS_STATE],
            counts: vec![7; raw::THQ_PACKETS_COUNTS],
        }
    }

    fn rows(&self, count: usize) -> Vec<RecordingRow> {
        let row = |place: usize| RecordingRow {
            index: self.indices[place],
            decoding: self.decodings[place],
            matching: self.matches[place],
            tref_sent: self.trefs[place] == 1,
            packet: self.packets[place],
        };
        (0..count).map(row).collect()
    }

    fn whole_rows(&mut self, bytes: &[u8], packets: &[u8]) -> u64 {
        // SAFETY of all calls: each pointer is of a list with the length beside it, and no two overlap.
        unsafe {
            raw::thq_packets_rows(
                bytes.as_ptr(),
                bytes.len(),
                packets.as_ptr(),
                packets.len(),
                self.starts.as_mut_ptr(),
                self.starts.len(),
                self.indices.as_mut_ptr(),
                self.indices.len(),
                self.decodings.as_mut_ptr(),
                self.decodings.len(),
                self.matches.as_mut_ptr(),
                self.matches.len(),
                self.trefs.as_mut_ptr(),
                self.trefs.len(),
                self.packets.as_mut_ptr(),
                self.packets.len(),
            )
        }
    }

    fn whole_import(&mut self, bytes: &[u8], target: u64, packets: &[u8]) -> u64 {
        unsafe {
            raw::thq_packets_import_long(
                bytes.as_ptr(),
                bytes.len(),
                target,
                packets.as_ptr(),
                packets.len(),
                self.indices.as_mut_ptr(),
                self.indices.len(),
                self.decodings.as_mut_ptr(),
                self.decodings.len(),
                self.matches.as_mut_ptr(),
                self.matches.len(),
                self.trefs.as_mut_ptr(),
                self.trefs.len(),
                self.packets.as_mut_ptr(),
                self.packets.len(),
                self.order.as_mut_ptr(),
                self.order.len(),
                self.starts.as_mut_ptr(),
                self.starts.len(),
                self.kept.as_mut_ptr(),
                self.kept.len(),
                self.places.as_mut_ptr(),
                self.places.len(),
                self.heads.as_mut_ptr(),
                self.heads.len(),
                self.claimed.as_mut_ptr(),
                self.claimed.len(),
                self.used.as_mut_ptr(),
                self.used.len(),
                self.numbers.as_mut_ptr(),
                self.numbers.len(),
                self.lags.as_mut_ptr(),
                self.lags.len(),
                self.sizes.as_mut_ptr(),
                self.sizes.len(),
                self.summary.as_mut_ptr(),
                self.summary.len(),
            )
        }
    }

    /// The loop's refusal, or how the recording is told after its last piece.
    fn in_pieces(&mut self, bytes: &[u8], packets: &[u8], length: usize) -> u64 {
        unsafe {
            let started = raw::thq_packets_start(
                bytes.as_ptr(),
                bytes.len(),
                self.state.as_mut_ptr(),
                self.state.len(),
                self.counts.as_mut_ptr(),
                self.counts.len(),
            );
            if started % 256 != 0 {
                return started;
            }
            for piece in packets.chunks(length) {
                raw::thq_packets_feed(
                    piece.as_ptr(),
                    piece.len(),
                    self.state.as_mut_ptr(),
                    self.state.len(),
                    self.counts.as_mut_ptr(),
                    self.counts.len(),
                    self.indices.as_mut_ptr(),
                    self.indices.len(),
                    self.decodings.as_mut_ptr(),
                    self.decodings.len(),
                    self.matches.as_mut_ptr(),
                    self.matches.len(),
                    self.trefs.as_mut_ptr(),
                    self.trefs.len(),
                    self.packets.as_mut_ptr(),
                    self.packets.len(),
                );
            }
            raw::thq_packets_told(
                self.state.as_ptr(),
                self.state.len(),
                self.counts.as_ptr(),
                self.counts.len(),
            )
        }
    }

    fn units_of_pieces(&mut self, bytes: &[u8], target: u64) -> u64 {
        unsafe {
            raw::thq_packets_units(
                bytes.as_ptr(),
                bytes.len(),
                target,
                self.state.as_ptr(),
                self.state.len(),
                self.counts.as_ptr(),
                self.counts.len(),
                self.indices.as_ptr(),
                self.indices.len(),
                self.decodings.as_ptr(),
                self.decodings.len(),
                self.matches.as_ptr(),
                self.matches.len(),
                self.order.as_mut_ptr(),
                self.order.len(),
                self.starts.as_mut_ptr(),
                self.starts.len(),
                self.kept.as_mut_ptr(),
                self.kept.len(),
                self.places.as_mut_ptr(),
                self.places.len(),
                self.heads.as_mut_ptr(),
                self.heads.len(),
                self.claimed.as_mut_ptr(),
                self.claimed.len(),
                self.used.as_mut_ptr(),
                self.used.len(),
                self.numbers.as_mut_ptr(),
                self.numbers.len(),
                self.lags.as_mut_ptr(),
                self.lags.len(),
                self.sizes.as_mut_ptr(),
                self.sizes.len(),
                self.summary.as_mut_ptr(),
                self.summary.len(),
            )
        }
    }

    /// The units as lines, after an answer.
    fn units(&self, answer: u64) -> Result<String, Refusal> {
        read(answer)?;
        let sizes = &self.sizes[..self.summary[1] as usize];
        Ok(unit_lines(&self.numbers, &self.lags, sizes))
    }
}

/// The count of an answer, or its refusal.
fn read(answer: u64) -> Result<usize, Refusal> {
    let value = (answer / 256) as usize;
    match answer % 256 {
        0 => Ok(value),
        number => Err(Refusal::at(number as u8, value)),
    }
}

/// A line for each unit: its row numbers, then its lags.
fn unit_lines(numbers: &[u64], lags: &[i64], sizes: &[u64]) -> String {
    let mut text = String::new();
    let mut at = 0;
    for &size in sizes {
        let unit = at..at + size as usize;
        at = unit.end;
        let words = numbers[unit.clone()].iter().map(u64::to_string);
        let words: Vec<String> = words.chain(lags[unit].iter().map(i64::to_string)).collect();
        writeln!(text, "{}", words.join(" ")).expect("text");
    }
    text
}

/// A line for each row: its number, its packet, its layer, its decoding time, its match time, and 1 where a TREF was sent.
fn row_lines(rows: &[RecordingRow]) -> String {
    let mut text = String::new();
    for (number, row) in rows.iter().enumerate() {
        writeln!(
            text,
            "{number} {} {} {} {} {}",
            row.packet,
            row.index,
            row.decoding,
            row.matching,
            u8::from(row.tref_sent)
        )
        .expect("text");
    }
    text
}

fn lines_or_refusal(told: Result<String, Refusal>) -> String {
    match told {
        Ok(text) => text,
        Err(Refusal { number, place }) => format!("refused {number} place {place}\n"),
    }
}

/// The rows or, for a target, the units of a recording, after library and plain have agreed on them in every way. An error where they differ.
pub fn run(bytes: &[u8], packets: &[u8], target: Option<u64>) -> Result<String, String> {
    let same = |what: &str, is_so: bool| match is_so {
        true => Ok(()),
        false => Err(format!("compare: DIFFERENT on the recording: {what}")),
    };
    let rows = plain::recording_rows(bytes, packets);
    // A row begins in a packet of its own, so that this is room enough.
    let length = packets.len() / plain::PACKET + 1;
    let mut lent = Lent::new(length);
    let columns = RecordingColumns {
        indices: &mut lent.indices,
        decodings: &mut lent.decodings,
        matches: &mut lent.matches,
        trefs: &mut lent.trefs,
        numbers: &mut lent.packets,
    };
    let scanned = plain::scan_recording(bytes, packets, columns);
    same(
        "plain's scan",
        scanned.map(|count| lent.rows(count)) == rows,
    )?;
    let mut lent = Lent::new(length);
    let answer = lent.whole_rows(bytes, packets);
    same("rows", read(answer).map(|count| lent.rows(count)) == rows)?;
    for piece in PIECES {
        let mut lent = Lent::new(length);
        let answer = lent.in_pieces(bytes, packets, piece);
        let what = format!("rows, in pieces of {piece} bytes");
        same(&what, read(answer).map(|count| lent.rows(count)) == rows)?;
    }
    if let Ok(mut recording) = Recording::new(bytes) {
        packets
            .chunks(65_535)
            .for_each(|piece| recording.feed(piece));
        let told = recording.told().map(<[_]>::to_vec);
        same("plain's pieces", told == rows)?;
    }
    let target = match target {
        None => return Ok(lines_or_refusal(rows.map(|rows| row_lines(&rows)))),
        Some(target) => target,
    };

    let units = plain_units(bytes, target, packets, length);
    let mut lent = Lent::new(length);
    let answer = lent.whole_import(bytes, target, packets);
    same("units", lent.units(answer) == units)?;
    for piece in PIECES {
        let mut lent = Lent::new(length);
        lent.in_pieces(bytes, packets, piece);
        let loop_is_refused = plain::read_loop(Reading::Of2015, bytes).is_err();
        if !loop_is_refused {
            let answer = lent.units_of_pieces(bytes, target);
            let what = format!("units, in pieces of {piece} bytes");
            same(&what, lent.units(answer) == units)?;
        }
    }
    Ok(lines_or_refusal(units))
}

fn plain_units(
    bytes: &[u8],
    target: u64,
    packets: &[u8],
    length: usize,
) -> Result<String, Refusal> {
    let (mut numbers, mut lags, mut sizes) = (vec![7; length], vec![7; length], vec![7; length]);
    let lists = plain::Lists {
        numbers: &mut numbers,
        lags: &mut lags,
        sizes: &mut sizes,
    };
    let (rows, units) = plain::import_packets(bytes, target, packets, length, lists)?;
    let units = units?;
    let lines = unit_lines(&numbers, &lags, &sizes[..units.count]);

    // A table as long as it has to be gives the same.
    let table = Columns {
        indices: rows.iter().map(|row| row.index).collect(),
        decodings: rows.iter().map(|row| row.decoding).collect(),
        matches: rows.iter().map(|row| row.matching).collect(),
    };
    let layers = plain::layers_of_loop(Reading::Of2015, bytes)?;
    let lists = plain::Lists {
        numbers: &mut numbers,
        lags: &mut lags,
        sizes: &mut sizes,
    };
    let again = plain::join_long(rows.len(), &layers, target, table.rows(), lists)?;
    assert_eq!(again, units);
    Ok(lines)
}
