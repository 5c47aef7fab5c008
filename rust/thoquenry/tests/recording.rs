//! Recordings in pieces from Rust: cut anywhere, read from a file and from what gives a few bytes at a time, with the answers of the whole.

mod made;

use made::*;
use std::fs::{self, File};
use std::io::{self, Read};
use thoquenry::*;

/// A recording fed in these pieces.
fn fed<'a>(pieces: impl IntoIterator<Item = &'a [u8]>) -> Recording {
    let mut recording = Recording::new(LOOP_A).unwrap();
    pieces.into_iter().for_each(|piece| recording.feed(piece));
    recording
}

/// Holds a recording to the answers over all its bytes.
fn as_the_whole(recording: &Recording, bytes: &[u8]) {
    let rows = packets_rows(LOOP_A, bytes);
    assert_eq!(
        recording.told(),
        rows.as_ref().map(Vec::len).map_err(|&e| e)
    );
    if let Ok(rows) = rows {
        assert_eq!(recording.rows().collect::<Vec<_>>(), rows);
    }
    for target in [0, 1, 2, 3, 64].map(LayerIndex) {
        let whole = packets_import_long(LOOP_A, target, bytes);
        assert_eq!(recording.units(target), whole.map(|(_, units)| units));
    }
}

#[test]
fn cut_anywhere() {
    let bytes = packets().concat();
    for length in (1..=400).chain([bytes.len() - 1, bytes.len(), bytes.len() + 1]) {
        as_the_whole(&fed(bytes.chunks(length)), &bytes);
    }
    for cut in 0..=bytes.len() {
        let (front, back) = bytes.split_at(cut);
        let recording = fed([front, &[], back, &[]]);
        as_the_whole(&recording, &bytes);
        assert_eq!((recording.packets(), recording.len()), (8, 5));
        assert_eq!(recording.get(4), Some(rows()[4]));
        assert_eq!(recording.get(5), None);
    }
}

#[test]
fn asked_at_any_time() {
    let bytes = packets().concat();
    let mut recording = fed([]);
    assert!(recording.is_empty());
    for end in 0..bytes.len() {
        as_the_whole(&recording, &bytes[..end]);
        recording.feed(&bytes[end..=end]);
    }
    assert_eq!(recording.units(LayerIndex(1)).as_ref(), Ok(&units()[0]));
    assert_eq!(recording.units(LayerIndex(2)).as_ref(), Ok(&units()[1]));
    // one that goes on by itself
    let mut other = recording.clone();
    other.feed(&[0x47]);
    assert_eq!(other.told().unwrap_err().number(), 30);
    assert_eq!(recording.told(), Ok(5));
}

#[test]
fn refusals_in_pieces() {
    for (packets, number, packet) in refused() {
        let bytes = packets.concat();
        for length in [1, 7, 187, 188, 189, 1000] {
            let recording = fed(bytes.chunks(length));
            as_the_whole(&recording, &bytes);
            let refusal = recording.told().unwrap_err();
            assert_eq!((refusal.number(), refusal.packet), (number, Some(packet)));
        }
    }
    let does_not_fit = Refusal::DoesNotFit { entry: 0 };
    assert_eq!(Recording::new(&[0; 4]).unwrap_err(), does_not_fit);
    let too_long = Recording::new(&[0; 1009]).unwrap_err();
    assert_eq!(too_long, Refusal::LoopTooLong);
}

/// Gives a few bytes at a time, and is interrupted between them; at the end it fails, where it is to.
struct Halting<'a> {
    bytes: &'a [u8],
    reads: usize,
    fails: bool,
}

impl Read for Halting<'_> {
    fn read(&mut self, room: &mut [u8]) -> io::Result<usize> {
        self.reads += 1;
        if self.reads % 3 == 0 {
            return Err(io::ErrorKind::Interrupted.into());
        }
        if self.bytes.is_empty() && self.fails {
            return Err(io::ErrorKind::ConnectionReset.into());
        }
        let length = (self.reads % 300).min(self.bytes.len());
        let (given, left) = self.bytes.split_at(length);
        room[..length].copy_from_slice(given);
        self.bytes = left;
        Ok(length)
    }
}

fn halting(bytes: &[u8], fails: bool) -> Halting<'_> {
    Halting {
        bytes,
        reads: 0,
        fails,
    }
}

#[test]
fn rows_as_they_are_read() {
    let bytes = packets().concat();
    let mut recording = fed([]);
    let read: Result<Vec<_>, _> = recording.rows_from(halting(&bytes, false)).collect();
    assert_eq!(read.unwrap(), rows());
    as_the_whole(&recording, &bytes);

    // a second part of it gives its own rows, and then all of them are there
    let mut recording = fed([&bytes[..1000]]);
    let read: Vec<_> = recording
        .rows_from(&bytes[1000..])
        .map(Result::unwrap)
        .collect();
    assert_eq!(read, rows()[2..]);
    as_the_whole(&recording, &bytes);

    let mut recording = fed([]);
    recording.feed_from(halting(&bytes, false)).unwrap();
    as_the_whole(&recording, &bytes);
}

#[test]
fn a_refusal_comes_last() {
    for (packets, number, packet) in refused() {
        let bytes = [made::packets().concat(), packets.concat()].concat();
        let expected = packets_rows(LOOP_A, &bytes).unwrap_err();
        assert!(number != 30 || expected.place() == 8 + packet);
        let mut recording = fed([]);
        let mut read = recording.rows_from(&bytes[..]);
        for row in rows() {
            assert_eq!(read.next().unwrap().unwrap(), row);
        }
        match read.find_map(Result::err).unwrap() {
            RecordingError::Refused(refusal) => assert_eq!(refusal, expected),
            error => panic!("{error}"),
        }
        assert!(read.next().is_none());
    }
}

#[test]
fn what_cannot_be_read() {
    let bytes = packets().concat();
    let mut recording = fed([]);
    let mut read = recording.rows_from(halting(&bytes, true));
    assert_eq!(
        read.by_ref()
            .take(5)
            .map(Result::unwrap)
            .collect::<Vec<_>>(),
        rows()
    );
    let error = read.next().unwrap().unwrap_err();
    assert!(error
        .to_string()
        .starts_with("the recording can't be read: "));
    assert!(
        matches!(error, RecordingError::Unreadable(error) if error.kind() == io::ErrorKind::ConnectionReset)
    );
    assert!(read.next().is_none());
    let mut recording = fed([]);
    assert!(recording.feed_from(halting(&bytes, true)).is_err());
    assert_eq!(recording.len(), 5);
}

#[test]
fn a_long_recording_in_a_file() {
    let bytes = long(5000);
    let path = concat!(env!("CARGO_TARGET_TMPDIR"), "/long.ts");
    fs::write(path, &bytes).unwrap();
    let mut recording = fed([]);
    assert_eq!(recording.rows_from(File::open(path).unwrap()).count(), 7500);
    as_the_whole(&recording, &bytes);
    let mut again = fed([]);
    again.feed_from(File::open(path).unwrap()).unwrap();
    as_the_whole(&again, &bytes);
    fs::remove_file(path).unwrap();
}

/// The sample recordings, which ffmpeg made, by a name: rows, the units of target 1, or the refusal.
fn sample(name: &str) -> (Recording, Vec<Result<RecordedRow, RecordingError>>) {
    let folder = concat!(env!("CARGO_MANIFEST_DIR"), "/../../samples/recordings");
    let bytes = fs::read(format!("{folder}/two-rates.bin")).unwrap();
    let mut recording = Recording::new(&bytes).unwrap();
    let file = File::open(format!("{folder}/{name}.ts")).unwrap();
    let rows = recording.rows_from(file).collect();
    (recording, rows)
}

#[test]
fn the_samples() {
    let listed = [
        (
            "two-rates",
            include_str!("../../../tests/recordings/two-rates.rows"),
        ),
        (
            "no-tref",
            include_str!("../../../tests/recordings/no-tref.rows"),
        ),
    ];
    for (name, rows) in listed {
        let (_, read) = sample(name);
        let lines = read.into_iter().enumerate().map(|(number, row)| {
            let row = row.unwrap();
            let (layer, tref) = (row.layer_index, u8::from(row.tref_sent));
            let (decoding, matching) = (row.decoding, row.matching);
            format!(
                "{number} {} {layer} {decoding} {matching} {tref}\n",
                row.packet
            )
        });
        assert_eq!(lines.collect::<String>(), rows);
    }
    for name in ["two-rates", "copies"] {
        let (recording, _) = sample(name);
        let units = recording.units(LayerIndex(1)).unwrap().units;
        let lines = units.iter().map(|unit| {
            let rows = unit.iter().map(|part| part.row.to_string());
            let lags = unit.iter().map(|part| part.lag.to_string());
            rows.chain(lags).collect::<Vec<_>>().join(" ") + "\n"
        });
        let listed = include_str!("../../../tests/recordings/two-rates.units");
        assert_eq!(lines.collect::<String>(), listed);
    }
    let refusals = [
        ("gap", Refusal::CounterGap { packet: 11 }),
        ("scrambled", Refusal::Scrambled { packet: 11 }),
        ("cut", Refusal::LostSync { packet: 88 }),
    ];
    for (name, expected) in refusals {
        match sample(name).1.pop() {
            Some(Err(RecordingError::Refused(refusal))) => assert_eq!(refusal, expected.into()),
            other => panic!("{other:?}"),
        }
    }
}
