//! Transport packets: each rule by a recording of a few packets, and the three ways to one answer on generated ones.

use plain::{Recording, RecordingColumns, RecordingRow, Refusal, PACKET};

/// Loop A of document 01: layers 0, 1 and 2 on the PIDs 256, 257 and 258.
const LOOP_A: [u8; 37] = [
    0x1B, 0xE1, 0x00, 0xF0, 0x06, 0x04, 0x04, 0xFF, 0xC0, 0xFF, 0xC0, 0x1F, 0xE1, 0x01, 0xF0, 0x06,
    0x04, 0x04, 0xD1, 0xC1, 0x40, 0xC1, 0x28, 0xE1, 0x02, 0xF0, 0x0A, 0x3F, 0x08, 0x06, 0x00, 0x02,
    0x08, 0x03, 0xC1, 0xC2, 0xC0,
];

const CLEAR: u8 = 0x10;

/// A packet of a PID: whether a unit starts, the fourth byte, and what follows, filled up with 0xFF.
fn packet(pid: u16, start: bool, fourth: u8, rest: &[u8]) -> Vec<u8> {
    let [high, low] = pid.to_be_bytes();
    let mut bytes = vec![0x47, high | u8::from(start) << 6, low, fourth];
    bytes.extend(rest);
    bytes.resize(PACKET, 0xFF);
    bytes
}

/// The header of a unit with this time.
fn header(time: u64) -> Vec<u8> {
    let times = plain::Times {
        pts: time,
        decoding: time,
        matching: time,
    };
    let mut out = [0; 40];
    let length = plain::write_times(times, false, &mut out).unwrap();
    out[..length].to_vec()
}

/// A packet of PID 256 with a unit's start.
fn start(counter: u8, time: u64) -> Vec<u8> {
    packet(256, true, CLEAR | counter, &header(time))
}

/// A packet of PID 256 in which nothing starts.
fn ordinary(counter: u8) -> Vec<u8> {
    packet(256, false, CLEAR | counter, &[])
}

fn row(packet: u64, decoding: u64) -> RecordingRow {
    RecordingRow {
        index: 0,
        decoding,
        matching: decoding,
        tref_sent: false,
        packet,
    }
}

/// The rows of a recording, after all three ways have agreed on it.
fn rows(packets: &[u8]) -> Result<Vec<RecordingRow>, Refusal> {
    let rows = plain::recording_rows(&LOOP_A, packets);
    for length in [1, 7, 188, 1000] {
        let mut recording = Recording::new(&LOOP_A).unwrap();
        for piece in packets.chunks(length) {
            recording.feed(piece);
        }
        assert_eq!(recording.told().map(<[_]>::to_vec), rows);
    }
    assert_eq!(scanned(packets, 1000), rows);
    rows
}

/// The rows by the scan, in columns of so many places.
fn scanned(packets: &[u8], room: usize) -> Result<Vec<RecordingRow>, Refusal> {
    let (mut indices, mut trefs) = (vec![9; room], vec![9; room]);
    let (mut decodings, mut matches) = (vec![9; room], vec![9; room]);
    let mut numbers = vec![9; room];
    let columns = RecordingColumns {
        indices: &mut indices,
        decodings: &mut decodings,
        matches: &mut matches,
        trefs: &mut trefs,
        numbers: &mut numbers,
    };
    let count = plain::scan_recording(&LOOP_A, packets, columns)?;
    let row = |place: usize| RecordingRow {
        index: indices[place],
        decoding: decodings[place],
        matching: matches[place],
        tref_sent: trefs[place] == 1,
        packet: numbers[place],
    };
    Ok((0..count).map(row).collect())
}

fn refused(number: u8, place: usize) -> Result<Vec<RecordingRow>, Refusal> {
    Err(Refusal::at(number, place))
}

#[test]
fn starts_become_rows() {
    assert_eq!(rows(&[]), Ok(vec![]));
    let other = packet(300, true, 0xC7, &[9; 20]);
    let recording = [start(15, 9000), ordinary(0), other, start(1, 12600)].concat();
    assert_eq!(rows(&recording), Ok(vec![row(0, 9000), row(3, 12600)]));
    assert_eq!(scanned(&recording, 1), refused(13, 0));
}

#[test]
fn sync_is_judged_everywhere() {
    let mut other = packet(300, false, CLEAR, &[]);
    other[0] = 0x48;
    assert_eq!(rows(&[ordinary(3), other].concat()), refused(30, 1));
    let mut skipped = packet(256, false, 0, &[]);
    skipped[0] = 0;
    assert_eq!(rows(&skipped), refused(30, 0));
    assert_eq!(rows(&[0x47]), refused(30, 0));
    let cut = [ordinary(3), ordinary(5), vec![0x47]].concat();
    assert_eq!(rows(&cut), refused(30, 2));
}

#[test]
fn skipped_packets_say_nothing() {
    let mut errors = start(7, 1);
    errors[1] |= 0x80;
    let nothing = packet(256, true, 7, &header(1));
    let recording = [ordinary(3), errors, nothing, ordinary(4)].concat();
    assert_eq!(rows(&recording), Ok(vec![]));
}

#[test]
fn the_counter_moves_with_payload() {
    let without = |counter: u8, rest: &[u8]| packet(256, false, 0x20 | counter, rest);
    assert_eq!(
        rows(&[ordinary(15), without(15, &[183, 0]), ordinary(0)].concat()),
        Ok(vec![])
    );
    assert_eq!(
        rows(&[ordinary(15), without(0, &[183, 0])].concat()),
        refused(31, 1)
    );
    assert_eq!(
        rows(&[ordinary(15), without(0, &[183, 0x80])].concat()),
        Ok(vec![])
    );
    assert_eq!(
        rows(&[ordinary(15), without(0, &[0, 0x80])].concat()),
        refused(31, 1)
    );
    assert_eq!(
        rows(&[ordinary(15), without(0, &[184, 0x80])].concat()),
        refused(31, 1)
    );
    assert_eq!(rows(&without(0, &[184, 0x80])), refused(32, 0));
    // Packets of a layer alone.
    let other = |counter: u8| packet(300, false, CLEAR | counter, &[]);
    assert_eq!(
        rows(&[other(0), other(7), ordinary(3)].concat()),
        Ok(vec![])
    );
    // After a skipped packet the predecessor is the one before it.
    let mut errors = ordinary(1);
    errors[1] |= 0x80;
    assert_eq!(
        rows(&[ordinary(0), errors, ordinary(2)].concat()),
        refused(31, 2)
    );
}

#[test]
fn copies_are_counted_once() {
    let recording = [
        start(3, 9000),
        start(3, 9000),
        start(3, 9000),
        start(4, 9001),
    ]
    .concat();
    assert_eq!(rows(&recording), Ok(vec![row(0, 9000), row(3, 9001)]));
    assert_eq!(
        rows(&[start(3, 9000), start(3, 9001)].concat()),
        refused(31, 1)
    );
    let clock = |low: u8, last: u8| {
        let mut bytes = packet(256, false, 0x33, &[7, 0x10, 1, 2, 3, 4, 5, low]);
        bytes[187] = last;
        bytes
    };
    assert_eq!(
        rows(&[clock(1, 0), clock(2, 0), clock(3, 0)].concat()),
        Ok(vec![])
    );
    assert_eq!(rows(&[clock(1, 0), clock(1, 1)].concat()), refused(31, 1));
    // Six bytes that are no PCR, for want of length or of the flag.
    let short = |low: u8| packet(256, false, 0x33, &[6, 0x10, 1, 2, 3, 4, 5, low]);
    assert_eq!(rows(&[short(1), short(2)].concat()), refused(31, 1));
    let bare = |low: u8| packet(256, false, 0x33, &[7, 0x00, 1, 2, 3, 4, 5, low]);
    assert_eq!(rows(&[bare(1), bare(2)].concat()), refused(31, 1));
}

#[test]
fn headers_stand_within_their_packet() {
    // 9 bytes and 166 of data end with the packet, after an adaptation field of 9 bytes.
    let long = |data: u8| {
        let mut rest = vec![8, 0, 0xFF, 0xFF, 0xFF, 0xFF, 0xFF, 0xFF, 0xFF];
        rest.extend(header(9000));
        rest[17] = data;
        packet(256, true, 0x30, &rest)
    };
    assert_eq!(rows(&long(166)), Ok(vec![row(0, 9000)]));
    assert_eq!(rows(&long(167)), refused(32, 0));
    // By length alone: it is no header at all.
    let none = |length: u8| packet(256, true, 0x30, &[length, 0]);
    assert_eq!(rows(&none(175)), refused(32, 0));
    assert_eq!(rows(&none(183)), refused(32, 0));
    assert_eq!(rows(&packet(256, true, CLEAR, &[0; 184])), refused(20, 0));
    assert_eq!(rows(&packet(256, true, 0x20, &[183, 0])), Ok(vec![]));
}

#[test]
fn scrambled_payload_is_refused() {
    for bits in [0x40, 0x80, 0xC0] {
        assert_eq!(rows(&packet(256, false, CLEAR | bits, &[])), refused(33, 0));
        assert_eq!(rows(&packet(256, true, CLEAR | bits, &[])), refused(33, 0));
        assert_eq!(rows(&packet(256, false, 0x20 | bits, &[0])), Ok(vec![]));
        assert_eq!(
            rows(&packet(256, true, 0x30 | bits, &[184])),
            refused(32, 0)
        );
    }
}

#[test]
fn the_lowest_number_at_its_earliest_packet() {
    let scrambled = packet(256, false, CLEAR | 0x40, &[]);
    let cut = packet(256, false, 0x21, &[184]);
    let no_header = |counter: u8| packet(256, true, CLEAR | counter, &[0; 184]);
    let recording = [no_header(15), scrambled, cut].concat();
    assert_eq!(rows(&recording[..188]), refused(20, 0));
    assert_eq!(rows(&recording[..376]), refused(33, 1));
    assert_eq!(rows(&recording), refused(31, 2));
    let mut early = packet(256, true, CLEAR, &header(9000));
    early[13] &= 0xFE;
    let recording = [early, no_header(1), no_header(2)].concat();
    assert_eq!(rows(&recording[..188]), refused(23, 0));
    assert_eq!(rows(&recording), refused(20, 1));
}

#[test]
fn the_whole_import() {
    let upper = |counter: u8, decoding: u64, matching: u64| {
        let times = plain::Times {
            pts: decoding,
            decoding,
            matching,
        };
        let mut out = [0; 40];
        let length = plain::write_times(times, true, &mut out).unwrap();
        packet(257, true, CLEAR | counter, &out[..length])
    };
    // Document 01's rows: units 0 1 and 2 3, lags 0 0 and 600 0.
    let recording = [
        start(0, 9000),
        upper(5, 9000, 9000),
        start(1, 12600),
        upper(6, 12000, 12600),
    ]
    .concat();
    let import = |target: u64, most: usize, places: usize| {
        let (mut numbers, mut lags, mut sizes) = ([9; 4], [9; 4], [9; 4]);
        let lists = plain::Lists {
            numbers: &mut numbers[..places],
            lags: &mut lags,
            sizes: &mut sizes,
        };
        plain::import_packets(&LOOP_A, target, &recording, most, lists)
            .and_then(|(rows, units)| Ok((rows.len(), units?, numbers, lags, sizes)))
    };
    let units = plain::Units {
        closure: 3,
        count: 2,
        rows: 4,
    };
    let answer = (4, units, [0, 1, 2, 3], [0, 0, 600, 0], [2, 2, 9, 9]);
    assert_eq!(import(1, 512, 4), Ok(answer));
    assert_eq!(import(7, 3, 4), Err(Refusal::of(11)));
    assert_eq!(import(1, 3, 4), Err(Refusal::of(13)));
    assert_eq!(import(1, 4, 3), Err(Refusal::of(17)));
}
