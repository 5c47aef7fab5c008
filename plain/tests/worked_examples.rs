//! Document 01's worked examples.

mod joining;

use joining::join;
use plain::Reading::{Of2009, Of2015};
use plain::{Header, Layers, Reading, Refusal, Times, Units};

const LOOP_A: [u8; 37] = [
    0x1B, 0xE1, 0x00, 0xF0, 0x06, 0x04, 0x04, 0xFF, 0xC0, 0xFF, 0xC0, // the base
    0x1F, 0xE1, 0x01, 0xF0, 0x06, 0x04, 0x04, 0xD1, 0xC1, 0x40, 0xC1, // a spatial layer
    0x28, 0xE1, 0x02, 0xF0, 0x0A, 0x3F, 0x08, 0x06, 0x00, 0x02, 0x08, 0x03, 0xC1, 0xC2,
    0xC0, // an HEVC layer
];

const READINGS: [Reading; 2] = [Of2009, Of2015];

#[test]
fn closures_of_loop_a() {
    for reading in READINGS {
        assert_eq!(plain::closure_of_loop(reading, &LOOP_A, 1), Ok(0b011));
    }
    assert_eq!(plain::closure_of_loop(Of2015, &LOOP_A, 2), Ok(0b101));
    let absent = Err(Refusal::of(11));
    assert_eq!(plain::closure_of_loop(Of2009, &LOOP_A, 2), absent);
    for target in [3, 63, 64, 256, u64::MAX] {
        assert_eq!(plain::closure_of_loop(Of2015, &LOOP_A, target), absent);
    }
}

#[test]
fn loop_a_is_written_as_it_was_read() {
    let entries = plain::read_loop(Of2015, &LOOP_A).unwrap();
    assert_eq!(entries.len(), 3);
    let mut out = [0xAA; 40];
    assert_eq!(plain::write_loop(&entries, &mut out), Ok(37));
    assert_eq!(out[..37], LOOP_A);
    assert_eq!(out[37..], [0xAA; 3]);
    let mut short = [0xAA; 36];
    assert_eq!(
        plain::write_loop(&entries, &mut short),
        Err(Refusal::of(17))
    );
    assert_eq!(short, [0xAA; 36]);
}

#[test]
fn short_and_long_loops() {
    for reading in READINGS {
        assert_eq!(plain::read_loop(reading, &[]), Ok(vec![]));
        let absent = Err(Refusal::of(11));
        assert_eq!(plain::closure_of_loop(reading, &[], 0), absent);
        let too_short = Err(Refusal::at(2, 0));
        assert_eq!(plain::read_loop(reading, &LOOP_A[..4]), too_short);
        let too_long = Err(Refusal::of(1));
        assert_eq!(plain::read_loop(reading, &[0; 1009]), too_long);
    }
}

fn loop_a() -> Layers {
    plain::layers_of_loop(Of2015, &LOOP_A).unwrap()
}

/// The document's table with another match time in its last row.
fn table(last: u64) -> [(u8, u64, u64); 4] {
    [
        (0, 9000, 9000),
        (1, 9000, 9000),
        (0, 12600, 12600),
        (1, 12000, last),
    ]
}

#[test]
fn units_over_loop_a() {
    let units = Units {
        closure: 0b11,
        count: 2,
        rows: 4,
    };
    let answer = Ok((units, vec![0, 1, 2, 3], vec![0, 0, 600, 0], vec![2, 2]));
    assert_eq!(join(&loop_a(), 1, &table(12600)), answer);
    assert_eq!(join(&loop_a(), 1, &table(12601)), Err(Refusal::at(15, 3)));
    assert_eq!(join(&loop_a(), 1, &table(9000)), Err(Refusal::at(16, 3)));
    // Of layer 2 there is no row: the rows of layer 0 head units of their own.
    let lower = Units {
        closure: 0b101,
        count: 2,
        rows: 2,
    };
    assert_eq!(
        join(&loop_a(), 2, &table(12600)),
        Ok((lower, vec![0, 2], vec![0, 0], vec![1, 1]))
    );
}

#[test]
fn order_within_one_layer() {
    let one = Layers {
        present: 1,
        ..Layers::default()
    };
    let two = |first, second| {
        join(&one, 0, &[(0, first, 0), (0, second, 0)]).map(|(units, ..)| units.count)
    };
    assert_eq!(two(8_589_934_000, 400), Ok(2));
    assert_eq!(plain::distance(8_589_934_000, 400), 992);
    assert_eq!(two(7, 7), Err(Refusal::at(14, 1)));
    assert_eq!(two(0, 4_294_967_295), Ok(2));
    assert_eq!(two(0, 4_294_967_296), Err(Refusal::at(14, 1)));
    assert_eq!(plain::lag(4_294_967_296, 0), -4_294_967_296);
    assert_eq!(plain::lag(4_294_967_295, 0), 4_294_967_295);
    // A table that would show the lowest lag: 18.
    let far = [(0, 4_294_967_296, 0), (1, 0, 4_294_967_296)];
    assert_eq!(join(&loop_a(), 1, &far), Err(Refusal::of(18)));
}

#[test]
fn headers() {
    let alone = [
        0x00, 0x00, 0x01, 0xE0, 0x00, 0x00, 0x84, 0x80, 0x05, 0x21, 0x00, 0x01, 0x46, 0x51,
    ];
    let with_tref = [
        0x00, 0x00, 0x01, 0xE0, 0x00, 0x00, 0x84, 0x81, 0x0D, 0x21, 0x00, 0x01, 0x5D, 0xC1, 0x0F,
        0x86, 0xFE, 0xF1, 0x00, 0x01, 0x62, 0x71,
    ];
    let equal_tref = [
        0x00, 0x00, 0x01, 0xE0, 0x00, 0x00, 0x84, 0x81, 0x0D, 0x21, 0x00, 0x01, 0x46, 0x51, 0x0F,
        0x86, 0xFE, 0xF1, 0x00, 0x01, 0x46, 0x51,
    ];
    for (header, pts, decoding, matching, tref_sent) in [
        (&alone[..], 9000, 9000, 9000, false),
        (&equal_tref, 9000, 9000, 9000, true),
        (&with_tref, 12000, 12000, 12600, true),
    ] {
        let times = Times {
            pts,
            decoding,
            matching,
        };
        let end = header.len();
        let said = Header {
            times,
            tref_sent,
            end,
        };
        assert_eq!(plain::read_times(header), Ok(said));
        let mut out = [0xAA; 30];
        assert_eq!(plain::write_times(times, tref_sent, &mut out), Ok(end));
        assert_eq!(&out[..header.len()], header);
        assert!(out[header.len()..].iter().all(|&byte| byte == 0xAA));
        let mut short = vec![0xAA; header.len() - 1];
        let answer = plain::write_times(times, tref_sent, &mut short);
        assert_eq!(answer, Err(Refusal::of(17)));
        assert!(short.iter().all(|&byte| byte == 0xAA));
    }
}
