//! Recordings made by hand, over document 01's loop A: PIDs 256, 257 and 258 are those of layers 0, 1 and 2.

use thoquenry::*;

pub const LOOP_A: &[u8] = include_bytes!("../../../../samples/loop-a.bin");

/// A PES header with PTS 9000 and DTS 9001.
const PTS_BEFORE_DTS: [u8; 19] = [
    0x00, 0x00, 0x01, 0xE0, 0x00, 0x00, 0x84, 0xC0, 0x0A, 0x31, 0x00, 0x01, 0x46, 0x51, 0x11, 0x00,
    0x01, 0x46, 0x53,
];

/// A packet with payload: its PID, whether a unit starts in it, its counter, and the first bytes of the payload; the rest is 0xFF.
pub fn packet(pid: u16, starts: bool, counter: u8, payload: &[u8]) -> Vec<u8> {
    let mut bytes = vec![0xFF; 188];
    let [high, low] = pid.to_be_bytes();
    bytes[..4].copy_from_slice(&[0x47, u8::from(starts) << 6 | high, low, 0x10 | counter]);
    bytes[4..][..payload.len()].copy_from_slice(payload);
    bytes
}

/// A packet in which a unit starts, with these times and, where one is sent, a TREF.
pub fn unit(pid: u16, counter: u8, decoding: u64, tref: Option<u64>) -> Vec<u8> {
    let times = Times {
        pts: decoding,
        decoding,
        matching: tref.unwrap_or(decoding),
    };
    let header = write_times(times, tref.is_some()).unwrap();
    packet(pid, true, counter, &header)
}

/// A packet of no layer.
pub fn other() -> Vec<u8> {
    packet(8191, false, 0, &[])
}

/// Document 01's table of rows and one of layer 2 as packets, with others between them: eight in all.
pub fn packets() -> Vec<Vec<u8>> {
    vec![
        other(),
        unit(256, 5, 9000, None),
        unit(257, 15, 9000, Some(9000)),
        // a copy, counted once
        unit(257, 15, 9000, Some(9000)),
        packet(256, false, 6, b"more of the picture"),
        unit(256, 7, 12600, None),
        unit(258, 3, 9000, None),
        unit(257, 0, 12000, Some(12600)),
    ]
}

/// The rows of [`packets`].
pub fn rows() -> Vec<RecordedRow> {
    [
        (0, 9000, 9000, false, 1),
        (1, 9000, 9000, true, 2),
        (0, 12600, 12600, false, 5),
        (2, 9000, 9000, false, 6),
        (1, 12000, 12600, true, 7),
    ]
    .map(
        |(index, decoding, matching, tref_sent, packet)| RecordedRow {
            layer_index: LayerIndex(index),
            decoding,
            matching,
            tref_sent,
            packet,
        },
    )
    .into()
}

/// The units of [`packets`] for target 1, and for target 2.
pub fn units() -> [Units; 2] {
    let unit = |parts: &[(usize, i64)]| -> Vec<Component> {
        let component = |&(row, lag)| Component { row, lag };
        parts.iter().map(component).collect()
    };
    [
        Units {
            closure: LayerIndices(0b011),
            units: vec![unit(&[(0, 0), (1, 0)]), unit(&[(2, 600), (4, 0)])],
        },
        Units {
            closure: LayerIndices(0b101),
            units: vec![unit(&[(0, 0), (3, 0)]), unit(&[(2, 0)])],
        },
    ]
}

/// A recording of so many pictures: each a unit of the base, and every second one also of layer 1.
pub fn long(pictures: u64) -> Vec<u8> {
    let base = (0..pictures).map(|k| unit(256, (k % 16) as u8, 3600 * k, None));
    let detail = |k: u64| {
        let counter = (k / 2 % 16) as u8;
        (k % 2 == 0).then(|| unit(257, counter, 3600 * k, None))
    };
    base.zip(0..)
        .flat_map(|(base, k)| [base, detail(k).unwrap_or_else(other)])
        .flatten()
        .collect()
}

/// What is to be refused, in the order of packets, and how: the number and the packet.
pub fn refused() -> Vec<(Vec<Vec<u8>>, u8, usize)> {
    let start = |counter| unit(256, counter, 9000, None);
    let with = |mut packet: Vec<u8>, place: usize, byte: u8| {
        packet[place] = byte;
        packet
    };
    vec![
        // a last part of a packet; a byte that is not the sync byte, also on a packet of no layer
        (vec![other(), vec![0x47]], 30, 1),
        (vec![start(0), with(other(), 0, 0x46)], 30, 1),
        (vec![with(start(0), 0, 0), other()], 30, 0),
        // the lowest number at its earliest packet
        (vec![start(0), start(2), start(4), vec![0; 5]], 30, 3),
        (vec![start(0), start(2), start(4)], 31, 1),
        (vec![with(start(0), 3, 0xD0), start(2)], 31, 1),
        (vec![start(0), with(start(0), 187, 0)], 31, 1),
        // a PES header, and an adaptation field, that are not within their packet
        (vec![other(), with(start(0), 12, 176)], 32, 1),
        (vec![with(with(start(0), 3, 0x30), 4, 184)], 32, 0),
        (vec![start(0), with(start(1), 3, 0x91)], 33, 1),
        // PES headers: another stream_id, no PTS, fields that don't fit, a marker, PTS before DTS
        (vec![start(0), with(start(1), 7, 0xC0)], 20, 1),
        (vec![start(0), with(start(1), 11, 0)], 21, 1),
        (vec![start(0), with(start(1), 12, 4)], 22, 1),
        (vec![start(0), other(), with(start(1), 17, 0x50)], 23, 2),
        (vec![other(), packet(257, true, 9, &PTS_BEFORE_DTS)], 24, 1),
        (
            vec![with(start(0), 17, 0x50), with(start(1), 7, 0xC0)],
            20,
            1,
        ),
        (
            vec![with(start(0), 7, 0xC0), with(start(1), 3, 0x91)],
            33,
            1,
        ),
    ]
}
