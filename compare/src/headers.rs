//! PES headers and times.

use crate::loops::Quality;
use crate::random::Random;

/// A time: anywhere, or near one of the ends of the clock and its half.
pub fn time(random: &mut Random) -> u64 {
    let near = random.below(5) as u64;
    match random.below(8) {
        0 => near,
        1 => (1 << 32) - 2 + near,
        2 => (1 << 33) - 1 - near,
        3 => random.next() & 0xFFFF,
        _ => random.next() & ((1 << 33) - 1),
    }
}

/// A time, now and then one that is too wide.
pub fn wide_time(random: &mut Random) -> u64 {
    match random.below(25) {
        0 => (1 << 33) + random.below(3) as u64,
        1 => random.next(),
        _ => time(random),
    }
}

/// Three times to be written, and whether a TREF is asked for.
pub fn times(random: &mut Random) -> ([u64; 3], u64, Quality) {
    let quality = Quality::pick(random);
    let pts = time(random);
    let decoding = if random.once_in(2) {
        pts
    } else {
        back(pts, random.next() & 0xFFFF_FFFF)
    };
    let matching = if random.once_in(2) {
        decoding
    } else {
        time(random)
    };
    let mut times = [pts, decoding, matching];
    // Without a TREF the match time is the decoding time.
    let mut with_tref = if matching == decoding {
        random.below(2) as u64
    } else {
        1
    };
    match quality {
        Quality::Sound => {}
        Quality::NearMiss if random.once_in(3) => {
            with_tref = random.pick(&[0, 0, 2, 255, 256, u64::MAX]);
        }
        Quality::NearMiss => {
            let place = random.below(3);
            let step = random.pick(&[1, u64::MAX, 1 << 32, 1 << 33, (1 << 32) - 1]);
            times[place] = times[place].wrapping_add(step);
            if random.once_in(2) {
                times[place] %= 1 << 33;
            }
        }
        Quality::Damaged => {
            for time in &mut times {
                *time = wide_time(random);
            }
            with_tref = random.below(3) as u64;
        }
    }
    (times, with_tref, quality)
}

/// A time so far before another.
fn back(time: u64, distance: u64) -> u64 {
    time.wrapping_sub(distance) % (1 << 33)
}

/// Five bytes of a time.
pub fn field(prefix: u8, time: u64) -> [u8; 5] {
    let bits = u64::from(prefix) << 36
        | (time >> 30 & 7) << 33
        | (time >> 15 & 0x7FFF) << 17
        | (time & 0x7FFF) << 1
        | 0x1_0001_0001;
    let [_, _, _, field @ ..] = bits.to_be_bytes();
    field
}

/// A header before it is laid out: the flags and fields, and the places of bytes whose bits are judged.
struct Header {
    bytes: Vec<u8>,
    judged: Vec<usize>,
    lengths: Vec<usize>,
}

/// The bytes of a header, and how they were made.
pub fn bytes(random: &mut Random) -> (Vec<u8>, Quality) {
    let quality = Quality::pick(random);
    if quality == Quality::Damaged && random.once_in(3) {
        let length = random.below(40);
        let mut bytes = random.bytes(length);
        for (byte, start) in bytes.iter_mut().zip([0, 0, 1, 0xE0]) {
            if !random.once_in(8) {
                *byte = start;
            }
        }
        return (bytes, quality);
    }
    let order = quality == Quality::Sound || !random.once_in(6);
    let Header {
        mut bytes,
        judged,
        lengths,
    } = header(random, order);
    match quality {
        Quality::Sound => {}
        Quality::NearMiss => {
            for _ in 0..random.pick(&[1, 1, 1, 2]) {
                let place = match random.below(6) {
                    0 | 1 => random.pick(&judged),
                    2 => random.pick(&lengths),
                    3 => random.below(9),
                    _ => random.below(bytes.len()),
                };
                if place >= bytes.len() || bytes.len() < 9 {
                    continue;
                }
                match random.below(7) {
                    0 => bytes.truncate(place),
                    6 => {
                        // Header data that ends too soon, by its length and mostly with the input.
                        let length = random.below(usize::from(bytes[8]) + 1);
                        bytes[8] = length as u8;
                        if !random.once_in(3) {
                            bytes.truncate(9 + length);
                        }
                    }
                    1 => bytes[place] = bytes[place].wrapping_add(random.pick(&[1, 0xFF])),
                    _ => bytes[place] ^= 1 << random.below(8),
                }
            }
            if random.once_in(3) {
                // What follows the header data counts for nothing, so that a longer length byte may still fit.
                bytes.extend([0xFF; 16]);
            }
        }
        Quality::Damaged => {
            for _ in 0..random.within(1, 8) {
                let place = random.below(bytes.len());
                bytes[place] = random.byte();
            }
        }
    }
    (bytes, quality)
}

/// A header whose fields fit, PTS not before DTS where `order` says so.
fn header(random: &mut Random, order: bool) -> Header {
    let mut flags = 0x80;
    let plain = random.once_in(3);
    let mut flag = |random: &mut Random, bit: u8| {
        let set = !plain && random.once_in(3);
        flags |= if set { bit } else { 0 };
        set
    };
    let mut data = Vec::new();
    let mut judged = Vec::new();
    let mut lengths = vec![8];
    let mut put_time = |data: &mut Vec<u8>, prefix: u8, time: u64| {
        judged.extend([9 + data.len(), 9 + data.len() + 2, 9 + data.len() + 4]);
        data.extend(field(prefix, time));
    };
    let pts = time(random);
    let has_dts = random.once_in(2);
    put_time(&mut data, if has_dts { 3 } else { 2 }, pts);
    let decoding = match (has_dts, order) {
        (false, _) => pts,
        (true, true) => back(pts, random.next() & 0xFFFF_FFFF),
        (true, false) => time(random),
    };
    if has_dts {
        put_time(&mut data, 1, decoding);
    }
    for (bit, length) in [(0x20, 6), (0x10, 3), (0x08, 1), (0x04, 1), (0x02, 2)] {
        if flag(random, bit) {
            data.extend(random.bytes(length));
        }
    }
    let has_extension = random.once_in(2);
    if has_extension {
        let place = data.len();
        let mut more = random.byte() & 0x0E;
        data.push(0);
        if random.once_in(4) {
            more |= 0x80;
            data.extend(random.bytes(16));
        }
        if random.once_in(4) {
            more |= 0x40;
            let length = random.below(20);
            lengths.push(9 + data.len());
            data.push(length as u8);
            data.extend(random.bytes(length));
        }
        for bit in [0x20, 0x10] {
            if random.once_in(4) {
                more |= bit;
                data.extend(random.bytes(2));
            }
        }
        if !random.once_in(6) {
            more |= 0x01;
            let mut second = Vec::new();
            let head = match random.below(6) {
                0 => random.byte() & 0x7F,
                1 => random.byte() | 0x81,
                _ => random.byte() & 0x7E | 0x80,
            };
            second.push(head);
            if head & 0x81 == 0x80 {
                let prefix = if random.once_in(3) {
                    random.byte() & 0x0F
                } else {
                    0x0F
                };
                let tref = if random.once_in(3) {
                    decoding
                } else {
                    time(random)
                };
                // One byte stands between the data so far and this one: the length.
                let mut before = data.clone();
                before.extend([0, 0]);
                put_time(&mut before, prefix, tref);
                second.extend(field(prefix, tref));
            }
            if random.once_in(4) {
                let length = random.below(5);
                second.extend(random.bytes(length));
            }
            lengths.push(9 + data.len());
            data.push(0x80 | second.len() as u8);
            data.extend(second);
        }
        data[place] = more;
    }
    flags |= if has_dts { 0x40 } else { 0 } | u8::from(has_extension);
    if random.once_in(3) {
        data.resize(data.len() + random.below(10), 0xFF);
    }
    let stream_id = 0xE0 | random.byte() & 0x0F;
    let mut bytes = vec![0, 0, 1, stream_id, 0, 0];
    if random.once_in(3) {
        bytes[4] = random.byte();
        bytes[5] = random.byte();
    }
    bytes.push(0x80 | random.byte() & 0x3F);
    bytes.extend([flags, data.len() as u8]);
    bytes.extend(data);
    if random.once_in(3) {
        let length = random.below(200);
        bytes.extend(random.bytes(length));
    }
    Header {
        bytes,
        judged,
        lengths,
    }
}
