//! The cases: each a call with its inputs and its output buffers, had from a seed and a number alone.

use crate::calls::{self, Call, Lists, CALLS, ENTRY};
use crate::loops::Quality;
use crate::random::Random;
use crate::{headers, loops, points, stereo, tables};
use plain::{Columns, Layers, MOST_ROWS};

/// The case of this number.
pub fn case(seed: u64, number: u64) -> (Call, Quality) {
    let mut random = Random::new(seed, number);
    match number % CALLS.len() as u64 {
        0 => read_loop(&mut random),
        1 => write_loop(&mut random),
        2 => closure(&mut random),
        3 => read_times(&mut random),
        4 => write_times(&mut random),
        5 => join(&mut random),
        6 => join_long(&mut random),
        7 => import(&mut random),
        8 => stereo::reading(&mut random),
        9 => stereo::writing(&mut random),
        10 => points::reading(&mut random),
        _ => points::writing(&mut random),
    }
}

/// A buffer that is filled with a pattern.
pub fn filled<T>(random: &mut Random, length: usize, number: fn(u64) -> T) -> Vec<T> {
    let first = random.next();
    let next = |place| number(first ^ (place as u64).wrapping_mul(0x9E37_79B9_7F4A_7C15));
    (0..length).map(next).collect()
}

fn read_loop(random: &mut Random) -> (Call, Quality) {
    let reading = loops::reading(random);
    let (bytes, quality) = loops::bytes(random, reading);
    let needed = calls::reading_of(reading)
        .and_then(|reading| plain::read_loop(reading, &bytes))
        .map_or(3, |entries| entries.len());
    let length = if random.once_in(8) {
        // One entry too few.
        needed.saturating_sub(1) * ENTRY
    } else {
        random.room(needed * ENTRY)
    };
    let call = Call::ReadLoop {
        reading,
        bytes,
        entries: filled(random, length, |bits| bits as u16),
    };
    (call, quality)
}

fn write_loop(random: &mut Random) -> (Call, Quality) {
    let (entries, quality) = loops::entries(random);
    let mut call = Call::WriteLoop {
        entries,
        out: vec![0; plain::LONGEST_LOOP],
    };
    let answer = call.clone().plain();
    let needed = match calls::number(answer) {
        0 => calls::value(answer) as usize,
        _ => 40,
    };
    let length = random.room(needed);
    if let Call::WriteLoop { out, .. } = &mut call {
        *out = filled(random, length, |bits| bits as u8);
    }
    (call, quality)
}

fn closure(random: &mut Random) -> (Call, Quality) {
    let reading = loops::reading(random);
    let (bytes, quality) = loops::bytes(random, reading);
    let present = layers_of(reading, &bytes).present;
    let length = random.pick(&[0, 1, 1, 1, 2, 3]);
    let call = Call::Closure {
        reading,
        target: tables::target(random, present),
        bytes,
        set: filled(random, length, |bits| bits),
    };
    (call, quality)
}

fn read_times(random: &mut Random) -> (Call, Quality) {
    let (bytes, quality) = headers::bytes(random);
    let length = if random.once_in(8) {
        random.below(5)
    } else {
        random.within(5, 7)
    };
    let times = filled(random, length, |bits| bits);
    (Call::ReadTimes { bytes, times }, quality)
}

fn write_times(random: &mut Random) -> (Call, Quality) {
    let ([pts, decoding, matching], with_tref, quality) = headers::times(random);
    let length = match random.below(4) {
        0 => random.pick(&[13, 14, 15, 18, 19, 20, 21, 22, 23, 26, 27, 28]),
        1 => random.below(28),
        _ => random.within(27, 40),
    };
    let call = Call::WriteTimes {
        pts,
        decoding,
        matching,
        with_tref,
        out: filled(random, length, |bits| bits as u8),
    };
    (call, quality)
}

fn join(random: &mut Random) -> (Call, Quality) {
    let (present, embedded) = tables::layers(random);
    let layers = calls::layers(present, &embedded);
    let target = tables::target(random, present);
    let (rows, quality) = tables::rows(random, &layers, target, MOST_ROWS);
    let call = Call::Join {
        present,
        embedded,
        target,
        lists: lists(random, &layers, target, &rows),
        rows,
    };
    (call, quality)
}

/// A table of any length, and work space that is mostly long enough.
fn join_long(random: &mut Random) -> (Call, Quality) {
    let (present, embedded) = tables::layers(random);
    let layers = calls::layers(present, &embedded);
    let target = tables::target(random, present);
    let most = random.pick(&[3, 40, 700, 2000]);
    let (rows, quality) = tables::rows(random, &layers, target, most);
    let needed = rows.indices.len();
    let mut work = [needed; 7].map(|needed| needed + random.pick(&[0, 0, 1, 9]));
    if random.once_in(8) {
        let one = random.below(work.len());
        work[one] = needed.saturating_sub(1);
    }
    let call = Call::JoinLong {
        present,
        embedded,
        target,
        lists: lists(random, &layers, target, &rows),
        rows,
        work,
    };
    (call, quality)
}

fn import(random: &mut Random) -> (Call, Quality) {
    let reading = loops::reading(random);
    let (bytes, of_loop) = if random.once_in(3) {
        loops::bytes(random, reading)
    } else {
        (loops::sound_bytes(random, reading), Quality::Sound)
    };
    let layers = layers_of(reading, &bytes);
    let target = tables::target(random, layers.present);
    let (rows, of_rows) = tables::rows(random, &layers, target, MOST_ROWS);
    let quality = match (of_loop, of_rows) {
        (Quality::Sound, Quality::Sound) => Quality::Sound,
        (Quality::Damaged, _) | (_, Quality::Damaged) => Quality::Damaged,
        _ => Quality::NearMiss,
    };
    let call = Call::Import {
        reading,
        bytes,
        target,
        lists: lists(random, &layers, target, &rows),
        rows,
    };
    (call, quality)
}

/// The layers of a loop, none where it is refused.
fn layers_of(reading: u64, bytes: &[u8]) -> Layers {
    calls::reading_of(reading)
        .and_then(|reading| plain::layers_of_loop(reading, bytes))
        .unwrap_or_default()
}

/// The output lists of joining: mostly long enough, now and then one of them short.
pub fn lists(random: &mut Random, layers: &Layers, target: u64, rows: &Columns) -> Lists {
    let count = rows.indices.len();
    let (mut numbers, mut lags, mut sizes) = (vec![0; count], vec![0; count], vec![0; count]);
    let room = plain::Lists {
        numbers: &mut numbers,
        lags: &mut lags,
        sizes: &mut sizes,
    };
    let needed =
        plain::join_long(count, layers, target, rows.rows(), room).map_or(5, |units| units.rows);
    let mut length = |needed: usize| {
        if random.once_in(4) {
            random.room(needed)
        } else {
            needed + random.pick(&[0, 0, 1, 9])
        }
    };
    let (numbers, lags, sizes) = (length(needed), length(needed), length(needed));
    let summary = length(2);
    Lists {
        numbers: filled(random, numbers, |bits| bits),
        lags: filled(random, lags, |bits| bits as i64),
        sizes: filled(random, sizes, |bits| bits),
        summary: filled(random, summary, |bits| bits),
    }
}
