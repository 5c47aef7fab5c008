//! Layers and tables of rows over them.

use crate::headers::{time, wide_time};
use crate::loops::Quality;
use crate::random::Random;
use plain::{Columns, Layers};

const TURN: u64 = 1 << 33;

/// Layers as `thq_join` takes them: the set of those that there are, and for each what it names.
pub fn layers(random: &mut Random) -> (u64, Vec<u64>) {
    let count = match random.below(8) {
        0 => random.within(0, 1),
        1 => random.within(9, 64),
        _ => random.within(2, 8),
    };
    let mut indices: Vec<usize> = (0..64).collect();
    if random.once_in(3) {
        random.shuffle(&mut indices);
    }
    indices.truncate(count);
    indices.sort_unstable();
    let mut present = 0;
    let mut embedded = vec![0; 64];
    let chain = random.once_in(2);
    for (place, &index) in indices.iter().enumerate() {
        present |= 1 << index;
        if place > 0 && !random.once_in(10) {
            let names = if chain { 1 } else { random.within(1, 3) };
            for _ in 0..names {
                let lower = if chain {
                    indices[place - 1]
                } else {
                    indices[random.below(place)]
                };
                embedded[index] |= 1 << lower;
            }
        }
    }
    if random.once_in(12) {
        // Names what isn't there, or what counts for nothing.
        embedded[random.below(64)] |= random.next() & random.next();
    }
    match random.below(24) {
        0 | 1 => present ^= 1 << random.below(64),
        // Several that are named are not there; what they name themselves adds nothing.
        2 => present &= random.next() | 1 << indices.last().unwrap_or(&0),
        _ => {}
    }
    match random.below(8) {
        0 => embedded.resize(random.below(64), 0),
        1 => embedded.resize(64 + random.below(4), random.next()),
        2 => {
            let needed = indices.last().map_or(0, |last| last + 1);
            embedded.resize(needed, 0);
        }
        _ => {}
    }
    if random.once_in(4) {
        // Indices of its own and above count for nothing.
        for (index, named) in embedded.iter_mut().enumerate() {
            let above = if index < 64 { u64::MAX << index } else { 0 };
            *named |= random.next() & above;
        }
    }
    (present, embedded)
}

/// A target: mostly one of the layers, and mostly one of the upper ones.
pub fn target(random: &mut Random, present: u64) -> u64 {
    if present != 0 && !random.once_in(16) {
        let top = 63 - u64::from(present.leading_zeros());
        if random.once_in(2) {
            return top;
        }
        let indices: Vec<u64> = (0..64).filter(|index| present >> index & 1 != 0).collect();
        return random.pick(&indices);
    }
    match random.below(4) {
        0 => random.next(),
        1 => 64 + random.below(4) as u64,
        2 => 256 + random.below(4) as u64,
        _ => random.below(64) as u64,
    }
}

/// A row on its way into a table.
#[derive(Clone, Copy)]
struct Row {
    index: u8,
    decoding: u64,
    matching: u64,
}

/// A table of rows for a target, of up to so many where it is sound, and how it was made.
pub fn rows(random: &mut Random, layers: &Layers, target: u64, most: usize) -> (Columns, Quality) {
    let quality = Quality::pick(random);
    let mut rows = match plain::closure(layers, target) {
        Ok(closure) => sound(random, layers, closure, most),
        Err(_) => any(random),
    };
    match quality {
        Quality::Sound => {}
        Quality::NearMiss => {
            for _ in 0..random.pick(&[1, 1, 1, 2, 3]) {
                miss(random, &mut rows);
            }
        }
        Quality::Damaged => {
            for _ in 0..random.within(1, 6) {
                if let Some(row) = random.below(rows.len() + 1).checked_sub(1) {
                    let wide = random.once_in(8);
                    let any = if wide { wide_time } else { time };
                    rows[row] = Row {
                        index: random.byte() & if wide { 255 } else { random.pick(&[7, 63]) },
                        decoding: any(random),
                        matching: any(random),
                    };
                }
            }
        }
    }
    let mut rows = Columns {
        indices: rows.iter().map(|row| row.index).collect(),
        decodings: rows.iter().map(|row| row.decoding).collect(),
        matches: rows.iter().map(|row| row.matching).collect(),
    };
    if quality != Quality::Sound && random.once_in(20) {
        match random.below(5) {
            0 => drop(rows.indices.pop()),
            1 => drop(rows.decodings.pop()),
            2 => drop(rows.matches.pop()),
            3 => rows.decodings.push(0),
            _ => rows.matches.push(0),
        }
    }
    (rows, quality)
}

/// Columns of no order.
fn any(random: &mut Random) -> Vec<Row> {
    (0..random.below(8))
        .map(|_| Row {
            index: random.byte() & 63,
            decoding: wide_time(random),
            matching: time(random),
        })
        .collect()
}

/// A table that joins: instants that rise, at each a unit that some layer heads, and now and then a row of a layer that rests on nothing beside it.
fn sound(random: &mut Random, layers: &Layers, closure: u64, longest_table: usize) -> Vec<Row> {
    let indices: Vec<usize> = (0..64).filter(|index| closure >> index & 1 != 0).collect();
    let groups = groups(layers, &indices);
    let most = longest_table / indices.len();
    let instants = match random.below(12) {
        0 => 0,
        1 => most,
        _ => random.below(most.min(12) + 1),
    };
    let longest = (1 << 32) / (instants as u64 + 1);
    let step = match random.below(4) {
        0 => 1,
        1 => longest,
        2 => 1 + random.next() % longest,
        _ => 3600,
    };
    let start = time(random);
    // How far the layers lie apart: a lag may have any value, those at its ends too.
    let mut offsets = [0; 64];
    if random.once_in(3) {
        let half = TURN / 2;
        for offset in &mut offsets {
            let any = time(random);
            *offset = random.pick(&[0, 0, half - 1, half, half + 1, any]);
        }
    }
    let whole = random.once_in(3);
    let mut by_layer: Vec<Vec<Row>> = vec![Vec::new(); indices.len()];
    for instant in 0..instants as u64 {
        let mut times = [0; 64];
        for (time, offset) in times.iter_mut().zip(offsets) {
            *time = (start + offset + instant * step + random.next() % step) % TURN;
        }
        // The layers that have a row at this instant: all that one of them rests on.
        let top = match whole || random.once_in(2) {
            true => closure,
            false => {
                let head = random.pick(&indices);
                let own = plain::closure(layers, head as u64).unwrap_or(closure);
                let beside = random.pick(&indices);
                let alone = layers.below(beside) == 0 && random.once_in(3);
                own | u64::from(alone) << beside
            }
        };
        for (rows, &index) in by_layer.iter_mut().zip(&indices) {
            let lower = layers.below(index).trailing_zeros() as usize;
            let decoding = times[groups[index]];
            let matching = match (lower < 64, random.once_in(2)) {
                (true, _) => times[groups[lower]],
                (false, true) => decoding,
                (false, false) => time(random),
            };
            if top >> index & 1 != 0 {
                rows.push(Row {
                    index: index as u8,
                    decoding,
                    matching,
                });
            }
        }
    }
    let mut rows = merge(random, by_layer);
    if random.once_in(3) && closure != u64::MAX {
        let outside: Vec<u8> = (0..64).filter(|index| closure >> index & 1 == 0).collect();
        for _ in 0..random.below(6) {
            if rows.len() < longest_table {
                let row = Row {
                    index: random.pick(&outside),
                    decoding: time(random),
                    matching: time(random),
                };
                rows.insert(random.below(rows.len() + 1), row);
            }
        }
    }
    rows
}

/// For each layer the group of those that have to have one decoding time, since one layer names them together.
fn groups(layers: &Layers, indices: &[usize]) -> [usize; 64] {
    let mut groups = [0; 64];
    for (index, group) in groups.iter_mut().enumerate() {
        *group = index;
    }
    for &index in indices {
        let named = layers.below(index);
        let lowest = named.trailing_zeros() as usize;
        for lower in (0..64).filter(|lower| named >> lower & 1 != 0) {
            let (from, to) = (groups[lower], groups[lowest]);
            for group in &mut groups {
                if *group == from {
                    *group = to;
                }
            }
        }
    }
    groups
}

/// The rows of all layers in one order of arrival, each layer's in its own order.
fn merge(random: &mut Random, by_layer: Vec<Vec<Row>>) -> Vec<Row> {
    let total: usize = by_layer.iter().map(Vec::len).sum();
    let mut rows = Vec::with_capacity(total);
    if random.once_in(4) {
        return by_layer.concat();
    }
    let in_turn = random.once_in(2);
    let mut taken = vec![0; by_layer.len()];
    let mut place = 0;
    while rows.len() < total {
        place = if in_turn {
            (place + 1) % by_layer.len()
        } else {
            random.below(by_layer.len())
        };
        if let Some(&row) = by_layer[place].get(taken[place]) {
            rows.push(row);
            taken[place] += 1;
        }
    }
    rows
}

/// Makes one thing wrong, or at least another.
fn miss(random: &mut Random, rows: &mut Vec<Row>) {
    if rows.is_empty() || random.once_in(25) {
        // Up to and past the longest table.
        let row = Row {
            index: random.byte() & 63,
            decoding: time(random),
            matching: time(random),
        };
        rows.resize(random.pick(&[1, 511, 512, 513, 514, 600]), row);
        return;
    }
    let from = random.below(rows.len());
    let to = random.below(rows.len());
    let alike: Vec<usize> = (0..rows.len())
        .filter(|&row| rows[row].index == rows[to].index)
        .collect();
    let sibling = rows[random.pick(&alike)];
    let step = random.pick(&[1, TURN - 1, 1 << 32, (1 << 32) - 1, 3600]);
    match random.below(14) {
        0 => rows[to].decoding = rows[to].decoding.wrapping_add(step) % TURN,
        1 => rows[to].matching = rows[to].matching.wrapping_add(step) % TURN,
        2 | 3 => rows[to].matching = sibling.matching,
        4 => rows[to].decoding = sibling.decoding,
        5 => rows[to].matching = rows[from].decoding,
        6 => rows[to].index = random.byte() & 63,
        7 => rows[to].index = random.pick(&[64, 65, 128, 255]),
        8 => rows[to].decoding |= random.pick(&[TURN, 1 << 34, 1 << 63]),
        9 => rows[to].matching |= random.pick(&[TURN, 1 << 34, 1 << 63]),
        10 => rows.swap(from, to),
        11 => drop(rows.remove(to)),
        12 => rows.insert(from, sibling),
        _ => {
            // All later rows of the layer follow, so that the order stays.
            for row in alike.into_iter().filter(|&row| row >= to) {
                rows[row].decoding = rows[row].decoding.wrapping_add(1) % TURN;
            }
        }
    }
}
