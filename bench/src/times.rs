//! The time that each call takes of the processor.

use crate::clock;
use crate::measures::{Measure, Side};
use crate::tell;

/// The time that the calls of one round take at least, in nanoseconds.
const LEAST: f64 = 1e6;

/// All measures are gone through so many times, and each time so many rounds are taken of each: what else the machine does for some seconds
/// then does not fall on all rounds of one measure.
const PASSES: usize = 5;
const ROUNDS_OF_PASS: usize = 60;
pub const ROUNDS: usize = PASSES * ROUNDS_OF_PASS;

/// Nanoseconds of one call of each side, round by round.
pub type Rounds = Vec<Vec<f64>>;

/// The rounds of each measure.
pub fn of(measures: &mut [Measure]) -> Vec<Rounds> {
    let mut all = vec![Rounds::new(); measures.len()];
    for pass in 1..=PASSES {
        for (place, so_far) in all.iter_mut().enumerate() {
            tell(
                &format!("taking times, pass {pass} of {PASSES}"),
                place,
                measures,
            );
            so_far.extend(rounds(&mut measures[place].sides()));
        }
    }
    all
}

/// Nanoseconds of the processor for one call, from so many.
fn time(side: &mut Side, calls: usize) -> f64 {
    let start = clock::nanoseconds();
    side(calls);
    (clock::nanoseconds() - start) as f64 / calls as f64
}

/// How many calls take long enough to be measured.
fn calls(side: &mut Side) -> usize {
    let mut calls = 1;
    while time(side, calls) * (calls as f64) < LEAST {
        calls *= 2;
    }
    calls
}

/// The sides take turns, so that what slows the machine slows all of them.
fn rounds(sides: &mut [&mut Side]) -> Rounds {
    let counts: Vec<usize> = sides.iter_mut().map(|side| calls(side)).collect();
    (0..ROUNDS_OF_PASS)
        .map(|_| {
            let each = sides.iter_mut().zip(&counts);
            each.map(|(side, &calls)| time(side, calls)).collect()
        })
        .collect()
}
