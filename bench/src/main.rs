//! Measures the library against the plain implementation: the same inputs, one run, ratios with their spread.
//!
//!     bench --count                 makes each call once between marks, for whoever counts instructions from outside
//!     bench --tables FOLDER [--times]
//!                                   prints the tables in Markdown. FOLDER has the files `counts`, the instructions of each side, a number a
//!                                   line; `profile`, lines of side (from 1), instructions and function; and perhaps `baseline`, an earlier
//!                                   run's file of that name. The file `now` is written there, to be a baseline later. Times are taken where
//!                                   they are asked for.
//!     bench --recordings LOOP UNITS FILE..
//!                                   prints the tables of long recordings in Markdown: what scans take, and the program UNITS over LOOP
//!
//! Which measure it is at it tells on standard error. `bench/run` builds it and the library, runs it and writes docs/BENCHMARKS.md.

// The library's runtime asks for the bounds of the stack before `main`, which not every emulator can answer.
#![no_main]

mod clock;
mod inputs;
mod measures;
mod packets;
mod points;
mod recordings;
mod sets;
mod stack;
mod stereo;
mod tables;
mod times;

use measures::Measure;
use std::path::Path;

/// The C library's entry.
#[no_mangle]
pub extern "C" fn main(_words: i32, _word: *const *const u8) -> i32 {
    let words: Vec<String> = std::env::args().skip(1).collect();
    let words: Vec<&str> = words.iter().map(String::as_str).collect();
    match &words[..] {
        ["--count"] => count(&mut measures::all()),
        ["--tables", folder] => print(Path::new(folder), false),
        ["--tables", folder, "--times"] => print(Path::new(folder), true),
        ["--recordings", loop_file, units, files @ ..] if !files.is_empty() => {
            recordings::print(loop_file, units, files)
        }
        _ => {
            eprintln!("usage: bench --count | bench --tables FOLDER [--times] | bench --recordings LOOP UNITS FILE..");
            return 2;
        }
    }
    0
}

/// Tells which measure is at work.
fn tell(what: &str, place: usize, measures: &[Measure]) {
    let name = &measures[place].name;
    eprintln!("bench: {what}, {} of {}: {name}", place + 1, measures.len());
}

fn print(folder: &Path, timed: bool) {
    let mut measures = measures::all();
    check(&mut measures);
    let counts = tables::Counts::read(folder);
    tables::instructions(&measures, &counts);
    tables::functions(&measures, &counts);
    if timed {
        let times = times::of(&mut measures);
        tables::times(&measures, &times);
    }
    let mut refused = measures::without_summary();
    let (taken, taken_refused) = (stacks(&mut measures), stacks(&mut refused));
    tables::write_baseline(folder, &measures, &counts, &taken);
    tables::stacks(
        measures.iter().chain(&refused),
        taken.iter().chain(&taken_refused),
        &counts,
    );
}

/// All sides have to answer alike before it is worth measuring them.
fn check(measures: &mut [Measure]) {
    for measure in measures {
        let answer = (measure.library)(1);
        assert_eq!(answer % 256, 0, "{} was refused", measure.name);
        assert_eq!(answer, (measure.plain)(1), "{}", measure.name);
        if let Some(search) = &mut measure.search {
            assert_eq!(answer, search(1), "{}", measure.name);
        }
    }
}

/// What is called before and after each counted call, to be found in a trace by its name.
#[inline(never)]
#[no_mangle]
pub extern "C" fn bench_mark(number: u64) -> u64 {
    // SAFETY: reads what was just handed over; it keeps the call from being left out.
    unsafe { std::ptr::read_volatile(&number) }
}

/// Makes no call and then one call of each side, with a mark before, between and after.
fn count(measures: &mut [Measure]) {
    for place in 0..measures.len() {
        tell("counting instructions", place, measures);
        for side in measures[place].sides() {
            bench_mark(0);
            side(0);
            bench_mark(1);
            side(1);
            bench_mark(2);
        }
    }
}

/// The bytes of stack that one call takes below its caller: of the library and of plain.
fn stacks(measures: &mut [Measure]) -> Vec<[usize; 2]> {
    let taken = |side: &mut measures::Side| {
        let made = stack::depth(&mut || {
            side(1);
        });
        let not_made = stack::depth(&mut || {
            side(0);
        });
        made - not_made
    };
    (0..measures.len())
        .map(|place| {
            tell("painting the stack", place, measures);
            let measure = &mut measures[place];
            [taken(&mut measure.library), taken(&mut measure.plain)]
        })
        .collect()
}
