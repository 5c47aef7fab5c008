//! Compares the library with the plain implementation of document 01 on generated inputs: answers, and every buffer in full.
//!
//!     compare [--guarded] [SEED COUNT]    makes COUNT calls, and sequences of changes of layer sets and recordings of transport packets beside
//!                                         them, and prints how often each number was answered
//!     compare --long ROWS                 joins one table of about so many rows
//!     compare --recording LOOP FILE [TARGET]
//!                                         reads a recording, whole and in pieces, and prints its rows or the units of a target
//!     compare --show SEED CASE            prints one case and what the plain implementation answers, without calling the library
//!
//! It ends with status 1 at the first difference, which it prints with the whole input, and where a number that a call can answer was
//! never answered. With `--guarded` every buffer stands directly before or after a page that cannot be touched.

mod calls;
mod cases;
mod faults;
mod headers;
mod long;
mod loops;
mod memory;
mod packets;
mod points;
mod random;
mod recorded;
mod recordings;
mod sets;
mod show;
mod stereo;
mod tables;

use calls::CALLS;
use loops::Quality;
use memory::{Memory, Placing};
use random::Random;
use std::process::ExitCode;

const SEED: u64 = 1;
/// Of each call 20,000.
const COUNT: u64 = 20_000 * CALLS.len() as u64;

/// For so many calls one recording, of some twenty calls itself; and as many at least as see every number.
const RECORDINGS: u64 = 24;
const LEAST_RECORDINGS: u64 = 5_000;

/// The calls that read or write a loop.
const CALLS_OF_LOOPS: [&str; 7] = [
    "read_loop",
    "write_loop",
    "closure",
    "import",
    "read_stereo",
    "write_stereo",
    "read_points",
];

/// The calls that join rows.
const CALLS_OF_ROWS: [&str; 3] = ["join", "join_long", "import"];

/// What has been seen: for each call how often each number was answered, how its inputs were made, and in how many accepted loops there were
/// two views without a hierarchy descriptor; how often a table was joined again with other rows of other layers; and what operation points there were.
struct Seen {
    numbers: [[u64; 256]; CALLS.len()],
    qualities: [[u64; Quality::NAMES.len()]; CALLS.len()],
    implied: [u64; CALLS.len()],
    pairs: [u64; CALLS.len()],
    points: points::Met,
    sets: sets::Seen,
    packets: packets::Seen,
}

fn main() -> ExitCode {
    let mut words: Vec<String> = std::env::args().skip(1).collect();
    let has = |word: &str, words: &mut Vec<String>| {
        let before = words.len();
        words.retain(|other| other != word);
        words.len() < before
    };
    if has("--recording", &mut words) {
        return recording(&words);
    }
    let guarded = has("--guarded", &mut words);
    let show_one = has("--show", &mut words);
    let long_table = has("--long", &mut words);
    let numbers: Option<Vec<u64>> = words.iter().map(|word| word.parse().ok()).collect();
    if let (true, Some(&[rows])) = (long_table, numbers.as_deref()) {
        return told(long::run(rows as usize));
    }
    let (seed, count) = match numbers.as_deref() {
        Some([]) if !show_one => (SEED, COUNT),
        Some(&[seed, count]) => (seed, count),
        _ => {
            eprintln!("compare [--guarded] [SEED COUNT], compare --long ROWS, compare --recording LOOP FILE [TARGET], or compare --show SEED CASE");
            return ExitCode::from(2);
        }
    };
    if show_one && count >= packets::FIRST {
        print!("{}", packets::show(seed, count));
        return ExitCode::SUCCESS;
    }
    if show_one && count >= sets::FIRST {
        print!("{}", sets::show(seed, count));
        return ExitCode::SUCCESS;
    }
    if show_one {
        let (mut call, quality) = cases::case(seed, count);
        print!("{quality:?} {}", show::call(&call));
        println!("plain answers: {}", show::answer(call.plain()));
        return ExitCode::SUCCESS;
    }
    match run(seed, count, guarded) {
        Ok(seen) => summary(seed, count, &seen),
        Err(difference) => {
            println!("{difference}");
            ExitCode::FAILURE
        }
    }
}

/// A recording from a file: a loop's file, the recording's, and maybe a target.
fn recording(words: &[String]) -> ExitCode {
    let target = words.get(2).map(|word| word.parse::<u64>());
    let files = words
        .get(..2)
        .map(|files| [std::fs::read(&files[0]), std::fs::read(&files[1])]);
    match (files, target.transpose()) {
        (Some([Ok(bytes), Ok(packets)]), Ok(target)) => {
            match recorded::run(&bytes, &packets, target) {
                Ok(lines) => {
                    print!("{lines}");
                    ExitCode::SUCCESS
                }
                Err(difference) => {
                    println!("{difference}");
                    ExitCode::FAILURE
                }
            }
        }
        _ => {
            eprintln!("compare --recording LOOP FILE [TARGET]: a file cannot be read, or the target is no number");
            ExitCode::from(2)
        }
    }
}

/// Prints what a comparison came to.
fn told(outcome: Result<String, String>) -> ExitCode {
    match outcome {
        Ok(text) => {
            println!("{text}");
            ExitCode::SUCCESS
        }
        Err(difference) => {
            println!("{difference}");
            ExitCode::FAILURE
        }
    }
}

/// Makes the calls, up to the first difference.
fn run(seed: u64, count: u64, guarded: bool) -> Result<Seen, String> {
    let mut memory = Memory::new();
    if guarded {
        faults::catch();
    }
    let recordings = (count / RECORDINGS).max(LEAST_RECORDINGS);
    let mut seen = Seen {
        numbers: [[0; 256]; CALLS.len()],
        qualities: [[0; Quality::NAMES.len()]; CALLS.len()],
        implied: [0; CALLS.len()],
        pairs: [0; CALLS.len()],
        points: points::Met::default(),
        sets: sets::run(seed, count / 3, guarded, &mut memory)?,
        packets: packets::run(seed, recordings, guarded, &mut memory)?,
    };
    for number in 0..count {
        faults::note(seed, number);
        let placing = match (guarded, number / CALLS.len() as u64 % 2) {
            (false, _) => Placing::Inside,
            (true, 0) => Placing::AtStart,
            (true, _) => Placing::AtEnd,
        };
        let (call, quality) = cases::case(seed, number);
        let mut library = call.clone();
        let mut plain = call.clone();
        let expected = plain.plain();
        let answer = library.library(&mut memory, placing);
        if answer != Ok(expected) || library != plain {
            let mut text = format!("compare: DIFFERENT at seed {seed}, case {number}: ");
            text += &show::call(&call);
            text += &match answer {
                Ok(answer) => format!("library answers: {}\n", show::answer(answer)),
                Err(fault) => format!("library: {fault}\n"),
            };
            text += &format!("plain answers:   {}", show::answer(expected));
            let after = show::parts(&library).into_iter().zip(show::parts(&plain));
            for ((name, of_library), (_, of_plain)) in after {
                if of_library != of_plain {
                    text += &format!("\nafter the call, {name} of the library: {of_library}");
                    text += &format!("\nafter the call, {name} of plain:       {of_plain}");
                }
            }
            return Err(text);
        }
        // Rows of layers on which the target doesn't rest move nothing.
        let mut random = Random::new(seed ^ 0x5EED, number);
        if let Some(mut other) = call.with_other_rows(&mut random) {
            let alike = other.library(&mut memory, placing);
            let mut left = other.clone();
            left.take_rows(&library);
            if alike != Ok(expected) || left != library {
                let mut text =
                    format!("compare: OTHER ROWS MATTER at seed {seed}, case {number}: ");
                text += &show::call(&call);
                text += &show::call(&other);
                return Err(text);
            }
            seen.pairs[call.kind()] += 1;
        }
        seen.numbers[call.kind()][calls::number(expected) as usize] += 1;
        seen.qualities[call.kind()][quality as usize] += 1;
        seen.implied[call.kind()] += u64::from(call.has_implied_layers());
        if let Err(wrong) = seen.points.note(&call) {
            return Err(format!(
                "compare: {wrong}, at seed {seed}, case {number}: {}",
                show::call(&call)
            ));
        }
    }
    Ok(seen)
}

/// Prints a line of a table.
fn line(head: &str, cells: Vec<String>) {
    print!("{head:<12}");
    for cell in cells {
        print!("{cell:>13}");
    }
    println!();
}

/// Prints how often each of these calls answered each number, and answers which number that a call can answer never was.
fn answered(calls: &[(&str, &[u64])], numbers: &[[u64; 256]]) -> Vec<String> {
    let names = calls.iter().map(|(name, _)| name.to_string());
    line("answered", names.collect());
    let mut never = Vec::new();
    for number in 0..256 {
        if !calls.iter().any(|(_, can)| can.contains(&number)) {
            continue;
        }
        let cell = |call: usize| {
            let times = numbers[call][number as usize];
            if calls[call].1.contains(&number) {
                times.to_string()
            } else {
                String::new()
            }
        };
        let head = match number {
            0 => "accepted".to_string(),
            calls::NOT_A_CALL => "no call".to_string(),
            number => format!("refused {number}"),
        };
        line(&head, (0..calls.len()).map(cell).collect());
        for (call, (name, can)) in calls.iter().enumerate() {
            if can.contains(&number) && numbers[call][number as usize] == 0 {
                never.push(format!("{name} never answered {number}"));
            }
        }
    }
    never
}

/// Prints what was seen. A failure where a number that can be answered never was.
fn summary(seed: u64, count: u64, seen: &Seen) -> ExitCode {
    let mut never = answered(&CALLS, &seen.numbers);
    for (quality, name) in Quality::NAMES.iter().enumerate() {
        let cells = seen.qualities.iter().map(|one| one[quality].to_string());
        line(name, cells.collect());
    }
    let of_loops = |call: usize| CALLS_OF_LOOPS.contains(&CALLS[call].0);
    let cell = |call: usize| match of_loops(call) {
        true => seen.implied[call].to_string(),
        false => String::new(),
    };
    line("two views", (0..CALLS.len()).map(cell).collect());
    let joins = |call: usize| CALLS_OF_ROWS.contains(&CALLS[call].0);
    let cell = |call: usize| match joins(call) {
        true => seen.pairs[call].to_string(),
        false => String::new(),
    };
    line("other rows", (0..CALLS.len()).map(cell).collect());
    for call in (0..CALLS.len()).filter(|&call| joins(call) && seen.pairs[call] == 0) {
        never.push(format!("{} never met other rows", CALLS[call].0));
    }
    for call in (0..CALLS.len()).filter(|&call| of_loops(call) && seen.implied[call] == 0) {
        never.push(format!("{} never met two views", CALLS[call].0));
    }
    let (words, missing) = seen.points.told();
    println!("points: {words}");
    never.extend(missing);
    println!();
    never.extend(answered(&sets::CALLS, &seen.sets.numbers));
    never.extend(seen.sets.never());
    let sets::Seen {
        steps,
        sequences,
        no_sets,
        other_sets,
        lone_views,
        ..
    } = seen.sets;
    println!("sets: {steps} steps in {sequences} sequences; damaged buffers: {no_sets} held no set, {other_sets} another; one of two views alone after {lone_views} removals");
    println!();
    never.extend(answered(&packets::CALLS, &seen.packets.numbers));
    let (words, missing) = seen.packets.told();
    let recordings = seen.packets.recordings;
    println!("recordings: {recordings}, {words}");
    never.extend(missing);
    for one in &never {
        println!("compare: {one}");
    }
    if never.is_empty() {
        println!("compare: {count} calls of seed {seed} and {steps} steps of layer sets and {recordings} recordings, library and plain implementation agree in every answer and buffer");
        ExitCode::SUCCESS
    } else {
        ExitCode::FAILURE
    }
}
