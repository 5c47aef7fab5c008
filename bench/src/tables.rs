//! The tables of docs/BENCHMARKS.md.

use crate::measures::Measure;
use crate::times::{Rounds, ROUNDS};
use std::collections::HashMap;
use std::fs;
use std::path::Path;

/// What was counted outside: the instructions of each side of each measure, where the library's are executed, and what an earlier run had.
pub struct Counts {
    /// For each measure the library's, plain's and perhaps the search's, in the order in which `--count` makes the calls.
    instructions: Vec<f64>,
    profile: String,
    /// By the measure's name: the library's instructions and stack.
    baseline: HashMap<String, (f64, f64)>,
}

impl Counts {
    pub fn read(folder: &Path) -> Counts {
        let text = |name: &str| fs::read_to_string(folder.join(name));
        let number = |word: &str| word.parse::<f64>().expect("a number");
        let instructions = text("counts").expect("a file of counts");
        let baseline = text("baseline").unwrap_or_default();
        Counts {
            instructions: instructions.split_ascii_whitespace().map(number).collect(),
            profile: text("profile").expect("a file of functions"),
            baseline: baseline
                .lines()
                .filter_map(|line| {
                    let [name, instructions, stack] =
                        <[&str; 3]>::try_from(line.split('\t').collect::<Vec<_>>()).ok()?;
                    Some((name.to_string(), (number(instructions), number(stack))))
                })
                .collect(),
        }
    }

    /// The instructions of the sides of each measure.
    fn each<'a>(&'a self, measures: &'a [Measure]) -> impl Iterator<Item = &'a [f64]> + 'a {
        let mut left = &self.instructions[..];
        measures.iter().map(move |measure| {
            let (these, rest) = left.split_at(measure.count());
            left = rest;
            these
        })
    }
}

/// What a later run is held against.
pub fn write_baseline(folder: &Path, measures: &[Measure], counts: &Counts, stacks: &[[usize; 2]]) {
    let mut text = String::new();
    for ((measure, sides), stack) in measures.iter().zip(counts.each(measures)).zip(stacks) {
        text += &format!("{}\t{}\t{}\n", measure.name, sides[0], stack[0]);
    }
    fs::write(folder.join("now"), text).expect("a file for the next run");
}

/// The least, and the number in the middle.
fn least_and_median(numbers: impl Iterator<Item = f64>) -> (f64, f64) {
    let mut numbers: Vec<f64> = numbers.collect();
    numbers.sort_by(f64::total_cmp);
    (numbers[0], numbers[numbers.len() / 2])
}

/// A number with three digits that count.
fn short(number: f64) -> String {
    let digits = match number {
        number if number >= 100.0 => 0,
        number if number >= 10.0 => 1,
        _ => 2,
    };
    format!("{number:.digits$}")
}

/// A number beside its baseline, where there is one.
fn beside(now: f64, before: Option<f64>) -> String {
    match before {
        Some(before) => format!("{before} | {} |", short(now / before)),
        None => " | |".to_string(),
    }
}

pub fn instructions(measures: &[Measure], counts: &Counts) {
    println!("## Instructions\n");
    println!("Executed x86-64 instructions of one call, the same in every run of one build. \"Baseline\" is the library of the commit that `bench/baseline` came with.\n");
    println!(
        "| Call and input | library | plain | library / plain | baseline | library / baseline |"
    );
    println!("|---|---|---|---|---|---|");
    for (measure, sides) in measures.iter().zip(counts.each(measures)) {
        let before = counts.baseline.get(&measure.name).map(|row| row.0);
        println!(
            "| {} | {} | {} | {} | {}",
            measure.name,
            sides[0],
            sides[1],
            short(sides[0] / sides[1]),
            beside(sides[0], before)
        );
    }
    for (title, third, of_sets) in THIRDS {
        println!("\n{title}:\n");
        third_head(third);
        for (measure, sides) in measures.iter().zip(counts.each(measures)) {
            if let (true, [library, plain, side]) = (of_sets == is_of_sets(measure), sides) {
                let (of_library, of_plain) = (short(side / library), short(side / plain));
                println!("| {} | {side} | {of_library} | {of_plain} |", measure.name);
            }
        }
    }
}

/// What the third sides are: the title of their table, the name of the side, and whether it is of layer sets.
const THIRDS: [(&str, &str, bool); 2] = [
    (
        "Joining by the plain search from the start of the table for every row",
        "search",
        false,
    ),
    (
        "Layer sets: everything worked out afresh, by plain, where the library and plain keep what each layer rests on",
        "afresh",
        true,
    ),
];

fn is_of_sets(measure: &Measure) -> bool {
    measure.name.starts_with(crate::sets::NAME)
}

fn third_head(third: &str) {
    println!("| Call and input | {third} | {third} / library | {third} / plain |");
    println!("|---|---|---|---|");
}

/// Where the library's instructions are executed.
pub fn functions(measures: &[Measure], counts: &Counts) {
    println!("\nThe functions of the library, and of the C library, in which they are executed, without those of less than one in twenty. What the compiler put into its caller counts there:\n");
    println!("| Call and input | instructions by function |");
    println!("|---|---|");
    let mut side = 1;
    for (measure, sides) in measures.iter().zip(counts.each(measures)) {
        let head = format!("{side} ");
        let lines = counts
            .profile
            .lines()
            .filter_map(|line| line.strip_prefix(&head));
        let cells: Vec<String> = lines
            .filter_map(|line| {
                let (number, name) = line.split_once(' ')?;
                let number: f64 = number.parse().ok()?;
                let ours = name == "main" || name.contains("bench");
                (!ours && number * 20.0 >= sides[0])
                    .then(|| format!("`{}` {number}", short_name(name)))
            })
            .collect();
        println!("| {} | {} |", measure.name, cells.join(", "));
        side += sides.len();
    }
}

/// A function's name without what the C library adds for the processor.
fn short_name(name: &str) -> &str {
    match name.strip_prefix("__mem") {
        Some(rest) if rest.starts_with("cpy") => "memcpy",
        Some(rest) if rest.starts_with("move") => "memmove",
        Some(rest) if rest.starts_with("set") => "memset",
        _ => name,
    }
}

/// Nanoseconds of one side: the least and the median of the rounds.
fn taken(rounds: &Rounds, side: usize) -> String {
    let (least, median) = least_and_median(rounds.iter().map(|round| round[side]));
    format!("{} ({})", short(least), short(median))
}

/// How many times as long one side takes as another: of the two leasts, and the median of the rounds.
fn ratio(rounds: &Rounds, over: usize, under: usize) -> String {
    let least = |side: usize| least_and_median(rounds.iter().map(|round| round[side])).0;
    let (_, median) = least_and_median(rounds.iter().map(|round| round[over] / round[under]));
    format!("{} ({})", short(least(over) / least(under)), short(median))
}

pub fn times(measures: &[Measure], times: &[Rounds]) {
    println!("\n## Times\n");
    println!("Nanoseconds of processor time for one call: the least of {ROUNDS} rounds, and in brackets the median. A ratio is of the two leasts, and in brackets the median of the rounds' ratios. What else a machine does slows a round and never speeds one up, so the least is what to compare.\n");
    println!("| Call and input | library | plain | library / plain |");
    println!("|---|---|---|---|");
    for (measure, rounds) in measures.iter().zip(times) {
        println!(
            "| {} | {} | {} | {} |",
            measure.name,
            taken(rounds, 0),
            taken(rounds, 1),
            ratio(rounds, 0, 1)
        );
    }
    println!("\nLoops and recordings, in millions of bytes a second, by the least time:\n");
    println!("| Call and input | library | plain |");
    println!("|---|---|---|");
    for (measure, rounds) in measures.iter().zip(times) {
        if let Some(bytes) = measure.bytes {
            // Bytes in a nanosecond are thousands of millions in a second.
            let rate = |side: usize| {
                let (least, _) = least_and_median(rounds.iter().map(|round| round[side]));
                short(bytes as f64 * 1e3 / least)
            };
            println!("| {} | {} | {} |", measure.name, rate(0), rate(1));
        }
    }
    for (title, third, of_sets) in THIRDS {
        println!("\n{title}, and how many times the others are faster:\n");
        third_head(third);
        for (measure, rounds) in measures.iter().zip(times) {
            if measure.search.is_some() && is_of_sets(measure) == of_sets {
                println!(
                    "| {} | {} | {} | {} |",
                    measure.name,
                    taken(rounds, 2),
                    ratio(rounds, 2, 0),
                    ratio(rounds, 2, 1)
                );
            }
        }
    }
}

pub fn stacks<'a>(
    measures: impl Iterator<Item = &'a Measure>,
    stacks: impl Iterator<Item = &'a [usize; 2]>,
    counts: &Counts,
) {
    println!("\n## Stack\n");
    println!("Bytes of stack that one call takes below its caller's frame, its parameters on the stack included, down to the lowest byte that it writes: the call is made on a stack that was painted before.\n");
    println!("| Call and input | library | plain | baseline | library / baseline |");
    println!("|---|---|---|---|---|");
    for (measure, [library, plain]) in measures.zip(stacks) {
        let before = counts.baseline.get(&measure.name).map(|row| row.1);
        println!(
            "| {} | {library} | {plain} | {}",
            measure.name,
            beside(*library as f64, before)
        );
    }
}
