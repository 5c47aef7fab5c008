//! The cases of the program `packet_cases`, whose expected answers were derived by hand.

mod common;

use common::{bytes, file, same};
use plain::{Recording, RecordingRow, Refusal, MOST_ROWS, PACKET};
use std::fmt::{Display, Write};

/// What every place of a list holds before.
const BEFORE: u64 = 170;

/// The bytes of packets: each ended by a slash and filled, and what stands behind the last slash as it is; 'times N' for all so far N times.
fn packets(text: &str) -> Option<Vec<u8>> {
    let mut all = Vec::new();
    let mut parts = text.split('/').peekable();
    while let Some(part) = parts.next() {
        let part = part.trim_end();
        if let Some(times) = part.trim_start().strip_prefix("times ") {
            all = all.repeat(times.parse().ok()?);
            continue;
        }
        let mut packet = bytes(part)?;
        if parts.peek().is_some() {
            packet.resize(PACKET, 0xFF);
        }
        all.extend(packet);
    }
    Some(all)
}

fn refused(Refusal { number, place }: Refusal) -> String {
    format!("refused {number} place {place}\n")
}

/// The rows, where there are no more than there may be.
fn at_most(rows: Vec<RecordingRow>, most: usize) -> Result<Vec<RecordingRow>, Refusal> {
    match rows.len() > most {
        true => Err(Refusal::of(13)),
        false => Ok(rows),
    }
}

fn rows_told(rows: Result<Vec<RecordingRow>, Refusal>) -> String {
    let rows = match rows {
        Ok(rows) => rows,
        Err(refusal) => return refused(refusal),
    };
    let mut text = format!("accepted {}\n", rows.len());
    for (number, row) in rows.iter().enumerate() {
        writeln!(
            text,
            "  {number} {} {} {} {} {}",
            row.packet,
            row.index,
            row.decoding,
            row.matching,
            u8::from(row.tref_sent)
        )
        .unwrap();
    }
    text
}

/// Lists of these lengths, and how they are told.
struct Lists {
    numbers: Vec<u64>,
    lags: Vec<i64>,
    sizes: Vec<u64>,
    summary: Vec<u64>,
}

impl Lists {
    fn new([numbers, lags, sizes, summary]: [usize; 4]) -> Lists {
        Lists {
            numbers: vec![BEFORE; numbers],
            lags: vec![BEFORE as i64; lags],
            sizes: vec![BEFORE; sizes],
            summary: vec![BEFORE; summary],
        }
    }

    fn lent(&mut self) -> plain::Lists<'_> {
        plain::Lists {
            numbers: &mut self.numbers,
            lags: &mut self.lags,
            sizes: &mut self.sizes,
        }
    }
}

fn list<T: Display>(name: &str, values: &[T]) -> String {
    let words = values.iter().map(|value| format!(" {value}"));
    format!(" {name}{}", words.collect::<String>())
}

/// The units in lists with room enough.
fn units_told(join: impl FnOnce(plain::Lists) -> Result<plain::Units, Refusal>) -> String {
    let mut lists = Lists::new([600, 600, 600, 2]);
    let units = match join(lists.lent()) {
        Ok(units) => units,
        Err(refusal) => return refused(refusal),
    };
    let mut text = format!(
        "accepted {} closure {} units {}\n",
        units.rows, units.closure, units.count
    );
    let mut at = 0;
    for &size in &lists.sizes[..units.count] {
        let unit = at..at + size as usize;
        at = unit.end;
        let numbers = lists.numbers[unit.clone()].iter().map(u64::to_string);
        let words: Vec<String> = numbers
            .chain(lists.lags[unit].iter().map(i64::to_string))
            .collect();
        writeln!(text, "  {}", words.join(" ")).unwrap();
    }
    text
}

fn import(
    bytes: &[u8],
    target: u64,
    packets: &[u8],
    lists: plain::Lists,
) -> Result<plain::Units, Refusal> {
    plain::import_packets(bytes, target, packets, MOST_ROWS, lists).and_then(|(_, units)| units)
}

/// All lists to their ends; after a refusal they are as they were.
fn room(bytes: &[u8], lengths: [usize; 4], target: u64, packets: &[u8]) -> String {
    let mut lists = Lists::new(lengths);
    let units = import(bytes, target, packets, lists.lent()).and_then(|units| {
        let summary = lists.summary.get_mut(..2).ok_or(Refusal::of(17))?;
        summary.copy_from_slice(&[units.closure, units.count as u64]);
        Ok(units.rows)
    });
    let mut text = match units {
        Ok(rows) => format!("accepted {rows}\n"),
        Err(refusal) => {
            lists = Lists::new(lengths);
            refused(refusal)
        }
    };
    text += "  leaves";
    text += &list("numbers", &lists.numbers);
    text += &list("lags", &lists.lags);
    text += &list("sizes", &lists.sizes);
    text + &list("summary", &lists.summary) + "\n"
}

/// The rows in columns of so many places.
fn places(bytes: &[u8], length: usize, packets: &[u8]) -> String {
    let rows = plain::recording_rows(bytes, packets).and_then(|rows| at_most(rows, length));
    let mut text = match &rows {
        Ok(rows) => format!("accepted {}\n", rows.len()),
        Err(refusal) => refused(*refusal),
    };
    let rows = rows.unwrap_or_default();
    let column = |of: fn(&RecordingRow) -> u64| {
        let mut column: Vec<u64> = rows.iter().map(of).collect();
        column.resize(length, BEFORE);
        column
    };
    text += "  leaves";
    text += &list("packets", &column(|row| row.packet));
    text += &list("layers", &column(|row| u64::from(row.index)));
    text += &list("decodings", &column(|row| row.decoding));
    text += &list("matches", &column(|row| row.matching));
    text += &list("trefs", &column(|row| u64::from(row.tref_sent)));
    text + "\n"
}

/// The rows and the units of a recording that comes in pieces.
fn cut(bytes: &[u8], lengths: &[usize], target: u64, packets: &[u8]) -> String {
    let mut recording = match Recording::new(bytes) {
        Ok(recording) => recording,
        Err(refusal) => return refused(refusal).repeat(2),
    };
    let mut left = packets;
    for &length in lengths {
        let (piece, rest) = left.split_at(length.min(left.len()));
        recording.feed(piece);
        left = rest;
    }
    recording.feed(left);
    let told = recording.told().map(<[_]>::to_vec);
    let rows = rows_told(told.and_then(|rows| at_most(rows, MOST_ROWS)));
    rows + &units_told(|lists| recording.units(bytes, target, MOST_ROWS, lists))
}

fn numbers(word: &str) -> Option<Vec<usize>> {
    word.split(',').map(|number| number.parse().ok()).collect()
}

/// The answer to a case, by the loop of the cases.
fn answer(given: &[u8], kind: &str, words: &str) -> Option<String> {
    if kind == "rows" {
        let rows = plain::recording_rows(given, &packets(words)?);
        return Some(rows_told(rows.and_then(|rows| at_most(rows, MOST_ROWS))));
    }
    let (asked, text) = words.split_once('|')?;
    let asked: Vec<&str> = asked.split_ascii_whitespace().collect();
    let packets = packets(text)?;
    match (kind, &asked[..]) {
        ("units", [target]) => {
            let target = target.parse().ok()?;
            Some(units_told(|lists| import(given, target, &packets, lists)))
        }
        ("room", [lengths, target]) => {
            let lengths = <[usize; 4]>::try_from(numbers(lengths)?).ok()?;
            Some(room(given, lengths, target.parse().ok()?, &packets))
        }
        ("places", [length]) => Some(places(given, length.parse().ok()?, &packets)),
        ("cut", [lengths, target]) => {
            let lengths = numbers(lengths)?;
            Some(cut(given, &lengths, target.parse().ok()?, &packets))
        }
        _ => None,
    }
}

#[test]
fn cases() {
    let mut answers = String::new();
    let mut given = Vec::new();
    for line in file("crates/packet_cases/stdin").lines() {
        if line.is_empty() || line.starts_with('#') {
            answers += line;
            answers.push('\n');
            continue;
        }
        let (kind, words) = line.split_at(line.find(' ').unwrap_or(line.len()));
        if kind == "loop" {
            given = bytes(words).expect("a loop");
            continue;
        }
        let told = answer(&given, kind, words);
        answers += told.as_deref().unwrap_or("unreadable\n");
    }
    same(&answers, &file("crates/packet_cases/stdout"));
}
