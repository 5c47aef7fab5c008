//! The cases of the programs `loop_cases`, `pes_cases` and `layers`, whose expected answers were derived by hand.

mod common;

use common::{bytes, file, same, ROOT};
use plain::{Entry, Reading, Record, Refusal, Times};
use std::fmt::Write;

fn entry_line(entry: &Entry) -> String {
    let mut line = format!("  type {} pid {}", entry.stream_type, entry.pid);
    match &entry.record {
        None => line += " no record",
        Some(Record::Implied) => line += " implied",
        Some(Record::Hierarchy(h)) => {
            write!(
                line,
                " hierarchy no_view {} no_temporal {} no_spatial {} no_quality {} type {} index {} tref {} embedded {} channel {}",
                u8::from(h.no_view),
                u8::from(h.no_temporal),
                u8::from(h.no_spatial),
                u8::from(h.no_quality),
                h.hierarchy_type,
                h.layer_index,
                u8::from(h.tref_present),
                h.embedded_index,
                h.channel
            )
            .unwrap();
        }
        Some(Record::Extension(e)) => {
            write!(
                line,
                " extension dimensions {} index {} temporal_id {} nuh_layer_id {} tref {} channel {} embedded",
                e.dimension_bits,
                e.layer_index,
                e.temporal_id,
                e.nuh_layer_id,
                u8::from(e.tref_present),
                e.channel
            )
            .unwrap();
            for index in e.embedded.as_slice() {
                write!(line, " {index}").unwrap();
            }
        }
    }
    line
}

fn loop_answer(reading: Reading, bytes: &[u8]) -> String {
    match plain::read_loop(reading, bytes) {
        Err(Refusal { number, place }) => format!("refused {number} entry {place}\n"),
        Ok(entries) => {
            let mut text = format!("accepted {}\n", entries.len());
            for entry in &entries {
                text += &entry_line(entry);
                text.push('\n');
            }
            text
        }
    }
}

#[test]
fn loops() {
    let cases = file("crates/loop_cases/stdin");
    let mut answers = String::new();
    for line in cases.lines() {
        let reading = match line.get(..4) {
            Some("2009") => Some(Reading::Of2009),
            Some("2015") => Some(Reading::Of2015),
            _ => None,
        };
        if line.is_empty() || line.starts_with('#') {
            answers += line;
            answers.push('\n');
        } else if let Some((reading, bytes)) = reading.zip(line.get(4..).and_then(bytes)) {
            answers += &loop_answer(reading, &bytes);
        } else {
            answers += "unreadable\n";
        }
    }
    same(&answers, &file("crates/loop_cases/stdout"));
}

#[test]
fn headers() {
    let cases = file("crates/pes_cases/stdin");
    let mut answers = String::new();
    for line in cases.lines() {
        let (name, case) = line.split_once(':').unwrap();
        answers += name;
        answers.push_str(": ");
        if line.starts_with("read") {
            match plain::read_times(&bytes(case).unwrap()) {
                Ok(header) => writeln!(
                    answers,
                    "times {} {} {}, {}, ends at {}",
                    header.times.pts,
                    header.times.decoding,
                    header.times.matching,
                    if header.tref_sent { "TREF" } else { "no TREF" },
                    header.end
                ),
                Err(refusal) => writeln!(answers, "refused {}", refusal.number),
            }
            .unwrap();
            continue;
        }
        let numbers: Vec<u64> = case
            .split_ascii_whitespace()
            .map(|word| word.parse().unwrap())
            .collect();
        let times = Times {
            pts: numbers[0],
            decoding: numbers[1],
            matching: numbers[2],
        };
        let mut out = vec![0xAA; numbers[4] as usize];
        match plain::write_times(times, numbers[3] == 1, &mut out) {
            Ok(length) => write!(answers, "bytes {length} leaves"),
            Err(refusal) => write!(answers, "refused {} leaves", refusal.number),
        }
        .unwrap();
        for byte in out {
            write!(answers, " {byte:02x}").unwrap();
        }
        answers.push('\n');
    }
    same(&answers, &file("crates/pes_cases/stdout"));
}

/// What `layers` prints of a loop.
fn listing(bytes: &[u8]) -> String {
    let entries = match plain::read_loop(Reading::Of2015, bytes) {
        Err(Refusal { number, place }) => return format!("refused {number} entry {place}\n"),
        Ok(entries) => entries,
    };
    let layers = plain::layers_of(&entries);
    let mut text = format!("accepted {}\n", layers.present.count_ones());
    for index in 0..64_u8 {
        let of_index = |entry: &&Entry| entry.layer_index() == Some(index);
        if let Some(layer) = entries.iter().find(of_index) {
            write!(
                text,
                "layer {index} pid {} type {} channel {} closure",
                layer.pid,
                layer.stream_type,
                layer.channel().expect("a layer")
            )
            .unwrap();
            match plain::closure(&layers, u64::from(index)) {
                Err(_) => text += " absent",
                Ok(closure) => {
                    for lower in (0..64).filter(|lower| closure >> lower & 1 != 0) {
                        write!(text, " {lower}").unwrap();
                    }
                }
            }
            text.push('\n');
        }
    }
    text
}

#[test]
fn samples() {
    for name in [
        "absent",
        "loop-a",
        "mv-hevc",
        "mvc",
        "refused",
        "sports",
        "stereo",
        "stereo-implied",
        "svc",
        "twelve",
    ] {
        let bytes = std::fs::read(format!("{ROOT}samples/{name}.bin")).expect(name);
        same(&listing(&bytes), &file(&format!("tests/layers/{name}.txt")));
    }
    same(&listing(&[]), &file("tests/layers/empty.txt"));
    same(&listing(&[0; 1009]), &file("tests/layers/too-long.txt"));
}
