//! The cases of the program `stereo_cases`, whose expected answers were derived by hand, and what holds of every set that is accepted.

mod common;

use common::{bytes, file, same, ROOT};
use plain::Reading::{Of2009, Of2015};
use plain::{Entry, Hierarchy, MvcExtension, Record, Refusal, StereoSet};
use std::fmt::Write;

/// What the program prints of one view.
fn view_line(set: &StereoSet, view: usize) -> String {
    let (entry, extension) = (&set.entries[view], &set.extensions[view]);
    let mut line = format!("  type {} pid {}", entry.stream_type, entry.pid);
    match &entry.record {
        Some(Record::Hierarchy(h)) => write!(
            line,
            " hierarchy no_view {} no_temporal {} no_spatial {} no_quality {} type {} index {} tref {} embedded {} channel {}",
            u8::from(h.no_view),
            u8::from(h.no_temporal),
            u8::from(h.no_spatial),
            u8::from(h.no_quality),
            h.hierarchy_type,
            h.layer_index,
            u8::from(h.tref_present),
            h.embedded_index,
            h.channel
        ),
        Some(Record::Implied) => write!(line, " implied"),
        other => panic!("no view of a stereo set has {other:?}"),
    }
    .unwrap();
    writeln!(
        line,
        " average {} maximum {} views {} to {} temporal_ids {} to {} no_sei {} no_prefix {}",
        extension.average_bit_rate,
        extension.maximum_bitrate,
        extension.view_order_index_min,
        extension.view_order_index_max,
        extension.temporal_id_start,
        extension.temporal_id_end,
        u8::from(extension.no_sei_nal_unit_present),
        u8::from(extension.no_prefix_nal_unit_present)
    )
    .unwrap();
    line
}

fn read(words: &str) -> Option<String> {
    Some(match plain::read_stereo(&bytes(words)?) {
        Ok(set) => format!("accepted\n{}{}", view_line(&set, 0), view_line(&set, 1)),
        Err(Refusal { number, place }) => format!("refused {number} place {place}\n"),
    })
}

/// The numbers of a word.
fn numbers(word: &str) -> Option<Vec<u64>> {
    word.split(',').map(|number| number.parse().ok()).collect()
}

fn extension(word: &str) -> Option<MvcExtension> {
    match numbers(word)?[..] {
        [average, maximum, least, greatest, start, end, no_sei, no_prefix] => Some(MvcExtension {
            average_bit_rate: average as u16,
            maximum_bitrate: maximum as u16,
            view_order_index_min: least as u16,
            view_order_index_max: greatest as u16,
            temporal_id_start: start as u8,
            temporal_id_end: end as u8,
            no_sei_nal_unit_present: no_sei == 1,
            no_prefix_nal_unit_present: no_prefix == 1,
        }),
        _ => None,
    }
}

/// The entries of a word: mostly one, or several that are no layers, with rising PIDs.
fn entries(word: &str) -> Option<Vec<Entry>> {
    let numbers = numbers(word)?;
    let at = |place: usize, other: u64| numbers.get(place).copied().unwrap_or(other);
    let record = match at(2, 0) {
        0 => None,
        1 => Some(Record::Hierarchy(Hierarchy {
            no_view: at(7, 15) & 8 != 0,
            no_temporal: at(7, 15) & 4 != 0,
            no_spatial: at(7, 15) & 2 != 0,
            no_quality: at(7, 15) & 1 != 0,
            hierarchy_type: at(3, 0) as u8,
            layer_index: at(4, 0) as u8,
            tref_present: false,
            embedded_index: at(5, 0) as u8,
            channel: at(6, 0) as u8,
        })),
        3 => Some(Record::Implied),
        _ => return None,
    };
    let times = if record.is_none() { at(3, 1) } else { 1 };
    let entry = |more: u64| Entry {
        stream_type: at(0, 0) as u8,
        pid: (at(1, 0) + more) as u16,
        record,
    };
    Some((0..times).map(entry).collect())
}

fn write(words: &str) -> Option<String> {
    let mut words = words.split_ascii_whitespace();
    let room = words.next()?.parse().ok()?;
    let extensions = [extension(words.next()?)?, extension(words.next()?)?];
    let given: Option<Vec<Vec<Entry>>> = words.map(entries).collect();
    let mut out = vec![0xAA; room];
    let mut text = match plain::write_stereo(&given?.concat(), &extensions, &mut out) {
        Ok(length) => format!("bytes {length} leaves"),
        Err(Refusal { number, place }) => format!("refused {number} place {place} leaves"),
    };
    for byte in out {
        write!(text, " {byte:02x}").unwrap();
    }
    text.push('\n');
    Some(text)
}

#[test]
fn cases() {
    let mut answers = String::new();
    for line in file("crates/stereo_cases/stdin").lines() {
        if line.is_empty() || line.starts_with('#') {
            answers += line;
            answers.push('\n');
            continue;
        }
        let (kind, words) = line.split_at(line.find(' ').unwrap_or(line.len()));
        let answer = match kind {
            "read" => read(words),
            "write" => write(words),
            _ => None,
        };
        answers += answer.as_deref().unwrap_or("unreadable\n");
    }
    same(&answers, &file("crates/stereo_cases/stdout"));
}

/// A set that is accepted is accepted by both readings, with closure 0, 1 of target 1 and 0 alone of target 0; written again from what was read, in the
/// writer's own shape, it is read as the same.
#[test]
fn accepted_sets() {
    let mut count = 0;
    for line in file("crates/stereo_cases/stdin").lines() {
        let loop_bytes = match line.strip_prefix("read").and_then(bytes) {
            Some(bytes) => bytes,
            None => continue,
        };
        if let Ok(set) = plain::read_stereo(&loop_bytes) {
            count += 1;
            let entries = plain::read_loop(Of2015, &loop_bytes).unwrap();
            let mut out = vec![0; plain::LONGEST_LOOP];
            let length = plain::write_stereo(&entries, &set.extensions, &mut out).unwrap();
            assert_eq!(plain::read_stereo(&out[..length]), Ok(set));
            for reading in [Of2009, Of2015] {
                for bytes in [&loop_bytes[..], &out[..length]] {
                    assert!(plain::read_loop(reading, bytes).is_ok());
                    assert_eq!(plain::closure_of_loop(reading, bytes, 0), Ok(0b01));
                    assert_eq!(plain::closure_of_loop(reading, bytes, 1), Ok(0b11));
                }
            }
        }
    }
    let answers = file("crates/stereo_cases/stdout");
    let accepted = answers.lines().filter(|line| *line == "accepted");
    assert_eq!(count, accepted.count());
}

/// What `stereo` prints of a loop.
fn lines(bytes: &[u8]) -> String {
    match plain::read_stereo(bytes) {
        Err(Refusal { number, place }) => format!("refused {number} entry {place}\n"),
        Ok(set) => {
            let mut text = String::from("accepted 2\n");
            for (layer, (entry, extension)) in set.entries.iter().zip(set.extensions).enumerate() {
                writeln!(
                    text,
                    "layer {layer} pid {} views {} to {} average {} maximum {}",
                    entry.pid,
                    extension.view_order_index_min,
                    extension.view_order_index_max,
                    extension.average_bit_rate,
                    extension.maximum_bitrate
                )
                .unwrap();
            }
            text
        }
    }
}

#[test]
fn samples() {
    for name in [
        "absent",
        "loop-a",
        "mv-hevc",
        "mvc",
        "refused",
        "sports",
        "stereo",
        "stereo-implied",
        "svc",
        "twelve",
    ] {
        let bytes = std::fs::read(format!("{ROOT}samples/{name}.bin")).expect(name);
        same(&lines(&bytes), &file(&format!("tests/stereo/{name}.txt")));
    }
    same(&lines(&[]), &file("tests/stereo/empty.txt"));
    same(&lines(&[0; 1009]), &file("tests/stereo/too-long.txt"));
}

/// The sample of a written set is what the writer writes of it.
#[test]
fn the_sample_is_written() {
    let sample = std::fs::read(format!("{ROOT}samples/stereo.bin")).unwrap();
    let entries = plain::read_loop(Of2015, &sample).unwrap();
    let set = plain::read_stereo(&sample).unwrap();
    let mut out = vec![0xAA; sample.len() + 1];
    let length = plain::write_stereo(&entries, &set.extensions, &mut out).unwrap();
    assert_eq!((length, out[length]), (sample.len(), 0xAA));
    assert_eq!(out[..length], sample);
}
