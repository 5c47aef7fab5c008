//! The cases of the program `point_cases`, whose expected answers were derived by hand, and what holds of every point that is accepted.

mod common;

use common::{bytes, file, same, ROOT};
use plain::{FrameRate, Point, PointLists, Reading, Refusal, StreamList, POINT_NUMBERS};
use std::fmt::Write;

/// The parts of a line, one that is not there empty.
fn parts<const COUNT: usize>(words: &str) -> [String; COUNT] {
    let mut parts = words.split('|');
    [(); COUNT].map(|()| parts.next().unwrap_or("").to_string())
}

/// The bytes of a part, which has a blank or a bar before it.
fn part(words: &str) -> Option<Vec<u8>> {
    bytes(&format!(" {}", words.trim()))
}

/// The numbers of a word, at most eight.
fn numbers(word: &str) -> Option<Vec<u64>> {
    let numbers: Option<Vec<u64>> = word.split(',').map(|number| number.parse().ok()).collect();
    numbers.filter(|numbers| numbers.len() <= 8)
}

/// The numbers of all words; `*N` is all those before it, N times.
fn all_numbers(words: &str) -> Option<Vec<u32>> {
    let mut all = Vec::new();
    for word in words.split_ascii_whitespace() {
        match word.strip_prefix('*') {
            Some(times) => all = all.repeat(times.parse().ok()?),
            None => all.extend(
                numbers(word)?
                    .iter()
                    .map(|&one| u32::try_from(one).unwrap_or(u32::MAX)),
            ),
        }
    }
    Some(all)
}

fn in_hex(label: &str, bytes: &[u8]) -> String {
    let mut line = format!("  {label}");
    for byte in bytes {
        write!(line, " {byte:02x}").unwrap();
    }
    line + "\n"
}

fn in_decimal<T: ToString>(label: &str, numbers: &[T]) -> String {
    let mut line = format!("  {label}");
    for number in numbers {
        line.push(' ');
        line += &number.to_string();
    }
    line + "\n"
}

fn refused(Refusal { number, place }: Refusal) -> String {
    format!("refused {number} place {place}\n")
}

const LABELS: [&str; POINT_NUMBERS] = [
    "target_ols",
    "ES_count",
    "numEsInOp",
    "avg_bit_rate_info_flag",
    "max_bit_rate_info_flag",
    "constant_frame_rate_info_idc",
    "applicable_temporal_id",
    "frame_rate_indicator",
    "avg_bit_rate",
    "max_bit_rate",
    "streams",
    "closed",
];

fn read(words: &str) -> Option<String> {
    let [program, streams] = parts(words);
    let lists = match plain::read_points(&part(&program)?, &part(&streams)?) {
        Err(refusal) => return Some(refused(refusal)),
        Ok(points) => PointLists::of(&points),
    };
    let mut text = format!("accepted {}\n", lists.summary()[2]);
    text += &in_decimal("descriptors", &lists.descriptors);
    text += &in_hex("profiles", &lists.profiles);
    for point in lists.points.chunks(POINT_NUMBERS) {
        text += "  point";
        for (label, number) in LABELS.iter().zip(point) {
            write!(text, " {label} {number}").unwrap();
        }
        text.push('\n');
    }
    text += &in_hex("references", &lists.references);
    text += &in_hex("layers", &lists.layers);
    text += &in_decimal("streams", &lists.streams);
    Some(text)
}

/// A list of so many places after what was written into it; nothing where that doesn't fit.
fn filled<T: Copy>(places: u64, held: T, written: &[T]) -> Option<Vec<T>> {
    let mut list = vec![held; places as usize];
    list.get_mut(..written.len())?.copy_from_slice(written);
    Some(list)
}

/// The seven lists after a call, or nothing where one has no room.
fn laid(rooms: &[u64], lists: &PointLists, summary: &[u32]) -> Option<String> {
    let mut text = in_decimal(
        "leaves descriptors",
        &filled(rooms[0], 170, &lists.descriptors)?,
    );
    text += &in_hex("leaves profiles", &filled(rooms[1], 0xAA, &lists.profiles)?);
    text += &in_decimal("leaves points", &filled(rooms[2], 170, &lists.points)?);
    text += &in_hex(
        "leaves references",
        &filled(rooms[3], 0xAA, &lists.references)?,
    );
    text += &in_hex("leaves layers", &filled(rooms[4], 0xAA, &lists.layers)?);
    text += &in_decimal("leaves streams", &filled(rooms[5], 170, &lists.streams)?);
    text += &in_decimal("leaves summary", &filled(rooms[6], 170, summary)?);
    Some(text)
}

fn room(words: &str) -> Option<String> {
    let (rooms, words) = words.trim_start().split_once(' ')?;
    let rooms = numbers(rooms).filter(|rooms| rooms.len() == 7)?;
    if rooms.iter().any(|&places| places > 64) {
        return None;
    }
    let [program, streams] = parts(words);
    let read = plain::read_points(&part(&program)?, &part(&streams)?);
    let answer = read.and_then(|points| {
        let lists = PointLists::of(&points);
        let laid = laid(&rooms, &lists, &lists.summary()).ok_or(Refusal::of(17))?;
        Ok(format!("accepted {}\n{laid}", lists.summary()[2]))
    });
    Some(answer.unwrap_or_else(|refusal| {
        let untouched = laid(&rooms, &PointLists::default(), &[]).expect("nothing has room");
        refused(refusal) + &untouched
    }))
}

fn write(words: &str) -> Option<String> {
    let [size, profiles, points, references, layers] = parts(words);
    let size = size.trim().parse().ok().filter(|&size| size <= 300)?;
    let (profiles, references, layers) = (part(&profiles)?, part(&references)?, part(&layers)?);
    let points = all_numbers(&points)?;
    let mut out = vec![0xAA; size];
    let answer = plain::descriptor_of_lists(&profiles, &points, &references, &layers)
        .and_then(|descriptor| plain::write_points(&descriptor, &mut out));
    let mut text = match answer {
        Ok(length) => format!("bytes {length} leaves"),
        Err(Refusal { number, place }) => format!("refused {number} place {place} leaves"),
    };
    for byte in out {
        write!(text, " {byte:02x}").unwrap();
    }
    Some(text + "\n")
}

#[test]
fn cases() {
    let mut answers = String::new();
    for line in file("crates/point_cases/stdin").lines() {
        if line.is_empty() || line.starts_with('#') {
            answers += line;
            answers.push('\n');
            continue;
        }
        let (kind, words) = line.split_at(line.find(' ').unwrap_or(line.len()));
        let answer = match kind {
            "read" => read(words),
            "room" => room(words),
            "write" => write(words),
            _ => None,
        };
        answers += answer.as_deref().unwrap_or("unreadable\n");
    }
    same(&answers, &file("crates/point_cases/stdout"));
}

/// Of every point that is accepted: a list that is closed is, ordered by index, the union of the closures of its members, each of them complete. Written again, each descriptor is
/// read as the same.
#[test]
fn accepted_points() {
    let (mut points, mut closed, mut descriptors) = (0, 0, 0);
    for line in file("crates/point_cases/stdin").lines() {
        let words = match line.strip_prefix("read ") {
            Some(words) => words,
            None => continue,
        };
        let [program, streams] = parts(words);
        let (program, streams) = match part(&program).zip(part(&streams)) {
            Some(both) => both,
            None => continue,
        };
        let read = match plain::read_points(&program, &streams) {
            Ok(read) => read,
            Err(_) => continue,
        };
        let layers = plain::layers_of_loop(Reading::Of2015, &streams).unwrap();
        for (_, list) in read.points() {
            points += 1;
            let set = list
                .members
                .iter()
                .fold(0, |set, member| set | 1_u64 << member);
            assert_eq!(
                set.count_ones() as usize,
                list.members.len(),
                "a member twice"
            );
            let closures = list
                .members
                .iter()
                .map(|&member| plain::closure(&layers, u64::from(member)));
            let union = closures.fold(Some(0), |union, one| Some(union? | one.ok()?));
            assert_eq!(list.closed, union == Some(set));
            closed += u32::from(list.closed);
        }
        for descriptor in &read.descriptors {
            descriptors += 1;
            let mut out = [0; 257];
            let length = plain::write_points(descriptor, &mut out).unwrap();
            let again = plain::read_points(&out[..length], &streams).unwrap();
            assert_eq!(again.descriptors, std::slice::from_ref(descriptor));
            let lists = PointLists::of_descriptor(descriptor);
            let given = plain::descriptor_of_lists(
                &lists.profiles,
                &lists.points,
                &lists.references,
                &lists.layers,
            );
            assert_eq!(given.as_ref(), Ok(descriptor));
        }
    }
    assert!(
        points > 60 && closed > 40 && closed < points && descriptors > 60,
        "{points} {closed} {descriptors}"
    );
}

/// What `points` prints of a point after its number.
fn line(point: &Point, list: &StreamList) -> String {
    let told = |rate: Option<u32>| rate.map_or("none".to_string(), |rate| rate.to_string());
    let rate = match point.frame_rate {
        None => "frame_rate none".to_string(),
        Some(FrameRate::Ticks(ticks)) => format!("frame_ticks {ticks}"),
        Some(FrameRate::PerSecond(frames)) => format!("frame_rate {frames}"),
        Some(FrameRate::Per1001Milliseconds(frames)) => format!("frame_rate {frames}/1.001"),
    };
    let members: Vec<String> = list.members.iter().map(u8::to_string).collect();
    format!(
        "target_ols {} temporal_id {} {rate} average {} maximum {} closed {} streams {}",
        point.target_ols,
        point.temporal_id,
        told(point.average_bit_rate),
        told(point.maximum_bit_rate),
        if list.closed { "yes" } else { "no" },
        if members.is_empty() {
            "none".to_string()
        } else {
            members.join(" ")
        }
    )
}

/// What `points` prints of two loops.
fn lines(program: &[u8], streams: &[u8]) -> String {
    let read = match plain::read_points(program, streams) {
        Err(Refusal { number, place }) => return format!("refused {number} entry {place}\n"),
        Ok(read) => read,
    };
    let mut text = format!("accepted {}\n", read.streams.len());
    for (number, (point, list)) in read.points().enumerate() {
        writeln!(text, "point {number} {}", line(point, list)).unwrap();
    }
    text
}

#[test]
fn samples() {
    let sample = |name: &str| std::fs::read(format!("{ROOT}samples/{name}.bin")).expect(name);
    let text = |name: &str| file(&format!("tests/points/{name}.txt"));
    let streams = sample("mv-hevc");
    for name in ["views", "none", "does-not-fit", "reserved", "unknown"] {
        same(
            &lines(&sample(&format!("points/{name}")), &streams),
            &text(name),
        );
    }
    let views = sample("points/views");
    same(&lines(&[], &[]), &text("empty"));
    same(&lines(&[], &streams), &text("empty"));
    same(&lines(&[0; 1009], &streams), &text("too-long"));
    same(&lines(&views, &[0; 1009]), &text("loop-too-long"));
    same(&lines(&views, &sample("refused")), &text("refused-loop"));
    same(&lines(&views, &sample("absent")), &text("unknown"));
}
