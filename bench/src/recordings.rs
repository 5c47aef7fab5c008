//! A long recording from a file, at several lengths: the library's scan, plain's, and the library's in pieces; and programs that go through the file, against a reading of it that does nothing.

use crate::packets::{Room, PIECE};
use plain::PACKET;
use std::fs::File;
use std::io::Read;
use std::process::{Command, Stdio};
use std::time::Instant;

/// So many rounds are taken, in which all sides take their turns.
const ROUNDS: usize = 15;
const ROUNDS_OF_PROGRAMS: usize = 7;

/// The least of the times that one side took, in seconds.
fn least(rounds: &[Vec<f64>], side: usize) -> f64 {
    rounds
        .iter()
        .map(|round| round[side])
        .fold(f64::MAX, f64::min)
}

fn timed(call: impl FnOnce()) -> f64 {
    let start = Instant::now();
    call();
    start.elapsed().as_secs_f64()
}

/// Reads a file into a buffer and does nothing with it.
fn read_through(file: &str) {
    let mut buffer = vec![0; 1 << 20];
    let mut file = File::open(file).expect("the recording");
    while file.read(&mut buffer).expect("the recording") > 0 {}
}

fn run(words: &[&str]) {
    let status = Command::new(words[0])
        .args(&words[1..])
        .stdout(Stdio::null())
        .stderr(Stdio::null())
        .status();
    assert!(status.expect("a program").success(), "{words:?}");
}

fn milliseconds(time: f64) -> String {
    format!("{:.1}", time * 1e3)
}

/// Prints the tables: of scans, for each file in memory; and of `UNITS TARGET LOOP FILE` and ffprobe.
pub fn print(loop_file: &str, units: &str, files: &[&str]) {
    println!("| Packets | MB | rows | library, ms | plain, ms | plain / library | in pieces of 64 KB, ms | pieces / one call | library, ns a packet | GB a second |");
    println!("|---|---|---|---|---|---|---|---|---|---|");
    for file in files {
        eprintln!("bench: scanning {file}");
        let bytes = std::fs::read(file).expect("the recording");
        let packets = bytes.len() / PACKET;
        let mut room = Room::new(packets);
        let answers = [
            room.library(&bytes),
            room.plain(&bytes),
            room.pieces(&bytes, PIECE),
        ];
        assert!(answers[0] % 256 == 0, "the recording is refused");
        assert!(answers.iter().all(|&one| one == answers[0]), "{answers:?}");
        let rounds: Vec<Vec<f64>> = (0..ROUNDS)
            .map(|_| {
                vec![
                    timed(|| drop(room.library(&bytes))),
                    timed(|| drop(room.plain(&bytes))),
                    timed(|| drop(room.pieces(&bytes, PIECE))),
                ]
            })
            .collect();
        let [library, plain, pieces] = [0, 1, 2].map(|side| least(&rounds, side));
        println!(
            "| {packets} | {} | {} | {} | {} | {:.2} | {} | {:.2} | {:.2} | {:.1} |",
            bytes.len() / 1_000_000,
            answers[0] / 256,
            milliseconds(library),
            milliseconds(plain),
            plain / library,
            milliseconds(pieces),
            pieces / library,
            library * 1e9 / packets as f64,
            bytes.len() as f64 / library / 1e9
        );
    }
    println!("\n| Packets | MB | `units`, ms | `units --rows`, ms | reading alone, ms | reading / `units` | `ffprobe -show_packets`, ms | ffprobe / `units` | `units`, million packets a second |");
    println!("|---|---|---|---|---|---|---|---|---|");
    for file in files {
        eprintln!("bench: programs over {file}");
        let length = std::fs::metadata(file).expect("the recording").len() as usize;
        let packets = length / PACKET;
        let sides = || {
            vec![
                timed(|| run(&[units, "1", loop_file, file])),
                timed(|| run(&[units, "--rows", "1", loop_file, file])),
                timed(|| read_through(file)),
            ]
        };
        sides();
        let rounds: Vec<Vec<f64>> = (0..ROUNDS_OF_PROGRAMS).map(|_| sides()).collect();
        // It takes long, and so once less is enough.
        let probe = || {
            vec![timed(|| {
                run(&["ffprobe", "-v", "error", "-show_packets", file])
            })]
        };
        let probes: Vec<Vec<f64>> = (0..2).map(|_| probe()).collect();
        let [told, rows, reading] = [0, 1, 2].map(|side| least(&rounds, side));
        let ffprobe = least(&probes, 0);
        println!(
            "| {packets} | {} | {} | {} | {} | {:.2} | {} | {:.1} | {:.1} |",
            length / 1_000_000,
            milliseconds(told),
            milliseconds(rows),
            milliseconds(reading),
            reading / told,
            milliseconds(ffprobe),
            ffprobe / told,
            packets as f64 / told / 1e6
        );
    }
}
