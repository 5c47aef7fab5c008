//! Calls and answers as text.

use crate::calls::{number, value, Call, Lists, CALLS, NOT_A_CALL};
use plain::Columns;
use std::fmt::{Display, Write};

/// An answer in words.
pub fn answer(answer: u64) -> String {
    match number(answer) {
        0 => format!("accepted, {}", value(answer)),
        NOT_A_CALL => format!("no call, at {}", value(answer)),
        number => format!("refused {number} at {}", value(answer)),
    }
}

pub fn hex(bytes: &[u8]) -> String {
    let mut text = format!("({} bytes)", bytes.len());
    for byte in bytes {
        write!(text, " {byte:02X}").expect("text");
    }
    text
}

pub fn numbers<T: Display>(list: &[T]) -> String {
    let mut text = format!("({} numbers)", list.len());
    for number in list {
        write!(text, " {number}").expect("text");
    }
    text
}

/// What a call consists of, by the names of the header.
pub fn parts(call: &Call) -> Vec<(&'static str, String)> {
    match call {
        Call::ReadLoop {
            reading,
            bytes,
            entries,
        } => vec![
            ("reading", reading.to_string()),
            ("bytes", hex(bytes)),
            ("entries", numbers(entries)),
        ],
        Call::WriteLoop { entries, out } => {
            vec![("entries", numbers(entries)), ("out", hex(out))]
        }
        Call::Closure {
            reading,
            bytes,
            target,
            set,
        } => vec![
            ("reading", reading.to_string()),
            ("bytes", hex(bytes)),
            ("target", target.to_string()),
            ("set", numbers(set)),
        ],
        Call::ReadTimes { bytes, times } => {
            vec![("bytes", hex(bytes)), ("times", numbers(times))]
        }
        Call::WriteTimes {
            pts,
            decoding,
            matching,
            with_tref,
            out,
        } => vec![
            ("pts", pts.to_string()),
            ("decoding", decoding.to_string()),
            ("match", matching.to_string()),
            ("with_tref", with_tref.to_string()),
            ("out", hex(out)),
        ],
        Call::Join {
            present,
            embedded,
            target,
            rows,
            lists,
        } => {
            let mut parts = vec![
                ("present", present.to_string()),
                ("embedded", numbers(embedded)),
                ("target", target.to_string()),
            ];
            parts.extend(joining(rows, lists));
            parts
        }
        Call::JoinLong {
            present,
            embedded,
            target,
            rows,
            work,
            lists,
        } => {
            let mut parts = vec![
                ("present", present.to_string()),
                ("embedded", numbers(embedded)),
                ("target", target.to_string()),
                ("work space", numbers(work)),
            ];
            parts.extend(joining(rows, lists));
            parts
        }
        Call::Import {
            reading,
            bytes,
            target,
            rows,
            lists,
        } => {
            let mut parts = vec![
                ("reading", reading.to_string()),
                ("bytes", hex(bytes)),
                ("target", target.to_string()),
            ];
            parts.extend(joining(rows, lists));
            parts
        }
        Call::ReadStereo(read) => vec![
            ("bytes", hex(&read.bytes)),
            ("entries", numbers(&read.entries)),
            ("extensions", numbers(&read.extensions)),
        ],
        Call::WriteStereo(write) => vec![
            ("entries", numbers(&write.entries)),
            ("extensions", numbers(&write.extensions)),
            ("out", hex(&write.out)),
        ],
        Call::ReadPoints(read) => vec![
            ("program", hex(&read.program)),
            ("bytes", hex(&read.bytes)),
            ("descriptors", numbers(&read.descriptors)),
            ("profiles", hex(&read.profiles)),
            ("points", numbers(&read.points)),
            ("references", hex(&read.references)),
            ("layers", hex(&read.layers)),
            ("streams", numbers(&read.streams)),
            ("summary", numbers(&read.summary)),
        ],
        Call::WritePoints(write) => vec![
            ("profiles", hex(&write.profiles)),
            ("points", numbers(&write.points)),
            ("references", hex(&write.references)),
            ("layers", hex(&write.layers)),
            ("out", hex(&write.out)),
        ],
    }
}

fn joining(rows: &Columns, lists: &Lists) -> [(&'static str, String); 7] {
    [
        ("indices", numbers(&rows.indices)),
        ("decodings", numbers(&rows.decodings)),
        ("matches", numbers(&rows.matches)),
        ("numbers", numbers(&lists.numbers)),
        ("lags", numbers(&lists.lags)),
        ("sizes", numbers(&lists.sizes)),
        ("summary", numbers(&lists.summary)),
    ]
}

/// A call before it is made.
pub fn call(call: &Call) -> String {
    let mut text = format!("thq_{}\n", CALLS[call.kind()].0);
    for (name, part) in parts(call) {
        writeln!(text, "  {name}: {part}").expect("text");
    }
    text
}
