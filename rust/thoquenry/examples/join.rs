//! Reads the sample loop A and joins a table of four rows over its layers 0 and 1.
//!
//!     cargo run --example join [FILE]

use std::{env, fs};
use thoquenry::{import, read_loop, LayerIndex, Reading, Row};

fn main() -> Result<(), Box<dyn std::error::Error>> {
    let sample = concat!(env!("CARGO_MANIFEST_DIR"), "/../../samples/loop-a.bin");
    let bytes = fs::read(env::args().nth(1).unwrap_or_else(|| sample.into()))?;

    for entry in read_loop(Reading::Edition2015, &bytes)? {
        let (pid, stream_type) = (entry.elementary_pid, entry.stream_type);
        println!("pid {pid} type {stream_type}");
    }

    let rows = [
        (0, 9000, 9000),
        (1, 9000, 9000),
        (0, 12600, 12600),
        (1, 12000, 12600),
    ]
    .map(|(index, decoding, matching)| Row {
        layer_index: LayerIndex(index),
        decoding,
        matching,
    });
    let joined = import(Reading::Edition2015, &bytes, LayerIndex(1), &rows)?;
    for unit in &joined.units {
        print!("unit");
        for component in unit {
            let layer = rows[component.row].layer_index;
            print!(" layer {layer} row {} lag {}", component.row, component.lag);
        }
        println!();
    }
    Ok(())
}
