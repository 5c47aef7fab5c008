//! Prints the units of a recording as it is read, a line each: its row numbers, then its lags.
//!
//!     cargo run --example units [TARGET LOOP RECORDING]

use std::fs::{self, File};
use std::{env, process};
use thoquenry::{LayerIndex, Recording};

fn main() -> Result<(), Box<dyn std::error::Error>> {
    let samples = concat!(env!("CARGO_MANIFEST_DIR"), "/../../samples/recordings");
    let words: Vec<String> = env::args().skip(1).collect();
    let (target, bytes, file) = match words.as_slice() {
        [] => (
            LayerIndex(1),
            fs::read(format!("{samples}/two-rates.bin"))?,
            File::open(format!("{samples}/two-rates.ts"))?,
        ),
        [target, bytes, file] => (
            LayerIndex(target.parse()?),
            fs::read(bytes)?,
            File::open(file)?,
        ),
        _ => {
            eprintln!("usage: units [TARGET LOOP RECORDING]");
            process::exit(2);
        }
    };

    let mut recording = Recording::new(&bytes)?;
    recording.feed_from(file)?;
    for unit in recording.units(target)?.units {
        let rows = unit.iter().map(|component| component.row.to_string());
        let lags = unit.iter().map(|component| component.lag.to_string());
        println!("{}", rows.chain(lags).collect::<Vec<_>>().join(" "));
    }
    Ok(())
}
