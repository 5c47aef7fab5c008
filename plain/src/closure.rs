//! Layers and what a target layer rests on.

use crate::{read_loop_with, Entry, Reading, Refusal};

/// The layers of a loop: which indices there are, and for each the set of the indices that it names. Sets have a bit for each index.
#[derive(Clone, Copy, Debug, PartialEq, Eq)]
pub struct Layers {
    /// The indices of the layers that there are.
    pub present: u64,
    /// For each index what that layer names; only indices below its own count.
    pub embedded: [u64; 64],
}

impl Default for Layers {
    fn default() -> Layers {
        Layers {
            present: 0,
            embedded: [0; 64],
        }
    }
}

impl Layers {
    /// Adds the layer that an entry describes, if it describes one.
    fn add(&mut self, entry: &Entry) {
        if let Some(index) = entry.layer_index() {
            let index = index & 63;
            self.present |= 1 << index;
            self.embedded[usize::from(index)] = entry
                .embedded()
                .iter()
                .fold(0, |named, lower| named | 1 << (lower & 63));
        }
    }

    /// What a layer names below itself.
    pub fn below(&self, index: usize) -> u64 {
        self.embedded[index] & ((1 << index) - 1)
    }
}

/// The layers of an accepted loop.
pub fn layers_of(entries: &[Entry]) -> Layers {
    let mut layers = Layers::default();
    for entry in entries {
        layers.add(entry);
    }
    layers
}

/// The layers of a loop straight from its bytes, or the refusal, 1 to 9.
pub fn layers_of_loop(reading: Reading, bytes: &[u8]) -> Result<Layers, Refusal> {
    let mut layers = Layers::default();
    read_loop_with(reading, bytes, |entry| layers.add(entry))?;
    Ok(layers)
}

/// The set of the layers that a target rests on, itself included, or 11 or 12.
pub fn closure(layers: &Layers, target: u64) -> Result<u64, Refusal> {
    if target > 63 || layers.present >> target & 1 == 0 {
        return Err(Refusal::of(11));
    }
    // A layer names lower ones only, so that one walk down meets every layer after all that name it.
    let mut reached = 1 << target;
    let mut left: u64 = reached;
    while left != 0 {
        let index = 63 - left.leading_zeros() as usize;
        left ^= 1 << index;
        if layers.present >> index & 1 != 0 {
            reached |= layers.below(index);
            left |= layers.below(index);
        }
    }
    match reached & !layers.present {
        0 => Ok(reached),
        missing => Err(Refusal::at(12, missing.trailing_zeros() as usize)),
    }
}

/// The closure of a target in a loop, or the refusal, 1 to 12.
pub fn closure_of_loop(reading: Reading, bytes: &[u8], target: u64) -> Result<u64, Refusal> {
    closure(&layers_of_loop(reading, bytes)?, target)
}
