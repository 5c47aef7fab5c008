//! Layer indices, sets of them, and the layers that rows are joined over.

use std::fmt;

/// What a layer is: hierarchy_layer_index, six bits.
#[derive(Clone, Copy, Debug, Default, PartialEq, Eq, PartialOrd, Ord, Hash)]
pub struct LayerIndex(pub u8);

impl fmt::Display for LayerIndex {
    fn fmt(&self, to: &mut fmt::Formatter) -> fmt::Result {
        self.0.fmt(to)
    }
}

/// A set of layer indices below 64: bit i is 1 when index i is one of them. It prints as its indices: `{0, 2}`.
#[derive(Clone, Copy, Default, PartialEq, Eq, Hash)]
pub struct LayerIndices(pub u64);

impl fmt::Display for LayerIndices {
    fn fmt(&self, to: &mut fmt::Formatter) -> fmt::Result {
        to.debug_set()
            .entries(self.iter().map(|index| index.0))
            .finish()
    }
}

impl fmt::Debug for LayerIndices {
    fn fmt(&self, to: &mut fmt::Formatter) -> fmt::Result {
        write!(to, "LayerIndices {self}")
    }
}

impl LayerIndices {
    /// Whether an index is one of the set's.
    pub fn contains(self, index: LayerIndex) -> bool {
        index.0 < 64 && self.0 >> index.0 & 1 == 1
    }

    /// How many indices the set has.
    pub fn len(self) -> usize {
        self.0.count_ones() as usize
    }

    /// Whether it has none.
    pub fn is_empty(self) -> bool {
        self.0 == 0
    }

    /// Its indices, rising.
    pub fn iter(self) -> impl Iterator<Item = LayerIndex> {
        (0..64)
            .map(LayerIndex)
            .filter(move |&index| self.contains(index))
    }
}

impl FromIterator<LayerIndex> for LayerIndices {
    /// The set of these indices. An index above 63 is no layer's, and is left out.
    fn from_iter<I: IntoIterator<Item = LayerIndex>>(indices: I) -> LayerIndices {
        let below_64 = indices.into_iter().filter(|index| index.0 < 64);
        LayerIndices(below_64.fold(0, |set, index| set | 1 << index.0))
    }
}

/// The layers that rows are joined over, where they do not come from a loop's bytes.
#[derive(Clone, Debug, PartialEq, Eq)]
pub struct Layers {
    /// The indices that there is a layer of.
    pub present: LayerIndices,
    /// For each index the set of the indices that its layer names. Those not below its own count for nothing.
    pub embedded: [LayerIndices; 64],
}

impl Layers {
    /// No layers.
    pub fn new() -> Layers {
        Layers {
            present: LayerIndices(0),
            embedded: [LayerIndices(0); 64],
        }
    }

    /// These layers with one more, of this index, that names these. An index above 63 is no layer's, and adds none.
    pub fn with(mut self, index: u8, embedded: &[u8]) -> Layers {
        if index < 64 {
            self.present.0 |= 1 << index;
            self.embedded[usize::from(index)] = embedded.iter().copied().map(LayerIndex).collect();
        }
        self
    }
}

impl Default for Layers {
    fn default() -> Layers {
        Layers::new()
    }
}
