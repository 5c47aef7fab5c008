//! Layer sets, which change as layers come and go.

use crate::entry::Entry;
use crate::layers::{LayerIndex, LayerIndices};
use crate::{accepted, Reading, Refusal};
use std::fmt;
use thoquenry_sys as raw;
use thoquenry_sys::{THQ_ENTRY_NUMBERS, THQ_NO_RECORD, THQ_SET_LAYERS, THQ_SET_STORED};

/// The layer indices that there are.
const INDICES: usize = 64;

/// A layer of a [`LayerSet`], and what is stored of its closure.
#[derive(Clone, Debug, PartialEq, Eq, Hash)]
pub struct Layer {
    /// Its index.
    pub index: LayerIndex,
    /// Its stream type, PID and record.
    pub entry: Entry,
    /// The layers that it rests on, itself included. An absent one is among them as it is named; what lies below that is unknown.
    pub closure: LayerIndices,
    /// How many these are, absent ones included.
    pub closure_size: usize,
    /// Whether one of them is absent.
    pub absent: bool,
}

/// The layers of a program, by index, each with its closure, which the library works out and keeps as layers come and go. A refused change leaves
/// the set as it was.
///
/// ```
/// use thoquenry::{LayerIndex, LayerSet, Reading, Refusal};
///
/// let bytes = [0x1B, 0xE1, 0x20, 0xF0, 0x00, 0x20, 0xE1, 0x21, 0xF0, 0x00]; // two views
/// let mut set = LayerSet::read(Reading::Edition2015, &bytes)?;
/// assert_eq!(set.closure(LayerIndex(1))?.to_string(), "{0, 1}");
/// set.remove(LayerIndex(0))?;
/// let absent = Refusal::EmbeddedLayerAbsent { index: LayerIndex(0) };
/// assert_eq!(set.closure(LayerIndex(1)), Err(absent));
/// # Ok::<(), Refusal>(())
/// ```
#[derive(Clone, PartialEq, Eq, Hash)]
pub struct LayerSet {
    // Both are written by the library alone, so that they always hold a set.
    layers: Box<[u16]>,
    stored: Box<[u64]>,
}

impl LayerSet {
    /// The set of no layer.
    pub fn new() -> LayerSet {
        LayerSet {
            layers: vec![0; THQ_SET_LAYERS].into(),
            stored: vec![0; THQ_SET_STORED].into(),
        }
    }

    /// The layers of a loop, implied ones included; streams that are no layer are left out. Refusals: 1 to 9.
    pub fn read(reading: Reading, bytes: &[u8]) -> Result<LayerSet, Refusal> {
        let mut set = LayerSet::new();
        // SAFETY: pointer and length of each buffer belong together; the set is this call's own.
        let answer = unsafe {
            raw::thq_set_read(
                reading.number(),
                bytes.as_ptr(),
                bytes.len(),
                set.layers.as_mut_ptr(),
                set.layers.len(),
                set.stored.as_mut_ptr(),
                set.stored.len(),
            )
        };
        accepted(answer)?;
        Ok(set)
    }

    /// Adds a layer, judged as the 2015 reading judges one of a loop. Refusals: 25; then 3 where a layer of the set has its PID; then 6 to 9, 6
    /// also for [`Record::Implied`](crate::Record::Implied) and [`Record::None`](crate::Record::None). The place is 0.
    pub fn add(&mut self, entry: &Entry) -> Result<(), Refusal> {
        let numbers = entry.to_numbers();
        // SAFETY: pointer and length of each buffer belong together; the set is lent to this call alone.
        let answer = unsafe {
            raw::thq_set_add(
                self.layers.as_mut_ptr(),
                self.layers.len(),
                self.stored.as_mut_ptr(),
                self.stored.len(),
                numbers.as_ptr(),
                numbers.len(),
            )
        };
        accepted(answer).map(drop)
    }

    /// Removes the layer of an index. Refusals: 11, also where the layer is only named.
    pub fn remove(&mut self, index: LayerIndex) -> Result<(), Refusal> {
        // SAFETY: pointer and length of each buffer belong together; the set is lent to this call alone.
        let answer = unsafe {
            raw::thq_set_remove(
                self.layers.as_mut_ptr(),
                self.layers.len(),
                self.stored.as_mut_ptr(),
                self.stored.len(),
                u64::from(index.0),
            )
        };
        accepted(answer).map(drop)
    }

    /// The layers that a target rests on, itself included, from what is stored. Refusals: 11, 12.
    pub fn closure(&self, target: LayerIndex) -> Result<LayerIndices, Refusal> {
        let mut closure = [0];
        // SAFETY: pointer and length of each buffer belong together; `closure` is this call's own.
        let answer = unsafe {
            raw::thq_set_closure(
                self.layers.as_ptr(),
                self.layers.len(),
                self.stored.as_ptr(),
                self.stored.len(),
                u64::from(target.0),
                closure.as_mut_ptr(),
                closure.len(),
            )
        };
        accepted(answer)?;
        Ok(LayerIndices(closure[0]))
    }

    /// The indices that there is a layer of.
    pub fn indices(&self) -> LayerIndices {
        let places = (0..INDICES).filter(|&place| self.row(place)[2] != THQ_NO_RECORD);
        places.map(|place| LayerIndex(place as u8)).collect()
    }

    /// How many layers there are.
    pub fn len(&self) -> usize {
        self.indices().len()
    }

    /// Whether there is none.
    pub fn is_empty(&self) -> bool {
        self.indices().is_empty()
    }

    /// The layer of an index, if there is one.
    pub fn get(&self, index: LayerIndex) -> Option<Layer> {
        let place = usize::from(index.0);
        if place >= INDICES || self.row(place)[2] == THQ_NO_RECORD {
            return None;
        }
        Some(Layer {
            index,
            entry: Entry::of_numbers(self.row(place)),
            closure: LayerIndices(self.stored[place]),
            closure_size: self.stored[INDICES + place] as usize,
            absent: self.stored[2 * INDICES + place] == 1,
        })
    }

    /// The layers, by rising index.
    pub fn iter(&self) -> impl Iterator<Item = Layer> + '_ {
        (0..INDICES).filter_map(move |place| self.get(LayerIndex(place as u8)))
    }

    /// The numbers of the entry at an index.
    fn row(&self, place: usize) -> &[u16] {
        &self.layers[place * THQ_ENTRY_NUMBERS..][..THQ_ENTRY_NUMBERS]
    }
}

impl Default for LayerSet {
    fn default() -> LayerSet {
        LayerSet::new()
    }
}

impl fmt::Debug for LayerSet {
    fn fmt(&self, to: &mut fmt::Formatter) -> fmt::Result {
        to.debug_set().entries(self.iter()).finish()
    }
}

impl<'a> IntoIterator for &'a LayerSet {
    type Item = Layer;
    type IntoIter = Box<dyn Iterator<Item = Layer> + 'a>;

    fn into_iter(self) -> Self::IntoIter {
        Box::new(self.iter())
    }
}
