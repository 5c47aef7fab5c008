//! Layer sets that change (document 02, W-207): layers by index, each with its closure.
//!
//! There are two, which answer alike. `LayerSet` is what the proved library is compared with: after each change every value is worked out
//! afresh. `KeptSet` is plain Rust at its best, for measuring: a change touches the layers whose closure it can change, and nothing else.

use crate::descriptors;
use crate::{read_loop, Entry, Faults, Reading, Record, Refusal};

/// As many as a layer index of six bits can name.
const INDICES: usize = 64;

/// A layer of a set: its entry, and three values of its closure, which are worked out and never given.
#[derive(Clone, Copy, Debug, PartialEq, Eq)]
pub struct Layer {
    /// Stream type, PID and record.
    pub entry: Entry,
    /// The set of the layers that this one rests on, itself included: a bit for each index. An absent one is in it as it is named, and what lies
    /// below that is unknown and adds nothing.
    pub closure: u64,
    /// The number of layers in the closure, absent ones included.
    pub size: u8,
    /// Whether one of them is absent.
    pub absent: bool,
}

impl Layer {
    fn new(entry: Entry, closure: u64, present: u64) -> Layer {
        Layer {
            entry,
            closure,
            size: closure.count_ones() as u8,
            absent: closure & !present != 0,
        }
    }
}

/// The layers of a program, by index. Streams that are no layer are not in it.
#[derive(Clone, Debug, PartialEq, Eq)]
pub struct LayerSet {
    layers: [Option<Layer>; INDICES],
}

impl Default for LayerSet {
    fn default() -> LayerSet {
        LayerSet::new()
    }
}

impl LayerSet {
    /// The empty set.
    pub fn new() -> LayerSet {
        LayerSet {
            layers: [None; INDICES],
        }
    }

    /// The layers of a loop's bytes, implied ones included, or the refusal of the loop, 1 to 9.
    pub fn read(reading: Reading, bytes: &[u8]) -> Result<LayerSet, Refusal> {
        Ok(LayerSet::of(&read_loop(reading, bytes)?))
    }

    /// The layers of the entries of an accepted reading.
    pub fn of(entries: &[Entry]) -> LayerSet {
        let mut set = LayerSet::new();
        for entry in entries {
            if let Some(index) = entry.layer_index() {
                set.layers[usize::from(index)] = Some(Layer::new(*entry, 0, 0));
            }
        }
        set.work_out();
        set
    }

    /// Adds a layer, or refuses it: 25 first, then 3, then 6 to 9, each at place 0.
    pub fn add(&mut self, entry: &Entry) -> Result<(), Refusal> {
        let holds_pid = |pid: u16| self.iter().any(|(_, layer)| layer.entry.pid == pid);
        let index = judge(entry, holds_pid, self.present())?;
        self.layers[index] = Some(Layer::new(*entry, 0, 0));
        self.work_out();
        Ok(())
    }

    /// Removes the layer of an index, or refuses with 11.
    pub fn remove(&mut self, index: u64) -> Result<(), Refusal> {
        self.layer(index).ok_or(Refusal::of(11))?;
        self.layers[index as usize] = None;
        self.work_out();
        Ok(())
    }

    /// The closure of a target, or 11, or 12 with the lowest missing index.
    pub fn closure(&self, target: u64) -> Result<u64, Refusal> {
        let layer = self.layer(target).ok_or(Refusal::of(11))?;
        if layer.absent {
            let missing = layer.closure & !self.present();
            return Err(Refusal::at(12, missing.trailing_zeros() as usize));
        }
        Ok(layer.closure)
    }

    /// The layer of an index.
    pub fn layer(&self, index: u64) -> Option<&Layer> {
        let index = usize::try_from(index).ok()?;
        self.layers.get(index)?.as_ref()
    }

    /// The layers, by rising index.
    pub fn iter(&self) -> impl Iterator<Item = (u8, &Layer)> {
        let by_index = (0..).zip(&self.layers);
        by_index.filter_map(|(index, layer)| Some((index, layer.as_ref()?)))
    }

    /// The set of the indices that there is a layer of.
    pub fn present(&self) -> u64 {
        self.iter().fold(0, |set, (index, _)| set | 1 << index)
    }

    /// Works out the three values of each layer from the records alone.
    fn work_out(&mut self) {
        let present = self.present();
        for index in 0..INDICES {
            let closure = self.rests_on(index);
            if let Some(layer) = &mut self.layers[index] {
                *layer = Layer::new(layer.entry, closure, present);
            }
        }
    }

    /// "The closure of a layer is the layer, its embedded layers, theirs, and so on."
    fn rests_on(&self, index: usize) -> u64 {
        let mut reached = 1_u64 << index;
        let mut left = reached;
        while left != 0 {
            let next = 63 - left.leading_zeros() as usize;
            left ^= 1 << next;
            if let Some(layer) = &self.layers[next] {
                let named = layer.entry.embedded().iter();
                let more = named.fold(0, |set, lower| set | 1 << (lower & 63)) & !reached;
                reached |= more;
                left |= more;
            }
        }
        reached
    }
}

/// Judges a layer that is to be added as the 2015 reading judges one of a loop, and answers its index: 25 first, then the lowest of 3, for a PID that is
/// held, and 6 to 9. 6 is also for a stream type that the reading doesn't know, for the implied mark, which only a whole loop gives, and for a stream
/// that has no record and so is no layer.
fn judge(entry: &Entry, holds_pid: impl Fn(u16) -> bool, present: u64) -> Result<usize, Refusal> {
    if entry.pid > 0x1FFF || entry.record.as_ref().map_or(false, descriptors::too_wide) {
        return Err(Refusal::of(25));
    }
    let mut faults = Faults::default();
    if holds_pid(entry.pid) {
        faults.add(3, 0);
    }
    match &entry.record {
        None | Some(Record::Implied) => faults.add(6, 0),
        Some(_) if !descriptors::known(Reading::Of2015, entry.stream_type) => faults.add(6, 0),
        Some(record) => {
            if let Some(number) = descriptors::fault_on_stream(entry.stream_type, record) {
                faults.add(number, 0);
            }
        }
    }
    let index = entry.layer_index().unwrap_or(0);
    if present >> index & 1 != 0 {
        faults.add(8, 0);
    }
    if descriptors::names_wrong_layers(index, entry) {
        faults.add(9, 0);
    }
    faults.none()?;
    Ok(usize::from(index))
}

/// The PID of an index that has no layer: no PID of 13 bits.
const NO_PID: u16 = 0xFFFF;

/// The same set at its best: columns by index, and sets of 64 bits in place of lists.
#[derive(Clone)]
pub struct KeptSet {
    /// The indices that there is a layer of.
    present: u64,
    /// The indices of the layers that rest on an absent one.
    absent: u64,
    pids: [u16; INDICES],
    sizes: [u8; INDICES],
    /// What each layer names.
    named: [u64; INDICES],
    closures: [u64; INDICES],
    entries: [Option<Entry>; INDICES],
}

impl KeptSet {
    /// The layers of the entries of an accepted reading.
    pub fn of(entries: &[Entry]) -> KeptSet {
        let mut set = KeptSet {
            present: 0,
            absent: 0,
            pids: [NO_PID; INDICES],
            sizes: [0; INDICES],
            named: [0; INDICES],
            closures: [0; INDICES],
            entries: [None; INDICES],
        };
        let mut layers: Vec<&Entry> = entries.iter().filter(|e| e.record.is_some()).collect();
        // From below, so that nothing that is kept changes again.
        layers.sort_by_key(|entry| entry.layer_index());
        for entry in layers {
            set.insert(usize::from(entry.layer_index().unwrap_or(0)), entry);
        }
        set
    }

    /// Adds a layer, or refuses it.
    pub fn add(&mut self, entry: &Entry) -> Result<(), Refusal> {
        let holds_pid = |pid: u16| {
            self.pids
                .iter()
                .fold(false, |held, &own| held | (own == pid))
        };
        let index = judge(entry, holds_pid, self.present)?;
        self.insert(index, entry);
        Ok(())
    }

    fn insert(&mut self, index: usize, entry: &Entry) {
        let bit = 1_u64 << index;
        self.present |= bit;
        self.pids[index] = entry.pid;
        self.named[index] = entry
            .embedded()
            .iter()
            .fold(0, |set, i| set | 1 << (i & 63));
        self.entries[index] = Some(*entry);
        self.keep(index, self.closure_over(index));
        // What the layer rests on comes to each that rests on it. Those that name it had it as an absent one.
        let own = self.closures[index];
        for upper in members(self.present & above(index)) {
            if self.closures[upper] & bit != 0 {
                self.keep(upper, self.closures[upper] | own);
            }
        }
    }

    /// Removes the layer of an index, or refuses with 11.
    pub fn remove(&mut self, index: u64) -> Result<(), Refusal> {
        if index > 63 || self.present >> index & 1 == 0 {
            return Err(Refusal::of(11));
        }
        let index = index as usize;
        let bit = 1_u64 << index;
        self.present &= !bit;
        self.absent &= !bit;
        self.pids[index] = NO_PID;
        self.sizes[index] = 0;
        self.named[index] = 0;
        self.closures[index] = 0;
        self.entries[index] = None;
        for upper in members(self.present & above(index)) {
            if self.closures[upper] & bit != 0 {
                self.keep(upper, self.closure_over(upper));
            }
        }
        Ok(())
    }

    /// The closure of a target, or 11, or 12 with the lowest missing index.
    pub fn closure(&self, target: u64) -> Result<u64, Refusal> {
        if target > 63 || self.present >> target & 1 == 0 {
            return Err(Refusal::of(11));
        }
        let closure = self.closures[target as usize];
        match closure & !self.present {
            0 => Ok(closure),
            missing => Err(Refusal::at(12, missing.trailing_zeros() as usize)),
        }
    }

    /// The closure of a layer out of those of the layers that it names.
    fn closure_over(&self, index: usize) -> u64 {
        let named = self.named[index];
        members(named).fold(1 << index | named, |set, lower| set | self.closures[lower])
    }

    fn keep(&mut self, index: usize, closure: u64) {
        let bit = 1_u64 << index;
        self.closures[index] = closure;
        self.sizes[index] = closure.count_ones() as u8;
        if closure & !self.present == 0 {
            self.absent &= !bit;
        } else {
            self.absent |= bit;
        }
    }

    /// The set of the indices that there is a layer of.
    pub fn present(&self) -> u64 {
        self.present
    }

    /// The layer of an index, as `LayerSet` has it.
    pub fn layer(&self, index: usize) -> Option<Layer> {
        let entry = self.entries[index]?;
        Some(Layer {
            entry,
            closure: self.closures[index],
            size: self.sizes[index],
            absent: self.absent >> index & 1 != 0,
        })
    }
}

/// The indices above one.
fn above(index: usize) -> u64 {
    !1 << index
}

/// The members of a set, rising.
fn members(mut set: u64) -> impl Iterator<Item = usize> {
    std::iter::from_fn(move || {
        if set == 0 {
            return None;
        }
        let lowest = set.trailing_zeros() as usize;
        set &= set - 1;
        Some(lowest)
    })
}
