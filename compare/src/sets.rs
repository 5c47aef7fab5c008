//! Layer sets: sequences of operations, each made to the library and to the plain implementation, which works every value out afresh. After each the
//! answer has to be the same, and so have both buffers to their ends. Now and then an operation is handed buffers that hold something else than a set.

use crate::calls::{self, answer, entry_of, numbers_of, reading_of, ENTRY, NOT_A_CALL};
use crate::loops;
use crate::memory::{Memory, Placing};
use crate::random::Random;
use crate::{faults, show, tables};
use plain::{Embedded, Entry, Extension, Hierarchy, LayerSet, Record, Refusal};
use thoquenry_sys as raw;

/// The names of the calls and the numbers that each can answer, 0 for an accepted call.
pub const CALLS: [(&str, &[u64]); 4] = [
    ("set_read", &[0, 1, 2, 3, 4, 5, 6, 7, 8, 9, NOT_A_CALL]),
    ("set_add", &[0, 3, 6, 7, 8, 9, 25, NOT_A_CALL]),
    ("set_remove", &[0, 11, NOT_A_CALL]),
    ("set_closure", &[0, 11, 12, 17, NOT_A_CALL]),
];

/// Sequences count from here on, so that their numbers are none of other cases.
pub const FIRST: u64 = 1 << 40;

/// The most steps of a sequence.
const STEPS: usize = 60;

/// What was seen of sets.
pub struct Seen {
    pub numbers: [[u64; 256]; CALLS.len()],
    pub steps: u64,
    pub sequences: u64,
    /// Buffers that were damaged and so held no set, and such that held another one.
    pub no_sets: u64,
    pub other_sets: u64,
    /// Layers without a descriptor whose other view was removed.
    pub lone_views: u64,
}

impl Seen {
    fn new() -> Seen {
        Seen {
            numbers: [[0; 256]; CALLS.len()],
            steps: 0,
            sequences: 0,
            no_sets: 0,
            other_sets: 0,
            lone_views: 0,
        }
    }

    /// What a long run has to meet and this one has not.
    pub fn never(&self) -> Vec<String> {
        let wanted = [
            (self.no_sets, "buffers that hold no set"),
            (self.other_sets, "damaged buffers that hold a set"),
            (self.lone_views, "one of two views alone"),
        ];
        let never = wanted.iter().filter(|(times, _)| *times == 0);
        never
            .map(|(_, what)| format!("sets never met {what}"))
            .collect()
    }
}

/// The two buffers of a set.
#[derive(Clone, Debug, PartialEq, Eq)]
struct Buffers {
    layers: Vec<u16>,
    stored: Vec<u64>,
}

impl Buffers {
    /// What the buffers of a set hold.
    fn of(set: &LayerSet) -> Buffers {
        let mut buffers = Buffers {
            layers: vec![0; raw::THQ_SET_LAYERS],
            stored: vec![0; raw::THQ_SET_STORED],
        };
        for (index, layer) in set.iter() {
            let index = usize::from(index);
            buffers
                .row(index)
                .copy_from_slice(&numbers_of(&layer.entry));
            buffers.stored[index] = layer.closure;
            buffers.stored[64 + index] = u64::from(layer.size);
            buffers.stored[128 + index] = u64::from(layer.absent);
        }
        buffers
    }

    fn row(&mut self, index: usize) -> &mut [u16] {
        &mut self.layers[index * ENTRY..][..ENTRY]
    }

    /// The set that they hold, or 255.
    fn held(&self) -> Result<LayerSet, Refusal> {
        let no_set = Refusal::of(NOT_A_CALL as u8);
        if !self.long() {
            return Err(no_set);
        }
        let mut implied: Vec<Entry> = Vec::new();
        let mut written = Vec::new();
        for (place, row) in (0..).zip(self.layers.chunks_exact(ENTRY)) {
            if row.iter().all(|&number| number == 0) {
                continue;
            }
            let entry = entry_of(row).map_err(|_| no_set)?;
            if entry.layer_index() != Some(place) || numbers_of(&entry) != row {
                return Err(no_set);
            }
            match entry.record {
                Some(Record::Implied) => implied.push(entry),
                _ => written.push(entry),
            }
        }
        // An implied mark is judged by its type alone: its index then is its place. Two of them are of one type each.
        let right = |entry: &Entry| matches!(entry.stream_type, 0x1B | 0x20) && entry.pid < 8192;
        if !implied.iter().all(right) || implied.len() == 2 && implied[0].pid == implied[1].pid {
            return Err(no_set);
        }
        // The others are what could be added.
        let mut set = LayerSet::of(&implied);
        for entry in &written {
            set.add(entry).map_err(|_| no_set)?;
        }
        match Buffers::of(&set) == *self {
            true => Ok(set),
            false => Err(no_set),
        }
    }

    /// Whether they have the lengths of a set.
    fn long(&self) -> bool {
        (self.layers.len(), self.stored.len()) == (raw::THQ_SET_LAYERS, raw::THQ_SET_STORED)
    }
}

/// What is asked for beside the buffers of the set.
#[derive(Clone, Debug, PartialEq, Eq)]
enum Operation {
    Read { reading: u64, bytes: Vec<u8> },
    Add { entry: Vec<u16> },
    Remove { index: u64 },
    Closure { target: u64, closure: Vec<u64> },
}

/// A call.
#[derive(Clone, Debug, PartialEq, Eq)]
struct Step {
    buffers: Buffers,
    operation: Operation,
}

impl Step {
    /// Its place in `CALLS`.
    fn kind(&self) -> usize {
        match self.operation {
            Operation::Read { .. } => 0,
            Operation::Add { .. } => 1,
            Operation::Remove { .. } => 2,
            Operation::Closure { .. } => 3,
        }
    }

    /// Makes the call to the library. An error where it has written beside a buffer.
    fn library(&mut self, memory: &mut Memory, placing: Placing) -> Result<u64, &'static str> {
        memory.begin(placing);
        let layers = memory.place(&self.buffers.layers);
        let stored = memory.place(&self.buffers.stored);
        let mut untouched = true;
        // SAFETY of all calls: each pointer is of a region, with the length of what was placed there, and no two regions overlap.
        let answer = match &mut self.operation {
            Operation::Read { reading, bytes } => {
                let given = memory.place(bytes);
                let answer = unsafe {
                    raw::thq_set_read(
                        *reading,
                        given.start(),
                        given.length(),
                        layers.start(),
                        layers.length(),
                        stored.start(),
                        stored.length(),
                    )
                };
                untouched &= given.take_back(bytes);
                answer
            }
            Operation::Add { entry } => {
                let given = memory.place(entry);
                let answer = unsafe {
                    raw::thq_set_add(
                        layers.start(),
                        layers.length(),
                        stored.start(),
                        stored.length(),
                        given.start(),
                        given.length(),
                    )
                };
                untouched &= given.take_back(entry);
                answer
            }
            Operation::Remove { index } => unsafe {
                raw::thq_set_remove(
                    layers.start(),
                    layers.length(),
                    stored.start(),
                    stored.length(),
                    *index,
                )
            },
            Operation::Closure { target, closure } => {
                let room = memory.place(closure);
                let answer = unsafe {
                    raw::thq_set_closure(
                        layers.start(),
                        layers.length(),
                        stored.start(),
                        stored.length(),
                        *target,
                        room.start(),
                        room.length(),
                    )
                };
                untouched &= room.take_back(closure);
                answer
            }
        };
        untouched &= layers.take_back(&mut self.buffers.layers);
        untouched &= stored.take_back(&mut self.buffers.stored);
        match untouched {
            true => Ok(answer),
            false => Err("bytes beside a buffer were changed"),
        }
    }

    /// Makes the call to the plain implementation.
    fn plain(&mut self) -> u64 {
        answer(self.plainly())
    }

    fn plainly(&mut self) -> Result<usize, Refusal> {
        let set = match &mut self.operation {
            Operation::Read { reading, bytes } => {
                let reading = reading_of(*reading)?;
                if !self.buffers.long() {
                    return Err(Refusal::of(NOT_A_CALL as u8));
                }
                LayerSet::read(reading, bytes)?
            }
            Operation::Add { entry } => {
                let mut set = self.buffers.held()?;
                if entry.len() != ENTRY {
                    return Err(Refusal::of(NOT_A_CALL as u8));
                }
                set.add(&entry_of(entry)?)?;
                set
            }
            Operation::Remove { index } => {
                let mut set = self.buffers.held()?;
                set.remove(*index)?;
                set
            }
            Operation::Closure { target, closure } => {
                let answered = self.buffers.held()?.closure(*target)?;
                *closure.first_mut().ok_or(Refusal::of(17))? = answered;
                return Ok(answered.count_ones() as usize);
            }
        };
        self.buffers = Buffers::of(&set);
        Ok(set.iter().count())
    }

    fn show(&self) -> String {
        let mut text = format!("thq_{}\n", CALLS[self.kind()].0);
        match &self.operation {
            Operation::Read { reading, bytes } => {
                text += &format!("  reading: {reading}\n  bytes: {}\n", show::hex(bytes));
            }
            Operation::Add { entry } => text += &format!("  entry: {}\n", show::numbers(entry)),
            Operation::Remove { index } => text += &format!("  index: {index}\n"),
            Operation::Closure { target, closure } => {
                text += &format!(
                    "  target: {target}\n  closure: {}\n",
                    show::numbers(closure)
                );
            }
        }
        text + &self.buffers.show()
    }
}

impl Buffers {
    /// The rows that are not all 0, and what is stored.
    fn show(&self) -> String {
        let mut text = format!("  layers: {} numbers, of which\n", self.layers.len());
        for (place, row) in self.layers.chunks(ENTRY).enumerate() {
            if row.iter().any(|&number| number != 0) {
                text += &format!("    row {place}: {}\n", show::numbers(row));
            }
        }
        text + &format!("  stored: {}\n", show::numbers(&self.stored))
    }
}

/// A sequence, which is had from a seed and a number alone: its set so far, and what makes the next step.
struct Sequence {
    random: Random,
    set: LayerSet,
    /// What the buffers held one step before.
    before: Buffers,
    /// Layers have indices below this.
    indices: usize,
    left: usize,
}

impl Sequence {
    fn new(seed: u64, number: u64) -> Sequence {
        let mut random = Random::new(seed, number);
        let indices = random.pick(&[3, 6, 6, 10, 20, 64]);
        let left = random.within(1, STEPS);
        let set = LayerSet::new();
        Sequence {
            before: Buffers::of(&set),
            random,
            set,
            indices,
            left,
        }
    }

    /// The next step, and whether its buffers were damaged.
    fn step(&mut self, first: bool) -> (Step, bool) {
        let mut buffers = Buffers::of(&self.set);
        let damaged = self.random.once_in(8);
        if damaged {
            self.damage(&mut buffers);
        }
        let kinds = if first { 10 } else { 24 };
        let operation = match self.random.below(kinds) {
            0..=3 => self.read(),
            4..=12 => self.add(),
            13..=17 => Operation::Remove {
                index: self.index(),
            },
            _ => {
                let length = self.random.pick(&[0, 1, 1, 1, 1, 1, 2, 3]);
                Operation::Closure {
                    target: self.index(),
                    closure: (0..length).map(|_| self.random.next()).collect(),
                }
            }
        };
        (Step { buffers, operation }, damaged)
    }

    fn read(&mut self) -> Operation {
        let random = &mut self.random;
        let reading = loops::reading(random);
        let bytes = match random.once_in(3) {
            true => loops::sound_bytes(random, reading),
            false => loops::bytes(random, reading).0,
        };
        Operation::Read { reading, bytes }
    }

    /// An index of a layer, or now and then of none: of one that is only named among them.
    fn index(&mut self) -> u64 {
        let named = self.named();
        if named != 0 && self.random.once_in(8) {
            return u64::from(self.member(named));
        }
        tables::target(&mut self.random, self.set.present())
    }

    /// The indices that are named and have no layer.
    fn named(&self) -> u64 {
        let closures = self
            .set
            .iter()
            .fold(0, |named, (_, layer)| named | layer.closure);
        closures & !self.set.present()
    }

    /// One of a set that is not empty.
    fn member(&mut self, set: u64) -> u8 {
        let members: Vec<u8> = (0..64).filter(|index| set >> index & 1 != 0).collect();
        self.random.pick(&members)
    }

    /// A layer to be added, mostly a sound one.
    fn add(&mut self) -> Operation {
        let mut row = numbers_of(&self.sound_entry());
        if self.random.once_in(3) {
            self.miss(&mut row);
        }
        if self.random.once_in(12) {
            self.miss(&mut row);
            self.miss(&mut row);
        }
        if self.random.once_in(2) {
            loops::fill_unread(&mut self.random, &mut row);
        }
        let mut entry = row.to_vec();
        if self.random.once_in(60) {
            entry.resize(self.random.pick(&[0, 79, 81, 160]), 1);
        }
        Operation::Add { entry }
    }

    /// A layer of an index that mostly has none, that names some below it, which mostly are there.
    fn sound_entry(&mut self) -> Entry {
        let (present, named) = (self.set.present(), self.named());
        let free = !present & (u64::MAX >> (64 - self.indices));
        let layer_index = if named != 0 && self.random.once_in(3) {
            self.member(named)
        } else if free != 0 && !self.random.once_in(20) {
            self.member(free)
        } else {
            self.random.below(64) as u8
        };
        let random = &mut self.random;
        let mut lower: Vec<u8> = (0..layer_index)
            .filter(|index| present >> index & 1 != 0 || random.once_in(6))
            .collect();
        random.shuffle(&mut lower);
        let most = lower.len();
        lower.truncate(match random.below(8) {
            0 => 0,
            1 => most,
            2..=4 => most.min(1),
            _ => random.below(most + 1),
        });
        let pid = random.below(8192) as u16;
        let written = random.once_in(2);
        let (stream_type, record) = match lower.first() {
            Some(&embedded_index) if written => {
                let (stream_type, hierarchy_type) = random.pick(&[
                    (0x1B, 1),
                    (0x1F, 2),
                    (0x1F, 8),
                    (0x20, 9),
                    (0x24, 3),
                    (0x28, 7),
                    (0x2B, 5),
                ]);
                let flag = random.pick(&[0, 1, 2, 4, 8]);
                let zeros = match hierarchy_type {
                    8 => random.below(16),
                    9 => 0,
                    _ => flag,
                };
                (
                    stream_type,
                    hierarchy(random, zeros, hierarchy_type, layer_index, embedded_index),
                )
            }
            None if written => {
                let embedded_index = random.below(64) as u8;
                (
                    random.pick(&[0x1B, 0x24]),
                    hierarchy(random, 0, 15, layer_index, embedded_index),
                )
            }
            _ => (
                random.pick(&[0x24, 0x25, 0x28, 0x29, 0x2A, 0x2B]),
                Record::Extension(Extension {
                    dimension_bits: random.next() as u16,
                    layer_index,
                    temporal_id: random.below(8) as u8,
                    nuh_layer_id: random.below(64) as u8,
                    tref_present: random.once_in(2),
                    channel: random.below(64) as u8,
                    embedded: Embedded::new(&lower).expect("at most 63"),
                }),
            ),
        };
        Entry {
            stream_type,
            pid,
            record: Some(record),
        }
    }

    /// Makes one number of a row another: wrong, or at least another.
    fn miss(&mut self, row: &mut [u16; ENTRY]) {
        let present = self.set.present();
        let held = (present != 0).then(|| self.member(present));
        let of_set = held.and_then(|index| self.set.layer(u64::from(index)));
        let other_pid = of_set.map(|layer| layer.entry.pid);
        let random = &mut self.random;
        let listed = usize::from(row[15]).clamp(1, 63);
        match random.below(12) {
            0 => row[1] = other_pid.unwrap_or(8192),
            1 => row[8] = held.map_or(64, u16::from),
            2 => row[0] = random.pick(&[0x1B, 0x1F, 0x20, 0x24, 0x28, 0x02, 0x26, 0x2C, 0xFF]),
            3 => row[2] = random.pick(&[0, 1, 2, 3, 3, 4]),
            4 => row[7] = random.below(17) as u16,
            5 => {
                for flag in &mut row[3..7] {
                    *flag = random.below(2) as u16;
                }
            }
            6 => row[10] = random.within(usize::from(row[8] & 63), 64) as u16,
            7 => row[15 + random.within(1, listed)] = random.within(0, 64) as u16,
            8 => row[15 + random.within(1, listed)] = row[15 + random.within(1, listed)],
            9 => row[15] = random.pick(&[0, 1, 2, row[8] & 63, 63, 64]),
            10 => row[random.below(17)] = random.next() as u16,
            _ => {
                let place = random.below(17);
                row[place] = random.pick(&[0, 1, 2, 7, 8, 15, 16, 63, 64, 255, 256, 8191, 8192]);
            }
        }
    }

    /// Makes something else of what a set's buffers hold; it may be another set.
    fn damage(&mut self, buffers: &mut Buffers) {
        let present = self.set.present();
        let one = match present {
            0 => self.random.below(64),
            present => usize::from(self.member(present)),
        };
        let random = &mut self.random;
        let other = random.below(64);
        match random.below(15) {
            // what is stored
            0 => buffers.stored[one] ^= 1 << random.below(64),
            1 => buffers.stored[64 + one] ^= 1 << random.below(7),
            2 => buffers.stored[128 + one] ^= 1 << random.pick(&[0, 0, 1, 63]),
            3 => buffers.stored[random.below(192)] = random.next(),
            4 => {
                // three values that fit one another, and are not those of the layer
                let closure = buffers.stored[one] ^ 1 << random.below(64);
                buffers.stored[one] = closure;
                buffers.stored[64 + one] = u64::from(closure.count_ones());
                buffers.stored[128 + one] = u64::from(closure & !present != 0);
            }
            5 => buffers.stored.clone_from(&self.before.stored),
            // lengths
            6 => buffers.layers.resize(
                random.pick(&[0, 5119, 5121, 5040, 5200]),
                random.below(2) as u16,
            ),
            7 => buffers
                .stored
                .resize(random.pick(&[0, 191, 193, 128, 256]), 0),
            // layers, mostly with what would be stored of them
            kind => {
                match kind {
                    8 => buffers.row(one)[random.below(ENTRY)] = random.next() as u16,
                    9 => {
                        let place = random.below(17);
                        let number =
                            random.pick(&[0, 1, 2, 3, 9, 15, 63, 64, 0x1B, 0x20, 256, 8191, 8192]);
                        buffers.row(one)[place] = number;
                    }
                    10 => buffers.row(other)[random.below(ENTRY)] ^= 1,
                    11 => {
                        // two rows change places
                        let row = buffers.row(one).to_vec();
                        let moved = buffers.row(other).to_vec();
                        buffers.row(one).copy_from_slice(&moved);
                        buffers.row(other).copy_from_slice(&row);
                    }
                    12 => {
                        // an implied mark, right or wrong
                        let place = random.pick(&[0, 1, 0, 1, one]);
                        let row = buffers.row(place);
                        row.fill(0);
                        row[0] = random.pick(&[0x1B, 0x20, 0x20, 0x1F, 0x24]);
                        row[1] = random.below(8300) as u16;
                        row[2] = 3;
                        row[random.pick(&[0, 0, 8, 79])] += random.pick(&[0, 0, 0, 1]);
                    }
                    13 => {
                        // a layer listed twice, or one that is not below
                        let row = buffers.row(one);
                        let listed = usize::from(row[15]).clamp(1, 63);
                        let place = 15 + random.within(1, listed);
                        row[place] = match random.once_in(2) {
                            true => row[15 + random.within(1, listed)],
                            false => random.within(one, 63) as u16,
                        };
                    }
                    _ => {
                        // another's PID
                        let pid = buffers.row(one)[1];
                        if buffers.row(other)[2] != 0 {
                            buffers.row(other)[1] = pid;
                        }
                    }
                }
                if !random.once_in(4) {
                    store_again(buffers);
                }
            }
        }
    }
}

/// A hierarchy descriptor, with these flags at 0.
fn hierarchy(
    random: &mut Random,
    zeros: usize,
    hierarchy_type: u8,
    layer_index: u8,
    embedded_index: u8,
) -> Record {
    let one = |place: usize| zeros >> place & 1 == 0;
    Record::Hierarchy(Hierarchy {
        no_view: one(0),
        no_temporal: one(1),
        no_spatial: one(2),
        no_quality: one(3),
        hierarchy_type,
        layer_index,
        tref_present: random.once_in(2),
        embedded_index,
        channel: random.below(64) as u8,
    })
}

/// Stores what would be worked out of the rows that can be read as layers, where what isn't below a layer counts for nothing: so that a row with a fault
/// is the only one.
fn store_again(buffers: &mut Buffers) {
    let rows = buffers.layers.chunks_exact(ENTRY);
    let entries: Vec<Entry> = rows
        .filter_map(|row| entry_of(row).ok())
        .filter(|entry| entry.layer_index().map_or(false, |index| index < 64))
        .collect();
    let layers = plain::layers_of(&entries);
    buffers.stored.fill(0);
    for index in (0..64).filter(|index| layers.present >> index & 1 != 0) {
        let named = layers.below(index);
        let lower = (0..index).filter(|lower| named >> lower & 1 != 0);
        let closure = lower.fold(1 << index | named, |set, lower| set | buffers.stored[lower]);
        buffers.stored[index] = closure;
        buffers.stored[64 + index] = u64::from(closure.count_ones());
        buffers.stored[128 + index] = u64::from(closure & !layers.present != 0);
    }
}

/// Makes sequences of so many steps in all, up to the first difference.
pub fn run(seed: u64, steps: u64, guarded: bool, memory: &mut Memory) -> Result<Seen, String> {
    let mut seen = Seen::new();
    while seen.steps < steps {
        let number = FIRST + seen.sequences;
        faults::note(seed, number);
        let placing = match (guarded, number % 2) {
            (false, _) => Placing::Inside,
            (true, 0) => Placing::AtStart,
            (true, _) => Placing::AtEnd,
        };
        walk(seed, number, |step, damaged, place| {
            let mut library = step.clone();
            let mut plain = step.clone();
            let expected = plain.plain();
            let answered = library.library(memory, placing);
            if answered != Ok(expected) || library != plain {
                return Err(difference(
                    seed, number, place, step, &library, &plain, answered, expected,
                ));
            }
            seen.steps += 1;
            seen.numbers[step.kind()][calls::number(expected) as usize] += 1;
            if damaged {
                match step.buffers.held() {
                    Ok(_) => seen.other_sets += 1,
                    Err(_) => seen.no_sets += 1,
                }
            }
            if let (Ok(set), Operation::Remove { .. }) = (plain.buffers.held(), &step.operation) {
                let implied =
                    |(_, layer): &(u8, &plain::Layer)| layer.entry.record == Some(Record::Implied);
                seen.lone_views += u64::from(set.iter().filter(implied).count() == 1);
            }
            Ok(())
        })?;
        seen.sequences += 1;
    }
    Ok(seen)
}

/// Goes through a sequence: hands each step over with whether its buffers were damaged and with its place, and goes on with what plain makes of it.
fn walk(
    seed: u64,
    number: u64,
    mut make: impl FnMut(&Step, bool, usize) -> Result<(), String>,
) -> Result<(), String> {
    let mut sequence = Sequence::new(seed, number);
    for place in 0..sequence.left {
        let (step, damaged) = sequence.step(place == 0);
        make(&step, damaged, place)?;
        let mut after = step;
        after.plain();
        if let (false, Ok(set)) = (damaged, after.buffers.held()) {
            sequence.before = Buffers::of(&sequence.set);
            sequence.set = set;
        }
    }
    Ok(())
}

#[allow(clippy::too_many_arguments)] // all that is to be told
fn difference(
    seed: u64,
    number: u64,
    place: usize,
    step: &Step,
    library: &Step,
    plain: &Step,
    answered: Result<u64, &str>,
    expected: u64,
) -> String {
    let mut text = format!("compare: DIFFERENT at seed {seed}, case {number}, step {place}: ");
    text += &step.show();
    text += &match answered {
        Ok(answered) => format!("library answers: {}\n", show::answer(answered)),
        Err(fault) => format!("library: {fault}\n"),
    };
    text += &format!("plain answers:   {}\n", show::answer(expected));
    text += &format!("after the call, of the library: {}", library.show());
    text + &format!("after the call, of plain: {}", plain.show())
}

/// The steps of a sequence and what the plain implementation answers, without a call of the library.
pub fn show(seed: u64, number: u64) -> String {
    let mut text = String::new();
    let shown = walk(seed, number, |step, damaged, place| {
        let damage = if damaged { ", damaged" } else { "" };
        text += &format!("step {place}{damage}: {}", step.show());
        text += &format!("plain answers: {}\n", show::answer(step.clone().plain()));
        Ok(())
    });
    shown.map_or_else(|fault| fault, |()| text)
}
