//! Operation points: the two calls, made to the library and to the plain implementation, and their cases: programs that are sound, ones with a few things wrong, and
//! damaged ones.

use crate::calls::Call;
use crate::cases::filled;
use crate::loops::{self, Descriptor, Quality};
use crate::memory::Memory;
use crate::random::Random;
use plain::{
    FrameRate, LayerFlags, Layers, Point, PointDescriptor, PointLists, ProgramPoints, Reading,
    Reference, Refusal, LONGEST_LOOP,
};
use thoquenry_sys as raw;

/// The numbers that one operation point takes.
const POINT: usize = raw::THQ_POINT_NUMBERS;

const EXTENSION_TAG: u8 = 63;
const OPERATION_POINT_TAG: u8 = 5;

/// The most bytes of a payload after its extension tag.
const PAYLOAD: usize = 254;

/// A call that reads.
#[derive(Clone, Debug, PartialEq, Eq)]
pub struct Read {
    pub program: Vec<u8>,
    pub bytes: Vec<u8>,
    pub descriptors: Vec<u32>,
    pub profiles: Vec<u8>,
    pub points: Vec<u32>,
    pub references: Vec<u8>,
    pub layers: Vec<u8>,
    pub streams: Vec<u8>,
    pub summary: Vec<u32>,
}

impl Read {
    /// The library's answer, and whether nothing was written beside a buffer.
    pub fn library(&mut self, memory: &mut Memory) -> (u64, bool) {
        let program = memory.place(&self.program);
        let given = memory.place(&self.bytes);
        let descriptors = memory.place(&self.descriptors);
        let profiles = memory.place(&self.profiles);
        let points = memory.place(&self.points);
        let references = memory.place(&self.references);
        let layers = memory.place(&self.layers);
        let streams = memory.place(&self.streams);
        let summary = memory.place(&self.summary);
        // SAFETY: each pointer is of a region, with the length of what was placed there, and no two regions overlap.
        let answer = unsafe {
            raw::thq_read_points(
                program.start(),
                program.length(),
                given.start(),
                given.length(),
                descriptors.start(),
                descriptors.length(),
                profiles.start(),
                profiles.length(),
                points.start(),
                points.length(),
                references.start(),
                references.length(),
                layers.start(),
                layers.length(),
                streams.start(),
                streams.length(),
                summary.start(),
                summary.length(),
            )
        };
        let untouched = program.take_back(&mut self.program)
            & given.take_back(&mut self.bytes)
            & descriptors.take_back(&mut self.descriptors)
            & profiles.take_back(&mut self.profiles)
            & points.take_back(&mut self.points)
            & references.take_back(&mut self.references)
            & layers.take_back(&mut self.layers)
            & streams.take_back(&mut self.streams)
            & summary.take_back(&mut self.summary);
        (answer, untouched)
    }

    pub fn plain(&mut self) -> Result<usize, Refusal> {
        let lists = PointLists::of(&plain::read_points(&self.program, &self.bytes)?);
        let summary = lists.summary();
        let mut left = self.clone();
        lay(&mut left.descriptors, &lists.descriptors)?;
        lay(&mut left.profiles, &lists.profiles)?;
        lay(&mut left.points, &lists.points)?;
        lay(&mut left.references, &lists.references)?;
        lay(&mut left.layers, &lists.layers)?;
        lay(&mut left.streams, &lists.streams)?;
        lay(&mut left.summary, &summary)?;
        *self = left;
        Ok(summary[2] as usize)
    }
}

/// Puts a list at the start of a buffer, or 17.
fn lay<T: Copy>(room: &mut [T], list: &[T]) -> Result<(), Refusal> {
    let room = room.get_mut(..list.len()).ok_or(Refusal::of(17))?;
    room.copy_from_slice(list);
    Ok(())
}

/// A call that writes.
#[derive(Clone, Debug, PartialEq, Eq)]
pub struct Write {
    pub profiles: Vec<u8>,
    pub points: Vec<u32>,
    pub references: Vec<u8>,
    pub layers: Vec<u8>,
    pub out: Vec<u8>,
}

impl Write {
    /// The library's answer, and whether nothing was written beside a buffer.
    pub fn library(&mut self, memory: &mut Memory) -> (u64, bool) {
        let profiles = memory.place(&self.profiles);
        let points = memory.place(&self.points);
        let references = memory.place(&self.references);
        let layers = memory.place(&self.layers);
        let room = memory.place(&self.out);
        // SAFETY: each pointer is of a region, with the length of what was placed there, and no two regions overlap.
        let answer = unsafe {
            raw::thq_write_points(
                profiles.start(),
                profiles.length(),
                points.start(),
                points.length(),
                references.start(),
                references.length(),
                layers.start(),
                layers.length(),
                room.start(),
                room.length(),
            )
        };
        let untouched = profiles.take_back(&mut self.profiles)
            & points.take_back(&mut self.points)
            & references.take_back(&mut self.references)
            & layers.take_back(&mut self.layers)
            & room.take_back(&mut self.out);
        (answer, untouched)
    }

    pub fn plain(&mut self) -> Result<usize, Refusal> {
        plain::write_points(&self.given()?, &mut self.out)
    }

    fn given(&self) -> Result<PointDescriptor, Refusal> {
        plain::descriptor_of_lists(&self.profiles, &self.points, &self.references, &self.layers)
    }
}

/// What has been met in accepted calls.
#[derive(Clone, Copy, Default)]
pub struct Met {
    /// programs with several operation point descriptors, and ones of which several have profiles
    several: u64,
    gathered: u64,
    /// points, with a frame rate, an average, a maximum, and without any of the three
    points: u64,
    frame_rates: u64,
    averages: u64,
    maximums: u64,
    bare: u64,
    /// lists that are closed and not empty, not closed, not in ascending order, and those that got a layer put before its reference
    closed: u64,
    open: u64,
    unsorted: u64,
    prepended: u64,
    /// descriptors that were read back as they were given, and those of the greatest length
    read_back: u64,
    longest: u64,
}

impl Met {
    /// Takes note of a call that was made. An error where a list is said to be closed and isn't the union of its members' closures, or the other way round, and where a
    /// descriptor is not read back.
    pub fn note(&mut self, call: &Call) -> Result<(), &'static str> {
        match call {
            Call::ReadPoints(read) => {
                if let Ok(points) = plain::read_points(&read.program, &read.bytes) {
                    let layers = plain::layers_of_loop(Reading::Of2015, &read.bytes);
                    return self.note_read(&points, &layers.unwrap_or_default());
                }
            }
            Call::WritePoints(write) => {
                let mut out = [0; PAYLOAD + 3];
                if let Ok(given) = write.given() {
                    if let Ok(length) = plain::write_points(&given, &mut out) {
                        return self.note_written(given, &out[..length]);
                    }
                }
            }
            _ => {}
        }
        Ok(())
    }

    fn note_read(&mut self, program: &ProgramPoints, layers: &Layers) -> Result<(), &'static str> {
        let descriptors = &program.descriptors;
        let with_profiles = descriptors.iter().filter(|one| !one.profiles.is_empty());
        self.several += u64::from(descriptors.len() > 1);
        self.gathered += u64::from(with_profiles.count() > 1);
        for (point, streams) in program.points() {
            let list = &streams.members;
            self.points += 1;
            self.frame_rates += u64::from(point.frame_rate.is_some());
            self.averages += u64::from(point.average_bit_rate.is_some());
            self.maximums += u64::from(point.maximum_bit_rate.is_some());
            self.bare += u64::from(
                point.frame_rate.is_none()
                    && point.average_bit_rate.is_none()
                    && point.maximum_bit_rate.is_none(),
            );
            self.closed += u64::from(streams.closed && !list.is_empty());
            self.open += u64::from(!streams.closed);
            self.unsorted += u64::from(list.windows(2).any(|pair| pair[0] > pair[1]));
            let named = |member: &u8| {
                point
                    .references
                    .iter()
                    .any(|one| one.layer_index == *member)
            };
            self.prepended += u64::from(!list.iter().all(named));
            let set = list.iter().fold(0_u64, |set, member| set | 1 << member);
            let closures = list
                .iter()
                .map(|&member| plain::closure(layers, u64::from(member)));
            let union = closures.fold(Some(0), |union, one| Some(union? | one.ok()?));
            if streams.closed != (union == Some(set)) {
                return Err(
                    "a list is closed that is no union of closures, or the other way round",
                );
            }
        }
        Ok(())
    }

    fn note_written(&mut self, given: PointDescriptor, out: &[u8]) -> Result<(), &'static str> {
        self.read_back += 1;
        self.longest += u64::from(out.len() == PAYLOAD + 3);
        let read = plain::read_points(out, &every_layer());
        match read.map(|read| read.descriptors) {
            Ok(descriptors) if descriptors == [given] => Ok(()),
            _ => Err("a descriptor that was written is not read back"),
        }
    }

    /// What was met, in words, and what never was.
    pub fn told(&self) -> (String, Vec<String>) {
        let all = [
            ("programs with several descriptors", self.several),
            ("with several that have profiles", self.gathered),
            ("points", self.points),
            ("with a frame rate", self.frame_rates),
            ("an average", self.averages),
            ("a maximum", self.maximums),
            ("none of these", self.bare),
            ("lists closed", self.closed),
            ("not closed", self.open),
            ("not ascending", self.unsorted),
            ("with a layer put before its reference", self.prepended),
            ("descriptors read back", self.read_back),
            ("of the greatest length", self.longest),
        ];
        let words = all.map(|(what, times)| format!("{times} {what}"));
        let never = all.iter().filter(|(_, times)| *times == 0);
        (
            words.join(", "),
            never
                .map(|(what, _)| format!("never met: {what}"))
                .collect(),
        )
    }
}

/// A loop with a layer of every index: 1 to 63 rest on 0.
fn every_layer() -> Vec<u8> {
    let entry = |index: u8| {
        let (stream_type, kind) = if index == 0 {
            (0x24, 0xFF)
        } else {
            (0x25, 0xB3)
        };
        [
            stream_type,
            0xE0,
            index,
            0xF0,
            6,
            4,
            4,
            kind,
            0xC0 | index,
            0x40,
            0xC0,
        ]
    };
    (0..64).flat_map(entry).collect()
}

/// A case of reading.
pub fn reading(random: &mut Random) -> (Call, Quality) {
    let (bytes, of_loop) = if random.once_in(8) {
        loops::bytes(random, 2015)
    } else {
        (loops::sound_bytes(random, 2015), Quality::Sound)
    };
    let layers = plain::layers_of_loop(Reading::Of2015, &bytes).unwrap_or_default();
    let (program, of_program) = program(random, &layers);
    let quality = match (of_loop, of_program) {
        (Quality::Sound, Quality::Sound) => Quality::Sound,
        (Quality::Damaged, _) | (_, Quality::Damaged) => Quality::Damaged,
        _ => Quality::NearMiss,
    };
    let needed = plain::read_points(&program, &bytes).map(|points| PointLists::of(&points));
    let needed = needed.unwrap_or_else(|_| PointLists {
        descriptors: vec![0; 4],
        profiles: vec![0; 12],
        points: vec![0; 24],
        references: vec![0; 4],
        layers: vec![0; 4],
        streams: vec![0; 6],
    });
    // Mostly enough of each, now and then one of them short.
    let short = random.once_in(5).then(|| random.below(7));
    let mut room = |place: usize, needed: usize| match short {
        Some(one) if one == place => random.room(needed),
        _ => needed + random.pick(&[0, 0, 1, 9]),
    };
    let rooms = [
        room(0, needed.descriptors.len()),
        room(1, needed.profiles.len()),
        room(2, needed.points.len()),
        room(3, needed.references.len()),
        room(4, needed.layers.len()),
        room(5, needed.streams.len()),
        room(6, 6),
    ];
    let call = Read {
        program,
        bytes,
        descriptors: filled(random, rooms[0], |bits| bits as u32),
        profiles: filled(random, rooms[1], |bits| bits as u8),
        points: filled(random, rooms[2], |bits| bits as u32),
        references: filled(random, rooms[3], |bits| bits as u8),
        layers: filled(random, rooms[4], |bits| bits as u8),
        streams: filled(random, rooms[5], |bits| bits as u8),
        summary: filled(random, rooms[6], |bits| bits as u32),
    };
    (Call::ReadPoints(call), quality)
}

/// A program's descriptor loop over these layers, and how it was made.
fn program(random: &mut Random, layers: &Layers) -> (Vec<u8>, Quality) {
    let quality = Quality::pick(random);
    if quality == Quality::Damaged && random.once_in(4) {
        return (noise(random), quality);
    }
    let mut descriptors: Vec<Laid> = Vec::new();
    for _ in 0..random.pick(&[0, 1, 1, 1, 2, 2, 3, 5]) {
        while random.once_in(3) {
            descriptors.push(Laid::other(random));
        }
        let tight = random.once_in(12);
        let given = descriptor(random, layers, tight);
        descriptors.push(Laid::of(random, &given));
    }
    if quality == Quality::NearMiss {
        for _ in 0..random.pick(&[1, 1, 1, 2, 3]) {
            miss(random, layers, &mut descriptors);
        }
    }
    let mut bytes: Vec<u8> = Vec::new();
    for one in &descriptors {
        let laid = one.bytes();
        if bytes.len() + laid.len() <= LONGEST_LOOP {
            bytes.extend(laid);
        }
    }
    if random.once_in(15) {
        pad(random, &mut bytes, quality);
    }
    match quality {
        Quality::Sound => {}
        Quality::NearMiss if random.once_in(8) => miss_by_bytes(random, &mut bytes),
        Quality::NearMiss => {}
        Quality::Damaged => {
            for _ in 0..random.within(1, 6) {
                if !bytes.is_empty() {
                    let place = random.below(bytes.len());
                    bytes[place] = random.byte();
                }
            }
        }
    }
    (bytes, quality)
}

/// Fills the loop up with descriptors that are skipped: to 1,008 bytes or, not in a sound one, to 1,009 and a little more.
fn pad(random: &mut Random, bytes: &mut Vec<u8>, quality: Quality) {
    let end = match quality {
        Quality::Sound => LONGEST_LOOP,
        _ => LONGEST_LOOP + random.pick(&[0, 1, 1, 2, 200]),
    };
    while bytes.len() + 2 <= end {
        let left = end - bytes.len() - 2;
        // What is left after it is nothing, or another descriptor's head at the least.
        let length = match left.min(255) {
            length if left - length == 1 => length - 1,
            length => length,
        };
        bytes.extend([0x0A, length as u8]);
        bytes.extend(random.bytes(length));
    }
}

/// Bytes that were never a loop, or bytes of the kind that such loops are made of.
fn noise(random: &mut Random) -> Vec<u8> {
    let length = match random.below(8) {
        0 => random.within(1000, 1016),
        1 => random.below(2000),
        _ => random.below(50),
    };
    let usual = [
        63, 63, 63, 5, 5, 5, 3, 7, 9, 0, 0, 0, 1, 1, 2, 0xC0, 0xC1, 0x80, 0x81, 0xFF, 0x41,
    ];
    if random.once_in(3) {
        random.bytes(length)
    } else {
        (0..length).map(|_| random.pick(&usual)).collect()
    }
}

/// A descriptor as it is laid out, and where the bytes stand in its payload that others hang on.
#[derive(Clone)]
struct Laid {
    tag: u8,
    payload: Vec<u8>,
    /// num_ptl, operation_points_count, each ES_count and numEsInOp
    counts: Vec<usize>,
    es_counts: Vec<usize>,
    references: Vec<usize>,
    flags: Vec<usize>,
}

impl Laid {
    /// A descriptor that is skipped.
    fn other(random: &mut Random) -> Laid {
        let Descriptor { tag, mut payload } = loops::skipped(random, 2015);
        if tag == EXTENSION_TAG && payload.first() == Some(&OPERATION_POINT_TAG) {
            payload[0] = random.pick(&[0, 4, 6, 0x85]);
        }
        Laid {
            tag,
            payload,
            counts: Vec::new(),
            es_counts: Vec::new(),
            references: Vec::new(),
            flags: Vec::new(),
        }
    }

    /// An operation point descriptor, its reserved bits mostly at 1. What is more than its length can say is cut off.
    fn of(random: &mut Random, given: &PointDescriptor) -> Laid {
        let mut laid = Laid {
            tag: EXTENSION_TAG,
            payload: vec![OPERATION_POINT_TAG],
            counts: Vec::new(),
            es_counts: Vec::new(),
            references: Vec::new(),
            flags: Vec::new(),
        };
        laid.counts.push(laid.payload.len());
        let reserved = loops::reserved(random, 0xC0);
        laid.payload.push(reserved | given.profiles.len() as u8);
        laid.payload.extend(given.profiles.concat());
        laid.counts.push(laid.payload.len());
        laid.payload.push(given.points.len() as u8);
        for point in &given.points {
            laid.add(random, point);
        }
        laid.payload.truncate(PAYLOAD + 1);
        laid
    }

    fn add(&mut self, random: &mut Random, point: &Point) {
        self.payload.push(point.target_ols);
        self.counts.push(self.payload.len());
        self.es_counts.push(self.payload.len());
        self.payload.push(point.references.len() as u8);
        for one in &point.references {
            self.references.push(self.payload.len());
            let prepend = u8::from(one.prepend_dependencies) << 6;
            self.payload
                .push(loops::reserved(random, 0x80) | prepend | one.layer_index);
        }
        self.counts.push(self.payload.len());
        self.payload
            .push(loops::reserved(random, 0xC0) | point.layers.len() as u8);
        for one in &point.layers {
            let flags = u8::from(one.necessary) << 7 | u8::from(one.output) << 6;
            self.payload.push(flags | one.profile);
        }
        let (idc, indicator) = point.frame_rate.map_or((0, 0), FrameRate::fields);
        self.flags.push(self.payload.len());
        self.payload.push(
            loops::reserved(random, 0x80)
                | u8::from(point.average_bit_rate.is_some()) << 6
                | u8::from(point.maximum_bit_rate.is_some()) << 5
                | idc << 3
                | point.temporal_id,
        );
        if idc > 0 {
            let reserved = u16::from(loops::reserved(random, 0xF0)) << 8;
            self.payload.extend((reserved | indicator).to_be_bytes());
        }
        for rate in [point.average_bit_rate, point.maximum_bit_rate] {
            if let Some(rate) = rate {
                self.payload.extend(&rate.to_be_bytes()[1..]);
            }
        }
    }

    fn bytes(&self) -> Vec<u8> {
        let payload = &self.payload[..self.payload.len().min(255)];
        let mut bytes = vec![self.tag, payload.len() as u8];
        bytes.extend(payload);
        bytes
    }
}

/// A descriptor whose references are layers of the loop, with dependencies that are there too, where there are any; of about the greatest length where it is to be tight.
fn descriptor(random: &mut Random, layers: &Layers, tight: bool) -> PointDescriptor {
    let mut given = PointDescriptor {
        profiles: Vec::new(),
        points: Vec::new(),
    };
    for _ in 0..random.pick(&[0, 0, 1, 1, 2, 3]) {
        let profile = random.bytes(12);
        given.profiles.push(profile.try_into().expect("12 bytes"));
    }
    for _ in 0..random.pick(&[0, 1, 1, 2, 3, 6]) {
        let one = point(random, layers);
        given.points.push(one);
    }
    while room(&given) < 0 {
        if given.points.pop().is_none() {
            given.profiles.pop();
        }
    }
    if tight {
        tighten(random, layers, &mut given);
    }
    given
}

/// How many bytes are left of the longest payload.
fn room(given: &PointDescriptor) -> isize {
    let point = |one: &Point| {
        let rates = [one.average_bit_rate, one.maximum_bit_rate];
        let optional = 3 * rates.iter().flatten().count() + 2 * one.frame_rate.iter().count();
        4 + one.references.len() + one.layers.len() + optional
    };
    let points: usize = given.points.iter().map(point).sum();
    PAYLOAD as isize - (2 + 12 * given.profiles.len() + points) as isize
}

/// Makes the descriptor as long as it may be, by profiles, references, layers or points.
fn tighten(random: &mut Random, layers: &Layers, given: &mut PointDescriptor) {
    let bare = Point {
        target_ols: random.byte(),
        references: Vec::new(),
        layers: Vec::new(),
        temporal_id: 0,
        frame_rate: None,
        average_bit_rate: None,
        maximum_bit_rate: None,
    };
    match random.below(3) {
        0 => {
            while room(given) >= 12 {
                given.profiles.push([random.byte(); 12]);
            }
        }
        1 => {
            while room(given) >= 8 {
                given.points.push(bare.clone());
            }
        }
        _ => {}
    }
    if room(given) >= 4 {
        given.points.push(bare);
    }
    let left = room(given).max(0) as usize;
    if let Some(last) = given.points.last_mut() {
        let known: Vec<u8> = present(layers).collect();
        if known.is_empty() || random.once_in(2) {
            let more = left.min(63 - last.layers.len());
            last.layers.extend((0..more).map(|_| flags(random)));
        } else {
            last.references.extend((0..left).map(|_| Reference {
                prepend_dependencies: false,
                layer_index: random.pick(&known),
            }));
        }
    }
}

fn present(layers: &Layers) -> impl Iterator<Item = u8> + '_ {
    (0..64).filter(move |index| layers.present >> index & 1 != 0)
}

fn flags(random: &mut Random) -> LayerFlags {
    let bits = random.byte();
    LayerFlags {
        necessary: bits & 0x80 != 0,
        output: bits & 0x40 != 0,
        profile: bits & 0x3F,
    }
}

/// A point whose references are layers of the loop.
fn point(random: &mut Random, layers: &Layers) -> Point {
    let known: Vec<u8> = present(layers).collect();
    let mut references = Vec::new();
    if !known.is_empty() {
        let often = random.pick(&[1, 2, 8]);
        for _ in 0..random.pick(&[0, 1, 1, 2, 3, 5, 12]) {
            let layer_index = random.pick(&known);
            let there = layers.embedded[usize::from(layer_index)] & !layers.present == 0;
            references.push(Reference {
                prepend_dependencies: there && random.once_in(often),
                layer_index,
            });
        }
    }
    let layers = random.pick(&[0, 1, references.len(), 3]);
    let rate = |random: &mut Random| {
        let rate = random.next() as u32 & 0xFF_FFFF;
        random.once_in(2).then(|| rate)
    };
    let indicator = random.next() as u16 & 0xFFF;
    Point {
        target_ols: random.byte(),
        references,
        layers: (0..layers).map(|_| flags(random)).collect(),
        temporal_id: random.byte() & 7,
        frame_rate: FrameRate::told(random.byte() & 3, indicator),
        average_bit_rate: rate(random),
        maximum_bit_rate: rate(random),
    }
}

/// Makes one thing of a program wrong, or at least another.
fn miss(random: &mut Random, layers: &Layers, descriptors: &mut Vec<Laid>) {
    let own: Vec<usize> = (0..descriptors.len())
        .filter(|&place| !descriptors[place].counts.is_empty())
        .collect();
    if own.is_empty() {
        let given = descriptor(random, layers, false);
        let mut laid = Laid::of(random, &given);
        laid.payload.push(0);
        return descriptors.push(laid);
    }
    let one = random.pick(&own);
    let Laid {
        tag,
        payload,
        counts,
        es_counts,
        references,
        flags,
    } = &mut descriptors[one];
    let step = random.pick(&[1, 0xFF]);
    let some = |random: &mut Random, places: &[usize]| {
        let here: Vec<usize> = places
            .iter()
            .copied()
            .filter(|&at| at < payload.len())
            .collect();
        (!here.is_empty()).then(|| random.pick(&here))
    };
    match random.below(12) {
        0..=2 => {
            // A count one off.
            if let Some(place) = some(random, counts) {
                payload[place] = payload[place].wrapping_add(step);
            }
        }
        3 | 4 => {
            if let Some(place) = some(random, es_counts) {
                payload[place] = random.pick(&[0xFF, 0xFF, 0xFE, 0]);
            }
        }
        5 | 6 => {
            // Another layer, mostly none, or its dependencies too.
            if let Some(place) = some(random, references) {
                payload[place] = match random.once_in(2) {
                    true => random.byte(),
                    false => payload[place] | 0x40,
                };
            }
        }
        7 => {
            // A field that is there or not.
            if let Some(place) = some(random, flags) {
                payload[place] ^= random.pick(&[0x08, 0x10, 0x20, 0x40]);
            }
        }
        8 => drop(payload.pop()),
        9 => payload.push(random.byte()),
        10 => payload.truncate(random.below(4)),
        _ => match random.once_in(2) {
            true => *tag = random.pick(&[62, 64, 4, 0]),
            false => {
                if let Some(tag) = payload.first_mut() {
                    *tag = random.pick(&[0, 4, 6, 7]);
                }
            }
        },
    }
}

/// Makes the bytes of a program's loop end elsewhere.
fn miss_by_bytes(random: &mut Random, bytes: &mut Vec<u8>) {
    match random.below(3) {
        0 => bytes.push(random.pick(&[63, 0, 0x0A])),
        1 => drop(bytes.pop()),
        _ => bytes.truncate(random.below(bytes.len() + 1)),
    }
}

/// A case of writing.
pub fn writing(random: &mut Random) -> (Call, Quality) {
    let quality = Quality::pick(random);
    let layers = Layers {
        present: u64::MAX,
        ..Layers::default()
    };
    let tight = random.once_in(6);
    let given = descriptor(random, &layers, tight);
    let PointLists {
        profiles,
        mut points,
        references,
        layers,
        ..
    } = PointLists::of_descriptor(&given);
    // What is said of streams is not looked at.
    if random.once_in(2) {
        for numbers in points.chunks_mut(POINT) {
            numbers[10] = random.next() as u32;
            numbers[11] = random.next() as u32;
        }
    }
    let mut call = Write {
        profiles,
        points,
        references,
        layers,
        out: Vec::new(),
    };
    if quality != Quality::Sound {
        for _ in 0..random.pick(&[1, 1, 1, 2]) {
            miss_in_lists(random, &mut call);
        }
    }
    let needed =
        plain::descriptor_of_lists(&call.profiles, &call.points, &call.references, &call.layers)
            .and_then(|given| plain::write_points(&given, &mut [0; PAYLOAD + 3]));
    let length = random.room(needed.unwrap_or(40));
    call.out = filled(random, length, |bits| bits as u8);
    (Call::WritePoints(call), quality)
}

/// Makes one thing of the lists wrong, or at least another.
fn miss_in_lists(random: &mut Random, call: &mut Write) {
    let count = call.points.len() / POINT;
    match random.below(12) {
        0..=3 if count > 0 => {
            // A value at the end of its range, or beyond.
            let place = random.below(POINT);
            let most: u32 = [255, 254, 63, 1, 1, 3, 7, 4095, 0xFF_FFFF, 0xFF_FFFF, 64, 1][place];
            let number = random.pick(&[most, most + 1, 0, 1, 255, 256, 65536, u32::MAX]);
            call.points[random.below(count) * POINT + place] = number;
        }
        4 if !call.references.is_empty() => {
            let place = random.below(call.references.len());
            call.references[place] = random.pick(&[127, 128, 255, 64, 192]);
        }
        5 => {
            // A list one place longer or shorter.
            let list = match random.below(3) {
                0 => &mut call.references,
                1 => &mut call.layers,
                _ => &mut call.profiles,
            };
            match random.once_in(2) {
                true => list.push(random.byte() & 0x7F),
                false => drop(list.pop()),
            }
        }
        6 => match random.once_in(2) {
            true => call.points.push(random.next() as u32 & 1),
            false => drop(call.points.pop()),
        },
        7 | 8 => {
            // A point of many references.
            let many = random.pick(&[255, 255, 255, 254, 256, 240, 248, 249]);
            let mut point = [0; POINT];
            point[1] = many;
            call.points.extend(point);
            call.references
                .extend((0..many).map(|_| random.byte() & 0x7F));
        }
        9 => {
            let many = random.pick(&[20, 21, 22, 62, 63, 64, 65]);
            let more = random.bytes(12 * many);
            call.profiles.extend(more);
        }
        10 => {
            let many = random.pick(&[63, 62, 64, 65]);
            let mut point = [0; POINT];
            point[2] = many;
            call.points.extend(point);
            let more = random.bytes(many as usize);
            call.layers.extend(more);
        }
        _ => {
            let many: usize = random.pick(&[40, 60, 63, 64, 254, 255, 256]);
            call.points.extend(vec![0; many * POINT]);
        }
    }
}
