//! Loops: sound ones, ones with a single thing wrong, and damaged ones.

use crate::calls::{numbers_of, ENTRY};
use crate::random::Random;
use plain::{Reading, LONGEST_LOOP};

/// How an input was made.
#[derive(Clone, Copy, Debug, PartialEq, Eq)]
pub enum Quality {
    Sound,
    NearMiss,
    Damaged,
}

impl Quality {
    pub const NAMES: [&'static str; 3] = ["sound", "near miss", "damaged"];

    pub fn pick(random: &mut Random) -> Quality {
        match random.below(20) {
            0..=6 => Quality::Sound,
            7..=15 => Quality::NearMiss,
            _ => Quality::Damaged,
        }
    }
}

/// Of which two without a hierarchy descriptor, one of each, are layers all the same.
const VIEWS: [u8; 2] = [0x1B, 0x20];
const OLD_TYPES: [u8; 3] = [0x1B, 0x1F, 0x20];
const HEVC_TYPES: [u8; 6] = [0x24, 0x25, 0x28, 0x29, 0x2A, 0x2B];
/// Known to no reading, the neighbours of known ones among them.
const OTHER_TYPES: [u8; 12] = [
    0x00, 0x02, 0x0F, 0x1A, 0x1C, 0x1E, 0x21, 0x23, 0x26, 0x27, 0x2C, 0xFF,
];

/// A descriptor.
#[derive(Clone)]
pub struct Descriptor {
    pub tag: u8,
    pub payload: Vec<u8>,
}

impl Descriptor {
    /// Whether it makes its stream a layer, by tag alone.
    fn is_record(&self) -> bool {
        self.tag == 4 || self.tag == 63 && self.payload.first() == Some(&6)
    }

    /// The layer index that it says, if it is long enough.
    fn index(&self) -> Option<u8> {
        match self.tag {
            4 => Some(self.payload.get(1)? & 63),
            _ => Some(self.payload.get(3)? >> 2),
        }
    }
}

/// An entry before it is laid out.
#[derive(Clone)]
pub struct Stream {
    pub stream_type: u8,
    pub pid: u16,
    pub descriptors: Vec<Descriptor>,
}

impl Stream {
    /// A stream without descriptors, whose PID is yet to come.
    pub fn plain(stream_type: u8) -> Stream {
        Stream {
            stream_type,
            pid: 0,
            descriptors: Vec::new(),
        }
    }

    pub fn length(&self) -> usize {
        let descriptors = self.descriptors.iter();
        5 + descriptors.map(|one| 2 + one.payload.len()).sum::<usize>()
    }

    /// The place of the descriptor that makes it a layer.
    fn record(&self) -> Option<usize> {
        self.descriptors.iter().position(Descriptor::is_record)
    }

    /// The index that this descriptor says.
    fn index(&self) -> Option<u8> {
        self.descriptors[self.record()?].index()
    }
}

/// A reading, by its number.
pub fn reading(random: &mut Random) -> u64 {
    match random.below(40) {
        0 => random.pick(&[0, 1, 2008, 2010, 2014, 2016, 1 << 32 | 2015, u64::MAX]),
        1..=12 => 2009,
        _ => 2015,
    }
}

/// A loop, and how it was made.
pub fn bytes(random: &mut Random, reading: u64) -> (Vec<u8>, Quality) {
    let quality = Quality::pick(random);
    if quality == Quality::Damaged && random.once_in(2) {
        return (noise(random), quality);
    }
    let mut streams = sound(random, reading);
    if quality == Quality::Sound {
        return (lay(random, &streams), quality);
    }
    let wrongs = if random.once_in(3) {
        random.within(2, 4)
    } else {
        1
    };
    if quality == Quality::NearMiss {
        for _ in 0..wrongs {
            if random.once_in(4) {
                let mut bytes = lay(random, &streams);
                miss_by_bytes(random, &mut bytes);
                return (bytes, quality);
            }
            miss(random, &mut streams);
        }
        return (lay(random, &streams), quality);
    }
    let mut bytes = lay(random, &streams);
    for _ in 0..random.within(1, 12) {
        if !bytes.is_empty() {
            let place = random.below(bytes.len());
            bytes[place] = random.byte();
        }
    }
    (bytes, quality)
}

/// A loop that the reading accepts.
pub fn sound_bytes(random: &mut Random, reading: u64) -> Vec<u8> {
    let streams = sound(random, reading);
    lay(random, &streams)
}

/// Bytes that were never a loop, or bytes of the kind that loops are made of.
fn noise(random: &mut Random) -> Vec<u8> {
    let length = match random.below(8) {
        0 => random.within(1000, 1016),
        1 => random.below(3000),
        _ => random.below(60),
    };
    let usual = [
        0x1B, 0x1F, 0x20, 0x24, 0x28, 0x2B, 4, 4, 4, 63, 6, 7, 8, 0, 0, 0, 1, 2, 0xE1, 0xF0, 0xFF,
        0xC0, 0xC1, 0xD1,
    ];
    if random.once_in(3) {
        random.bytes(length)
    } else {
        (0..length).map(|_| random.pick(&usual)).collect()
    }
}

/// The streams of a sound loop, often with two views among them that have no hierarchy descriptor.
fn sound(random: &mut Random, reading: u64) -> Vec<Stream> {
    let views = random.once_in(3);
    let alone = views && !random.once_in(6);
    let layers = match random.below(12) {
        0 => 0,
        1 => random.within(8, 64),
        _ => random.within(1, 6),
    };
    let others = match random.below(12) {
        0 => random.below(200),
        1..=6 => 0,
        _ => random.below(4),
    };
    let dense = !random.once_in(4);
    let mut indices: Vec<u8> = (0..64).collect();
    if !dense {
        random.shuffle(&mut indices);
    }
    if views {
        indices.retain(|index| *index > 1);
    }
    indices.truncate(layers);
    indices.sort_unstable();
    let mut written = 0..indices.len();
    if views {
        // Indices 0 and 1 are theirs, and may be named.
        indices.splice(0..0, [0, 1]);
        written = 2..indices.len();
    }
    let mut streams: Vec<Stream> = written
        .map(|place| layer(random, reading, &indices, place, alone))
        .collect();
    for _ in 0..others {
        streams.push(other(random, reading));
    }
    if random.once_in(2) {
        random.shuffle(&mut streams);
    }
    if views {
        for stream_type in VIEWS {
            streams.insert(random.below(streams.len() + 1), Stream::plain(stream_type));
        }
    }
    let first = random.below(8192);
    // An odd step meets every PID once.
    let step = random.below(4096) * 2 + 1;
    let mut length = 0;
    for (place, stream) in streams.iter_mut().enumerate() {
        stream.pid = ((first + place * step) % 8192) as u16;
        if random.once_in(3) {
            let skipped = skipped(random, reading);
            let place = random.below(stream.descriptors.len() + 1);
            stream.descriptors.insert(place, skipped);
        }
    }
    streams.retain(|stream| {
        length += stream.length();
        length <= LONGEST_LOOP
    });
    keep_indices_apart(&mut streams);
    streams
}

/// Makes another type of the base view where two views would have an index that a layer has too.
fn keep_indices_apart(streams: &mut [Stream]) {
    let only = |stream_type: u8| {
        let mut places =
            (0..streams.len()).filter(|&place| streams[place].stream_type == stream_type);
        places.next().filter(|_| places.next().is_none())
    };
    if let [Some(base), Some(second)] = VIEWS.map(only) {
        let described = |place: usize| streams[place].descriptors.iter().any(|one| one.tag == 4);
        let mut records = streams
            .iter()
            .flat_map(|stream| &stream.descriptors)
            .filter(|one| one.is_record());
        let held = records.any(|one| one.index().map_or(false, |index| index < 2));
        if held && !described(base) && !described(second) {
            streams[base].stream_type = 0x02;
        }
    }
}

/// A stream that is a layer of the reading, with the index at this place of the rising list; not of a view's type where two views stand alone.
fn layer(random: &mut Random, reading: u64, indices: &[u8], place: usize, alone: bool) -> Stream {
    let index = indices[place];
    // What it may name: layers of the loop, now and then one that isn't there.
    let mut lower: Vec<u8> = indices[..place].to_vec();
    if lower.is_empty() && random.once_in(4) || random.once_in(60) {
        lower = (0..index).collect();
    }
    let extension = reading != 2009 && random.once_in(2);
    if extension && (random.once_in(10) || !lower.is_empty()) {
        let most = lower.len();
        let count = if random.once_in(2) {
            most.min(1)
        } else {
            random.within(0, most)
        };
        random.shuffle(&mut lower);
        lower.truncate(count);
        return Stream {
            stream_type: random.pick(&HEVC_TYPES),
            pid: 0,
            descriptors: vec![extension_of(random, index, &lower)],
        };
    }
    let base = lower.is_empty() || random.once_in(30);
    let embedded = if base {
        random.byte() & 63
    } else if random.once_in(2) {
        lower[lower.len() - 1]
    } else {
        random.pick(&lower)
    };
    let old_alone = reading == 2009;
    let (stream_type, hierarchy_type) = if base {
        (
            if old_alone {
                0x1B
            } else {
                random.pick(&[0x1B, 0x24])
            },
            15,
        )
    } else if random.once_in(4) && !alone {
        (0x20, 9)
    } else {
        let hevc = random.pick(&HEVC_TYPES);
        let types = [if alone { 0x1F } else { 0x1B }, 0x1F, hevc];
        let known = if old_alone { &types[..2] } else { &types };
        (random.pick(known), random.within(1, 8) as u8)
    };
    let flags = match hierarchy_type {
        9 => 0xF0,
        8 => random.byte() & 0xF0,
        _ => 0xF0 & !random.pick(&[0, 0x10, 0x20, 0x40, 0x80]),
    };
    // The 2009 reading doesn't judge the first bit.
    let flags = if old_alone && random.once_in(2) {
        flags ^ 0x80
    } else {
        flags
    };
    Stream {
        stream_type,
        pid: 0,
        descriptors: vec![Descriptor {
            tag: 4,
            payload: vec![
                flags | hierarchy_type,
                reserved(random, 0xC0) | index,
                random.byte() & 0x80 | reserved(random, 0x40) | embedded,
                reserved(random, 0xC0) | random.byte() & 63,
            ],
        }],
    }
}

/// A hierarchy extension.
fn extension_of(random: &mut Random, index: u8, list: &[u8]) -> Descriptor {
    let ids = u16::from(index) << 10 | random.next() as u16 & 0x3FF;
    let mut payload = vec![6, random.byte(), random.byte()];
    payload.extend(ids.to_be_bytes());
    payload.push(reserved(random, 0xC0) | list.len() as u8 & 63);
    payload.push(reserved(random, 0xC0) | random.byte() & 63);
    for lower in list {
        payload.push(reserved(random, 0xC0) | lower);
    }
    Descriptor { tag: 63, payload }
}

/// Reserved bits: mostly 1, as they are written.
pub fn reserved(random: &mut Random, bits: u8) -> u8 {
    if random.once_in(4) {
        random.byte() & bits
    } else {
        bits
    }
}

/// A stream that is no layer: of another type with anything in it, or of a known type without a record.
pub fn other(random: &mut Random, reading: u64) -> Stream {
    let known = random.once_in(3);
    let stream_type = if known {
        random.pick(&OLD_TYPES)
    } else if reading == 2009 && random.once_in(2) {
        random.pick(&HEVC_TYPES)
    } else {
        random.pick(&OTHER_TYPES)
    };
    let mut descriptors = Vec::new();
    while !known && random.once_in(3) {
        let length = random.below(9);
        descriptors.push(Descriptor {
            tag: random.pick(&[4, 63, 10, 0]),
            payload: random.bytes(length),
        });
    }
    Stream {
        stream_type,
        pid: 0,
        descriptors,
    }
}

/// A descriptor that is skipped on a known stream.
pub fn skipped(random: &mut Random, reading: u64) -> Descriptor {
    let length = if random.once_in(20) {
        random.below(256)
    } else {
        random.below(9)
    };
    let mut payload = random.bytes(length);
    match random.below(4) {
        0 => {
            // Another extension tag, or none; the 2009 reading skips the hierarchy extension too.
            if let Some(tag) = payload.first_mut() {
                *tag = if reading == 2009 {
                    6
                } else {
                    random.pick(&[0, 5, 7, 0x86])
                };
            }
            Descriptor { tag: 63, payload }
        }
        1 => Descriptor {
            tag: random.pick(&[3, 5, 49, 62, 64, 0x44]),
            payload,
        },
        _ => Descriptor {
            tag: random.pick(&[0x28, 0x2A, 0x05, 0x0A, 0xFF]),
            payload,
        },
    }
}

/// Lays the streams out.
pub fn lay(random: &mut Random, streams: &[Stream]) -> Vec<u8> {
    let mut bytes = Vec::new();
    for stream in streams {
        let pid = stream.pid.to_be_bytes();
        let info = ((stream.length() - 5) as u16).to_be_bytes();
        bytes.push(stream.stream_type);
        bytes.extend([reserved(random, 0xE0) | pid[0], pid[1]]);
        bytes.extend([reserved(random, 0xF0) | info[0] & 0x0F, info[1]]);
        for one in &stream.descriptors {
            bytes.extend([one.tag, one.payload.len() as u8]);
            bytes.extend(&one.payload);
        }
    }
    bytes
}

/// Makes one thing wrong, or at least another.
pub fn miss(random: &mut Random, streams: &mut Vec<Stream>) {
    if streams.is_empty() {
        streams.push(other(random, 2015));
    }
    let from = random.below(streams.len());
    let place = random.below(streams.len());
    let other_index = streams[from].index();
    let other_pid = streams[from].pid;
    let stream = &mut streams[place];
    let own_index = stream.index();
    let record = stream.record();
    match random.below(16) {
        0 => stream.pid = other_pid,
        1 => {
            stream.stream_type = match random.below(4) {
                0 => random.pick(&OLD_TYPES),
                1 => random.pick(&HEVC_TYPES),
                2 => random.pick(&OTHER_TYPES),
                _ => random.byte(),
            }
        }
        2 => {
            // A record of another length.
            if let Some(record) = record {
                let payload = &mut stream.descriptors[record].payload;
                match random.below(4) {
                    0 => payload.push(random.byte()),
                    1 => drop(payload.pop()),
                    _ => payload.truncate(random.below(payload.len() + 1)),
                }
            }
        }
        3 => {
            // Another count of embedded layers than there are.
            if let Some(record) = record {
                let payload = &mut stream.descriptors[record].payload;
                if let Some(count) = payload.get_mut(5) {
                    *count = count.wrapping_add(random.pick(&[1, 0xFF, 2, 8]));
                }
            }
        }
        4 => {
            // Two records.
            if let Some(record) = record {
                let again = stream.descriptors[record].clone();
                let place = random.below(stream.descriptors.len() + 1);
                stream.descriptors.insert(place, again);
            }
        }
        5 => {
            let lower: Vec<u8> = (0..random.below(3) as u8).collect();
            let index = random.byte() & 63;
            let descriptor = if random.once_in(2) {
                extension_of(random, index, &lower)
            } else {
                Descriptor {
                    tag: 4,
                    payload: random.bytes(4),
                }
            };
            stream.descriptors.push(descriptor);
        }
        6..=8 => {
            // Another type, other flags, the index of another layer, embedded indices that are not below it.
            if let (Some(record), Some(own)) = (record, own_index) {
                let other = other_index.unwrap_or(own);
                let Descriptor { tag, payload } = &mut stream.descriptors[record];
                let above = random.within(usize::from(own), 63) as u8;
                match (*tag, random.below(5)) {
                    (4, 0) => payload[0] = payload[0] & 0xF0 | random.byte() & 0x0F,
                    (4, 1) => payload[0] = payload[0] & 0x0F | random.byte() & 0xF0,
                    (4, 2) => payload[1] = payload[1] & 0xC0 | other,
                    (4, _) => {
                        if let Some(embedded) = payload.get_mut(2) {
                            *embedded = *embedded & 0xC0 | random.pick(&[own, above]);
                        }
                    }
                    (_, 0) => payload[3] = payload[3] & 3 | other << 2,
                    (_, 1) if payload.len() > 8 => {
                        let from = random.within(7, payload.len() - 1);
                        let to = random.within(7, payload.len() - 1);
                        payload[to] = payload[from];
                    }
                    (_, _) if payload.len() > 7 => {
                        let to = random.within(7, payload.len() - 1);
                        payload[to] = payload[to] & 0xC0 | random.pick(&[own, above]);
                    }
                    _ => {}
                }
            }
        }
        9..=10 => {
            // A long list, most often a sound one, of a high index so that it can stand below it: up to the 63 that there can be.
            let index = if random.once_in(2) {
                63
            } else {
                random.within(8, 63) as u8
            };
            let mut lower: Vec<u8> = (0..index).collect();
            random.shuffle(&mut lower);
            lower.truncate(random.pick(&[8, 9, 12, 31, 61, 62, 63]));
            if random.once_in(6) && !lower.is_empty() {
                let place = random.below(lower.len());
                lower[place] = random.byte() & 63;
            }
            stream.descriptors = vec![extension_of(random, index, &lower)];
            if !HEVC_TYPES.contains(&stream.stream_type) && !random.once_in(8) {
                stream.stream_type = random.pick(&HEVC_TYPES);
            }
        }
        11 => {
            let again = stream.clone();
            streams.push(again);
        }
        12 => {
            // One more stream of a view's type.
            let view = random.pick(&VIEWS);
            insert(random, streams, Stream::plain(view));
        }
        13 => {
            // A layer that has an index of two views, where there are two.
            let index = random.below(2) as u8;
            let (stream_type, hierarchy_type) = random.pick(&[(0x24, 15), (0x1F, 1), (0x25, 3)]);
            let descriptor = Descriptor {
                tag: 4,
                payload: vec![0xF0 | hierarchy_type, 0xC0 | index, 0x40, 0xC0],
            };
            let mut layer = Stream::plain(stream_type);
            layer.descriptors.push(descriptor);
            insert(random, streams, layer);
        }
        14 => {
            // A record on a view.
            let views = streams
                .iter_mut()
                .filter(|one| VIEWS.contains(&one.stream_type));
            for view in views {
                if random.once_in(2) {
                    let index = random.below(4) as u8;
                    let hierarchy_type = if view.stream_type == 0x1B { 15 } else { 9 };
                    let descriptor = if random.once_in(2) {
                        extension_of(random, index, &[])
                    } else {
                        Descriptor {
                            tag: 4,
                            payload: vec![0xF0 | hierarchy_type, 0xC0 | index, 0x40, 0xC0],
                        }
                    };
                    view.descriptors.push(descriptor);
                }
            }
        }
        _ => {
            // One bit of a descriptor.
            if let Some(record) = record {
                let payload = &mut stream.descriptors[record].payload;
                if !payload.is_empty() {
                    let place = random.below(payload.len());
                    payload[place] ^= 1 << random.below(8);
                }
            }
        }
    }
}

/// Inserts a stream somewhere, with a PID that most often no other has.
fn insert(random: &mut Random, streams: &mut Vec<Stream>, mut stream: Stream) {
    stream.pid = random.below(8192) as u16;
    streams.insert(random.below(streams.len() + 1), stream);
}

/// Makes one thing wrong in the bytes.
pub fn miss_by_bytes(random: &mut Random, bytes: &mut Vec<u8>) {
    match random.below(6) {
        0 => bytes.truncate(random.below(bytes.len() + 1)),
        1 => {
            let length = random.within(1, 6);
            bytes.extend(random.bytes(length));
        }
        2 => {
            // Padded by one entry of another type up to about the longest length.
            let length = random.within(LONGEST_LOOP - 3, LONGEST_LOOP + 4);
            let info = length.saturating_sub(bytes.len() + 5);
            bytes.extend([0x02, 0xFF, 0xFF, 0xF0 | (info >> 8) as u8, info as u8]);
            bytes.extend(random.bytes(info));
        }
        3 if bytes.len() > 4 => {
            // The first entry's ES_info_length.
            let place = random.within(3, 4);
            bytes[place] ^= 1 << random.below(8);
        }
        4 if bytes.len() > 6 => {
            // The first descriptor's length.
            bytes[6] = bytes[6].wrapping_add(random.pick(&[1, 2, 0xFF, 0xFE, 0x80]));
        }
        _ => {
            if !bytes.is_empty() {
                let place = random.below(bytes.len());
                bytes[place] ^= 1 << random.below(8);
            }
        }
    }
}

/// The numbers of the entries of a loop to be written.
pub fn entries(random: &mut Random) -> (Vec<u16>, Quality) {
    let quality = Quality::pick(random);
    let bytes = sound_bytes(random, 2015);
    let sound = plain::read_loop(Reading::Of2015, &bytes).expect("a sound loop");
    let mut entries: Vec<[u16; ENTRY]> = sound.iter().map(numbers_of).collect();
    if random.once_in(2) {
        for entry in &mut entries {
            fill_unread(random, entry);
        }
    }
    match quality {
        Quality::Sound => {}
        Quality::NearMiss => {
            for _ in 0..random.pick(&[1, 1, 1, 2, 3]) {
                miss_by_number(random, &mut entries);
            }
        }
        Quality::Damaged => {
            for _ in 0..random.within(1, 8) {
                if !entries.is_empty() {
                    let place = random.below(entries.len());
                    let last = random.pick(&[17, ENTRY]);
                    entries[place][random.below(last)] = random.next() as u16;
                }
            }
        }
    }
    let mut numbers = entries.concat();
    if random.once_in(4) {
        let more = random.within(1, ENTRY - 1);
        numbers.extend((0..more).map(|_| random.next() as u16));
    }
    (numbers, quality)
}

/// Fills the numbers that a writer doesn't look at.
pub fn fill_unread(random: &mut Random, entry: &mut [u16; ENTRY]) {
    let unread: Vec<usize> = match entry[2] {
        0 | 3 => (3..ENTRY).collect(),
        1 => (12..ENTRY).collect(),
        _ => (3..8)
            .chain(10..11)
            .chain(16 + usize::from(entry[15])..ENTRY)
            .collect(),
    };
    for place in unread {
        entry[place] = random.next() as u16;
    }
}

/// Makes one number of an entry another, or adds entries.
pub fn miss_by_number(random: &mut Random, entries: &mut Vec<[u16; ENTRY]>) {
    if entries.is_empty() || random.once_in(12) {
        // Up to and past the most that a loop can hold.
        let count = random.pick(&[1, 3, 60, 201, 202, 203, 260]);
        let first = random.next() as u16;
        for place in 0..count {
            let mut entry = [0; ENTRY];
            entry[0] = u16::from(random.pick(&OTHER_TYPES));
            entry[1] = first.wrapping_add(place * 31) % 8192;
            entries.push(entry);
        }
        if random.once_in(2) {
            entries.truncate(201);
        }
        return;
    }
    let from = random.below(entries.len());
    let place = random.below(entries.len());
    let field = match random.below(6) {
        0 => random.below(ENTRY),
        1 => 16 + random.below(usize::from(entries[place][15]).clamp(1, 63)),
        _ => random.below(16),
    };
    match random.below(13) {
        0 => entries[place][field] = entries[from][field],
        1 => entries[place][field] = entries[place][field].wrapping_add(1),
        2 => entries[place][field] = random.next() as u16,
        3 => {
            entries[place][field] = random.pick(&[
                0, 1, 2, 3, 7, 8, 9, 15, 16, 63, 64, 127, 128, 255, 256, 8191, 8192, 65535,
            ]);
        }
        4 => entries[place][1] = entries[from][1],
        5 => {
            // The index of another layer, or of a view.
            entries[place][8] = match random.once_in(2) {
                true => entries[from][8],
                false => random.below(2) as u16,
            }
        }
        6 => {
            // A long list.
            let entry = &mut entries[place];
            entry[0] = u16::from(random.pick(&HEVC_TYPES));
            entry[2] = 2;
            entry[8] = random.within(0, 63) as u16;
            entry[9] = 1;
            entry[11] = 5;
            entry[13] = 7;
            entry[14] = 63;
            entry[15] = random.pick(&[8, 9, 12, 62, 63, 64, 255]);
            let mut lower: Vec<u16> = (0..entry[8]).collect();
            random.shuffle(&mut lower);
            for (to, index) in (16..79).zip(0..) {
                entry[to] = lower.get(index).copied().unwrap_or(index as u16);
            }
        }
        7 => {
            // Another type, other flags.
            let entry = &mut entries[place];
            if random.once_in(2) {
                entry[7] = random.below(17) as u16;
            } else {
                for flag in &mut entry[3..7] {
                    *flag = random.below(2) as u16;
                }
            }
        }
        8 => {
            // The implied mark of one entry, mostly of a view: there where it was not, or not where it was.
            let views: Vec<usize> = (0..entries.len())
                .filter(|&place| VIEWS.map(u16::from).contains(&entries[place][0]))
                .collect();
            let place = match views.is_empty() || random.once_in(6) {
                true => place,
                false => random.pick(&views),
            };
            entries[place][2] = if entries[place][2] == 3 { 0 } else { 3 };
        }
        9 => {
            // One more view, marked or not.
            let mut entry = [0; ENTRY];
            entry[0] = u16::from(random.pick(&VIEWS));
            entry[1] = random.below(8192) as u16;
            entry[2] = random.pick(&[0, 3]);
            entries.insert(random.below(entries.len() + 1), entry);
        }
        10 => {
            // A record on a view, mostly one that could stand there.
            for entry in entries
                .iter_mut()
                .filter(|entry| VIEWS.map(u16::from).contains(&entry[0]))
            {
                if random.once_in(2) {
                    let hierarchy_type = if entry[0] == 0x1B { 15 } else { 9 };
                    entry[2..].fill(0);
                    entry[2] = random.pick(&[1, 1, 2]);
                    entry[3..8].copy_from_slice(&[1, 1, 1, 1, hierarchy_type]);
                    entry[8] = random.below(4) as u16;
                }
            }
        }
        11 => drop(entries.remove(place)),
        _ => {
            entries[place][0] = match random.below(3) {
                0 => u16::from(random.pick(&OLD_TYPES)),
                1 => u16::from(random.pick(&HEVC_TYPES)),
                _ => u16::from(random.pick(&OTHER_TYPES)),
            }
        }
    }
}
