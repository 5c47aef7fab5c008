//! Stereo sets: the two calls, made to the library and to the plain implementation, and their cases: sound sets, ones with a few things wrong, and
//! damaged ones.

use crate::calls::{entries_of, numbers_of, Call, ENTRY};
use crate::cases::filled;
use crate::loops::{self, Descriptor, Quality, Stream};
use crate::memory::Memory;
use crate::random::Random;
use plain::{MvcExtension, Reading, Refusal, LONGEST_LOOP};
use thoquenry_sys as raw;

/// The numbers that one MVC extension descriptor takes.
const EXTENSION: usize = raw::THQ_MVC_EXTENSION_NUMBERS;

const MVC_EXTENSION_TAG: u8 = 49;

/// A call that reads.
#[derive(Clone, Debug, PartialEq, Eq)]
pub struct Read {
    pub bytes: Vec<u8>,
    pub entries: Vec<u16>,
    pub extensions: Vec<u16>,
}

impl Read {
    /// The library's answer, and whether nothing was written beside a buffer.
    pub fn library(&mut self, memory: &mut Memory) -> (u64, bool) {
        let given = memory.place(&self.bytes);
        let entries = memory.place(&self.entries);
        let extensions = memory.place(&self.extensions);
        // SAFETY: each pointer is of a region, with the length of what was placed there, and no two regions overlap.
        let answer = unsafe {
            raw::thq_read_stereo(
                given.start(),
                given.length(),
                entries.start(),
                entries.length(),
                extensions.start(),
                extensions.length(),
            )
        };
        let untouched = given.take_back(&mut self.bytes)
            & entries.take_back(&mut self.entries)
            & extensions.take_back(&mut self.extensions);
        (answer, untouched)
    }

    pub fn plain(&mut self) -> Result<usize, Refusal> {
        let set = plain::read_stereo(&self.bytes)?;
        let entries = self.entries.get_mut(..2 * ENTRY).ok_or(Refusal::of(17))?;
        let extensions = self.extensions.get_mut(..2 * EXTENSION);
        let extensions = extensions.ok_or(Refusal::of(17))?;
        entries.copy_from_slice(&set.entries.map(|entry| numbers_of(&entry)).concat());
        extensions.copy_from_slice(&set.extensions.map(numbers_of_extension).concat());
        Ok(2)
    }
}

/// A call that writes.
#[derive(Clone, Debug, PartialEq, Eq)]
pub struct Write {
    pub entries: Vec<u16>,
    pub extensions: Vec<u16>,
    pub out: Vec<u8>,
}

impl Write {
    /// The library's answer, and whether nothing was written beside a buffer.
    pub fn library(&mut self, memory: &mut Memory) -> (u64, bool) {
        let entries = memory.place(&self.entries);
        let extensions = memory.place(&self.extensions);
        let room = memory.place(&self.out);
        // SAFETY: each pointer is of a region, with the length of what was placed there, and no two regions overlap.
        let answer = unsafe {
            raw::thq_write_stereo(
                entries.start(),
                entries.length(),
                extensions.start(),
                extensions.length(),
                room.start(),
                room.length(),
            )
        };
        let untouched = entries.take_back(&mut self.entries)
            & extensions.take_back(&mut self.extensions)
            & room.take_back(&mut self.out);
        (answer, untouched)
    }

    pub fn plain(&mut self) -> Result<usize, Refusal> {
        let extensions = self.given_extensions()?;
        plain::write_stereo(&entries_of(&self.entries)?, &extensions, &mut self.out)
    }

    /// The descriptors that the numbers say: one that is not there is 0, and those after the second descriptor are not looked at.
    fn given_extensions(&self) -> Result<[MvcExtension; 2], Refusal> {
        let mut numbers = [0; 2 * EXTENSION];
        for (number, &given) in numbers.iter_mut().zip(&self.extensions) {
            *number = given;
        }
        let (first, second) = numbers.split_at(EXTENSION);
        Ok([extension_of(first)?, extension_of(second)?])
    }
}

fn numbers_of_extension(extension: MvcExtension) -> [u16; EXTENSION] {
    [
        extension.average_bit_rate,
        extension.maximum_bitrate,
        extension.view_order_index_min,
        extension.view_order_index_max,
        u16::from(extension.temporal_id_start),
        u16::from(extension.temporal_id_end),
        u16::from(extension.no_sei_nal_unit_present),
        u16::from(extension.no_prefix_nal_unit_present),
    ]
}

/// The descriptor that eight numbers say, or 25 where one of them is too wide for any descriptor.
fn extension_of(numbers: &[u16]) -> Result<MvcExtension, Refusal> {
    let byte = |place: usize| u8::try_from(numbers[place]).map_err(|_| Refusal::of(25));
    let flag = |place: usize| match numbers[place] {
        0 => Ok(false),
        1 => Ok(true),
        _ => Err(Refusal::of(25)),
    };
    Ok(MvcExtension {
        average_bit_rate: numbers[0],
        maximum_bitrate: numbers[1],
        view_order_index_min: numbers[2],
        view_order_index_max: numbers[3],
        temporal_id_start: byte(4)?,
        temporal_id_end: byte(5)?,
        no_sei_nal_unit_present: flag(6)?,
        no_prefix_nal_unit_present: flag(7)?,
    })
}

/// A case of reading.
pub fn reading(random: &mut Random) -> (Call, Quality) {
    let (bytes, quality) = bytes(random);
    let (entries, extensions) = (room(random, 2 * ENTRY), room(random, 2 * EXTENSION));
    let call = Read {
        bytes,
        entries: filled(random, entries, |bits| bits as u16),
        extensions: filled(random, extensions, |bits| bits as u16),
    };
    (Call::ReadStereo(call), quality)
}

/// A case of writing.
pub fn writing(random: &mut Random) -> (Call, Quality) {
    let (entries, quality) = entries(random);
    let mut extensions = ranges(random).map(|range| extension(random, range));
    if quality != Quality::Sound {
        for _ in 0..random.below(3) {
            miss_in_extension(random, &mut extensions);
        }
    }
    let mut numbers = extensions.concat();
    if quality != Quality::Sound && random.once_in(6) {
        numbers.truncate(random.below(2 * EXTENSION));
    } else if random.once_in(4) {
        let more = random.within(1, 9);
        numbers.extend((0..more).map(|_| random.next() as u16));
    }
    let mut call = Write {
        entries,
        extensions: numbers,
        out: vec![0; LONGEST_LOOP],
    };
    let needed = call.clone().plain().unwrap_or(40);
    let length = random.room(needed);
    call.out = filled(random, length, |bits| bits as u8);
    (Call::WriteStereo(call), quality)
}

/// The length of a list that needs so many places: mostly enough.
fn room(random: &mut Random, needed: usize) -> usize {
    match random.once_in(4) {
        true => random.room(needed),
        false => needed + random.pick(&[0, 0, 1, 9]),
    }
}

/// The bytes of a loop, and how it was made.
fn bytes(random: &mut Random) -> (Vec<u8>, Quality) {
    let quality = Quality::pick(random);
    if random.once_in(12) {
        // Any loop: few of them are a stereo set.
        return loops::bytes(random, 2015);
    }
    let mut streams = set(random);
    if quality == Quality::NearMiss {
        for _ in 0..random.pick(&[1, 1, 1, 2, 3]) {
            if random.once_in(10) {
                let mut bytes = loops::lay(random, &streams);
                loops::miss_by_bytes(random, &mut bytes);
                return (bytes, quality);
            }
            miss(random, &mut streams);
        }
    }
    let mut bytes = loops::lay(random, &streams);
    if quality == Quality::Damaged {
        for _ in 0..random.within(1, 8) {
            let place = random.below(bytes.len());
            bytes[place] = random.byte();
        }
    }
    (bytes, quality)
}

/// The streams of a loop that has a stereo set: the two views, written or implied, and others beside them, some with a tag 49 that counts for nothing.
fn set(random: &mut Random) -> Vec<Stream> {
    let implied = random.once_in(2);
    let mut streams = others(random, implied);
    let of_views = ranges(random).map(|range| extension(random, range));
    for (view, extension) in of_views.iter().enumerate() {
        let mut stream = Stream::plain([0x1B, 0x20][view]);
        if !implied {
            stream.descriptors.push(hierarchy(random, view as u8));
        }
        let payload = payload(random, extension);
        insert(random, &mut stream, described(payload, MVC_EXTENSION_TAG));
        if random.once_in(4) {
            let skipped = skipped(random);
            insert(random, &mut stream, skipped);
        }
        streams.insert(random.below(streams.len() + 1), stream);
    }
    let first = random.below(8192);
    for (place, stream) in streams.iter_mut().enumerate() {
        stream.pid = ((first + place * 37) % 8192) as u16;
    }
    streams
}

/// Streams that are no layers, and leave the two views enough of a loop; of another type than theirs where these have no hierarchy descriptor.
fn others(random: &mut Random, implied: bool) -> Vec<Stream> {
    let mut streams: Vec<Stream> = (0..random.pick(&[0, 0, 1, 2, 3, 30]))
        .map(|_| loops::other(random, 2015))
        .collect();
    for other in &mut streams {
        if implied && [0x1B, 0x20].contains(&other.stream_type) {
            other.stream_type = 0x0F;
        }
        if random.once_in(4) {
            let length = random.pick(&[8, 8, 7, 0]);
            let payload = random.bytes(length);
            insert(random, other, described(payload, MVC_EXTENSION_TAG));
        }
        if random.once_in(4) {
            let skipped = skipped(random);
            insert(random, other, skipped);
        }
    }
    let mut length = 0;
    streams.retain(|stream| {
        length += stream.length();
        length <= LONGEST_LOOP / 2 - 50
    });
    streams
}

/// A descriptor that is skipped in a stereo set too.
fn skipped(random: &mut Random) -> Descriptor {
    let mut skipped = loops::skipped(random, 2015);
    if skipped.tag == MVC_EXTENSION_TAG {
        skipped.tag = 48;
    }
    skipped
}

/// Inserts a descriptor somewhere.
fn insert(random: &mut Random, stream: &mut Stream, descriptor: Descriptor) {
    let place = random.below(stream.descriptors.len() + 1);
    stream.descriptors.insert(place, descriptor);
}

fn described(payload: Vec<u8>, tag: u8) -> Descriptor {
    Descriptor { tag, payload }
}

/// The hierarchy descriptor of the base view or of the other.
fn hierarchy(random: &mut Random, index: u8) -> Descriptor {
    let embedded = match index {
        0 => random.byte() & 0x3F,
        _ => 0,
    };
    let payload = vec![
        [0xFF, 0xF9][usize::from(index)],
        random.byte() & 0xC0 | index,
        random.byte() & 0xC0 | embedded,
        random.byte(),
    ];
    described(payload, 4)
}

/// Two ranges that don't meet, in either order, of few indices or many: the second begins after an index that is not below the first's last.
fn ranges(random: &mut Random) -> [(u16, u16); 2] {
    let most = random.pick(&[2, 7, 300, 1023]);
    let mut ends = [0; 4].map(|_: u16| random.below(most) as u16);
    ends.sort_unstable();
    let [least, last, before, greatest] = ends;
    let (lower, upper) = ((least, last), (before + 1, greatest + 1));
    match random.once_in(2) {
        true => [lower, upper],
        false => [upper, lower],
    }
}

/// A descriptor with this range, as numbers.
fn extension(random: &mut Random, range: (u16, u16)) -> [u16; EXTENSION] {
    let bits = random.next();
    [
        bits as u16,
        (bits >> 16) as u16,
        range.0,
        range.1,
        (bits >> 32) as u16 & 7,
        (bits >> 35) as u16 & 7,
        (bits >> 38) as u16 & 1,
        (bits >> 39) as u16 & 1,
    ]
}

/// The payload of a descriptor, its reserved bits most often at 1.
fn payload(random: &mut Random, numbers: &[u16; EXTENSION]) -> Vec<u8> {
    let reserved = loops::reserved(random, 0x0F);
    let bits = [
        (16, numbers[0]),
        (16, numbers[1]),
        (4, u16::from(reserved)),
        (10, numbers[2]),
        (10, numbers[3]),
        (3, numbers[4]),
        (3, numbers[5]),
        (1, numbers[6]),
        (1, numbers[7]),
    ];
    let field = |all: u64, (width, value): (u32, u16)| all << width | u64::from(value);
    bits.into_iter().fold(0, field).to_be_bytes().to_vec()
}

/// Makes one thing of a set wrong, or at least another.
fn miss(random: &mut Random, streams: &mut Vec<Stream>) {
    let tagged: Vec<(usize, usize)> = (0..streams.len())
        .flat_map(|stream| (0..streams[stream].descriptors.len()).map(move |one| (stream, one)))
        .filter(|&(stream, one)| streams[stream].descriptors[one].tag == MVC_EXTENSION_TAG)
        .collect();
    if streams.is_empty() || tagged.is_empty() || random.once_in(4) {
        return loops::miss(random, streams);
    }
    let (place, one) = random.pick(&tagged);
    match random.below(10) {
        0..=2 => {
            // Other ranges, of few indices.
            for (stream, one) in tagged {
                let range = (random.below(5) as u16, random.below(5) as u16);
                let numbers = extension(random, range);
                let payload = payload(random, &numbers);
                streams[stream].descriptors[one] = described(payload, MVC_EXTENSION_TAG);
            }
        }
        3 => drop(streams[place].descriptors.remove(one)),
        4 => {
            // Once more, now and then of another length.
            let mut again = streams[place].descriptors[one].clone();
            if random.once_in(2) {
                again.payload.truncate(random.below(9));
            }
            insert(random, &mut streams[place], again);
        }
        5 => {
            let length = random.pick(&[0, 1, 6, 7, 9, 10, 255]);
            let wrong = random.bytes(length);
            streams[place].descriptors[one].payload = wrong;
        }
        6 => streams[place].descriptors[one].tag = random.pick(&[4, 48, 50, 63]),
        7 => {
            // A third layer, now and then with a tag 49 of its own.
            let (stream_type, hierarchy_type) =
                random.pick(&[(0x1F, 1), (0x20, 9), (0x24, 15), (0x28, 1)]);
            let mut layer = Stream::plain(stream_type);
            let index = random.within(1, 5) as u8;
            layer.pid = random.below(8192) as u16;
            let payload = vec![0xF0 | hierarchy_type, 0xC0 | index, 0x40, 0xC0];
            layer.descriptors.push(described(payload, 4));
            if random.once_in(2) {
                let length = random.pick(&[8, 8, 7]);
                let payload = random.bytes(length);
                insert(random, &mut layer, described(payload, MVC_EXTENSION_TAG));
            }
            streams.insert(random.below(streams.len() + 1), layer);
        }
        8 => {
            let type_before = streams[place].stream_type;
            streams[place].stream_type = match type_before {
                0x1B => random.pick(&[0x24, 0x1F, 0x20, 0x0F]),
                _ => random.pick(&[0x1F, 0x1B, 0x24, 0x0F]),
            };
        }
        _ => drop(streams.remove(place)),
    }
}

/// The numbers of the entries of a loop to be written, mostly with a stereo set among them.
fn entries(random: &mut Random) -> (Vec<u16>, Quality) {
    if random.once_in(6) {
        return loops::entries(random);
    }
    let quality = Quality::pick(random);
    let streams = set(random);
    let bytes = loops::lay(random, &streams);
    let sound = plain::read_loop(Reading::Of2015, &bytes).expect("a sound loop");
    let mut entries: Vec<[u16; ENTRY]> = sound.iter().map(numbers_of).collect();
    if random.once_in(2) {
        for entry in &mut entries {
            loops::fill_unread(random, entry);
        }
    }
    if quality != Quality::Sound {
        for _ in 0..random.pick(&[0, 0, 1, 1, 2]) {
            miss_in_entries(random, &mut entries);
        }
    }
    (entries.concat(), quality)
}

/// Makes one thing of the entries wrong, or at least another.
fn miss_in_entries(random: &mut Random, entries: &mut Vec<[u16; ENTRY]>) {
    match random.below(6) {
        0 => {
            // A third layer.
            let mut entry = [0; ENTRY];
            let (stream_type, hierarchy_type) = random.pick(&[(0x1F, 1), (0x20, 9), (0x24, 15)]);
            entry[0] = stream_type;
            entry[1] = random.below(8192) as u16;
            entry[2..9].copy_from_slice(&[1, 1, 1, 1, 1, hierarchy_type, 0]);
            entry[8] = random.within(1, 5) as u16;
            entries.insert(random.below(entries.len() + 1), entry);
        }
        1 => {
            // Entries up to about the longest loop.
            let first = random.below(8192);
            for place in 0..random.within(180, 205) {
                let mut entry = [0; ENTRY];
                entry[0] = 0x02;
                entry[1] = ((first + place * 31) % 8192) as u16;
                entries.push(entry);
            }
        }
        _ => loops::miss_by_number(random, entries),
    }
}

/// Makes one number of the two descriptors another.
fn miss_in_extension(random: &mut Random, extensions: &mut [[u16; EXTENSION]; 2]) {
    let view = random.below(2);
    match random.below(4) {
        0 => {
            let place = random.below(EXTENSION);
            let most: u16 = [65535, 65535, 1023, 1023, 7, 7, 1, 1][place];
            let beyond = random.pick(&[most, most.saturating_add(1), 255, 256, 65535]);
            extensions[view][place] = beyond;
        }
        1 => extensions[view].swap(2, 3),
        _ => {
            for extension in extensions {
                extension[2] = random.below(5) as u16;
                extension[3] = random.below(5) as u16;
            }
        }
    }
}
