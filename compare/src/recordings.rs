//! Recordings of transport packets: sound ones, ones with a few things wrong, and damaged ones; and how they are cut into pieces.

use crate::headers;
use crate::loops::Quality;
use crate::random::Random;
use crate::tables;
use plain::{Reading, PACKET};

/// The most packets of a recording.
const MOST_PACKETS: usize = 1300;

const PAYLOAD: u8 = 0x10;
const ADAPTATION: u8 = 0x20;
const DISCONTINUITY: u8 = 0x80;
const PCR: u8 = 0x10;

/// A recording on its way.
struct Recorder<'a> {
    random: &'a mut Random,
    packets: Vec<[u8; PACKET]>,
    /// For each PID of a layer its counter and its last packet.
    layers: Vec<Layer>,
    /// PIDs that are no layer's.
    others: Vec<u16>,
}

struct Layer {
    pid: u16,
    index: u8,
    counter: u8,
    last: Option<[u8; PACKET]>,
}

/// A recording for a loop and a target, and how it was made.
pub fn recording(random: &mut Random, bytes: &[u8], target: u64) -> (Vec<u8>, Quality) {
    let quality = Quality::pick(random);
    let entries = plain::read_loop(Reading::Of2015, bytes).unwrap_or_default();
    let layer = |entry: &plain::Entry| Some((entry.pid, entry.layer_index()?));
    let layers: Vec<(u16, u8)> = entries.iter().filter_map(layer).collect();
    let streams = entries.iter().filter(|entry| layer(entry).is_none());
    let mut others: Vec<u16> = streams.map(|entry| entry.pid).collect();
    others.extend([0, 0x1FFF]);
    for _ in 0..3 {
        // A bit beside a layer's PID, and any.
        let near = layers
            .get(random.below(layers.len()))
            .map_or(17, |one| one.0);
        others.push(near ^ 1 << random.below(13));
        others.push(random.below(8192) as u16);
    }
    others.retain(|pid| layers.iter().all(|layer| layer.0 != *pid));
    let mut recorder = Recorder {
        layers: layers
            .iter()
            .map(|&(pid, index)| Layer {
                pid,
                index,
                counter: random.below(16) as u8,
                last: None,
            })
            .collect(),
        random,
        packets: Vec::new(),
        others,
    };
    let known = plain::layers_of(&entries);
    let most = recorder.random.pick(&[4, 8, 8, 12, 12, 40, 600]);
    // Of a near miss either the rows or the packets are wrong.
    let wrong_rows = quality == Quality::NearMiss && recorder.random.once_in(2);
    let rows = table(recorder.random, &known, target, most, wrong_rows);
    // A long recording is one packet for each row, so that more rows than there may be are met.
    let busy = rows.indices.len() < 100;
    let times = rows.decodings.iter().zip(&rows.matches);
    for (&index, (&decoding, &matching)) in rows.indices.iter().zip(times) {
        let turn = (1 << 33) - 1;
        if busy {
            recorder.between();
        }
        if recorder.packets.len() < MOST_PACKETS {
            recorder.unit(index, decoding & turn, matching & turn, busy);
        }
    }
    if busy {
        recorder.between();
    }
    if quality == Quality::NearMiss && !wrong_rows {
        for _ in 0..recorder.random.pick(&[1, 1, 1, 2, 3]) {
            recorder.miss();
        }
    }
    let mut bytes = recorder.packets.concat();
    let random = recorder.random;
    if quality == Quality::Damaged {
        for _ in 0..random.within(1, 8) {
            if let Some(place) = random.below(bytes.len() + 1).checked_sub(1) {
                bytes[place] = random.byte();
            }
        }
        match random.below(12) {
            0 => bytes.truncate(random.below(bytes.len() + 1)),
            1 => bytes.extend(vec![0x47; random.within(1, 187)]),
            2 => {
                // All steps after it are beside a packet's start.
                let place = random.below(bytes.len() + 1);
                bytes.insert(place, 0x47);
            }
            _ => {}
        }
    }
    (bytes, quality)
}

/// A table that joins, or one that is not made so.
fn table(
    random: &mut Random,
    layers: &plain::Layers,
    target: u64,
    most: usize,
    wrong: bool,
) -> plain::Columns {
    let mut rows = plain::Columns::default();
    for _ in 0..8 {
        let made = tables::rows(random, layers, target, most);
        rows = made.0;
        if (made.1 == Quality::Sound) != wrong {
            break;
        }
    }
    rows
}

impl Recorder<'_> {
    /// An adaptation field after its length, of at most so many bytes, with these flags.
    fn field(&mut self, flags: u8, most: usize) -> Vec<u8> {
        let random = &mut *self.random;
        let least = match flags & PCR {
            0 => usize::from(flags != 0),
            _ => 7,
        };
        if most < least {
            return Vec::new();
        }
        let length = match random.below(4) {
            0 => least,
            1 => most,
            _ => random.within(least, most.min(least + 20)),
        };
        let mut field = random.bytes(length);
        if let Some(first) = field.first_mut() {
            *first = flags | random.pick(&[0, 0, 0x40, 0x20, 0x0F]);
        }
        field
    }

    /// A packet of a layer: whether a unit starts, its adaptation field and its payload.
    fn layer_packet(
        &mut self,
        layer: usize,
        start: bool,
        field: Option<&[u8]>,
        payload: Option<&[u8]>,
    ) {
        if let Some(bytes) = self.layers.get_mut(layer) {
            bytes.counter = (bytes.counter + u8::from(payload.is_some())) % 16;
            let packet = packet(self.random, bytes.pid, start, bytes.counter, field, payload);
            bytes.last = Some(packet);
            self.packets.push(packet);
        }
    }

    /// The packets of a unit.
    fn unit(&mut self, index: u8, decoding: u64, matching: u64, busy: bool) {
        let layer = match self.layers.iter().position(|layer| layer.index == index) {
            Some(layer) => layer,
            None => return self.other(),
        };
        let header = header(self.random, decoding, matching);
        let field = match self.random.below(3) {
            0 => {
                let flags = self
                    .random
                    .pick(&[0, PCR, DISCONTINUITY, PCR | DISCONTINUITY]);
                Some(self.field(flags, PACKET - 5 - header.len()))
            }
            _ => None,
        };
        if field.as_ref().map_or(false, |field| {
            field
                .first()
                .map_or(false, |flags| flags & DISCONTINUITY != 0)
        }) {
            self.layers[layer].counter = self.random.below(16) as u8;
        }
        let mut payload = header;
        payload.extend(self.random.bytes(PACKET));
        self.layer_packet(layer, true, field.as_deref(), Some(&payload));
        if busy {
            for _ in 0..self.random.pick(&[0, 0, 1, 1, 2, 5]) {
                self.beside(layer);
            }
        }
    }

    /// A packet of a layer in which nothing starts, or what may stand in its place.
    fn beside(&mut self, layer: usize) {
        let payload = self.random.bytes(PACKET);
        match self.random.below(10) {
            // The packet before it once more, or several times, with another PCR if it has one.
            0 | 1 => {
                for _ in 0..self.random.pick(&[1, 1, 2]) {
                    if let Some(mut copy) = self.layers[layer].last {
                        if copy[3] & PAYLOAD == 0 {
                            return;
                        }
                        if copy[3] & ADAPTATION != 0
                            && (7..184).contains(&copy[4])
                            && copy[5] & PCR != 0
                        {
                            copy[11] = self.random.byte();
                        }
                        self.packets.push(copy);
                        self.between();
                    }
                }
            }
            // No payload; where a unit is said to start nothing does.
            2 => {
                let flags = self.random.pick(&[0, PCR, DISCONTINUITY]);
                let field = self.field(flags, 183);
                let start = self.random.once_in(2);
                self.layer_packet(layer, start, Some(&field), None);
            }
            // A packet that is skipped whole.
            3 => {
                let pid = self.layers[layer].pid;
                let counter = self.random.below(16) as u8;
                let mut skipped = packet(self.random, pid, true, counter, None, Some(&payload));
                match self.random.once_in(2) {
                    true => skipped[1] |= 0x80,
                    false => skipped[3] &= 0xCF,
                }
                self.packets.push(skipped);
            }
            4 | 5 => {
                let flags = self.random.pick(&[0, PCR]);
                let field = self.field(flags, 183);
                self.layer_packet(layer, false, Some(&field), Some(&payload));
            }
            _ => self.layer_packet(layer, false, None, Some(&payload)),
        }
    }

    /// A packet of a PID that is no layer's, of which nothing but sync counts.
    fn other(&mut self) {
        let mut packet = [0; PACKET];
        packet.copy_from_slice(&self.random.bytes(PACKET));
        packet[0] = 0x47;
        if !self.others.is_empty() {
            let [high, low] = self.random.pick(&self.others).to_be_bytes();
            packet[1] = packet[1] & 0xE0 | high;
            packet[2] = low;
            self.packets.push(packet);
        }
    }

    /// What stands between the units: packets of other PIDs.
    fn between(&mut self) {
        for _ in 0..self.random.pick(&[0, 0, 0, 1, 1, 2]) {
            self.other();
        }
    }

    /// The place of a packet, mostly of a layer's.
    fn some(&mut self) -> Option<usize> {
        let random = &mut *self.random;
        let all = 0..self.packets.len();
        let pid = |place: usize| {
            u16::from_be_bytes([self.packets[place][1], self.packets[place][2]]) & 0x1FFF
        };
        let of_layers: Vec<usize> = all
            .clone()
            .filter(|&place| self.layers.iter().any(|layer| layer.pid == pid(place)))
            .collect();
        let starts: Vec<usize> = of_layers
            .iter()
            .copied()
            .filter(|&place| self.packets[place][1] & 0xC0 == 0x40)
            .collect();
        match random.below(8) {
            0 if !all.is_empty() => Some(random.below(all.len())),
            1..=3 if !starts.is_empty() => Some(random.pick(&starts)),
            _ if !of_layers.is_empty() => Some(random.pick(&of_layers)),
            _ => None,
        }
    }

    /// Makes one thing wrong, or at least another.
    fn miss(&mut self) {
        let place = match self.some() {
            Some(place) => place,
            None => return self.other(),
        };
        let other = self.some().unwrap_or(place);
        let random = &mut *self.random;
        let packet = &mut self.packets[place];
        let payload = match packet[3] & ADAPTATION {
            0 => 4,
            _ => 5 + usize::from(packet[4]),
        };
        match random.below(34) {
            0 => packet[0] = random.pick(&[0, 0x46, 0x48, 0xC7]),
            1 => packet[1] ^= 0x80,
            2 => packet[1] ^= 0x40,
            3 => packet[1] ^= 0x20,
            4 => packet[2] ^= 1 << random.below(8),
            5 | 6 => packet[3] ^= random.pick(&[0x40, 0x80, 0xC0]),
            7 => packet[3] ^= random.pick(&[ADAPTATION, PAYLOAD, ADAPTATION | PAYLOAD]),
            8 => packet[3] = packet[3] & 0xF0 | random.below(16) as u8,
            9 | 10 => {
                // An adaptation field that just fits, or just not.
                packet[3] |= ADAPTATION;
                packet[4] = random.pick(&[0, 1, 6, 7, 174, 175, 182, 183, 184, 255]);
                packet[5] = random.pick(&[0, PCR, DISCONTINUITY, PCR | DISCONTINUITY]);
            }
            11 => packet[5] ^= random.pick(&[PCR, DISCONTINUITY]),
            12..=23 if payload + 30 < PACKET => {
                let header = &mut packet[payload..];
                match random.below(8) {
                    0 => header[random.below(4)] ^= 1 << random.below(8),
                    1 => header[6] ^= 0xC0,
                    2 => header[7] &= random.pick(&[0x3F, 0x7F]),
                    3 => header[8] = random.below(20) as u8,
                    4 => header[8] = (PACKET - payload - 9 + random.below(3)) as u8,
                    5 => header[random.pick(&[9, 11, 13, 14, 16, 18])] ^= 1,
                    6 => header[9] ^= 0x0E,
                    _ => header[random.below(30)] ^= 1 << random.below(8),
                }
            }
            24 | 25 => {
                // Another header, of all kinds.
                let (header, _) = headers::bytes(random);
                let room = &mut packet[payload.min(PACKET)..];
                let length = header.len().min(room.len());
                room[..length].copy_from_slice(&header[..length]);
            }
            26 => {
                let copy = *packet;
                self.packets.insert(place + 1, copy);
            }
            27 | 28 => {
                // A copy with another byte, in the PCR's place or beside it.
                let mut copy = *packet;
                copy[random.pick(&[1, 2, 5, 6, 8, 11, 12, 187])] ^= 1 << random.below(8);
                self.packets.insert(place + 1, copy);
            }
            29 | 30 => {
                // Two packets that differ where a PCR would be, behind a field that has room for one, or just not, or that is none.
                packet[3] |= ADAPTATION;
                packet[4] = random.pick(&[1, 6, 7, 8, 182, 183, 184, 255]);
                packet[5] = random.pick(&[0, PCR, PCR, PCR, PCR | DISCONTINUITY]);
                let mut copy = *packet;
                copy[random.within(5, 12)] ^= 1 << random.below(8);
                self.packets.insert(place + 1, copy);
            }
            31 => drop(self.packets.remove(place)),
            32 => self.packets.swap(place, other),
            _ => packet[random.below(PACKET)] = random.byte(),
        }
    }
}

/// A packet, filled up where its payload does not fill it.
fn packet(
    random: &mut Random,
    pid: u16,
    start: bool,
    counter: u8,
    field: Option<&[u8]>,
    payload: Option<&[u8]>,
) -> [u8; PACKET] {
    let [high, low] = pid.to_be_bytes();
    let second = high | u8::from(start) << 6 | random.pick(&[0, 0, 0x20]);
    let control = field.map_or(0, |_| ADAPTATION) | payload.map_or(0, |_| PAYLOAD);
    // A packet without payload may have scrambling bits.
    let scrambling = match payload {
        None if random.once_in(4) => 0xC0,
        _ => 0,
    };
    let mut bytes = vec![0x47, second, low, scrambling | control | counter];
    if let Some(field) = field {
        bytes.push(field.len() as u8);
        bytes.extend(field);
    }
    bytes.extend(payload.unwrap_or_default());
    bytes.resize(PACKET, 0xFF);
    let mut packet = [0; PACKET];
    packet.copy_from_slice(&bytes);
    packet
}

/// A PES header with these times.
fn header(random: &mut Random, decoding: u64, matching: u64) -> Vec<u8> {
    let plain = random.once_in(2);
    let (mut flags, mut data) = (0x80, Vec::new());
    match random.once_in(2) {
        true => {
            let ahead = random.pick(&[0, 1, 3600, (1 << 32) - 1]);
            flags |= 0x40;
            data.extend(headers::field(3, (decoding + ahead) % (1 << 33)));
            data.extend(headers::field(1, decoding));
        }
        false => data.extend(headers::field(2, decoding)),
    }
    for (bit, length) in [(0x20, 6), (0x10, 3), (0x08, 1), (0x04, 1), (0x02, 2)] {
        if !plain && random.once_in(4) {
            flags |= bit;
            data.extend(random.bytes(length));
        }
    }
    let tref = matching != decoding || random.once_in(4);
    if tref || random.once_in(6) {
        flags |= 1;
        let mut more = random.byte() & 0x0E;
        let place = data.len();
        data.push(0);
        for (bit, length) in [(0x80, 16), (0x20, 2), (0x10, 2)] {
            if bit == 0x20 && !plain && random.once_in(4) {
                more |= 0x40;
                let pack = random.below(20);
                data.push(pack as u8);
                data.extend(random.bytes(pack));
            }
            if !plain && random.once_in(4) {
                more |= bit;
                data.extend(random.bytes(length));
            }
        }
        if tref {
            more |= 1;
            let beyond = random.pick(&[0, 0, 3]);
            data.extend([0x86 + beyond as u8, 0x80 | random.byte() & 0x7E]);
            data.extend(headers::field(random.byte() & 0x0F, matching));
            data.extend(random.bytes(beyond));
        }
        data[place] = more;
    }
    data.resize(data.len() + random.pick(&[0, 0, 0, 1, 5]), 0xFF);
    let mut bytes = vec![
        0,
        0,
        1,
        0xE0 | random.byte() & 0x0F,
        0,
        0,
        0x80 | random.byte() & 0x3F,
    ];
    bytes.extend([flags, data.len() as u8]);
    bytes.extend(data);
    bytes
}

/// The lengths of the pieces that a recording of so many bytes comes in.
pub fn pieces(random: &mut Random, length: usize) -> Vec<usize> {
    let usual = random.pick(&[1, 2, 50, 187, 188, 189, 376, 1000, 1316, 5000, 65536]);
    let mut pieces = Vec::new();
    let mut left = length;
    while left > 0 && pieces.len() < 60 {
        let piece = match random.below(8) {
            0 => 0,
            1 => random.below(400),
            2 => left % PACKET,
            3 => PACKET - 1,
            _ => usual,
        };
        pieces.push(piece.min(left));
        left -= piece.min(left);
    }
    pieces.push(left);
    pieces
}
