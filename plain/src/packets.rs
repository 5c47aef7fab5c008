//! Rows straight from transport packets: the packets of the layers of a loop, judged and read one after another.
//!
//! There are three ways here to one answer. [`recording_rows`] follows the words of the request: each packet is asked what is wrong with it beside its predecessor, and
//! all faults together decide. [`Recording`] takes a recording piece by piece. [`scan_recording`] is what is measured against: one loop that looks at four bytes of a
//! packet and at more only where it has to.

use crate::closure::{closure, layers_of};
use crate::join::{join_long, Columns, Lists, Units};
use crate::loops::read_loop;
use crate::times::read_times;
use crate::{Entry, Faults, Reading, Refusal};

/// The bytes of a packet.
pub const PACKET: usize = 188;

/// The PIDs that there are.
const PIDS: usize = 1 << 13;

const SYNC: u8 = 0x47;

/// What stands for no layer in a table of PIDs.
const NO_LAYER: u8 = 64;

/// A component of a layer, as the packet in which it starts tells it.
#[derive(Clone, Copy, Debug, PartialEq, Eq)]
pub struct RecordingRow {
    /// layer index
    pub index: u8,
    /// decoding time
    pub decoding: u64,
    /// match time
    pub matching: u64,
    /// whether a TREF was sent
    pub tref_sent: bool,
    /// the number of the packet
    pub packet: u64,
}

/// A transport packet.
#[derive(Clone, Copy)]
struct Packet<'a>(&'a [u8]);

impl<'a> Packet<'a> {
    fn in_sync(self) -> bool {
        self.0[0] == SYNC
    }

    fn pid(self) -> usize {
        usize::from(u16::from_be_bytes([self.0[1], self.0[2]]) & 0x1FFF)
    }

    /// transport_error_indicator, or adaptation control 00.
    fn is_skipped(self) -> bool {
        self.0[1] & 0x80 != 0 || self.0[3] & 0x30 == 0
    }

    fn starts_unit(self) -> bool {
        self.0[1] & 0x40 != 0
    }

    fn is_scrambled(self) -> bool {
        self.0[3] & 0xC0 != 0
    }

    fn has_adaptation_field(self) -> bool {
        self.0[3] & 0x20 != 0
    }

    fn has_payload(self) -> bool {
        self.0[3] & 0x10 != 0
    }

    fn counter(self) -> u8 {
        self.0[3] & 0x0F
    }

    /// The adaptation field after its length, empty where the packet has none, or nothing where it isn't within the packet.
    fn adaptation_field(self) -> Option<&'a [u8]> {
        if !self.has_adaptation_field() {
            return Some(&[]);
        }
        self.0[5..].get(..usize::from(self.0[4]))
    }

    /// Whether its adaptation field says that the counter may jump.
    fn is_discontinuous(self) -> bool {
        let field = self.adaptation_field().unwrap_or_default();
        field.first().map_or(false, |flags| flags & 0x80 != 0)
    }

    /// Whether its adaptation field holds a PCR, which are the six bytes after the flags.
    fn has_pcr(self) -> bool {
        let field = self.adaptation_field().unwrap_or_default();
        field.len() >= 7 && field[0] & 0x10 != 0
    }

    /// The bytes after its header and its adaptation field, none where they are no payload.
    fn payload(self) -> &'a [u8] {
        match self.adaptation_field() {
            Some(_) if !self.has_payload() => &[],
            Some(field) if self.has_adaptation_field() => &self.0[5 + field.len()..],
            Some(_) => &self.0[4..],
            None => &[],
        }
    }

    /// Whether it repeats the counter and all other bytes of its predecessor, the PCR aside where both have one.
    fn repeats(self, predecessor: Packet) -> bool {
        let aside = match self.has_pcr() && predecessor.has_pcr() {
            true => 6..12,
            false => 0..0,
        };
        self.has_payload()
            && (0..PACKET)
                .all(|place| aside.contains(&place) || self.0[place] == predecessor.0[place])
    }

    /// Whether its counter is the one that follows its predecessor's: it moves on packets with payload alone.
    fn follows(self, predecessor: Packet) -> bool {
        let step = u8::from(self.has_payload());
        self.counter() == (predecessor.counter() + step) % 16
    }

    /// Whether a PES header, its nine bytes and its data, would not be within the payload.
    fn cuts_header(self) -> bool {
        let payload = self.payload();
        payload.len() < 9 || payload.len() < 9 + usize::from(payload[8])
    }
}

/// What a packet on a layer's PID comes to, judged beside its predecessor.
#[derive(Default)]
struct Judged {
    lost_count: bool,
    cut: bool,
    scrambled: bool,
    /// What its PES header says, where one starts in it and nothing is wrong with the packet: the times and whether a TREF was sent, or 20 to 24.
    header: Option<Result<(u64, u64, bool), u8>>,
}

fn judge(packet: Packet, predecessor: Option<Packet>) -> Judged {
    let mut judged = Judged::default();
    if let Some(predecessor) = predecessor {
        if packet.repeats(predecessor) {
            return judged;
        }
        judged.lost_count = !packet.follows(predecessor) && !packet.is_discontinuous();
    }
    judged.cut = packet.adaptation_field().is_none();
    judged.scrambled = packet.has_payload() && packet.is_scrambled();
    if packet.starts_unit() && packet.has_payload() && !judged.scrambled && !judged.cut {
        if packet.cuts_header() {
            judged.cut = true;
        } else if !judged.lost_count {
            let header = read_times(packet.payload());
            judged.header = Some(match header {
                Ok(header) => Ok((
                    header.times.decoding,
                    header.times.matching,
                    header.tref_sent,
                )),
                Err(refusal) => Err(refusal.number),
            });
        }
    }
    judged
}

/// For each PID the index of its layer, or 64.
fn layers_by_pid(entries: &[Entry]) -> [u8; PIDS] {
    let mut layers = [NO_LAYER; PIDS];
    for entry in entries {
        if let Some(index) = entry.layer_index() {
            layers[usize::from(entry.pid)] = index;
        }
    }
    layers
}

/// The rows of a recording under a loop of the 2015 reading, or the refusal: the loop's, 30 to 33, 20 to 24.
pub fn recording_rows(bytes: &[u8], packets: &[u8]) -> Result<Vec<RecordingRow>, Refusal> {
    rows_of(&layers_by_pid(&read_loop(Reading::Of2015, bytes)?), packets)
}

fn rows_of(layers: &[u8; PIDS], packets: &[u8]) -> Result<Vec<RecordingRow>, Refusal> {
    let mut faults = Faults::default();
    let mut header_faults = Faults::default();
    let mut rows = Vec::new();
    let mut predecessors: Vec<Option<Packet>> = vec![None; PIDS];
    for (number, bytes) in packets.chunks(PACKET).enumerate() {
        let packet = Packet(bytes);
        if bytes.len() < PACKET || !packet.in_sync() {
            faults.add(30, number);
            continue;
        }
        let index = layers[packet.pid()];
        if packet.is_skipped() || index == NO_LAYER {
            continue;
        }
        let judged = judge(packet, predecessors[packet.pid()].replace(packet));
        for (is_so, fault) in [
            (judged.lost_count, 31),
            (judged.cut, 32),
            (judged.scrambled, 33),
        ] {
            if is_so {
                faults.add(fault, number);
            }
        }
        match judged.header {
            None => {}
            Some(Err(fault)) => header_faults.add(fault, number),
            Some(Ok((decoding, matching, tref_sent))) => rows.push(RecordingRow {
                index,
                decoding,
                matching,
                tref_sent,
                packet: number as u64,
            }),
        }
    }
    faults.none()?;
    header_faults.none()?;
    Ok(rows)
}

/// The whole import: the loop, the target's closure, the rows of the packets, of which there may be `most`, and the units that they are joined to. The refusal is the
/// loop's, 11 or 12, 30 to 33, 20 to 24 with the packet's number, then 13 to 18.
pub fn import_packets(
    bytes: &[u8],
    target: u64,
    packets: &[u8],
    most: usize,
    lists: Lists,
) -> Result<(Vec<RecordingRow>, Result<Units, Refusal>), Refusal> {
    let entries = read_loop(Reading::Of2015, bytes)?;
    closure(&layers_of(&entries), target)?;
    let rows = rows_of(&layers_by_pid(&entries), packets)?;
    let units = join_recording(&entries, target, &rows, most, lists)?;
    Ok((rows, units))
}

/// Joins the rows of a recording over a loop; 13 where they are more than there may be. What joining itself refuses stands inside.
fn join_recording(
    entries: &[Entry],
    target: u64,
    rows: &[RecordingRow],
    most: usize,
    lists: Lists,
) -> Result<Result<Units, Refusal>, Refusal> {
    if rows.len() > most {
        return Err(Refusal::of(13));
    }
    let columns = Columns {
        indices: rows.iter().map(|row| row.index).collect(),
        decodings: rows.iter().map(|row| row.decoding).collect(),
        matches: rows.iter().map(|row| row.matching).collect(),
    };
    let layers = layers_of(entries);
    Ok(join_long(most, &layers, target, columns.rows(), lists))
}

/// A recording that comes piece by piece, cut anywhere.
pub struct Recording {
    layers: [u8; PIDS],
    /// The bytes of the packet that isn't whole yet.
    carried: Vec<u8>,
    /// The number of whole packets.
    packets: usize,
    /// The last packet of each layer.
    last: Vec<Option<[u8; PACKET]>>,
    faults: Faults,
    header_faults: Faults,
    rows: Vec<RecordingRow>,
}

impl Recording {
    /// A recording under a loop, of which nothing has come yet; or the loop's refusal.
    pub fn new(bytes: &[u8]) -> Result<Recording, Refusal> {
        Ok(Recording {
            layers: layers_by_pid(&read_loop(Reading::Of2015, bytes)?),
            carried: Vec::with_capacity(PACKET),
            packets: 0,
            last: vec![None; usize::from(NO_LAYER)],
            faults: Faults::default(),
            header_faults: Faults::default(),
            rows: Vec::new(),
        })
    }

    /// The next piece.
    pub fn feed(&mut self, piece: &[u8]) {
        for &byte in piece {
            self.carried.push(byte);
            if self.carried.len() == PACKET {
                let mut whole = [0; PACKET];
                whole.copy_from_slice(&self.carried);
                self.carried.clear();
                self.take(whole);
            }
        }
    }

    fn take(&mut self, whole: [u8; PACKET]) {
        let number = self.packets;
        self.packets += 1;
        let packet = Packet(&whole);
        if !packet.in_sync() {
            return self.faults.add(30, number);
        }
        let index = self.layers[packet.pid()];
        if packet.is_skipped() || index == NO_LAYER {
            return;
        }
        let last = self.last[usize::from(index)].replace(whole);
        let judged = judge(packet, last.as_ref().map(|last| Packet(last)));
        if judged.lost_count {
            self.faults.add(31, number);
        }
        if judged.cut {
            self.faults.add(32, number);
        }
        if judged.scrambled {
            self.faults.add(33, number);
        }
        match judged.header {
            None => {}
            Some(Err(fault)) => self.header_faults.add(fault, number),
            Some(Ok((decoding, matching, tref_sent))) => self.rows.push(RecordingRow {
                index,
                decoding,
                matching,
                tref_sent,
                packet: number as u64,
            }),
        }
    }

    /// The layer of a PID.
    pub fn layer(&self, pid: usize) -> Option<u8> {
        Some(self.layers[pid]).filter(|&index| index != NO_LAYER)
    }

    /// The bytes of the packet that isn't whole yet.
    pub fn carried(&self) -> &[u8] {
        &self.carried
    }

    /// The number of whole packets.
    pub fn packets(&self) -> usize {
        self.packets
    }

    /// The last packet of a layer.
    pub fn last(&self, index: usize) -> Option<&[u8; PACKET]> {
        self.last[index].as_ref()
    }

    /// The lowest of 30 to 33 in whole packets at its earliest, and the lowest of 20 to 24.
    pub fn faults(&self) -> [Option<Refusal>; 2] {
        [self.faults.none().err(), self.header_faults.none().err()]
    }

    /// The rows that have come so far, whatever else was found.
    pub fn rows(&self) -> &[RecordingRow] {
        &self.rows
    }

    /// What the recording is if it ends here: 30 to 33, 20 to 24, or nothing wrong.
    pub fn told(&self) -> Result<&[RecordingRow], Refusal> {
        let mut faults = self.faults;
        if !self.carried.is_empty() {
            faults.add(30, self.packets);
        }
        faults.none()?;
        self.header_faults.none()?;
        Ok(&self.rows)
    }

    /// The units of the recording if it ends here, over a loop that need not be the one that it was begun with.
    pub fn units(
        &self,
        bytes: &[u8],
        target: u64,
        most: usize,
        lists: Lists,
    ) -> Result<Units, Refusal> {
        let entries = read_loop(Reading::Of2015, bytes)?;
        closure(&layers_of(&entries), target)?;
        let rows = self.told()?;
        join_recording(&entries, target, rows, most, lists)?
    }
}

/// The columns of a recording's rows, lent.
pub struct RecordingColumns<'a> {
    /// layer indices
    pub indices: &'a mut [u8],
    /// decoding times
    pub decodings: &'a mut [u64],
    /// match times
    pub matches: &'a mut [u64],
    /// 1 where a TREF was sent
    pub trefs: &'a mut [u8],
    /// the packets' numbers
    pub numbers: &'a mut [u64],
}

/// The same rows as [`recording_rows`], laid in columns, and how many they are; or the refusal, 13 among them where the columns don't hold them. What the columns hold
/// after a refusal says nothing.
pub fn scan_recording(
    bytes: &[u8],
    packets: &[u8],
    columns: RecordingColumns,
) -> Result<usize, Refusal> {
    let layers = layers_by_pid(&read_loop(Reading::Of2015, bytes)?);
    let mut scan = Scan {
        packets,
        last: [Last::default(); NO_LAYER as usize],
        faults: Faults::default(),
        header_faults: Faults::default(),
        rows: 0,
        columns,
    };
    let whole = packets.chunks_exact(PACKET);
    if !whole.remainder().is_empty() {
        scan.faults.add(30, packets.len() / PACKET);
    }
    for (number, packet) in whole.enumerate() {
        let head = u32::from_be_bytes([packet[0], packet[1], packet[2], packet[3]]);
        if head >> 24 != u32::from(SYNC) {
            scan.faults.add(30, number);
            continue;
        }
        let index = layers[(head >> 8) as usize & (PIDS - 1)];
        if index == NO_LAYER {
            continue;
        }
        // No error bit, no unit start, clear, payload alone, and the counter that is awaited: no more is to be seen of this packet.
        let last = &mut scan.last[usize::from(index & 63)];
        if head & ORDINARY == PAYLOAD_ALONE && head as u8 & 0x0F == last.awaited {
            last.awaited = (last.awaited + 1) % 16;
            last.end = (number + 1) * PACKET;
            continue;
        }
        scan.other(number, index, packet);
    }
    scan.faults.none()?;
    scan.header_faults.none()?;
    let columns = &scan.columns;
    let room = columns.indices.len().min(columns.trefs.len());
    let room = room.min(columns.decodings.len()).min(columns.matches.len());
    if room.min(columns.numbers.len()) < scan.rows {
        return Err(Refusal::of(13));
    }
    Ok(scan.rows)
}

/// The bits of a packet's first four bytes that say whether it is an ordinary one: error, unit start, scrambling and adaptation control.
const ORDINARY: u32 = 0x00C0_00F0;
const PAYLOAD_ALONE: u32 = 0x0000_0010;

/// What is known of the last packet of a layer.
#[derive(Clone, Copy)]
struct Last {
    /// the counter that a packet with payload has after it, or what no counter is where there was none
    awaited: u8,
    /// where it ends, or 0
    end: usize,
}

impl Default for Last {
    fn default() -> Last {
        Last {
            awaited: 0xFF,
            end: 0,
        }
    }
}

/// A scan in the middle of its packets.
struct Scan<'a, 'b> {
    packets: &'a [u8],
    last: [Last; NO_LAYER as usize],
    faults: Faults,
    header_faults: Faults,
    rows: usize,
    columns: RecordingColumns<'b>,
}

impl Scan<'_, '_> {
    /// A packet on a layer's PID of which more than four bytes are to be seen.
    #[inline(never)]
    fn other(&mut self, number: usize, index: u8, bytes: &[u8]) {
        let packet = Packet(bytes);
        if packet.is_skipped() {
            return;
        }
        let last = &mut self.last[usize::from(index & 63)];
        let field = packet.adaptation_field();
        if last.end > 0 {
            let step = u8::from(packet.has_payload());
            let awaited = (last.awaited + step + 15) % 16;
            if packet.counter() != awaited {
                let before = Packet(&self.packets[last.end - PACKET..last.end]);
                let counted = packet.counter() == before.counter() && packet.has_payload();
                if counted && same_bytes(packet, before) {
                    return;
                }
                if !packet.is_discontinuous() {
                    self.faults.add(31, number);
                }
            }
        }
        *last = Last {
            awaited: (packet.counter() + 1) % 16,
            end: (number + 1) * PACKET,
        };
        if field.is_none() {
            self.faults.add(32, number);
        }
        if !packet.has_payload() {
            return;
        }
        if packet.is_scrambled() {
            return self.faults.add(33, number);
        }
        if packet.starts_unit() && field.is_some() {
            self.start(number, index, packet);
        }
    }

    /// The start of a unit, clear.
    fn start(&mut self, number: usize, index: u8, packet: Packet) {
        if packet.cuts_header() {
            return self.faults.add(32, number);
        }
        let header = match read_times(packet.payload()) {
            Ok(header) => header,
            Err(refusal) => return self.header_faults.add(refusal.number, number),
        };
        let row = self.rows;
        self.rows += 1;
        let columns = &mut self.columns;
        let places = (
            columns.indices.get_mut(row),
            columns.decodings.get_mut(row),
            columns.matches.get_mut(row),
            columns.trefs.get_mut(row),
            columns.numbers.get_mut(row),
        );
        if let (Some(own_index), Some(decoding), Some(matching), Some(tref), Some(own)) = places {
            *own_index = index;
            *decoding = header.times.decoding;
            *matching = header.times.matching;
            *tref = u8::from(header.tref_sent);
            *own = number as u64;
        }
    }
}

/// Whether two packets have the same bytes, the PCR aside where both have one.
fn same_bytes(packet: Packet, other: Packet) -> bool {
    match packet.has_pcr() && other.has_pcr() {
        true => packet.0[..6] == other.0[..6] && packet.0[12..] == other.0[12..],
        false => packet.0 == other.0,
    }
}
