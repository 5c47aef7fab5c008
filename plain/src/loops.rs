//! The elementary-stream loop, read and written.

use crate::descriptors;
use crate::{Entry, Faults, Reading, Record, Refusal};

/// The most bytes that a loop may have.
pub const LONGEST_LOOP: usize = 1008;

/// stream_type, elementary_PID and ES_info_length with the reserved bits before them.
const ENTRY_HEAD: usize = 5;

/// Reads a loop: every entry in loop order, or the refusal, 1 to 9.
pub fn read_loop(reading: Reading, bytes: &[u8]) -> Result<Vec<Entry>, Refusal> {
    let mut entries = Vec::with_capacity(bytes.len().min(LONGEST_LOOP) / 11 + 1);
    read_loop_with(reading, bytes, |entry| entries.push(*entry))?;
    Ok(entries)
}

/// Reads a loop and hands each entry to `take` as it is read. What has been handed over counts for nothing when the loop is refused.
#[inline]
pub fn read_loop_with(
    reading: Reading,
    bytes: &[u8],
    mut take: impl FnMut(&Entry),
) -> Result<(), Refusal> {
    if bytes.len() > LONGEST_LOOP {
        return Err(Refusal::of(1));
    }
    // The marks are known before an entry is judged. Where a piece doesn't fit it is all the same, since 2 is then the answer.
    let implied = descriptors::two_views(Heads(bytes), has_hierarchy_descriptor);
    let mut faults = Faults::default();
    let mut seen = Seen::default();
    let mut rest = bytes;
    let mut place = 0;
    while !rest.is_empty() {
        // Number 2 ends the reading: every entry before this one fits, and no lower number is left.
        let too_short = Refusal::at(2, place);
        if rest.len() < ENTRY_HEAD {
            return Err(too_short);
        }
        let stream_type = rest[0];
        let pid = u16::from_be_bytes([rest[1], rest[2]]) & 0x1FFF;
        let end = ENTRY_HEAD + usize::from(u16::from_be_bytes([rest[3], rest[4]]) & 0x0FFF);
        let info = rest.get(ENTRY_HEAD..end).ok_or(too_short)?;
        rest = &rest[end..];

        let mut entry = Entry {
            stream_type,
            pid,
            record: None,
        };
        if descriptors::known(reading, stream_type) {
            read_info(reading, info, place, &mut entry.record, &mut faults)?;
        }
        if entry.record.is_none() && implied && descriptors::is_view(entry.stream_type) {
            entry.record = Some(Record::Implied);
        }
        judge(&entry, place, &mut seen, &mut faults);
        take(&entry);
        place += 1;
    }
    faults.none()
}

/// The stream types and the descriptors of the entries one after another, as far as they fit.
pub(crate) struct Heads<'a>(pub(crate) &'a [u8]);

impl<'a> Iterator for Heads<'a> {
    type Item = (u8, &'a [u8]);

    #[inline]
    fn next(&mut self) -> Option<(u8, &'a [u8])> {
        if self.0.len() < ENTRY_HEAD {
            return None;
        }
        let (head, rest) = self.0.split_at(ENTRY_HEAD);
        let length = usize::from(u16::from_be_bytes([head[3], head[4]]) & 0x0FFF);
        if rest.len() < length {
            return None;
        }
        let (info, next) = rest.split_at(length);
        self.0 = next;
        Some((head[0], info))
    }
}

/// The descriptors of a stream one after another, each its tag and its payload, and nothing in place of one that doesn't fit, which is the last.
pub(crate) struct Descriptors<'a>(pub(crate) &'a [u8]);

impl<'a> Iterator for Descriptors<'a> {
    type Item = Option<(u8, &'a [u8])>;

    #[inline]
    fn next(&mut self) -> Option<Option<(u8, &'a [u8])>> {
        let rest = std::mem::take(&mut self.0);
        if rest.is_empty() {
            return None;
        }
        if rest.len() < 2 {
            return Some(None);
        }
        let end = 2 + usize::from(rest[1]);
        let payload = rest.get(2..end);
        self.0 = rest.get(end..).unwrap_or_default();
        Some(payload.map(|payload| (rest[0], payload)))
    }
}

/// Whether a stream has a hierarchy descriptor. The extension is none.
fn has_hierarchy_descriptor(info: &[u8]) -> bool {
    Descriptors(info)
        .flatten()
        .any(|(tag, _)| tag == descriptors::HIERARCHY_TAG)
}

/// Reads the descriptors of a known stream. Faults of the whole list are 2, which ends the reading, 4 and 5.
#[inline]
fn read_info(
    reading: Reading,
    info: &[u8],
    place: usize,
    record: &mut Option<Record>,
    faults: &mut Faults,
) -> Result<(), Refusal> {
    for descriptor in Descriptors(info) {
        let (tag, payload) = descriptor.ok_or(Refusal::at(2, place))?;
        if let Some(number) = descriptors::read(reading, tag, payload, record) {
            faults.add(number, place);
        }
    }
    Ok(())
}

/// The PIDs and layer indices of the entries so far, a bit for each.
struct Seen {
    pids: [u64; 128],
    layers: u64,
}

impl Default for Seen {
    fn default() -> Seen {
        Seen {
            pids: [0; 128],
            layers: 0,
        }
    }
}

impl Seen {
    /// Marks a PID, and says whether it was marked before.
    fn pid(&mut self, pid: u16) -> bool {
        let word = &mut self.pids[usize::from(pid >> 6 & 127)];
        let bit = 1 << (pid & 63);
        let before = *word & bit != 0;
        *word |= bit;
        before
    }

    /// Marks a layer index, and says whether it was marked before.
    fn layer(&mut self, index: u8) -> bool {
        let bit = 1 << (index & 63);
        let before = self.layers & bit != 0;
        self.layers |= bit;
        before
    }
}

/// Judges an entry: 3, and of its record 6 to 9.
#[inline]
fn judge(entry: &Entry, place: usize, seen: &mut Seen, faults: &mut Faults) {
    if seen.pid(entry.pid) {
        faults.add(3, place);
    }
    if let Some(record) = &entry.record {
        if let Some(number) = descriptors::fault_on_stream(entry.stream_type, record) {
            faults.add(number, place);
        }
    }
    if let Some(index) = entry.layer_index() {
        if seen.layer(index) {
            faults.add(8, place);
        }
        if descriptors::names_wrong_layers(index, entry) {
            faults.add(9, place);
        }
    }
}

/// Writes a loop and answers its length, or the refusal: 25 before all else, then 1, 3, 6 to 9, 17.
pub fn write_loop(entries: &[Entry], out: &mut [u8]) -> Result<usize, Refusal> {
    let length = judge_entries(entries, 0)?;
    let mut rest = out.get_mut(..length).ok_or(Refusal::of(17))?;
    for entry in entries {
        let (room, after) = rest.split_at_mut(written_length(entry));
        write_entry(entry, room);
        rest = after;
    }
    Ok(length)
}

/// Judges the entries of a loop that is to be written, with so many bytes more than their own: 25, then 1, 3, 6 to 9. Answers its length.
#[inline(always)]
pub(crate) fn judge_entries(entries: &[Entry], more: usize) -> Result<usize, Refusal> {
    let too_wide = |entry: &Entry| {
        entry.pid > 0x1FFF || entry.record.as_ref().map_or(false, descriptors::too_wide)
    };
    if entries.iter().any(too_wide) {
        return Err(Refusal::of(25));
    }
    let length = more + entries.iter().map(written_length).sum::<usize>();
    if length > LONGEST_LOOP {
        return Err(Refusal::of(1));
    }
    let streams = entries.iter().map(|entry| (entry.stream_type, entry));
    let implied = descriptors::two_views(streams, |entry| {
        matches!(entry.record, Some(Record::Hierarchy(_)))
    });
    let mut faults = Faults::default();
    let mut seen = Seen::default();
    for (place, entry) in entries.iter().enumerate() {
        if entry.record.is_some() && !descriptors::known(Reading::Of2015, entry.stream_type) {
            faults.add(6, place);
        }
        let given = implied && descriptors::is_view(entry.stream_type);
        if (entry.record == Some(Record::Implied)) != given {
            faults.add(6, place);
        }
        judge(entry, place, &mut seen, &mut faults);
    }
    faults.none()?;
    Ok(length)
}

#[inline(always)]
pub(crate) fn written_length(entry: &Entry) -> usize {
    ENTRY_HEAD + entry.record.as_ref().map_or(0, descriptors::written_length)
}

/// Writes an entry into room of its own length.
#[inline(always)]
fn write_entry(entry: &Entry, room: &mut [u8]) {
    let info = write_head(entry, room);
    if let Some(record) = &entry.record {
        descriptors::write(record, info);
    }
}

/// Writes the head of an entry that fills a room, and answers the rest of that, where its descriptors go. Reserved bits are 1, but the upper two bits of
/// ES_info_length are 0.
#[inline(always)]
pub(crate) fn write_head<'a>(entry: &Entry, room: &'a mut [u8]) -> &'a mut [u8] {
    let (head, info) = room.split_at_mut(ENTRY_HEAD);
    let pid = (0xE000 | entry.pid).to_be_bytes();
    let info_length = (0xF000 | info.len() as u16).to_be_bytes();
    head.copy_from_slice(&[
        entry.stream_type,
        pid[0],
        pid[1],
        info_length[0],
        info_length[1],
    ]);
    info
}
