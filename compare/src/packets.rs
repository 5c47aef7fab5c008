//! Recordings of transport packets, whole and in pieces: each call made to the library and to the plain implementation, whose three ways have to agree as well. After each the answer has to be
//! the same, and so has every buffer to its end; of a recording in pieces what its two buffers say.

use crate::calls::{self, answer, Lists, Space, Work, NOT_A_CALL};
use crate::cases::{filled, lists};
use crate::loops::{self, Quality};
use crate::memory::{Memory, Placed, Placing};
use crate::random::Random;
use crate::{faults, recordings, show, tables};
use plain::{Columns, Reading, Recording, RecordingColumns, RecordingRow, Refusal, MOST_ROWS};
use thoquenry_sys as raw;

/// The names of the calls and the numbers that each can answer, 0 for an accepted call.
pub const CALLS: [(&str, &[u64]); 7] = [
    (
        "rows",
        &[
            0, 1, 2, 3, 4, 5, 6, 7, 8, 9, 13, 20, 21, 22, 23, 24, 30, 31, 32, 33,
        ],
    ),
    ("import", &ALL),
    ("import_long", &ALL),
    ("start", &[0, 1, 2, 3, 4, 5, 6, 7, 8, 9, NOT_A_CALL]),
    ("feed", &[0, NOT_A_CALL]),
    (
        "told",
        &[0, 13, 20, 21, 22, 23, 24, 30, 31, 32, 33, NOT_A_CALL],
    ),
    (
        "units",
        &[
            0, 1, 2, 3, 4, 5, 6, 7, 8, 9, 11, 12, 13, 14, 15, 16, 17, 18, 20, 21, 22, 23, 24, 30,
            31, 32, 33, NOT_A_CALL,
        ],
    ),
];

/// The numbers of a whole import.
const ALL: [u64; 27] = [
    0, 1, 2, 3, 4, 5, 6, 7, 8, 9, 11, 12, 13, 14, 15, 16, 17, 18, 20, 21, 22, 23, 24, 30, 31, 32,
    33,
];

const ROWS: usize = 0;
const IMPORT: usize = 1;
const IMPORT_LONG: usize = 2;
const START: usize = 3;
const FEED: usize = 4;
const TOLD: usize = 5;
const UNITS: usize = 6;

/// Recordings count from here on, so that their numbers are none of other cases.
pub const FIRST: u64 = 1 << 50;

/// Where the parts of a state stand: the layer of each PID, the packet that isn't whole yet, the last packet of each layer.
const CARRIED: usize = 8192;
const LAST: usize = CARRIED + plain::PACKET;

/// Where the numbers of a recording in pieces stand, after those of the layers.
const PART: usize = 64;
const PACKETS: usize = 65;
const FAULT: usize = 66;
const HEADER: usize = 68;
const COUNT: usize = 70;
const NO_ROOM: usize = 71;

/// What was seen of recordings.
pub struct Seen {
    pub numbers: [[u64; 256]; CALLS.len()],
    pub recordings: u64,
    qualities: [u64; Quality::NAMES.len()],
    packets: u64,
    rows: u64,
    trefs: u64,
    copies: u64,
    clocks: u64,
    implied: u64,
    pieces: u64,
    no_room: u64,
}

impl Seen {
    fn new() -> Seen {
        Seen {
            numbers: [[0; 256]; CALLS.len()],
            recordings: 0,
            qualities: [0; Quality::NAMES.len()],
            packets: 0,
            rows: 0,
            trefs: 0,
            copies: 0,
            clocks: 0,
            implied: 0,
            pieces: 0,
            no_room: 0,
        }
    }

    /// What was met, in words, and what a long run has to meet and this one has not.
    pub fn told(&self) -> (String, Vec<String>) {
        let all = [
            ("sound", self.qualities[Quality::Sound as usize]),
            (
                "with near misses",
                self.qualities[Quality::NearMiss as usize],
            ),
            ("damaged", self.qualities[Quality::Damaged as usize]),
            ("under implied layers", self.implied),
            ("packets in all", self.packets),
            ("rows accepted", self.rows),
            ("with a TREF", self.trefs),
            ("accepted with packets repeated", self.copies),
            ("of them with another PCR", self.clocks),
            ("pieces", self.pieces),
            ("rows without room in pieces", self.no_room),
        ];
        let words = all.map(|(what, times)| format!("{times} {what}"));
        let never = all.iter().filter(|(_, times)| *times == 0);
        (
            words.join(", "),
            never
                .map(|(what, _)| format!("recordings never met: {what}"))
                .collect(),
        )
    }

    fn note(&mut self, kind: usize, answer: u64) {
        self.numbers[kind][calls::number(answer) as usize] += 1;
    }
}

/// The five columns of rows.
#[derive(Clone, Debug, Default, PartialEq, Eq)]
struct Five {
    indices: Vec<u8>,
    decodings: Vec<u64>,
    matches: Vec<u64>,
    trefs: Vec<u8>,
    numbers: Vec<u64>,
}

impl Five {
    /// Columns of these lengths.
    fn filled(random: &mut Random, lengths: [usize; 5]) -> Five {
        Five {
            indices: filled(random, lengths[0], |bits| bits as u8),
            decodings: filled(random, lengths[1], |bits| bits),
            matches: filled(random, lengths[2], |bits| bits),
            trefs: filled(random, lengths[3], |bits| bits as u8),
            numbers: filled(random, lengths[4], |bits| bits),
        }
    }

    /// How many rows they hold.
    fn room(&self) -> usize {
        let lengths = [
            self.indices.len(),
            self.decodings.len(),
            self.matches.len(),
            self.trefs.len(),
            self.numbers.len(),
        ];
        lengths.into_iter().min().unwrap_or(0)
    }

    /// Lays rows from a place on, for which there is room.
    fn lay(&mut self, from: usize, rows: &[RecordingRow]) {
        for (place, row) in (from..).zip(rows) {
            self.indices[place] = row.index;
            self.decodings[place] = row.decoding;
            self.matches[place] = row.matching;
            self.trefs[place] = u8::from(row.tref_sent);
            self.numbers[place] = row.packet;
        }
    }

    /// The first rows of them.
    fn rows(&self, count: usize) -> Vec<RecordingRow> {
        let row = |place: usize| RecordingRow {
            index: self.indices[place],
            decoding: self.decodings[place],
            matching: self.matches[place],
            tref_sent: self.trefs[place] == 1,
            packet: self.numbers[place],
        };
        (0..count).map(row).collect()
    }

    fn place(&self, memory: &mut Memory) -> PlacedFive {
        PlacedFive {
            indices: memory.place(&self.indices),
            decodings: memory.place(&self.decodings),
            matches: memory.place(&self.matches),
            trefs: memory.place(&self.trefs),
            numbers: memory.place(&self.numbers),
        }
    }

    fn show(&self) -> String {
        format!(
            "  indices: {}\n  decodings: {}\n  matches: {}\n  trefs: {}\n  numbers: {}\n",
            show::numbers(&self.indices),
            show::numbers(&self.decodings),
            show::numbers(&self.matches),
            show::numbers(&self.trefs),
            show::numbers(&self.numbers)
        )
    }
}

/// The same, placed.
struct PlacedFive {
    indices: Placed<u8>,
    decodings: Placed<u64>,
    matches: Placed<u64>,
    trefs: Placed<u8>,
    numbers: Placed<u64>,
}

impl PlacedFive {
    fn take_back(&self, columns: &mut Five) -> bool {
        self.indices.take_back(&mut columns.indices)
            & self.decodings.take_back(&mut columns.decodings)
            & self.matches.take_back(&mut columns.matches)
            & self.trefs.take_back(&mut columns.trefs)
            & self.numbers.take_back(&mut columns.numbers)
    }
}

/// The output buffers of joining, placed.
struct PlacedLists {
    numbers: Placed<u64>,
    lags: Placed<i64>,
    sizes: Placed<u64>,
    summary: Placed<u64>,
}

impl PlacedLists {
    fn place(memory: &mut Memory, lists: &Lists) -> PlacedLists {
        PlacedLists {
            numbers: memory.place(&lists.numbers),
            lags: memory.place(&lists.lags),
            sizes: memory.place(&lists.sizes),
            summary: memory.place(&lists.summary),
        }
    }

    fn take_back(&self, lists: &mut Lists) -> bool {
        self.numbers.take_back(&mut lists.numbers)
            & self.lags.take_back(&mut lists.lags)
            & self.sizes.take_back(&mut lists.sizes)
            & self.summary.take_back(&mut lists.summary)
    }
}

/// What a call is handed and leaves: inputs, columns, lists, and how much work space.
#[derive(Clone, Debug, PartialEq, Eq)]
struct Case {
    bytes: Vec<u8>,
    target: u64,
    packets: Vec<u8>,
    columns: Five,
    starts: usize,
    work: Work,
    lists: Lists,
}

impl Case {
    fn show(&self) -> String {
        let mut text = format!(
            "a recording\n  bytes: {}\n  target: {}\n",
            show::hex(&self.bytes),
            self.target
        );
        for (number, packet) in self.packets.chunks(plain::PACKET).enumerate() {
            text += &format!("  packet {number}: {}\n", show::hex(packet));
        }
        text += &format!("  starts: {}\n", self.starts);
        text += &format!("  work space: {}\n", show::numbers(&self.work));
        text + &self.columns.show() + &show_lists(&self.lists)
    }

    /// The call of this kind to the library. An error where it has written beside a buffer.
    fn library(
        &mut self,
        kind: usize,
        memory: &mut Memory,
        placing: Placing,
    ) -> Result<u64, &'static str> {
        memory.begin(placing);
        let bytes = memory.place(&self.bytes);
        let packets = memory.place(&self.packets);
        let mut untouched = true;
        // SAFETY of all calls: each pointer is of a region, with the length of what was placed there, and no two regions overlap.
        let answer = match kind {
            ROWS => {
                let columns = self.columns.place(memory);
                let mut space = vec![u64::MAX; self.starts];
                let starts = memory.place(&space);
                let answer = unsafe {
                    raw::thq_packets_rows(
                        bytes.start(),
                        bytes.length(),
                        packets.start(),
                        packets.length(),
                        starts.start(),
                        starts.length(),
                        columns.indices.start(),
                        columns.indices.length(),
                        columns.decodings.start(),
                        columns.decodings.length(),
                        columns.matches.start(),
                        columns.matches.length(),
                        columns.trefs.start(),
                        columns.trefs.length(),
                        columns.numbers.start(),
                        columns.numbers.length(),
                    )
                };
                untouched &= columns.take_back(&mut self.columns);
                untouched &= starts.take_back(&mut space);
                answer
            }
            IMPORT => {
                let lists = PlacedLists::place(memory, &self.lists);
                let answer = unsafe {
                    raw::thq_packets_import(
                        bytes.start(),
                        bytes.length(),
                        self.target,
                        packets.start(),
                        packets.length(),
                        lists.numbers.start(),
                        lists.numbers.length(),
                        lists.lags.start(),
                        lists.lags.length(),
                        lists.sizes.start(),
                        lists.sizes.length(),
                        lists.summary.start(),
                        lists.summary.length(),
                    )
                };
                untouched &= lists.take_back(&mut self.lists);
                answer
            }
            _ => {
                let columns = self.columns.place(memory);
                let lists = PlacedLists::place(memory, &self.lists);
                let mut space = Space::of(self.work);
                let placed = space.place(memory);
                let answer = unsafe {
                    raw::thq_packets_import_long(
                        bytes.start(),
                        bytes.length(),
                        self.target,
                        packets.start(),
                        packets.length(),
                        columns.indices.start(),
                        columns.indices.length(),
                        columns.decodings.start(),
                        columns.decodings.length(),
                        columns.matches.start(),
                        columns.matches.length(),
                        columns.trefs.start(),
                        columns.trefs.length(),
                        columns.numbers.start(),
                        columns.numbers.length(),
                        placed.order.start(),
                        placed.order.length(),
                        placed.keys.start(),
                        placed.keys.length(),
                        placed.kept.start(),
                        placed.kept.length(),
                        placed.places.start(),
                        placed.places.length(),
                        placed.heads.start(),
                        placed.heads.length(),
                        placed.claimed.start(),
                        placed.claimed.length(),
                        placed.used.start(),
                        placed.used.length(),
                        lists.numbers.start(),
                        lists.numbers.length(),
                        lists.lags.start(),
                        lists.lags.length(),
                        lists.sizes.start(),
                        lists.sizes.length(),
                        lists.summary.start(),
                        lists.summary.length(),
                    )
                };
                untouched &= columns.take_back(&mut self.columns);
                untouched &= lists.take_back(&mut self.lists);
                untouched &= placed.take_back(&mut space);
                answer
            }
        };
        untouched &= bytes.take_back(&mut self.bytes);
        untouched &= packets.take_back(&mut self.packets);
        match untouched {
            true => Ok(answer),
            false => Err("bytes beside a buffer were changed"),
        }
    }

    /// The call of this kind to the plain implementation.
    fn plain(&mut self, kind: usize) -> u64 {
        answer(match kind {
            ROWS => self.plain_rows(),
            IMPORT => self.plain_import(MOST_ROWS),
            _ => {
                let work = self.work.into_iter().min().unwrap_or(0);
                self.plain_import_long(work.min(self.columns.room()))
            }
        })
    }

    fn plain_rows(&mut self) -> Result<usize, Refusal> {
        let rows = plain::recording_rows(&self.bytes, &self.packets)?;
        if rows.len() > self.starts.min(self.columns.room()) {
            return Err(Refusal::of(13));
        }
        self.columns.lay(0, &rows);
        Ok(rows.len())
    }

    fn plain_import(&mut self, most: usize) -> Result<usize, Refusal> {
        let mut left = self.lists.clone();
        let room = room(&mut left);
        let (_, units) =
            plain::import_packets(&self.bytes, self.target, &self.packets, most, room)?;
        let count = summed(&mut left, units)?;
        self.lists = left;
        Ok(count)
    }

    fn plain_import_long(&mut self, most: usize) -> Result<usize, Refusal> {
        let mut left = self.lists.clone();
        let room = room(&mut left);
        let (rows, units) =
            plain::import_packets(&self.bytes, self.target, &self.packets, most, room)?;
        self.columns.lay(0, &rows);
        let count = summed(&mut left, units)?;
        self.lists = left;
        Ok(count)
    }
}

fn room(lists: &mut Lists) -> plain::Lists<'_> {
    plain::Lists {
        numbers: &mut lists.numbers,
        lags: &mut lists.lags,
        sizes: &mut lists.sizes,
    }
}

/// Fills the summary of joining, or 17.
fn summed(lists: &mut Lists, units: Result<plain::Units, Refusal>) -> Result<usize, Refusal> {
    let units = units?;
    let summary = lists.summary.get_mut(..2).ok_or(Refusal::of(17))?;
    summary.copy_from_slice(&[units.closure, units.count as u64]);
    Ok(units.rows)
}

fn show_lists(lists: &Lists) -> String {
    format!(
        "  numbers: {}\n  lags: {}\n  sizes: {}\n  summary: {}\n",
        show::numbers(&lists.numbers),
        show::numbers(&lists.lags),
        show::numbers(&lists.sizes),
        show::numbers(&lists.summary)
    )
}

/// Lengths for so many places each: enough, but that now and then one of them is short.
fn lengths<const LISTS: usize>(random: &mut Random, needed: usize) -> [usize; LISTS] {
    let mut lengths = [needed; LISTS].map(|needed| needed + random.pick(&[0, 0, 1, 9]));
    if random.once_in(12) {
        lengths[random.below(LISTS)] = match random.once_in(2) {
            true => needed.saturating_sub(1),
            false => random.below(needed + 1),
        };
    }
    lengths
}

/// A loop that is refused, each number as often as the others.
fn refused_loop(random: &mut Random) -> Vec<u8> {
    let wanted = random.within(1, 9) as u8;
    let mut bytes = Vec::new();
    for _ in 0..300 {
        bytes = loops::bytes(random, 2015).0;
        let refused = plain::read_loop(Reading::Of2015, &bytes).err();
        if refused.map(|refusal| refusal.number) == Some(wanted) {
            break;
        }
    }
    bytes
}

/// A loop and a target, which mostly has a closure in it.
fn loop_and_target(random: &mut Random) -> (Vec<u8>, u64) {
    let (mut bytes, mut target) = (Vec::new(), 0);
    for _ in 0..random.pick(&[1, 4, 4, 4]) {
        bytes = loops::sound_bytes(random, 2015);
        let layers = plain::layers_of_loop(Reading::Of2015, &bytes).unwrap_or_default();
        target = tables::target(random, layers.present);
        if plain::closure(&layers, target).is_ok() {
            break;
        }
    }
    match random.once_in(12) {
        true => (refused_loop(random), target),
        false => (bytes, target),
    }
}

/// A case, and how it was made.
fn case(random: &mut Random) -> (Case, Quality) {
    let (bytes, target) = loop_and_target(random);
    let layers = plain::layers_of_loop(Reading::Of2015, &bytes).unwrap_or_default();
    let (packets, quality) = recordings::recording(random, &bytes, target);
    let rows = plain::recording_rows(&bytes, &packets).unwrap_or_default();
    let needed = rows.len();
    let table = Columns {
        indices: rows.iter().map(|row| row.index).collect(),
        decodings: rows.iter().map(|row| row.decoding).collect(),
        matches: rows.iter().map(|row| row.matching).collect(),
    };
    let columns = lengths(random, needed);
    let [starts] = lengths(random, needed);
    let case = Case {
        columns: Five::filled(random, columns),
        starts,
        work: lengths(random, needed),
        lists: lists(random, &layers, target, &table),
        bytes,
        target,
        packets,
    };
    (case, quality)
}

/// A recording in pieces, in the buffers of its caller.
#[derive(Clone, PartialEq, Eq)]
struct Buffers {
    state: Vec<u8>,
    counts: Vec<u64>,
    columns: Five,
}

impl Buffers {
    fn start(&mut self, bytes: &[u8], memory: &mut Memory) -> (u64, bool) {
        let mut given = bytes.to_vec();
        let loop_bytes = memory.place(&given);
        let state = memory.place(&self.state);
        let counts = memory.place(&self.counts);
        // SAFETY: as of all calls here.
        let answer = unsafe {
            raw::thq_packets_start(
                loop_bytes.start(),
                loop_bytes.length(),
                state.start(),
                state.length(),
                counts.start(),
                counts.length(),
            )
        };
        let untouched = loop_bytes.take_back(&mut given)
            & state.take_back(&mut self.state)
            & counts.take_back(&mut self.counts);
        (answer, untouched && given == bytes)
    }

    fn feed(&mut self, piece: &[u8], memory: &mut Memory) -> (u64, bool) {
        let mut given = piece.to_vec();
        let fed = memory.place(&given);
        let state = memory.place(&self.state);
        let counts = memory.place(&self.counts);
        let columns = self.columns.place(memory);
        // SAFETY: as of all calls here.
        let answer = unsafe {
            raw::thq_packets_feed(
                fed.start(),
                fed.length(),
                state.start(),
                state.length(),
                counts.start(),
                counts.length(),
                columns.indices.start(),
                columns.indices.length(),
                columns.decodings.start(),
                columns.decodings.length(),
                columns.matches.start(),
                columns.matches.length(),
                columns.trefs.start(),
                columns.trefs.length(),
                columns.numbers.start(),
                columns.numbers.length(),
            )
        };
        let untouched = fed.take_back(&mut given)
            & state.take_back(&mut self.state)
            & counts.take_back(&mut self.counts)
            & columns.take_back(&mut self.columns);
        (answer, untouched && given == piece)
    }

    /// Nothing may be written.
    fn told(&self, memory: &mut Memory) -> (u64, bool) {
        let state = memory.place(&self.state);
        let counts = memory.place(&self.counts);
        // SAFETY: as of all calls here.
        let answer = unsafe {
            raw::thq_packets_told(
                state.start(),
                state.length(),
                counts.start(),
                counts.length(),
            )
        };
        let mut after = self.clone();
        let untouched = state.take_back(&mut after.state) & counts.take_back(&mut after.counts);
        (answer, untouched && after == *self)
    }

    /// Nothing but the lists may be written.
    fn units(&self, case: &mut Case, memory: &mut Memory) -> (u64, bool) {
        let before = case.bytes.clone();
        let bytes = memory.place(&case.bytes);
        let state = memory.place(&self.state);
        let counts = memory.place(&self.counts);
        let indices = memory.place(&self.columns.indices);
        let decodings = memory.place(&self.columns.decodings);
        let matches = memory.place(&self.columns.matches);
        let mut space = Space::of(case.work);
        let placed = space.place(memory);
        let lists = PlacedLists::place(memory, &case.lists);
        // SAFETY: as of all calls here.
        let answer = unsafe {
            raw::thq_packets_units(
                bytes.start(),
                bytes.length(),
                case.target,
                state.start(),
                state.length(),
                counts.start(),
                counts.length(),
                indices.start(),
                indices.length(),
                decodings.start(),
                decodings.length(),
                matches.start(),
                matches.length(),
                placed.order.start(),
                placed.order.length(),
                placed.keys.start(),
                placed.keys.length(),
                placed.kept.start(),
                placed.kept.length(),
                placed.places.start(),
                placed.places.length(),
                placed.heads.start(),
                placed.heads.length(),
                placed.claimed.start(),
                placed.claimed.length(),
                placed.used.start(),
                placed.used.length(),
                lists.numbers.start(),
                lists.numbers.length(),
                lists.lags.start(),
                lists.lags.length(),
                lists.sizes.start(),
                lists.sizes.length(),
                lists.summary.start(),
                lists.summary.length(),
            )
        };
        let mut after = self.clone();
        let untouched = bytes.take_back(&mut case.bytes)
            & state.take_back(&mut after.state)
            & counts.take_back(&mut after.counts)
            & indices.take_back(&mut after.columns.indices)
            & decodings.take_back(&mut after.columns.decodings)
            & matches.take_back(&mut after.columns.matches)
            & placed.take_back(&mut space)
            & lists.take_back(&mut case.lists);
        (answer, untouched && after == *self && before == case.bytes)
    }

    /// What the two buffers say that is not so.
    fn wrong(&self, recording: &Recording) -> Option<String> {
        for pid in 0..8192 {
            let layer = Some(self.state[pid]).filter(|&index| index < 64);
            if layer != recording.layer(pid) {
                return Some(format!("the layer of PID {pid} is {layer:?}"));
            }
        }
        let counts = &self.counts;
        let carried = recording.carried();
        if counts[PART] != carried.len() as u64 {
            return Some(format!("a part of {} bytes", counts[PART]));
        }
        if self.state[CARRIED..CARRIED + carried.len()] != *carried {
            return Some("another part".to_string());
        }
        if counts[PACKETS] != recording.packets() as u64 {
            return Some(format!("{} packets", counts[PACKETS]));
        }
        for index in 0..64 {
            let at = LAST + index * plain::PACKET;
            let kept = &self.state[at..at + plain::PACKET];
            match (counts[index], recording.last(index)) {
                (0, None) => {}
                (1, Some(last)) if same_but_for_clock(kept, last) => {}
                (said, _) => return Some(format!("the last packet of layer {index}, {said}")),
            }
        }
        let [fault, header] = recording.faults();
        for (place, none, expected) in [(FAULT, 34, fault), (HEADER, 25, header)] {
            let right = match expected {
                None => counts[place] == none,
                Some(Refusal { number, place: at }) => {
                    counts[place] == u64::from(number) && counts[place + 1] == at as u64
                }
            };
            if !right {
                return Some(format!("fault {} at {}", counts[place], counts[place + 1]));
            }
        }
        if counts[COUNT] != recording.rows().len() as u64 {
            return Some(format!("{} rows", counts[COUNT]));
        }
        let no_room = recording.rows().len() > self.columns.room();
        if counts[NO_ROOM] != u64::from(no_room) {
            return Some(format!("no room: {}", counts[NO_ROOM]));
        }
        None
    }

    /// Buffers that hold no recording.
    fn damaged(&self, random: &mut Random) -> Buffers {
        let mut other = self.clone();
        let counts = &mut other.counts;
        match random.below(11) {
            0 => other
                .state
                .resize(random.pick(&[0, 8192, 20411, 20413, 20600]), 0),
            1 => counts.resize(random.pick(&[0, 64, 71, 73]), 0),
            2 => counts[random.below(64)] = random.pick(&[2, 188, u64::MAX]),
            3 => counts[PART] = random.pick(&[188, 189, 1 << 32, u64::MAX]),
            4 => counts[PACKETS] = random.pick(&[(1 << 48) + 1, u64::MAX]),
            5 => counts[FAULT] = random.pick(&[0, 13, 29, 35, 256 + 30, u64::MAX]),
            6 => counts[HEADER] = random.pick(&[0, 19, 26, 30, 256 + 20, u64::MAX]),
            7 => counts[COUNT] = counts[PACKETS] + random.pick(&[1, 2, 1 << 40]),
            8 => counts[COUNT] = u64::MAX,
            _ => counts[NO_ROOM] = random.pick(&[2, 255, 256, u64::MAX]),
        }
        other
    }
}

/// Whether two packets have the same bytes but for those where a PCR may be: of a packet and its copies any may be kept.
fn same_but_for_clock(one: &[u8], other: &[u8]) -> bool {
    one[..6] == other[..6] && one[12..] == other[12..]
}

/// Feeds a recording piece by piece, asks now and then, and compares at each step.
fn in_pieces(
    random: &mut Random,
    case: &Case,
    memory: &mut Memory,
    placing: Placing,
    seen: &mut Seen,
) -> Result<(), String> {
    let mut buffers = Buffers {
        state: filled(random, raw::THQ_PACKETS_STATE, |bits| bits as u8),
        counts: filled(random, raw::THQ_PACKETS_COUNTS, |bits| bits),
        columns: case.columns.clone(),
    };
    let made = |kind: usize, (answer, untouched): (u64, bool), expected: u64, seen: &mut Seen| {
        seen.note(kind, expected);
        let name = CALLS[kind].0;
        match (untouched, answer == expected) {
            (false, _) => Err(format!("{name} wrote what it should not have")),
            (_, true) => Ok(()),
            _ => Err(format!(
                "{name} of the library: {}, of plain: {}",
                show::answer(answer),
                show::answer(expected)
            )),
        }
    };
    if random.once_in(20) {
        let mut short = buffers.clone();
        match random.once_in(2) {
            true => drop(short.state.pop()),
            false => short.counts.push(0),
        }
        let before = short.clone();
        memory.begin(placing);
        let answer = short.start(&case.bytes, memory);
        made(START, answer, NOT_A_CALL, seen)?;
        if short != before {
            return Err("start changed buffers that are none".to_string());
        }
    }
    let before = buffers.clone();
    memory.begin(placing);
    let answered = buffers.start(&case.bytes, memory);
    let mut recording = match Recording::new(&case.bytes) {
        Ok(recording) => recording,
        Err(refusal) => {
            made(START, answered, answer(Err(refusal)), seen)?;
            return match buffers == before {
                true => Ok(()),
                false => Err("start changed buffers although the loop is refused".to_string()),
            };
        }
    };
    let layers = (0..8192).filter(|&pid| recording.layer(pid).is_some());
    made(START, answered, answer(Ok(layers.count())), seen)?;
    if let Some(wrong) = buffers.wrong(&recording) {
        return Err(format!("after start: {wrong}"));
    }

    let room = buffers.columns.room();
    let mut expected = buffers.columns.clone();
    let mut fed = 0;
    for length in recordings::pieces(random, case.packets.len()) {
        let piece = &case.packets[fed..fed + length];
        let first = recording.rows().len();
        recording.feed(piece);
        let count = recording.rows().len();
        if random.once_in(24) {
            let mut none = buffers.damaged(random);
            let before = none.clone();
            memory.begin(placing);
            let answered = none.feed(piece, memory);
            made(FEED, answered, NOT_A_CALL, seen)?;
            memory.begin(placing);
            made(TOLD, none.told(memory), NOT_A_CALL, seen)?;
            memory.begin(placing);
            let mut other = case.clone();
            made(UNITS, none.units(&mut other, memory), NOT_A_CALL, seen)?;
            if none != before || other != *case {
                return Err("buffers that hold no recording were changed".to_string());
            }
        }
        memory.begin(placing);
        let answered = buffers.feed(piece, memory);
        let at = format!("after {length} bytes from {fed} on");
        made(FEED, answered, answer(Ok(count)), seen).map_err(|wrong| format!("{at}: {wrong}"))?;
        if let Some(wrong) = buffers.wrong(&recording) {
            return Err(format!("{at}: {wrong}"));
        }
        if count <= room {
            expected.lay(first, &recording.rows()[first..]);
            if buffers.columns != expected {
                return Err(format!(
                    "{at}: columns of the library:\n{}of plain:\n{}",
                    buffers.columns.show(),
                    expected.show()
                ));
            }
        }
        fed += length;
        seen.pieces += 1;
        if random.once_in(8) || fed == case.packets.len() {
            asked(random, case, &recording, &buffers, memory, placing, seen)
                .map_err(|wrong| format!("{at}: {wrong}"))?;
        }
    }
    seen.no_room += recording.rows().len().saturating_sub(room) as u64;
    let whole = plain::recording_rows(&case.bytes, &case.packets);
    match recording.told().map(<[_]>::to_vec) == whole {
        true => Ok(()),
        false => Err("plain's pieces are not its whole".to_string()),
    }
}

/// Asks a recording in pieces as if it ended here.
fn asked(
    random: &mut Random,
    case: &Case,
    recording: &Recording,
    buffers: &Buffers,
    memory: &mut Memory,
    placing: Placing,
    seen: &mut Seen,
) -> Result<(), String> {
    let told = recording.told().and_then(|rows| match rows.len() {
        count if count > buffers.columns.room() => Err(Refusal::of(13)),
        count => Ok(count),
    });
    memory.begin(placing);
    let (answered, untouched) = buffers.told(memory);
    let expected = answer(told);
    seen.note(TOLD, expected);
    if answered != expected || !untouched {
        return Err(format!(
            "told by the library: {}, by plain: {}; written: {}",
            show::answer(answered),
            show::answer(expected),
            !untouched
        ));
    }

    let mut given = case.clone();
    let mut lent = buffers.clone();
    match random.below(24) {
        0 => given.bytes = refused_loop(random),
        1 => given.bytes = loops::sound_bytes(random, 2015),
        _ => {}
    }
    if random.once_in(12) {
        // Columns that no longer hold all rows.
        let short = recording.rows().len().saturating_sub(1);
        match random.below(3) {
            0 => lent.columns.indices.truncate(short),
            1 => lent.columns.decodings.truncate(short),
            _ => lent.columns.matches.truncate(short),
        }
    }
    let mut by_plain = given.clone();
    let units = plain_units(&mut by_plain, recording, told, &lent);
    memory.begin(placing);
    let (answered, untouched) = lent.units(&mut given, memory);
    let expected = answer(units);
    seen.note(UNITS, expected);
    if answered != expected || !untouched || given.lists != by_plain.lists {
        return Err(format!(
            "units by the library: {}, by plain: {}; written beside the lists: {}; lists of the library:\n{}of plain:\n{}",
            show::answer(answered),
            show::answer(expected),
            !untouched,
            show_lists(&given.lists),
            show_lists(&by_plain.lists)
        ));
    }
    Ok(())
}

/// The units of a recording in pieces, by plain.
fn plain_units(
    case: &mut Case,
    recording: &Recording,
    told: Result<usize, Refusal>,
    lent: &Buffers,
) -> Result<usize, Refusal> {
    plain::closure_of_loop(Reading::Of2015, &case.bytes, case.target)?;
    told?;
    let columns = &lent.columns;
    let lengths = [
        columns.indices.len(),
        columns.decodings.len(),
        columns.matches.len(),
    ];
    let most = lengths.into_iter().chain(case.work).min().unwrap_or(0);
    let mut left = case.lists.clone();
    let units = recording.units(&case.bytes, case.target, most, room(&mut left));
    let count = summed(&mut left, units)?;
    case.lists = left;
    Ok(count)
}

/// Compares plain's scan with plain's own words.
fn scanned(case: &Case) -> Result<(), String> {
    let mut columns = case.columns.clone();
    let lent = RecordingColumns {
        indices: &mut columns.indices,
        decodings: &mut columns.decodings,
        matches: &mut columns.matches,
        trefs: &mut columns.trefs,
        numbers: &mut columns.numbers,
    };
    let scanned = plain::scan_recording(&case.bytes, &case.packets, lent);
    let rows = plain::recording_rows(&case.bytes, &case.packets);
    let expected = rows.and_then(|rows| match rows.len() > columns.room() {
        true => Err(Refusal::of(13)),
        false => Ok(rows),
    });
    match scanned.map(|count| columns.rows(count)) == expected {
        true => Ok(()),
        false => Err("plain's scan is not what its words say".to_string()),
    }
}

/// Makes so many recordings, up to the first difference.
pub fn run(seed: u64, count: u64, guarded: bool, memory: &mut Memory) -> Result<Seen, String> {
    let mut seen = Seen::new();
    while seen.recordings < count {
        let number = FIRST + seen.recordings;
        faults::note(seed, number);
        let placing = match (guarded, number % 2) {
            (false, _) => Placing::Inside,
            (true, 0) => Placing::AtStart,
            (true, _) => Placing::AtEnd,
        };
        let mut random = Random::new(seed, number);
        let (case, quality) = case(&mut random);
        let different = |what: String| {
            format!(
                "compare: DIFFERENT at seed {seed}, case {number}: {what}\n{}",
                case.show()
            )
        };
        scanned(&case).map_err(different)?;
        for kind in [ROWS, IMPORT, IMPORT_LONG] {
            let (mut library, mut plain) = (case.clone(), case.clone());
            let expected = plain.plain(kind);
            let answered = library.library(kind, memory, placing);
            if answered != Ok(expected) || library != plain {
                let answered = answered.map_or_else(str::to_string, show::answer);
                return Err(different(format!(
                    "{} of the library: {answered}, of plain: {}; after the call, of the library:\n{}{}of plain:\n{}{}",
                    CALLS[kind].0,
                    show::answer(expected),
                    library.columns.show(),
                    show_lists(&library.lists),
                    plain.columns.show(),
                    show_lists(&plain.lists)
                )));
            }
            seen.note(kind, expected);
        }
        in_pieces(&mut random, &case, memory, placing, &mut seen).map_err(different)?;
        seen.met(&case, quality);
    }
    Ok(seen)
}

impl Seen {
    /// Takes note of a case that was made.
    fn met(&mut self, case: &Case, quality: Quality) {
        self.recordings += 1;
        self.qualities[quality as usize] += 1;
        self.packets += (case.packets.len() / plain::PACKET) as u64;
        let entries = plain::read_loop(Reading::Of2015, &case.bytes).unwrap_or_default();
        let implied = |entry: &plain::Entry| entry.record == Some(plain::Record::Implied);
        let has_implied = entries.iter().any(implied);
        self.implied += u64::from(has_implied && !case.packets.is_empty());
        if let Ok(rows) = plain::recording_rows(&case.bytes, &case.packets) {
            self.rows += rows.len() as u64;
            self.trefs += rows.iter().filter(|row| row.tref_sent).count() as u64;
            // Packets of layers that begin alike and repeat the counter: in an accepted recording they are copies.
            let pids: Vec<u16> = entries
                .iter()
                .filter_map(|entry| entry.layer_index().map(|_| entry.pid))
                .collect();
            let (mut copied, mut clocked) = (false, false);
            for &pid in &pids {
                let of_pid = |packet: &&[u8]| {
                    u16::from_be_bytes([packet[1], packet[2]]) & 0x9FFF == pid
                        && packet[3] & 0x10 != 0
                };
                let packets: Vec<&[u8]> = case
                    .packets
                    .chunks_exact(plain::PACKET)
                    .filter(of_pid)
                    .collect();
                for pair in packets.windows(2) {
                    let again = same_but_for_clock(pair[0], pair[1]);
                    copied |= again;
                    clocked |= again && pair[0] != pair[1];
                }
            }
            self.copies += u64::from(copied);
            self.clocks += u64::from(clocked);
        }
    }
}

/// A case and what the plain implementation answers, without a call of the library.
pub fn show(seed: u64, number: u64) -> String {
    let (case, quality) = case(&mut Random::new(seed, number));
    let mut text = format!("{quality:?} {}", case.show());
    for (kind, (name, _)) in CALLS.iter().enumerate().take(IMPORT_LONG + 1) {
        let answered = case.clone().plain(kind);
        text += &format!("plain answers {name}: {}\n", show::answer(answered));
    }
    text
}
