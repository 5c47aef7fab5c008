//! Layer sets that change: the cases of the program `set_cases`, whose expected answers were derived by hand, and sequences of changes over which
//! both sets of the plain implementation agree.

use plain::{Embedded, Entry, Extension, Hierarchy, KeptSet, LayerSet, Reading, Record, Refusal};
use std::fmt::Write;

const CASES: &str = include_str!("../../crates/set_cases/stdin");
const ANSWERS: &str = include_str!("../../crates/set_cases/stdout");

/// The numbers of a row, as `include/thoquenry.h` lays an entry out.
const ROW: usize = 80;
/// The numbers of what is stored: closures, sizes, and whether one is absent, by index.
const STORED: usize = 192;

/// A set as a caller of the library has it: the three values in a buffer that the caller could write to.
struct Handed {
    set: LayerSet,
    stored: [u64; STORED],
}

impl Handed {
    fn of(set: LayerSet) -> Handed {
        let stored = stored_of(&set);
        Handed { set, stored }
    }

    /// The set, or 255 where what is stored is not what is worked out.
    fn set(&self) -> Result<LayerSet, Refusal> {
        if self.stored == stored_of(&self.set) {
            Ok(self.set.clone())
        } else {
            Err(Refusal::of(255))
        }
    }

    /// The set changed, or the refusal.
    fn changed(
        &mut self,
        change: impl FnOnce(&mut LayerSet) -> Result<(), Refusal>,
    ) -> Result<usize, Refusal> {
        let mut set = self.set()?;
        change(&mut set)?;
        *self = Handed::of(set);
        Ok(self.set.iter().count())
    }

    /// The lines of its layers.
    fn lines(&self) -> String {
        let mut text = String::new();
        for (index, layer) in self.set.iter() {
            let entry = &layer.entry;
            let at = usize::from(index);
            write!(
                text,
                "  layer {index} type {} pid {} record",
                entry.stream_type, entry.pid
            )
            .unwrap();
            for number in record_of(entry) {
                write!(text, " {number}").unwrap();
            }
            write!(text, " closure{}", indices(self.stored[at])).unwrap();
            write!(text, " size {}", self.stored[64 + at]).unwrap();
            if self.stored[128 + at] != 0 {
                text += " absent";
            }
            text.push('\n');
        }
        text
    }
}

fn stored_of(set: &LayerSet) -> [u64; STORED] {
    let mut stored = [0; STORED];
    for (index, layer) in set.iter() {
        let index = usize::from(index);
        stored[index] = layer.closure;
        stored[64 + index] = u64::from(layer.size);
        stored[128 + index] = u64::from(layer.absent);
    }
    stored
}

/// The members of a set, each after a blank.
fn indices(set: u64) -> String {
    let members = (0..64).filter(|index| set >> index & 1 == 1);
    members.map(|index| format!(" {index}")).collect()
}

/// The numbers of a record in the order of a row, from the one that says its kind to the last that it has.
fn record_of(entry: &Entry) -> Vec<u16> {
    match entry.record.as_ref().expect("a layer") {
        Record::Implied => vec![3],
        Record::Hierarchy(h) => vec![
            1,
            h.no_view.into(),
            h.no_temporal.into(),
            h.no_spatial.into(),
            h.no_quality.into(),
            h.hierarchy_type.into(),
            h.layer_index.into(),
            h.tref_present.into(),
            h.embedded_index.into(),
            h.channel.into(),
        ],
        Record::Extension(e) => {
            let list = e.embedded.as_slice();
            let mut numbers = vec![
                2,
                0,
                0,
                0,
                0,
                0,
                e.layer_index.into(),
                e.tref_present.into(),
                0,
                e.channel.into(),
                e.dimension_bits,
                e.temporal_id.into(),
                e.nuh_layer_id.into(),
                list.len() as u16,
            ];
            numbers.extend(list.iter().map(|&index| u16::from(index)));
            numbers
        }
    }
}

/// The entry of a row, or 25 where a number is too wide for any.
fn entry_of(row: &[u16; ROW]) -> Result<Entry, Refusal> {
    let byte = |place: usize| u8::try_from(row[place]).map_err(|_| Refusal::of(25));
    let flag = |place: usize| match row[place] {
        0 | 1 => Ok(row[place] == 1),
        _ => Err(Refusal::of(25)),
    };
    let record = match row[2] {
        0 => None,
        1 => Some(Record::Hierarchy(Hierarchy {
            no_view: flag(3)?,
            no_temporal: flag(4)?,
            no_spatial: flag(5)?,
            no_quality: flag(6)?,
            hierarchy_type: byte(7)?,
            layer_index: byte(8)?,
            tref_present: flag(9)?,
            embedded_index: byte(10)?,
            channel: byte(11)?,
        })),
        2 => {
            let list: Result<Vec<u8>, Refusal> =
                (16..16 + usize::from(row[15]).min(63)).map(byte).collect();
            if row[15] > 63 {
                return Err(Refusal::of(25));
            }
            Some(Record::Extension(Extension {
                dimension_bits: row[12],
                layer_index: byte(8)?,
                temporal_id: byte(13)?,
                nuh_layer_id: byte(14)?,
                tref_present: flag(9)?,
                channel: byte(11)?,
                embedded: Embedded::new(&list?)?,
            }))
        }
        3 => Some(Record::Implied),
        _ => return Err(Refusal::of(25)),
    };
    Ok(Entry {
        stream_type: byte(0)?,
        pid: row[1],
        record,
    })
}

/// The bytes that words name: HH, or HH*N for N times that byte.
fn bytes(words: &[&str]) -> Option<Vec<u8>> {
    let mut bytes = Vec::new();
    for word in words {
        let (digits, times) = word.split_once('*').unwrap_or((word, "1"));
        let byte = u8::from_str_radix(digits, 16).ok()?;
        bytes.resize(bytes.len() + times.parse::<usize>().ok()?, byte);
    }
    Some(bytes)
}

/// What is answered to a line, after which the set is another or the same; nothing where the line is unreadable.
fn answer(line: &str, handed: &mut Handed) -> Option<String> {
    let words: Vec<&str> = line.split_ascii_whitespace().collect();
    let (name, words) = words.split_first()?;
    let numbers: Option<Vec<u64>> = words.iter().map(|word| word.parse().ok()).collect();
    let answered = match (*name, numbers.as_deref()) {
        ("empty", Some([])) => {
            *handed = Handed::of(LayerSet::new());
            Ok(0)
        }
        ("loop", _) => {
            let (year, words) = words.split_first()?;
            let bytes = bytes(words)?;
            let reading = match *year {
                "2009" => Ok(Reading::Of2009),
                "2015" => Ok(Reading::Of2015),
                _ => Err(Refusal::of(255)),
            };
            let read = reading.and_then(|reading| LayerSet::read(reading, &bytes));
            read.map(|set| {
                *handed = Handed::of(set);
                handed.set.iter().count()
            })
        }
        ("add", Some(numbers)) => {
            let mut row = [0; ROW];
            for (to, &number) in row.iter_mut().zip(numbers) {
                *to = number.min(65535) as u16;
            }
            handed.changed(|set| set.add(&entry_of(&row)?))
        }
        ("remove", Some(&[index])) => handed.changed(|set| set.remove(index)),
        ("target", Some(&[index])) => {
            let closure = handed.set().and_then(|set| set.closure(index));
            return Some(match closure {
                Ok(closure) => format!("closure{}\n", indices(closure)),
                Err(refusal) => refused(refusal),
            });
        }
        ("stored", Some(&[place, value])) => {
            *handed.stored.get_mut(place as usize)? = value;
            return Some(format!("stored\n{}", handed.lines()));
        }
        _ => return None,
    };
    let first = match answered {
        Ok(count) => format!("accepted {count}\n"),
        Err(refusal) => refused(refusal),
    };
    Some(first + &handed.lines())
}

fn refused(refusal: Refusal) -> String {
    format!("refused {} place {}\n", refusal.number, refusal.place)
}

#[test]
fn cases() {
    let mut handed = Handed::of(LayerSet::new());
    let mut expected = ANSWERS.lines();
    for (number, line) in (1..).zip(CASES.lines()) {
        let text = if line.is_empty() || line.starts_with('#') {
            format!("{line}\n")
        } else {
            answer(line, &mut handed).unwrap_or_else(|| "unreadable\n".to_string())
        };
        for answered in text.lines() {
            assert_eq!(Some(answered), expected.next(), "line {number}: {line}");
        }
    }
    assert_eq!(expected.next(), None);
}

/// Numbers that look random: splitmix64.
struct Random(u64);

impl Random {
    fn below(&mut self, end: u64) -> u64 {
        self.0 = self.0.wrapping_add(0x9E37_79B9_7F4A_7C15);
        let mut bits = self.0;
        bits = (bits ^ bits >> 30).wrapping_mul(0xBF58_476D_1CE4_E5B9);
        bits = (bits ^ bits >> 27).wrapping_mul(0x94D0_49BB_1331_11EB);
        (bits ^ bits >> 31) % end
    }

    /// A layer that names some of those below it.
    fn entry(&mut self, layers: u64) -> Entry {
        let layer_index = self.below(layers) as u8;
        let names = self.below(5);
        let lower: Vec<u8> = (0..layer_index)
            .filter(|_| self.below(u64::from(layer_index)) < names)
            .collect();
        Entry {
            stream_type: 0x28,
            pid: self.below(4 * layers) as u16,
            record: Some(Record::Extension(Extension {
                dimension_bits: 1,
                layer_index,
                temporal_id: 0,
                nuh_layer_id: layer_index,
                tref_present: false,
                channel: 0,
                embedded: Embedded::new(&lower).unwrap(),
            })),
        }
    }
}

/// After each change of long sequences what is kept is what is worked out afresh, and the answers are those of the layers' closures; and what
/// was added and then removed leaves the set as it was.
#[test]
fn sequences() {
    for seed in 0..8 {
        let mut random = Random(seed);
        let layers = [4, 8, 20, 64][seed as usize % 4];
        let mut set = LayerSet::new();
        let mut kept = KeptSet::of(&[]);
        for _ in 0..120 {
            if random.below(5) < 3 {
                let entry = random.entry(layers);
                let before = set.clone();
                let added = set.add(&entry);
                assert_eq!(added, kept.add(&entry));
                if added.is_ok() {
                    let mut again = set.clone();
                    let index = u64::from(entry.layer_index().unwrap());
                    assert_eq!(again.remove(index), Ok(()));
                    assert_eq!(again, before);
                } else {
                    assert_eq!(set, before);
                }
            } else {
                let index = random.below(layers + 1);
                assert_eq!(set.remove(index), kept.remove(index));
            }
            let entries: Vec<Entry> = set.iter().map(|(_, layer)| layer.entry).collect();
            let fresh = plain::layers_of(&entries);
            assert_eq!(set, LayerSet::of(&entries));
            for index in 0..66 {
                let closure = plain::closure(&fresh, index);
                assert_eq!(set.closure(index), closure);
                assert_eq!(kept.closure(index), closure);
            }
            let of_fresh = KeptSet::of(&entries);
            for index in 0..64 {
                let layer = set.layer(index as u64).copied();
                assert_eq!(kept.layer(index), layer);
                assert_eq!(of_fresh.layer(index), layer);
            }
        }
    }
}
