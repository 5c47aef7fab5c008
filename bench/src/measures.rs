//! What is measured: for each call and input, the same work done by the library and by the plain implementation.

use crate::{inputs, packets, points, stereo};
use plain::{Columns, Layers, Reading, Refusal, Times, Units};
use std::rc::Rc;
use thoquenry_sys as raw;

/// Makes so many calls, and answers what the last of them answered.
pub type Side = Box<dyn FnMut(usize) -> u64>;

/// One line of the table.
pub struct Measure {
    pub name: String,
    /// The bytes that one call reads, where that is of interest.
    pub bytes: Option<usize>,
    pub library: Side,
    pub plain: Side,
    /// The plain search from the start of the table for every row; of layer sets, everything worked out afresh.
    pub search: Option<Side>,
}

impl Measure {
    /// The library, plain and perhaps the search.
    pub fn sides(&mut self) -> Vec<&mut Side> {
        let mut sides = vec![&mut self.library, &mut self.plain];
        sides.extend(&mut self.search);
        sides
    }

    /// How many sides there are.
    pub fn count(&self) -> usize {
        2 + usize::from(self.search.is_some())
    }
}

/// Hides a value from the optimiser, so that no call is left out and none is made for all.
pub fn hide<T>(value: T) -> T {
    // SAFETY: the value is read once and the original forgotten.
    unsafe {
        let hidden = std::ptr::read_volatile(&value);
        std::mem::forget(value);
        hidden
    }
}

pub fn repeat(calls: usize, mut call: impl FnMut() -> u64) -> u64 {
    let mut answer = 0;
    for _ in 0..calls {
        answer = hide(call());
    }
    answer
}

/// The answer as the library gives it.
pub fn answer(result: Result<usize, Refusal>) -> u64 {
    match result {
        Ok(count) => count as u64 * 256,
        Err(Refusal { number, place }) => u64::from(number) + place as u64 * 256,
    }
}

fn read_loop(name: &str, bytes: Vec<u8>) -> Measure {
    let bytes: Rc<[u8]> = bytes.into();
    let mut room = vec![0_u16; 201 * raw::THQ_ENTRY_NUMBERS];
    let given = bytes.clone();
    let library = move |calls| {
        repeat(calls, || {
            let given = hide(&given[..]);
            // SAFETY: the slices' own pointers and lengths, here and in all that follow.
            unsafe {
                raw::thq_read_loop(
                    raw::THQ_2015,
                    given.as_ptr(),
                    given.len(),
                    room.as_mut_ptr(),
                    room.len(),
                )
            }
        })
    };
    let given = bytes.clone();
    let mut entries = Vec::with_capacity(201);
    let plain = move |calls| {
        repeat(calls, || {
            entries.clear();
            let entries = hide(&mut entries);
            let read = plain::read_loop_with(hide(Reading::Of2015), hide(&given[..]), |entry| {
                entries.push(*entry)
            });
            answer(read.map(|()| entries.len()))
        })
    };
    Measure {
        name: format!("read a loop, {name}"),
        bytes: Some(bytes.len()),
        library: Box::new(library),
        plain: Box::new(plain),
        search: None,
    }
}

fn write_loop(name: &str, bytes: Vec<u8>) -> Measure {
    let entries = plain::read_loop(Reading::Of2015, &bytes).expect("a sound loop");
    let mut numbers = vec![0_u16; entries.len() * raw::THQ_ENTRY_NUMBERS];
    // SAFETY: as above.
    let read = unsafe {
        raw::thq_read_loop(
            raw::THQ_2015,
            bytes.as_ptr(),
            bytes.len(),
            numbers.as_mut_ptr(),
            numbers.len(),
        )
    };
    assert_eq!(read, entries.len() as u64 * 256);
    let mut out = vec![0; 1008];
    let library = move |calls| {
        repeat(calls, || {
            let given = hide(&numbers[..]);
            // SAFETY: as above.
            unsafe { raw::thq_write_loop(given.as_ptr(), given.len(), out.as_mut_ptr(), out.len()) }
        })
    };
    let mut out = vec![0; 1008];
    let plain = move |calls| {
        repeat(calls, || {
            answer(plain::write_loop(hide(&entries[..]), hide(&mut out[..])))
        })
    };
    Measure {
        name: format!("write a loop, {name}"),
        bytes: Some(bytes.len()),
        library: Box::new(library),
        plain: Box::new(plain),
        search: None,
    }
}

fn closure(name: &str, bytes: Vec<u8>, target: u64) -> Measure {
    let bytes: Rc<[u8]> = bytes.into();
    let given = bytes.clone();
    let mut set = [0];
    let library = move |calls| {
        repeat(calls, || {
            let given = hide(&given[..]);
            // SAFETY: as above.
            unsafe {
                raw::thq_closure(
                    raw::THQ_2015,
                    given.as_ptr(),
                    given.len(),
                    target,
                    set.as_mut_ptr(),
                    set.len(),
                )
            }
        })
    };
    let plain = move |calls| {
        repeat(calls, || {
            let closure =
                plain::closure_of_loop(hide(Reading::Of2015), hide(&bytes[..]), hide(target));
            answer(closure.map(|set| hide(set).count_ones() as usize))
        })
    };
    Measure {
        name: format!("closure, {name}"),
        bytes: None,
        library: Box::new(library),
        plain: Box::new(plain),
        search: None,
    }
}

/// The times of a header, and its bytes.
fn header(times: Times, with_tref: bool) -> Vec<u8> {
    let mut bytes = vec![0; 27];
    let length = plain::write_times(times, with_tref, &mut bytes).expect("a sound header");
    bytes.truncate(length);
    bytes
}

fn read_times(name: &str, times: Times, with_tref: bool) -> Measure {
    let bytes: Rc<[u8]> = header(times, with_tref).into();
    let given = bytes.clone();
    let mut room = [0; 5];
    let library = move |calls| {
        repeat(calls, || {
            let given = hide(&given[..]);
            // SAFETY: as above.
            unsafe {
                raw::thq_read_times(given.as_ptr(), given.len(), room.as_mut_ptr(), room.len())
            }
        })
    };
    let plain = move |calls| {
        repeat(calls, || {
            answer(plain::read_times(hide(&bytes[..])).map(|header| {
                hide(header);
                5
            }))
        })
    };
    Measure {
        name: format!("read a PES header, {name}"),
        bytes: None,
        library: Box::new(library),
        plain: Box::new(plain),
        search: None,
    }
}

fn write_times(name: &str, times: Times, with_tref: bool) -> Measure {
    let mut out = [0; 32];
    let library = move |calls| {
        repeat(calls, || {
            let given = hide(times);
            // SAFETY: as above.
            unsafe {
                raw::thq_write_times(
                    given.pts,
                    given.decoding,
                    given.matching,
                    hide(u64::from(with_tref)),
                    out.as_mut_ptr(),
                    out.len(),
                )
            }
        })
    };
    let mut out = [0; 32];
    let plain = move |calls| {
        repeat(calls, || {
            answer(plain::write_times(
                hide(times),
                hide(with_tref),
                hide(&mut out[..]),
            ))
        })
    };
    Measure {
        name: format!("write a PES header, {name}"),
        bytes: None,
        library: Box::new(library),
        plain: Box::new(plain),
        search: None,
    }
}

/// The room for a summary that a call asks for.
const SUMMARY: usize = 2;

/// The lists that joining fills, and the room for its summary.
struct Lists {
    numbers: Vec<u64>,
    lags: Vec<i64>,
    sizes: Vec<u64>,
    summary: Vec<u64>,
}

impl Lists {
    fn new(rows: usize, summary: usize) -> Lists {
        Lists {
            numbers: vec![0; rows],
            lags: vec![0; rows],
            sizes: vec![0; rows],
            summary: vec![0; summary],
        }
    }

    /// Lent to plain.
    fn room(&mut self) -> plain::Lists<'_> {
        plain::Lists {
            numbers: &mut self.numbers,
            lags: &mut self.lags,
            sizes: &mut self.sizes,
        }
    }
}

/// What an accepted table counts.
fn rows_of(units: Result<Units, Refusal>) -> u64 {
    answer(units.map(|units| hide(units).rows))
}

/// Joins a table over layers by the library, by plain and by the search.
fn join(name: String, layers: Layers, target: u64, rows: Columns, summary: usize) -> Measure {
    let rows = Rc::new(rows);
    let count = rows.indices.len();
    let given = rows.clone();
    let mut lists = Lists::new(count, summary);
    let library = move |calls| {
        repeat(calls, || {
            let (layers, rows) = hide((&layers, &*given));
            // SAFETY: as above.
            unsafe {
                raw::thq_join(
                    layers.present,
                    layers.embedded.as_ptr(),
                    layers.embedded.len(),
                    target,
                    rows.indices.as_ptr(),
                    rows.indices.len(),
                    rows.decodings.as_ptr(),
                    rows.decodings.len(),
                    rows.matches.as_ptr(),
                    rows.matches.len(),
                    lists.numbers.as_mut_ptr(),
                    lists.numbers.len(),
                    lists.lags.as_mut_ptr(),
                    lists.lags.len(),
                    lists.sizes.as_mut_ptr(),
                    lists.sizes.len(),
                    lists.summary.as_mut_ptr(),
                    lists.summary.len(),
                )
            }
        })
    };
    let given = rows.clone();
    let mut lists = Lists::new(count, 0);
    let plain = move |calls| {
        repeat(calls, || {
            let (layers, rows) = hide((&layers, given.rows()));
            rows_of(plain::join(layers, hide(target), rows, hide(lists.room())))
        })
    };
    let mut lists = Lists::new(count, 0);
    let search = move |calls| {
        repeat(calls, || {
            let (layers, rows) = hide((&layers, rows.rows()));
            let room = hide(lists.room());
            rows_of(plain::join_by_search(layers, hide(target), rows, room))
        })
    };
    Measure {
        name,
        bytes: None,
        library: Box::new(library),
        plain: Box::new(plain),
        search: Some(Box::new(search)),
    }
}

/// A full table of whole units, each layer resting on so many below it.
fn join_units(count: usize, names: usize, summary: usize) -> Measure {
    let below = match names {
        1 => "the one below it".to_string(),
        names => format!("the {names} below it"),
    };
    join(
        format!("join 512 rows, {count} layers, each on {below}"),
        inputs::layers(count, names),
        count as u64 - 1,
        inputs::rows(count, names),
        summary,
    )
}

/// A full table in which each layer has a row at every second row of the one below it.
fn join_half_rate(count: usize) -> Measure {
    join(
        format!("join 512 rows, {count} layers, each at half the rate of the one below it"),
        inputs::layers(count, 1),
        count as u64 - 1,
        inputs::half_rate(count, 512),
        SUMMARY,
    )
}

/// A table of any length, of a base and an enhancement at every second picture.
fn join_long(count: usize) -> Measure {
    let layers = inputs::layers(2, 1);
    let rows = Rc::new(inputs::half_rate(2, count));
    let given = rows.clone();
    let mut keys = vec![0_u64; count];
    let mut work = vec![vec![0_usize; count]; 4];
    let mut marks = vec![vec![false; count]; 2];
    let mut lists = Lists::new(count, SUMMARY);
    let library = move |calls| {
        repeat(calls, || {
            let (layers, rows) = hide((&layers, &*given));
            // SAFETY: as above; the work spaces are parts of their own.
            unsafe {
                raw::thq_join_long(
                    layers.present,
                    layers.embedded.as_ptr(),
                    layers.embedded.len(),
                    1,
                    rows.indices.as_ptr(),
                    rows.indices.len(),
                    rows.decodings.as_ptr(),
                    rows.decodings.len(),
                    rows.matches.as_ptr(),
                    rows.matches.len(),
                    work[0].as_mut_ptr(),
                    count,
                    keys.as_mut_ptr(),
                    count,
                    work[1].as_mut_ptr(),
                    count,
                    work[2].as_mut_ptr(),
                    count,
                    work[3].as_mut_ptr(),
                    count,
                    marks[0].as_mut_ptr(),
                    count,
                    marks[1].as_mut_ptr(),
                    count,
                    lists.numbers.as_mut_ptr(),
                    lists.numbers.len(),
                    lists.lags.as_mut_ptr(),
                    lists.lags.len(),
                    lists.sizes.as_mut_ptr(),
                    lists.sizes.len(),
                    lists.summary.as_mut_ptr(),
                    lists.summary.len(),
                )
            }
        })
    };
    let mut lists = Lists::new(count, 0);
    let plain = move |calls| {
        repeat(calls, || {
            let (layers, rows) = hide((&layers, rows.rows()));
            let room = hide(lists.room());
            rows_of(plain::join_long(count, layers, hide(1), rows, room))
        })
    };
    Measure {
        name: format!("join {count} rows, 2 layers, the upper at half the rate"),
        bytes: None,
        library: Box::new(library),
        plain: Box::new(plain),
        search: None,
    }
}

fn import(count: usize, summary: usize) -> Measure {
    let entries = &inputs::hierarchies()[..count];
    let bytes: Rc<[u8]> = inputs::loop_of(entries).into();
    let target = count as u64 - 1;
    let rows = Rc::new(inputs::rows(count, 1));
    let (given, given_rows) = (bytes.clone(), rows.clone());
    let mut lists = Lists::new(512, summary);
    let library = move |calls| {
        repeat(calls, || {
            let (bytes, rows) = hide((&given[..], &*given_rows));
            // SAFETY: as above.
            unsafe {
                raw::thq_import(
                    raw::THQ_2015,
                    bytes.as_ptr(),
                    bytes.len(),
                    target,
                    rows.indices.as_ptr(),
                    rows.indices.len(),
                    rows.decodings.as_ptr(),
                    rows.decodings.len(),
                    rows.matches.as_ptr(),
                    rows.matches.len(),
                    lists.numbers.as_mut_ptr(),
                    lists.numbers.len(),
                    lists.lags.as_mut_ptr(),
                    lists.lags.len(),
                    lists.sizes.as_mut_ptr(),
                    lists.sizes.len(),
                    lists.summary.as_mut_ptr(),
                    lists.summary.len(),
                )
            }
        })
    };
    let mut lists = Lists::new(512, 0);
    let plain = move |calls| {
        repeat(calls, || {
            let reading = hide(Reading::Of2015);
            let (bytes, rows) = hide((&bytes[..], rows.rows()));
            let room = hide(lists.room());
            rows_of(plain::import(reading, bytes, hide(target), rows, room))
        })
    };
    Measure {
        name: format!("import, {count} layers and 512 rows"),
        bytes: None,
        library: Box::new(library),
        plain: Box::new(plain),
        search: None,
    }
}

/// Everything that is measured.
pub fn all() -> Vec<Measure> {
    let hierarchies = inputs::longest_loop_of(&inputs::hierarchies());
    let extensions = inputs::longest_loop_of(&inputs::extensions());
    let others = inputs::longest_loop_of(&inputs::others());
    let alone = Times {
        pts: 9000,
        decoding: 9000,
        matching: 9000,
    };
    let all_three = Times {
        pts: 900,
        decoding: 600,
        matching: 300,
    };
    let mut measures = vec![
        read_loop("loop A (37 bytes, 3 layers)", inputs::LOOP_A.to_vec()),
        read_loop("1,008 bytes, 64 hierarchy descriptors", hierarchies.clone()),
        read_loop("1,008 bytes, 46 extensions", extensions.clone()),
        read_loop("1,008 bytes, 201 entries of other types", others),
        write_loop("loop A", inputs::LOOP_A.to_vec()),
        write_loop(
            "64 hierarchy descriptors",
            inputs::loop_of(&inputs::hierarchies()),
        ),
        write_loop("46 extensions", inputs::loop_of(&inputs::extensions())),
        closure("loop A, target 2", inputs::LOOP_A.to_vec(), 2),
        closure("chain of 64 layers, target 63", hierarchies, 63),
        closure("46 extensions, target 45", extensions, 45),
        read_times("PTS alone", alone, false),
        read_times("PTS, DTS and TREF", all_three, true),
        write_times("PTS alone", alone, false),
        write_times("PTS, DTS and TREF", all_three, true),
        join_units(2, 1, SUMMARY),
        join_units(8, 1, SUMMARY),
        join_units(32, 1, SUMMARY),
        join_units(32, 2, SUMMARY),
        join_half_rate(2),
        join_half_rate(4),
        join_long(1_000),
        join_long(10_000),
        join_long(100_000),
        import(32, SUMMARY),
    ];
    measures.extend(stereo::measures());
    measures.extend(points::measures());
    measures.extend(packets::measures());
    measures.extend(crate::sets::all());
    measures
}

/// What is measured for its stack alone: calls that the library refuses after all its work, for want of room for the summary, which plain does
/// not ask for.
pub fn without_summary() -> Vec<Measure> {
    let mut measures = vec![join_units(32, 1, 0), import(32, 0)];
    for measure in &mut measures {
        measure.name += ", no room for the summary";
    }
    measures
}
