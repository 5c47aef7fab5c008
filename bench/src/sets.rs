//! Layer sets that change, at several sizes: the library, which looks whether its buffers hold a set before each call; plain at its best, which keeps a
//! set of its own; and working everything out afresh.

use crate::inputs;
use crate::measures::{answer, hide, Measure, Side};
use plain::{Entry, KeptSet, LayerSet, Reading};
use std::cell::RefCell;
use std::rc::Rc;
use thoquenry_sys as raw;

/// How the names of these measures begin.
pub const NAME: &str = "layer set: ";

/// What is measured of a set.
#[derive(Clone, Copy)]
enum Change {
    Add,
    Remove,
    Target,
}

/// Makes so many calls, each to a set as it was before; without any it is put back all the same, so that putting back is not counted.
fn each(calls: usize, mut put_back: impl FnMut(), mut call: impl FnMut() -> u64) -> u64 {
    put_back();
    let mut answer = 0;
    for number in 0..calls {
        if number > 0 {
            put_back();
        }
        answer = hide(call());
    }
    answer
}

/// The numbers of an entry, by way of the bytes of a loop that has it alone.
fn numbers_of(entry: &Entry) -> Vec<u16> {
    let mut bytes = [0; 100];
    let length = plain::write_loop(&[*entry], &mut bytes).expect("a sound entry");
    let mut numbers = vec![0; raw::THQ_ENTRY_NUMBERS];
    // SAFETY: the slices' own pointers and lengths, here and in all that follow.
    let read = unsafe {
        raw::thq_read_loop(
            raw::THQ_2015,
            bytes.as_ptr(),
            length,
            numbers.as_mut_ptr(),
            numbers.len(),
        )
    };
    assert_eq!(read, 256);
    numbers
}

/// The buffers of a set of these layers.
#[derive(Clone)]
struct Buffers {
    layers: Vec<u16>,
    stored: Vec<u64>,
}

impl Buffers {
    fn of(entries: &[Entry]) -> Buffers {
        let mut set = Buffers {
            layers: vec![0; raw::THQ_SET_LAYERS],
            stored: vec![0; raw::THQ_SET_STORED],
        };
        for entry in entries {
            let answer = set.add(&numbers_of(entry));
            assert_eq!(answer % 256, 0);
        }
        set
    }

    fn add(&mut self, entry: &[u16]) -> u64 {
        // SAFETY: as above.
        unsafe {
            raw::thq_set_add(
                self.layers.as_mut_ptr(),
                self.layers.len(),
                self.stored.as_mut_ptr(),
                self.stored.len(),
                entry.as_ptr(),
                entry.len(),
            )
        }
    }

    fn remove(&mut self, index: u64) -> u64 {
        // SAFETY: as above.
        unsafe {
            raw::thq_set_remove(
                self.layers.as_mut_ptr(),
                self.layers.len(),
                self.stored.as_mut_ptr(),
                self.stored.len(),
                index,
            )
        }
    }

    fn closure(&self, target: u64, closure: &mut [u64]) -> u64 {
        // SAFETY: as above.
        unsafe {
            raw::thq_set_closure(
                self.layers.as_ptr(),
                self.layers.len(),
                self.stored.as_ptr(),
                self.stored.len(),
                target,
                closure.as_mut_ptr(),
                closure.len(),
            )
        }
    }

    fn put_back(&mut self, other: &Buffers) {
        self.layers.copy_from_slice(&other.layers);
        self.stored.copy_from_slice(&other.stored);
    }
}

/// A change in the middle of a chain of so many layers, or its top as the target.
fn changed(change: Change, chain: &[Entry]) -> Measure {
    let middle = chain.len() / 2;
    let entry = chain[middle];
    let mut without = chain.to_vec();
    without.remove(middle);
    let (before, name) = match change {
        Change::Add => (without, "add the middle layer of a chain of"),
        Change::Remove => (chain.to_vec(), "remove the middle layer of a chain of"),
        Change::Target => (chain.to_vec(), "target, the top layer of a chain of"),
    };
    let top = chain.len() as u64 - 1;
    let index = middle as u64;
    let left = before.len() as u64;

    let numbers = numbers_of(&entry);
    let start = Buffers::of(&before);
    let set = start.clone();
    let mut closure = [0];
    let library: Side = match change {
        // A target changes nothing, and there is nothing to put back.
        Change::Target => Box::new(move |calls| {
            each(calls, || (), || hide(&set).closure(hide(top), &mut closure))
        }),
        _ => {
            let set = Rc::new(RefCell::new(set));
            let again = set.clone();
            Box::new(move |calls| {
                each(
                    calls,
                    || again.borrow_mut().put_back(&start),
                    || match change {
                        Change::Add => set.borrow_mut().add(hide(&numbers[..])),
                        _ => set.borrow_mut().remove(hide(index)),
                    },
                )
            })
        }
    };

    let start = KeptSet::of(&before);
    let kept = Rc::new(RefCell::new(start.clone()));
    let again = kept.clone();
    let plain = move |calls| {
        each(
            calls,
            || match change {
                Change::Target => (),
                _ => again.borrow_mut().clone_from(&start),
            },
            || {
                let mut kept = kept.borrow_mut();
                answer(match change {
                    Change::Add => kept.add(hide(&entry)).map(|()| left as usize + 1),
                    Change::Remove => kept.remove(hide(index)).map(|()| left as usize - 1),
                    Change::Target => kept.closure(hide(top)).map(|set| set.count_ones() as usize),
                })
            },
        )
    };

    let layers = plain::layers_of(&before);
    let start = LayerSet::of(&before);
    let fresh = Rc::new(RefCell::new(start.clone()));
    let again = fresh.clone();
    let afresh = move |calls| {
        each(
            calls,
            || match change {
                Change::Target => (),
                _ => again.borrow_mut().clone_from(&start),
            },
            || {
                let mut fresh = fresh.borrow_mut();
                answer(match change {
                    Change::Add => fresh.add(hide(&entry)).map(|()| left as usize + 1),
                    Change::Remove => fresh.remove(hide(index)).map(|()| left as usize - 1),
                    Change::Target => {
                        let closure = plain::closure(hide(&layers), hide(top));
                        closure.map(|set| set.count_ones() as usize)
                    }
                })
            },
        )
    };
    Measure {
        name: format!("{NAME}{name} {}", chain.len()),
        bytes: None,
        library,
        plain: Box::new(plain),
        search: Some(Box::new(afresh)),
    }
}

/// The set of a loop.
fn read(name: &str, bytes: Vec<u8>) -> Measure {
    let bytes: Rc<[u8]> = bytes.into();
    let given = bytes.clone();
    let mut set = Buffers::of(&[]);
    let library = move |calls| {
        each(
            calls,
            || (),
            || {
                let given = hide(&given[..]);
                // SAFETY: as above.
                unsafe {
                    raw::thq_set_read(
                        raw::THQ_2015,
                        given.as_ptr(),
                        given.len(),
                        set.layers.as_mut_ptr(),
                        set.layers.len(),
                        set.stored.as_mut_ptr(),
                        set.stored.len(),
                    )
                }
            },
        )
    };
    let given = bytes.clone();
    let mut entries = Vec::with_capacity(201);
    let mut kept = KeptSet::of(&[]);
    let plain = move |calls| {
        each(
            calls,
            || (),
            || {
                entries.clear();
                let entries = hide(&mut entries);
                let take = |entry: &Entry| entries.push(*entry);
                let read = plain::read_loop_with(hide(Reading::Of2015), hide(&given[..]), take);
                kept = KeptSet::of(entries);
                answer(read.map(|()| hide(&kept).present().count_ones() as usize))
            },
        )
    };
    let afresh = move |calls| {
        each(
            calls,
            || (),
            || {
                let set = LayerSet::read(hide(Reading::Of2015), hide(&bytes[..]));
                answer(set.map(|set| hide(set).present().count_ones() as usize))
            },
        )
    };
    Measure {
        name: format!("{NAME}{name}"),
        bytes: None,
        library: Box::new(library),
        plain: Box::new(plain),
        search: Some(Box::new(afresh)),
    }
}

/// Everything that is measured of sets.
pub fn all() -> Vec<Measure> {
    let chain = &inputs::hierarchies()[..64];
    let mut measures = vec![
        read("read, loop A", inputs::LOOP_A.to_vec()),
        read("read, a chain of 64 layers", inputs::loop_of(chain)),
    ];
    for change in [Change::Add, Change::Remove, Change::Target] {
        for count in [2, 8, 32, 64] {
            measures.push(changed(change, &chain[..count]));
        }
    }
    measures
}
