//! What is measured of stereo sets: a short loop and a long one, read and written.

use crate::measures::{answer, hide, repeat, Measure};
use plain::{Entry, MvcExtension, Reading, LONGEST_LOOP};
use thoquenry_sys as raw;

/// The sample of a written set, with so many entries more that are no layers.
fn set(others: u16) -> Vec<u8> {
    let mut bytes = include_bytes!("../../samples/stereo.bin").to_vec();
    for pid in 0x400..0x400 + others {
        let [high, low] = (0xE000 | pid).to_be_bytes();
        bytes.extend([0x0F, high, low, 0xF0, 0x00]);
    }
    bytes
}

/// What the library is handed to write a loop: the numbers of its entries and of the two descriptors.
fn numbers(bytes: &[u8], count: usize) -> (Vec<u16>, Vec<u16>) {
    let mut entries = vec![0; count * raw::THQ_ENTRY_NUMBERS];
    let mut views = vec![0; 2 * raw::THQ_ENTRY_NUMBERS];
    let mut extensions = vec![0; 2 * raw::THQ_MVC_EXTENSION_NUMBERS];
    // SAFETY: the slices' own pointers and lengths, here and in all that follow.
    unsafe {
        raw::thq_read_loop(
            raw::THQ_2015,
            bytes.as_ptr(),
            bytes.len(),
            entries.as_mut_ptr(),
            entries.len(),
        );
        raw::thq_read_stereo(
            bytes.as_ptr(),
            bytes.len(),
            views.as_mut_ptr(),
            views.len(),
            extensions.as_mut_ptr(),
            extensions.len(),
        );
    }
    (entries, extensions)
}

fn read_stereo(name: &str, bytes: Vec<u8>) -> Measure {
    let given = bytes.clone();
    let mut views = vec![0_u16; 2 * raw::THQ_ENTRY_NUMBERS];
    let mut extensions = vec![0_u16; 2 * raw::THQ_MVC_EXTENSION_NUMBERS];
    let library = move |calls| {
        repeat(calls, || {
            let given = hide(&given[..]);
            // SAFETY: as above.
            unsafe {
                raw::thq_read_stereo(
                    given.as_ptr(),
                    given.len(),
                    views.as_mut_ptr(),
                    views.len(),
                    extensions.as_mut_ptr(),
                    extensions.len(),
                )
            }
        })
    };
    let given = bytes.clone();
    let plain = move |calls| {
        repeat(calls, || {
            answer(hide(plain::read_stereo(hide(&given[..]))).map(|_| 2))
        })
    };
    Measure {
        name: format!("read a stereo set, {name}"),
        bytes: Some(bytes.len()),
        library: Box::new(library),
        plain: Box::new(plain),
        search: None,
    }
}

fn write_stereo(name: &str, bytes: Vec<u8>) -> Measure {
    let entries: Vec<Entry> = plain::read_loop(Reading::Of2015, &bytes).expect("a sound loop");
    let extensions: [MvcExtension; 2] = plain::read_stereo(&bytes).expect("a set").extensions;
    let (given, descriptors) = numbers(&bytes, entries.len());
    let mut out = vec![0; LONGEST_LOOP];
    let library = move |calls| {
        repeat(calls, || {
            let given = hide(&given[..]);
            // SAFETY: as above.
            unsafe {
                raw::thq_write_stereo(
                    given.as_ptr(),
                    given.len(),
                    descriptors.as_ptr(),
                    descriptors.len(),
                    out.as_mut_ptr(),
                    out.len(),
                )
            }
        })
    };
    let mut out = vec![0; LONGEST_LOOP];
    let plain = move |calls| {
        repeat(calls, || {
            let written = plain::write_stereo(hide(&entries[..]), &extensions, hide(&mut out[..]));
            answer(written)
        })
    };
    Measure {
        name: format!("write a stereo set, {name}"),
        bytes: Some(bytes.len()),
        library: Box::new(library),
        plain: Box::new(plain),
        search: None,
    }
}

/// The measures of stereo sets.
pub fn measures() -> Vec<Measure> {
    let [short, long] = [("47 bytes", 0), ("1,007 bytes, 192 entries beside it", 192)];
    vec![
        read_stereo(short.0, set(short.1)),
        read_stereo(long.0, set(long.1)),
        write_stereo(short.0, set(short.1)),
        write_stereo(long.0, set(long.1)),
    ]
}
