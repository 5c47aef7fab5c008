//! What is measured of operation points: a short program and a long one, read, and a descriptor written.

use crate::measures::{answer, hide, repeat, Measure};
use thoquenry_sys as raw;

/// The layers that the points of the sample refer to.
const LOOP: &[u8] = include_bytes!("../../samples/mv-hevc.bin");

/// The sample's descriptors, so many times.
fn program(times: usize) -> Vec<u8> {
    include_bytes!("../../samples/points/views.bin").repeat(times)
}

/// Lists that hold the points of any program.
struct Lists {
    descriptors: Vec<u32>,
    profiles: Vec<u8>,
    points: Vec<u32>,
    references: Vec<u8>,
    layers: Vec<u8>,
    streams: Vec<u8>,
    summary: Vec<u32>,
}

impl Lists {
    fn new() -> Lists {
        Lists {
            descriptors: vec![0; 402],
            profiles: vec![0; 1_008],
            points: vec![0; 3_024],
            references: vec![0; 1_008],
            layers: vec![0; 1_008],
            streams: vec![0; 12_864],
            summary: vec![0; 6],
        }
    }

    fn read(&mut self, program: &[u8], bytes: &[u8]) -> u64 {
        // SAFETY: the slices' own pointers and lengths, here and below.
        unsafe {
            raw::thq_read_points(
                program.as_ptr(),
                program.len(),
                bytes.as_ptr(),
                bytes.len(),
                self.descriptors.as_mut_ptr(),
                self.descriptors.len(),
                self.profiles.as_mut_ptr(),
                self.profiles.len(),
                self.points.as_mut_ptr(),
                self.points.len(),
                self.references.as_mut_ptr(),
                self.references.len(),
                self.layers.as_mut_ptr(),
                self.layers.len(),
                self.streams.as_mut_ptr(),
                self.streams.len(),
                self.summary.as_mut_ptr(),
                self.summary.len(),
            )
        }
    }
}

fn read_points(name: &str, program: Vec<u8>) -> Measure {
    let given = program.clone();
    let mut lists = Lists::new();
    let library = move |calls| repeat(calls, || lists.read(hide(&given[..]), hide(LOOP)));
    let given = program.clone();
    let plain = move |calls| {
        repeat(calls, || {
            let read = hide(plain::read_points(hide(&given[..]), hide(LOOP)));
            answer(read.map(|points| points.streams.len()))
        })
    };
    Measure {
        name: format!("read operation points, {name}"),
        bytes: Some(program.len()),
        library: Box::new(library),
        plain: Box::new(plain),
        search: None,
    }
}

/// The first operation point descriptor of the sample, behind a registration descriptor of six bytes.
fn write_points() -> Measure {
    let sample = program(1);
    let bytes = &sample[6..8 + usize::from(sample[7])];
    let mut read = plain::read_points(bytes, LOOP).expect("a sound program");
    let descriptor = read.descriptors.remove(0);
    let mut given = Lists::new();
    given.read(bytes, LOOP);
    let places = |of: usize| given.summary[of] as usize;
    let (profiles, points) = (places(1) * 12, places(2) * raw::THQ_POINT_NUMBERS);
    let (references, layers) = (places(3), places(4));
    let mut out = vec![0; 257];
    let library = move |calls| {
        repeat(calls, || {
            let given = hide(&given);
            // SAFETY: as above; the lists are as long as the reading filled them.
            unsafe {
                raw::thq_write_points(
                    given.profiles.as_ptr(),
                    profiles,
                    given.points.as_ptr(),
                    points,
                    given.references.as_ptr(),
                    references,
                    given.layers.as_ptr(),
                    layers,
                    out.as_mut_ptr(),
                    out.len(),
                )
            }
        })
    };
    let mut out = vec![0; 257];
    let plain = move |calls| {
        repeat(calls, || {
            answer(plain::write_points(hide(&descriptor), hide(&mut out[..])))
        })
    };
    Measure {
        name: format!("write an operation point descriptor, {} bytes", bytes.len()),
        bytes: Some(bytes.len()),
        library: Box::new(library),
        plain: Box::new(plain),
        search: None,
    }
}

/// The measures of operation points.
pub fn measures() -> Vec<Measure> {
    vec![
        read_points("122 bytes, 5 points", program(1)),
        read_points("976 bytes, 40 points", program(8)),
        write_points(),
    ]
}
