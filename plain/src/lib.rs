//! Document 01 in plain Rust: loops of elementary streams, closures of layers, times of PES headers, rows joined to units, and rows straight from transport packets.
//!
//! Written from the document and from nothing else, unproved, and used only in tests and measurements: the proved library is compared
//! with it on generated inputs and timed against it. It is not part of what is shipped.

#![forbid(unsafe_code)]
#![warn(missing_docs)]

mod closure;
mod descriptors;
mod entries;
mod join;
mod layer_sets;
mod loops;
mod packets;
mod point_lists;
mod points;
mod stereo;
mod times;

pub use closure::{closure, closure_of_loop, layers_of, layers_of_loop, Layers};
pub use entries::{Embedded, Entry, Extension, Hierarchy, Record};
pub use join::{import, join, join_by_search, join_long, Columns, Lists, Rows, Units, MOST_ROWS};
pub use layer_sets::{KeptSet, Layer, LayerSet};
pub use loops::{read_loop, read_loop_with, write_loop, LONGEST_LOOP};
pub use packets::{
    import_packets, recording_rows, scan_recording, Recording, RecordingColumns, RecordingRow,
    PACKET,
};
pub use point_lists::{descriptor_of_lists, PointLists, POINT_NUMBERS};
pub use points::{
    read_points, write_points, FrameRate, LayerFlags, Point, PointDescriptor, Profile,
    ProgramPoints, Reference, StreamList,
};
pub use stereo::{read_stereo, write_stereo, MvcExtension, StereoSet};
pub use times::{distance, lag, read_times, write_times, Header, Times};

/// Which edition of the standard a loop is read by.
#[derive(Clone, Copy, Debug, PartialEq, Eq)]
pub enum Reading {
    /// AVC, SVC and MVC streams; hierarchy descriptors without no_view_scalability_flag.
    Of2009,
    /// HEVC streams and the HEVC hierarchy extension as well.
    Of2015,
}

/// A refusal: its number in document 01's table, and its place.
///
/// The order is the document's: "Several at once: the lowest number that applies, at the earliest place."
#[derive(Clone, Copy, Debug, PartialEq, Eq, PartialOrd, Ord)]
pub struct Refusal {
    /// The number in the table.
    pub number: u8,
    /// The entry, row or missing layer index; 0 where no place is named.
    pub place: usize,
}

impl Refusal {
    /// A refusal with a place.
    pub fn at(number: u8, place: usize) -> Refusal {
        Refusal { number, place }
    }

    /// A refusal whose place isn't named.
    pub fn of(number: u8) -> Refusal {
        Refusal { number, place: 0 }
    }
}

/// The faults met so far, of which only the lowest counts.
#[derive(Clone, Copy, Default)]
pub(crate) struct Faults {
    lowest: Option<Refusal>,
}

impl Faults {
    #[cold]
    pub(crate) fn add(&mut self, number: u8, place: usize) {
        let fault = Refusal::at(number, place);
        self.lowest = Some(self.lowest.map_or(fault, |lowest| lowest.min(fault)));
    }

    pub(crate) fn none(self) -> Result<(), Refusal> {
        self.lowest.map_or(Ok(()), Err)
    }
}
