//! The stereo set: two views, each with its MVC extension descriptor, and the numbers by which a descriptor crosses to the library.

use crate::entry::{Entry, TemporalId};
use crate::{accepted, Refusal, LOOP_BYTES};
use thoquenry_sys as raw;
use thoquenry_sys::{THQ_ENTRY_NUMBERS, THQ_MVC_EXTENSION_NUMBERS};

/// The MVC extension descriptor, tag 49.
#[derive(Clone, Copy, Debug, PartialEq, Eq, Hash)]
pub struct MvcExtension {
    /// average_bit_rate, in thousands of bits a second, of the stream put together up to this view; 0 where it is not told.
    pub average_bit_rate: u16,
    /// maximum_bitrate, likewise.
    pub maximum_bitrate: u16,
    /// view_order_index_min, ten bits.
    pub view_order_index_min: u16,
    /// view_order_index_max, ten bits.
    pub view_order_index_max: u16,
    /// temporal_id_start, kept and not judged.
    pub temporal_id_start: TemporalId,
    /// temporal_id_end, kept and not judged.
    pub temporal_id_end: TemporalId,
    /// no_sei_nal_unit_present
    pub no_sei_nal_unit_present: bool,
    /// no_prefix_nal_unit_present
    pub no_prefix_nal_unit_present: bool,
}

/// Two views: the base view, of type 0x1B and layer index 0, and the view of type 0x20 and layer index 1 that rests on it. What a loop says of each,
/// the base first, whichever stands first in the loop.
#[derive(Clone, Debug, PartialEq, Eq, Hash)]
pub struct StereoSet {
    /// Their entries.
    pub entries: [Entry; 2],
    /// Their MVC extension descriptors, whose ranges of view order index do not meet.
    pub extensions: [MvcExtension; 2],
}

impl MvcExtension {
    /// The descriptor as its numbers.
    fn to_numbers(self) -> [u16; THQ_MVC_EXTENSION_NUMBERS] {
        [
            self.average_bit_rate,
            self.maximum_bitrate,
            self.view_order_index_min,
            self.view_order_index_max,
            u16::from(self.temporal_id_start.0),
            u16::from(self.temporal_id_end.0),
            u16::from(self.no_sei_nal_unit_present),
            u16::from(self.no_prefix_nal_unit_present),
        ]
    }

    /// The descriptor of numbers that the library has written.
    fn of_numbers(numbers: &[u16]) -> MvcExtension {
        let temporal_id =
            |place: usize| TemporalId(u8::try_from(numbers[place]).expect("three bits"));
        MvcExtension {
            average_bit_rate: numbers[0],
            maximum_bitrate: numbers[1],
            view_order_index_min: numbers[2],
            view_order_index_max: numbers[3],
            temporal_id_start: temporal_id(4),
            temporal_id_end: temporal_id(5),
            no_sei_nal_unit_present: numbers[6] == 1,
            no_prefix_nal_unit_present: numbers[7] == 1,
        }
    }
}

/// Reads a stereo set from a loop's bytes, by the 2015 reading. Refusals: 1 to 9; then 44 where the layers of the loop are not these two, 45 where one of
/// the two has no MVC extension descriptor, several, or one of another length than 8, and 46 where their ranges of view order index meet or
/// one has a least above its greatest.
pub fn read_stereo(bytes: &[u8]) -> Result<StereoSet, Refusal> {
    let mut entries = [0; 2 * THQ_ENTRY_NUMBERS];
    let mut extensions = [0; 2 * THQ_MVC_EXTENSION_NUMBERS];
    // SAFETY: pointer and length of each buffer belong together; the last two are this call's own.
    let answer = unsafe {
        raw::thq_read_stereo(
            bytes.as_ptr(),
            bytes.len(),
            entries.as_mut_ptr(),
            entries.len(),
            extensions.as_mut_ptr(),
            extensions.len(),
        )
    };
    accepted(answer)?;
    let (base, second) = entries.split_at(THQ_ENTRY_NUMBERS);
    let (of_base, of_second) = extensions.split_at(THQ_MVC_EXTENSION_NUMBERS);
    Ok(StereoSet {
        entries: [base, second].map(Entry::of_numbers),
        extensions: [of_base, of_second].map(MvcExtension::of_numbers),
    })
}

/// Writes a whole loop with a stereo set in it: all of its entries, in loop order, and the MVC extension descriptors of layers 0 and 1. Refusals: 25; then
/// 1, 3, 6 to 9, as [`write_loop`](crate::write_loop) gives them, with the two descriptors counted among the bytes; then 44, 46.
pub fn write_stereo(entries: &[Entry], extensions: &[MvcExtension; 2]) -> Result<Vec<u8>, Refusal> {
    let rows: Vec<u16> = entries.iter().flat_map(Entry::to_numbers).collect();
    let descriptors = extensions.map(MvcExtension::to_numbers).concat();
    let mut out = vec![0; LOOP_BYTES];
    // SAFETY: pointer and length of each buffer belong together; `out` is this call's own.
    let answer = unsafe {
        raw::thq_write_stereo(
            rows.as_ptr(),
            rows.len(),
            descriptors.as_ptr(),
            descriptors.len(),
            out.as_mut_ptr(),
            out.len(),
        )
    };
    out.truncate(accepted(answer)?);
    Ok(out)
}
