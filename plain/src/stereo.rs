//! The stereo set of W-211: exactly two layers, the base view 0x1B of index 0 and the view 0x20 of index 1 that rests on it, each with an MVC
//! extension descriptor as source 001 lays it out (clause 2.6.78).

use crate::descriptors::{self, AVC, MVC};
use crate::loops::{self, Descriptors, Heads};
use crate::{read_loop_with, Entry, Reading, Refusal};
use std::ops::RangeInclusive;

/// descriptor_tag of the MVC extension descriptor.
const MVC_EXTENSION_TAG: u8 = 49;

/// Its descriptor_length.
const MVC_EXTENSION_LENGTH: u8 = 8;

/// The bytes that the descriptor takes, tag and length included.
const WRITTEN_LENGTH: usize = 2 + MVC_EXTENSION_LENGTH as usize;

/// The MVC extension descriptor.
#[derive(Clone, Copy, Debug, PartialEq, Eq)]
pub struct MvcExtension {
    /// average_bit_rate, in kbit/s; 0 where it is not indicated
    pub average_bit_rate: u16,
    /// maximum_bitrate, in kbit/s; 0 where it is not indicated
    pub maximum_bitrate: u16,
    /// view_order_index_min, 10 bits
    pub view_order_index_min: u16,
    /// view_order_index_max, 10 bits
    pub view_order_index_max: u16,
    /// temporal_id_start, 3 bits; not judged
    pub temporal_id_start: u8,
    /// temporal_id_end, 3 bits; not judged
    pub temporal_id_end: u8,
    /// no_sei_nal_unit_present
    pub no_sei_nal_unit_present: bool,
    /// no_prefix_nal_unit_present
    pub no_prefix_nal_unit_present: bool,
}

impl MvcExtension {
    /// The descriptor of this payload, or nothing where its length is another than the layout's.
    fn read(payload: &[u8]) -> Option<MvcExtension> {
        match *payload {
            [a, b, c, d, e, f, g, h] => {
                let rest = u32::from_be_bytes([e, f, g, h]);
                Some(MvcExtension {
                    average_bit_rate: u16::from_be_bytes([a, b]),
                    maximum_bitrate: u16::from_be_bytes([c, d]),
                    view_order_index_min: (rest >> 18 & 0x3FF) as u16,
                    view_order_index_max: (rest >> 8 & 0x3FF) as u16,
                    temporal_id_start: (rest >> 5 & 7) as u8,
                    temporal_id_end: (rest >> 2 & 7) as u8,
                    no_sei_nal_unit_present: rest >> 1 & 1 != 0,
                    no_prefix_nal_unit_present: rest & 1 != 0,
                })
            }
            _ => None,
        }
    }

    /// The whole descriptor, reserved bits at 1.
    fn written(&self) -> [u8; WRITTEN_LENGTH] {
        let [a, b] = self.average_bit_rate.to_be_bytes();
        let [c, d] = self.maximum_bitrate.to_be_bytes();
        let rest = 0xF << 28
            | u32::from(self.view_order_index_min) << 18
            | u32::from(self.view_order_index_max) << 8
            | u32::from(self.temporal_id_start) << 5
            | u32::from(self.temporal_id_end) << 2
            | u32::from(self.no_sei_nal_unit_present) << 1
            | u32::from(self.no_prefix_nal_unit_present);
        let [e, f, g, h] = rest.to_be_bytes();
        [
            MVC_EXTENSION_TAG,
            MVC_EXTENSION_LENGTH,
            a,
            b,
            c,
            d,
            e,
            f,
            g,
            h,
        ]
    }

    /// Whether a value is too wide for its field: 25.
    fn too_wide(&self) -> bool {
        self.view_order_index_min >= 1 << 10
            || self.view_order_index_max >= 1 << 10
            || self.temporal_id_start >= 1 << 3
            || self.temporal_id_end >= 1 << 3
    }

    /// The view order indices of its stream.
    fn views(&self) -> RangeInclusive<u16> {
        self.view_order_index_min..=self.view_order_index_max
    }
}

/// The two views by their layer index, 0 and 1: what the loop says of each.
#[derive(Clone, Copy, Debug, PartialEq, Eq)]
pub struct StereoSet {
    /// Their entries.
    pub entries: [Entry; 2],
    /// Their MVC extension descriptors.
    pub extensions: [MvcExtension; 2],
}

/// Reads a stereo set from a loop's bytes under the 2015 reading, or the refusal: 1 to 9, then 44, 45, 46.
pub fn read_stereo(bytes: &[u8]) -> Result<StereoSet, Refusal> {
    let mut layers = Layers::default();
    read_loop_with(Reading::Of2015, bytes, |entry| layers.add(entry))?;
    let views = layers.two().ok_or(Refusal::of(44))?;
    let extension = |place: usize| {
        let (_, info) = Heads(bytes).nth(place)?;
        only_extension(info)
    };
    let [base, second] = views.map(|(place, _)| extension(place).ok_or(Refusal::of(45)));
    let extensions = [base?, second?];
    judge_ranges(&extensions)?;
    Ok(StereoSet {
        entries: views.map(|(_, entry)| entry),
        extensions,
    })
}

/// Writes a loop with a stereo set in it and answers its length. The descriptors are by layer index; each stands after its view's hierarchy
/// descriptor, where there is one. Refusals: 25 before all else; then, of a loop with the two descriptors in it, 1, 3, 6 to 9; then 44, 46, 17.
pub fn write_stereo(
    entries: &[Entry],
    extensions: &[MvcExtension; 2],
    out: &mut [u8],
) -> Result<usize, Refusal> {
    if extensions.iter().any(MvcExtension::too_wide) {
        return Err(Refusal::of(25));
    }
    let length = loops::judge_entries(entries, 2 * WRITTEN_LENGTH)?;
    let mut layers = Layers::default();
    entries.iter().for_each(|entry| layers.add(entry));
    let views = layers.two().ok_or(Refusal::of(44))?;
    judge_ranges(extensions)?;
    let mut rest = out.get_mut(..length).ok_or(Refusal::of(17))?;
    for (place, entry) in entries.iter().enumerate() {
        let view = views.iter().position(|&(of_view, _)| of_view == place);
        let written = view.map(|view| extensions[view].written());
        let more = written.as_ref().map_or(&[][..], |bytes| &bytes[..]);
        let own = loops::written_length(entry);
        let (room, after) = rest.split_at_mut(own + more.len());
        let info = loops::write_head(entry, room);
        let (own, extension) = info.split_at_mut(info.len() - more.len());
        if let Some(record) = &entry.record {
            descriptors::write(record, own);
        }
        extension.copy_from_slice(more);
        rest = after;
    }
    Ok(length)
}

/// The layers of a loop, as far as a stereo set asks for them: how many there are, and the first two with their places.
#[derive(Default)]
struct Layers {
    place: usize,
    count: usize,
    first: [Option<(usize, Entry)>; 2],
}

impl Layers {
    /// Adds the next entry of the loop.
    fn add(&mut self, entry: &Entry) {
        if entry.layer_index().is_some() {
            if let Some(room) = self.first.get_mut(self.count) {
                *room = Some((self.place, *entry));
            }
            self.count += 1;
        }
        self.place += 1;
    }

    /// The two layers that a stereo set has, the base first; nothing where the layers are any others.
    fn two(&self) -> Option<[(usize, Entry); 2]> {
        let is = |entry: &Entry, stream_type: u8, index: u8, below: &[u8]| {
            entry.stream_type == stream_type
                && entry.layer_index() == Some(index)
                && entry.embedded() == below
        };
        let (one, other) = (self.first[0]?, self.first[1]?);
        let orders = [[one, other], [other, one]];
        orders.into_iter().find(|[(_, base), (_, second)]| {
            self.count == 2 && is(base, AVC, 0, &[]) && is(second, MVC, 1, &[0])
        })
    }
}

/// The MVC extension descriptor of a stream, where it has exactly one and that is of its layout's length.
fn only_extension(info: &[u8]) -> Option<MvcExtension> {
    let mut found = Descriptors(info)
        .flatten()
        .filter(|&(tag, _)| tag == MVC_EXTENSION_TAG);
    let (_, payload) = found.next()?;
    match found.next() {
        None => MvcExtension::read(payload),
        Some(_) => None,
    }
}

/// 46: a range whose least exceeds its greatest, or ranges that share an index. Of ranges that are none of these, one begins in the other.
fn judge_ranges(extensions: &[MvcExtension; 2]) -> Result<(), Refusal> {
    let [first, second] = [extensions[0].views(), extensions[1].views()];
    let reversed = first.is_empty() || second.is_empty();
    if reversed || first.contains(second.start()) || second.contains(first.start()) {
        return Err(Refusal::of(46));
    }
    Ok(())
}
