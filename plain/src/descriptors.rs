//! The two descriptors as bytes, the stream types that they may stand on, and what is refused of one record on one stream.

use crate::entries::BASE;
use crate::{Embedded, Entry, Extension, Hierarchy, Reading, Record};

pub(crate) const HIERARCHY_TAG: u8 = 4;
pub(crate) const EXTENSION_DESCRIPTOR_TAG: u8 = 63;
const HIERARCHY_EXTENSION_TAG: u8 = 6;

pub(crate) const AVC: u8 = 0x1B;
const SVC: u8 = 0x1F;
pub(crate) const MVC: u8 = 0x20;
const HEVC: u8 = 0x24;

/// Whether a reading looks into the descriptors of a stream of this type.
#[inline]
pub(crate) fn known(reading: Reading, stream_type: u8) -> bool {
    match stream_type {
        AVC | SVC | MVC => true,
        0x24 | 0x25 | 0x28..=0x2B => reading == Reading::Of2015,
        _ => false,
    }
}

/// Whether a stream is one of two views: of type 0x1B or 0x20.
#[inline]
pub(crate) fn is_view(stream_type: u8) -> bool {
    matches!(stream_type, AVC | MVC)
}

/// Whether these streams are two views and no hierarchy descriptor: exactly one is of type 0x1B and exactly one of type 0x20, in whichever
/// order and whatever stands beside, and neither is described.
#[inline]
pub(crate) fn two_views<T>(
    streams: impl Iterator<Item = (u8, T)>,
    described: impl Fn(T) -> bool,
) -> bool {
    let (mut avc, mut mvc) = (None, None);
    for (stream_type, stream) in streams {
        let view = match stream_type {
            AVC => &mut avc,
            MVC => &mut mvc,
            _ => continue,
        };
        if view.replace(stream).is_some() {
            return false;
        }
    }
    match (avc, mvc) {
        (Some(avc), Some(mvc)) => !described(avc) && !described(mvc),
        _ => false,
    }
}

/// Whether a hierarchy type may stand on a known stream of this type.
fn allowed(hierarchy_type: u8, stream_type: u8) -> bool {
    match hierarchy_type {
        1..=8 => stream_type != MVC,
        9 => stream_type == MVC,
        BASE => matches!(stream_type, AVC | HEVC),
        _ => false,
    }
}

/// Reads one descriptor of a known stream. One of the two is put into `record`; 4 where its length is wrong, 5 where a record is there
/// already. Others are skipped.
#[inline]
pub(crate) fn read(
    reading: Reading,
    tag: u8,
    payload: &[u8],
    record: &mut Option<Record>,
) -> Option<u8> {
    let read = match tag {
        HIERARCHY_TAG => read_hierarchy(reading, payload).map(Record::Hierarchy),
        EXTENSION_DESCRIPTOR_TAG
            if reading == Reading::Of2015 && payload.first() == Some(&HIERARCHY_EXTENSION_TAG) =>
        {
            read_extension(&payload[1..]).map(Record::Extension)
        }
        _ => return None,
    };
    if read.is_none() {
        return Some(4);
    }
    if record.is_some() {
        return Some(5);
    }
    *record = read;
    None
}

/// Reads a hierarchy descriptor, or nothing where its length isn't 4.
#[inline]
fn read_hierarchy(reading: Reading, payload: &[u8]) -> Option<Hierarchy> {
    match *payload {
        [flags, index, embedded, channel] => Some(Hierarchy {
            no_view: flags & 0x80 != 0 || reading == Reading::Of2009,
            no_temporal: flags & 0x40 != 0,
            no_spatial: flags & 0x20 != 0,
            no_quality: flags & 0x10 != 0,
            hierarchy_type: flags & 0x0F,
            layer_index: index & 0x3F,
            tref_present: embedded & 0x80 != 0,
            embedded_index: embedded & 0x3F,
            channel: channel & 0x3F,
        }),
        _ => None,
    }
}

/// Reads a hierarchy extension after its extension tag, or nothing where its length isn't what its count demands.
#[inline]
fn read_extension(bytes: &[u8]) -> Option<Extension> {
    if bytes.len() < 6 || bytes.len() != 6 + usize::from(bytes[4] & 0x3F) {
        return None;
    }
    let (head, list) = bytes.split_at(6);
    let ids = u16::from_be_bytes([head[2], head[3]]);
    let mut embedded = Embedded::new(list).ok()?;
    embedded.keep_six_bits();
    Some(Extension {
        dimension_bits: u16::from_be_bytes([head[0], head[1]]),
        layer_index: (ids >> 10) as u8,
        temporal_id: (ids >> 7 & 7) as u8,
        nuh_layer_id: (ids >> 1 & 0x3F) as u8,
        tref_present: ids & 1 != 0,
        channel: head[5] & 0x3F,
        embedded,
    })
}

/// How many bytes a record takes as a descriptor, tag and length included.
#[inline(always)]
pub(crate) fn written_length(record: &Record) -> usize {
    match record {
        Record::Hierarchy(_) => 6,
        Record::Extension(extension) => 9 + extension.embedded.as_slice().len(),
        Record::Implied => 0,
    }
}

/// Writes a record as a descriptor, reserved bits at 1. The room is as long as `written_length` says.
#[inline(always)]
pub(crate) fn write(record: &Record, out: &mut [u8]) {
    match record {
        Record::Hierarchy(h) => {
            let flags = u8::from(h.no_view) << 7
                | u8::from(h.no_temporal) << 6
                | u8::from(h.no_spatial) << 5
                | u8::from(h.no_quality) << 4
                | h.hierarchy_type;
            out.copy_from_slice(&[
                HIERARCHY_TAG,
                4,
                flags,
                0xC0 | h.layer_index,
                u8::from(h.tref_present) << 7 | 0x40 | h.embedded_index,
                0xC0 | h.channel,
            ]);
        }
        Record::Extension(e) => {
            let list = e.embedded.as_slice();
            let dimensions = e.dimension_bits.to_be_bytes();
            let ids = (u16::from(e.layer_index) << 10
                | u16::from(e.temporal_id) << 7
                | u16::from(e.nuh_layer_id) << 1
                | u16::from(e.tref_present))
            .to_be_bytes();
            let count = list.len() as u8;
            out[..9].copy_from_slice(&[
                EXTENSION_DESCRIPTOR_TAG,
                7 + count,
                HIERARCHY_EXTENSION_TAG,
                dimensions[0],
                dimensions[1],
                ids[0],
                ids[1],
                0xC0 | count,
                0xC0 | e.channel,
            ]);
            for (byte, index) in out[9..].iter_mut().zip(list) {
                *byte = 0xC0 | index;
            }
        }
        Record::Implied => {}
    }
}

/// Whether a value of a record is too wide for its field: 25.
pub(crate) fn too_wide(record: &Record) -> bool {
    match record {
        Record::Hierarchy(h) => {
            h.hierarchy_type > 15 || (h.layer_index | h.embedded_index | h.channel) > 63
        }
        Record::Extension(e) => {
            e.temporal_id > 7
                || (e.layer_index | e.nuh_layer_id | e.channel) > 63
                || e.embedded.as_slice().iter().any(|&index| index > 63)
        }
        Record::Implied => false,
    }
}

/// The lowest number, of 6 and 7, that a record gives on a known stream of this type.
#[inline]
pub(crate) fn fault_on_stream(stream_type: u8, record: &Record) -> Option<u8> {
    match record {
        Record::Hierarchy(h) => {
            let enhancing = u8::from(!h.no_view)
                + u8::from(!h.no_temporal)
                + u8::from(!h.no_spatial)
                + u8::from(!h.no_quality);
            if !allowed(h.hierarchy_type, stream_type) {
                Some(6)
            } else if h.hierarchy_type == 9 && enhancing > 0
                || h.hierarchy_type != 8 && enhancing > 1
            {
                Some(7)
            } else {
                None
            }
        }
        Record::Extension(_) => matches!(stream_type, AVC | SVC | MVC).then_some(6),
        Record::Implied => None,
    }
}

/// Whether a layer names one not below its own index, or one twice: 9.
#[inline]
pub(crate) fn names_wrong_layers(layer_index: u8, entry: &Entry) -> bool {
    let mut named = 0_u64;
    entry.embedded().iter().any(|&index| {
        let wrong = index >= layer_index || named >> index & 1 != 0;
        named |= 1 << (index & 63);
        wrong
    })
}
