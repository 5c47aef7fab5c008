//! What an entry of a loop says.

use crate::descriptors::MVC;
use crate::Refusal;

/// One entry of an elementary-stream loop.
#[derive(Clone, Copy, Debug, PartialEq, Eq)]
pub struct Entry {
    /// stream_type
    pub stream_type: u8,
    /// elementary_PID, 13 bits
    pub pid: u16,
    /// What makes the stream a layer, if it is one.
    pub record: Option<Record>,
}

/// What makes a stream a layer: one of two descriptors, or that it is one of two views without any.
#[derive(Clone, Copy, Debug, PartialEq, Eq)]
pub enum Record {
    /// Tag 4.
    Hierarchy(Hierarchy),
    /// Tag 63, extension tag 6.
    Extension(Extension),
    /// No descriptor: the only 0x1B or the only 0x20 of a loop that has one of each, neither with a hierarchy descriptor. The first is a
    /// base layer of index 0, the second has index 1 and rests on 0, and each has channel 0.
    Implied,
}

/// The hierarchy descriptor. A flag at false means "enhances".
#[derive(Clone, Copy, Debug, PartialEq, Eq)]
pub struct Hierarchy {
    /// no_view_scalability_flag; true in the 2009 reading
    pub no_view: bool,
    /// no_temporal_scalability_flag
    pub no_temporal: bool,
    /// no_spatial_scalability_flag
    pub no_spatial: bool,
    /// no_quality_scalability_flag
    pub no_quality: bool,
    /// hierarchy_type, 4 bits
    pub hierarchy_type: u8,
    /// hierarchy_layer_index, 6 bits
    pub layer_index: u8,
    /// tref_present_flag
    pub tref_present: bool,
    /// hierarchy_embedded_layer_index, 6 bits; names nothing in a base layer
    pub embedded_index: u8,
    /// hierarchy_channel, 6 bits
    pub channel: u8,
}

/// The HEVC hierarchy extension.
#[derive(Clone, Copy, Debug, PartialEq, Eq)]
pub struct Extension {
    /// extension_dimension_bits
    pub dimension_bits: u16,
    /// hierarchy_layer_index, 6 bits
    pub layer_index: u8,
    /// temporal_id, 3 bits
    pub temporal_id: u8,
    /// nuh_layer_id, 6 bits
    pub nuh_layer_id: u8,
    /// tref_present_flag
    pub tref_present: bool,
    /// hierarchy_channel, 6 bits
    pub channel: u8,
    /// the embedded layer indices, 6 bits each, in the descriptor's order
    pub embedded: Embedded,
}

/// A list of embedded layer indices, as long as its six-bit count can say.
#[derive(Clone, Copy)]
pub struct Embedded {
    count: u8,
    indices: [u8; Embedded::MOST],
}

impl Embedded {
    /// What six bits can count.
    pub const MOST: usize = 63;

    /// The list of these indices; 25 where they are more than the count can say.
    pub fn new(indices: &[u8]) -> Result<Embedded, Refusal> {
        let mut list = Embedded {
            count: 0,
            indices: [0; Embedded::MOST],
        };
        list.indices
            .get_mut(..indices.len())
            .ok_or(Refusal::of(25))?
            .copy_from_slice(indices);
        list.count = indices.len() as u8;
        Ok(list)
    }

    /// Drops the two reserved bits beside each index.
    pub(crate) fn keep_six_bits(&mut self) {
        for index in &mut self.indices {
            *index &= 0x3F;
        }
    }

    /// The indices.
    pub fn as_slice(&self) -> &[u8] {
        &self.indices[..usize::from(self.count)]
    }
}

impl PartialEq for Embedded {
    fn eq(&self, other: &Embedded) -> bool {
        self.as_slice() == other.as_slice()
    }
}

impl Eq for Embedded {}

impl std::fmt::Debug for Embedded {
    fn fmt(&self, f: &mut std::fmt::Formatter<'_>) -> std::fmt::Result {
        self.as_slice().fmt(f)
    }
}

/// The type of a base layer.
pub(crate) const BASE: u8 = 15;

impl Entry {
    /// The index of the layer, if the stream is one.
    pub fn layer_index(&self) -> Option<u8> {
        match self.record.as_ref()? {
            Record::Hierarchy(hierarchy) => Some(hierarchy.layer_index),
            Record::Extension(extension) => Some(extension.layer_index),
            Record::Implied => Some(u8::from(self.stream_type == MVC)),
        }
    }

    /// hierarchy_channel, if the stream is a layer.
    pub fn channel(&self) -> Option<u8> {
        match self.record.as_ref()? {
            Record::Hierarchy(hierarchy) => Some(hierarchy.channel),
            Record::Extension(extension) => Some(extension.channel),
            Record::Implied => Some(0),
        }
    }

    /// The indices of the layers that this one names: none for a base layer.
    pub fn embedded(&self) -> &[u8] {
        match &self.record {
            None => &[],
            Some(Record::Hierarchy(hierarchy)) if hierarchy.hierarchy_type == BASE => &[],
            Some(Record::Hierarchy(hierarchy)) => std::slice::from_ref(&hierarchy.embedded_index),
            Some(Record::Extension(extension)) => extension.embedded.as_slice(),
            Some(Record::Implied) if self.stream_type == MVC => &[0],
            Some(Record::Implied) => &[],
        }
    }
}
