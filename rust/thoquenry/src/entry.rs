//! The entries of an elementary-stream loop, and the 80 numbers by which each crosses to the library.

use crate::layers::LayerIndex;
use thoquenry_sys::{THQ_ENTRY_NUMBERS, THQ_EXTENSION, THQ_HIERARCHY, THQ_IMPLIED, THQ_NO_RECORD};

/// Where a layer is sent: hierarchy_channel, six bits.
#[derive(Clone, Copy, Debug, Default, PartialEq, Eq, PartialOrd, Ord, Hash)]
pub struct Channel(pub u8);

/// temporal_id, three bits.
#[derive(Clone, Copy, Debug, Default, PartialEq, Eq, PartialOrd, Ord, Hash)]
pub struct TemporalId(pub u8);

/// nuh_layer_id, six bits.
#[derive(Clone, Copy, Debug, Default, PartialEq, Eq, PartialOrd, Ord, Hash)]
pub struct NuhLayerId(pub u8);

/// One entry of a loop.
#[derive(Clone, Debug, PartialEq, Eq, Hash)]
pub struct Entry {
    /// stream_type, eight bits.
    pub stream_type: u8,
    /// elementary_PID, thirteen bits.
    pub elementary_pid: u16,
    /// What makes the stream a layer, if anything does.
    pub record: Record,
}

/// What makes a stream a layer, if anything does.
#[derive(Clone, Debug, PartialEq, Eq, Hash)]
pub enum Record {
    /// The stream is not a layer.
    None,
    /// The hierarchy descriptor. A flag that is false "enhances".
    Hierarchy {
        /// no_view_scalability_flag: false where the layer adds views. The 2009 reading answers true.
        no_view: bool,
        /// no_temporal_scalability_flag: false where it adds frames.
        no_temporal: bool,
        /// no_spatial_scalability_flag: false where it adds detail.
        no_spatial: bool,
        /// no_quality_scalability_flag: false where it adds quality.
        no_quality: bool,
        /// hierarchy_type, four bits. 15 is a base layer.
        hierarchy_type: u8,
        /// hierarchy_layer_index, six bits.
        layer_index: LayerIndex,
        /// tref_present_flag, kept and not judged.
        tref_present: bool,
        /// hierarchy_embedded_layer_index, six bits: the layer that this one rests on. A base layer's names nothing.
        embedded_layer_index: LayerIndex,
        /// hierarchy_channel, six bits.
        channel: Channel,
    },
    /// The HEVC hierarchy extension.
    Extension {
        /// extension_dimension_bits, kept and not judged.
        dimension_bits: u16,
        /// hierarchy_layer_index, six bits.
        layer_index: LayerIndex,
        /// temporal_id, three bits.
        temporal_id: TemporalId,
        /// nuh_layer_id, six bits.
        nuh_layer_id: NuhLayerId,
        /// tref_present_flag, kept and not judged.
        tref_present: bool,
        /// hierarchy_channel, six bits.
        channel: Channel,
        /// The layers that this one rests on, in the descriptor's order.
        embedded: Vec<LayerIndex>,
    },
    /// No descriptor: one of two views. Where a loop holds exactly one stream of type 0x1B and exactly one of type 0x20, and neither has a
    /// hierarchy descriptor, the 0x1B is a base layer of index 0, and the 0x20 a layer of index 1 that rests on 0, each with channel 0.
    Implied,
}

/// The 80 numbers of one entry, laid out as include/thoquenry.h says.
pub(crate) type Numbers = [u16; THQ_ENTRY_NUMBERS];

/// Where the list of embedded layers begins, and how many it has room for.
const EMBEDDED: usize = 16;
const EMBEDDED_ROOM: usize = 63;

/// The stream type of the second of two views.
const MVC: u8 = 0x20;

impl Entry {
    /// The index of the layer that the stream is, if it is one: of an implied one by its stream type.
    pub fn layer_index(&self) -> Option<LayerIndex> {
        match self.record {
            Record::None => None,
            Record::Hierarchy { layer_index, .. } | Record::Extension { layer_index, .. } => {
                Some(layer_index)
            }
            Record::Implied => Some(LayerIndex(u8::from(self.stream_type == MVC))),
        }
    }

    /// The entry as its 80 numbers. A list of more than 63 layers has a count that is too wide for its field, by which it is refused.
    pub(crate) fn to_numbers(&self) -> Numbers {
        let mut numbers = [0; THQ_ENTRY_NUMBERS];
        numbers[0] = u16::from(self.stream_type);
        numbers[1] = self.elementary_pid;
        match &self.record {
            Record::None => numbers[2] = THQ_NO_RECORD,
            Record::Implied => numbers[2] = THQ_IMPLIED,
            Record::Hierarchy {
                no_view,
                no_temporal,
                no_spatial,
                no_quality,
                hierarchy_type,
                layer_index,
                tref_present,
                embedded_layer_index,
                channel,
            } => {
                numbers[2] = THQ_HIERARCHY;
                numbers[3] = u16::from(*no_view);
                numbers[4] = u16::from(*no_temporal);
                numbers[5] = u16::from(*no_spatial);
                numbers[6] = u16::from(*no_quality);
                numbers[7] = u16::from(*hierarchy_type);
                numbers[8] = u16::from(layer_index.0);
                numbers[9] = u16::from(*tref_present);
                numbers[10] = u16::from(embedded_layer_index.0);
                numbers[11] = u16::from(channel.0);
            }
            Record::Extension {
                dimension_bits,
                layer_index,
                temporal_id,
                nuh_layer_id,
                tref_present,
                channel,
                embedded,
            } => {
                numbers[2] = THQ_EXTENSION;
                numbers[8] = u16::from(layer_index.0);
                numbers[9] = u16::from(*tref_present);
                numbers[11] = u16::from(channel.0);
                numbers[12] = *dimension_bits;
                numbers[13] = u16::from(temporal_id.0);
                numbers[14] = u16::from(nuh_layer_id.0);
                numbers[15] = u16::try_from(embedded.len()).unwrap_or(u16::MAX);
                for (place, index) in embedded.iter().take(EMBEDDED_ROOM).enumerate() {
                    numbers[EMBEDDED + place] = u16::from(index.0);
                }
            }
        }
        numbers
    }

    /// The entry of 80 numbers that the library has written.
    pub(crate) fn of_numbers(numbers: &[u16]) -> Entry {
        let byte =
            |place: usize| u8::try_from(numbers[place]).expect("each field but two is a byte");
        let flag = |place: usize| numbers[place] == 1;
        let record = match numbers[2] {
            THQ_HIERARCHY => Record::Hierarchy {
                no_view: flag(3),
                no_temporal: flag(4),
                no_spatial: flag(5),
                no_quality: flag(6),
                hierarchy_type: byte(7),
                layer_index: LayerIndex(byte(8)),
                tref_present: flag(9),
                embedded_layer_index: LayerIndex(byte(10)),
                channel: Channel(byte(11)),
            },
            THQ_EXTENSION => Record::Extension {
                layer_index: LayerIndex(byte(8)),
                tref_present: flag(9),
                channel: Channel(byte(11)),
                dimension_bits: numbers[12],
                temporal_id: TemporalId(byte(13)),
                nuh_layer_id: NuhLayerId(byte(14)),
                embedded: (0..usize::from(byte(15)))
                    .map(|place| LayerIndex(byte(EMBEDDED + place)))
                    .collect(),
            },
            THQ_IMPLIED => Record::Implied,
            _ => Record::None,
        };
        Entry {
            stream_type: byte(0),
            elementary_pid: numbers[1],
            record,
        }
    }
}
