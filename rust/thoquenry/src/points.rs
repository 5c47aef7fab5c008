//! The operation points of a program: what its operation point descriptors say, the streams of each point, and the lists of numbers by which all of it crosses
//! to the library.

use crate::entry::TemporalId;
use crate::layers::{LayerIndex, LayerIndices};
use crate::{accepted, Refusal, LOOP_BYTES};
use thoquenry_sys as raw;
use thoquenry_sys::THQ_POINT_NUMBERS;

/// One profile_tier_level_info, kept whole and not looked into.
#[derive(Clone, Copy, Debug, PartialEq, Eq, Hash)]
pub struct Profile(pub [u8; 12]);

/// One operation point descriptor.
#[derive(Clone, Debug, Default, PartialEq, Eq, Hash)]
pub struct PointDescriptor {
    /// Its profiles, at most 63.
    pub profiles: Vec<Profile>,
    /// Its points, at most 255.
    pub points: Vec<Point>,
}

/// One operation point, as its descriptor has it.
#[derive(Clone, Debug, Default, PartialEq, Eq, Hash)]
pub struct Point {
    /// target_ols, eight bits.
    pub target_ols: u8,
    /// The references by which its list of streams is built, at most 254.
    pub references: Vec<Reference>,
    /// What it says of the streams of that list, one after another, at most 63. Whether there are as many is not judged.
    pub layers: Vec<PointLayer>,
    /// applicable_temporal_id, three bits: the highest of the point's pictures.
    pub temporal_id: TemporalId,
    /// How its frame rate is told, where it is.
    pub frame_rate: Option<FrameRate>,
    /// avg_bit_rate, 24 bits, in thousands of bits a second, where it is told.
    pub average_bit_rate: Option<u32>,
    /// max_bit_rate, likewise.
    pub maximum_bit_rate: Option<u32>,
}

/// One reference of a point.
#[derive(Clone, Copy, Debug, PartialEq, Eq, Hash)]
pub struct Reference {
    /// ES_reference: the layer that is put at the end of the list, where it is not in it yet.
    pub layer_index: LayerIndex,
    /// prepend_dependencies: whether the layers that it names, and that are not in the list yet, are put immediately before it.
    pub prepend_dependencies: bool,
}

/// What a point says of one stream of its list.
#[derive(Clone, Copy, Debug, PartialEq, Eq, Hash)]
pub struct PointLayer {
    /// necessary_layer_flag. Where it is false, the other two say nothing.
    pub necessary: bool,
    /// output_layer_flag
    pub output: bool,
    /// ptl_ref_idx, six bits: a place among the [profiles](ProgramPoints::profiles) of all descriptors, not judged.
    pub profile: u8,
}

/// A frame rate by frame_rate_indicator, twelve bits, and what that counts.
#[derive(Clone, Copy, Debug, PartialEq, Eq, Hash)]
pub enum FrameRate {
    /// The ticks from one picture to the next.
    Ticks(u16),
    /// The frames in a second.
    PerSecond(u16),
    /// The frames in 1.001 seconds.
    Per1001Milliseconds(u16),
}

/// The streams of a point.
#[derive(Clone, Debug, PartialEq, Eq, Hash)]
pub struct PointStreams {
    /// Their layer indices, each once, in the order of the point's list.
    pub list: Vec<LayerIndex>,
    /// Whether the list has every layer that one of its members names. It is then the union of their closures, each of them complete.
    pub closed: bool,
}

impl PointStreams {
    /// The same as a set.
    pub fn layers(&self) -> LayerIndices {
        self.list.iter().copied().collect()
    }
}

/// The operation points of a program.
#[derive(Clone, Debug, Default, PartialEq, Eq, Hash)]
pub struct ProgramPoints {
    /// Its operation point descriptors, in the order of its loop.
    pub descriptors: Vec<PointDescriptor>,
    /// The streams of each point, over all descriptors in order.
    pub streams: Vec<PointStreams>,
}

impl ProgramPoints {
    /// The points of all descriptors in order, each with its streams.
    pub fn points(&self) -> impl Iterator<Item = (&Point, &PointStreams)> {
        let points = self.descriptors.iter().flat_map(|one| &one.points);
        points.zip(&self.streams)
    }

    /// The profiles of all descriptors in order, which is what the layers of points refer to.
    pub fn profiles(&self) -> impl Iterator<Item = &Profile> {
        self.descriptors.iter().flat_map(|one| &one.profiles)
    }
}

/// The most bytes of a descriptor, its tag and length included.
const DESCRIPTOR_BYTES: usize = 257;

/// The least bytes of an operation point descriptor, of a point, and of a point with a reference; and the most members of a list.
const LEAST_DESCRIPTOR: usize = 5;
const LEAST_POINT: usize = 4;
const LEAST_WITH_REFERENCE: usize = 5;
const MOST_STREAMS: usize = 64;

/// Reads the operation points of a program, by the 2015 reading: from its own descriptor loop, the bytes of program_info, and its elementary-stream loop. Refusals: 1 to 9 of
/// the latter; then 40 where the former, or an operation point descriptor in it, does not fit, 41 where an ES_count is 255, and 42 where a reference, or a layer to be put before
/// it, is no layer of the loop.
pub fn read_points(program: &[u8], bytes: &[u8]) -> Result<ProgramPoints, Refusal> {
    let most = program.len().min(LOOP_BYTES);
    let mut descriptors = vec![0; most / LEAST_DESCRIPTOR * 2];
    let mut profiles = vec![0; most];
    let mut points = vec![0; most / LEAST_POINT * THQ_POINT_NUMBERS];
    let (mut references, mut layers) = (vec![0; most], vec![0; most]);
    let mut streams = vec![0; most / LEAST_WITH_REFERENCE * MOST_STREAMS];
    let mut summary = [0; 6];
    // SAFETY: pointer and length of each buffer belong together; all but the first two are this call's own.
    let answer = unsafe {
        raw::thq_read_points(
            program.as_ptr(),
            program.len(),
            bytes.as_ptr(),
            bytes.len(),
            descriptors.as_mut_ptr(),
            descriptors.len(),
            profiles.as_mut_ptr(),
            profiles.len(),
            points.as_mut_ptr(),
            points.len(),
            references.as_mut_ptr(),
            references.len(),
            layers.as_mut_ptr(),
            layers.len(),
            streams.as_mut_ptr(),
            streams.len(),
            summary.as_mut_ptr(),
            summary.len(),
        )
    };
    let count = accepted(answer)?;
    let mut profiles = profiles.chunks_exact(12).map(|profile| {
        let mut bytes = [0; 12];
        bytes.copy_from_slice(profile);
        Profile(bytes)
    });
    let rows = points.chunks_exact(THQ_POINT_NUMBERS).take(count);
    let (mut references, mut layers) = (references.iter(), layers.iter());
    let mut points = rows
        .clone()
        .map(|row| Point::of_numbers(row, &mut references, &mut layers));
    let descriptors = descriptors
        .chunks_exact(2)
        .take(summary[0] as usize)
        .map(|counts| PointDescriptor {
            profiles: profiles.by_ref().take(counts[0] as usize).collect(),
            points: points.by_ref().take(counts[1] as usize).collect(),
        })
        .collect();
    let mut streams = streams.iter().copied().map(LayerIndex);
    let streams_of = |row: &[u32]| PointStreams {
        list: streams.by_ref().take(row[10] as usize).collect(),
        closed: row[11] == 1,
    };
    Ok(ProgramPoints {
        descriptors,
        streams: rows.map(streams_of).collect(),
    })
}

/// Writes one operation point descriptor, its tag and length included. Refusals: 25, for more profiles, points, references or layers than their counts can say too; then 41
/// for a point of 255 references; then 25 for a descriptor that would be longer than its length can say.
pub fn write_points(descriptor: &PointDescriptor) -> Result<Vec<u8>, Refusal> {
    let points = &descriptor.points;
    // A byte of a layer has no bit to spare, so that the library could not be handed a place that is too wide.
    let too_wide = |layer: &PointLayer| layer.profile > 63;
    if points.iter().any(|point| point.layers.iter().any(too_wide)) {
        return Err(Refusal::TooWide);
    }
    let profiles: Vec<u8> = descriptor.profiles.iter().flat_map(|one| one.0).collect();
    let rows: Vec<u32> = points.iter().flat_map(Point::to_numbers).collect();
    let references = points.iter().flat_map(|point| &point.references);
    let references: Vec<u8> = references.map(Reference::to_byte).collect();
    let layers = points.iter().flat_map(|point| &point.layers);
    let layers: Vec<u8> = layers.map(PointLayer::to_byte).collect();
    let mut out = vec![0; DESCRIPTOR_BYTES];
    // SAFETY: pointer and length of each buffer belong together; `out` is this call's own.
    let answer = unsafe {
        raw::thq_write_points(
            profiles.as_ptr(),
            profiles.len(),
            rows.as_ptr(),
            rows.len(),
            references.as_ptr(),
            references.len(),
            layers.as_ptr(),
            layers.len(),
            out.as_mut_ptr(),
            out.len(),
        )
    };
    out.truncate(accepted(answer)?);
    Ok(out)
}

impl Point {
    /// The point as its numbers, those of its streams 0.
    fn to_numbers(&self) -> [u32; THQ_POINT_NUMBERS] {
        let (idc, indicator) = match self.frame_rate {
            None => (0, 0),
            Some(FrameRate::Ticks(indicator)) => (1, indicator),
            Some(FrameRate::PerSecond(indicator)) => (2, indicator),
            Some(FrameRate::Per1001Milliseconds(indicator)) => (3, indicator),
        };
        let count = |length: usize| u32::try_from(length).unwrap_or(u32::MAX);
        [
            u32::from(self.target_ols),
            count(self.references.len()),
            count(self.layers.len()),
            u32::from(self.average_bit_rate.is_some()),
            u32::from(self.maximum_bit_rate.is_some()),
            idc,
            u32::from(self.temporal_id.0),
            u32::from(indicator),
            self.average_bit_rate.unwrap_or(0),
            self.maximum_bit_rate.unwrap_or(0),
            0,
            0,
        ]
    }

    /// The point of numbers that the library has written, with the next references and layers.
    fn of_numbers<'a>(
        numbers: &[u32],
        references: &mut impl Iterator<Item = &'a u8>,
        layers: &mut impl Iterator<Item = &'a u8>,
    ) -> Point {
        let byte = |place: usize| u8::try_from(numbers[place]).expect("at most eight bits");
        let indicator = u16::try_from(numbers[7]).expect("twelve bits");
        let rate = |flag: usize, place: usize| (numbers[flag] == 1).then(|| numbers[place]);
        let references = references.take(numbers[1] as usize);
        let layers = layers.take(numbers[2] as usize);
        Point {
            target_ols: byte(0),
            references: references.map(|&byte| Reference::of_byte(byte)).collect(),
            layers: layers.map(|&byte| PointLayer::of_byte(byte)).collect(),
            temporal_id: TemporalId(byte(6)),
            frame_rate: match numbers[5] {
                1 => Some(FrameRate::Ticks(indicator)),
                2 => Some(FrameRate::PerSecond(indicator)),
                3 => Some(FrameRate::Per1001Milliseconds(indicator)),
                _ => None,
            },
            average_bit_rate: rate(3, 8),
            maximum_bit_rate: rate(4, 9),
        }
    }
}

impl Reference {
    /// The reference as its byte; of an index above 63 one that is refused as too wide.
    fn to_byte(&self) -> u8 {
        match self.layer_index.0 {
            index @ 0..=63 => u8::from(self.prepend_dependencies) << 6 | index,
            _ => u8::MAX,
        }
    }

    fn of_byte(byte: u8) -> Reference {
        Reference {
            layer_index: LayerIndex(byte & 63),
            prepend_dependencies: byte & 64 != 0,
        }
    }
}

impl PointLayer {
    fn to_byte(&self) -> u8 {
        u8::from(self.necessary) << 7 | u8::from(self.output) << 6 | self.profile
    }

    fn of_byte(byte: u8) -> PointLayer {
        PointLayer {
            necessary: byte & 128 != 0,
            output: byte & 64 != 0,
            profile: byte & 63,
        }
    }
}
