//! Operation points as the lists of numbers by which a caller from C hands them over and receives them: include/thoquenry.h has their layout.

use crate::points::{FrameRate, LayerFlags, Point, PointDescriptor, ProgramPoints, Reference};
use crate::Refusal;

/// The numbers of one point.
pub const POINT_NUMBERS: usize = 12;

/// The lists that reading fills, each as long as what is in it.
#[derive(Clone, Debug, Default, PartialEq, Eq)]
pub struct PointLists {
    /// num_ptl and operation_points_count of each descriptor
    pub descriptors: Vec<u32>,
    /// the profiles of all descriptors, 12 bytes each
    pub profiles: Vec<u8>,
    /// the points of all descriptors, 12 numbers each
    pub points: Vec<u32>,
    /// the references of all points, one byte each
    pub references: Vec<u8>,
    /// what all points say of the streams of their lists, one byte each
    pub layers: Vec<u8>,
    /// the streams of all points, one byte each
    pub streams: Vec<u8>,
}

impl PointLists {
    /// The lists of the points of a program.
    pub fn of(program: &ProgramPoints) -> PointLists {
        let mut lists = PointLists::default();
        for descriptor in &program.descriptors {
            let counts = [descriptor.profiles.len(), descriptor.points.len()];
            lists.descriptors.extend(counts.map(|count| count as u32));
            lists.profiles.extend(descriptor.profiles.concat());
        }
        for (point, streams) in program.points() {
            lists.add(point);
            lists.points.push(streams.members.len() as u32);
            lists.points.push(u32::from(streams.closed));
            lists.streams.extend(&streams.members);
        }
        lists
    }

    /// The lists of one descriptor, as they are given to be written. What is said of the streams of each point is 0, and not looked at.
    pub fn of_descriptor(descriptor: &PointDescriptor) -> PointLists {
        let mut lists = PointLists {
            profiles: descriptor.profiles.concat(),
            ..PointLists::default()
        };
        for point in &descriptor.points {
            lists.add(point);
            lists.points.extend([0, 0]);
        }
        lists
    }

    /// How many of each there are: descriptors, profiles, points, references, layers, streams.
    pub fn summary(&self) -> [u32; 6] {
        [
            self.descriptors.len() / 2,
            self.profiles.len() / 12,
            self.points.len() / POINT_NUMBERS,
            self.references.len(),
            self.layers.len(),
            self.streams.len(),
        ]
        .map(|count| count as u32)
    }

    /// Adds the first ten numbers of a point, and its references and layers.
    fn add(&mut self, point: &Point) {
        let (idc, indicator) = point.frame_rate.map_or((0, 0), FrameRate::fields);
        self.points.extend([
            u32::from(point.target_ols),
            point.references.len() as u32,
            point.layers.len() as u32,
            u32::from(point.average_bit_rate.is_some()),
            u32::from(point.maximum_bit_rate.is_some()),
            u32::from(idc),
            u32::from(point.temporal_id),
            u32::from(indicator),
            point.average_bit_rate.unwrap_or(0),
            point.maximum_bit_rate.unwrap_or(0),
        ]);
        let reference = |one: &Reference| u8::from(one.prepend_dependencies) << 6 | one.layer_index;
        self.references
            .extend(point.references.iter().map(reference));
        let layer = |one: &LayerFlags| {
            u8::from(one.necessary) << 7 | u8::from(one.output) << 6 | one.profile
        };
        self.layers.extend(point.layers.iter().map(layer));
    }
}

/// The descriptor that lists say, or 25 where they say none: a value that no point has, or a list whose length is not what the counts say.
pub fn descriptor_of_lists(
    profiles: &[u8],
    points: &[u32],
    references: &[u8],
    layers: &[u8],
) -> Result<PointDescriptor, Refusal> {
    let mut lists = Left { references, layers };
    let descriptor = PointDescriptor {
        profiles: parts(profiles)?,
        points: parts(points)?
            .iter()
            .map(|numbers| lists.point(numbers))
            .collect::<Result<_, _>>()?,
    };
    match (lists.references, lists.layers) {
        ([], []) => Ok(descriptor),
        _ => Err(Refusal::of(25)),
    }
}

/// A list cut into parts of 12, or 25 where something is left.
fn parts<T: Copy>(list: &[T]) -> Result<Vec<[T; 12]>, Refusal> {
    let cut = list.chunks(12).map(<[T; 12]>::try_from);
    cut.collect::<Result<_, _>>().map_err(|_| Refusal::of(25))
}

/// What is left of the lists that all points share.
struct Left<'a> {
    references: &'a [u8],
    layers: &'a [u8],
}

/// Cuts so many off the front of a list, or 25 where there are fewer.
fn cut<'a>(list: &mut &'a [u8], count: u32) -> Result<&'a [u8], Refusal> {
    let front = list.get(..count as usize).ok_or(Refusal::of(25))?;
    *list = &list[front.len()..];
    Ok(front)
}

impl Left<'_> {
    fn point(&mut self, numbers: &[u32; POINT_NUMBERS]) -> Result<Point, Refusal> {
        let refused = Refusal::of(25);
        let [target_ols, es_count, num_es_in_op, has_average, has_maximum, idc, temporal_id, indicator, average, maximum, _, _] =
            *numbers;
        let byte = |number: u32| u8::try_from(number).map_err(|_| refused);
        // A field that is there or not: where it is not, its number is 0.
        let rate = |flag: u32, number: u32| match (flag, number) {
            (0, 0) => Ok(None),
            (1, rate) => Ok(Some(rate)),
            _ => Err(refused),
        };
        let indicator = u16::try_from(indicator).map_err(|_| refused)?;
        let frame_rate = match (idc, indicator) {
            (0, 0) => None,
            _ => Some(FrameRate::told(byte(idc)?, indicator).ok_or(refused)?),
        };
        let mut references = Vec::new();
        for &byte in cut(&mut self.references, es_count)? {
            // Two bits are no prepend_dependencies: of 128 and more.
            if byte > 127 {
                return Err(refused);
            }
            references.push(Reference {
                prepend_dependencies: byte & 0x40 != 0,
                layer_index: byte & 0x3F,
            });
        }
        let layers = cut(&mut self.layers, num_es_in_op)?.iter();
        Ok(Point {
            target_ols: byte(target_ols)?,
            references,
            layers: layers
                .map(|byte| LayerFlags {
                    necessary: byte & 0x80 != 0,
                    output: byte & 0x40 != 0,
                    profile: byte & 0x3F,
                })
                .collect(),
            temporal_id: byte(temporal_id)?,
            frame_rate,
            average_bit_rate: rate(has_average, average)?,
            maximum_bit_rate: rate(has_maximum, maximum)?,
        })
    }
}
