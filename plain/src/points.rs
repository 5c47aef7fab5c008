//! The operation points of W-205: the HEVC operation point descriptors of a program's own descriptor loop, as source 000 lays them out (clauses 2.6.100
//! and 2.6.101), and the list of the streams of each point.

use crate::closure::{layers_of_loop, Layers};
use crate::descriptors::EXTENSION_DESCRIPTOR_TAG;
use crate::loops::{Descriptors, LONGEST_LOOP};
use crate::{Reading, Refusal};

/// descriptor_tag_extension of the operation point descriptor, which stands after tag 63 and the length.
const OPERATION_POINT_TAG: u8 = 5;

/// The ES_count that is reserved.
const RESERVED_ES_COUNT: u8 = 0xFF;

/// One profile_tier_level_info, kept whole and not looked into: 96 bits.
pub type Profile = [u8; 12];

/// One operation point descriptor.
#[derive(Clone, Debug, PartialEq, Eq)]
pub struct PointDescriptor {
    /// profile_tier_level_info, num_ptl of them
    pub profiles: Vec<Profile>,
    /// the points, operation_points_count of them
    pub points: Vec<Point>,
}

/// One operation point, as a descriptor has it.
#[derive(Clone, Debug, PartialEq, Eq)]
pub struct Point {
    /// target_ols
    pub target_ols: u8,
    /// the references, ES_count of them
    pub references: Vec<Reference>,
    /// what is said of the streams of its list, numEsInOp of them; whether there are as many of them is not judged
    pub layers: Vec<LayerFlags>,
    /// applicable_temporal_id, 3 bits
    pub temporal_id: u8,
    /// constant_frame_rate_info_idc, and frame_rate_indicator where that is not 0
    pub frame_rate: Option<FrameRate>,
    /// avg_bit_rate, 24 bits, in kbit/s, where it is there
    pub average_bit_rate: Option<u32>,
    /// max_bit_rate, 24 bits, in kbit/s, where it is there
    pub maximum_bit_rate: Option<u32>,
}

/// One reference of a point.
#[derive(Clone, Copy, Debug, PartialEq, Eq)]
pub struct Reference {
    /// prepend_dependencies
    pub prepend_dependencies: bool,
    /// ES_reference, 6 bits: a layer index
    pub layer_index: u8,
}

/// What a point says of one stream of its list.
#[derive(Clone, Copy, Debug, PartialEq, Eq)]
pub struct LayerFlags {
    /// necessary_layer_flag
    pub necessary: bool,
    /// output_layer_flag
    pub output: bool,
    /// ptl_ref_idx, 6 bits: a place among the profiles of all descriptors
    pub profile: u8,
}

/// How the frame rate of a point is told, with frame_rate_indicator, 12 bits.
#[derive(Clone, Copy, Debug, PartialEq, Eq)]
pub enum FrameRate {
    /// constant_frame_rate_info_idc 1: ticks from picture to picture
    Ticks(u16),
    /// 2: frames in a second
    PerSecond(u16),
    /// 3: frames in 1.001 seconds
    Per1001Milliseconds(u16),
}

impl FrameRate {
    /// What an idc and an indicator tell; nothing where the idc is none of three.
    pub fn told(idc: u8, indicator: u16) -> Option<FrameRate> {
        match idc {
            1 => Some(FrameRate::Ticks(indicator)),
            2 => Some(FrameRate::PerSecond(indicator)),
            3 => Some(FrameRate::Per1001Milliseconds(indicator)),
            _ => None,
        }
    }

    /// constant_frame_rate_info_idc and frame_rate_indicator.
    pub fn fields(self) -> (u8, u16) {
        match self {
            FrameRate::Ticks(indicator) => (1, indicator),
            FrameRate::PerSecond(indicator) => (2, indicator),
            FrameRate::Per1001Milliseconds(indicator) => (3, indicator),
        }
    }
}

/// The streams of a point, OperationPointESList.
#[derive(Clone, Debug, PartialEq, Eq)]
pub struct StreamList {
    /// Their layer indices, each once, in the order in which the references put them.
    pub members: Vec<u8>,
    /// Whether every layer that a member names is a member.
    pub closed: bool,
}

/// The operation points of a program.
#[derive(Clone, Debug, PartialEq, Eq)]
pub struct ProgramPoints {
    /// The descriptors, in the order of the program's loop.
    pub descriptors: Vec<PointDescriptor>,
    /// The list of streams of each point, over all descriptors in order.
    pub streams: Vec<StreamList>,
}

impl ProgramPoints {
    /// The points of all descriptors, each with its streams.
    pub fn points(&self) -> impl Iterator<Item = (&Point, &StreamList)> {
        let points = self.descriptors.iter().flat_map(|one| &one.points);
        points.zip(&self.streams)
    }
}

/// Reads the operation points of a program, from its own descriptor loop and the elementary-stream loop, by the 2015 reading. Refusals: 1 to 9 of the
/// latter; then 40, 41, 42.
pub fn read_points(program: &[u8], bytes: &[u8]) -> Result<ProgramPoints, Refusal> {
    let layers = layers_of_loop(Reading::Of2015, bytes)?;
    let descriptors = read_descriptors(program).map_err(Refusal::of)?;
    let points = descriptors.iter().flat_map(|one| &one.points);
    let streams: Option<Vec<StreamList>> = points.map(|point| streams(point, &layers)).collect();
    Ok(ProgramPoints {
        streams: streams.ok_or(Refusal::of(42))?,
        descriptors,
    })
}

/// The operation point descriptors of a program's loop, or the lowest number that one of them gives: 40, 41.
fn read_descriptors(program: &[u8]) -> Result<Vec<PointDescriptor>, u8> {
    if program.len() > LONGEST_LOOP {
        return Err(40);
    }
    let mut found = Vec::new();
    let mut lowest = None;
    for descriptor in Descriptors(program) {
        // 40 is the lowest of all, and nothing stands behind a descriptor that runs past the loop.
        let (tag, payload) = descriptor.ok_or(40)?;
        if tag != EXTENSION_DESCRIPTOR_TAG || payload.first() != Some(&OPERATION_POINT_TAG) {
            continue;
        }
        match read_descriptor(&payload[1..]) {
            Ok(descriptor) => found.push(descriptor),
            Err(41) => lowest = Some(41),
            Err(number) => return Err(number),
        }
    }
    lowest.map_or(Ok(found), Err)
}

/// The fields of a descriptor after its extension tag. 41 where a reserved ES_count is met, whatever follows it; 40 where the bytes end before a field, or
/// the fields before the bytes.
fn read_descriptor(bytes: &[u8]) -> Result<PointDescriptor, u8> {
    let mut fields = Fields(bytes);
    let num_ptl = fields.byte()? & 0x3F;
    let mut profiles = Vec::new();
    for _ in 0..num_ptl {
        profiles.push(fields.array()?);
    }
    let operation_points_count = fields.byte()?;
    let mut points = Vec::new();
    for _ in 0..operation_points_count {
        points.push(fields.point()?);
    }
    match fields.0 {
        [] => Ok(PointDescriptor { profiles, points }),
        _ => Err(40),
    }
}

/// The fields of a descriptor one after another, out of the bytes that are left.
struct Fields<'a>(&'a [u8]);

impl Fields<'_> {
    /// The next bytes, so many; 40 where there are fewer.
    fn array<const LENGTH: usize>(&mut self) -> Result<[u8; LENGTH], u8> {
        let bytes = self.0.get(..LENGTH).ok_or(40)?;
        self.0 = &self.0[LENGTH..];
        Ok(bytes.try_into().expect("so many bytes"))
    }

    fn byte(&mut self) -> Result<u8, u8> {
        self.array().map(|[byte]| byte)
    }

    /// A field of 24 bits, where a flag says that it is there.
    fn rate(&mut self, flagged: bool) -> Result<Option<u32>, u8> {
        if !flagged {
            return Ok(None);
        }
        let [a, b, c] = self.array()?;
        Ok(Some(u32::from_be_bytes([0, a, b, c])))
    }

    fn point(&mut self) -> Result<Point, u8> {
        let target_ols = self.byte()?;
        let es_count = self.byte()?;
        if es_count == RESERVED_ES_COUNT {
            return Err(41);
        }
        let mut references = Vec::new();
        for _ in 0..es_count {
            let byte = self.byte()?;
            references.push(Reference {
                prepend_dependencies: byte & 0x40 != 0,
                layer_index: byte & 0x3F,
            });
        }
        let num_es_in_op = self.byte()? & 0x3F;
        let mut layers = Vec::new();
        for _ in 0..num_es_in_op {
            let byte = self.byte()?;
            layers.push(LayerFlags {
                necessary: byte & 0x80 != 0,
                output: byte & 0x40 != 0,
                profile: byte & 0x3F,
            });
        }
        let flags = self.byte()?;
        let idc = flags >> 3 & 3;
        let frame_rate = match idc {
            0 => None,
            idc => FrameRate::told(idc, u16::from_be_bytes(self.array()?) & 0x0FFF),
        };
        Ok(Point {
            target_ols,
            references,
            layers,
            temporal_id: flags & 7,
            frame_rate,
            average_bit_rate: self.rate(flags & 0x40 != 0)?,
            maximum_bit_rate: self.rate(flags & 0x20 != 0)?,
        })
    }
}

/// The streams of a point, or nothing where one of them is no layer of the loop. Each reference is added at the end, when it is not present yet, and then, where
/// this is asked for, the layers that it names and that are not present yet immediately before it, in ascending order.
fn streams(point: &Point, layers: &Layers) -> Option<StreamList> {
    let mut members: Vec<u8> = Vec::new();
    for reference in &point.references {
        let index = reference.layer_index;
        if layers.present >> index & 1 == 0 {
            return None;
        }
        let at = |members: &[u8]| members.iter().position(|&member| member == index);
        let place = at(&members).unwrap_or_else(|| {
            members.push(index);
            members.len() - 1
        });
        if reference.prepend_dependencies {
            let named = layers.embedded[usize::from(index)];
            if named & !layers.present != 0 {
                return None;
            }
            let new: Vec<u8> = (0..64)
                .filter(|lower| named >> lower & 1 != 0 && !members.contains(lower))
                .collect();
            members.splice(place..place, new);
        }
    }
    let set = members.iter().fold(0_u64, |set, member| set | 1 << member);
    let names_others = |&member: &u8| layers.embedded[usize::from(member)] & !set != 0;
    Some(StreamList {
        closed: !members.iter().any(names_others),
        members,
    })
}

/// Writes one operation point descriptor, tag and length included, reserved bits at 1, and answers how many bytes these are. Refusals: 25 for values too wide and
/// for more of anything than its count can say; then 41; then 25 where the length is more than its byte can say; then 17.
pub fn write_points(descriptor: &PointDescriptor, out: &mut [u8]) -> Result<usize, Refusal> {
    if descriptor.too_wide() {
        return Err(Refusal::of(25));
    }
    let reserved = |point: &Point| point.references.len() == usize::from(RESERVED_ES_COUNT);
    if descriptor.points.iter().any(reserved) {
        return Err(Refusal::of(41));
    }
    let mut payload = vec![OPERATION_POINT_TAG];
    descriptor.put(&mut payload);
    let length = u8::try_from(payload.len()).map_err(|_| Refusal::of(25))?;
    let room = out.get_mut(..2 + payload.len()).ok_or(Refusal::of(17))?;
    let (head, rest) = room.split_at_mut(2);
    head.copy_from_slice(&[EXTENSION_DESCRIPTOR_TAG, length]);
    rest.copy_from_slice(&payload);
    Ok(2 + payload.len())
}

impl PointDescriptor {
    /// Whether a value is too wide for its field, a count among them: 25.
    fn too_wide(&self) -> bool {
        self.profiles.len() > 63
            || self.points.len() > 255
            || self.points.iter().any(Point::too_wide)
    }

    /// Puts its fields behind what is there, each count as long as its field.
    fn put(&self, bytes: &mut Vec<u8>) {
        bytes.push(0xC0 | self.profiles.len() as u8);
        bytes.extend(self.profiles.concat());
        bytes.push(self.points.len() as u8);
        for point in &self.points {
            point.put(bytes);
        }
    }
}

impl Point {
    fn too_wide(&self) -> bool {
        let rate = |rate: Option<u32>| rate.map_or(false, |rate| rate >= 1 << 24);
        let indicator = self.frame_rate.map_or(0, |rate| rate.fields().1);
        self.references.len() > 255
            || self.references.iter().any(|one| one.layer_index > 63)
            || self.layers.len() > 63
            || self.layers.iter().any(|one| one.profile > 63)
            || self.temporal_id > 7
            || indicator >= 1 << 12
            || rate(self.average_bit_rate)
            || rate(self.maximum_bit_rate)
    }

    fn put(&self, bytes: &mut Vec<u8>) {
        bytes.push(self.target_ols);
        bytes.push(self.references.len() as u8);
        for one in &self.references {
            bytes.push(0x80 | u8::from(one.prepend_dependencies) << 6 | one.layer_index);
        }
        bytes.push(0xC0 | self.layers.len() as u8);
        for one in &self.layers {
            bytes.push(u8::from(one.necessary) << 7 | u8::from(one.output) << 6 | one.profile);
        }
        let (idc, indicator) = self.frame_rate.map_or((0, 0), FrameRate::fields);
        bytes.push(
            0x80 | u8::from(self.average_bit_rate.is_some()) << 6
                | u8::from(self.maximum_bit_rate.is_some()) << 5
                | idc << 3
                | self.temporal_id,
        );
        if idc > 0 {
            bytes.extend((0xF000 | indicator).to_be_bytes());
        }
        for rate in [self.average_bit_rate, self.maximum_bit_rate]
            .into_iter()
            .flatten()
        {
            bytes.extend(&rate.to_be_bytes()[1..]);
        }
    }
}
