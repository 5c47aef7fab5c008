//! Operation points from Rust: the sample of two descriptors and five points, every field, lists that are closed or not, and the refusals in their order.

use thoquenry::*;

/// The sample: two operation point descriptors, and others before and between them.
const VIEWS: &[u8] = include_bytes!("../../../samples/points/views.bin");

/// Its streams: layers 0 to 5, three views in two temporal levels.
const STREAMS: &[u8] = include_bytes!("../../../samples/mv-hevc.bin");

/// Layers 0 and 2, of which 2 rests on 1, which is absent.
const ABSENT: &[u8] = include_bytes!("../../../samples/absent.bin");

fn reference(index: u8, prepend_dependencies: bool) -> Reference {
    Reference {
        layer_index: LayerIndex(index),
        prepend_dependencies,
    }
}

/// What a point says of a stream, by its byte.
fn layers(bytes: &[u8]) -> Vec<PointLayer> {
    let layer = |byte: &u8| PointLayer {
        necessary: byte & 0x80 != 0,
        output: byte & 0x40 != 0,
        profile: byte & 0x3F,
    };
    bytes.iter().map(layer).collect()
}

/// A point of one reference, and nothing else.
fn referring(index: u8, prepend_dependencies: bool) -> PointDescriptor {
    PointDescriptor {
        profiles: Vec::new(),
        points: vec![Point {
            references: vec![reference(index, prepend_dependencies)],
            ..Point::default()
        }],
    }
}

/// The descriptors of the sample.
fn descriptors() -> [PointDescriptor; 2] {
    let profile = |first: u8, second: u8, level: u8| {
        Profile([first, second, 0, 0, 0, 0x90, 0, 0, 0, 0, 0, level])
    };
    let first = PointDescriptor {
        profiles: vec![profile(1, 0x60, 0x78), profile(6, 2, 0x7B)],
        points: vec![
            Point {
                target_ols: 0,
                references: vec![reference(0, false)],
                layers: layers(&[0xC0]),
                temporal_id: TemporalId(0),
                frame_rate: Some(FrameRate::PerSecond(30)),
                average_bit_rate: Some(2000),
                maximum_bit_rate: Some(3000),
            },
            Point {
                target_ols: 1,
                references: vec![reference(1, true)],
                layers: layers(&[0xC0, 0xC0]),
                temporal_id: TemporalId(1),
                frame_rate: Some(FrameRate::Per1001Milliseconds(60)),
                average_bit_rate: Some(3000),
                maximum_bit_rate: Some(4500),
            },
            Point {
                target_ols: 2,
                references: vec![reference(2, true)],
                layers: layers(&[0xC0, 0xC1]),
                temporal_id: TemporalId(0),
                frame_rate: Some(FrameRate::PerSecond(30)),
                average_bit_rate: None,
                maximum_bit_rate: Some(5000),
            },
        ],
    };
    let second = PointDescriptor {
        profiles: vec![profile(6, 2, 0x96)],
        points: vec![
            Point {
                target_ols: 3,
                references: vec![reference(2, true), reference(4, true)],
                layers: layers(&[0x80, 0xC1, 0xC2]),
                temporal_id: TemporalId(0),
                frame_rate: Some(FrameRate::Ticks(3003)),
                average_bit_rate: Some(7000),
                maximum_bit_rate: None,
            },
            Point {
                target_ols: 4,
                references: vec![reference(3, true), reference(5, true)],
                layers: layers(&[0xC0, 0xC1, 0xC1, 0xC2, 0xC2]),
                temporal_id: TemporalId(1),
                frame_rate: None,
                average_bit_rate: None,
                maximum_bit_rate: None,
            },
        ],
    };
    [first, second]
}

#[test]
fn the_sample_is_read() {
    let read = read_points(VIEWS, STREAMS).unwrap();
    assert_eq!(read.descriptors, descriptors());
    let lists: [(&[u8], bool); 5] = [
        (&[0], true),
        (&[0, 1], true),
        (&[0, 2], true),
        (&[0, 2, 4], true),
        (&[1, 2, 3, 4, 5], false),
    ];
    assert_eq!(read.points().count(), 5);
    for ((point, streams), (number, (list, closed))) in
        read.points().zip(lists.into_iter().enumerate())
    {
        assert_eq!(usize::from(point.target_ols), number);
        let list: Vec<LayerIndex> = list.iter().copied().map(LayerIndex).collect();
        assert_eq!((&streams.list, streams.closed), (&list, closed));
    }
    let profiles: Vec<Profile> = read.profiles().copied().collect();
    assert_eq!(profiles.len(), 3);
    assert_eq!(profiles[2].0[11], 0x96);
}

/// A list that is closed is the union of the closures of its members.
#[test]
fn closed_lists_are_closures() {
    let read = read_points(VIEWS, STREAMS).unwrap();
    for (_, streams) in read.points() {
        let closures = streams.list.iter().map(|&index| {
            let closure = closure(Reading::Edition2015, STREAMS, index);
            closure.unwrap().0
        });
        let union = LayerIndices(closures.fold(0, |union, closure| union | closure));
        assert_eq!(union == streams.layers(), streams.closed);
    }
}

#[test]
fn each_descriptor_is_written() {
    let [first, second] = descriptors();
    assert_eq!(write_points(&first).unwrap(), VIEWS[6..76]);
    assert_eq!(write_points(&second).unwrap(), VIEWS[80..]);
    let nothing = PointDescriptor::default();
    assert_eq!(write_points(&nothing).unwrap(), [0x3F, 3, 5, 0xC0, 0]);
}

/// References in order, each once; what they rest on before them.
#[test]
fn lists() {
    let list = |references: &[(u8, bool)]| {
        let mut descriptor = referring(0, false);
        descriptor.points[0].references = references
            .iter()
            .map(|&(index, prepend)| reference(index, prepend))
            .collect();
        let read = read_points(&write_points(&descriptor).unwrap(), STREAMS).unwrap();
        let (_, streams) = read.points().next().unwrap();
        let list: Vec<u8> = streams.list.iter().map(|index| index.0).collect();
        (list, streams.closed)
    };
    assert_eq!(list(&[]), (vec![], true));
    assert_eq!(
        list(&[(2, false), (0, false), (2, false)]),
        (vec![2, 0], true)
    );
    assert_eq!(list(&[(0, true)]), (vec![0], true));
    assert_eq!(list(&[(3, true)]), (vec![1, 2, 3], false));
    assert_eq!(list(&[(2, true), (3, true)]), (vec![0, 2, 1, 3], true));
    assert_eq!(
        list(&[(3, false), (0, false), (3, true)]),
        (vec![1, 2, 3, 0], true)
    );
}

#[test]
fn no_points() {
    assert_eq!(read_points(&[], &[]), Ok(ProgramPoints::default()));
    let others = include_bytes!("../../../samples/points/none.bin");
    assert_eq!(read_points(others, STREAMS), Ok(ProgramPoints::default()));
}

/// The most that a program has of everything: lists are long enough for it.
#[test]
fn the_most_of_everything() {
    // Layers 0 to 63, the last on all others.
    let mut entries: Vec<Entry> = (0..63)
        .map(|index| Entry {
            stream_type: if index == 0 { 0x24 } else { 0x25 },
            elementary_pid: u16::from(index),
            record: Record::Hierarchy {
                no_view: true,
                no_temporal: true,
                no_spatial: true,
                no_quality: true,
                hierarchy_type: if index == 0 { 15 } else { 3 },
                layer_index: LayerIndex(index),
                tref_present: false,
                embedded_layer_index: LayerIndex(0),
                channel: Channel(0),
            },
        })
        .collect();
    entries.push(Entry {
        stream_type: 0x28,
        elementary_pid: 63,
        record: Record::Extension {
            dimension_bits: 0,
            layer_index: LayerIndex(63),
            temporal_id: TemporalId(0),
            nuh_layer_id: NuhLayerId(0),
            tref_present: false,
            channel: Channel(0),
            embedded: (0..63).map(LayerIndex).collect(),
        },
    });
    let bytes = write_loop(&entries).unwrap();
    let descriptor = |profiles: usize, points: usize, point: Point| PointDescriptor {
        profiles: vec![Profile([7; 12]); profiles],
        points: vec![point; points],
    };
    let all = Point {
        references: vec![reference(63, true)],
        ..Point::default()
    };
    let referring = Point {
        references: vec![reference(0, false); 248],
        ..Point::default()
    };
    let layered = Point {
        layers: layers(&[0xC0; 59]),
        ..Point::default()
    };
    for one in [
        descriptor(21, 0, Point::default()),
        descriptor(0, 0, Point::default()),
        descriptor(0, 63, Point::default()),
        descriptor(0, 50, all),
        descriptor(0, 1, referring),
        descriptor(0, 4, layered),
    ] {
        let written = write_points(&one).unwrap();
        let times = 1008 / written.len();
        let read = read_points(&written.repeat(times), &bytes).unwrap();
        assert_eq!(read.descriptors, vec![one.clone(); times]);
        assert_eq!(read.points().count(), times * one.points.len());
        for (point, streams) in read.points() {
            let members = match point.references.first() {
                None => 0,
                Some(one) => 1 + usize::from(one.layer_index.0),
            };
            assert_eq!((streams.list.len(), streams.closed), (members, true));
        }
    }
}

#[test]
fn refusals_of_reading() {
    let written = |descriptor| write_points(&descriptor).unwrap();
    let refused = |program: &[u8], bytes: &[u8]| read_points(program, bytes).unwrap_err();
    let sound = written(referring(0, false));
    let unknown = written(referring(6, false));
    let reserved = [0x3F, 5, 5, 0xC0, 1, 1, 0xFF];
    let wrong = [0x3F, 1, 5];
    assert_eq!(refused(&unknown, STREAMS), Refusal::UnknownReference);
    assert_eq!(refused(&reserved, STREAMS), Refusal::ReservedEsCount);
    assert_eq!(refused(&wrong, STREAMS), Refusal::PointsDoNotFit);
    assert_eq!(refused(&[0x3F], STREAMS), Refusal::PointsDoNotFit);
    assert_eq!(refused(&[0; 1009], STREAMS), Refusal::PointsDoNotFit);
    // the lowest over all descriptors, the loop's numbers before them
    let both = [&unknown[..], &reserved[..]].concat();
    assert_eq!(refused(&both, STREAMS), Refusal::ReservedEsCount);
    let all = [&both[..], &wrong[..]].concat();
    assert_eq!(refused(&all, STREAMS), Refusal::PointsDoNotFit);
    assert_eq!(refused(&all, &[0x24]), Refusal::DoesNotFit { entry: 0 });
    assert_eq!(refused(&all, &[0; 1009]), Refusal::LoopTooLong);
    // an absent layer: as a reference, as a dependency to be put before it, and as one that is not
    assert_eq!(refused(&written(referring(1, false)), ABSENT).number(), 42);
    assert_eq!(refused(&written(referring(2, true)), ABSENT).number(), 42);
    let alone = read_points(&written(referring(2, false)), ABSENT).unwrap();
    assert!(!alone.streams[0].closed);
    assert!(read_points(&sound, ABSENT).unwrap().streams[0].closed);
}

#[test]
fn refusals_of_writing() {
    let refused = |change: &dyn Fn(&mut PointDescriptor)| {
        let mut descriptor = referring(0, false);
        change(&mut descriptor);
        write_points(&descriptor).unwrap_err().number()
    };
    let widest = 1 << 24;
    assert_eq!(
        refused(&|one| one.points[0].temporal_id = TemporalId(8)),
        25
    );
    assert_eq!(
        refused(&|one| one.points[0].references[0] = reference(64, false)),
        25
    );
    assert_eq!(
        refused(&|one| one.points[0].references[0] = reference(200, true)),
        25
    );
    assert_eq!(
        refused(&|one| one.points[0].average_bit_rate = Some(widest)),
        25
    );
    assert_eq!(
        refused(&|one| one.points[0].maximum_bit_rate = Some(widest)),
        25
    );
    for rate in [
        FrameRate::Ticks(4096),
        FrameRate::PerSecond(4096),
        FrameRate::Per1001Milliseconds(u16::MAX),
    ] {
        assert_eq!(refused(&|one| one.points[0].frame_rate = Some(rate)), 25);
    }
    let profile = PointLayer {
        necessary: false,
        output: false,
        profile: 64,
    };
    assert_eq!(refused(&|one| one.points[0].layers = vec![profile]), 25);
    assert_eq!(refused(&|one| one.points[0].layers = layers(&[0; 64])), 25);
    // 25, 41, and 25 again for the length
    let many = |count: usize| {
        refused(&|one: &mut PointDescriptor| {
            one.points[0].references = vec![reference(0, false); count]
        })
    };
    assert_eq!([249, 254, 255, 256].map(many), [25, 25, 41, 25]);
    let profiles = |count: usize| {
        refused(&|one: &mut PointDescriptor| {
            one.points[0].references = vec![reference(0, false); 255];
            one.profiles = vec![Profile([0; 12]); count];
        })
    };
    assert_eq!([63, 64].map(profiles), [41, 25]);
    let points = |count: usize| {
        refused(&|one: &mut PointDescriptor| {
            one.points[0].references = vec![reference(0, false); 255];
            one.points.resize(count, Point::default());
        })
    };
    assert_eq!([255, 256].map(points), [41, 25]);
}
