//! The stereo set from Rust: the two samples, every field, and the refusals in their order.

use thoquenry::*;

/// The sample with hierarchy descriptors, which is as `write_stereo` writes it.
const WRITTEN: &[u8] = include_bytes!("../../../samples/stereo.bin");

/// The sample without them, with other descriptors on two streams and the second view first.
const IMPLIED: &[u8] = include_bytes!("../../../samples/stereo-implied.bin");

fn entry(stream_type: u8, elementary_pid: u16, record: Record) -> Entry {
    Entry {
        stream_type,
        elementary_pid,
        record,
    }
}

/// A hierarchy descriptor without a flag at 0.
fn hierarchy(hierarchy_type: u8, layer_index: u8, embedded: u8, channel: u8) -> Record {
    Record::Hierarchy {
        no_view: true,
        no_temporal: true,
        no_spatial: true,
        no_quality: true,
        hierarchy_type,
        layer_index: LayerIndex(layer_index),
        tref_present: hierarchy_type == 15,
        embedded_layer_index: LayerIndex(embedded),
        channel: Channel(channel),
    }
}

fn entries_of_written() -> [Entry; 3] {
    [
        entry(0x1B, 320, hierarchy(15, 0, 63, 0)),
        entry(0x20, 321, hierarchy(9, 1, 0, 1)),
        entry(0x0F, 322, Record::None),
    ]
}

/// The descriptors of both samples.
const EXTENSIONS: [MvcExtension; 2] = [
    MvcExtension {
        average_bit_rate: 4000,
        maximum_bitrate: 6000,
        view_order_index_min: 0,
        view_order_index_max: 0,
        temporal_id_start: TemporalId(0),
        temporal_id_end: TemporalId(7),
        no_sei_nal_unit_present: false,
        no_prefix_nal_unit_present: true,
    },
    MvcExtension {
        average_bit_rate: 8000,
        maximum_bitrate: 12000,
        view_order_index_min: 1,
        view_order_index_max: 1,
        temporal_id_start: TemporalId(0),
        temporal_id_end: TemporalId(7),
        no_sei_nal_unit_present: true,
        no_prefix_nal_unit_present: true,
    },
];

/// The descriptors of the samples with other ranges.
fn ranges(first: (u16, u16), second: (u16, u16)) -> [MvcExtension; 2] {
    let mut extensions = EXTENSIONS;
    for (extension, (least, greatest)) in extensions.iter_mut().zip([first, second]) {
        extension.view_order_index_min = least;
        extension.view_order_index_max = greatest;
    }
    extensions
}

#[test]
fn a_written_set_is_read_and_written() {
    let [base, second, _] = entries_of_written();
    let expected = StereoSet {
        entries: [base, second],
        extensions: EXTENSIONS,
    };
    assert_eq!(read_stereo(WRITTEN).unwrap(), expected);
    assert_eq!(
        write_stereo(&entries_of_written(), &EXTENSIONS).unwrap(),
        WRITTEN
    );
}

#[test]
fn an_implied_set_is_read_by_layer_index() {
    let expected = StereoSet {
        entries: [
            entry(0x1B, 336, Record::Implied),
            entry(0x20, 337, Record::Implied),
        ],
        extensions: EXTENSIONS,
    };
    assert_eq!(read_stereo(IMPLIED).unwrap(), expected);
    let again = write_stereo(&expected.entries, &EXTENSIONS).unwrap();
    assert_eq!(again.len(), 30);
    assert_eq!(read_stereo(&again).unwrap(), expected);
}

#[test]
fn both_readings_accept_a_set_and_skip_its_descriptors() {
    for reading in [Reading::Edition2009, Reading::Edition2015] {
        assert_eq!(read_loop(reading, WRITTEN).unwrap(), entries_of_written());
        assert_eq!(read_loop(reading, IMPLIED).unwrap().len(), 3);
        for bytes in [WRITTEN, IMPLIED] {
            let closed = |target: u8| closure(reading, bytes, LayerIndex(target)).unwrap();
            assert_eq!((closed(0).0, closed(1).0), (0b01, 0b11));
        }
    }
}

#[test]
fn every_field_has_its_place() {
    let entries = [
        entry(0x1B, 256, Record::Implied),
        entry(0x20, 257, Record::Implied),
    ];
    let extensions = [
        MvcExtension {
            average_bit_rate: 0x1234,
            maximum_bitrate: 0x5678,
            view_order_index_min: 341,
            view_order_index_max: 682,
            temporal_id_start: TemporalId(5),
            temporal_id_end: TemporalId(2),
            no_sei_nal_unit_present: true,
            no_prefix_nal_unit_present: false,
        },
        MvcExtension {
            average_bit_rate: 0xFEDC,
            maximum_bitrate: 0xBA98,
            view_order_index_min: 683,
            view_order_index_max: 1000,
            temporal_id_start: TemporalId(2),
            temporal_id_end: TemporalId(5),
            no_sei_nal_unit_present: false,
            no_prefix_nal_unit_present: true,
        },
    ];
    let bytes = [
        0x1B, 0xE1, 0x00, 0xF0, 0x0A, 0x31, 0x08, 0x12, 0x34, 0x56, 0x78, 0xF5, 0x56, 0xAA, 0xAA,
        0x20, 0xE1, 0x01, 0xF0, 0x0A, 0x31, 0x08, 0xFE, 0xDC, 0xBA, 0x98, 0xFA, 0xAF, 0xE8, 0x55,
    ];
    assert_eq!(write_stereo(&entries, &extensions).unwrap(), bytes);
    let read = read_stereo(&bytes).unwrap();
    assert_eq!((read.entries, read.extensions), (entries, extensions));
}

#[test]
fn what_is_no_stereo_set_is_refused() {
    let sports = include_bytes!("../../../samples/sports.bin");
    let mvc = include_bytes!("../../../samples/mvc.bin");
    assert_eq!(read_stereo(&[]), Err(Refusal::NotStereoSet));
    assert_eq!(read_stereo(mvc), Err(Refusal::NotStereoSet));
    assert_eq!(read_stereo(sports), Err(Refusal::WrongMvcExtension));
    // the second view's least index 0, as the base's
    let mut meeting = WRITTEN.to_vec();
    meeting[39] = 0x00;
    assert_eq!(read_stereo(&meeting), Err(Refusal::RangesMeet));
    assert_eq!(
        read_stereo(&WRITTEN[..46]),
        Err(Refusal::DoesNotFit { entry: 2 })
    );
    assert_eq!(read_stereo(&[0; 1009]), Err(Refusal::LoopTooLong));
    assert_eq!(
        Refusal::RangesMeet.to_string(),
        "46: a range of view order index has a least above its greatest, or the two ranges share an index"
    );
}

#[test]
fn the_writer_refuses_in_its_order() {
    let [base, second, audio] = entries_of_written();
    let set = [base.clone(), second.clone()];
    let meeting = ranges((0, 0), (0, 0));
    let write = |entries: &[Entry], extensions| write_stereo(entries, &extensions).unwrap_err();

    // 25 of an entry and of a descriptor, before all else
    let mut wide = EXTENSIONS;
    wide[1].temporal_id_end = TemporalId(8);
    assert_eq!(write(&[], wide), Refusal::TooWide);
    assert_eq!(write(&set, ranges((0, 1024), (0, 0))), Refusal::TooWide);
    assert_eq!(write(&set, ranges((0, 0), (1024, 0))), Refusal::TooWide);
    let wide_pid = entry(0x02, 8192, Record::None);
    assert_eq!(write(&[base.clone(), wide_pid], meeting), Refusal::TooWide);

    // 1 with the two descriptors among the bytes: 985 and 20, and 990 and 20
    let others: Vec<Entry> = (0..300).map(|pid| entry(0x02, pid, Record::None)).collect();
    assert_eq!(write(&others[..197], meeting), Refusal::NotStereoSet);
    assert_eq!(write(&others[..198], meeting), Refusal::LoopTooLong);
    assert_eq!(write(&others, meeting), Refusal::LoopTooLong);

    // the loop writer's numbers, then 44, then 46
    assert_eq!(
        write(&[audio.clone(), audio.clone()], meeting),
        Refusal::RepeatedPid { entry: 1 }
    );
    assert_eq!(
        write(
            &[
                entry(0x1B, 256, Record::None),
                entry(0x20, 257, Record::None)
            ],
            meeting
        ),
        Refusal::TypeNotAllowed { entry: 0 }
    );
    let third = entry(0x20, 323, hierarchy(9, 2, 1, 1));
    assert_eq!(
        write(&[base, second, third], meeting),
        Refusal::NotStereoSet
    );
    assert_eq!(write(&[audio], meeting), Refusal::NotStereoSet);
    assert_eq!(write(&set, meeting), Refusal::RangesMeet);
    assert_eq!(write(&set, ranges((1, 0), (5, 9))), Refusal::RangesMeet);
    assert_eq!(write(&set, ranges((0, 3), (3, 7))), Refusal::RangesMeet);
    for apart in [ranges((0, 3), (4, 7)), ranges((4, 7), (0, 3))] {
        let written = write_stereo(&set, &apart).unwrap();
        assert_eq!(read_stereo(&written).unwrap().extensions, apart);
    }
}
