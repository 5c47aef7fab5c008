//! Document 01's worked examples, and what the wrappers add: types and the numbers' names.

use thoquenry::*;

const LOOP_A: [u8; 37] = [
    0x1B, 0xE1, 0x00, 0xF0, 0x06, 0x04, 0x04, 0xFF, 0xC0, 0xFF, 0xC0, 0x1F, 0xE1, 0x01, 0xF0, 0x06,
    0x04, 0x04, 0xD1, 0xC1, 0x40, 0xC1, 0x28, 0xE1, 0x02, 0xF0, 0x0A, 0x3F, 0x08, 0x06, 0x00, 0x02,
    0x08, 0x03, 0xC1, 0xC2, 0xC0,
];

fn entries_of_loop_a() -> [Entry; 3] {
    [
        Entry {
            stream_type: 0x1B,
            elementary_pid: 256,
            record: Record::Hierarchy {
                no_view: true,
                no_temporal: true,
                no_spatial: true,
                no_quality: true,
                hierarchy_type: 15,
                layer_index: LayerIndex(0),
                tref_present: true,
                embedded_layer_index: LayerIndex(63),
                channel: Channel(0),
            },
        },
        Entry {
            stream_type: 0x1F,
            elementary_pid: 257,
            record: Record::Hierarchy {
                no_view: true,
                no_temporal: true,
                no_spatial: false,
                no_quality: true,
                hierarchy_type: 1,
                layer_index: LayerIndex(1),
                tref_present: false,
                embedded_layer_index: LayerIndex(0),
                channel: Channel(1),
            },
        },
        Entry {
            stream_type: 0x28,
            elementary_pid: 258,
            record: Record::Extension {
                dimension_bits: 2,
                layer_index: LayerIndex(2),
                temporal_id: TemporalId(0),
                nuh_layer_id: NuhLayerId(1),
                tref_present: true,
                channel: Channel(2),
                embedded: vec![LayerIndex(0)],
            },
        },
    ]
}

fn row((layer_index, decoding, matching): (u8, u64, u64)) -> Row {
    Row {
        layer_index: LayerIndex(layer_index),
        decoding,
        matching,
    }
}

/// Document 01's table, with its last match time.
fn table(last_matching: u64) -> [Row; 4] {
    [
        (0, 9000, 9000),
        (1, 9000, 9000),
        (0, 12600, 12600),
        (1, 12000, last_matching),
    ]
    .map(row)
}

/// Each unit as its row numbers with their lags.
fn plainly(units: &Units) -> Vec<Vec<(usize, i64)>> {
    let plain = |unit: &Vec<Component>| unit.iter().map(|part| (part.row, part.lag)).collect();
    units.units.iter().map(plain).collect()
}

/// The answer of joining two rows of one layer at these times.
fn two_rows(first: u64, second: u64) -> Result<Units, Refusal> {
    let rows = [(0, first, first), (0, second, second)].map(row);
    join(&Layers::new().with(0, &[]), LayerIndex(0), &rows)
}

#[test]
fn loop_a_is_read_with_all_fields() {
    assert_eq!(
        read_loop(Reading::Edition2015, &LOOP_A).unwrap(),
        entries_of_loop_a()
    );
}

#[test]
fn the_2009_reading_knows_no_hevc_stream() {
    let mut expected = entries_of_loop_a();
    expected[2].record = Record::None;
    assert_eq!(read_loop(Reading::Edition2009, &LOOP_A).unwrap(), expected);
}

#[test]
fn loop_a_is_written() {
    assert_eq!(write_loop(&entries_of_loop_a()).unwrap(), LOOP_A);
}

#[test]
fn every_field_has_its_place() {
    let bytes = [
        0x1F, 0xEA, 0xBC, 0xF0, 0x06, 0x04, 0x04, 0xB3, 0xE9, 0xE8, 0xF2, 0x2B, 0xF2, 0x34, 0xF0,
        0x0C, 0x3F, 0x0A, 0x06, 0xFF, 0xFE, 0xFA, 0xC2, 0xC3, 0xD1, 0xFD, 0xC0, 0xE5, 0x02, 0xE0,
        0x00, 0xF0, 0x00,
    ];
    let entries = [
        Entry {
            stream_type: 0x1F,
            elementary_pid: 0x0ABC,
            record: Record::Hierarchy {
                no_view: true,
                no_temporal: false,
                no_spatial: true,
                no_quality: true,
                hierarchy_type: 3,
                layer_index: LayerIndex(41),
                tref_present: true,
                embedded_layer_index: LayerIndex(40),
                channel: Channel(50),
            },
        },
        Entry {
            stream_type: 0x2B,
            elementary_pid: 0x1234,
            record: Record::Extension {
                dimension_bits: 0xFFFE,
                layer_index: LayerIndex(62),
                temporal_id: TemporalId(5),
                nuh_layer_id: NuhLayerId(33),
                tref_present: false,
                channel: Channel(17),
                embedded: [61, 0, 37].map(LayerIndex).to_vec(),
            },
        },
        Entry {
            stream_type: 0x02,
            elementary_pid: 0,
            record: Record::None,
        },
    ];
    assert_eq!(read_loop(Reading::Edition2015, &bytes).unwrap(), entries);
    assert_eq!(write_loop(&entries).unwrap(), bytes);
}

#[test]
fn a_list_longer_than_its_count_can_say_is_too_wide() {
    let with_list = |length: u8| {
        let mut entries = entries_of_loop_a();
        if let Record::Extension {
            embedded,
            layer_index,
            ..
        } = &mut entries[2].record
        {
            *layer_index = LayerIndex(63);
            *embedded = (0..length).map(|index| LayerIndex(index % 64)).collect();
        }
        write_loop(&entries)
    };
    assert_eq!(with_list(64), Err(Refusal::TooWide));
    assert_eq!(with_list(255), Err(Refusal::TooWide));
    for length in [8, 9, 12, 62, 63] {
        let bytes = with_list(length).unwrap();
        assert_eq!(bytes.len(), 11 + 11 + 14 + usize::from(length));
        let read = read_loop(Reading::Edition2015, &bytes).unwrap();
        assert_eq!(write_loop(&read).unwrap(), bytes);
    }
}

#[test]
fn closures() {
    let of = |reading, target| {
        let set = closure(reading, &LOOP_A, LayerIndex(target))?;
        Ok(set.iter().map(|index| index.0).collect::<Vec<_>>())
    };
    assert_eq!(of(Reading::Edition2015, 1), Ok(vec![0, 1]));
    assert_eq!(of(Reading::Edition2009, 1), Ok(vec![0, 1]));
    assert_eq!(of(Reading::Edition2015, 2), Ok(vec![0, 2]));
    assert_eq!(of(Reading::Edition2009, 2), Err(Refusal::NoSuchLayer));
    assert_eq!(of(Reading::Edition2015, 255), Err(Refusal::NoSuchLayer));
}

#[test]
fn short_and_long_loops() {
    for reading in [Reading::Edition2009, Reading::Edition2015] {
        assert_eq!(read_loop(reading, &[]), Ok(vec![]));
        assert_eq!(
            closure(reading, &[], LayerIndex(0)),
            Err(Refusal::NoSuchLayer)
        );
        assert_eq!(
            read_loop(reading, &[0; 4]),
            Err(Refusal::DoesNotFit { entry: 0 })
        );
        assert_eq!(read_loop(reading, &[0; 1009]), Err(Refusal::LoopTooLong));
    }
}

#[test]
fn the_whole_import() {
    let import = |last| import(Reading::Edition2015, &LOOP_A, LayerIndex(1), &table(last));
    let units = import(12600).unwrap();
    assert_eq!(units.closure, LayerIndices(0b11));
    assert_eq!(plainly(&units), [[(0, 0), (1, 0)], [(2, 600), (3, 0)]]);
    assert_eq!(import(12601), Err(Refusal::Unpaired { row: 3 }));
    assert_eq!(import(9000), Err(Refusal::UsedTwice { row: 3 }));
}

/// Two views without a hierarchy descriptor, and an audio stream between them.
const SPORTS: [u8; 15] = [
    0x1B, 0xE1, 0x20, 0xF0, 0x00, 0x0F, 0xE1, 0x22, 0xF0, 0x00, 0x20, 0xE1, 0x21, 0xF0, 0x00,
];

/// Their entries, with these records on the views.
fn sports(base: Record, second: Record) -> [Entry; 3] {
    [
        (0x1B, 288, base),
        (0x0F, 290, Record::None),
        (0x20, 289, second),
    ]
    .map(|(stream_type, elementary_pid, record)| Entry {
        stream_type,
        elementary_pid,
        record,
    })
}

#[test]
fn two_views_are_read_and_written_without_a_descriptor() {
    let entries = sports(Record::Implied, Record::Implied);
    for reading in [Reading::Edition2009, Reading::Edition2015] {
        assert_eq!(read_loop(reading, &SPORTS).unwrap(), entries);
        let set = closure(reading, &SPORTS, LayerIndex(1));
        assert_eq!(set, Ok(LayerIndices(0b11)));
    }
    assert_eq!(write_loop(&entries).unwrap(), SPORTS);
    let indices = |entries: &[Entry]| entries.iter().map(Entry::layer_index).collect::<Vec<_>>();
    assert_eq!(
        indices(&entries),
        [Some(LayerIndex(0)), None, Some(LayerIndex(1))]
    );
    assert_eq!(
        indices(&entries_of_loop_a()),
        [0, 1, 2].map(|index| Some(LayerIndex(index)))
    );
}

#[test]
fn rows_are_joined_over_two_views() {
    for reading in [Reading::Edition2009, Reading::Edition2015] {
        let import = |last| import(reading, &SPORTS, LayerIndex(1), &table(last));
        let units = import(12600).unwrap();
        assert_eq!(units.closure, LayerIndices(0b11));
        assert_eq!(plainly(&units), [[(0, 0), (1, 0)], [(2, 600), (3, 0)]]);
        assert_eq!(import(12601), Err(Refusal::Unpaired { row: 3 }));
    }
}

#[test]
fn an_implied_mark_that_is_missing_or_out_of_place() {
    let refused = |entries: &[Entry]| write_loop(entries).unwrap_err();
    let at = |entry| Refusal::TypeNotAllowed { entry };
    assert_eq!(refused(&sports(Record::None, Record::None)), at(0));
    assert_eq!(refused(&sports(Record::None, Record::Implied)), at(0));
    assert_eq!(refused(&sports(Record::Implied, Record::None)), at(2));
    let mut marked_audio = sports(Record::Implied, Record::Implied);
    marked_audio[1].record = Record::Implied;
    assert_eq!(refused(&marked_audio), at(1));
    assert_eq!(refused(&marked_audio[..1]), at(0));
    // a hierarchy descriptor on one of them
    let described = entries_of_loop_a()[0].record.clone();
    assert_eq!(refused(&sports(described.clone(), Record::Implied)), at(2));
    assert!(write_loop(&sports(described, Record::None)).is_ok());
}

#[test]
fn joining_over_given_layers() {
    let layers = Layers::new().with(0, &[]).with(1, &[0]).with(5, &[1, 4]);
    let units = join(&layers, LayerIndex(1), &table(12600)).unwrap();
    assert_eq!(plainly(&units), [[(0, 0), (1, 0)], [(2, 600), (3, 0)]]);
    let refused = |target| join(&layers, LayerIndex(target), &table(12600)).unwrap_err();
    assert_eq!(refused(2), Refusal::NoSuchLayer);
    assert_eq!(
        refused(5),
        Refusal::EmbeddedLayerAbsent {
            index: LayerIndex(4)
        }
    );
}

#[test]
fn time_order_across_the_wrap() {
    let accepted = two_rows(8589934000, 400).unwrap();
    assert_eq!(plainly(&accepted), [[(0, 0)], [(1, 0)]]);
    assert_eq!(two_rows(7, 7), Err(Refusal::TimeOrderBroken { row: 1 }));
    assert!(two_rows(0, 4294967295).is_ok());
    assert_eq!(
        two_rows(0, 4294967296),
        Err(Refusal::TimeOrderBroken { row: 1 })
    );
}

#[test]
fn lags_and_how_far_rows_lie_apart() {
    let layers = Layers::new().with(0, &[]).with(1, &[0]);
    let joined = |time| {
        let rows = [(0, time, time), (1, 0, time)].map(row);
        join(&layers, LayerIndex(1), &rows)
    };
    let greatest = joined(4294967295).unwrap();
    assert_eq!(plainly(&greatest), [[(0, 4294967295), (1, 0)]]);
    assert_eq!(joined(4294967296), Err(Refusal::SpanTooWide));
    let lowest = joined(4294967297).unwrap();
    assert_eq!(plainly(&lowest), [[(0, -4294967295), (1, 0)]]);
}

#[test]
fn every_picture_of_a_base_at_full_rate() {
    let layers = Layers::new().with(0, &[]).with(1, &[0]);
    let rows = [
        (0, 0, 0),
        (1, 0, 0),
        (0, 3600, 3600),
        (0, 7200, 7200),
        (1, 7000, 7200),
    ]
    .map(row);
    let units = join(&layers, LayerIndex(1), &rows).unwrap();
    let expected = [vec![(0, 0), (1, 0)], vec![(2, 0)], vec![(3, 200), (4, 0)]];
    assert_eq!(plainly(&units), expected);
    assert_eq!(join_long(&layers, LayerIndex(1), &rows), Ok(units));
    // Of the base alone every row heads a unit.
    let base = join(&layers, LayerIndex(0), &rows).unwrap();
    assert_eq!(plainly(&base), [[(0, 0)], [(2, 0)], [(3, 0)]]);
}

#[test]
fn tables_at_the_limits() {
    let layers = Layers::new().with(0, &[]);
    let rows = |count| (0..count).map(|k| row((0, k, k))).collect::<Vec<_>>();
    let units = join(&layers, LayerIndex(0), &rows(512)).unwrap();
    assert_eq!(units.units.len(), 512);
    assert_eq!(join_long(&layers, LayerIndex(0), &rows(512)), Ok(units));
    let too_many = join(&layers, LayerIndex(0), &rows(513));
    assert_eq!(too_many, Err(Refusal::OutOfRange { row: 0 }));
    let long = join_long(&layers, LayerIndex(0), &rows(5000)).unwrap();
    assert_eq!(long.units.len(), 5000);
    assert_eq!(plainly(&long)[4999], [(4999, 0)]);
    let none = join(&layers, LayerIndex(0), &[]).unwrap();
    assert_eq!(none.units.len(), 0);
    assert_eq!(join_long(&layers, LayerIndex(0), &[]), Ok(none));
    let too_late = join(
        &layers,
        LayerIndex(0),
        &[row((0, 0, 0)), row((0, 1, 1 << 33))],
    );
    assert_eq!(too_late, Err(Refusal::OutOfRange { row: 1 }));
}

#[test]
fn headers() {
    let pts_alone = [
        0x00, 0x00, 0x01, 0xE0, 0x00, 0x00, 0x84, 0x80, 0x05, 0x21, 0x00, 0x01, 0x46, 0x51,
    ];
    let with_tref = [
        0x00, 0x00, 0x01, 0xE0, 0x00, 0x00, 0x84, 0x81, 0x0D, 0x21, 0x00, 0x01, 0x5D, 0xC1, 0x0F,
        0x86, 0xFE, 0xF1, 0x00, 0x01, 0x62, 0x71,
    ];
    let times = |pts, decoding, matching| Times {
        pts,
        decoding,
        matching,
    };
    let equal_tref = [
        0x00, 0x00, 0x01, 0xE0, 0x00, 0x00, 0x84, 0x81, 0x0D, 0x21, 0x00, 0x01, 0x46, 0x51, 0x0F,
        0x86, 0xFE, 0xF1, 0x00, 0x01, 0x46, 0x51,
    ];
    for (times, tref_sent, bytes) in [
        (times(9000, 9000, 9000), false, &pts_alone[..]),
        (times(9000, 9000, 9000), true, &equal_tref[..]),
        (times(12000, 12000, 12600), true, &with_tref[..]),
    ] {
        let header = Header {
            times,
            tref_sent,
            end: bytes.len(),
        };
        assert_eq!(read_times(bytes), Ok(header));
        assert_eq!(write_times(times, tref_sent).unwrap(), bytes);
    }
    let longest = Header {
        times: times(3, 2, 1),
        tref_sent: true,
        end: 27,
    };
    let written = write_times(longest.times, true).unwrap();
    assert_eq!(read_times(&written), Ok(longest));
    assert_eq!(read_times(&[]), Err(Refusal::NotVideoHeader));
    let refused = |pts, decoding, matching, with_tref| {
        write_times(times(pts, decoding, matching), with_tref).unwrap_err()
    };
    assert_eq!(refused(1, 2, 2, false), Refusal::PtsBeforeDts);
    assert_eq!(refused(1 << 33, 2, 2, false), Refusal::TooWide);
    assert_eq!(refused(12000, 12000, 12600, false), Refusal::TooWide);
}

#[test]
fn every_number_has_its_name_and_its_words() {
    let listed: Vec<u8> = (0..=255).filter(|&n| Refusal::of(n, 0).is_some()).collect();
    let numbers = (1..=9).chain(11..=18).chain(20..=25);
    let later = (30..=33).chain(40..=42).chain(44..=46);
    let expected: Vec<u8> = numbers.chain(later).collect();
    assert_eq!(listed, expected);
    let mut shown = Vec::new();
    for number in listed {
        let refusal = Refusal::of(number, 7).unwrap();
        assert_eq!(refusal.number(), number);
        let placed = [2..=9, 12..=16, 30..=33]
            .iter()
            .any(|range| range.contains(&number));
        assert_eq!(refusal.place(), if placed { 7 } else { 0 });
        let words = refusal.words();
        assert!(!words.contains("{}"));
        assert_eq!(words.contains('7'), placed || number == 7);
        shown.push(words);
    }
    shown.sort();
    shown.dedup();
    assert_eq!(shown.len(), expected.len());
    assert_eq!(
        Refusal::Unpaired { row: 3 }.to_string(),
        "15: row 3, the head of a unit, has no assembly"
    );
    assert_eq!(Refusal::of(12, 256), None);
}

#[test]
fn sets_print_their_indices() {
    let set = LayerIndices(0b101);
    assert_eq!(set.to_string(), "{0, 2}");
    assert_eq!(format!("{set:?}"), "LayerIndices {0, 2}");
    assert_eq!(LayerIndices::default().to_string(), "{}");
}

#[test]
fn the_version_is_this_crates() {
    let (first, second, third) = version();
    assert_eq!(
        format!("{first}.{second}.{third}"),
        env!("CARGO_PKG_VERSION")
    );
}
