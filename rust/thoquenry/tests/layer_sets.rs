//! Layer sets that change, through the wrapper: what it answers, what it leaves behind, and that no value is handed in.

use thoquenry::*;

const SPORTS: [u8; 15] = [
    0x1B, 0xE1, 0x20, 0xF0, 0x00, 0x0F, 0xE1, 0x22, 0xF0, 0x00, 0x20, 0xE1, 0x21, 0xF0, 0x00,
];

/// A base layer of type 0x24.
fn base(index: u8, elementary_pid: u16) -> Entry {
    Entry {
        stream_type: 0x24,
        elementary_pid,
        record: Record::Hierarchy {
            no_view: true,
            no_temporal: true,
            no_spatial: true,
            no_quality: true,
            hierarchy_type: 15,
            layer_index: LayerIndex(index),
            tref_present: false,
            embedded_layer_index: LayerIndex(63),
            channel: Channel(0),
        },
    }
}

/// A layer with an extension, which rests on these.
fn on(index: u8, elementary_pid: u16, lower: &[u8]) -> Entry {
    Entry {
        stream_type: 0x28,
        elementary_pid,
        record: Record::Extension {
            dimension_bits: 0x8001,
            layer_index: LayerIndex(index),
            temporal_id: TemporalId(3),
            nuh_layer_id: NuhLayerId(9),
            tref_present: true,
            channel: Channel(index),
            embedded: lower.iter().copied().map(LayerIndex).collect(),
        },
    }
}

/// A layer as it is to be in a set.
fn layer(entry: Entry, closure: &[u8], absent: bool) -> Layer {
    Layer {
        index: entry.layer_index().unwrap(),
        entry,
        closure: closure.iter().copied().map(LayerIndex).collect(),
        closure_size: closure.len(),
        absent,
    }
}

fn set_of(entries: &[Entry]) -> LayerSet {
    let mut set = LayerSet::new();
    for entry in entries {
        set.add(entry).unwrap();
    }
    set
}

fn layers(set: &LayerSet) -> Vec<Layer> {
    set.iter().collect()
}

#[test]
fn a_chain_that_is_broken_and_mended() {
    let (zero, one, two) = (base(0, 100), on(1, 101, &[0]), on(2, 102, &[1]));
    let mut set = set_of(&[two.clone(), zero.clone(), one.clone()]);
    let whole = [
        layer(zero.clone(), &[0], false),
        layer(one.clone(), &[0, 1], false),
        layer(two.clone(), &[0, 1, 2], false),
    ];
    assert_eq!(layers(&set), whole);
    assert_eq!(set.closure(LayerIndex(2)), Ok(LayerIndices(0b111)));

    set.remove(LayerIndex(1)).unwrap();
    assert_eq!(
        layers(&set),
        [layer(zero, &[0], false), layer(two, &[1, 2], true)]
    );
    let absent = Refusal::EmbeddedLayerAbsent {
        index: LayerIndex(1),
    };
    assert_eq!(set.closure(LayerIndex(2)), Err(absent));
    assert_eq!(set.closure(LayerIndex(1)), Err(Refusal::NoSuchLayer));
    assert_eq!(set.remove(LayerIndex(1)), Err(Refusal::NoSuchLayer));

    set.add(&one).unwrap();
    assert_eq!(layers(&set), whole);
}

#[test]
fn removing_what_was_added_gives_the_set_that_was() {
    let mut set = set_of(&[base(0, 100), on(5, 105, &[3])]);
    let before = set.clone();
    set.add(&on(3, 103, &[0])).unwrap();
    assert_ne!(set, before);
    assert_eq!(set.closure(LayerIndex(5)).unwrap().to_string(), "{0, 3, 5}");
    set.remove(LayerIndex(3)).unwrap();
    assert_eq!(set, before);
}

#[test]
fn refusals_leave_the_set_as_it_was() {
    let mut set = set_of(&[base(0, 100), on(1, 101, &[0])]);
    let before = set.clone();
    let marked = |stream_type, record| Entry {
        stream_type,
        elementary_pid: 300,
        record,
    };
    let mut wrong_type = on(2, 102, &[0]);
    wrong_type.stream_type = 0x1F;
    let mut wrong_flags = base(2, 102);
    if let Record::Hierarchy {
        no_view,
        no_quality,
        ..
    } = &mut wrong_flags.record
    {
        (*no_view, *no_quality) = (false, false);
    }
    let long: Vec<u8> = (0..64).collect();
    for (entry, refusal) in [
        (on(64, 102, &[0]), Refusal::TooWide),
        (on(2, 8192, &[0]), Refusal::TooWide),
        (on(63, 102, &long), Refusal::TooWide),
        (on(64, 100, &[0]), Refusal::TooWide),
        (on(2, 100, &[0]), Refusal::RepeatedPid { entry: 0 }),
        (on(1, 101, &[1]), Refusal::RepeatedPid { entry: 0 }),
        (wrong_type, Refusal::TypeNotAllowed { entry: 0 }),
        (
            marked(0x1B, Record::Implied),
            Refusal::TypeNotAllowed { entry: 0 },
        ),
        (
            marked(0x24, Record::None),
            Refusal::TypeNotAllowed { entry: 0 },
        ),
        (wrong_flags, Refusal::WrongFlags { entry: 0 }),
        (on(1, 102, &[1]), Refusal::RepeatedLayerIndex { entry: 0 }),
        (on(2, 102, &[2]), Refusal::WrongEmbeddedIndex { entry: 0 }),
        (
            on(2, 102, &[0, 0]),
            Refusal::WrongEmbeddedIndex { entry: 0 },
        ),
    ] {
        assert_eq!(set.add(&entry), Err(refusal));
        assert_eq!(set, before);
    }
    for index in [2, 63, 64, 255] {
        assert_eq!(set.remove(LayerIndex(index)), Err(Refusal::NoSuchLayer));
        assert_eq!(set.closure(LayerIndex(index)), Err(Refusal::NoSuchLayer));
    }
    assert_eq!(set, before);
}

#[test]
fn two_views_of_which_one_is_removed() {
    let base_view = Entry {
        stream_type: 0x1B,
        elementary_pid: 288,
        record: Record::Implied,
    };
    let second = Entry {
        stream_type: 0x20,
        elementary_pid: 289,
        record: Record::Implied,
    };
    for reading in [Reading::Edition2009, Reading::Edition2015] {
        let mut set = LayerSet::read(reading, &SPORTS).unwrap();
        assert_eq!(
            layers(&set),
            [
                layer(base_view.clone(), &[0], false),
                layer(second.clone(), &[0, 1], false)
            ]
        );
        // the audio stream is no layer, and its PID is free
        set.add(&on(2, 290, &[1])).unwrap();
        set.remove(LayerIndex(0)).unwrap();
        assert_eq!(
            set.get(LayerIndex(1)),
            Some(layer(second.clone(), &[0, 1], true))
        );
        assert_eq!(
            set.add(&base_view),
            Err(Refusal::TypeNotAllowed { entry: 0 })
        );
        set.add(&base(0, 288)).unwrap();
        assert_eq!(set.closure(LayerIndex(2)), Ok(LayerIndices(0b111)));
    }
}

#[test]
fn a_set_of_a_loop_answers_as_the_loop() {
    for name in [
        "absent", "loop-a", "mv-hevc", "mvc", "sports", "svc", "twelve",
    ] {
        let path = format!("{}/../../samples/{name}.bin", env!("CARGO_MANIFEST_DIR"));
        let bytes = std::fs::read(path).unwrap();
        for reading in [Reading::Edition2009, Reading::Edition2015] {
            let set = LayerSet::read(reading, &bytes).unwrap();
            let read = read_loop(reading, &bytes).unwrap();
            let mut entries: Vec<Entry> = read
                .into_iter()
                .filter(|entry| entry.layer_index().is_some())
                .collect();
            entries.sort_by_key(Entry::layer_index);
            let of_set: Vec<Entry> = set.iter().map(|layer| layer.entry).collect();
            assert_eq!(of_set, entries);
            for index in (0..66).map(LayerIndex) {
                assert_eq!(set.closure(index), closure(reading, &bytes, index));
            }
        }
    }
    let refused = LayerSet::read(Reading::Edition2015, &[0x1B, 0xE1, 0x00, 0xF0]);
    assert_eq!(refused, Err(Refusal::DoesNotFit { entry: 0 }));
}

#[test]
fn what_a_set_offers() {
    let empty = LayerSet::new();
    assert!(empty.is_empty() && empty == LayerSet::default());
    assert_eq!((empty.len(), layers(&empty)), (0, vec![]));
    assert_eq!(format!("{empty:?}"), "{}");
    let set = set_of(&[on(63, 163, &[7, 5]), base(7, 107)]);
    assert_eq!(set.indices().to_string(), "{7, 63}");
    assert_eq!((set.len(), set.is_empty()), (2, false));
    let of_63 = set.get(LayerIndex(63)).unwrap();
    assert_eq!(of_63, layer(on(63, 163, &[7, 5]), &[5, 7, 63], true));
    assert_eq!(set.get(LayerIndex(5)), None);
    assert_eq!(set.get(LayerIndex(64)), None);
    let mut indices = Vec::new();
    for layer in &set {
        indices.push(layer.index.0);
    }
    assert_eq!(indices, [7, 63]);
}
