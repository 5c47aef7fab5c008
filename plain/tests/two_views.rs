//! Two views and no hierarchy descriptor: the writer's marks, right and wrong. What is read is in the cases of `loop_cases`.

use plain::Reading::{Of2009, Of2015};
use plain::{Embedded, Entry, Extension, Hierarchy, Lists, Record, Refusal, Rows};

const MARK: Option<Record> = Some(Record::Implied);

fn entry(stream_type: u8, pid: u16, record: Option<Record>) -> Entry {
    Entry {
        stream_type,
        pid,
        record,
    }
}

/// A hierarchy descriptor without a flag at 0.
fn hierarchy(hierarchy_type: u8, layer_index: u8, embedded_index: u8) -> Option<Record> {
    Some(Record::Hierarchy(Hierarchy {
        no_view: true,
        no_temporal: true,
        no_spatial: true,
        no_quality: true,
        hierarchy_type,
        layer_index,
        tref_present: false,
        embedded_index,
        channel: 0,
    }))
}

/// An extension that rests on 0.
fn extension(layer_index: u8) -> Option<Record> {
    Some(Record::Extension(Extension {
        dimension_bits: 2,
        layer_index,
        temporal_id: 0,
        nuh_layer_id: 1,
        tref_present: false,
        channel: 0,
        embedded: Embedded::new(&[0]).unwrap(),
    }))
}

fn written(entries: &[Entry]) -> Result<Vec<u8>, Refusal> {
    let mut out = vec![0xAA; 1008];
    let length = plain::write_loop(entries, &mut out)?;
    assert!(out[length..].iter().all(|&byte| byte == 0xAA));
    out.truncate(length);
    Ok(out)
}

#[test]
fn no_descriptor_is_written() {
    let (base, second) = (entry(0x1B, 256, MARK), entry(0x20, 257, MARK));
    let of_base = [0x1B, 0xE1, 0x00, 0xF0, 0x00];
    let of_second = [0x20, 0xE1, 0x01, 0xF0, 0x00];
    assert_eq!(
        written(&[base, second]).unwrap(),
        [of_base, of_second].concat()
    );
    assert_eq!(
        written(&[second, base]).unwrap(),
        [of_second, of_base].concat()
    );
    for reading in [Of2009, Of2015] {
        for pair in [[base, second], [second, base]] {
            let bytes = written(&pair).unwrap();
            assert_eq!(plain::read_loop(reading, &bytes).unwrap(), pair);
            assert_eq!(plain::closure_of_loop(reading, &bytes, 0), Ok(0b01));
            assert_eq!(plain::closure_of_loop(reading, &bytes, 1), Ok(0b11));
        }
    }
}

#[test]
fn marks_right_and_wrong() {
    let accepted = |entries: &[Entry]| {
        let bytes = written(entries).unwrap();
        assert_eq!(plain::read_loop(Of2015, &bytes).unwrap(), entries);
    };
    let refused = |number, place, entries: &[Entry]| {
        assert_eq!(written(entries), Err(Refusal::at(number, place)));
    };
    let (base, second) = (entry(0x1B, 256, MARK), entry(0x20, 257, MARK));
    let (plain_base, plain_second) = (entry(0x1B, 256, None), entry(0x20, 257, None));
    let audio = entry(0x0F, 258, None);

    // none where the rule gives one
    refused(6, 0, &[plain_base, plain_second]);
    refused(6, 0, &[plain_base, second]);
    refused(6, 1, &[base, plain_second]);
    refused(6, 2, &[audio, second, plain_base]);

    // one where the rule gives none: alone, on another type, beside a second of the type, beside a descriptor
    refused(6, 0, &[base]);
    refused(6, 1, &[audio, second]);
    refused(6, 2, &[base, second, entry(0x0F, 258, MARK)]);
    refused(6, 2, &[base, second, entry(0x24, 258, MARK)]);
    refused(6, 1, &[entry(0x1B, 258, None), base, plain_second]);
    refused(6, 2, &[plain_base, entry(0x20, 258, None), second]);
    refused(6, 1, &[entry(0x1B, 256, hierarchy(15, 0, 63)), second]);
    refused(6, 0, &[base, entry(0x20, 257, hierarchy(9, 1, 0))]);

    // neither
    accepted(&[base, audio, second]);
    accepted(&[plain_base]);
    accepted(&[plain_base, entry(0x1B, 258, None), plain_second]);
    accepted(&[entry(0x1B, 256, hierarchy(15, 0, 63)), plain_second]);
    accepted(&[base, second, entry(0x1F, 258, hierarchy(1, 2, 1))]);

    // an extension is no hierarchy descriptor: the mark is missing, or the extension is refused
    refused(6, 0, &[plain_base, entry(0x20, 257, extension(1))]);
    refused(6, 1, &[base, entry(0x20, 257, extension(1))]);

    // beside other faults
    let hevc = entry(0x24, 258, hierarchy(15, 0, 63));
    refused(25, 0, &[entry(0x1B, 8192, None), second]);
    refused(3, 1, &[plain_base, entry(0x20, 256, MARK)]);
    refused(
        6,
        0,
        &[entry(0x1F, 258, hierarchy(9, 5, 0)), plain_base, second],
    );
    refused(6, 1, &[hevc, plain_base, second]);
    refused(8, 1, &[hevc, base, second]);
    refused(8, 1, &[base, hevc, second]);
    refused(8, 2, &[second, base, hevc]);
    refused(8, 2, &[base, second, entry(0x1F, 258, hierarchy(1, 1, 0))]);
}

#[test]
fn rows_over_two_views() {
    let bytes = written(&[entry(0x20, 257, MARK), entry(0x1B, 256, MARK)]).unwrap();
    let rows = Rows {
        indices: &[0, 1, 0, 1],
        decodings: &[9000, 9000, 12600, 12000],
        matches: &[9000, 9000, 12600, 12600],
    };
    for reading in [Of2009, Of2015] {
        let (mut numbers, mut lags, mut sizes) = ([9; 4], [9; 4], [9; 4]);
        let lists = Lists {
            numbers: &mut numbers,
            lags: &mut lags,
            sizes: &mut sizes,
        };
        let units = plain::import(reading, &bytes, 1, rows, lists).unwrap();
        assert_eq!((units.closure, units.count, units.rows), (0b11, 2, 4));
        assert_eq!((numbers, lags), ([0, 1, 2, 3], [0, 0, 600, 0]));
        assert_eq!(sizes, [2, 2, 9, 9]);
    }
}
