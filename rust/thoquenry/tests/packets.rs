//! Recordings of transport packets from Rust, all bytes at once: rows, the whole import, and the refusals in their order.

mod made;

use made::*;
use thoquenry::*;

#[test]
fn rows_of_a_recording() {
    let recording = packets().concat();
    assert_eq!(packets_rows(LOOP_A, &recording), Ok(rows()));
    assert_eq!(packets_rows(LOOP_A, &[]), Ok(vec![]));
    assert_eq!(packets_rows(&[], &recording), Ok(vec![]));
    // the rows can be joined as any others
    let table: Vec<Row> = rows().into_iter().map(Row::from).collect();
    let joined = import(Reading::Edition2015, LOOP_A, LayerIndex(1), &table);
    assert_eq!(joined.as_ref(), Ok(&units()[0]));
}

#[test]
fn the_whole_import() {
    let recording = packets().concat();
    for (target, units) in (1..).map(LayerIndex).zip(units()) {
        assert_eq!(
            packets_import(LOOP_A, target, &recording).as_ref(),
            Ok(&units)
        );
        assert_eq!(
            packets_import_long(LOOP_A, target, &recording),
            Ok((rows(), units))
        );
    }
    let nothing = Units {
        closure: LayerIndices(0b011),
        units: vec![],
    };
    let target = LayerIndex(1);
    assert_eq!(packets_import(LOOP_A, target, &[]), Ok(nothing.clone()));
    // no rows; and one alone, in the first packet
    let recordings = [vec![], other(), unit(256, 0, 0, None), packets()[1].clone()];
    for (recording, count) in recordings.iter().zip([0, 0, 1, 1]) {
        let (rows, units) = packets_import_long(LOOP_A, target, recording).unwrap();
        assert_eq!((rows.len(), units.units.len()), (count, count));
    }
}

#[test]
fn more_than_512_rows() {
    let target = LayerIndex(1);
    for (pictures, rows) in [(341, 512), (342, 513), (5000, 7500)] {
        let recording = long(pictures);
        let short = packets_import(LOOP_A, target, &recording);
        let (listed, units) = packets_import_long(LOOP_A, target, &recording).unwrap();
        assert_eq!(listed.len(), rows);
        assert_eq!(listed, packets_rows(LOOP_A, &recording).unwrap());
        assert_eq!(units.units.len(), pictures as usize);
        if rows <= 512 {
            assert_eq!(short, Ok(units));
        } else {
            assert_eq!(short, Err(Refusal::OutOfRange { row: 0 }.into()));
        }
    }
}

#[test]
fn refusals_of_packets() {
    for (packets, number, packet) in refused() {
        let recording = packets.concat();
        let refusal = packets_rows(LOOP_A, &recording).unwrap_err();
        assert_eq!((refusal.number(), refusal.place()), (number, packet));
        assert_eq!(refusal.packet, Some(packet));
        let target = LayerIndex(1);
        let short = packets_import(LOOP_A, target, &recording);
        assert_eq!(short, Err(refusal));
        let long = packets_import_long(LOOP_A, target, &recording);
        assert_eq!(long, Err(refusal));
        // on the PIDs of no layer only 30 is given
        let others = packets_rows(&[], &recording);
        assert_eq!(
            others,
            if number == 30 {
                Err(refusal)
            } else {
                Ok(vec![])
            }
        );
    }
}

#[test]
fn refusals_before_and_after_those_of_packets() {
    let lost = [packets().concat(), vec![0]].concat();
    let refused = |bytes: &[u8], target, recording: &[u8]| {
        let short = packets_import(bytes, LayerIndex(target), recording).unwrap_err();
        let long = packets_import_long(bytes, LayerIndex(target), recording).unwrap_err();
        assert_eq!(short, long);
        short
    };
    let does_not_fit = Refusal::DoesNotFit { entry: 0 };
    assert_eq!(refused(&[0; 4], 1, &lost), does_not_fit.into());
    assert_eq!(packets_rows(&[0; 4], &lost), Err(does_not_fit.into()));
    assert_eq!(refused(LOOP_A, 3, &lost), Refusal::NoSuchLayer.into());
    assert_eq!(refused(LOOP_A, 255, &lost), Refusal::NoSuchLayer.into());
    let absent = include_bytes!("../../../samples/absent.bin");
    let missing = Refusal::EmbeddedLayerAbsent {
        index: LayerIndex(1),
    };
    assert_eq!(refused(absent, 2, &lost), missing.into());
    assert_eq!(
        refused(LOOP_A, 1, &lost),
        Refusal::LostSync { packet: 8 }.into()
    );

    // joining's own, of the rows that the packets have
    let mut unpaired = packets();
    unpaired.remove(5);
    unpaired[4] = unit(256, 6, 8000, None);
    let broken = refused(LOOP_A, 1, &unpaired.concat());
    assert_eq!(broken, Refusal::TimeOrderBroken { row: 2 }.into());
    unpaired[4] = other();
    let alone = refused(LOOP_A, 1, &unpaired.concat());
    assert_eq!(alone, Refusal::Unpaired { row: 3 }.into());
    assert_eq!(alone.packet, None);
    let rows = packets_rows(LOOP_A, &unpaired.concat()).unwrap();
    assert_eq!(rows[alone.place()].packet, 6);
}

#[test]
fn refusals_in_words() {
    let start = unit(256, 0, 9000, None);
    let said = |packets: &[Vec<u8>]| {
        let refusal = packets_rows(LOOP_A, &packets.concat()).unwrap_err();
        refusal.to_string()
    };
    let mut audio = unit(256, 1, 9000, None);
    audio[7] = 0xC0;
    assert_eq!(
        said(&[start.clone(), audio]),
        "20: packet 1: this is not a video PES header"
    );
    assert_eq!(
        said(&[start, vec![0x47]]),
        "30: packet 1 has lost sync, or is the last part of one"
    );
    let refusal = packets_import(&[], LayerIndex(0), &[]).unwrap_err();
    assert_eq!(
        refusal.to_string(),
        "11: there is no layer with the target index"
    );
}
