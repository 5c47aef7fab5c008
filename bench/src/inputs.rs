//! The inputs that are measured.

use plain::{Columns, Embedded, Entry, Extension, Hierarchy, Layers, Record};

/// Document 01's loop A, 37 bytes.
pub const LOOP_A: [u8; 37] = [
    0x1B, 0xE1, 0x00, 0xF0, 0x06, 0x04, 0x04, 0xFF, 0xC0, 0xFF, 0xC0, 0x1F, 0xE1, 0x01, 0xF0, 0x06,
    0x04, 0x04, 0xD1, 0xC1, 0x40, 0xC1, 0x28, 0xE1, 0x02, 0xF0, 0x0A, 0x3F, 0x08, 0x06, 0x00, 0x02,
    0x08, 0x03, 0xC1, 0xC2, 0xC0,
];

/// An entry without a record.
fn other(pid: u16) -> Entry {
    Entry {
        stream_type: 0x0F,
        pid,
        record: None,
    }
}

/// A layer with a hierarchy descriptor, which rests on the layer below it.
fn hierarchy(index: u8) -> Entry {
    let base = index == 0;
    Entry {
        stream_type: if base { 0x1B } else { 0x1F },
        pid: 256 + u16::from(index),
        record: Some(Record::Hierarchy(Hierarchy {
            no_view: true,
            no_temporal: true,
            no_spatial: base,
            no_quality: true,
            hierarchy_type: if base { 15 } else { 1 },
            layer_index: index,
            tref_present: false,
            embedded_index: index.saturating_sub(1),
            channel: index,
        })),
    }
}

/// A layer with a hierarchy extension, which rests on up to eight layers below it.
fn extension(index: u8) -> Entry {
    let lower: Vec<u8> = (index.saturating_sub(8)..index).collect();
    Entry {
        stream_type: 0x28,
        pid: 256 + u16::from(index),
        record: Some(Record::Extension(Extension {
            dimension_bits: 1,
            layer_index: index,
            temporal_id: 0,
            nuh_layer_id: index,
            tref_present: false,
            channel: index,
            embedded: Embedded::new(&lower).expect("at most eight"),
        })),
    }
}

/// 64 layers with a hierarchy descriptor, and entries without one: nearly the longest loop.
pub fn hierarchies() -> Vec<Entry> {
    let mut entries: Vec<Entry> = (0..64).map(hierarchy).collect();
    entries.extend((0..59).map(|place| other(1000 + place)));
    entries
}

/// Layers with an extension of up to eight embedded layers: nearly the longest loop.
pub fn extensions() -> Vec<Entry> {
    (0..46).map(extension).collect()
}

/// All but one of the most entries that a loop can hold.
pub fn others() -> Vec<Entry> {
    (0..200).map(other).collect()
}

/// The loop of these entries.
pub fn loop_of(entries: &[Entry]) -> Vec<u8> {
    let mut bytes = vec![0; plain::LONGEST_LOOP];
    let length = plain::write_loop(entries, &mut bytes).expect("a sound loop");
    bytes.truncate(length);
    bytes
}

/// The loop of these entries and of one more that fills it up to 1,008 bytes.
pub fn longest_loop_of(entries: &[Entry]) -> Vec<u8> {
    let mut bytes = loop_of(entries);
    let info = plain::LONGEST_LOOP - bytes.len() - 5;
    bytes.extend([0x0F, 0xFF, 0xFF, 0xF0 | (info >> 8) as u8, info as u8]);
    bytes.resize(plain::LONGEST_LOOP, 0xFF);
    bytes
}

/// Layers of which each rests on so many below it.
pub fn layers(count: usize, names: usize) -> Layers {
    let mut layers = Layers::default();
    for index in 0..count {
        layers.present |= 1 << index;
        for lower in index.saturating_sub(names)..index {
            layers.embedded[index] |= 1 << lower;
        }
    }
    layers
}

/// A table of 512 rows of so many layers, unit after unit, across the wrap of the clock. Where each layer names one only, their decoding
/// times differ; layers that are named together have one decoding time.
pub fn rows(count: usize, names: usize) -> Columns {
    let mut rows = Columns::default();
    let apart = if names == 1 { 10 } else { 0 };
    for unit in 0..512 / count as u64 {
        let instant = (1 << 33) - 400_000 + 3600 * unit;
        for index in 0..count as u64 {
            rows.indices.push(index as u8);
            rows.decodings.push((instant + apart * index) % (1 << 33));
            let lower = index.saturating_sub(1);
            rows.matches.push((instant + apart * lower) % (1 << 33));
        }
    }
    rows
}

/// A table of so many rows in which each layer has a row at every second row of the one below it, as they arrive, across the wrap of the clock.
pub fn half_rate(count: usize, length: usize) -> Columns {
    let mut rows = Columns::default();
    let start = (1 << 33) - 400_000;
    for picture in 0_u64.. {
        for index in (0..count).take_while(|index| picture % (1 << index) == 0) {
            if rows.indices.len() == length {
                return rows;
            }
            let time = (start + 3600 * picture) % (1 << 33);
            rows.indices.push(index as u8);
            rows.decodings.push(time);
            rows.matches.push(time);
        }
    }
    unreachable!("pictures do not end")
}
