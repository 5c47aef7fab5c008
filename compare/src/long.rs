//! One long table, joined by the library and by plain: three layers, each at half the rate of the one below it and sent some pictures early.

use plain::{Columns, Layers, Rows};
use thoquenry_sys as raw;

const LAYERS: usize = 3;
const TARGET: u64 = 2;
/// How many pictures earlier than the layer below it a layer is sent.
const EARLY: u64 = 40;

/// The rows, in the order in which they are sent. The clock wraps among them.
fn rows(count: usize) -> Columns {
    let mut rows = Columns::default();
    let start = (1_u64 << 33) - 3600 * 1000;
    for sent in 0_u64.. {
        for layer in 0..LAYERS as u64 {
            let picture = sent + EARLY * layer;
            if picture % (1 << layer) != 0 {
                continue;
            }
            if rows.indices.len() == count {
                return rows;
            }
            let time = (start + 3600 * picture) % (1 << 33);
            rows.indices.push(layer as u8);
            rows.decodings.push(time);
            rows.matches.push(time);
        }
    }
    unreachable!("pictures do not end")
}

/// Joins such a table by both. An error where they differ.
pub fn run(count: usize) -> Result<String, String> {
    let mut layers = Layers {
        present: 0,
        embedded: [0; 64],
    };
    for layer in 0..LAYERS {
        layers.present |= 1 << layer;
        if layer > 0 {
            layers.embedded[layer] = 1 << (layer - 1);
        }
    }
    let mut table = rows(count);
    // The last pictures of the upper layers have no base picture in the table.
    let last = table.indices.iter().rposition(|&index| index == 0);
    let end = last.map_or(0, |row| table.decodings[row]);
    let start = table.decodings.first().copied().unwrap_or(0);
    let after = |time: u64| time.wrapping_sub(start) % (1 << 33);
    let kept: Vec<usize> = (0..count)
        .filter(|&row| after(table.decodings[row]) <= after(end))
        .collect();
    table = Columns {
        indices: kept.iter().map(|&row| table.indices[row]).collect(),
        decodings: kept.iter().map(|&row| table.decodings[row]).collect(),
        matches: kept.iter().map(|&row| table.matches[row]).collect(),
    };
    let length = table.indices.len();

    let (mut numbers, mut lags, mut sizes) = (vec![7; length], vec![7; length], vec![7; length]);
    let lists = plain::Lists {
        numbers: &mut numbers,
        lags: &mut lags,
        sizes: &mut sizes,
    };
    let given = Rows {
        indices: &table.indices,
        decodings: &table.decodings,
        matches: &table.matches,
    };
    let expected = plain::join_long(length, &layers, TARGET, given, lists)
        .map_err(|refusal| format!("compare: plain refuses the long table: {refusal:?}"))?;

    let (mut order, mut kept) = (vec![0_usize; length], vec![0_usize; length]);
    let (mut places, mut heads) = (vec![0_usize; length], vec![0_usize; length]);
    let (mut keys, mut claimed, mut used) =
        (vec![0_u64; length], vec![false; length], vec![false; length]);
    let (mut own_numbers, mut own_lags) = (vec![7_u64; length], vec![7_i64; length]);
    let (mut own_sizes, mut summary) = (vec![7_u64; length], [0_u64; 2]);
    // SAFETY: each pointer is of a list with the length beside it, and no two overlap.
    let answer = unsafe {
        raw::thq_join_long(
            layers.present,
            layers.embedded.as_ptr(),
            layers.embedded.len(),
            TARGET,
            table.indices.as_ptr(),
            length,
            table.decodings.as_ptr(),
            length,
            table.matches.as_ptr(),
            length,
            order.as_mut_ptr(),
            length,
            keys.as_mut_ptr(),
            length,
            kept.as_mut_ptr(),
            length,
            places.as_mut_ptr(),
            length,
            heads.as_mut_ptr(),
            length,
            claimed.as_mut_ptr(),
            length,
            used.as_mut_ptr(),
            length,
            own_numbers.as_mut_ptr(),
            length,
            own_lags.as_mut_ptr(),
            length,
            own_sizes.as_mut_ptr(),
            length,
            summary.as_mut_ptr(),
            summary.len(),
        )
    };
    let same = answer == (expected.rows as u64) << 8
        && summary == [expected.closure, expected.count as u64]
        && own_numbers == numbers
        && own_lags == lags
        && own_sizes == sizes;
    if !same {
        return Err(format!("compare: DIFFERENT on a table of {length} rows"));
    }
    Ok(format!(
        "compare: a table of {length} rows, {} units, library and plain implementation agree",
        expected.count
    ))
}
