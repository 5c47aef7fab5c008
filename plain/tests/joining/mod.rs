//! Joining in the tests: by all ways, which have to agree.

use plain::{Layers, Lists, Refusal, Rows, Units};

pub type Answer = Result<(Units, Vec<u64>, Vec<i64>, Vec<u64>), Refusal>;
type Joining<'a> = &'a dyn Fn(&Layers, u64, Rows, Lists) -> Result<Units, Refusal>;

/// Joins by the index, by the search and without a limit of rows, into lists that are longer than needed.
pub fn join(layers: &Layers, target: u64, table: &[(u8, u64, u64)]) -> Answer {
    let indices: Vec<u8> = table.iter().map(|row| row.0).collect();
    let decodings: Vec<u64> = table.iter().map(|row| row.1).collect();
    let matches: Vec<u64> = table.iter().map(|row| row.2).collect();
    let rows = Rows {
        indices: &indices,
        decodings: &decodings,
        matches: &matches,
    };
    let run = |join: Joining| {
        let room = table.len() + 1;
        let (mut numbers, mut lags, mut sizes) = (vec![99; room], vec![99; room], vec![99; room]);
        let lists = Lists {
            numbers: &mut numbers,
            lags: &mut lags,
            sizes: &mut sizes,
        };
        let units = join(layers, target, rows, lists)?;
        assert!(numbers[units.rows..].iter().all(|&number| number == 99));
        assert!(lags[units.rows..].iter().all(|&lag| lag == 99));
        assert!(sizes[units.count..].iter().all(|&size| size == 99));
        numbers.truncate(units.rows);
        lags.truncate(units.rows);
        sizes.truncate(units.count);
        assert_eq!(sizes.iter().sum::<u64>(), units.rows as u64);
        Ok((units, numbers, lags, sizes))
    };
    let answer = run(&plain::join);
    assert_eq!(answer, run(&plain::join_by_search));
    let long: Joining =
        &|layers, target, rows, lists| plain::join_long(table.len(), layers, target, rows, lists);
    assert_eq!(answer, run(long));
    answer
}
