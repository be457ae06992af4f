//! What several of the tests go over.

use reference::cases::{rules, worked};
use reference::generate::{of_kind, random, Kind, Rng};
use reference::table::{read, Table};

/// The accepted ones of the worked tables, those for the rules, and random ones of the
/// seed: 3,000 of all kinds, and so many of the kinds given, in turn.
pub fn accepted(seed: u64, kinds: &[Kind], count: usize) -> Vec<Table> {
    let cases = worked().into_iter().chain(rules()).map(|case| case.table);
    let of_all_kinds = (0..3_000).map(|index| random(seed, index).1);
    let mut rng = Rng::new(seed);
    let of_kinds = (0..count).map(|index| of_kind(&mut rng, kinds[index % kinds.len()]));
    cases
        .chain(of_all_kinds)
        .chain(of_kinds)
        .filter_map(|table| read(&table).ok())
        .collect()
}
