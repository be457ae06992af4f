//! Inputs for `canonical`: tables of many kinds, and buffers of many lengths.

use crate::canonical::canonical;
use crate::generate::Rng;
use crate::schedules::pick;
use crate::writing_tables::{table_of, Kind};

/// All that a writer is given.
#[derive(Clone, Debug, PartialEq, Eq)]
pub struct Input {
    pub table: Vec<u8>,
    pub out: Vec<u8>,
}

/// What an input is made to be.
#[derive(Clone, Copy, Debug, PartialEq, Eq)]
pub struct Sort {
    pub kind: Kind,
    pub length: Length,
}

/// The lengths of a buffer. For a refused table they go by the table in place of the result.
#[derive(Clone, Copy, Debug, PartialEq, Eq)]
pub enum Length {
    /// No byte.
    Nothing,
    /// Any that is too short.
    Shorter,
    /// One byte too short.
    OneShort,
    /// As long as the result.
    Exact,
    /// One byte more.
    OneMore,
    /// Many bytes more.
    Longer,
    /// As long as the table.
    ByTable,
}

/// How many of sixty inputs are of each kind.
const SHARES: [(Kind, usize); 11] = [
    (Kind::Generated, 13),
    (Kind::Calls, 14),
    (Kind::Locals, 8),
    (Kind::Mirrored, 6),
    (Kind::Chain, 4),
    (Kind::Canonical, 2),
    (Kind::FullReached, 1),
    (Kind::FullUnreached, 1),
    (Kind::Boundary, 2),
    (Kind::Refused, 5),
    (Kind::Damaged, 4),
];

/// Input number `index` of a seed, with its sort.
pub fn input(seed: u64, index: u64) -> (Sort, Input) {
    let mut rng = Rng::indexed(seed, index);
    let kinds: Vec<Kind> = SHARES
        .iter()
        .flat_map(|&(kind, share)| vec![kind; share])
        .collect();
    let sort = Sort {
        kind: kinds[(index % kinds.len() as u64) as usize],
        length: some_length(&mut rng),
    };
    let table = table_of(&mut rng, sort.kind, index);
    let out = buffer(&mut rng, sort.length, &table);
    (sort, Input { table, out })
}

/// Most often long enough.
fn some_length(rng: &mut Rng) -> Length {
    match rng.below(20) {
        0 => Length::Nothing,
        1 => Length::Shorter,
        2 | 3 => Length::OneShort,
        4..=8 => Length::Exact,
        9..=11 => Length::OneMore,
        12..=16 => Length::Longer,
        _ => Length::ByTable,
    }
}

/// A buffer of this length for a table: with zero bytes, with 255, or with any.
fn buffer(rng: &mut Rng, length: Length, table: &[u8]) -> Vec<u8> {
    let exact = canonical(table).map_or(table.len(), |result| result.len());
    let length = match length {
        Length::Nothing => 0,
        Length::Shorter => rng.below(exact.max(1)),
        Length::OneShort => exact.saturating_sub(1),
        Length::Exact => exact,
        Length::OneMore => exact + 1,
        Length::Longer => exact + *pick(rng, &[2, 3, 7, 64, 255, 256, 4_096, 10_000]),
        Length::ByTable => table.len(),
    };
    match rng.below(4) {
        0 => vec![0; length],
        1 => vec![255; length],
        _ => rng.bytes(length),
    }
}

#[cfg(test)]
mod tests {
    use super::*;
    use crate::canonical::{canonical_number_by, Way, WRONG};
    use crate::writing_marks::{all_marks, marks};
    use std::collections::BTreeMap;

    /// The answer and the buffer afterwards.
    fn outcome(way: Way, input: &Input) -> (u32, Vec<u8>) {
        let mut out = input.out.clone();
        let answer = canonical_number_by(way, &input.table, &mut out);
        (answer, out)
    }

    #[test]
    fn a_seed_gives_the_same_inputs_again() {
        for index in 0..200 {
            assert_eq!(input(7, index), input(7, index));
        }
        assert_ne!(input(7, 0), input(8, 0));
    }

    #[test]
    fn a_thousand_inputs_meet_all_that_can_be_said_and_show_all_that_is_wrong() {
        let mut counts: BTreeMap<String, u32> =
            all_marks().into_iter().map(|mark| (mark, 0)).collect();
        let marks_in_all = counts.len();
        let mut wrong = BTreeMap::from(WRONG.map(|(way, _)| (way, 0)));
        for index in 0..1_000 {
            let (_, input) = input(1, index);
            let right = outcome(Way::InForce, &input);
            for mark in marks(&input, right.0) {
                *counts.entry(mark).or_default() += 1;
            }
            for (way, count) in &mut wrong {
                *count += u32::from(outcome(*way, &input) != right);
            }
        }
        assert_eq!(counts.len(), marks_in_all);
        for (mark, count) in &counts {
            assert!(*count > 0, "{mark}");
        }
        for (way, count) in wrong {
            assert!(count >= 20, "{way:?}: {count}");
        }
        // Most are written, and most of those differ from the table.
        assert!(counts["written"] >= 600, "{}", counts["written"]);
        assert!(counts["another table"] >= 600);
    }
}
