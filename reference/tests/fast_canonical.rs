//! The writer made for the benchmark gives what the reference gives: the answer and every byte of the
//! buffer, for buffers of every length that matters.

use reference::canonical::{canonical, canonical_number};
use reference::fast_canonical;
use reference::generate::{of_kind, Kind, Rng};
use reference::groups::{groups, writing_groups};
use reference::writing_cases::by_hand;
use reference::writings::input;

/// Holds both writers against each other on one table and one buffer.
fn hold(what: &str, table: &[u8], out: &[u8]) {
    let (mut given, mut due) = (out.to_vec(), out.to_vec());
    let answer = fast_canonical::canonical_number(table, &mut given);
    assert_eq!(
        answer,
        canonical_number(table, &mut due),
        "{what}: {table:?}"
    );
    assert_eq!(given, due, "{what}: {table:?}");
}

/// The same with buffers that are too short, just long enough and longer, of bytes that tell their
/// places apart and are never 0.
fn hold_all(what: &str, table: &[u8]) {
    let exact = canonical(table).map_or(table.len(), |result| result.len());
    for length in [0, exact.saturating_sub(1), exact, exact + 9] {
        let out: Vec<u8> = (0..length).map(|place| (place % 251) as u8 + 1).collect();
        hold(what, table, &out);
    }
}

#[test]
fn inputs_made_by_hand() {
    for made in by_hand() {
        hold(&made.what, &made.input.table, &made.input.out);
    }
}

/// Of all kinds, each with a buffer of some length.
#[test]
fn random_inputs() {
    for index in 0..12_000 {
        let (sort, input) = input(2, index);
        let what = format!("random input {index}, {sort:?}");
        hold(&what, &input.table, &input.out);
    }
}

/// Every prefix of some tables, and many values of each of their bytes.
#[test]
fn tables_cut_and_changed_everywhere() {
    let mut rng = Rng::new(3);
    for kind in [Kind::Small, Kind::Nested, Kind::Mirrors, Kind::HeldMirrors] {
        for _ in 0..2 {
            let table = of_kind(&mut rng, kind);
            for at in 0..table.len() {
                hold_all("a prefix", &table[..at]);
                let mut changed = table.clone();
                for byte in (0..=20).chain([63, 64, 65, 127, 128, 255]) {
                    changed[at] = byte;
                    hold_all("a changed byte", &changed);
                }
            }
        }
    }
}

#[test]
fn tables_of_the_benchmark() {
    for group in groups().iter().chain(&writing_groups()) {
        for table in &group.tables {
            hold_all(group.name, table);
        }
    }
}
