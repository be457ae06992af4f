//! The analyser made for the benchmark gives what the reference gives: the verdict, the rounds and every
//! byte of the buffer, for buffers of every length that matters.

use reference::cases::{rules, worked};
use reference::generate::{boundaries, of_kind, random, Kind, Rng};
use reference::groups::groups;
use reference::limits::{MAX_ROUTINES, ROUNDS_BASE, ROW_BYTES};
use reference::round_tables::{self, stored};
use reference::rounds::chain;
use reference::{analyse_number, check, fast, rounds_number};

/// Bytes that tell their places apart, never 0.
fn filler(count: usize) -> Vec<u8> {
    (0..count).map(|place| (place % 251) as u8 + 1).collect()
}

/// The numbers that are due for a table and a buffer: the verdict's and that of the rounds.
#[derive(Clone, Copy)]
struct Due {
    verdict: u32,
    rounds: u32,
}

/// What the reference gives; it leaves its bytes in the buffer.
fn due(table: &[u8], buffer: &mut [u8]) -> Due {
    let mut other = buffer.to_vec();
    let due = Due {
        verdict: analyse_number(table, buffer),
        rounds: rounds_number(table, &mut other),
    };
    assert_eq!(other, buffer, "{table:?}");
    due
}

/// The fast analyser gives these numbers and leaves these bytes in a buffer of as many bytes, in rounds
/// and in sweeps.
fn gives(what: &str, table: &[u8], due: Due, bytes: &[u8]) {
    type Call = fn(&[u8], &mut [u8]) -> u32;
    for (call, number) in [
        (fast::analyse_number as Call, due.verdict),
        (fast::rounds_number, due.rounds),
        (fast::sweep_number, due.verdict),
    ] {
        let mut buffer = filler(bytes.len());
        let given = call(table, &mut buffer);
        assert_eq!(given, number, "{what}: {table:?}");
        assert_eq!(buffer, bytes, "{what}: {table:?}");
    }
}

/// Holds both analysers against each other on one table.
fn hold(what: &str, table: &[u8]) -> Due {
    let exact = ROW_BYTES * check(table).map_or(1, |(routines, _)| routines);
    let mut bytes = filler(exact + ROW_BYTES + 7);
    let numbers = due(table, &mut bytes);
    gives(what, table, numbers, &bytes);
    gives(what, table, numbers, &bytes[..exact]);
    for short in [0, exact - 1] {
        let mut bytes = filler(short);
        let numbers = due(table, &mut bytes);
        gives(what, table, numbers, &bytes);
    }
    numbers
}

#[test]
fn worked_cases_and_a_table_for_each_rule() {
    for case in worked().iter().chain(&rules()) {
        hold(case.name, &case.table);
    }
}

#[test]
fn boundary_tables() {
    for boundary in boundaries() {
        hold(boundary.what, &boundary.table);
    }
}

#[test]
fn random_tables() {
    for index in 0..5_000 {
        let (kind, table) = random(2, index);
        hold(&format!("random table {index}, {kind:?}"), &table);
    }
}

#[test]
fn random_tables_of_nests() {
    let mut rng = Rng::new(4);
    for index in 0..3_000 {
        let table = of_kind(&mut rng, Kind::Nested);
        hold(&format!("nested table {index}"), &table);
    }
}

#[test]
fn random_tables_of_routines_reached_and_not() {
    let mut rng = Rng::new(5);
    for index in 0..3_000 {
        let table = of_kind(&mut rng, Kind::Mixed);
        hold(&format!("mixed table {index}"), &table);
    }
}

#[test]
fn random_tables_of_mirrors() {
    let mut rng = Rng::new(6);
    for kind in [
        Kind::Mirrors,
        Kind::LargeMirrors,
        Kind::BadMirrors,
        Kind::HeldMirrors,
    ] {
        for index in 0..1_500 {
            let table = of_kind(&mut rng, kind);
            hold(&format!("table {index} of {kind:?}"), &table);
        }
    }
}

/// Every prefix of some tables, and many values of each of their bytes.
#[test]
fn tables_cut_and_changed_everywhere() {
    let mut rng = Rng::new(3);
    for kind in [
        Kind::Small,
        Kind::Small,
        Kind::Nested,
        Kind::Nested,
        Kind::Mirrors,
        Kind::Mirrors,
        Kind::HeldMirrors,
        Kind::HeldMirrors,
    ] {
        let table = of_kind(&mut rng, kind);
        for at in 0..table.len() {
            hold("a prefix", &table[..at]);
            let mut changed = table.clone();
            for byte in (0..=20).chain([63, 64, 65, 127, 128, 255]) {
                changed[at] = byte;
                hold("a changed byte", &changed);
            }
        }
    }
}

#[test]
fn tables_of_the_benchmark() {
    for group in groups() {
        for table in &group.tables {
            hold(group.name, table);
        }
    }
}

#[test]
fn chains() {
    for n in 1..=MAX_ROUTINES {
        let due = hold("a chain", &chain(n).expect("a chain of so many"));
        assert_eq!(due.rounds, ROUNDS_BASE + n as u32 + 1);
    }
}

#[test]
fn stored_tables() {
    for stored in stored() {
        let due = hold("a stored table", &stored.table);
        assert_eq!(due.rounds, ROUNDS_BASE + stored.rounds);
    }
}

#[test]
fn random_tables_that_need_many_rounds() {
    let mut many = 0;
    for index in 0..400 {
        let (kind, table) = round_tables::table(8, index);
        let due = hold(&format!("table {index}, {kind:?}"), &table);
        many += u32::from(due.rounds > ROUNDS_BASE + 20);
    }
    assert!(many >= 40, "{many}");
}

/// In rounds and in sweeps a row is worked out once at least where it has a pair, and a refused table
/// has none.
#[test]
fn rows_worked_out_are_counted() {
    let dearest = chain(MAX_ROUTINES).expect("a chain of so many");
    // In rounds, each row but that of routine 0 once; that one twice, to tell since when it has its ring.
    // Sweeps work out each row once.
    assert_eq!(
        fast::rows_worked_out(&dearest),
        [MAX_ROUTINES + 1, MAX_ROUTINES]
    );
    assert_eq!(fast::rows_worked_out(&[]), [0, 0]);
}
