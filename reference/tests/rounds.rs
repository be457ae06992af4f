//! The rounds of request #109: how many there are in tables made by hand, their bounds, what counts as a
//! change, and the count by a second way.

mod common;

use std::fs;
use std::path::Path;

use reference::cases::{limits, worked};
use reference::generate::{assemble, random, Kind};
use reference::limits::code::*;
use reference::limits::{most_rounds, most_rounds_without_cycle};
use reference::limits::{MAX_PARAMETERS, MAX_ROUTINES, RING_BYTE, ROUNDS_BASE};
use reference::limits::{ROW_BYTES, ROW_CELLS, ROW_CHANGES};
use reference::model::{least_model, row_bytes, worked_out, Pairs};
use reference::round_tables::{self, stored};
use reference::rounds::{chain, in_rounds, Counted, Way, WRONG};
use reference::table::{read, Item, Routine, Table};
use reference::update::has_cell;
use reference::{analyse, analyse_number, check, hex, rounds_number, Answer, Rules};

/// The number of rounds of an accepted table.
fn rounds(table: &[u8]) -> u32 {
    let mut buffer = [0; ROW_BYTES * MAX_ROUTINES];
    match analyse(table, &mut buffer) {
        Answer::Accepted { rounds, .. } => rounds,
        Answer::Refused(number) => panic!("refused by {number}: {table:?}"),
    }
}

fn counted(table: &[u8]) -> Counted {
    Counted::new(read(table).expect("an accepted table"))
}

fn chain_of(n: usize) -> Vec<u8> {
    chain(n).expect("a chain of so many")
}

/// Accepted tables of all kinds, and some that are made to need many rounds.
fn tables(seed: u64) -> Vec<Table> {
    let made = (0..100).map(|index| round_tables::table(seed, index).1);
    let made = made.map(|bytes| read(&bytes).expect("an accepted table"));
    let mut all = common::accepted(seed, &[Kind::Small, Kind::Mixed], 500);
    all.extend(made);
    all
}

// Tables made by hand.

/// By hand: a round changes something while a row or a ring is still to come.
#[test]
fn worked_cases_need_their_rounds() {
    let due = [
        // Routine 0 has no parameter, so its row is empty: round 1 changes nothing, or brings its ring.
        ("a-empty-body", 1),
        ("b-two-threads-opposite-order", 2),
        ("c-two-threads-same-order", 1),
        ("d-one-thread-locks-twice", 1),
        ("e-two-threads-lock-twice", 1),
        ("f-opposite-order-under-one-guard", 2),
        // Round 1: row 1 has (0, 1), (0, 2) and (2, 1). Round 2: through the call, the fork's (1, 3)
        // meets (2, 3) and (0, 3), which gives nothing between 0, 1 and 2.
        ("g-philosophers", 2),
        // Round 1: row 1 has (0, 1), (0, 2) and (1, 2), all own. Round 2: the fork's (1, 3) meets the
        // call's (3, 2), so that (1, 2) and (0, 2) are several too. Round 3: routine 0, which passes one
        // lock twice, has its ring. Round 4 changes nothing.
        ("h-philosophers-all-alike", 4),
        // Round 1: row 1. Round 2: the ring of routine 0.
        ("i-called-fork-one-lock-twice", 3),
        ("i-written-fork-one-lock-twice", 1),
        ("j-main-thread-locks-first-again", 1),
    ];
    let worked = worked();
    assert_eq!(worked.len(), due.len());
    for (case, (name, number)) in worked.iter().zip(due) {
        assert_eq!(case.name, name);
        assert_eq!(rounds(&case.table), number, "{name}");
    }
}

#[test]
fn a_chain_of_n_needs_one_round_more_than_n() {
    for n in 1..=MAX_ROUTINES {
        let table = chain_of(n);
        assert_eq!(check(&table).map(|counts| counts.0), Ok(n));
        assert_eq!(rounds(&table), n as u32 + 1, "{n}");
    }
    assert_eq!(chain(0), None);
    assert_eq!(chain(MAX_ROUTINES + 1), None);
}

#[test]
fn chains_have_their_bytes() {
    let b = &worked()[1];
    assert_eq!(b.name, "b-two-threads-opposite-order");
    assert_eq!(chain_of(1), b.table);
    let three = "03 00 02 02 1F 00 01 01 06 01 01 02 00 01 01 06 02 01 02 00
                 01 01 03 02 01 02 02 00 00 00 02 02 02 01 00 00 00";
    assert_eq!(chain_of(3), hex::parse(three).expect("hexadecimal"));
}

#[test]
fn stored_tables_need_the_rounds_that_they_are_stored_for() {
    let mut before = 0;
    for stored in stored() {
        assert_eq!(rounds(&stored.table), stored.rounds);
        assert!(stored.rounds > before);
        before = stored.rounds;
    }
    // Those of the folder are all in the list.
    let folder = Path::new(env!("CARGO_MANIFEST_DIR")).join("tables");
    let mut files = 0;
    for entry in fs::read_dir(folder).expect("the folder of tables") {
        let path = entry.expect("a file").path();
        let text = fs::read_to_string(&path).expect("text");
        let table = hex::parse(&text).expect("hexadecimal");
        assert!(
            stored().iter().any(|stored| stored.table == table),
            "{path:?}"
        );
        files += 1;
    }
    assert_eq!(files, stored().len());
}

// What counts.

/// Routine 1 calls a chain of routines that ends with a ring; routine 0 calls nobody, and has no ring.
#[test]
fn routines_that_calls_do_not_reach_count() {
    let mut table = chain_of(5);
    let call = [CALL, 1, 1, 2];
    let at = table.windows(4).position(|bytes| bytes == call);
    let at = at.expect("routine 0 calls routine 1");
    table.splice(at..at + 4, [NEW; 4]);
    // Rounds 1 to 4 bring the rows of routines 4 to 1.
    assert_eq!(rounds(&table), 5);
    assert_eq!(counted(&table).rounds(Way::ReachedAlone), 1);
}

#[test]
fn a_last_byte_alone_is_a_change() {
    // The last change is that of routine 0, which has no cells.
    for n in 1..=MAX_ROUTINES {
        let counted = counted(&chain_of(n));
        assert_eq!(counted.rounds(Way::CellsAlone), n as u32, "{n}");
    }
    // Routine 1 has a parameter, but no pair between its names.
    let body = [
        NEW, NEW, FORK, LOCK, 2, LOCK, 3, END, END, END, FORK, LOCK, 3, LOCK, 2, END, END, END, END,
    ];
    let table = assemble(&[0, 1], &[&[END], &body[..]].concat());
    let mut model = [0; 2 * ROW_BYTES];
    assert_eq!(rounds_number(&table, &mut model), ROUNDS_BASE + 2);
    assert_eq!(model[..ROW_BYTES + RING_BYTE], [0; ROW_BYTES + RING_BYTE]);
    assert_eq!(model[ROW_BYTES + RING_BYTE], 1);
}

/// A cell alone is a change too, where no last byte ever changes.
#[test]
fn a_cell_alone_is_a_change() {
    let table = assemble(&[0, 1], &[END, LOCK, 1, END, END]);
    assert_eq!(rounds(&table), 2);
    assert_eq!(counted(&table).rounds(Way::LastBytesAlone), 1);
}

/// The chain of n in which each routine calls the next lower one, and routine 0 the highest.
fn falling_chain(n: usize) -> Vec<u8> {
    let mut counts = vec![2; n];
    counts[0] = 0;
    let last = chain_of(1)[4..].to_vec();
    let mut section = vec![NEW, NEW, CALL, n as u8 - 1, 1, 2, END];
    section.extend(last);
    for routine in 2..n as u8 {
        section.extend([NEW, NEW, CALL, routine - 1, 1, 2, END]);
    }
    assemble(&counts, &section)
}

/// Rows of a round that are used in it make fewer rounds, whichever way the calls go.
#[test]
fn rounds_are_not_sweeps() {
    for n in 3..=MAX_ROUTINES {
        let rising = counted(&chain_of(n));
        assert_eq!(rising.rounds(Way::InForce), n as u32 + 1);
        assert_eq!(rising.rounds(Way::InPlaceRising), n as u32 + 1);
        assert_eq!(rising.rounds(Way::InPlaceFalling), 2);
        assert_eq!(rising.rounds(Way::Sweeps), 1);
        let falling = counted(&falling_chain(n));
        assert_eq!(falling.rounds(Way::InForce), n as u32 + 1);
        // Routine 0 calls the highest one, so it is late in one order and not in the other.
        assert_eq!(falling.rounds(Way::InPlaceRising), 3);
        assert_eq!(falling.rounds(Way::InPlaceFalling), n as u32);
        assert!(falling.rounds(Way::Sweeps) < n as u32);
    }
}

// The bounds.

#[test]
fn the_bound_counts_cells_labels_and_the_last_byte() {
    let cells = (0..RING_BYTE).filter(|&at| has_cell(MAX_PARAMETERS, at));
    assert_eq!(cells.count(), ROW_CELLS as usize);
    assert_eq!(ROW_CHANGES, 148);
    assert_eq!(most_rounds(1), 149);
    assert_eq!(most_rounds(MAX_ROUTINES), 9_473);
    assert_eq!(most_rounds_without_cycle(MAX_ROUTINES), 65);
}

/// Whether calls lead from a routine to itself: by ways of one call, of two, and so on.
fn has_cycle(table: &Table) -> bool {
    let n = table.routines.len();
    let mut leads = vec![vec![false; n]; n];
    for (caller, routine) in table.routines.iter().enumerate() {
        for item in &routine.items {
            if let Item::Call { routine, .. } = item {
                leads[caller][*routine] = true;
            }
        }
    }
    for over in 0..n {
        let further = leads[over].clone();
        for from in leads.iter_mut().filter(|from| from[over]) {
            for (lead, further) in from.iter_mut().zip(&further) {
                *lead |= further;
            }
        }
    }
    (0..n).any(|at| leads[at][at])
}

#[test]
fn rounds_are_within_their_bounds() {
    let (mut cyclic, mut acyclic, mut sharp) = (0, 0, 0);
    for table in tables(12) {
        let n = table.routines.len();
        let (_, rounds) = in_rounds(Rules::InForce, &table);
        assert!((1..=most_rounds(n)).contains(&rounds), "{table:?}");
        if has_cycle(&table) {
            cyclic += 1;
        } else {
            acyclic += 1;
            assert!(rounds <= most_rounds_without_cycle(n), "{table:?}");
            sharp += usize::from(rounds == most_rounds_without_cycle(n));
        }
    }
    assert!(cyclic >= 500, "{cyclic}");
    assert!(acyclic >= 500, "{acyclic}");
    assert!(sharp >= 100, "{sharp}");
}

// The count by other ways.

/// The count without a shortcut: every body is worked out in every round.
#[test]
fn bodies_are_the_same_worked_out_each_time() {
    for table in tables(13) {
        let mut rows = vec![Pairs::new(); table.routines.len()];
        let mut model = vec![[0; ROW_BYTES]; table.routines.len()];
        let mut rounds = 0;
        loop {
            let bodies = table.routines.iter();
            let after: Vec<_> = bodies
                .map(|routine| worked_out(Rules::InForce, routine, &rows))
                .collect();
            rounds += 1;
            let bytes: Vec<_> = after.iter().map(row_bytes).collect();
            if bytes == model {
                assert_eq!(in_rounds(Rules::InForce, &table), (after, rounds));
                break;
            }
            rows = after.into_iter().map(|outcome| outcome.row).collect();
            model = bytes;
        }
    }
}

/// A table in which no routine reaches itself: `depth` layers of the routines of another, each of which
/// calls those of the layer below, over one in which all bodies are empty.
fn layered(table: &Table, depth: usize) -> Table {
    let n = table.routines.len();
    let empty = |routine: &Routine| Routine {
        parameters: routine.parameters,
        items: vec![Item::End],
    };
    let mut routines: Vec<Routine> = table.routines.iter().map(empty).collect();
    for layer in 1..=depth {
        routines.extend(table.routines.iter().map(|routine| {
            let items = routine.items.iter().map(|item| match item {
                Item::Call { routine, names } => Item::Call {
                    routine: n * (layer - 1) + routine,
                    names: names.clone(),
                },
                other => other.clone(),
            });
            Routine {
                parameters: routine.parameters,
                items: items.collect(),
            }
        }));
    }
    Table { routines }
}

/// The rows of a round are those of routines that call only so many deep, and these the least model
/// gives: the first layer with the bytes of the one below it is that of the last round.
#[test]
fn rounds_are_layers_of_calls() {
    let (mut held, mut many) = (0, 0);
    for table in tables(14) {
        let n = table.routines.len();
        let (outcomes, rounds) = in_rounds(Rules::InForce, &table);
        // The layers are many, and the least model of them is worked out by sweeps over all.
        if n as u32 * rounds * rounds > 2_000 {
            continue;
        }
        let layers = least_model(Rules::InForce, &layered(&table, rounds as usize + 1));
        let bytes: Vec<[u8; ROW_BYTES]> = layers.iter().map(row_bytes).collect();
        let layers: Vec<&[[u8; ROW_BYTES]]> = bytes.chunks(n).collect();
        let same = layers.windows(2).position(|pair| pair[0] == pair[1]);
        assert_eq!(same, Some(rounds as usize - 1), "{table:?}");
        let last: Vec<[u8; ROW_BYTES]> = outcomes.iter().map(row_bytes).collect();
        assert_eq!(layers[rounds as usize], last);
        held += 1;
        many += usize::from(rounds > 5);
    }
    assert!(held >= 1_000, "{held}");
    assert!(many >= 20, "{many}");
}

#[test]
fn the_last_round_gives_the_least_model() {
    let tables = tables(15);
    // By the rules in force for all, by the others for some.
    for (rules, step) in [
        (Rules::InForce, 1),
        (Rules::Before101, 9),
        (Rules::Before105, 9),
        (Rules::MirrorsApart, 9),
    ] {
        for table in tables.iter().step_by(step) {
            let (outcomes, _) = in_rounds(rules, table);
            assert_eq!(outcomes, least_model(rules, table), "{table:?}");
        }
    }
}

// The number.

/// Refusals and the buffer are those of the analysis.
#[test]
fn the_number_of_rounds_comes_with_the_analysis() {
    let random = (0..2_000).map(|index| (random(16, index).1, ROW_BYTES * MAX_ROUTINES));
    let limits = limits().into_iter().map(|case| (case.table, case.buffer));
    let (mut refused, mut accepted) = (0, 0);
    for (table, length) in random.chain(limits) {
        let mut expected = vec![0xA5; length];
        let verdict = analyse_number(&table, &mut expected);
        let mut given = vec![0xA5; length];
        let number = rounds_number(&table, &mut given);
        assert_eq!(given, expected, "{table:?}");
        if (1..ROUNDS_BASE).contains(&verdict) {
            refused += 1;
            assert_eq!(number, verdict, "{table:?}");
        } else {
            accepted += 1;
            assert_eq!(number, ROUNDS_BASE + rounds(&table), "{table:?}");
        }
    }
    assert!(refused >= 100 && accepted >= 1_000);
}

/// Each wrong way is told apart by many tables, and the right one by none.
#[test]
fn wrong_ways_are_told_apart() {
    let mut apart = WRONG.map(|(_, what)| (what, 0));
    for table in tables(17) {
        let (_, rounds) = in_rounds(Rules::InForce, &table);
        let counted = Counted::new(table);
        assert_eq!(counted.rounds(Way::InForce), rounds);
        for ((way, _), (_, times)) in WRONG.iter().zip(&mut apart) {
            *times += u32::from(counted.rounds(*way) != rounds);
        }
    }
    for (what, times) in apart {
        assert!(times >= 50, "{what}: {times}");
    }
}
