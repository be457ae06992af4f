//! What request #105 changes: a LOCK on another name of a lock that its thread holds in
//! the same body is passed over. It takes pairs and rings away, and adds none.

mod common;

use std::collections::BTreeMap;

use reference::cases::{held_mirror_rules, rules, worked, Case, Said};
use reference::generate::Kind;
use reference::limits::{RING_BYTE, ROW_BYTES};
use reference::model::{least_model, locks_passed_over, share, verdict, Outcome};
use reference::table::Table;
use reference::{analyse_by, listing_by, Rules, Share, Verdict};

// The tables for the rule, now and before.

/// The nonzero cells of a row as (a, b, value).
type Cells = &'static [(u8, u8, u8)];

/// The routine's thread locks 1, then 2 inside it, and a fork does the same.
const BESIDE_A_FORK: Cells = &[(0, 1, 1), (0, 2, 5), (1, 2, 3)];
/// It also wants 1 while it holds 2.
const OWN_BOTH: Cells = &[(0, 1, 5), (0, 2, 5), (1, 2, 7), (2, 1, 5)];
/// It is the fork that also wants 1 while it holds 2.
const FORK_BOTH: Cells = &[(0, 1, 5), (0, 2, 5), (1, 2, 7), (2, 1, 6)];
/// The routine's thread goes from 1 to 2 and a fork from 2 to 1; or the other way round.
const OWN_ONE_TWO: Cells = &[(0, 1, 5), (0, 2, 5), (1, 2, 5), (2, 1, 6)];
const OWN_TWO_ONE: Cells = &[(0, 1, 5), (0, 2, 5), (1, 2, 6), (2, 1, 5)];
/// The routine's thread alone: from 1 to 2, or both ways.
const ONE_TWO: Cells = &[(0, 1, 1), (0, 2, 1), (1, 2, 1)];
const ONE_TWO_ONE: Cells = &[(0, 1, 1), (0, 2, 1), (1, 2, 1), (2, 1, 1)];
/// The same over three locks, where 1 is wanted again while 2 is held, or while 3 is.
const ONE_TWO_THREE: Cells = &[
    (0, 1, 1),
    (0, 2, 1),
    (0, 3, 1),
    (1, 2, 1),
    (1, 3, 1),
    (2, 3, 1),
];
const ONE_AGAIN_IN_TWO: Cells = &[
    (0, 1, 1),
    (0, 2, 1),
    (0, 3, 1),
    (1, 2, 1),
    (1, 3, 1),
    (2, 1, 1),
    (2, 3, 1),
];
const ONE_AGAIN_IN_THREE: Cells = &[
    (0, 1, 1),
    (0, 2, 1),
    (0, 3, 1),
    (1, 2, 1),
    (1, 3, 1),
    (2, 1, 1),
    (2, 3, 1),
    (3, 1, 1),
    (3, 2, 1),
];
/// The same beside a fork that locks 3, then 2 inside it.
const ONE_TWO_THREE_BESIDE_A_FORK: Cells = &[
    (0, 1, 1),
    (0, 2, 5),
    (0, 3, 5),
    (1, 2, 5),
    (1, 3, 5),
    (2, 3, 5),
    (3, 2, 6),
];
const ONE_AGAIN_IN_TWO_BESIDE_A_FORK: Cells = &[
    (0, 1, 5),
    (0, 2, 5),
    (0, 3, 5),
    (1, 2, 5),
    (1, 3, 5),
    (2, 1, 5),
    (2, 3, 5),
    (3, 1, 4),
    (3, 2, 6),
];
/// A routine that locks its parameter.
const PARAMETER: Cells = &[(0, 1, 1)];

/// What is listed of a table: the rows from routine 1 on, the numbers of the share, and
/// the verdict.
#[derive(Clone, Copy)]
struct Told {
    rows: &'static [Cells],
    share: &'static str,
    verdict: &'static str,
}

const fn told(rows: &'static [Cells], share: &'static str, verdict: &'static str) -> Told {
    Told {
        rows,
        share,
        verdict,
    }
}

impl Told {
    fn text(&self, routines: u8) -> String {
        let mut text = format!("routines {routines}\n");
        for (below, cells) in self.rows.iter().enumerate() {
            for (a, b, value) in *cells {
                text += &format!("pair {} {a} {b} {value}\n", below + 1);
            }
        }
        text + &format!("share {}\n{}\n", self.share, self.verdict)
    }
}

/// Most often a table was a ring and is clear, in these two ways.
const OWN_RING: Told = told(&[OWN_BOTH], "0 0 2", "ring 0 1");
const FORK_RING: Told = told(&[FORK_BOTH], "0 0 2", "ring 0 1");
const NO_RING: Told = told(&[BESIDE_A_FORK], "100 0 2", "clear");

/// A table by its name, its listing, and the one before request #105 where that is another.
type Line = (&'static str, Told, Option<Told>);

/// The tables for the rule, in their order, worked out by hand.
const LINES: [Line; 37] = [
    (
        "a mirror of a name held, and no other thread",
        told(&[ONE_TWO], "100 0 2", "clear"),
        Some(told(&[ONE_TWO_ONE], "100 0 2", "clear")),
    ),
    (
        "a mirror of a NEW that is held",
        told(&[], "100 0 1", "clear"),
        Some(told(&[], "0 0 1", "ring 0 1")),
    ),
    (
        "one mirror held and another one of its lock",
        NO_RING,
        Some(OWN_RING),
    ),
    (
        "a mirror of a mirror of a name held",
        NO_RING,
        Some(OWN_RING),
    ),
    (
        "a mirror whose mirror's mirror is held",
        NO_RING,
        Some(OWN_RING),
    ),
    (
        "a mirror of a name that is not held",
        told(&[ONE_TWO_THREE], "100 0 2", "clear"),
        None,
    ),
    (
        "a mirror is not the name eight below it",
        told(
            &[&[
                (0, 1, 1),
                (0, 2, 5),
                (0, 3, 5),
                (1, 2, 5),
                (1, 3, 5),
                (2, 3, 6),
                (3, 2, 5),
            ]],
            "0 0 2",
            "ring 0 2",
        ),
        None,
    ),
    (
        "the lowest and the highest of eight mirrors",
        told(&[&[(0, 1, 5), (0, 7, 1), (7, 1, 3)]], "100 0 2", "clear"),
        Some(told(
            &[&[(0, 1, 5), (0, 7, 5), (1, 7, 5), (7, 1, 7)]],
            "0 0 2",
            "ring 0 1",
        )),
    ),
    (
        "three names taken again by their mirrors, one in another",
        told(&[ONE_TWO_THREE], "100 0 2", "clear"),
        Some(told(&[ONE_AGAIN_IN_THREE], "100 0 2", "clear")),
    ),
    (
        "a LOCK inside a mirror passed over has the outer h",
        told(&[ONE_TWO_THREE], "100 0 2", "clear"),
        Some(told(&[ONE_AGAIN_IN_TWO], "100 0 2", "clear")),
    ),
    (
        "a CALL inside a mirror passed over puts the outer h for name 0",
        told(
            &[ONE_TWO_THREE_BESIDE_A_FORK, PARAMETER],
            "33 1 3",
            "ring 0 2",
        ),
        Some(told(
            &[ONE_AGAIN_IN_TWO_BESIDE_A_FORK, PARAMETER],
            "33 1 3",
            "ring 0 1",
        )),
    ),
    (
        "behind a mirror passed over the h is as before it",
        told(&[ONE_TWO_THREE_BESIDE_A_FORK], "0 0 2", "ring 0 2"),
        Some(told(&[ONE_AGAIN_IN_TWO_BESIDE_A_FORK], "0 0 2", "ring 0 1")),
    ),
    (
        "the end of a mirror passed over ends no hold",
        NO_RING,
        Some(OWN_RING),
    ),
    (
        "a fork passes over a mirror of what it holds itself",
        NO_RING,
        Some(FORK_RING),
    ),
    (
        // The caller takes two pairs of unknown threads for those of several.
        "a fork alone passes over a mirror of what it holds",
        told(&[&[(1, 2, 2)]], "100 0 2", "clear"),
        Some(told(&[&[(1, 2, 2), (2, 1, 2)]], "50 0 2", "ring 0 1")),
    ),
    (
        "a fork does not hold its parent's lock by a mirror",
        told(&[OWN_ONE_TWO], "0 0 2", "ring 0 1"),
        None,
    ),
    (
        "a fork does not hold the lock of its parent's mirror",
        told(&[OWN_ONE_TWO], "0 0 2", "ring 0 1"),
        None,
    ),
    (
        "a fork inside a mirror passed over holds nothing",
        told(&[OWN_ONE_TWO], "0 0 2", "ring 0 1"),
        Some(told(
            &[&[(0, 1, 5), (0, 2, 5), (1, 2, 5), (2, 1, 7)]],
            "0 0 2",
            "ring 0 1",
        )),
    ),
    (
        "a fork in a block of the lock that it takes between",
        NO_RING,
        Some(FORK_RING),
    ),
    (
        "behind a fork the mirror is still one of a name held",
        NO_RING,
        Some(OWN_RING),
    ),
    (
        "a callee's mirror of what its caller holds",
        told(&[OWN_BOTH, PARAMETER], "33 1 3", "ring 0 1"),
        None,
    ),
    (
        "a CALL passes a mirror of what is held",
        told(&[OWN_BOTH, PARAMETER], "33 1 3", "ring 0 1"),
        None,
    ),
    (
        "a CALL inside a mirror passed over takes its lock",
        told(&[OWN_BOTH, PARAMETER], "33 1 3", "ring 0 1"),
        None,
    ),
    (
        "two parameters are no mirrors, also for a lock and its mirror",
        told(&[OWN_BOTH, ONE_TWO_THREE], "33 1 3", "ring 0 1"),
        None,
    ),
    (
        "a row loses a pair, and a caller its ring",
        told(&[BESIDE_A_FORK, ONE_TWO], "100 0 3", "clear"),
        Some(told(&[OWN_BOTH, ONE_TWO_ONE], "33 1 3", "ring 0 1")),
    ),
    (
        "a mirror behind the block of its lock",
        told(&[OWN_TWO_ONE], "0 0 2", "ring 0 1"),
        None,
    ),
    (
        "a mirror made in the block between",
        NO_RING,
        Some(OWN_RING),
    ),
    (
        "both alternatives pass over a mirror of what is held around them",
        told(
            &[&[
                (0, 1, 1),
                (0, 2, 5),
                (0, 3, 1),
                (1, 2, 3),
                (1, 3, 1),
                (3, 2, 1),
            ]],
            "100 0 2",
            "clear",
        ),
        Some(told(
            &[&[
                (0, 1, 5),
                (0, 2, 5),
                (0, 3, 5),
                (1, 2, 7),
                (1, 3, 5),
                (2, 1, 5),
                (2, 3, 5),
                (3, 1, 5),
                (3, 2, 5),
            ]],
            "0 0 2",
            "ring 0 1",
        )),
    ),
    (
        "what one alternative holds by a mirror the other does not",
        OWN_RING,
        None,
    ),
    (
        "each alternative has a mirror of its own of what is held",
        NO_RING,
        Some(OWN_RING),
    ),
    (
        "the mirror of one alternative is held, that of the other not",
        told(&[ONE_TWO_THREE], "100 0 2", "clear"),
        Some(told(&[ONE_AGAIN_IN_TWO], "100 0 2", "clear")),
    ),
    (
        "a mirror of the outermost block's name in the sixteenth",
        NO_RING,
        Some(OWN_RING),
    ),
    (
        "a pair loses the label own, and the ring stays",
        told(&[OWN_ONE_TWO], "0 0 2", "ring 0 1"),
        Some(told(
            &[&[(0, 1, 5), (0, 2, 5), (1, 2, 5), (2, 1, 7)]],
            "0 0 2",
            "ring 0 1",
        )),
    ),
    (
        "a ring is left in another routine",
        told(&[BESIDE_A_FORK, &[]], "66 2 3", "ring 2 1"),
        Some(told(&[OWN_BOTH, &[]], "0 0 3", "ring 0 1")),
    ),
    (
        "a ring is left at locals",
        told(&[BESIDE_A_FORK], "50 0 2", "ring 1 4"),
        Some(OWN_RING),
    ),
    (
        "a share grows, and the ring stays",
        told(&[], "66 2 3", "ring 1 1"),
        Some(told(&[], "33 1 3", "ring 1 1")),
    ),
    // A listing does not show the last byte of a row.
    (UNREACHED, told(&[], "100 0 1", "clear"), None),
];

const UNREACHED: &str = "a ring goes from a routine that no call reaches";

/// The tables of request #104 that were rings and are clear.
const LINES_OF_104: [Line; 3] = [
    (
        "a mirror made in a LOCK block of its lock",
        NO_RING,
        Some(OWN_RING),
    ),
    (
        "a LOCK on a mirror of a name held is passed over",
        NO_RING,
        Some(OWN_RING),
    ),
    (
        "a LOCK on a name whose mirror is held is passed over",
        NO_RING,
        Some(OWN_RING),
    ),
];

fn case(name: &str) -> Case {
    let found = rules().into_iter().find(|case| case.name == name);
    found.expect(name)
}

/// The answer and the model of a table that is accepted.
fn outcome(rules: Rules, table: &[u8]) -> (Said, Vec<u8>) {
    let mut model = vec![0; ROW_BYTES * table[0] as usize];
    (Said::from(analyse_by(rules, table, &mut model)), model)
}

fn listed(rules: Rules, table: &[u8]) -> String {
    let text = listing_by(rules, table, ROW_BYTES * table[0] as usize);
    String::from_utf8(text).expect("text")
}

#[test]
fn tables_list_as_worked_out() {
    let names: Vec<&str> = held_mirror_rules().iter().map(|case| case.name).collect();
    assert_eq!(names, LINES.map(|line| line.0));
    for (name, now, before) in LINES.into_iter().chain(LINES_OF_104) {
        let table = case(name).table;
        let text = now.text(table[0]);
        assert_eq!(listed(Rules::InForce, &table), text, "{name}");
        let text = before.unwrap_or(now).text(table[0]);
        assert_eq!(listed(Rules::Before105, &table), text, "{name}");
    }
}

#[test]
fn those_that_move_are_told() {
    let moves = |table: &[u8]| outcome(Rules::InForce, table) != outcome(Rules::Before105, table);
    let told = |name| {
        let mut lines = LINES.into_iter().chain(LINES_OF_104);
        name == UNREACHED || lines.any(|line| line.0 == name && line.2.is_some())
    };
    for case in worked().into_iter().chain(rules()) {
        assert_eq!(moves(&case.table), told(case.name), "{}", case.name);
    }
}

#[test]
fn a_routine_that_no_call_reaches_loses_its_last_byte() {
    let table = case(UNREACHED).table;
    let (now, before) = (
        outcome(Rules::InForce, &table),
        outcome(Rules::Before105, &table),
    );
    assert_eq!(now.0, before.0);
    assert_eq!(now.1, [0; 2 * ROW_BYTES]);
    let mut with_last_byte = [0; 2 * ROW_BYTES];
    with_last_byte[ROW_BYTES + RING_BYTE] = 1;
    assert_eq!(before.1, with_last_byte);
}

// Many tables.

fn tables() -> Vec<Table> {
    common::accepted(10, &[Kind::HeldMirrors], 1_000)
}

/// What the model says now and what it said before, where that is another thing.
struct Moved {
    table: Table,
    now: Vec<Outcome>,
    before: Vec<Outcome>,
}

impl Moved {
    fn all() -> Vec<Moved> {
        let moved = tables().into_iter().map(|table| Moved {
            now: least_model(Rules::InForce, &table),
            before: least_model(Rules::Before105, &table),
            table,
        });
        moved.filter(|moved| moved.now != moved.before).collect()
    }

    fn verdicts(&self) -> [Verdict; 2] {
        [&self.before, &self.now].map(|outcomes| verdict(&self.table, outcomes))
    }

    fn shares(&self) -> [Share; 2] {
        [&self.before, &self.now].map(|outcomes| share(&self.table, outcomes))
    }

    /// Whether all rows stay as they were.
    fn keeps_rows(&self) -> bool {
        let mut both = self.now.iter().zip(&self.before);
        both.all(|(now, before)| now.row == before.row)
    }
}

#[test]
fn rows_and_rings_are_among_those_before() {
    let all = Moved::all();
    // Not by chance: many tables are changed.
    assert!(all.len() >= 800, "{}", all.len());
    for Moved { table, now, before } in all {
        for (now, before) in now.iter().zip(&before) {
            assert!(now.row.is_subset(&before.row), "{table:?}");
            assert!(now.rings.is_subset(&before.rings), "{table:?}");
        }
    }
}

#[test]
fn a_table_moves_only_by_a_lock_passed_over_by_its_lock_alone() {
    let mut without = 0;
    for table in tables() {
        let [now, before] =
            [Rules::InForce, Rules::Before105].map(|rules| locks_passed_over(rules, &table));
        assert!(before <= now, "{table:?}");
        if before == now {
            without += 1;
            let [now, before] =
                [Rules::InForce, Rules::Before105].map(|rules| least_model(rules, &table));
            assert_eq!(now, before, "{table:?}");
        }
    }
    assert!(without >= 1_500, "{without}");
}

/// In what a table moves that has moved.
fn kind_of_move(moved: &Moved) -> &'static str {
    match (moved.verdicts(), moved.shares()) {
        ([Verdict::Clear, Verdict::Ring { .. }], _) => "a clear table becomes a ring",
        ([Verdict::Ring { .. }, Verdict::Clear], _) => "a ring becomes clear",
        ([Verdict::Ring { routine: old, .. }, Verdict::Ring { routine: new, .. }], _)
            if old != new =>
        {
            "a ring in another routine"
        }
        ([old, new], _) if old != new => "a ring at another name",
        (_, [old, new]) if old != new => "the share alone",
        _ if !moved.keeps_rows() => "rows alone",
        _ => "last bytes or further ring names alone",
    }
}

#[test]
fn tables_move_in_every_way_but_one() {
    let mut met: BTreeMap<&str, usize> = BTreeMap::new();
    for moved in Moved::all() {
        *met.entry(kind_of_move(&moved)).or_default() += 1;
    }
    let least = BTreeMap::from([
        ("a ring becomes clear", 300),
        ("a ring in another routine", 20),
        ("a ring at another name", 20),
        ("the share alone", 20),
        ("rows alone", 200),
        ("last bytes or further ring names alone", 20),
    ]);
    // Never from clear to a ring.
    assert!(met.keys().eq(least.keys()), "{met:?}");
    for (what, least) in least {
        assert!(met[what] >= least, "{met:?}");
    }
}
