//! The rules for pairs and labels, the least model, the verdict and the share.
//!
//! Naive on purpose: plain sets of pairs, recomputed until nothing changes.

use std::collections::{BTreeMap, BTreeSet};

use crate::limits::{CELL_OWN, CELL_SEVERAL, CELL_UNKNOWN, OUTER_NAME};
use crate::limits::{RING_BYTE, ROW_BYTES, ROW_SIDE, WHOLE};
use crate::table::{Block, Item, Routine, Table};
use crate::{Share, Verdict};

/// Who holds the one lock and wants the other.
#[derive(Clone, Copy, Debug, PartialEq, Eq, PartialOrd, Ord)]
pub enum Label {
    /// The running thread.
    Own,
    /// The thread of this fork, from 1 on.
    Fork(u8),
    /// One thread without a name.
    Unknown,
    /// Two threads or more.
    Several,
}

/// `held` is held while `wanted` is wanted. Ordered by `held` first.
#[derive(Clone, Copy, Debug, PartialEq, Eq, PartialOrd, Ord)]
pub struct Pair {
    pub held: u8,
    pub wanted: u8,
    pub label: Label,
}

pub type Pairs = BTreeSet<Pair>;

/// What the model says of one routine.
#[derive(Clone, Debug, PartialEq, Eq)]
pub struct Outcome {
    /// What a caller sees.
    pub row: Pairs,
    /// The names at which the body has a ring.
    pub rings: BTreeSet<u8>,
}

/// The label of a pair that follows from two pairs.
pub fn combine(first: Label, second: Label) -> Label {
    match (first, second) {
        // One known thread does both.
        (Label::Own, Label::Own) => Label::Own,
        (Label::Fork(i), Label::Fork(j)) if i == j => Label::Fork(i),
        // Anything else may be two threads, also unknown with unknown.
        _ => Label::Several,
    }
}

/// Adds a pair, unless its ends are equal and its label is not several.
/// Says whether the set grew.
fn add(pairs: &mut Pairs, pair: Pair) -> bool {
    if pair.held == pair.wanted && pair.label != Label::Several {
        return false;
    }
    pairs.insert(pair)
}

/// Which rules for pairs are applied. The share is taken of what they give.
#[derive(Clone, Copy, Debug, PartialEq, Eq)]
pub enum Rules {
    /// Those in force: document 01 with requests #101, #104 and #105.
    InForce,
    /// Those without nests, so without requests #101 and #105, to tell what nests change.
    Before101,
    /// Those with nests by the names as written, to tell what request #105 changes.
    Before105,
    /// Those in force with each mirror a lock of its own, to tell what mirrors change.
    MirrorsApart,
}

/// The thread at a place, and its open blocks in this body, the outermost first.
fn thread(open: &[Block]) -> (Label, &[Block]) {
    // Looks outward for a fork. Nothing outside it belongs to its thread.
    for at in (0..open.len()).rev() {
        if let Block::Fork(number) = open[at] {
            return (Label::Fork(number), &open[at + 1..]);
        }
    }
    (Label::Own, open)
}

/// Whether a LOCK on a name is passed over: one of the blocks around it, all of
/// its thread, is a LOCK block of that name.
fn passed_over(rules: Rules, around: &[Block], name: u8) -> bool {
    match rules {
        Rules::InForce | Rules::Before105 | Rules::MirrorsApart => {
            around.contains(&Block::Lock(name))
        }
        Rules::Before101 => false,
    }
}

/// The name in the nearest of a thread's LOCK blocks, where those of a LOCK that
/// is passed over do not count.
fn nearest(rules: Rules, blocks: &[Block]) -> Option<u8> {
    // Looks outward from the innermost one.
    for at in (0..blocks.len()).rev() {
        if let Block::Lock(name) = blocks[at] {
            if !passed_over(rules, &blocks[..at], name) {
                return Some(name);
            }
        }
    }
    None
}

/// The thread at a place in a body, and the name it holds there (its h).
#[derive(Clone, Copy, Debug, PartialEq, Eq)]
struct Place {
    thread: Label,
    held: Option<u8>,
}

/// The place inside these open blocks.
fn place(rules: Rules, open: &[Block]) -> Place {
    let (thread, blocks) = thread(open);
    // Without a LOCK block the running thread holds name 0, and a fork nothing.
    let without = match thread {
        Label::Own => Some(OUTER_NAME),
        _ => None,
    };
    Place {
        thread,
        held: nearest(rules, blocks).or(without),
    }
}

/// The pair that a LOCK records, by its name and those of the blocks; none where it is
/// passed over or nothing is held.
fn lock_pair(rules: Rules, open: &[Block], name: u8) -> Option<Pair> {
    if passed_over(rules, thread(open).1, name) {
        return None;
    }
    let place = place(rules, open);
    Some(Pair {
        held: place.held?,
        wanted: name,
        label: place.thread,
    })
}

/// What a pair of a callee's row becomes at a CALL, by the names passed and held; none
/// where an end is nothing.
fn call_pair(place: Place, names: &[u8], pair: Pair) -> Option<Pair> {
    // Name 0 is what is held here, a parameter is the name passed for it.
    let rename = |name: u8| match name {
        OUTER_NAME => place.held,
        parameter => Some(names[parameter as usize - 1]),
    };
    Some(Pair {
        held: rename(pair.held)?,
        wanted: rename(pair.wanted)?,
        // The callee's thread is the thread of this place; other labels stay.
        label: match pair.label {
            Label::Own => place.thread,
            kept => kept,
        },
    })
}

/// For each name of a routine, the one that its pairs are recorded under.
fn roots(rules: Rules, routine: &Routine) -> Vec<u8> {
    let roots = routine.roots();
    match rules {
        Rules::InForce | Rules::Before101 | Rules::Before105 => roots,
        Rules::MirrorsApart => (0..roots.len() as u8).collect(),
    }
}

/// The routine with the names that its nests go by.
fn named_for_nests(rules: Rules, routine: &Routine) -> Routine {
    match rules {
        // A mirror gives way to its root before any nest is looked at.
        Rules::InForce | Rules::MirrorsApart => routine.renamed(&roots(rules, routine)),
        // As written: a mirror of a name is another name. Before #101 there is no nest.
        Rules::Before101 | Rules::Before105 => routine.clone(),
    }
}

/// The pairs that the items of one body give, before composing.
/// A choice gives what its two alternatives give.
fn recorded(rules: Rules, routine: &Routine, rows: &[Pairs]) -> Pairs {
    let roots = roots(rules, routine);
    let mut pairs = Pairs::new();
    let mut record = |found: Option<Pair>| {
        if let Some(Pair {
            held,
            wanted,
            label,
        }) = found
        {
            let pair = Pair {
                held: roots[held as usize],
                wanted: roots[wanted as usize],
                label,
            };
            add(&mut pairs, pair);
        }
    };
    named_for_nests(rules, routine).walk(|item, open| match item {
        Item::Lock { name } => record(lock_pair(rules, open, *name)),
        Item::Call { routine, names } => {
            let place = place(rules, open);
            for row_pair in &rows[*routine] {
                record(call_pair(place, names, *row_pair));
            }
        }
        Item::New | Item::Mirror { .. } | Item::Fork | Item::Choice | Item::Other | Item::End => {}
    });
    pairs
}

/// How many LOCK items of a table are passed over.
pub fn locks_passed_over(rules: Rules, table: &Table) -> usize {
    let mut count = 0;
    for routine in &table.routines {
        named_for_nests(rules, routine).walk(|item, open| {
            if let Item::Lock { name } = item {
                count += usize::from(passed_over(rules, thread(open).1, *name));
            }
        });
    }
    count
}

/// Composes (x, y) with (y, z) into (x, z), over all names of the routine,
/// name 0 and locals with them, until nothing changes.
fn close(mut pairs: Pairs) -> Pairs {
    loop {
        let mut found = Pairs::new();
        for first in &pairs {
            // The pairs that start where `first` ends.
            let start = Pair {
                held: first.wanted,
                wanted: 0,
                label: Label::Own,
            };
            for second in pairs.range(start..) {
                if second.held != first.wanted {
                    break;
                }
                found.insert(Pair {
                    held: first.held,
                    wanted: second.wanted,
                    label: combine(first.label, second.label),
                });
            }
        }
        let mut grown = false;
        for pair in found {
            grown |= add(&mut pairs, pair);
        }
        if !grown {
            return pairs;
        }
    }
}

/// What a caller sees of a body's pairs: those between name 0 and parameters
/// whose ends differ, with forks as unknown.
fn row(parameters: u8, pairs: &Pairs) -> Pairs {
    pairs
        .iter()
        .filter(|pair| pair.held != pair.wanted)
        .filter(|pair| pair.held <= parameters && pair.wanted <= parameters)
        .map(|pair| Pair {
            label: match pair.label {
                Label::Fork(_) => Label::Unknown,
                kept => kept,
            },
            ..*pair
        })
        .collect()
}

/// The names at which a closed set of pairs has a ring.
fn rings(pairs: &Pairs) -> BTreeSet<u8> {
    pairs
        .iter()
        .filter(|pair| pair.held == pair.wanted)
        .map(|pair| pair.held)
        .collect()
}

/// What one body gives where its calls have these rows.
pub fn worked_out(rules: Rules, routine: &Routine, rows: &[Pairs]) -> Outcome {
    let pairs = close(recorded(rules, routine, rows));
    Outcome {
        row: row(routine.parameters, &pairs),
        rings: rings(&pairs),
    }
}

/// The least rows that satisfy the rules, for all routines. They begin empty.
pub fn least_model(rules: Rules, table: &Table) -> Vec<Outcome> {
    let all = (0..table.routines.len()).collect();
    let none = vec![Pairs::new(); table.routines.len()];
    least_rows(rules, table, &all, none).into_values().collect()
}

/// Works out the routines in `anew`: their rows begin as in `rows`, and grow until they
/// satisfy the rules. All others keep the rows given, whatever their bodies are. Where those
/// in `anew` begin empty, they come out as the least that satisfy the rules.
pub fn least_rows(
    rules: Rules,
    table: &Table,
    anew: &BTreeSet<usize>,
    mut rows: Vec<Pairs>,
) -> BTreeMap<usize, Outcome> {
    // Every body is worked out again from the last rows, until a whole sweep adds nothing.
    loop {
        let bodies: BTreeMap<usize, Pairs> = anew
            .iter()
            .map(|&at| (at, close(recorded(rules, &table.routines[at], &rows))))
            .collect();
        let mut grown = false;
        for (&at, pairs) in &bodies {
            for pair in row(table.routines[at].parameters, pairs) {
                grown |= rows[at].insert(pair);
            }
        }
        if !grown {
            let outcome = |(at, pairs): (usize, Pairs)| {
                let row = rows[at].clone();
                let rings = rings(&pairs);
                (at, Outcome { row, rings })
            };
            return bodies.into_iter().map(outcome).collect();
        }
    }
}

/// The routines that calls reach from routine 0, itself included.
pub fn reached(table: &Table) -> BTreeSet<usize> {
    let mut reached = BTreeSet::new();
    let mut waiting = vec![0];
    while let Some(routine) = waiting.pop() {
        if reached.insert(routine) {
            waiting.extend(table.routines[routine].callees());
        }
    }
    reached
}

/// The lowest reached routine with a ring and its lowest ring name, else clear.
pub fn verdict(table: &Table, outcomes: &[Outcome]) -> Verdict {
    for routine in reached(table) {
        if let Some(&name) = outcomes[routine].rings.first() {
            return Verdict::Ring { routine, name };
        }
    }
    Verdict::Clear
}

/// The share of the reached routines whose last byte is 0. Routine 0 is always
/// reached, so there is one to divide by.
pub fn share(table: &Table, outcomes: &[Outcome]) -> Share {
    let reached = reached(table);
    let without_ring = reached
        .iter()
        .filter(|&&routine| row_bytes(&outcomes[routine])[RING_BYTE] == 0);
    let hundredfold = WHOLE * without_ring.count();
    let reached = reached.len();
    Share {
        percent: (hundredfold / reached) as u8,
        remainder: (hundredfold % reached) as u8,
        reached: reached as u8,
    }
}

/// The 65 bytes of one routine.
pub fn row_bytes(outcome: &Outcome) -> [u8; ROW_BYTES] {
    let mut bytes = [0; ROW_BYTES];
    for pair in &outcome.row {
        bytes[ROW_SIDE * pair.held as usize + pair.wanted as usize] += match pair.label {
            Label::Own => CELL_OWN,
            Label::Unknown | Label::Fork(_) => CELL_UNKNOWN,
            Label::Several => CELL_SEVERAL,
        };
    }
    bytes[RING_BYTE] = if outcome.rings.is_empty() { 0 } else { 1 };
    bytes
}

/// The pairs of the cells of one routine's 65 bytes.
pub fn row_pairs(bytes: &[u8]) -> Pairs {
    let mut pairs = Pairs::new();
    for (at, cell) in bytes[..RING_BYTE].iter().enumerate() {
        for (label, part) in [
            (Label::Own, CELL_OWN),
            (Label::Unknown, CELL_UNKNOWN),
            (Label::Several, CELL_SEVERAL),
        ] {
            if cell & part != 0 {
                pairs.insert(Pair {
                    held: (at / ROW_SIDE) as u8,
                    wanted: (at % ROW_SIDE) as u8,
                    label,
                });
            }
        }
    }
    pairs
}

#[cfg(test)]
mod tests {
    use super::*;
    use crate::generate::assemble;
    use crate::limits::{code, MAX_FORK};
    use crate::table::read;

    fn labels() -> Vec<Label> {
        let mut all = vec![Label::Own, Label::Unknown, Label::Several];
        all.extend((1..=MAX_FORK).map(Label::Fork));
        all
    }

    #[test]
    fn labels_combine_by_the_rule() {
        for first in labels() {
            for second in labels() {
                let one_thread = first == second && !matches!(first, Label::Unknown);
                let expected = if one_thread { first } else { Label::Several };
                assert_eq!(combine(first, second), expected);
            }
        }
    }

    #[test]
    fn places() {
        use Block::*;
        let at = |open: &[Block]| {
            let place = place(Rules::InForce, open);
            (place.thread, place.held)
        };
        assert_eq!(at(&[Body]), (Label::Own, Some(0)));
        assert_eq!(at(&[Body, First, Second]), (Label::Own, Some(0)));
        assert_eq!(at(&[Body, Lock(3), First]), (Label::Own, Some(3)));
        assert_eq!(at(&[Body, Lock(3), Lock(1)]), (Label::Own, Some(1)));
        assert_eq!(at(&[Body, Fork(1)]), (Label::Fork(1), None));
        assert_eq!(at(&[Body, Lock(3), Fork(2)]), (Label::Fork(2), None));
        assert_eq!(
            at(&[Body, Fork(1), Lock(4), First]),
            (Label::Fork(1), Some(4))
        );
        assert_eq!(
            at(&[Body, Fork(1), Lock(4), Fork(2)]),
            (Label::Fork(2), None)
        );
    }

    #[test]
    fn places_in_a_lock_block_that_is_passed_over() {
        use Block::*;
        let held = |rules, open: &[Block]| place(rules, open).held;
        for (open, now, before) in [
            // The h is that of the last LOCK block that was not passed over.
            (&[Body, Lock(1), Lock(2), Lock(1)][..], Some(2), Some(1)),
            (&[Body, Lock(1), Lock(1)], Some(1), Some(1)),
            (
                &[Body, Lock(1), Lock(2), Lock(1), Lock(2)],
                Some(2),
                Some(2),
            ),
            (
                &[Body, Lock(1), Lock(2), Lock(2), Lock(1), Lock(1)],
                Some(2),
                Some(1),
            ),
            (
                &[Body, Lock(1), Lock(2), Lock(1), Lock(3), Lock(2)],
                Some(3),
                Some(2),
            ),
            // A choice is no hindrance.
            (
                &[Body, Lock(1), First, Lock(2), Second, Lock(1)],
                Some(2),
                Some(1),
            ),
            // A fork begins anew.
            (
                &[Body, Lock(1), Fork(1), Lock(2), Lock(1)],
                Some(1),
                Some(1),
            ),
            (
                &[Body, Fork(1), Lock(1), Lock(2), Lock(1)],
                Some(2),
                Some(1),
            ),
            (&[Body, Lock(1), Lock(2), Lock(1), Fork(1)], None, None),
        ] {
            assert_eq!(held(Rules::InForce, open), now, "{open:?}");
            assert_eq!(held(Rules::Before101, open), before, "{open:?}");
        }
    }

    /// The pairs that a body records, and how many of its LOCK items are passed over.
    type Recorded = (Vec<(u8, u8, Label)>, usize);

    /// The same of the one body with `parameters` parameters.
    fn recorded_by(rules: Rules, parameters: u8, body: &[u8]) -> Recorded {
        let section = [&[code::END], body].concat();
        let table = read(&assemble(&[0, parameters], &section)).expect("valid");
        let none = vec![Pairs::new(); 2];
        let pairs = recorded(rules, &table.routines[1], &none)
            .iter()
            .map(|pair| (pair.held, pair.wanted, pair.label))
            .collect();
        (pairs, locks_passed_over(rules, &table))
    }

    fn recorded_in(parameters: u8, body: &[u8]) -> Recorded {
        recorded_by(Rules::InForce, parameters, body)
    }

    fn recorded_before_105(parameters: u8, body: &[u8]) -> Recorded {
        recorded_by(Rules::Before105, parameters, body)
    }

    #[test]
    fn pairs_before_composing() {
        use code::*;
        use Label::{Fork, Own};
        let main = |pairs: &[(u8, u8)]| pairs.iter().map(|&(a, b)| (a, b, Own)).collect();
        // 3 is wanted while 2 is held, not while 1 is: composing would hide that.
        assert_eq!(
            recorded_in(
                3,
                &[LOCK, 1, LOCK, 2, LOCK, 1, LOCK, 3, END, END, END, END, END]
            ),
            (main(&[(0, 1), (1, 2), (2, 3)]), 1)
        );
        // Twice more, and the h stays.
        assert_eq!(
            recorded_in(
                3,
                &[LOCK, 1, LOCK, 2, LOCK, 1, LOCK, 2, LOCK, 3, END, END, END, END, END, END]
            ),
            (main(&[(0, 1), (1, 2), (2, 3)]), 2)
        );
        assert_eq!(
            recorded_in(2, &[LOCK, 1, LOCK, 1, LOCK, 2, END, END, END, END]),
            (main(&[(0, 1), (1, 2)]), 1)
        );
        // Behind a block that is passed over, the h is as before it.
        assert_eq!(
            recorded_in(
                3,
                &[LOCK, 1, LOCK, 2, LOCK, 1, END, LOCK, 3, END, END, END, END]
            ),
            (main(&[(0, 1), (1, 2), (2, 3)]), 1)
        );
        // Behind the block that holds it, the name records again.
        assert_eq!(
            recorded_in(2, &[LOCK, 1, END, LOCK, 2, LOCK, 1, END, END, END]),
            (main(&[(0, 1), (0, 2), (2, 1)]), 0)
        );
        // A fork does not have its parent's nest, and the parent keeps its own.
        assert_eq!(
            recorded_in(
                2,
                &[
                    LOCK, 1, FORK, LOCK, 2, LOCK, 1, END, END, END, LOCK, 2, LOCK, 1, END, END,
                    END, END
                ]
            ),
            (vec![(0, 1, Own), (1, 2, Own), (2, 1, Fork(1))], 1)
        );
    }

    #[test]
    fn pairs_of_mirrors_before_composing() {
        use code::*;
        use Label::{Fork, Own};
        let main = |pairs: &[(u8, u8)]| pairs.iter().map(|&(a, b)| (a, b, Own)).collect();
        // 4 is a mirror of 1. Its LOCK is passed over, and 2 is the h in its block.
        let four_again = [
            MIRROR, 1, LOCK, 1, LOCK, 2, LOCK, 4, LOCK, 3, END, END, END, END, END,
        ];
        assert_eq!(
            recorded_in(3, &four_again),
            (main(&[(0, 1), (1, 2), (2, 3)]), 1)
        );
        // Before #105 it was not, and 1 was the h in its block.
        assert_eq!(
            recorded_before_105(3, &four_again),
            (main(&[(0, 1), (1, 2), (1, 3), (2, 1)]), 0)
        );
        // The name whose mirror is held, and a mirror of that mirror.
        for name in [1, 5] {
            let again = [
                MIRROR, 1, MIRROR, 4, LOCK, 4, LOCK, 2, LOCK, name, LOCK, 3, END, END, END, END,
                END,
            ];
            assert_eq!(recorded_in(3, &again), (main(&[(0, 1), (1, 2), (2, 3)]), 1));
            assert_eq!(
                recorded_before_105(3, &again),
                (main(&[(0, 1), (1, 2), (1, 3), (2, 1)]), 0)
            );
        }
        // Taken again by the same name it was passed over before too.
        let same_name = [
            MIRROR, 1, LOCK, 4, LOCK, 2, LOCK, 4, LOCK, 3, END, END, END, END, END,
        ];
        for recorded in [recorded_in, recorded_before_105] {
            assert_eq!(
                recorded(3, &same_name),
                (main(&[(0, 1), (1, 2), (2, 3)]), 1)
            );
        }
        // Directly inside its lock the pair had equal ends before.
        let directly = [MIRROR, 1, LOCK, 1, LOCK, 3, LOCK, 2, END, END, END, END];
        assert_eq!(recorded_in(2, &directly), (main(&[(0, 1), (1, 2)]), 1));
        assert_eq!(
            recorded_before_105(2, &directly),
            (main(&[(0, 1), (1, 2)]), 0)
        );
        // A fork holds nothing of its parent, whose nest goes on behind it.
        let fork_inside = [
            MIRROR, 1, LOCK, 1, FORK, LOCK, 2, LOCK, 3, END, END, END, LOCK, 2, LOCK, 3, END, END,
            END, END,
        ];
        assert_eq!(
            recorded_in(2, &fork_inside),
            (vec![(0, 1, Own), (1, 2, Own), (2, 1, Fork(1))], 1)
        );
        assert_eq!(
            recorded_before_105(2, &fork_inside),
            (
                vec![(0, 1, Own), (1, 2, Own), (2, 1, Own), (2, 1, Fork(1))],
                0
            )
        );
        // Behind the block of its lock the mirror records.
        let behind = [MIRROR, 1, LOCK, 1, END, LOCK, 2, LOCK, 3, END, END, END];
        for recorded in [recorded_in, recorded_before_105] {
            assert_eq!(recorded(2, &behind), (main(&[(0, 1), (0, 2), (2, 1)]), 0));
        }
        // In a fork, over a mirror of a mirror.
        assert_eq!(
            recorded_in(
                2,
                &[MIRROR, 1, MIRROR, 3, FORK, LOCK, 4, LOCK, 2, END, END, END, END]
            ),
            (vec![(1, 2, Fork(1))], 0)
        );
    }
}
