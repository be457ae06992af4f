//! What can be said of inputs for `canonical`, to tell whether random ones have all in them.

use std::collections::BTreeSet;

use crate::canonical::{canonical, order};
use crate::limits::{refusal, MAX_FORK, MAX_LOCALS, MAX_OPEN, READ_LIMIT};
use crate::limits::{MAX_PARAMETERS, MAX_ROUTINES, MAX_SECTION};
use crate::model::{least_model, Outcome};
use crate::table::{read, Block, Item, Routine, Table};
use crate::writings::Input;
use crate::Rules;

/// What can be said of inputs, beside the number of a table's refusal.
const OTHER_MARKS: [&str; 81] = [
    // The buffer.
    "refused with no byte",
    "refused with many bytes",
    "20",
    "20 with no byte",
    "20 by one byte",
    "20 by many bytes",
    "20 and room for the bodies",
    "written",
    "exact length",
    "one byte more",
    "many bytes more",
    "shorter than the table",
    "as long as a longer table",
    "0 behind the result",
    "255 behind the result",
    // The result.
    "the table itself",
    "another table",
    "two bytes shorter",
    "shorter by many bytes",
    "as long, but another",
    "the smallest result",
    "the largest result",
    "256 body bytes or more",
    "4,096 body bytes, then fewer",
    // Routines.
    "one routine",
    "64 routines, all kept",
    "64 routines, not all kept",
    "64 routines, one kept",
    "one dropped",
    "many dropped",
    "one dropped before one that is kept",
    "all kept, in another order",
    "some dropped, in another order",
    "in order, some dropped",
    "counts in another order",
    "a dropped one calls one that is kept",
    "a dropped one calls another",
    "a dropped one with a ring, and clear",
    "clear",
    "a ring",
    "a ring in another routine",
    // Calls.
    "calls itself",
    "calls routine 0",
    "calls one of a lower number",
    "met twice in one body",
    "met in two bodies",
    "met by the last routine",
    "ten bodies deep",
    "ten met in one body",
    "met in a LOCK block",
    "met in a fork",
    "met in a first alternative",
    "met in a second alternative",
    "met at depth 16",
    // Mirrors and locals.
    "no mirror",
    "a mirror in a kept routine",
    "a mirror in a dropped routine alone",
    "a mirror of a parameter",
    "a mirror of a NEW",
    "a mirror of a mirror",
    "four mirrors one of another",
    "8 mirrors one of another",
    "8 mirrors in a routine",
    "8 NEW in a routine",
    "8 locals of both sorts",
    "a mirror in a LOCK block",
    "a mirror in a fork",
    "a mirror in a first alternative",
    "a mirror in a second alternative",
    "a mirror at depth 16",
    "a mirror that is never used",
    "LOCK on a mirror",
    "LOCK on a name that moves",
    "CALL with a mirror",
    "CALL with a name that moves",
    "CALL with a mirror and its lock",
    "CALL with 7 names, all mirrors",
    "NEW in both alternatives",
    "a mirror in the first alternative, NEW in the second",
    "7 parameters",
    "the most forks",
];

/// How many are many, of bytes and of routines.
const MANY: usize = 10;
/// How many mirrors, each of the one before, are noted.
const SOME_STEPS: usize = 4;
/// From here on a number of bytes takes two of its own.
const TWO_BYTES: usize = 256;

/// All that can be said of inputs.
pub fn all_marks() -> Vec<String> {
    let numbers = refusal::EMPTY..=refusal::BYTES_LEFT;
    let refused = numbers.map(|number| format!("refused {number}"));
    refused.chain(OTHER_MARKS.map(str::to_string)).collect()
}

/// Marks that were met.
#[derive(Default)]
struct Met(BTreeSet<String>);

impl Met {
    /// Notes a mark if it is met.
    fn note(&mut self, mark: &str, is_met: bool) {
        if is_met {
            self.0.insert(mark.to_string());
        }
    }
}

/// What can be said of an input with this answer.
pub fn marks(input: &Input, answer: u32) -> BTreeSet<String> {
    let mut met = Met::default();
    match (read(&input.table), canonical(&input.table)) {
        (Ok(table), Ok(result)) => {
            buffer_marks(&mut met, input, &result, answer);
            result_marks(&mut met, &input.table, &result);
            table_marks(&mut met, &table);
        }
        (table, _) => {
            let number = table.expect_err("a refused table");
            met.note(&format!("refused {number}"), true);
            met.note("refused with no byte", input.out.is_empty());
            met.note("refused with many bytes", input.out.len() >= MANY);
        }
    }
    met.0
}

/// What can be said of the buffer for a result.
fn buffer_marks(met: &mut Met, input: &Input, result: &[u8], answer: u32) {
    let (length, exact) = (input.out.len(), result.len());
    if answer == refusal::SHORT_OUTPUT {
        let head = 3 + result[0] as usize;
        met.note("20", true);
        met.note("20 with no byte", length == 0);
        met.note("20 by one byte", length + 1 == exact);
        met.note("20 by many bytes", length + MANY <= exact);
        met.note("20 and room for the bodies", length + head >= exact);
        return;
    }
    let table = input.table.len();
    let behind = input.out.get(exact);
    met.note("written", true);
    met.note("exact length", length == exact);
    met.note("one byte more", length == exact + 1);
    met.note("many bytes more", length >= exact + MANY);
    met.note("shorter than the table", length < table);
    met.note(
        "as long as a longer table",
        length == table && table > exact,
    );
    met.note("0 behind the result", behind == Some(&0));
    met.note("255 behind the result", behind == Some(&255));
}

/// What can be said of the bytes of a table and its result.
fn result_marks(met: &mut Met, table: &[u8], result: &[u8]) {
    let section = |table: &[u8]| table.len() - 3 - table[0] as usize;
    let (changed, full) = (result != table, section(table) == MAX_SECTION);
    met.note("the table itself", !changed);
    met.note("another table", changed);
    met.note("two bytes shorter", result.len() + 2 == table.len());
    met.note("shorter by many bytes", result.len() + MANY <= table.len());
    met.note(
        "as long, but another",
        changed && result.len() == table.len(),
    );
    met.note("the smallest result", result == [1, 0, 1, 0, 0]);
    met.note("the largest result", result.len() + 1 == READ_LIMIT);
    met.note("256 body bytes or more", section(result) >= TWO_BYTES);
    met.note(
        "4,096 body bytes, then fewer",
        full && section(result) < MAX_SECTION,
    );
}

/// What can be said of an accepted table.
fn table_marks(met: &mut Met, table: &Table) {
    let order = order(table);
    routine_marks(met, table, &order);
    ring_marks(met, &order, &least_model(Rules::InForce, table));
    call_marks(met, table, &order);
    let has_mirror = |routine: &Routine| {
        let mut items = routine.items.iter();
        items.any(|item| matches!(item, Item::Mirror { .. }))
    };
    let kept = order.iter().any(|&at| has_mirror(&table.routines[at]));
    let any = table.routines.iter().any(has_mirror);
    met.note("no mirror", !any);
    met.note("a mirror in a kept routine", kept);
    met.note("a mirror in a dropped routine alone", any && !kept);
    for &at in &order {
        local_marks(met, &table.routines[at]);
        place_marks(met, &table.routines[at]);
    }
}

/// What can be said of the routines that are kept and dropped.
fn routine_marks(met: &mut Met, table: &Table, order: &[usize]) {
    let (n, kept) = (table.routines.len(), order.len());
    let in_order = order.is_sorted();
    let dropped: Vec<usize> = (0..n).filter(|at| !order.contains(at)).collect();
    let is_kept = |at: &usize| order.contains(at);
    let counts: Vec<u8> = order
        .iter()
        .map(|&at| table.routines[at].parameters)
        .collect();
    let before: Vec<u8> = table.routines.iter().map(|one| one.parameters).collect();
    met.note("one routine", n == 1);
    if n == MAX_ROUTINES {
        met.note("64 routines, all kept", kept == n);
        met.note("64 routines, not all kept", kept < n);
        met.note("64 routines, one kept", kept == 1);
    }
    met.note("one dropped", dropped.len() == 1);
    met.note("many dropped", dropped.len() >= MANY);
    met.note(
        "one dropped before one that is kept",
        dropped.iter().any(|&at| (at..n).any(|at| is_kept(&at))),
    );
    met.note("all kept, in another order", kept == n && !in_order);
    met.note("some dropped, in another order", kept < n && !in_order);
    met.note("in order, some dropped", kept < n && kept > 1 && in_order);
    met.note("counts in another order", !before.starts_with(&counts));
    for &at in &dropped {
        let mut callees = table.routines[at].callees();
        let (kept, others): (Vec<usize>, Vec<usize>) = callees.by_ref().partition(is_kept);
        met.note("a dropped one calls one that is kept", !kept.is_empty());
        met.note(
            "a dropped one calls another",
            others.iter().any(|&callee| callee != at),
        );
    }
}

/// What can be said of the rings.
fn ring_marks(met: &mut Met, order: &[usize], outcomes: &[Outcome]) {
    let ring = |at: usize| !outcomes[at].rings.is_empty();
    let with_ring: Vec<usize> = (0..outcomes.len()).filter(|&at| ring(at)).collect();
    let clear = !order.iter().any(|&at| ring(at));
    met.note("clear", clear);
    met.note("a ring", !clear);
    met.note(
        "a dropped one with a ring, and clear",
        clear && !with_ring.is_empty(),
    );
    // The verdict names the lowest routine with a ring, so it may move.
    let before = with_ring.iter().copied().find(|at| order.contains(at));
    let after = order.iter().copied().find(|&at| ring(at));
    met.note("a ring in another routine", before != after);
}

/// What can be said of the calls of the routines that are kept.
fn call_marks(met: &mut Met, table: &Table, order: &[usize]) {
    let number = |routine: &usize| order.iter().position(|old| old == routine);
    // By new numbers: whose body meets it first, and how many bodies lead to it.
    let mut depths = vec![0; order.len()];
    let mut next = 1;
    let mut calls: Vec<Vec<usize>> = Vec::new();
    for (caller, &old) in order.iter().enumerate() {
        let callees = table.routines[old].callees();
        let called: Vec<usize> = callees
            .map(|callee| number(&callee).expect("kept"))
            .collect();
        let first = next;
        for &callee in &called {
            if callee == next {
                depths[callee] = depths[caller] + 1;
                next += 1;
            }
        }
        let new = first..next;
        let twice = |callee: usize| called.iter().filter(|&&other| other == callee).count() > 1;
        met.note("calls itself", called.contains(&caller));
        met.note("calls routine 0", called.contains(&0));
        let is_lower = |callee: &usize| (1..caller).contains(callee);
        met.note("calls one of a lower number", called.iter().any(is_lower));
        met.note("met twice in one body", new.clone().any(twice));
        met.note("ten met in one body", new.len() >= MANY);
        met.note(
            "met by the last routine",
            !new.is_empty() && old + 1 == table.routines.len(),
        );
        met.note("ten bodies deep", depths[caller] >= MANY);
        met_in_marks(met, &table.routines[old], |routine| {
            number(&routine).is_some_and(|callee| new.contains(&callee))
        });
        calls.push(called);
    }
    let callers = |callee: usize| calls.iter().filter(move |called| called.contains(&callee));
    let is_met_again = |callee: usize| callers(callee).count() > 1;
    met.note("met in two bodies", (1..order.len()).any(is_met_again));
}

/// Notes in what blocks this is met.
fn block_marks(met: &mut Met, what: &str, open: &[Block]) {
    let inside = |is: fn(&Block) -> bool| open.iter().any(is);
    for (place, is_met) in [
        ("in a LOCK block", inside(|at| matches!(at, Block::Lock(_)))),
        ("in a fork", inside(|at| matches!(at, Block::Fork(_)))),
        ("in a first alternative", inside(|at| *at == Block::First)),
        ("in a second alternative", inside(|at| *at == Block::Second)),
        ("at depth 16", open.len() == MAX_OPEN + 1),
    ] {
        met.note(&format!("{what} {place}"), is_met);
    }
}

/// In what blocks the calls stand that meet a routine first.
fn met_in_marks(met: &mut Met, routine: &Routine, is_new: impl Fn(usize) -> bool) {
    let mut seen = BTreeSet::new();
    routine.walk(|item, open| {
        let Item::Call { routine, .. } = item else {
            return;
        };
        if !is_new(*routine) || !seen.insert(*routine) {
            return;
        }
        block_marks(met, "met", open);
    });
}

/// What can be said of the locals of a routine that is kept.
fn local_marks(met: &mut Met, routine: &Routine) {
    let parameters = routine.parameters;
    let roots = routine.roots();
    let is_mirror = |name: &u8| roots[*name as usize] != *name;
    let (mut news, mut mirrors, mut forks) = (0, 0, 0);
    // How many mirrors lead from each name back to its lock.
    let mut steps = vec![0; parameters as usize + 1];
    let mut used: BTreeSet<u8> = BTreeSet::new();
    for item in &routine.items {
        // A NEW behind a mirror gets another number.
        let moves =
            |name: &u8| !is_mirror(name) && (parameters + 1..*name).any(|at| is_mirror(&at));
        used.extend(item.names());
        match item {
            Item::New => {
                news += 1;
                steps.push(0);
            }
            Item::Mirror { name } => {
                mirrors += 1;
                steps.push(steps[*name as usize] + 1);
                met.note("a mirror of a parameter", *name <= parameters);
                met.note("a mirror of a mirror", is_mirror(name));
                met.note("a mirror of a NEW", *name > parameters && !is_mirror(name));
            }
            Item::Lock { name } => {
                met.note("LOCK on a mirror", is_mirror(name));
                met.note("LOCK on a name that moves", moves(name));
            }
            Item::Call { names, .. } => {
                let root = |name: &u8| roots[*name as usize];
                met.note("CALL with a mirror", names.iter().any(is_mirror));
                met.note("CALL with a name that moves", names.iter().any(moves));
                let with_lock = |name: &u8| is_mirror(name) && names.contains(&root(name));
                met.note(
                    "CALL with a mirror and its lock",
                    names.iter().any(with_lock),
                );
                let all = names.len() == MAX_PARAMETERS as usize && names.iter().all(is_mirror);
                met.note("CALL with 7 names, all mirrors", all);
            }
            Item::Fork => forks += 1,
            _ => {}
        }
    }
    let most = steps.iter().max().copied().unwrap_or(0);
    let unused = |name: u8| is_mirror(&name) && !used.contains(&name);
    met.note("four mirrors one of another", most >= SOME_STEPS);
    met.note("8 mirrors one of another", most == MAX_LOCALS as usize);
    met.note("8 mirrors in a routine", mirrors == MAX_LOCALS);
    met.note("8 NEW in a routine", news == MAX_LOCALS);
    met.note(
        "8 locals of both sorts",
        news + mirrors == MAX_LOCALS && news * mirrors > 0,
    );
    met.note(
        "a mirror that is never used",
        (0..roots.len() as u8).any(unused),
    );
    met.note("7 parameters", parameters == MAX_PARAMETERS);
    met.note("the most forks", forks == MAX_FORK);
}

/// In what blocks of a routine the locals are made.
fn place_marks(met: &mut Met, routine: &Routine) {
    // For each open block, whether a NEW and whether a mirror stand directly in it, or in the
    // first alternative of its choice.
    let mut made = Vec::new();
    routine.walk(|item, open| {
        made.resize(open.len(), (false, false));
        let at = open.len() - 1;
        match item {
            Item::New => {
                let (new, mirror): (bool, bool) = made[at];
                let second = open[at] == Block::Second;
                met.note("NEW in both alternatives", second && new);
                met.note(
                    "a mirror in the first alternative, NEW in the second",
                    second && mirror,
                );
                made[at].0 |= open[at] == Block::First;
            }
            Item::Mirror { .. } => {
                block_marks(met, "a mirror", open);
                made[at].1 |= open[at] == Block::First;
            }
            _ => {}
        }
    });
}
