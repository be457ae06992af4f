//! The rounds of request #109, and the dearest chain.
//!
//! Plain on purpose: all rows are worked out in each round, from what they were before it.

use std::collections::BTreeSet;

use crate::generate::assemble;
use crate::limits::code::{CALL, END, FORK, LOCK, NEW};
use crate::limits::{MAX_ROUTINES, RING_BYTE, ROW_BYTES};
use crate::model::{reached, row_bytes, worked_out, Outcome, Pairs};
use crate::table::Table;
use crate::Rules;

/// Works out all rows in rounds: what the last one gives, and how many there are, the last one
/// counted.
pub fn in_rounds(rules: Rules, table: &Table) -> (Vec<Outcome>, u32) {
    let mut bodies = Bodies::new(rules, table);
    let mut before = nothing(table);
    let mut rounds = 0;
    loop {
        let after = bodies.round(&before);
        rounds += 1;
        if model(&after) == model(&before) {
            return (after, rounds);
        }
        before = after;
    }
}

/// What there is before the first round: all zero.
fn nothing(table: &Table) -> Vec<Outcome> {
    let zero = Outcome {
        row: Pairs::new(),
        rings: BTreeSet::new(),
    };
    vec![zero; table.routines.len()]
}

fn rows(outcomes: &[Outcome]) -> Vec<Pairs> {
    outcomes.iter().map(|outcome| outcome.row.clone()).collect()
}

/// The bytes of all routines. A round changes something where it changes one of these.
fn model(outcomes: &[Outcome]) -> Vec<[u8; ROW_BYTES]> {
    outcomes.iter().map(row_bytes).collect()
}

/// The bodies of a table. Each has what it gave when it was last worked out, and the rows that its
/// calls had then: where they have the same again, it gives the same again.
struct Bodies<'a> {
    rules: Rules,
    table: &'a Table,
    last: Vec<Option<(Vec<Pairs>, Outcome)>>,
}

impl Bodies<'_> {
    fn new(rules: Rules, table: &Table) -> Bodies<'_> {
        let last = vec![None; table.routines.len()];
        Bodies { rules, table, last }
    }

    /// What one body gives where its calls have these rows.
    fn work_out(&mut self, at: usize, rows: &[Pairs]) -> Outcome {
        let routine = &self.table.routines[at];
        let called: Vec<Pairs> = routine
            .callees()
            .map(|callee| rows[callee].clone())
            .collect();
        match &self.last[at] {
            Some((before, outcome)) if *before == called => outcome.clone(),
            _ => {
                let outcome = worked_out(self.rules, routine, rows);
                self.last[at] = Some((called, outcome.clone()));
                outcome
            }
        }
    }

    /// All rows, worked out from what they were before this round.
    fn round(&mut self, before: &[Outcome]) -> Vec<Outcome> {
        let rows = rows(before);
        let all = 0..self.table.routines.len();
        all.map(|at| self.work_out(at, &rows)).collect()
    }
}

/// How rounds are counted. All ways but the request's are wrong, to tell whether tables show that.
#[derive(Clone, Copy, Debug, PartialEq, Eq, PartialOrd, Ord)]
pub enum Way {
    /// As the request has it.
    InForce,
    /// Leaves out the last round, as it changes nothing.
    LastLeftOut,
    /// Uses rows of this round in this round, from routine 0 up.
    InPlaceRising,
    /// The same from the highest routine down.
    InPlaceFalling,
    /// Does not look at the last bytes.
    CellsAlone,
    /// Does not look at the cells.
    LastBytesAlone,
    /// Does not look at routines that calls do not reach.
    ReachedAlone,
    /// Stops with the first round that leaves routine 0 as it was.
    RoutineZeroSteady,
    /// Stops behind the first round that changes routine 0.
    RoutineZeroChanged,
    /// Counts sweeps from the highest routine down, in which a routine is worked out while a row
    /// that it calls has changed since, with the rows as they are then.
    Sweeps,
}

/// The wrong ways, each in a few words.
pub const WRONG: [(Way, &str); 9] = [
    (Way::LastLeftOut, "last round left out"),
    (Way::InPlaceRising, "rows of this round, rising"),
    (Way::InPlaceFalling, "rows of this round, falling"),
    (Way::CellsAlone, "last bytes left out"),
    (Way::LastBytesAlone, "cells left out"),
    (Way::ReachedAlone, "unreached routines left out"),
    (Way::RoutineZeroSteady, "until routine 0 is steady"),
    (Way::RoutineZeroChanged, "until routine 0 changes"),
    (Way::Sweeps, "sweeps"),
];

/// All that is needed of a table to count its rounds in every way.
pub struct Counted {
    table: Table,
    /// The bytes of all routines: before the first round, and after each one.
    models: Vec<Vec<[u8; ROW_BYTES]>>,
    reached: BTreeSet<usize>,
}

impl Counted {
    pub fn new(table: Table) -> Counted {
        let mut bodies = Bodies::new(Rules::InForce, &table);
        let mut before = nothing(&table);
        let mut models = vec![model(&before)];
        loop {
            let after = bodies.round(&before);
            let bytes = model(&after);
            let steady = models.last() == Some(&bytes);
            models.push(bytes);
            if steady {
                break;
            }
            before = after;
        }
        Counted {
            reached: reached(&table),
            table,
            models,
        }
    }

    /// The number of rounds, counted in this way.
    pub fn rounds(&self, way: Way) -> u32 {
        match way {
            Way::InForce => self.until(|before, after| before == after),
            Way::LastLeftOut => self.rounds(Way::InForce) - 1,
            Way::CellsAlone => self.until(|before, after| {
                let mut rows = before.iter().zip(after);
                rows.all(|(before, after)| before[..RING_BYTE] == after[..RING_BYTE])
            }),
            Way::LastBytesAlone => self.until(|before, after| {
                let mut rows = before.iter().zip(after);
                rows.all(|(before, after)| before[RING_BYTE] == after[RING_BYTE])
            }),
            Way::ReachedAlone => self.until(|before, after| {
                let mut reached = self.reached.iter();
                reached.all(|&routine| before[routine] == after[routine])
            }),
            Way::RoutineZeroSteady => self.until(|before, after| before[0] == after[0]),
            Way::RoutineZeroChanged => self.until(|before, after| before[0] != after[0]),
            Way::InPlaceRising => self.in_place((0..self.table.routines.len()).collect()),
            Way::InPlaceFalling => self.in_place((0..self.table.routines.len()).rev().collect()),
            Way::Sweeps => self.sweeps(),
        }
    }

    /// The first round of which this holds, by what was before it and is after it; or the last.
    fn until(&self, holds: impl Fn(&[[u8; ROW_BYTES]], &[[u8; ROW_BYTES]]) -> bool) -> u32 {
        let found = self
            .models
            .windows(2)
            .position(|pair| holds(&pair[0], &pair[1]));
        found.map_or(self.models.len() - 1, |at| at + 1) as u32
    }

    /// Rounds that put each row in its place as soon as it is worked out, in this order.
    fn in_place(&self, order: Vec<usize>) -> u32 {
        let mut bodies = Bodies::new(Rules::InForce, &self.table);
        let mut outcomes = nothing(&self.table);
        let mut rows = rows(&outcomes);
        let mut rounds = 0;
        loop {
            let before = model(&outcomes);
            for &at in &order {
                outcomes[at] = bodies.work_out(at, &rows);
                rows[at] = outcomes[at].row.clone();
            }
            rounds += 1;
            if model(&outcomes) == before {
                return rounds;
            }
        }
    }

    fn sweeps(&self) -> u32 {
        let routines = &self.table.routines;
        let mut bodies = Bodies::new(Rules::InForce, &self.table);
        let mut rows = vec![Pairs::new(); routines.len()];
        let mut due = vec![true; routines.len()];
        let mut sweeps = 0;
        while due.contains(&true) {
            sweeps += 1;
            for at in (0..routines.len()).rev() {
                if !std::mem::take(&mut due[at]) {
                    continue;
                }
                let row = bodies.work_out(at, &rows).row;
                if row != rows[at] {
                    rows[at] = row;
                    for (caller, due) in due.iter_mut().enumerate() {
                        *due |= routines[caller].callees().any(|callee| callee == at);
                    }
                }
            }
        }
        sweeps
    }
}

/// The body of the last routine of a chain: a fork takes 1 and then 2, the running thread 2 and
/// then 1.
const LAST_OF_CHAIN: [u8; 17] = [
    NEW, NEW, FORK, LOCK, 1, LOCK, 2, END, END, END, LOCK, 2, LOCK, 1, END, END, END,
];

/// The dearest chain of n routines, which needs n + 1 rounds: each routine passes two names on to
/// the next one, and the last has a ring. None where there is no table of n routines.
pub fn chain(n: usize) -> Option<Vec<u8>> {
    if n == 0 || n > MAX_ROUTINES {
        return None;
    }
    let mut counts = vec![2; n];
    counts[0] = 0;
    let mut section = Vec::new();
    for next in 1..n {
        section.extend([NEW, NEW, CALL, next as u8, 1, 2, END]);
    }
    section.extend(LAST_OF_CHAIN);
    Some(assemble(&counts, &section))
}
