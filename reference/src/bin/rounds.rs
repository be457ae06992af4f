//! Compares the rounds that an archive counts with the reference's.
//!
//! `rounds [SEED [COUNT]]` goes over the worked cases, a table for each rule, the boundary tables, the
//! dearest chains of 1 to 64 routines, the stored tables, COUNT random tables of SEED, and for each ten
//! of these one more that is made to need many rounds: the answer, every byte of the buffer and some on
//! both sides of it, for buffers of every length that matters, and that the table is as it was. The
//! number of rounds must also be within its bounds. It prints one summary line, or the first difference
//! and exits with 1.
//!
//! Where COUNT is 1,000 or more, it also exits with 1 if none of the tables made to need many rounds
//! needs more than 100, or if none of the random ones and those would show that rounds are counted in
//! one of the wrong ways of `reference::rounds`.
//!
//! Needs the feature `archive`.

use std::collections::BTreeMap;
use std::process::ExitCode;

use reference::command::{self, listed};
use reference::generate::random;
use reference::limits::{most_rounds, most_rounds_without_cycle};
use reference::limits::{MAX_ROUTINES, ROUNDS_BASE};
use reference::rounds::{chain, Counted, WRONG};
use reference::table::{read, Table};
use reference::update::reaching;
use reference::{archive, hex, lent, round_tables, rounds_number};

const DEFAULT_SEED: u64 = 1;
const DEFAULT_COUNT: u64 = 10_000;
/// So many random tables must have all in them.
const ENOUGH: u64 = 1_000;
/// To so many random tables there is one that is made to need many rounds.
const TO_ONE_MADE: u64 = 10;
/// The most rounds of each class of tables; the last one has no most.
const CLASSES: [(u32, &str); 6] = [
    (1, "1"),
    (2, "2"),
    (5, "3 to 5"),
    (20, "6 to 20"),
    (100, "21 to 100"),
    (u32::MAX, "more"),
];
/// The class of those that need more than all others.
const MORE: usize = CLASSES.len() - 1;

/// What has been compared so far.
#[derive(Default)]
struct Tally {
    buffers: u64,
    accepted: u64,
    /// How often each refusal was given.
    refused: BTreeMap<u32, u64>,
}

/// How many tables need how many rounds.
#[derive(Default)]
struct Needs {
    classes: [u64; CLASSES.len()],
    most: u32,
}

impl Needs {
    fn count(&mut self, rounds: u32) {
        let class = CLASSES.iter().position(|(most, _)| rounds <= *most);
        self.classes[class.unwrap_or(MORE)] += 1;
        self.most = self.most.max(rounds);
    }

    fn text(&self) -> String {
        let classes = CLASSES.iter().zip(self.classes);
        let counts = listed(classes.map(|((_, words), count)| (*words, count)));
        format!("{counts}, the most {}", self.most)
    }
}

/// Whether no calls lead from a routine back to it.
fn has_no_cycle(table: &Table) -> bool {
    let mut routines = 0..table.routines.len();
    routines.all(|at| {
        let reaching = reaching(table, at);
        let mut callees = table.routines[at].callees();
        !callees.any(|callee| reaching.contains(&callee))
    })
}

/// Whether a number of rounds is within its bounds.
fn within_bounds(bytes: &[u8], rounds: u32) -> Result<(), String> {
    let table = read(bytes).expect("an accepted table");
    let n = table.routines.len();
    let most = if has_no_cycle(&table) {
        most_rounds_without_cycle(n)
    } else {
        most_rounds(n)
    };
    if (1..=most).contains(&rounds) {
        Ok(())
    } else {
        Err(format!("{rounds} rounds, where {most} is the most"))
    }
}

/// Compares one table, or says how the outcomes differ. Gives the rounds of an accepted one.
fn compare(tally: &mut Tally, table: &[u8]) -> Result<Option<u32>, String> {
    let refuses = |answer| answer < ROUNDS_BASE;
    let mut rounds = None;
    for answer in lent::compare("rounds", archive::rounds, rounds_number, refuses, table)? {
        tally.buffers += 1;
        if refuses(answer) {
            *tally.refused.entry(answer).or_default() += 1;
        } else {
            tally.accepted += 1;
            within_bounds(table, answer - ROUNDS_BASE)?;
            rounds = Some(answer - ROUNDS_BASE);
        }
    }
    Ok(rounds)
}

/// How many inputs tell each wrong way apart.
struct Apart([(&'static str, u64); WRONG.len()]);

impl Apart {
    /// Counts one table that needs so many rounds.
    fn count(&mut self, bytes: &[u8], rounds: u32) {
        let counted = Counted::new(read(bytes).expect("an accepted table"));
        for ((way, _), (_, times)) in WRONG.iter().zip(&mut self.0) {
            *times += u64::from(counted.rounds(*way) != rounds);
        }
    }
}

/// Compares everything; the summary, or the first difference.
fn run(seed: u64, count: u64) -> Result<String, String> {
    let mut tally = Tally::default();
    let mut one = |what: String, table: &[u8]| {
        compare(&mut tally, table)
            .map_err(|how| format!("difference at {what}\n{how}\n{}", hex::text(table)))
    };

    let (fixed, fixed_count) = command::fixed();
    for (what, table) in &fixed {
        one(what.clone(), table)?;
    }
    for n in 1..=MAX_ROUTINES {
        let what = format!("the chain of {n}");
        let table = chain(n).expect("a chain of so many");
        let rounds = one(what.clone(), &table)?;
        if rounds != Some(n as u32 + 1) {
            return Err(format!("{what}: {rounds:?} rounds, {} are due", n + 1));
        }
    }
    let stored = round_tables::stored();
    for one_stored in &stored {
        let rounds = one(one_stored.name.to_string(), &one_stored.table)?;
        if rounds != Some(one_stored.rounds) {
            return Err(format!("{}: {rounds:?} rounds", one_stored.name));
        }
    }
    let stored: Vec<String> = stored.iter().map(|one| one.rounds.to_string()).collect();

    let mut apart = Apart(WRONG.map(|(_, what)| (what, 0)));
    let mut needs = Needs::default();
    for index in 0..count {
        let (kind, table) = random(seed, index);
        let what = format!("random table {index} of seed {seed}, {kind:?}");
        if let Some(rounds) = one(what, &table)? {
            needs.count(rounds);
            apart.count(&table, rounds);
        }
    }
    let mut made_needs = Needs::default();
    let made = count / TO_ONE_MADE;
    for index in 0..made {
        let (kind, table) = round_tables::table(seed, index);
        let what = format!("table {index} of seed {seed} made to need many rounds, {kind:?}");
        let Some(rounds) = one(what.clone(), &table)? else {
            return Err(format!("{what}: refused\n{}", hex::text(&table)));
        };
        made_needs.count(rounds);
        apart.count(&table, rounds);
    }

    let refused: Vec<String> = tally
        .refused
        .iter()
        .map(|(number, times)| format!("{number}: {times}"))
        .collect();
    let (hardest, seldom) = *apart.0.iter().min_by_key(|way| way.1).expect("a wrong way");
    let summary = format!(
        "no difference, seed {seed}: {fixed_count}, {MAX_ROUTINES} chains, {} stored \
         (rounds {}), {count} random, {made} made to need many rounds; with {} buffers: accepted {}, \
         refused {}; rounds of the random tables: {}; of those made: {}; wrong ways told apart by {}; \
         the least by {seldom}: {hardest}",
        stored.len(),
        stored.join(", "),
        tally.buffers,
        tally.accepted,
        refused.join(", "),
        needs.text(),
        made_needs.text(),
        listed(apart.0.into_iter()),
    );
    if count < ENOUGH {
        return Ok(summary);
    }
    if made_needs.classes[MORE] == 0 {
        return Err(format!("{summary}\nnone needs more than 100 rounds"));
    }
    if seldom == 0 {
        return Err(format!("{summary}\nnone shows: {hardest}"));
    }
    Ok(summary)
}

fn main() -> ExitCode {
    command::seeded("rounds", DEFAULT_SEED, DEFAULT_COUNT, run)
}
