//! Compares an archive's canonical tables with the reference's.
//!
//! `writings [SEED [COUNT]]` goes over the inputs made by hand and COUNT random inputs of
//! SEED: the answer, every byte of the buffer and some on both sides of it, and that the table
//! is as it was. Where the table is accepted, the archive must also write the same bytes for
//! tables that differ from it in the order of routines, in unreached ones and in mirrors, and
//! for what it wrote. The reference's analysis must give each kept routine the row that it had,
//! and clear where it was clear. It prints one summary line, or the first difference and exits
//! with 1.
//!
//! Where COUNT is 1,000 or more, it also exits with 1 if one of the things that can be said
//! of inputs is said of none of the random ones, if there is no such table of some sort, or if
//! none of the inputs would show that a writer goes one of the wrong ways of
//! `reference::canonical`.
//!
//! Needs the feature `archive`.

use std::collections::BTreeMap;
use std::process::ExitCode;

use reference::canonical::{canonical, canonical_number, canonical_number_by, order};
use reference::canonical::{Way, WRONG};
use reference::command::{self, listed};
use reference::generate::Rng;
use reference::limits::{refusal, CANONICAL_BASE, MAX_ROUTINES, ROW_BYTES};
use reference::shuffles::{shuffled, Shuffle, SHUFFLES};
use reference::table::read;
use reference::writing_cases::{by_hand, Due};
use reference::writing_marks::{all_marks, marks};
use reference::writings::{input, Input};
use reference::{analyse, archive, hex, Answer, Verdict};

const DEFAULT_SEED: u64 = 1;
const DEFAULT_COUNT: u64 = 20_000;
/// So many random inputs must have all in them.
const ENOUGH: u64 = 1_000;
/// Bytes on both sides of a buffer, which must stay as they were.
const GUARD: usize = 128;
/// Bytes of a buffer behind the result.
const BEHIND: usize = 9;

/// How often each answer came, and how many tables of each sort gave the same bytes.
#[derive(Default)]
struct Tally {
    written: u64,
    refused: BTreeMap<u32, u64>,
    shuffles: BTreeMap<Shuffle, u64>,
}

/// The archive's answer, and the buffer afterwards.
fn given(input: &Input) -> Result<Due, String> {
    let Input { table, out } = input;
    let guard: Vec<u8> = (0..GUARD).map(|place| place as u8 + 1).collect();
    let mut bytes = [&guard, &out[..], &guard].concat();
    let lent = table.clone();
    let answer = archive::canonical(&lent, &mut bytes[GUARD..GUARD + out.len()]);
    if lent != *table {
        return Err(format!("archive {answer}, and the table was changed"));
    }
    let behind = bytes.split_off(GUARD + out.len());
    let out = bytes.split_off(GUARD);
    for (which, bytes) in [("before", bytes), ("behind", behind)] {
        if bytes != guard {
            return Err(format!(
                "archive {answer}, and a byte {which} the buffer was changed"
            ));
        }
    }
    Ok(Due { answer, out })
}

/// Whether both are the same, or how they differ.
fn same(given: &Due, expected: &Due) -> Result<(), String> {
    if given.answer != expected.answer {
        return Err(format!(
            "archive {}, reference {}",
            given.answer, expected.answer
        ));
    }
    match (0..given.out.len()).find(|&at| given.out[at] != expected.out[at]) {
        None => Ok(()),
        Some(at) => Err(format!(
            "{} in both, but byte {at} of the buffer is {} in the archive's, {} in the reference's",
            given.answer, given.out[at], expected.out[at]
        )),
    }
}

/// Compares one input, or says how the outcomes differ. Gives the answer and the buffer
/// afterwards.
fn compare(input: &Input) -> Result<Due, String> {
    let mut out = input.out.clone();
    let answer = canonical_number(&input.table, &mut out);
    let expected = Due { answer, out };
    if answer < CANONICAL_BASE && expected.out != input.out {
        return Err("the reference changed a byte and refused".to_string());
    }
    same(&given(input)?, &expected)?;
    Ok(expected)
}

/// Whether the archive writes this result for a table.
fn gives(table: &[u8], result: &[u8], what: &str) -> Result<(), String> {
    let out = vec![255; result.len() + BEHIND];
    let expected = Due {
        answer: CANONICAL_BASE + result.len() as u32,
        out: [result, &out[result.len()..]].concat(),
    };
    let input = Input {
        table: table.to_vec(),
        out,
    };
    let outcome = given(&input).and_then(|given| same(&given, &expected));
    outcome.map_err(|how| format!("{what}: {how}\n{what}: {}", hex::text(table)))
}

/// The rows of an accepted table, and whether it is clear.
fn analysed(table: &[u8]) -> (Vec<u8>, bool) {
    let mut model = vec![0; ROW_BYTES * MAX_ROUTINES];
    let answer = analyse(table, &mut model);
    let clear = matches!(
        answer,
        Answer::Accepted {
            verdict: Verdict::Clear,
            ..
        }
    );
    (model, clear)
}

/// Whether the analysis says the same of a table and its result.
fn means_the_same(table: &[u8], result: &[u8]) -> Result<(), String> {
    let (rows, clear) = analysed(table);
    let (new_rows, new_clear) = analysed(result);
    if clear != new_clear {
        return Err(format!("clear is {clear}, and {new_clear} of the result"));
    }
    let row = |rows: &[u8], at: usize| rows[ROW_BYTES * at..][..ROW_BYTES].to_vec();
    let order = order(&read(table).expect("an accepted table"));
    for (new, old) in order.into_iter().enumerate() {
        if row(&new_rows, new) != row(&rows, old) {
            return Err(format!("routine {old} has another row as routine {new}"));
        }
    }
    Ok(())
}

/// Compares one input, and all that has to give the same bytes.
fn compare_all(tally: &mut Tally, rng: &mut Rng, input: &Input) -> Result<Due, String> {
    let outcome = compare(input)?;
    if outcome.answer < CANONICAL_BASE {
        *tally.refused.entry(outcome.answer).or_default() += 1;
    } else {
        tally.written += 1;
    }
    let Ok(result) = canonical(&input.table) else {
        return Ok(outcome);
    };
    gives(&result, &result, "the result")?;
    for (shuffle, what) in SHUFFLES {
        if let Some(table) = shuffled(rng, shuffle, &input.table) {
            gives(&table, &result, what)?;
            *tally.shuffles.entry(shuffle).or_default() += 1;
        }
    }
    means_the_same(&input.table, &result)?;
    Ok(outcome)
}

/// Whether this way of writing comes out otherwise than the right one.
fn tells_apart(way: Way, input: &Input, right: &Due) -> bool {
    let mut out = input.out.clone();
    let answer = canonical_number_by(way, &input.table, &mut out);
    answer != right.answer || out != right.out
}

/// An input as hexadecimal text.
fn text(input: &Input) -> String {
    let [table, out] = [&input.table, &input.out].map(|bytes| hex::text(bytes));
    format!("table: {table}\nbuffer: {out}")
}

/// Compares everything; the summary, or the first difference.
fn run(seed: u64, count: u64) -> Result<String, String> {
    let mut tally = Tally::default();
    let mut one = |what: String, rng: &mut Rng, input: &Input| {
        compare_all(&mut tally, rng, input)
            .map_err(|how| format!("difference at {what}\n{how}\n{}", text(input)))
    };

    let by_hand = by_hand();
    let mut rng = Rng::new(seed);
    for made in &by_hand {
        let what = format!("input by hand: {}", made.what);
        let outcome = one(what.clone(), &mut rng, &made.input)?;
        if let Some(due) = made.due.as_ref().filter(|due| **due != outcome) {
            return Err(format!(
                "{what}\n{} in both, but {} is due, or other bytes\n{}",
                outcome.answer,
                due.answer,
                text(&made.input)
            ));
        }
    }
    let mut met: BTreeMap<String, u64> = all_marks().into_iter().map(|mark| (mark, 0)).collect();
    let mut apart = WRONG.map(|(way, what)| (way, what, 0));
    for index in 0..count {
        let (sort, input) = input(seed, index);
        let what = format!("random input {index} of seed {seed}, {sort:?}");
        let outcome = one(what, &mut rng, &input)?;
        for mark in marks(&input, outcome.answer) {
            *met.entry(mark).or_default() += 1;
        }
        for (way, _, times) in &mut apart {
            *times += u64::from(tells_apart(*way, &input, &outcome));
        }
    }

    let short = tally.refused.remove(&refusal::SHORT_OUTPUT).unwrap_or(0);
    let refused: Vec<String> = tally
        .refused
        .iter()
        .map(|(number, times)| format!("{number}: {times}"))
        .collect();
    let shuffles = SHUFFLES.map(|(sort, what)| (what, *tally.shuffles.get(&sort).unwrap_or(&0)));
    let least = met.iter().min_by_key(|(_, times)| **times);
    let (rarest, rarely) = least.expect("a mark");
    let (_, hardest, seldom) = apart.iter().min_by_key(|way| way.2).expect("a wrong way");
    let summary =
        format!(
        "no difference, seed {seed}: {} by hand, {count} random; written {}; too short {short}; \
         refused {}; of the random inputs {}; the same bytes from others by {}; \
         the rarest of {} marks is {rarest}: {rarely}; wrong ways told apart by {}; \
         the least by {seldom}: {hardest}",
        by_hand.len(),
        tally.written,
        refused.join(", "),
        listed(["another table", "the table itself"].map(|mark| (mark, met[mark])).into_iter()),
        listed(shuffles.into_iter()),
        met.len(),
        listed(apart.iter().map(|(_, what, times)| (*what, *times))),
    );
    if count < ENOUGH {
        return Ok(summary);
    }
    if *rarely == 0 {
        return Err(format!("{summary}\nnone has: {rarest}"));
    }
    if let Some((what, _)) = shuffles.iter().find(|(_, times)| *times == 0) {
        return Err(format!("{summary}\nnone differs by: {what}"));
    }
    if *seldom == 0 {
        return Err(format!("{summary}\nnone shows: {hardest}"));
    }
    Ok(summary)
}

fn main() -> ExitCode {
    command::seeded("writings", DEFAULT_SEED, DEFAULT_COUNT, run)
}
