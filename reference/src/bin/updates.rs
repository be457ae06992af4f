//! Compares an archive's update of a model with the reference's.
//!
//! `updates [SEED [COUNT]]` goes over the inputs made by hand and COUNT random inputs of
//! SEED: the answer, every byte of the buffer and some on both sides of it, and that both
//! tables are as they were. Where the model is the analysis's own and the update is done, the
//! buffer must also hold what the analysis writes for the new table. It prints one summary
//! line, or the first difference and exits with 1.
//!
//! Where COUNT is 1,000 or more, it also exits with 1 if one of the things that can be said
//! of inputs is said of none of the random ones, or if none of these would show that an
//! update goes one of the wrong ways of `reference::update`.
//!
//! Needs the feature `archive`.

use std::collections::BTreeMap;
use std::process::ExitCode;

use reference::archive;
use reference::command::{self, listed};
use reference::limits::ROW_BYTES;
use reference::update::{number, update_by, update_number, Way, WRONG};
use reference::update_cases::by_hand;
use reference::update_marks::{all_marks, marks};
use reference::updates::{input, own_model, Input};
use reference::{analyse, hex};

const DEFAULT_SEED: u64 = 1;
const DEFAULT_COUNT: u64 = 20_000;
/// So many random inputs must have all in them.
const ENOUGH: u64 = 1_000;
/// Bytes on both sides of a buffer, which must stay as they were.
const GUARD: usize = 128;

/// How often each answer came.
type Answers = BTreeMap<u32, u64>;

/// Compares one input, or says how the outcomes differ. Gives the answer and the buffer
/// afterwards.
fn compare(input: &Input) -> Result<(u32, Vec<u8>), String> {
    let Input {
        old,
        new,
        routine,
        model,
    } = input;
    let mut after = model.clone();
    let expected = update_number(old, new, *routine, &mut after);
    if expected != 0 && after != *model {
        return Err("the reference changed a byte and refused".to_string());
    }

    let length = model.len();
    let guard: Vec<u8> = (0..GUARD).map(|place| place as u8 + 1).collect();
    let guarded = |bytes: &[u8]| [&guard, bytes, &guard].concat();
    let mut given_bytes = guarded(model);
    let (lent_old, lent_new) = (old.clone(), new.clone());
    let buffer = &mut given_bytes[GUARD..GUARD + length];
    let given = archive::update(&lent_old, &lent_new, *routine, buffer);

    if given != expected {
        return Err(format!("archive {given}, reference {expected}"));
    }
    for (which, lent, before) in [("old", lent_old, old), ("new", lent_new, new)] {
        if lent != *before {
            return Err(format!(
                "{given} in both, but the {which} table was changed"
            ));
        }
    }
    let expected_bytes = guarded(&after);
    let differing = (0..given_bytes.len()).find(|&at| given_bytes[at] != expected_bytes[at]);
    if let Some(at) = differing {
        return Err(format!(
            "{given} in both, but byte {} of the buffer is {} in the archive's, {} in the reference's",
            at as i64 - GUARD as i64,
            given_bytes[at],
            expected_bytes[at]
        ));
    }
    if expected == 0 {
        fresh(input, &after)?;
    }
    Ok((expected, after))
}

/// Whether an update that is done leaves what the analysis writes for the new table, where
/// the model was what it writes for the old one.
fn fresh(input: &Input, after: &[u8]) -> Result<(), String> {
    let model = ROW_BYTES * input.old[0] as usize;
    if input.model[..model] != own_model(&input.old) {
        return Ok(());
    }
    let mut analysed = input.model.clone();
    analyse(&input.new, &mut analysed);
    match (0..after.len()).find(|&at| after[at] != analysed[at]) {
        None => Ok(()),
        Some(at) => Err(format!(
            "byte {at} of the buffer is {} in both, {} by an analysis of the new table",
            after[at], analysed[at]
        )),
    }
}

/// Whether this way of updating comes out otherwise than the right one.
fn tells_apart(way: Way, input: &Input, answer: u32, after: &[u8]) -> bool {
    let mut model = input.model.clone();
    let given = update_by(way, &input.old, &input.new, input.routine, &mut model);
    number(given) != answer || model != after
}

/// An input as hexadecimal text.
fn text(input: &Input) -> String {
    format!(
        "old: {}\nnew: {}\nroutine: {:#X}\nmodel: {}",
        hex::text(&input.old),
        hex::text(&input.new),
        input.routine,
        hex::text(&input.model)
    )
}

/// Compares everything; the summary, or the first difference.
fn run(seed: u64, count: u64) -> Result<String, String> {
    let mut answers = Answers::new();
    let mut one = |what: String, input: &Input| {
        let outcome = compare(input)
            .map_err(|how| format!("difference at {what}\n{how}\n{}", text(input)))?;
        *answers.entry(outcome.0).or_default() += 1;
        Ok::<_, String>(outcome)
    };

    let by_hand = by_hand();
    for made in &by_hand {
        let (answer, _) = one(format!("input by hand: {}", made.what), &made.input)?;
        if answer != made.answer {
            return Err(format!(
                "input by hand: {}\n{answer} in both, but {} is due\n{}",
                made.what,
                made.answer,
                text(&made.input)
            ));
        }
    }
    let mut met: BTreeMap<String, u64> = all_marks().into_iter().map(|mark| (mark, 0)).collect();
    let mut apart = WRONG.map(|(way, what)| (way, what, 0));
    for index in 0..count {
        let (sort, input) = input(seed, index);
        let what = format!("random input {index} of seed {seed}, {sort:?}");
        let (answer, after) = one(what, &input)?;
        for mark in marks(&input, answer, &after) {
            *met.entry(mark).or_default() += 1;
        }
        for (way, _, times) in &mut apart {
            *times += u64::from(tells_apart(*way, &input, answer, &after));
        }
    }

    let refused: Vec<String> = answers
        .iter()
        .filter(|(number, _)| **number != 0)
        .map(|(number, times)| format!("{number}: {times}"))
        .collect();
    let shares = [
        "done",
        "own model",
        "foreign model",
        "foreign and untouched ones",
        "a byte changed",
        "an untouched routine",
    ];
    let least = met.iter().min_by_key(|(_, times)| **times);
    let (rarest, rarely) = least.expect("a mark");
    let (_, hardest, seldom) = apart.iter().min_by_key(|way| way.2).expect("a wrong way");
    let summary = format!(
        "no difference, seed {seed}: {} by hand, {count} random; done {}; refused {}; of the random inputs {}; \
         the rarest of {} marks is {rarest}: {rarely}; wrong ways told apart by {}; the least by {seldom}: {hardest}",
        by_hand.len(),
        answers.get(&0).unwrap_or(&0),
        refused.join(", "),
        listed(shares.iter().map(|mark| (*mark, met[*mark]))),
        met.len(),
        listed(apart.iter().map(|(_, what, times)| (*what, *times))),
    );
    if count < ENOUGH {
        return Ok(summary);
    }
    if *rarely == 0 {
        return Err(format!("{summary}\nnone has: {rarest}"));
    }
    if *seldom == 0 {
        return Err(format!("{summary}\nnone shows: {hardest}"));
    }
    Ok(summary)
}

fn main() -> ExitCode {
    command::seeded("updates", DEFAULT_SEED, DEFAULT_COUNT, run)
}
