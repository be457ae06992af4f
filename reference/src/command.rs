//! What the binaries have in common: their words, what they read, tables that all go over, and how
//! they end.

use std::env;
use std::io::{self, Read};
use std::process::ExitCode;

use crate::cases::{rules, worked};
use crate::generate::boundaries;
use crate::limits::READ_LIMIT;

/// The exit status where the words make no sense.
pub const MISUSED: u8 = 2;

/// `[SEED [COUNT]]`, with what stands for a number that is left out; nothing if the words are others.
fn seed_and_count(seed: u64, count: u64) -> Option<(u64, u64)> {
    let words: Result<Vec<u64>, _> = env::args().skip(1).map(|word| word.parse()).collect();
    match words.ok()?.as_slice() {
        [] => Some((seed, count)),
        [seed] => Some((*seed, count)),
        [seed, count] => Some((*seed, *count)),
        _ => None,
    }
}

/// Prints the summary or the first difference, and gives the exit status.
pub fn end(outcome: Result<String, String>) -> ExitCode {
    match outcome {
        Ok(summary) => {
            println!("{summary}");
            ExitCode::SUCCESS
        }
        Err(difference) => {
            println!("{difference}");
            ExitCode::FAILURE
        }
    }
}

/// Runs a comparison by its words, `[SEED [COUNT]]`, and ends as it does.
pub fn seeded(
    name: &str,
    seed: u64,
    count: u64,
    run: impl Fn(u64, u64) -> Result<String, String>,
) -> ExitCode {
    match seed_and_count(seed, count) {
        Some((seed, count)) => end(run(seed, count)),
        None => {
            eprintln!("usage: {name} [SEED [COUNT]]");
            ExitCode::from(MISUSED)
        }
    }
}

/// The table on standard input.
pub fn stdin() -> Result<Vec<u8>, String> {
    let mut table = Vec::new();
    io::stdin()
        .lock()
        .take(READ_LIMIT as u64)
        .read_to_end(&mut table)
        .map_err(|error| format!("standard input: {error}"))?;
    Ok(table)
}

/// A table with what it is.
pub type Named = (String, Vec<u8>);

/// The worked cases, a table for each rule and the boundary tables; and how many these are, in words.
pub fn fixed() -> (Vec<Named>, String) {
    let named = |what: &str, name: &str, table: &[u8]| (format!("{what} {name}"), table.to_vec());
    let worked = worked();
    let rules = rules();
    let boundaries = boundaries();
    let count = format!(
        "{} worked, {} rule, {} boundary",
        worked.len(),
        rules.len(),
        boundaries.len()
    );
    let worked = worked
        .iter()
        .map(|case| named("worked case", case.name, &case.table));
    let rules = rules
        .iter()
        .map(|case| named("rule:", case.name, &case.table));
    let boundaries = boundaries
        .iter()
        .map(|boundary| named("boundary table:", &boundary.what, &boundary.table));
    (worked.chain(rules).chain(boundaries).collect(), count)
}

/// Names with their counts, in a row.
pub fn listed<'a>(counts: impl Iterator<Item = (&'a str, u64)>) -> String {
    let words: Vec<String> = counts
        .map(|(name, count)| format!("{name}: {count}"))
        .collect();
    words.join(", ")
}
