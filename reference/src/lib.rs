//! A second analyser and runner of handler tables, written from document 01 and requests
//! #101, #102 and #104 to #109 of document 02, the customer's papers, apart from what is
//! under test; docs/FORMAT.md is our page on the same format.
//!
//! It is kept plain, to be compared against, not to be fast:
//! `table` reads and refuses, `model` works out pairs, rows, the verdict and the
//! share, `listing` is the program's text. `cases` and `generate` give tables to try,
//! `frames` puts many of them into one input. `small` has all small tables of some
//! families, and what request #105 moves in them. `runner` runs a table under a schedule,
//! `desk` is the text of that, and `schedules` gives inputs to try. `update` brings a model
//! up to date where one routine has another body, `update_cases` and `updates` give inputs
//! to try, and `update_marks` tells what those have in them. `canonical` writes the canonical
//! table, `writing_cases`, `writing_tables` and `writings` give inputs to try, `shuffles` gives
//! tables that must come to the same bytes, and `writing_marks` tells what the inputs have in
//! them. `rounds` works out the rows in rounds and counts them, and has the dearest chain;
//! `round_tables` gives tables that need many. `fast`, `fast_canonical`, `fast_read`, `groups` and
//! `timing` are there for the benchmark alone, `command` and `lent` have what the binaries share,
//! and `archive` calls what is under test.

#[cfg(feature = "archive")]
pub mod archive;
pub mod canonical;
pub mod cases;
pub mod command;
pub mod desk;
pub mod fast;
pub mod fast_canonical;
mod fast_read;
pub mod frames;
pub mod generate;
pub mod groups;
pub mod hex;
pub mod lent;
pub mod limits;
mod listing;
pub mod model;
pub mod round_tables;
pub mod rounds;
pub mod runner;
pub mod schedules;
pub mod shuffles;
pub mod small;
pub mod table;
pub mod timing;
pub mod update;
pub mod update_cases;
pub mod update_marks;
pub mod updates;
pub mod writing_cases;
pub mod writing_marks;
pub mod writing_tables;
pub mod writings;

use limits::{refusal, CHECK_ROUTINE, RING_BASE, RING_NAME, RING_ROUTINE, ROUNDS_BASE, ROW_BYTES};
pub use listing::{listing, listing_by, listing_with};
pub use model::Rules;

/// What the analysis says of a table.
#[derive(Clone, Copy, Debug, PartialEq, Eq)]
pub enum Answer {
    /// What it says of a table that is not refused.
    Accepted {
        verdict: Verdict,
        share: Share,
        /// How many rounds it takes, the last one counted, which changes nothing.
        rounds: u32,
    },
    /// The number of the refusal.
    Refused(u32),
}

/// Whether a reached routine has a ring.
#[derive(Clone, Copy, Debug, PartialEq, Eq)]
pub enum Verdict {
    /// None has.
    Clear,
    /// The lowest reached routine with a ring, and its lowest ring name.
    Ring { routine: usize, name: u8 },
}

/// How many of the reached routines have no ring, out of a hundred.
#[derive(Clone, Copy, Debug, PartialEq, Eq)]
pub struct Share {
    /// The whole percentage.
    pub percent: u8,
    /// What a hundred times their count leaves over `percent` times `reached`;
    /// always below `reached`.
    pub remainder: u8,
    /// The reached routines, routine 0 with them.
    pub reached: u8,
}

/// The counts of routines and items, or the refusal's number (1 to 14).
pub fn check(table: &[u8]) -> Result<(usize, usize), u32> {
    let table = table::read(table)?;
    Ok((table.routines.len(), table.items()))
}

/// Writes the model into the head of `buffer` and gives the verdict, the share and the rounds.
/// A refusal (1 to 15) leaves the whole buffer as it was.
pub fn analyse(table: &[u8], buffer: &mut [u8]) -> Answer {
    analyse_by(Rules::InForce, table, buffer)
}

/// `analyse` by the rules given.
pub fn analyse_by(rules: Rules, table: &[u8], buffer: &mut [u8]) -> Answer {
    let table = match table::read(table) {
        Ok(table) => table,
        Err(number) => return Answer::Refused(number),
    };
    // 15: a row for each routine must fit.
    let rows = table.routines.len();
    if buffer.len() < ROW_BYTES * rows {
        return Answer::Refused(refusal::SHORT_BUFFER);
    }
    let (outcomes, rounds) = rounds::in_rounds(rules, &table);
    for (outcome, bytes) in outcomes.iter().zip(buffer.chunks_mut(ROW_BYTES)) {
        bytes.copy_from_slice(&model::row_bytes(outcome));
    }
    Answer::Accepted {
        verdict: model::verdict(&table, &outcomes),
        share: model::share(&table, &outcomes),
        rounds,
    }
}

/// `check` as one number.
pub fn check_number(table: &[u8]) -> u32 {
    match check(table) {
        Ok((routines, items)) => CHECK_ROUTINE * routines as u32 + items as u32,
        Err(number) => number,
    }
}

/// The verdict or the refusal of `analyse` as one number. Share and rounds are not in it.
pub fn analyse_number(table: &[u8], buffer: &mut [u8]) -> u32 {
    match analyse(table, buffer) {
        Answer::Accepted { verdict, .. } => verdict_number(verdict),
        Answer::Refused(number) => number,
    }
}

/// The rounds or the refusal of `analyse` as one number.
pub fn rounds_number(table: &[u8], buffer: &mut [u8]) -> u32 {
    match analyse(table, buffer) {
        Answer::Accepted { rounds, .. } => ROUNDS_BASE + rounds,
        Answer::Refused(number) => number,
    }
}

fn verdict_number(verdict: Verdict) -> u32 {
    match verdict {
        Verdict::Clear => 0,
        Verdict::Ring { routine, name } => {
            RING_BASE + RING_ROUTINE * routine as u32 + RING_NAME * name as u32
        }
    }
}
