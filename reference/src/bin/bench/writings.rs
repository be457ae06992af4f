//! The writing of canonical tables against the check and against the fast Rust writer.

use reference::canonical::{canonical, canonical_number};
use reference::groups::Group;
use reference::limits::READ_LIMIT;
use reference::timing::{median, ratio, take_turns};
use reference::{archive, check_number, fast_canonical};

use crate::calls::{bytes, side, Alike, Call};
use crate::page::{listed, markdown, microseconds, quotient, some_of_all, Line};

/// The buffer that every call gets: the longest table, and no result is longer than its table.
const BUFFER: usize = READ_LIMIT - 1;

/// The canonical table of one in these groups.
fn result(table: &Vec<u8>) -> Vec<u8> {
    canonical(table).expect("an accepted table")
}

/// Whether all three writers agree on all tables, and archive and reference on their check.
pub fn verify(groups: &[Group]) -> Result<(), String> {
    let writers = Alike {
        reference: canonical_number,
        others: &[
            ("archive", archive::canonical),
            ("fast", fast_canonical::canonical_number),
        ],
        timed: BUFFER,
        exact: |table| canonical(table).map_or(1, |result| result.len()),
    };
    let checks = Alike {
        reference: |table, _| check_number(table),
        others: &[("archive's check", check)],
        ..writers
    };
    writers.verify(groups)?;
    checks.verify(groups)
}

/// The check, which needs no buffer.
fn check(table: &[u8], _: &mut [u8]) -> u32 {
    archive::check(table)
}

/// What was measured of one group: nanoseconds for a table, and canonical / each of the others.
pub struct Measured {
    group: Group,
    check: f64,
    canonical: f64,
    fast: f64,
    to_check: f64,
    to_fast: f64,
}

/// Times a group.
pub fn measure(group: Group) -> Measured {
    let sides = [
        check as Call,
        archive::canonical,
        fast_canonical::canonical_number,
    ];
    let sides = sides.map(|call| side(call, &group.tables, BUFFER));
    let [check, canonical, fast] = take_turns(sides);
    Measured {
        to_check: ratio(&canonical, &check),
        to_fast: ratio(&canonical, &fast),
        check: median(&check),
        canonical: median(&canonical),
        fast: median(&fast),
        group,
    }
}

impl Line<10> for Measured {
    const HEADINGS: [&'static str; 10] = [
        "group",
        "tables",
        "bytes",
        "written",
        "routines",
        "check µs",
        "canonical µs",
        "fast Rust µs",
        "canonical / check",
        "canonical / Rust",
    ];

    fn cells(&self) -> [String; 10] {
        let Group { name, tables, .. } = &self.group;
        let results: Vec<Vec<u8>> = tables.iter().map(result).collect();
        // The first byte of a table says how many there are.
        let routines = |tables: (&Vec<u8>, &Vec<u8>)| (tables.0[0].into(), tables.1[0].into());
        let routines: Vec<(usize, usize)> = results.iter().zip(tables).map(routines).collect();
        [
            name.to_string(),
            tables.len().to_string(),
            bytes(tables.iter()),
            bytes(results.iter()),
            some_of_all(&routines),
            microseconds(self.check),
            microseconds(self.canonical),
            microseconds(self.fast),
            quotient(self.to_check),
            quotient(self.to_fast),
        ]
    }

    fn group(&self) -> (&str, &str) {
        (self.group.name, self.group.what)
    }
}

/// How the numbers were come by.
fn method() -> String {
    format!(
        "`vangpear_canonical` writes the canonical table of a table: the routines that are reached, in the\n\
         order in which calls meet them, and without mirrors. It is held against what it has to do at any\n\
         rate, `vangpear_check` of the table, and against `reference::fast_canonical::canonical_number`, a\n\
         Rust writer made for speed and for this benchmark alone, which does the same job: refusals 1 to 14\n\
         and 20, the bytes, the number of the answer. Before anything is timed, both writers and the naive\n\
         reference's `canonical_number` agree on every table below, in the answer and in every byte of the\n\
         buffer.\n\
         \n\
         All tables below are accepted, and written: each side has one buffer of {BUFFER} bytes, as many as a\n\
         table can have, which is not cleared between calls. The Rust writer notes in the pass that checks\n\
         the bytes what it needs for the order and the length, copies a body without mirrors whole, and\n\
         parses only one with mirrors a second time.\n\
         \n\
         Samples, medians and ratios are as above, with three sides that take turns.\n"
    )
}

/// The part of docs/BENCHMARK.md on the canonical table.
pub fn document(results: &[Measured]) -> String {
    format!(
        "## A table written anew\n\n{}\n{}\n\
         Bytes are those of one table, written those of its canonical table, and routines those that are\n\
         kept of all, each on average.\n\n{}",
        method(),
        markdown(results),
        listed(results)
    )
}
