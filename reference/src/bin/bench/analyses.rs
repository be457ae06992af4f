//! The analysis against the fast Rust analyser.

use reference::groups::Group;
use reference::limits::{MAX_ROUTINES, ROW_BYTES};
use reference::timing::{median, ratio, take_turns, SAMPLE, SAMPLES};
use reference::{analyse_number, archive, check, fast};

use crate::calls::{bytes, side, Alike, Call};
use crate::page::{listed, markdown, microseconds, quotient, surroundings, Line};

/// The goal: no group takes the archive more than this many times what it takes the fast analyser.
const GOAL: f64 = 1.5;
/// The buffer that every call gets: enough for each table.
pub const BUFFER: usize = ROW_BYTES * MAX_ROUTINES;

/// Whether all three analysers agree on all tables.
pub fn verify(groups: &[Group]) -> Result<(), String> {
    let alike = Alike {
        reference: analyse_number,
        others: &[
            ("archive", archive::analyse),
            ("fast", fast::analyse_number),
        ],
        timed: BUFFER,
        exact: |table| ROW_BYTES * check(table).map_or(1, |(routines, _)| routines),
    };
    alike.verify(groups)
}

/// What was measured of one group: nanoseconds for a table, and archive / fast.
pub struct Measured {
    group: Group,
    archive: f64,
    fast: f64,
    ratio: f64,
}

impl Measured {
    fn meets_goal(&self) -> bool {
        self.ratio <= GOAL
    }
}

/// Times a group.
pub fn measure(group: Group) -> Measured {
    let sides = [archive::analyse as Call, fast::analyse_number];
    let [archive, fast] = take_turns(sides.map(|call| side(call, &group.tables, BUFFER)));
    Measured {
        ratio: ratio(&archive, &fast),
        archive: median(&archive),
        fast: median(&fast),
        group,
    }
}

impl Line<7> for Measured {
    const HEADINGS: [&'static str; 7] = [
        "group",
        "tables",
        "bytes",
        "archive µs",
        "fast Rust µs",
        "ratio",
        "goal",
    ];

    fn cells(&self) -> [String; 7] {
        let Group { name, tables, .. } = &self.group;
        [
            name.to_string(),
            tables.len().to_string(),
            bytes(tables.iter()),
            microseconds(self.archive),
            microseconds(self.fast),
            quotient(self.ratio),
            if self.meets_goal() { "met" } else { "missed" }.to_string(),
        ]
    }

    fn group(&self) -> (&str, &str) {
        (self.group.name, self.group.what)
    }
}

/// How many groups meet the goal, in words.
pub fn goal(results: &[Measured]) -> String {
    let met = results.iter().filter(|measured| measured.meets_goal());
    format!(
        "Goal: no group above {GOAL} times the optimised Rust. {} of {} groups meet it.",
        met.count(),
        results.len()
    )
}

/// How the numbers were come by.
fn method() -> String {
    format!(
        "The archive's `vangpear_analyse` and `reference::fast::analyse_number`, a Rust analyser made for\n\
         speed and for this benchmark alone, do the same job on the same tables in one process: the check\n\
         with refusals 1 to 15, the model in rounds that are counted, the number of the verdict. Before\n\
         anything is timed, both and the naive reference analyser agree on every table below, in the answer\n\
         and in every byte of the buffer.\n\
         \n\
         Each time is a median over {SAMPLES} samples, in microseconds for one table. A sample is whole\n\
         passes over the group's tables, as many as take {} µs or more; the two sides take turns. It is\n\
         the thread's processor time, so that other programs count only by what they do to caches and\n\
         to a core that they share. All is warm: the same tables are analysed again and again. Each side\n\
         has one buffer of {BUFFER} bytes, which is not cleared between calls: a call finds what the one\n\
         before left, and overwrites the 65 bytes of each routine. Random tables are of a fixed seed.\n\
         \n\
         The ratio is archive / fast Rust, the median over neighbouring samples, so that a change in the\n\
         machine's load while the benchmark runs meets both.\n",
        SAMPLE.as_micros()
    )
}

/// The part of docs/BENCHMARK.md on the analysis.
pub fn document(results: &[Measured], load: &str) -> String {
    format!(
        "# Benchmark\n\nWritten by `reference/bench --write`; not edited by hand.\n\n\
         {}\n{}\n{}\nBytes are those of one table, on average.\n\n{}\n\n{}",
        method(),
        surroundings(load),
        markdown(results),
        goal(results),
        listed(results)
    )
}
