//! What counting rounds costs: the fast Rust analyser with the count and without it.

use reference::groups::Group;
use reference::limits::{ROUNDS_BASE, ROW_BYTES};
use reference::timing::{median, ratio, take_turns};
use reference::{analyse_number, archive, check, fast, rounds_number};

use crate::analyses::BUFFER;
use crate::calls::{side, Alike, Call};
use crate::page::{average, markdown, microseconds, quotient, Line};

/// Whether all three analysers count the same rounds in all tables, and whether the fast one has the same
/// verdict and the same bytes without the count.
pub fn verify(groups: &[Group]) -> Result<(), String> {
    let rounds = Alike {
        reference: rounds_number,
        others: &[("archive", archive::rounds), ("fast", fast::rounds_number)],
        timed: BUFFER,
        exact: |table| ROW_BYTES * check(table).map_or(1, |(routines, _)| routines),
    };
    let sweeps = Alike {
        reference: analyse_number,
        others: &[("fast in sweeps", fast::sweep_number)],
        ..rounds
    };
    rounds.verify(groups)?;
    sweeps.verify(groups)
}

/// What was measured of one group: nanoseconds for a table, and with the count / without it.
pub struct Measured {
    group: Group,
    counting: f64,
    sweeping: f64,
    ratio: f64,
}

/// The groups whose tables are accepted: others have no rounds.
pub fn with_rounds(groups: Vec<Group>) -> Vec<Group> {
    let accepted = |group: &Group| group.tables.iter().all(|table| check(table).is_ok());
    groups.into_iter().filter(accepted).collect()
}

/// Times a group.
pub fn measure(group: Group) -> Measured {
    let sides = [fast::analyse_number as Call, fast::sweep_number];
    let [counting, sweeping] = take_turns(sides.map(|call| side(call, &group.tables, BUFFER)));
    Measured {
        ratio: ratio(&counting, &sweeping),
        counting: median(&counting),
        sweeping: median(&sweeping),
        group,
    }
}

impl Line<7> for Measured {
    const HEADINGS: [&'static str; 7] = [
        "group",
        "rounds",
        "rows in rounds",
        "rows in sweeps",
        "with count µs",
        "without µs",
        "with / without",
    ];

    fn cells(&self) -> [String; 7] {
        let Group { name, tables, .. } = &self.group;
        let rounds = tables.iter().map(|table| {
            let number = fast::rounds_number(table, &mut [0; BUFFER]);
            (number - ROUNDS_BASE) as usize
        });
        let rows = |way: usize| {
            tables
                .iter()
                .map(move |table| fast::rows_worked_out(table)[way])
        };
        [
            name.to_string(),
            average(rounds),
            average(rows(0)),
            average(rows(1)),
            microseconds(self.counting),
            microseconds(self.sweeping),
            quotient(self.ratio),
        ]
    }

    fn group(&self) -> (&str, &str) {
        (self.group.name, self.group.what)
    }
}

/// How the numbers were come by.
fn method() -> &'static str {
    "Rounds can be counted only where each round uses the rows of the round before, and those alone. Without\n\
     the count, a row can be used as soon as it is worked out. `reference::fast::sweep_number` does that, in\n\
     sweeps from the highest routine down, and has no number of rounds; all else it shares with\n\
     `reference::fast::analyse_number`. Before anything is timed, the archive's `vangpear_rounds`,\n\
     `reference::fast::rounds_number` and the naive reference's `rounds_number` agree on every table of the\n\
     groups above, in the number and in every byte of the buffer, and so do `sweep_number` and the naive\n\
     analysis.\n\
     \n\
     Samples, medians and ratios are as above. The two sides are timed beside each other, so their times are\n\
     for comparison within this section.\n"
}

/// The part of docs/BENCHMARK.md on the count.
pub fn document(results: &[Measured]) -> String {
    format!(
        "## What counting rounds costs\n\n{}\n{}\n\
         Rounds are those of one table, the last one counted, which changes nothing. Rows are those worked out\n\
         for one table, a row as often as it is. Both are averages. Neither way works out a row anew where its\n\
         calls bring no new pair.\n\n\
         The groups are those above whose tables are accepted.\n",
        method(),
        markdown(results)
    )
}
