//! The update of a model against the analysis.

use std::hint::black_box;

use reference::groups::{Replaced, UpdateGroup};
use reference::timing::{median, ratio, take_turns, Side};
use reference::update::update_number;
use reference::updates::own_model;
use reference::{analyse_number, archive, check_number, hex};

use crate::analyses::BUFFER;
use crate::calls::{bytes, FILLER};
use crate::page::{listed, markdown, microseconds, quotient, some_of_all, Line};

/// What is done where a routine is replaced: it gets the old table, the new one, the routine and the
/// old table's model.
type Updater = fn(&[u8], &[u8], u64, &mut [u8]) -> u32;

/// Whether the archive's update, the reference's and fresh analyses by both lead from the old table's
/// model to the same buffer.
fn lead_alike(old: &[u8], new: &[u8], routine: u64) -> Result<(), String> {
    let mut before = vec![FILLER; BUFFER];
    let model = own_model(old);
    before[..model.len()].copy_from_slice(&model);
    let outcome = |updater: Updater| {
        let mut buffer = before.clone();
        (updater(old, new, routine, &mut buffer), buffer)
    };
    let (verdict, after) = outcome(|_, new, _, model| analyse_number(new, model));
    for (name, updater, answer) in [
        ("archive's update", archive::update as Updater, 0),
        ("reference's update", update_number, 0),
        ("archive's analysis", analysis, verdict),
    ] {
        let given = outcome(updater);
        if given.0 != answer {
            return Err(format!("{name} gives {}, due is {answer}", given.0));
        }
        if given.1 != after {
            return Err(format!("{name}: the buffer differs"));
        }
    }
    let checked = archive::check(new);
    if checked != check_number(new) {
        return Err(format!("archive's check gives {checked}"));
    }
    Ok(())
}

/// Compares all pairs of all groups, both ways; the first difference.
pub fn verify(groups: &[UpdateGroup]) -> Result<(), String> {
    for UpdateGroup { name, pairs, .. } in groups {
        for pair in pairs {
            for (old, new) in ways(pair) {
                lead_alike(old, new, pair.routine as u64).map_err(|how| {
                    let (old, new) = (hex::text(old), hex::text(new));
                    format!("{name}: {how}\nold: {old}\nnew: {new}")
                })?;
            }
        }
    }
    Ok(())
}

/// The old and the new table of both ways to go through a pair.
fn ways(pair: &Replaced) -> [(&[u8], &[u8]); 2] {
    [(&pair.old, &pair.new), (&pair.new, &pair.old)]
}

/// The check of both tables.
fn two_checks(old: &[u8], new: &[u8], _: u64, _: &mut [u8]) -> u32 {
    black_box(archive::check(old));
    archive::check(new)
}

/// The analysis of the new table.
fn analysis(_: &[u8], new: &[u8], _: u64, model: &mut [u8]) -> u32 {
    archive::analyse(new, model)
}

/// The side of an updater, with its own model of each pair: that of the old table before each pass,
/// as the second way leads back.
fn updating(updater: Updater, pairs: &[Replaced]) -> Side<'_> {
    let mut models: Vec<Vec<u8>> = pairs.iter().map(|pair| own_model(&pair.old)).collect();
    Side::new(2 * pairs.len(), move || {
        let updater = black_box(updater);
        for (pair, model) in pairs.iter().zip(&mut models) {
            for (old, new) in ways(black_box(pair)) {
                black_box(updater(old, new, pair.routine as u64, black_box(model)));
            }
        }
    })
}

/// What was measured of one group of pairs: nanoseconds for a routine replaced, and update / each of
/// the others.
pub struct Measured {
    group: UpdateGroup,
    checks: f64,
    update: f64,
    analysis: f64,
    to_checks: f64,
    to_analysis: f64,
}

/// Times a group of pairs.
pub fn measure(group: UpdateGroup) -> Measured {
    let sides = [two_checks as Updater, archive::update, analysis];
    let [checks, update, analysis] = take_turns(sides.map(|side| updating(side, &group.pairs)));
    Measured {
        to_checks: ratio(&update, &checks),
        to_analysis: ratio(&update, &analysis),
        checks: median(&checks),
        update: median(&update),
        analysis: median(&analysis),
        group,
    }
}

impl Line<9> for Measured {
    const HEADINGS: [&'static str; 9] = [
        "group",
        "pairs",
        "bytes",
        "rows",
        "two checks µs",
        "update µs",
        "analysis µs",
        "update / checks",
        "update / analysis",
    ];

    fn cells(&self) -> [String; 9] {
        let UpdateGroup { name, pairs, .. } = &self.group;
        let tables: Vec<&Vec<u8>> = pairs
            .iter()
            .flat_map(|pair| [&pair.old, &pair.new])
            .collect();
        let rows: Vec<(usize, usize)> = pairs.iter().map(Replaced::rows).collect();
        [
            name.to_string(),
            pairs.len().to_string(),
            bytes(tables.into_iter()),
            some_of_all(&rows),
            microseconds(self.checks),
            microseconds(self.update),
            microseconds(self.analysis),
            quotient(self.to_checks),
            quotient(self.to_analysis),
        ]
    }

    fn group(&self) -> (&str, &str) {
        (self.group.name, self.group.what)
    }
}

/// How the numbers for pairs were come by.
fn method() -> &'static str {
    "Where one routine is replaced, `vangpear_update` brings the model up to date. It is held against\n\
     `vangpear_analyse` of the new table, which does without the old model, and against what it has to\n\
     do at any rate, `vangpear_check` of the old table and of the new one. Before anything is timed, the\n\
     archive's update, the reference's `update_number` and fresh analyses by both agree on every pair of\n\
     tables below, both ways, in the answer and in every byte of the buffer.\n\
     \n\
     Each pair is gone through both ways in turn: from the old table to the new one, then back. So each\n\
     call finds the model that the one before left, which is the analysis's own, and nothing is copied.\n\
     The work is that on a copy of the old model: what the rows that may change were before does not\n\
     matter. It may differ between the two ways, as the two bodies do, but all three sides go both: the\n\
     analysis is of the table that the update leads to, so of each of the two once, and the checks are of\n\
     both tables each time. A time is for one replacement, the mean of the two ways. There are two checks\n\
     in an update, and one in an analysis. Each side has its own buffer for each pair, of 65 bytes for\n\
     each routine.\n\
     \n\
     Samples, medians and ratios are as above, with three sides that take turns. The analysis is timed\n\
     over both tables of each pair and beside other work than above, so its times are for comparison\n\
     within this section.\n"
}

/// The part of docs/BENCHMARK.md on the update.
pub fn document(results: &[Measured]) -> String {
    format!(
        "## A model brought up to date\n\n{}\n{}\n\
         Bytes are those of one table, and rows those that may change of all, both on average: the row of\n\
         the routine, and those of the routines from which calls lead to it.\n\n{}",
        method(),
        markdown(results),
        listed(results)
    )
}
