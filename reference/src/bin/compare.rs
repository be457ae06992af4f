//! Compares an archive's C functions with the reference.
//!
//! `compare [SEED [COUNT]]` goes over the worked cases, a table for each rule, the
//! boundary tables, some plain runs of bytes and COUNT random tables of SEED. It
//! prints one summary line, or the first difference and exits with 1.
//!
//! It also exits with 1 if one of the random tables was clear before request #105 and is
//! a ring with it.
//!
//! Where COUNT is 1,000 or more, it does so too if none of the random tables would have
//! come out otherwise before request #101, if fewer than a third of them are accepted
//! tables with a mirror, if none of those would come out otherwise with each mirror a NEW
//! lock of its own, or if none of them would have come out otherwise before request #105.
//!
//! None of the archive's numbers has the share in it: the listings that `frames` writes
//! are there to compare that.
//!
//! Needs the feature `archive`.

use std::collections::BTreeMap;
use std::process::ExitCode;

use reference::archive;
use reference::command;
use reference::generate::{random, Rng, KINDS};
use reference::limits::CHECK_ROUTINE;
use reference::{check_number, hex};

const DEFAULT_SEED: u64 = 1;
const DEFAULT_COUNT: u64 = 100_000;
/// So many random tables must have something of what the requests change.
const ENOUGH: u64 = 1_000;
/// At least one in so many of them is an accepted table with a mirror.
const ONE_IN: u64 = 3;

/// What has been compared so far.
#[derive(Default)]
struct Tally {
    accepted: u64,
    /// How often each refusal was given.
    refused: BTreeMap<u32, u64>,
    analysis: analysis::Tally,
}

/// Compares one table, or says how the answers differ.
fn compare(tally: &mut Tally, table: &[u8]) -> Result<(), String> {
    let lent = table.to_vec();
    let expected = check_number(table);
    let given = archive::check(&lent);
    if given != expected {
        return Err(format!("check: archive {given}, reference {expected}"));
    }
    if lent != table {
        return Err(format!("check: {given} in both, but the table was changed"));
    }
    if expected < CHECK_ROUTINE {
        *tally.refused.entry(expected).or_default() += 1;
    } else {
        tally.accepted += 1;
    }
    analysis::compare(&mut tally.analysis, table)
}

/// The analysis, over buffers of every length that matters.
mod analysis {
    use reference::limits::RING_BASE;
    use reference::{analyse_number, archive, lent};

    #[derive(Default)]
    pub struct Tally {
        pub buffers: u64,
        pub clear: u64,
        pub ring: u64,
        pub refused: u64,
    }

    pub fn compare(tally: &mut Tally, table: &[u8]) -> Result<(), String> {
        let refuses = |answer| answer != 0 && answer < RING_BASE;
        for answer in lent::compare("analyse", archive::analyse, analyse_number, refuses, table)? {
            tally.buffers += 1;
            match answer {
                0 => tally.clear += 1,
                RING_BASE.. => tally.ring += 1,
                _ => tally.refused += 1,
            }
        }
        Ok(())
    }
}

/// What single rules change in the random tables.
mod changes {
    use reference::cases::Said;
    use reference::limits::ROW_BYTES;
    use reference::model::locks_passed_over;
    use reference::table::{read, Table};
    use reference::{analyse_by, Rules, Verdict};

    #[derive(Default)]
    pub struct Tally {
        /// Accepted tables with a LOCK that is passed over.
        pub passed_over: u64,
        /// Those whose answer or model was another before request #101.
        pub by_nests: u64,
        /// Accepted tables with a mirror.
        pub mirrors: u64,
        /// Those whose answer or model is another with each mirror a NEW lock of its own.
        pub by_mirrors: u64,
        /// Those with a LOCK that is passed over by its lock and not by its name.
        pub held_mirrors: u64,
        /// Those whose answer or model was another before request #105.
        pub by_held_mirrors: u64,
        /// Those whose verdict was another before request #105.
        pub verdicts: u64,
    }

    /// Counts one table, which may be a refused one; or says what no table may do.
    pub fn count(tally: &mut Tally, bytes: &[u8]) -> Result<(), String> {
        let Ok(table) = read(bytes) else {
            return Ok(());
        };
        let passed_over = |rules| locks_passed_over(rules, &table);
        let now = outcome(Rules::InForce, bytes, &table);
        let changes = |rules| outcome(rules, bytes, &table) != now;
        // Elsewhere the rules are the same.
        if passed_over(Rules::InForce) > 0 {
            tally.passed_over += 1;
            tally.by_nests += u64::from(changes(Rules::Before101));
        }
        if table.mirrors() > 0 {
            tally.mirrors += 1;
            tally.by_mirrors += u64::from(changes(Rules::MirrorsApart));
            let by_lock_alone = passed_over(Rules::InForce) != passed_over(Rules::Before105);
            tally.held_mirrors += u64::from(by_lock_alone);
            let before = outcome(Rules::Before105, bytes, &table);
            tally.by_held_mirrors += u64::from(before != now);
            let [old, new] = [&before, &now].map(|outcome| verdict(outcome.0));
            tally.verdicts += u64::from(old != new);
            if old == Some(Verdict::Clear) && old != new {
                return Err("clear before request #105, a ring with it".to_string());
            }
        }
        Ok(())
    }

    /// The answer and the model by these rules.
    fn outcome(rules: Rules, bytes: &[u8], table: &Table) -> (Said, Vec<u8>) {
        let mut model = vec![0; ROW_BYTES * table.routines.len()];
        (Said::from(analyse_by(rules, bytes, &mut model)), model)
    }

    fn verdict(said: Said) -> Option<Verdict> {
        match said {
            Said::Accepted { verdict, .. } => Some(verdict),
            Said::Refused(_) => None,
        }
    }

    /// What is missing in `count` random tables, none where all is there.
    pub fn missing(tally: &Tally, count: u64) -> Option<&'static str> {
        if tally.by_nests == 0 {
            Some("none was another before request #101")
        } else if super::ONE_IN * tally.mirrors < count {
            Some("too few are accepted and have a mirror")
        } else if tally.by_mirrors == 0 {
            Some("none is another with each mirror a lock of its own")
        } else if tally.by_held_mirrors == 0 {
            Some("none was another before request #105")
        } else {
            None
        }
    }
}

/// Runs of bytes without a plan: none, each single byte, and 2^16 of them.
fn plain(seed: u64) -> Vec<Vec<u8>> {
    let mut all = vec![vec![]];
    all.extend((0..=255).map(|byte| vec![byte]));
    let mut rng = Rng::new(seed);
    let long = rng.bytes(1 << 16);
    // The same bytes behind heads that get further.
    for head in [
        &[][..],
        &[1],
        &[64],
        &[1, 0],
        &[1, 0, 0, 16],
        &[1, 0, 255, 255],
    ] {
        let mut table = head.to_vec();
        table.extend(&long[head.len()..]);
        all.push(table);
    }
    all.push(vec![0; 1 << 16]);
    all.push(vec![1; 1 << 16]);
    all.push(vec![255; 1 << 16]);
    all
}

/// Compares everything; the summary, or the first difference.
fn run(seed: u64, count: u64) -> Result<String, String> {
    let mut tally = Tally::default();
    let mut one = |what: String, table: &[u8]| {
        compare(&mut tally, table)
            .map_err(|how| format!("difference at {what}\n{how}\n{}", hex::text(table)))
    };

    let (fixed, fixed_count) = command::fixed();
    for (what, table) in &fixed {
        one(what.clone(), table)?;
    }
    let plain = plain(seed);
    for (index, table) in plain.iter().enumerate() {
        one(format!("plain table {index}"), table)?;
    }
    let mut kinds = BTreeMap::new();
    let mut changes = changes::Tally::default();
    for index in 0..count {
        let (kind, table) = random(seed, index);
        let what = format!("random table {index} of seed {seed}, {kind:?}");
        one(what.clone(), &table)?;
        *kinds.entry(kind).or_insert(0) += 1;
        changes::count(&mut changes, &table)
            .map_err(|how| format!("{what}: {how}\n{}", hex::text(&table)))?;
    }
    if let Some(missing) = changes::missing(&changes, count).filter(|_| count >= ENOUGH) {
        return Err(format!(
            "of {count} random tables of seed {seed}, {missing}"
        ));
    }

    let kinds: Vec<String> = KINDS
        .iter()
        .map(|(kind, word)| format!("{} {word}", kinds.get(kind).unwrap_or(&0)))
        .collect();
    let refused: Vec<String> = tally
        .refused
        .iter()
        .map(|(number, times)| format!("{number}: {times}"))
        .collect();
    let mut summary = format!(
        "no difference, seed {seed}: {fixed_count}, {} plain, {count} random ({}); accepted {}; refused {}",
        plain.len(),
        kinds.join(", "),
        tally.accepted,
        refused.join(", "),
    );
    {
        let analysis = &tally.analysis;
        summary += &format!(
            "; analysed with {} buffers: clear {}, ring {}, refused {}",
            analysis.buffers, analysis.clear, analysis.ring, analysis.refused
        );
    }
    summary += &format!(
        "; of the random tables {} have a LOCK that is passed over, {} came out otherwise before request #101",
        changes.passed_over, changes.by_nests
    );
    summary += &format!(
        "; {} have a mirror and are accepted, {} would come out otherwise with each mirror a NEW lock of its own",
        changes.mirrors, changes.by_mirrors
    );
    summary += &format!(
        "; {} have a LOCK that is passed over by its lock and not by its name, {} came out otherwise before request #105, {} of them in the verdict",
        changes.held_mirrors, changes.by_held_mirrors, changes.verdicts
    );
    Ok(summary)
}

fn main() -> ExitCode {
    command::seeded("compare", DEFAULT_SEED, DEFAULT_COUNT, run)
}
