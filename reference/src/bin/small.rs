//! Goes over all small tables of a few families, and tells what request #105 moves.
//!
//! `small [ITEMS [before105]]` has up to ITEMS items in the bodies of a table (7 if it is not said;
//! END and OTHER do not count). It prints how many tables each family has and what moves: it works
//! out the answer of each table with a mirror twice, by the rules in force and by those before
//! request #105. A table without a mirror is not worked out twice: the request says nothing of it.
//! Then it prints the kinds of tables that moved, each with its smallest table, and the kinds that
//! one might expect to move and that do not.
//!
//! It exits with 1, and prints the table, if a clear table became a ring, if a pair or a ring came
//! into a model, or if an answer moved although no LOCK is on a name whose lock is in the nest by
//! another name, with a LOCK of another lock between the two.
//!
//! With the feature `archive` it also holds the archive's number and model of each table against the
//! rules in force, or with `before105` against those before request #105, and exits with 1 at the
//! first difference.

use std::collections::BTreeMap;
use std::env;
use std::process::ExitCode;

use reference::hex;
use reference::small::{comes_in, differences, families, marks, met_in, pair_goes};
use reference::small::{said, size, words, Family, Kind, Marks, Said};
use reference::table::{read, Table};
use reference::Rules;

const DEFAULT_ITEMS: usize = 7;
/// With more, a body could have more FORK items than are allowed.
const MOST_ITEMS: usize = 8;

/// What can be said of a table that moved: of the LOCK that makes the difference, and of what stands
/// inside it.
const DETAILS: [(Marks, &str); 5] = [
    (Marks::MIRROR_INSIDE, "a mirror inside its lock"),
    (Marks::MIRROR_OUTSIDE, "a lock inside its mirror"),
    (Marks::TWO_MIRRORS, "a mirror inside another one"),
    (Marks::LOCK_INSIDE, "a LOCK in it with another holder"),
    (Marks::CALL_INSIDE, "a CALL in it with another holder"),
];

/// What does not move an answer by itself, and the marks that there must not be besides.
const STILL: [(Marks, Marks, &str); 5] = [
    (
        Marks::BY_CALLER,
        Marks::MET,
        "a LOCK of a lock that the caller has by another name",
    ),
    (
        Marks::ONE_LOCK_TWICE,
        Marks::MET,
        "a LOCK of a parameter inside that of another one, with one lock for both",
    ),
    (
        Marks::BY_PARENT,
        Marks::MET,
        "a LOCK in a fork of a lock that is held outside the fork by another name",
    ),
    (
        Marks::CLOSED,
        Marks::MET,
        "a LOCK of a lock that was taken by another name and given back",
    ),
    (
        Marks::DIRECTLY,
        Marks::NOT_DIRECTLY,
        "a LOCK directly inside its lock by another name",
    ),
];

/// Why an answer may stay although some LOCK is now passed over.
const STAYED: [&str; 2] = [
    "a LOCK that may make a difference in a routine without parameters, whose row is empty",
    "a LOCK that may make a difference in a routine with parameters, whose pairs are there all the same",
];

/// The tables of one kind.
#[derive(Default)]
struct Group {
    tables: u64,
    /// How many items the smallest has, and its bytes. Of several it is the first.
    smallest: Option<(usize, Vec<u8>)>,
}

impl Group {
    fn one(&mut self, bytes: &[u8], table: &Table) {
        self.tables += 1;
        self.offer(size(table), bytes);
    }

    fn add(&mut self, other: Group) {
        self.tables += other.tables;
        if let Some((items, bytes)) = other.smallest {
            self.offer(items, &bytes);
        }
    }

    /// Takes a table as the smallest, if it is.
    fn offer(&mut self, items: usize, bytes: &[u8]) {
        let fewest = self.smallest.as_ref().map(|(fewest, _)| *fewest);
        if fewest.is_none_or(|fewest| items < fewest) {
            self.smallest = Some((items, bytes.to_vec()));
        }
    }
}

/// The tables of a kind that moved.
#[derive(Default)]
struct Moved {
    group: Group,
    details: [u64; DETAILS.len()],
    /// Those that lose no pair of a row, but labels or last bytes.
    no_pair_goes: u64,
}

impl Moved {
    fn add(&mut self, other: Moved) {
        self.group.add(other.group);
        self.no_pair_goes += other.no_pair_goes;
        for (sum, more) in self.details.iter_mut().zip(other.details) {
            *sum += more;
        }
    }
}

#[derive(Default)]
struct Tally {
    tables: u64,
    with_mirror: u64,
    /// Those with a LOCK that may make a difference, and those whose answer moved.
    due: u64,
    moved: u64,
    kinds: BTreeMap<Kind, Moved>,
    /// Those that have something of `STILL` alone, and those that are due and stayed.
    still: [Group; STILL.len()],
    stayed: [Group; STAYED.len()],
}

impl Tally {
    fn add(&mut self, other: Tally) {
        self.tables += other.tables;
        self.with_mirror += other.with_mirror;
        self.due += other.due;
        self.moved += other.moved;
        for (kind, moved) in other.kinds {
            self.kinds.entry(kind).or_default().add(moved);
        }
        for (group, more) in self.still.iter_mut().zip(other.still) {
            group.add(more);
        }
        for (group, more) in self.stayed.iter_mut().zip(other.stayed) {
            group.add(more);
        }
    }
}

/// Goes over one family.
fn go_over(family: &Family, archive: &Archive) -> Result<Tally, String> {
    let mut tally = Tally::default();
    let mut first_wrong = None;
    family.tables(&mut |bytes| {
        if first_wrong.is_none() {
            let table = read(bytes).expect("tables of a family are accepted");
            let one = look(&mut tally, bytes, &table, archive);
            first_wrong = one.err().map(|wrong| at(&wrong, bytes, &table));
        }
    });
    match first_wrong {
        Some(wrong) => Err(wrong),
        None => Ok(tally),
    }
}

/// What is wrong, and with which table.
fn at(wrong: &str, bytes: &[u8], table: &Table) -> String {
    format!("{wrong}\n{}\n{}", words(table), hex::text(bytes))
}

/// Looks at one table, or says what is wrong.
fn look(tally: &mut Tally, bytes: &[u8], table: &Table, archive: &Archive) -> Result<(), String> {
    tally.tables += 1;
    if table.mirrors() == 0 {
        return archive.compare(bytes, || said(archive.rules, table));
    }
    tally.with_mirror += 1;
    let marks = marks(table);
    for (group, (mark, besides, _)) in tally.still.iter_mut().zip(STILL) {
        if marks.any(mark) && !marks.any(besides) {
            group.one(bytes, table);
        }
    }
    let before = said(Rules::Before105, table);
    let now = said(Rules::InForce, table);
    let due = marks.any(Marks::NOT_DIRECTLY);
    tally.due += u64::from(due);
    if before != now {
        check(due, &before, &now)?;
        add_moved(tally, bytes, table, marks, &before, &now);
    } else if due {
        let has_row = |routine: &usize| table.routines[*routine].parameters > 0;
        let which = usize::from(met_in(table).iter().any(has_row));
        tally.stayed[which].one(bytes, table);
    }
    archive.compare(bytes, || match archive.rules {
        Rules::Before105 => before,
        _ => now,
    })
}

/// Whether an answer may move so.
fn check(due: bool, before: &Said, now: &Said) -> Result<(), String> {
    match comes_in(before, now) {
        Some(what) => Err(what.to_string()),
        None if due => Ok(()),
        None => Err("it moved, but has no LOCK that could make a difference".to_string()),
    }
}

fn add_moved(
    tally: &mut Tally,
    bytes: &[u8],
    table: &Table,
    marks: Marks,
    before: &Said,
    now: &Said,
) {
    tally.moved += 1;
    let kind = Kind::of(table, before, now);
    let moved = tally.kinds.entry(kind).or_default();
    moved.group.one(bytes, table);
    moved.no_pair_goes += u64::from(!pair_goes(before, now));
    for (count, (mark, _)) in moved.details.iter_mut().zip(DETAILS) {
        *count += u64::from(marks.any(mark));
    }
}

/// What the archive is held against, if there is one.
struct Archive {
    rules: Rules,
}

impl Archive {
    #[cfg(not(feature = "archive"))]
    fn compare(&self, _: &[u8], _: impl FnOnce() -> Said) -> Result<(), String> {
        Ok(())
    }

    #[cfg(feature = "archive")]
    fn compare(&self, bytes: &[u8], expected: impl FnOnce() -> Said) -> Result<(), String> {
        let expected = expected();
        // No byte of a model is 255.
        let mut model = vec![255; expected.model.len()];
        let given = reference::archive::analyse(bytes, &mut model);
        let number = expected.number();
        if given != number {
            return Err(format!("archive {given}, reference {number}"));
        }
        if model != expected.model {
            return Err(format!(
                "{given} in both, but the model is {} in the archive's, {} in the reference's",
                hex::text(&model),
                hex::text(&expected.model)
            ));
        }
        Ok(())
    }

    /// What is to be said in the end.
    fn summary(&self, tables: u64) -> Option<String> {
        cfg!(feature = "archive").then(|| {
            let rules = self.rules;
            format!("archive and reference agree on all {tables} tables, by the rules {rules:?}")
        })
    }
}

fn print_counts(tally: &Tally) {
    println!(
        "  {} tables, {} with a mirror, {} with a LOCK that may make a difference, {} moved",
        tally.tables, tally.with_mirror, tally.due, tally.moved
    );
}

fn print_kind(number: usize, kind: &Kind, moved: &Moved) {
    println!("{number}. {kind}: {} tables", moved.group.tables);
    let mut details: Vec<String> = moved
        .details
        .iter()
        .zip(DETAILS)
        .filter(|(count, _)| **count > 0)
        .map(|(count, (_, what))| format!("{what} {count}"))
        .collect();
    if moved.no_pair_goes > 0 {
        details.push(format!("no pair leaves a row {}", moved.no_pair_goes));
    }
    println!("   of these: {}", details.join(", "));
    print_smallest(&moved.group);
}

fn print_still(what: &str, group: &Group) {
    println!("- {what}: {} tables", group.tables);
    print_smallest(group);
}

/// Prints the smallest table of a group, and its answer by either rules.
fn print_smallest(group: &Group) {
    let Some((_, bytes)) = &group.smallest else {
        return;
    };
    let table = read(bytes).expect("tables of a family are accepted");
    let before = said(Rules::Before105, &table);
    let now = said(Rules::InForce, &table);
    println!("   {}", words(&table));
    println!("   {}", hex::text(bytes));
    if before == now {
        println!("   as before: {now}");
        return;
    }
    println!("   before: {before}; now: {now}");
    let bytes = differences(&before, &now);
    if !bytes.is_empty() {
        println!("   {}", bytes.join(", "));
    }
}

fn run(items: usize, archive: &Archive) -> Result<(), String> {
    let mut all = Tally::default();
    for family in families(items) {
        println!("{}: {}.", family.name, family.what);
        let tally = go_over(&family, archive)?;
        print_counts(&tally);
        all.add(tally);
    }
    println!("all together:");
    print_counts(&all);
    println!("kinds that moved:");
    for (number, (kind, moved)) in (1..).zip(&all.kinds) {
        print_kind(number, kind, moved);
    }
    println!("kinds of which no table moved:");
    for (group, (_, _, what)) in all.still.iter().zip(STILL) {
        print_still(what, group);
    }
    println!("tables that could have moved and did not:");
    for (group, what) in all.stayed.iter().zip(STAYED) {
        print_still(what, group);
    }
    if let Some(summary) = archive.summary(all.tables) {
        println!("{summary}");
    }
    Ok(())
}

/// The number of items, and what the archive is held against.
fn arguments(words: &[String]) -> Option<(usize, Archive)> {
    let (items, rules) = match words {
        [] => (DEFAULT_ITEMS, Rules::InForce),
        [items] => (items.parse().ok()?, Rules::InForce),
        [items, word] if word == "before105" && cfg!(feature = "archive") => {
            (items.parse().ok()?, Rules::Before105)
        }
        _ => return None,
    };
    (1..=MOST_ITEMS)
        .contains(&items)
        .then_some((items, Archive { rules }))
}

fn main() -> ExitCode {
    let words: Vec<String> = env::args().skip(1).collect();
    let Some((items, archive)) = arguments(&words) else {
        eprintln!("usage: small [ITEMS [before105]], ITEMS from 1 to {MOST_ITEMS}; before105 needs the feature archive");
        return ExitCode::from(2);
    };
    match run(items, &archive) {
        Ok(()) => ExitCode::SUCCESS,
        Err(wrong) => {
            println!("{wrong}");
            ExitCode::FAILURE
        }
    }
}
