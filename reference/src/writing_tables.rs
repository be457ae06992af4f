//! Tables for `canonical`, of many kinds.

use crate::canonical::{bytes, canonical};
use crate::generate::{self, assemble, body_of_locals, boundaries, callees, counts, of_kind};
use crate::generate::{valid_body, Rng};
use crate::limits::code::*;
use crate::limits::{refusal, MAX_LOCALS, MAX_OPEN, MAX_PARAMETERS};
use crate::limits::{MAX_ROUTINES, MAX_SECTION};
use crate::model::reached;
use crate::schedules::{call, pick};
use crate::shuffles::{reordered, with_mirrors};
use crate::table::{read, Item, Table};
use crate::updates::{refused, shaped_body};

/// The kinds of tables.
#[derive(Clone, Copy, Debug, PartialEq, Eq)]
pub enum Kind {
    /// One of `generate`, accepted.
    Generated,
    /// Routines that call each other in any order, some of them not reached.
    Calls,
    /// Locals in blocks and alternatives, many of them mirrors.
    Locals,
    /// Any of these with more mirrors.
    Mirrored,
    /// Mirrors of mirrors and of parameters, up to the most locals.
    Chain,
    /// A canonical table.
    Canonical,
    /// 64 routines, all reached, with the most body bytes.
    FullReached,
    /// 64 routines, not all reached, with the most body bytes.
    FullUnreached,
    /// A table on one side of a limit.
    Boundary,
    /// One that is refused, by each number in turn.
    Refused,
    /// One of `generate` with bytes changed, or arbitrary bytes.
    Damaged,
}

/// A table of this kind. Refusals come in turn, by the input's number.
pub(crate) fn table_of(rng: &mut Rng, kind: Kind, index: u64) -> Vec<u8> {
    match kind {
        Kind::Generated => generated(rng),
        Kind::Calls => calls(rng),
        Kind::Locals => of_locals(rng),
        Kind::Mirrored => mirrored(rng),
        Kind::Chain => chain(rng),
        Kind::Canonical => {
            let table = some(rng);
            canonical(&table).expect("an accepted table")
        }
        Kind::FullReached => full(rng, true),
        Kind::FullUnreached => full(rng, false),
        Kind::Boundary => pick(rng, &boundaries()).table.clone(),
        Kind::Refused => {
            let numbers = refusal::BYTES_LEFT - refusal::EMPTY + 1;
            let number = refusal::EMPTY + (index % u64::from(numbers)) as u32;
            let sound = some(rng);
            refused(rng, number, &sound)
        }
        Kind::Damaged => {
            let kinds = [
                generate::Kind::Damaged,
                generate::Kind::Arbitrary,
                generate::Kind::BadMirrors,
                generate::Kind::BadMirrors,
            ];
            let kind = *pick(rng, &kinds);
            of_kind(rng, kind)
        }
    }
}

/// An accepted table, most often a small one.
fn some(rng: &mut Rng) -> Vec<u8> {
    match rng.below(5) {
        0 | 1 => generated(rng),
        2 | 3 => calls(rng),
        _ => of_locals(rng),
    }
}

fn generated(rng: &mut Rng) -> Vec<u8> {
    let kind = match rng.below(40) {
        0 => generate::Kind::Full,
        1 => generate::Kind::Wide,
        2..=5 => generate::Kind::Small,
        6..=9 => generate::Kind::Deep,
        10 | 11 => generate::Kind::Tangle,
        12..=14 => generate::Kind::Nested,
        15..=21 => generate::Kind::Mixed,
        22..=28 => generate::Kind::Mirrors,
        29..=34 => generate::Kind::LargeMirrors,
        _ => generate::Kind::HeldMirrors,
    };
    of_kind(rng, kind)
}

/// How many routines a table has: most often few.
fn some_routines(rng: &mut Rng) -> usize {
    match rng.below(20) {
        0 => MAX_ROUTINES,
        1 | 2 => rng.between(10, MAX_ROUTINES),
        _ => rng.between(1, 9),
    }
}

/// A table of routines, each of which takes some of its names and calls these.
fn calling(rng: &mut Rng, callees: &[Vec<usize>]) -> Vec<u8> {
    loop {
        let most = rng.between(1, 3);
        let counts = counts(rng, callees.len(), most);
        let mut section = Vec::new();
        for (routine, callees) in callees.iter().enumerate() {
            section.extend(shaped_body(rng, &counts, routine, callees));
        }
        // Many routines may come to too many bytes.
        if section.len() <= MAX_SECTION {
            return assemble(&counts, &section);
        }
    }
}

fn calls(rng: &mut Rng) -> Vec<u8> {
    let routines = some_routines(rng);
    match rng.below(10) {
        0..=4 => {
            let callees = callees(rng, routines);
            calling(rng, &callees)
        }
        5 => {
            let callees = in_a_line(rng);
            calling(rng, &callees)
        }
        // Any bodies, so that calls lead anywhere.
        _ => {
            let counts = counts(rng, routines, 2);
            let most = *pick(rng, &[8, 40, 40]);
            let mut section = Vec::new();
            for routine in 0..routines {
                let room = rng.between(1, most);
                section.extend(valid_body(rng, &counts, routine, room));
            }
            assemble(&counts, &section)
        }
    }
}

/// Each routine but the last calls the next one of some order, and a few call another too.
fn in_a_line(rng: &mut Rng) -> Vec<Vec<usize>> {
    let routines = rng.between(2, MAX_ROUTINES);
    let mut others: Vec<usize> = (1..routines).collect();
    let mut callees = vec![vec![]; routines];
    let mut caller = 0;
    while !others.is_empty() {
        let next = others.remove(rng.below(others.len()));
        callees[caller].push(next);
        if rng.chance(10) {
            callees[caller].insert(0, rng.below(routines));
        }
        caller = next;
    }
    callees
}

fn of_locals(rng: &mut Rng) -> Vec<u8> {
    let routines = rng.between(1, 5);
    let most = *pick(rng, &[1, 3, MAX_PARAMETERS as usize]);
    let counts = counts(rng, routines, most);
    let mut section = Vec::new();
    for routine in 0..routines {
        let room = rng.between(10, 80);
        section.extend(body_of_locals(rng, &counts, routine, room));
    }
    assemble(&counts, &section)
}

fn mirrored(rng: &mut Rng) -> Vec<u8> {
    let mut table = read(&some(rng)).expect("an accepted table");
    for _ in 0..rng.between(1, 4) {
        table = with_mirrors(rng, &table);
    }
    bytes(&table)
}

/// Any name from one to another.
fn name(rng: &mut Rng, least: u8, last: u8) -> u8 {
    rng.between(least as usize, last as usize) as u8
}

/// So many names from one to another.
fn names(rng: &mut Rng, count: u8, least: u8, last: u8) -> Vec<u8> {
    (0..count).map(|_| name(rng, least, last)).collect()
}

/// Routine 0 calls a routine of mirrors, which calls a third one.
fn chain(rng: &mut Rng) -> Vec<u8> {
    let parameters = rng.between(1, MAX_PARAMETERS as usize) as u8;
    let passed = *pick(rng, &[1, 2, 3, MAX_PARAMETERS, MAX_PARAMETERS]);
    let made = rng.between(1, MAX_LOCALS as usize) as u8;
    let locks = names(rng, parameters, 1, made);
    let first = [vec![NEW; made as usize], call(1, &locks), vec![END]].concat();
    let second = body_of_mirrors(rng, parameters, passed);
    let section = [first, second, vec![END]].concat();
    assemble(&[0, parameters, passed], &section)
}

/// A body with the most locals, nearly all of them mirrors, in blocks one in another. It takes
/// some of its names, and passes so many to routine 2.
fn body_of_mirrors(rng: &mut Rng, parameters: u8, passed: u8) -> Vec<u8> {
    let mut body = Vec::new();
    let mut ends: Vec<&[u8]> = Vec::new();
    // In a hundred: how many are NEW, and how many of the others mirror the newest name.
    let (news, newest) = *pick(rng, &[(0, 100), (0, 60), (10, 80), (30, 60)]);
    for last in parameters..parameters + MAX_LOCALS {
        let any = name(rng, 1, last);
        let (open, end): (&[u8], &[u8]) = match rng.below(12) {
            0 => (&[LOCK, any], &[END]),
            1 => (&[FORK], &[END]),
            2 => (&[CHOICE], &[OTHER, END]),
            3 => (&[CHOICE, OTHER], &[END]),
            _ => (&[], &[]),
        };
        body.extend(open);
        ends.extend((!end.is_empty()).then_some(end));
        // At times the last is in the innermost block that there can be.
        if last + 1 == parameters + MAX_LOCALS && rng.chance(30) {
            let more = MAX_OPEN - ends.len();
            body.extend([LOCK, any].repeat(more));
            ends.extend(vec![&[END][..]; more]);
        }
        body.extend(match rng.below(100) {
            drawn if drawn < news => vec![NEW],
            _ if rng.chance(newest) => vec![MIRROR, last],
            _ if rng.chance(50) => vec![MIRROR, name(rng, 1, parameters)],
            _ => vec![MIRROR, any],
        });
    }
    let last = parameters + MAX_LOCALS;
    if ends.len() < MAX_OPEN {
        for name in names(rng, 3, 1, last) {
            body.extend([LOCK, name, END]);
        }
    }
    let least = *pick(rng, &[1, parameters + 1, parameters + 1]);
    body.extend(call(2, &names(rng, passed, least, last)));
    ends.reverse();
    [body, ends.concat(), vec![END]].concat()
}

/// A table of the most routines and body bytes, of which calls reach all, or not all.
fn full(rng: &mut Rng, all: bool) -> Vec<u8> {
    loop {
        let callees = callees(rng, MAX_ROUTINES);
        let mut table = read(&calling(rng, &callees)).expect("an accepted table");
        if !all && rng.chance(30) {
            // Nothing but routine 0 is reached.
            let items = &mut table.routines[0].items;
            items.retain(|item| !matches!(item, Item::Call { .. }));
        }
        if (reached(&table).len() == MAX_ROUTINES) != all {
            continue;
        }
        // Half of those in which all are reached have no mirrors.
        if all && rng.chance(50) {
            let result = canonical(&bytes(&table)).expect("an accepted table");
            table = reordered(rng, &read(&result).expect("an accepted table"));
        }
        fill(rng, &mut table);
        return bytes(&table);
    }
}

/// Puts items at the ends of bodies until there are as many body bytes as there may be. No
/// more routines are reached.
fn fill(rng: &mut Rng, table: &mut Table) {
    let reached: Vec<usize> = reached(table).into_iter().collect();
    let counts: Vec<u8> = table.routines.iter().map(|one| one.parameters).collect();
    let mut left = MAX_SECTION + 3 + counts.len() - bytes(table).len();
    while left > 0 {
        let routine = &mut table.routines[rng.below(counts.len())];
        let scope = routine.scopes().pop().expect("a last END");
        let callee = *pick(rng, &reached);
        let names = counts[callee] as usize;
        let made = routine.items.iter().filter(|item| item.makes_local());
        // Nothing but NEW has one byte, so of five or more two at least are left.
        let (items, length) = match left {
            1 if made.count() < MAX_LOCALS as usize => (vec![Item::New], 1),
            1 => continue,
            2 | 4 => (vec![call_item(0, vec![])], 2),
            _ if scope.is_empty() || rng.chance(20) => {
                (vec![Item::Choice, Item::Other, Item::End], 3)
            }
            _ if left < names + 4 || rng.chance(50) => {
                let name = *pick(rng, &scope);
                (vec![Item::Lock { name }, Item::End], 3)
            }
            _ => {
                let passed = (0..names).map(|_| *pick(rng, &scope)).collect();
                (vec![call_item(callee, passed)], 2 + names)
            }
        };
        let last = routine.items.len() - 1;
        routine.items.splice(last..last, items);
        left -= length;
    }
}

fn call_item(routine: usize, names: Vec<u8>) -> Item {
    Item::Call { routine, names }
}
