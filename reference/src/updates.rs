//! Inputs for `update`: two tables, a routine's number and a model, all of many kinds.

use std::collections::BTreeSet;

use crate::analyse;
use crate::generate::{self, assemble, boundaries, of_kind, valid_body, Rng};
use crate::limits::code::*;
use crate::limits::{refusal, CELL_MOST, RING_BYTE, RING_MOST, ROW_BYTES, ROW_SIDE};
use crate::limits::{MAX_FORK, MAX_PARAMETERS, MAX_ROUTINES, MAX_SECTION};
use crate::schedules::{call, choice, fork, nest, pick};
use crate::table::{read, Table};
use crate::update::{bodies, has_cell, items, reaching};

/// All that an update is given.
#[derive(Clone, Debug, PartialEq, Eq)]
pub struct Input {
    pub old: Vec<u8>,
    pub new: Vec<u8>,
    pub routine: u64,
    pub model: Vec<u8>,
}

/// What an input is made to be: its tables and the routine, the model, the buffer's length.
#[derive(Clone, Copy, Debug, PartialEq, Eq)]
pub struct Sort {
    pub kind: Kind,
    pub content: Content,
    pub length: Length,
}

/// The kinds of two tables and a routine's number.
#[derive(Clone, Copy, Debug, PartialEq, Eq)]
pub enum Kind {
    /// Any other body.
    Another,
    /// One with more bytes.
    Longer,
    /// One with fewer bytes.
    Shorter,
    /// The body with a CALL more, or some.
    MoreCalls,
    /// The body with a CALL less, or without any.
    FewerCalls,
    /// The body of another routine with as many parameters.
    Taken,
    /// The body with another byte at one place.
    Edited,
    /// The same table twice.
    Same,
    /// Any other body, in a table of 64 routines where calls lead far.
    Far,
    /// Any other body, in a table of the most body bytes before and after.
    Full,
    /// The bodies of two routines changed.
    TwoBodies,
    /// One body changed, and the number of another routine.
    OtherRoutine,
    /// The routine has another parameter count.
    OwnCount,
    /// Another routine has another parameter count.
    OtherCount,
    /// There is a routine more or less.
    RoutineCount,
    /// There is no such routine.
    OutOfRange,
    /// The old table is refused.
    RefusedOld,
    /// The new table is refused.
    RefusedNew,
    /// Both are refused, by different numbers.
    BothRefused,
}

/// The contents of a model.
#[derive(Clone, Copy, Debug, PartialEq, Eq)]
pub enum Content {
    /// What the analysis writes for the old table.
    Own,
    /// Any well-formed rows.
    Any,
    /// Any well-formed rows for the routines that reach the one replaced.
    AnyTouched,
    /// Any well-formed rows for the others.
    AnyUntouched,
    /// The analysis's, and more.
    More,
    /// The analysis's, and less.
    Less,
    /// Zero bytes.
    Zero,
    /// One that is not well-formed, most often at one place.
    Damaged,
    /// Any bytes.
    Arbitrary,
}

/// The lengths of a buffer.
#[derive(Clone, Copy, Debug, PartialEq, Eq)]
pub enum Length {
    /// No byte.
    Nothing,
    /// One byte too short.
    OneShort,
    /// Short by one byte for each routine.
    OneShortEach,
    /// As long as the model.
    Exact,
    /// Longer, with any bytes behind the model.
    Longer,
    /// As long as a model of the new table.
    ByNew,
}

/// How many of sixty inputs are of each kind, with any content and length.
const SHARES: [(Kind, usize); 18] = [
    (Kind::Another, 12),
    (Kind::Longer, 3),
    (Kind::Shorter, 3),
    (Kind::MoreCalls, 5),
    (Kind::FewerCalls, 3),
    (Kind::Taken, 3),
    (Kind::Edited, 6),
    (Kind::Same, 2),
    (Kind::Full, 1),
    (Kind::TwoBodies, 1),
    (Kind::OtherRoutine, 1),
    (Kind::OwnCount, 1),
    (Kind::OtherCount, 1),
    (Kind::RoutineCount, 1),
    (Kind::OutOfRange, 1),
    (Kind::RefusedOld, 1),
    (Kind::RefusedNew, 1),
    (Kind::BothRefused, 1),
];

/// And one of each of these, where several refusals apply or a certain one is to.
const CERTAIN: [(Kind, Option<Content>, Length); 13] = [
    (Kind::Far, None, Length::Exact),
    (Kind::OutOfRange, None, Length::Exact),
    (Kind::Another, Some(Content::Damaged), Length::Exact),
    (Kind::MoreCalls, Some(Content::Damaged), Length::Exact),
    (Kind::RefusedOld, Some(Content::Arbitrary), Length::Nothing),
    (Kind::RefusedNew, None, Length::OneShort),
    (Kind::RefusedNew, Some(Content::Damaged), Length::Exact),
    (Kind::Another, Some(Content::Damaged), Length::OneShort),
    (Kind::TwoBodies, None, Length::OneShort),
    (
        Kind::OutOfRange,
        Some(Content::Damaged),
        Length::OneShortEach,
    ),
    (Kind::RoutineCount, None, Length::ByNew),
    (Kind::TwoBodies, Some(Content::Damaged), Length::Longer),
    (Kind::OtherCount, Some(Content::Damaged), Length::Exact),
];

/// What inputs are made to be, in turn. Without a content or a length they have any.
fn sorts() -> Vec<(Kind, Option<Content>, Option<Length>)> {
    let shares = SHARES
        .iter()
        .flat_map(|&(kind, share)| vec![(kind, None, None); share]);
    let certain = CERTAIN.map(|(kind, content, length)| (kind, content, Some(length)));
    shares.chain(certain).collect()
}

/// The contents that inputs of one kind have, in turn.
const CONTENTS: [Content; 16] = [
    Content::Own,
    Content::Any,
    Content::Damaged,
    Content::Own,
    Content::AnyUntouched,
    Content::Zero,
    Content::Own,
    Content::AnyTouched,
    Content::Damaged,
    Content::Own,
    Content::More,
    Content::AnyUntouched,
    Content::Own,
    Content::Less,
    Content::Damaged,
    Content::Own,
];

/// Input number `index` of a seed, with its sort.
pub fn input(seed: u64, index: u64) -> (Sort, Input) {
    let mut rng = Rng::indexed(seed, index);
    let sorts = sorts();
    let place = (index % sorts.len() as u64) as usize;
    let turn = (index / sorts.len() as u64) as usize;
    let (kind, content, length) = sorts[place];
    let sort = Sort {
        kind,
        content: content.unwrap_or(CONTENTS[(place + turn) % CONTENTS.len()]),
        length: length.unwrap_or_else(|| some_length(&mut rng)),
    };
    (sort, of_sort(&mut rng, sort, turn))
}

/// Most often long enough.
fn some_length(rng: &mut Rng) -> Length {
    match rng.below(20) {
        0 => *pick(
            rng,
            &[Length::Nothing, Length::OneShort, Length::OneShortEach],
        ),
        1..=11 => Length::Exact,
        _ => Length::Longer,
    }
}

/// A random input of one sort. What there is of each kind comes in turn.
fn of_sort(rng: &mut Rng, sort: Sort, turn: usize) -> Input {
    let (old, new, routine) = tables(rng, sort.kind, turn);
    // Where the old table is refused, the model is one for the new table, or for none.
    let modelled = read(&old).or_else(|_| read(&new));
    let rows = modelled.map_or(vec![0; ROW_BYTES], |table| {
        let bytes = if read(&old).is_ok() { &old } else { &new };
        content(rng, sort.content, (bytes, &table), routine, turn)
    });
    let model = buffer(rng, sort.length, rows, &new);
    Input {
        old,
        new,
        routine,
        model,
    }
}

// Tables.

/// A table in parts.
#[derive(Clone, Debug, PartialEq, Eq)]
pub(crate) struct Draft {
    pub counts: Vec<u8>,
    pub bodies: Vec<Vec<u8>>,
}

impl Draft {
    /// The parts of an accepted table.
    pub(crate) fn of(table: &[u8]) -> Draft {
        Draft {
            counts: table[1..1 + table[0] as usize].to_vec(),
            bodies: bodies(table).into_iter().map(<[u8]>::to_vec).collect(),
        }
    }

    pub(crate) fn table(&self) -> Vec<u8> {
        assemble(&self.counts, &self.bodies.concat())
    }

    fn is_accepted(&self) -> bool {
        read(&self.table()).is_ok()
    }

    /// With another body for one routine.
    pub(crate) fn with(&self, routine: usize, body: Vec<u8>) -> Draft {
        let mut draft = self.clone();
        draft.bodies[routine] = body;
        draft
    }

    /// Most bytes that the body of a routine can have.
    pub(crate) fn room(&self, routine: usize) -> usize {
        let all: usize = self.bodies.iter().map(Vec::len).sum();
        MAX_SECTION - all + self.bodies[routine].len()
    }

    /// Whether another routine calls this one.
    fn is_called(&self, routine: usize) -> bool {
        let table = read(&self.table()).expect("an accepted table");
        let mut others = (0..self.counts.len()).filter(|&at| at != routine);
        others.any(|at| table.routines[at].callees().any(|callee| callee == routine))
    }

    /// With one more routine behind the others, which nobody calls.
    fn with_uncalled(&self, rng: &mut Rng) -> Draft {
        let mut draft = self.clone();
        let most = MAX_PARAMETERS as usize;
        let count = rng.between(0, most) as u8;
        draft.counts.push(count);
        let names: Vec<u8> = (1..=count.min(2)).collect();
        let body = [nest(&names, &[]), vec![END]].concat();
        draft.bodies.push(body);
        draft
    }
}

/// The two tables and the number of the routine.
fn tables(rng: &mut Rng, kind: Kind, turn: usize) -> (Vec<u8>, Vec<u8>, u64) {
    let (old, new, routine) = match kind {
        Kind::TwoBodies => two_bodies(rng, turn),
        Kind::OtherRoutine => other_routine(rng),
        Kind::OwnCount | Kind::OtherCount => other_count(rng, kind, turn),
        Kind::RoutineCount => one_more(rng, turn),
        Kind::OutOfRange => return out_of_range(rng, turn),
        Kind::RefusedOld | Kind::RefusedNew | Kind::BothRefused => {
            return refused_tables(rng, kind, turn)
        }
        Kind::Far => far(rng, turn),
        Kind::Full if turn % FULL_EVERY == 1 => full_tables(rng),
        _ => {
            let old = base(rng, 1);
            let routine = rng.below(old.counts.len());
            let new = old.with(routine, changed(rng, kind, &old, routine));
            (old, new, routine)
        }
    };
    (old.table(), new.table(), routine as u64)
}

/// Full tables take long, so they come once in so many turns; else the kind is as `Another`.
const FULL_EVERY: usize = 3;

/// Tables of the most routines in a chain, in a round or about one routine.
fn far(rng: &mut Rng, turn: usize) -> (Draft, Draft, usize) {
    let shapes = [
        Shape::Rising,
        Shape::Falling,
        Shape::OneCalled,
        Shape::Round,
    ];
    let shape = shapes[turn % shapes.len()];
    let old = Draft::of(&shaped(rng, shape, MAX_ROUTINES));
    let last = MAX_ROUTINES - 1;
    let routine = match (shape, rng.below(4)) {
        (_, 0) => rng.between(1, last),
        // The end of the chain.
        (Shape::Falling, _) => 1,
        _ => last,
    };
    let new = old.with(routine, changed(rng, Kind::Another, &old, routine));
    (old, new, routine)
}

/// Tables of the most body bytes.
fn full_tables(rng: &mut Rng) -> (Draft, Draft, usize) {
    loop {
        let old = Draft::of(&full(rng));
        let routine = rng.below(old.counts.len());
        let room = old.room(routine);
        let body = valid_body(rng, &old.counts, routine, room.min(60));
        let new = old.with(routine, padded(body, room));
        if new.room(routine) == new.bodies[routine].len() {
            return (old, new, routine);
        }
    }
}

/// A table of at least so many routines.
fn base(rng: &mut Rng, least: usize) -> Draft {
    loop {
        let table = match rng.below(200) {
            0 | 1 => of_kind(rng, generate::Kind::Wide),
            2..=69 => {
                let kinds = [
                    generate::Kind::Small,
                    generate::Kind::Small,
                    generate::Kind::Small,
                    generate::Kind::Deep,
                    generate::Kind::Nested,
                    generate::Kind::Mixed,
                    generate::Kind::Tangle,
                    generate::Kind::HeldMirrors,
                ];
                let kind = *pick(rng, &kinds);
                of_kind(rng, kind)
            }
            _ => {
                let n = match rng.below(20) {
                    0 => MAX_ROUTINES,
                    1 => rng.between(10, MAX_ROUTINES),
                    2..=4 => rng.between(6, 12),
                    _ => rng.between(1, 6),
                };
                let shape = *pick(rng, &SHAPES);
                shaped(rng, shape, n)
            }
        };
        if read(&table).is_ok_and(|table| table.routines.len() >= least) {
            return Draft::of(&table);
        }
    }
}

/// A table of the most body bytes.
fn full(rng: &mut Rng) -> Vec<u8> {
    loop {
        let table = of_kind(rng, generate::Kind::Full);
        let section = table.len() - 3 - table[0] as usize;
        if section == MAX_SECTION {
            return table;
        }
    }
}

/// Who calls whom.
#[derive(Clone, Copy)]
enum Shape {
    /// Each calls the next.
    Rising,
    /// Each calls the one before, and the first the last.
    Falling,
    /// All call one.
    OneCalled,
    /// The first calls all others.
    OneCalls,
    /// Each calls the next, and the last the first but routine 0.
    Round,
    /// Each calls some of those behind it.
    Onward,
    /// The same, and some call themselves.
    Themselves,
    /// Two chains that do not meet, and some that nobody calls.
    Apart,
    /// Each calls two further on.
    Tree,
}

const SHAPES: [Shape; 9] = [
    Shape::Rising,
    Shape::Falling,
    Shape::OneCalled,
    Shape::OneCalls,
    Shape::Round,
    Shape::Onward,
    Shape::Themselves,
    Shape::Apart,
    Shape::Tree,
];

/// A table in which calls have a shape, and rows are handed on.
fn shaped(rng: &mut Rng, shape: Shape, n: usize) -> Vec<u8> {
    let most = rng.between(1, 3);
    let mut counts = vec![0];
    for _ in 1..n {
        let fewer = usize::from(rng.chance(20));
        counts.push((most - fewer) as u8);
    }
    let mut section = Vec::new();
    for routine in 0..n {
        let callees = callees(rng, shape, n, routine);
        section.extend(shaped_body(rng, &counts, routine, &callees));
    }
    assemble(&counts, &section)
}

/// The routines that one of n routines calls.
fn callees(rng: &mut Rng, shape: Shape, n: usize, routine: usize) -> Vec<usize> {
    let last = n - 1;
    let onward = |rng: &mut Rng| -> Vec<usize> {
        let some = rng.below(3).min(last - routine);
        (0..some).map(|_| rng.between(routine + 1, last)).collect()
    };
    match shape {
        Shape::Rising if routine < last => vec![routine + 1],
        Shape::Falling if routine == 0 && n > 1 => vec![last],
        Shape::Falling if routine > 1 => vec![routine - 1],
        Shape::OneCalled if routine < last => vec![last],
        Shape::OneCalls if routine == 0 => (1..n).collect(),
        Shape::Round if routine < last => vec![routine + 1],
        Shape::Round => vec![1.min(last)],
        Shape::Onward => onward(rng),
        Shape::Themselves if rng.chance(50) => [vec![routine], onward(rng)].concat(),
        Shape::Themselves => onward(rng),
        Shape::Apart if routine + 2 < n && !rng.chance(20) => vec![routine + 2],
        Shape::Tree => (2 * routine + 1..=2 * routine + 2)
            .filter(|&callee| callee < n)
            .collect(),
        _ => vec![],
    }
}

/// A body that takes some of its names and calls these routines, most often with its first
/// names.
pub(crate) fn shaped_body(
    rng: &mut Rng,
    counts: &[u8],
    routine: usize,
    callees: &[usize],
) -> Vec<u8> {
    let parameters = counts[routine];
    let made = if parameters == 0 { 2 } else { rng.below(2) };
    let mut items = vec![NEW; made];
    let mut names = parameters + made as u8;
    if rng.chance(25) {
        items.extend([MIRROR, rng.between(1, names as usize) as u8]);
        names += 1;
    }
    let first = names.min(parameters.max(2)) as usize;
    let mut forks = 0;
    for _ in 0..rng.below(3) {
        let mut some = |most: usize| -> Vec<u8> {
            let any = |rng: &mut Rng| rng.between(1, names as usize) as u8;
            (0..rng.between(1, most)).map(|_| any(rng)).collect()
        };
        let (one, other) = (nest(&some(3), &[]), nest(&some(2), &[]));
        items.extend(match rng.below(5) {
            0 => {
                forks += 1;
                fork(&one)
            }
            1 => choice(&one, &other),
            _ => one,
        });
    }
    for &callee in callees {
        let passed: Vec<u8> = (0..counts[callee])
            .map(|_| {
                let among = if rng.chance(85) {
                    first
                } else {
                    names as usize
                };
                rng.between(1, among) as u8
            })
            .collect();
        let call = call(callee as u8, &passed);
        items.extend(match rng.below(8) {
            0 if forks < MAX_FORK => {
                forks += 1;
                fork(&call)
            }
            1 => choice(&call, &[]),
            2 => choice(&[], &call),
            3 => nest(&[rng.between(1, names as usize) as u8], &call),
            _ => call,
        });
    }
    items.push(END);
    items
}

/// Another body for a routine, of this kind where it can have one.
fn changed(rng: &mut Rng, kind: Kind, old: &Draft, routine: usize) -> Vec<u8> {
    let body = &old.bodies[routine];
    let room = old.room(routine);
    let counts = &old.counts;
    let found = match kind {
        Kind::Longer => {
            let more = rng.between(body.len() + 3, body.len() + 60);
            let longer = valid_body(rng, counts, routine, more.min(room));
            // A choice of nothing makes the body longer at any rate.
            let padded = [&[CHOICE, OTHER, END], &body[..]].concat();
            Some(if longer.len() > body.len() {
                longer
            } else {
                padded
            })
        }
        Kind::Shorter if body.len() > 1 => {
            let less = rng.between(1, body.len() - 1);
            Some(valid_body(rng, counts, routine, less))
        }
        Kind::MoreCalls => Some(with_calls(rng, counts, routine, body)),
        Kind::FewerCalls => Some(without_calls(rng, counts, body)),
        Kind::Taken => {
            let mut others: Vec<usize> = (0..counts.len()).collect();
            others.retain(|&at| at != routine && counts[at] == counts[routine]);
            (!others.is_empty()).then(|| old.bodies[*pick(rng, &others)].clone())
        }
        Kind::Edited => edited(rng, old, routine),
        Kind::Same => Some(body.clone()),
        _ => None,
    };
    match found {
        Some(body) if body.len() <= room => body,
        _ => {
            let most = rng.between(1, 60).min(room);
            valid_body(rng, counts, routine, most)
        }
    }
}

/// A body with items that do little at its head, of this length or one byte less.
fn padded(mut body: Vec<u8>, length: usize) -> Vec<u8> {
    while body.len() + 2 <= length {
        let item: &[u8] = match (length - body.len()) % 3 {
            0 => &[CHOICE, OTHER, END],
            _ => &[CALL, 0],
        };
        body.splice(0..0, item.iter().copied());
    }
    body
}

/// A body with one to three calls more at its head, with parameters for names.
fn with_calls(rng: &mut Rng, counts: &[u8], routine: usize, body: &[u8]) -> Vec<u8> {
    let parameters = counts[routine] as usize;
    let mut longer = body.to_vec();
    for _ in 0..rng.between(1, 3) {
        let callee = rng.below(counts.len());
        // Without parameters there is no name to pass.
        let callee = if parameters == 0 && counts[callee] > 0 {
            0
        } else {
            callee
        };
        let names: Vec<u8> = (0..counts[callee])
            .map(|_| rng.between(1, parameters) as u8)
            .collect();
        longer.splice(0..0, call(callee as u8, &names));
    }
    longer
}

/// A body without one of its calls, or without all of them.
fn without_calls(rng: &mut Rng, counts: &[u8], body: &[u8]) -> Vec<u8> {
    let items = items(body, counts);
    let calls = items.iter().filter(|item| item[0] == CALL).count();
    let one = (calls > 0 && rng.chance(60)).then(|| rng.below(calls));
    let mut met = 0;
    let mut shorter = Vec::new();
    for item in items {
        let is_call = item[0] == CALL;
        let dropped = is_call && one.is_none_or(|one| one == met);
        met += usize::from(is_call);
        if !dropped {
            shorter.extend(item);
        }
    }
    shorter
}

/// A body with another byte at one place, where one that is accepted is found soon.
fn edited(rng: &mut Rng, old: &Draft, routine: usize) -> Option<Vec<u8>> {
    for _ in 0..40 {
        let mut body = old.bodies[routine].clone();
        let at = rng.below(body.len());
        let byte = rng.below(10) as u8;
        if body[at] == byte {
            continue;
        }
        body[at] = byte;
        let new = old.with(routine, body);
        // The bytes may part otherwise.
        if new.is_accepted() && Draft::of(&new.table()) == new {
            return Some(new.bodies[routine].clone());
        }
    }
    None
}

/// One body that changed, and the number of another routine.
fn other_routine(rng: &mut Rng) -> (Draft, Draft, usize) {
    loop {
        let old = base(rng, 2);
        let n = old.counts.len();
        let routine = rng.below(n);
        let new = old.with(routine, changed(rng, Kind::Another, &old, routine));
        if new != old {
            return (old, new, (routine + rng.between(1, n - 1)) % n);
        }
    }
}

/// Two bodies that changed, and the number of one.
fn two_bodies(rng: &mut Rng, turn: usize) -> (Draft, Draft, usize) {
    loop {
        let old = base(rng, 2);
        let n = old.counts.len();
        // One behind which there is another.
        let routine = rng.below(n - 1);
        let next = routine + 1;
        let other = (routine + rng.between(1, n - 1)) % n;
        let one = old.with(routine, changed(rng, Kind::Another, &old, routine));
        let new = match turn % 4 {
            0 | 1 => {
                // Put before the next body, so that all bytes behind the first stay.
                let item = *pick(rng, &[&[CHOICE, OTHER, END][..], &[CALL, 0]]);
                one.with(next, [item, &old.bodies[next]].concat())
            }
            2 if old.counts[routine] == old.counts[other] => {
                let mut exchanged = old.clone();
                exchanged.bodies.swap(routine, other);
                exchanged
            }
            _ => one.with(other, changed(rng, Kind::Another, &one, other)),
        };
        let mut differing: Vec<usize> = (0..n).collect();
        differing.retain(|&at| new.bodies[at] != old.bodies[at]);
        if new.is_accepted() && differing.len() == 2 && differing.contains(&routine) {
            return match turn % 4 {
                1 => (new, old, routine),
                _ => (old, new, routine),
            };
        }
    }
}

/// A routine that no other calls has another parameter count. At times its body is another
/// too; the number is its own or that of another.
fn other_count(rng: &mut Rng, kind: Kind, turn: usize) -> (Draft, Draft, usize) {
    loop {
        let mut old = base(rng, 2);
        if old.counts.len() < MAX_ROUTINES && old.table().len() + 20 < MAX_SECTION {
            old = old.with_uncalled(rng);
        }
        let n = old.counts.len();
        let uncalled: Vec<usize> = (1..n).filter(|&at| !old.is_called(at)).collect();
        if uncalled.is_empty() {
            continue;
        }
        let counted = *pick(rng, &uncalled);
        let other = (counted + rng.between(1, n - 1)) % n;
        let mut new = old.clone();
        let most = MAX_PARAMETERS as usize + 1;
        new.counts[counted] =
            ((old.counts[counted] as usize + rng.between(1, most - 1)) % most) as u8;
        if !new.is_accepted() || turn % 3 == 1 {
            let room = rng.between(1, 30).min(new.room(counted));
            new.bodies[counted] = valid_body(rng, &new.counts, counted, room);
        }
        if kind == Kind::OtherCount && turn % 2 == 1 {
            new.bodies[other] = changed(rng, Kind::Another, &new, other);
        }
        // The bytes may part otherwise.
        if new.is_accepted() && Draft::of(&new.table()) == new {
            let routine = match kind {
                Kind::OwnCount => counted,
                _ => other,
            };
            return (old, new, routine);
        }
    }
}

/// One of the tables has a routine more, behind the others.
fn one_more(rng: &mut Rng, turn: usize) -> (Draft, Draft, usize) {
    loop {
        let fewer = base(rng, 1);
        if fewer.counts.len() == MAX_ROUTINES || fewer.table().len() + 20 > MAX_SECTION {
            continue;
        }
        let more = fewer.with_uncalled(rng);
        // Also the routine that only one of them has.
        let routine = rng.below(more.counts.len());
        return match turn % 2 {
            0 => (fewer, more, routine),
            _ => (more, fewer, routine),
        };
    }
}

/// Tables with a number that no routine has, though a part of it may be that of one.
fn out_of_range(rng: &mut Rng, turn: usize) -> (Vec<u8>, Vec<u8>, u64) {
    let old = base(rng, 1);
    let n = old.counts.len() as u64;
    let routine = rng.below(old.counts.len());
    let new = match turn % 3 {
        0 => old.clone(),
        _ => old.with(routine, changed(rng, Kind::Another, &old, routine)),
    };
    let valid = routine as u64;
    let numbers = [
        n,
        n + 1,
        MAX_ROUTINES as u64,
        255,
        256,
        256 + valid,
        65_536 + valid,
        (1 << 32) + valid,
        (1 << 32) + valid,
        (1 << 63) + valid,
        u64::MAX,
        u64::MAX - 255 + valid,
    ];
    (old.table(), new.table(), numbers[turn % numbers.len()])
}

/// Tables of which one is refused, or both.
fn refused_tables(rng: &mut Rng, kind: Kind, turn: usize) -> (Vec<u8>, Vec<u8>, u64) {
    let all = refusal::BYTES_LEFT as usize;
    let one = turn % all;
    let other = (one + rng.between(1, all - 1)) % all;
    let number = |at: usize| refusal::EMPTY + at as u32;
    let sound = base(rng, 1);
    let routine = match rng.below(4) {
        0 => sound.counts.len() as u64,
        _ => rng.below(sound.counts.len()) as u64,
    };
    let sound = sound.table();
    match kind {
        Kind::RefusedOld => (refused(rng, number(one), &sound), sound, routine),
        Kind::RefusedNew => {
            let new = refused(rng, number(one), &sound);
            (sound, new, routine)
        }
        _ => (
            refused(rng, number(one), &sound),
            refused(rng, number(other), &sound),
            routine,
        ),
    }
}

/// A table that is refused by this number: the one given with another byte, where such is
/// found soon, or a boundary table.
pub(crate) fn refused(rng: &mut Rng, number: u32, sound: &[u8]) -> Vec<u8> {
    let mut table = sound.to_vec();
    for _ in 0..20 {
        let at = rng.below(sound.len());
        table[at] = rng.below(10) as u8;
        if read(&table) == Err(number) {
            return table;
        }
        table[at] = sound[at];
    }
    let mut tables = boundaries();
    tables.retain(|boundary| boundary.refusal == Some(number));
    pick(rng, &tables).table.clone()
}

// Models.

/// The analysis's model of an accepted table.
pub fn own_model(table: &[u8]) -> Vec<u8> {
    let mut model = vec![0; ROW_BYTES * table[0] as usize];
    analyse(table, &mut model);
    model
}

/// A model of this content for an accepted table.
fn content(
    rng: &mut Rng,
    content: Content,
    (bytes, table): (&[u8], &Table),
    routine: u64,
    turn: usize,
) -> Vec<u8> {
    let counts = &bytes[1..1 + table.routines.len()];
    let touched = match usize::try_from(routine) {
        Ok(routine) if routine < counts.len() => reaching(table, routine),
        _ => BTreeSet::new(),
    };
    let mut model = match content {
        Content::Zero | Content::Any => vec![0; ROW_BYTES * counts.len()],
        Content::Arbitrary => rng.bytes(ROW_BYTES * counts.len()),
        _ => own_model(bytes),
    };
    let percent = *pick(rng, &[5, 20, 60, 100]);
    for (at, row) in model.chunks_mut(ROW_BYTES).enumerate() {
        let is_touched = touched.contains(&at);
        match content {
            Content::Any => foreign_row(rng, row, counts[at], percent),
            Content::AnyTouched if is_touched => foreign_row(rng, row, counts[at], percent),
            Content::AnyUntouched if !is_touched => foreign_row(rng, row, counts[at], percent),
            Content::More => more(rng, row, counts[at], percent),
            Content::Less => less(rng, row),
            _ => {}
        }
    }
    if content == Content::Damaged {
        if rng.chance(30) {
            for (at, row) in model.chunks_mut(ROW_BYTES).enumerate() {
                foreign_row(rng, row, counts[at], percent);
            }
        }
        let sort = DAMAGES[turn % DAMAGES.len()];
        damage(rng, &mut model, counts, &touched, sort);
        if rng.chance(15) {
            let sort = *pick(rng, &DAMAGES);
            damage(rng, &mut model, counts, &touched, sort);
        }
    }
    model
}

/// Any well-formed row, with labels in so many cells of a hundred.
fn foreign_row(rng: &mut Rng, row: &mut [u8], parameters: u8, percent: usize) {
    for (at, cell) in row[..RING_BYTE].iter_mut().enumerate() {
        let filled = has_cell(parameters, at) && rng.chance(percent);
        *cell = if filled {
            rng.between(1, CELL_MOST as usize) as u8
        } else {
            0
        };
    }
    row[RING_BYTE] = rng.below(2) as u8;
}

/// More labels in so many cells of a hundred.
fn more(rng: &mut Rng, row: &mut [u8], parameters: u8, percent: usize) {
    for (at, cell) in row[..RING_BYTE].iter_mut().enumerate() {
        if has_cell(parameters, at) && rng.chance(percent) {
            *cell |= rng.between(1, CELL_MOST as usize) as u8;
        }
    }
    row[RING_BYTE] |= rng.below(2) as u8;
}

/// Fewer labels.
fn less(rng: &mut Rng, row: &mut [u8]) {
    for cell in &mut row[..RING_BYTE] {
        if rng.chance(50) {
            *cell &= rng.below(CELL_MOST as usize) as u8;
        }
    }
    row[RING_BYTE] &= rng.below(2) as u8;
}

/// What is done to one byte of a row.
#[derive(Clone, Copy)]
enum Damage {
    /// 8 in a cell that may be filled.
    Eight,
    /// More than 7 there.
    Above,
    /// A cell with equal ends.
    EqualEnds,
    /// A cell whose second end is 0.
    SecondZero,
    /// A cell whose first end is above k.
    FirstAbove,
    /// A cell whose second end is above k.
    SecondAbove,
    /// 2 in the last byte.
    Two,
    /// More than 1 there.
    AboveOne,
    /// The first byte.
    FirstByte,
    /// Any byte at any place, so that the row may be well-formed.
    Any,
}

const DAMAGES: [Damage; 10] = [
    Damage::Eight,
    Damage::EqualEnds,
    Damage::SecondZero,
    Damage::FirstAbove,
    Damage::SecondAbove,
    Damage::Two,
    Damage::Above,
    Damage::AboveOne,
    Damage::FirstByte,
    Damage::Any,
];

impl Damage {
    /// The places in a row of a routine with k parameters.
    fn places(self, k: u8) -> Vec<usize> {
        let parameter = 1..=k;
        let is_cell = |at: usize| {
            let (held, wanted) = ((at / ROW_SIDE) as u8, (at % ROW_SIDE) as u8);
            match self {
                Damage::Eight | Damage::Above => has_cell(k, at),
                Damage::EqualEnds => held == wanted && parameter.contains(&held),
                Damage::SecondZero => wanted == 0 && parameter.contains(&held),
                Damage::FirstAbove => held > k && parameter.contains(&wanted),
                Damage::SecondAbove => held <= k && wanted > k,
                _ => false,
            }
        };
        match self {
            Damage::Two | Damage::AboveOne => vec![RING_BYTE],
            Damage::FirstByte => vec![0],
            Damage::Any => (0..ROW_BYTES).collect(),
            _ => (0..RING_BYTE).filter(|&at| is_cell(at)).collect(),
        }
    }

    fn byte(self, rng: &mut Rng) -> u8 {
        let from = |rng: &mut Rng, least: u8| rng.between(least as usize, 255) as u8;
        match self {
            Damage::Eight => CELL_MOST + 1,
            Damage::Above => from(rng, CELL_MOST + 1),
            Damage::Two => RING_MOST + 1,
            Damage::AboveOne => from(rng, RING_MOST + 1),
            Damage::Any => rng.byte(),
            _ if rng.chance(10) => 255,
            _ => rng.between(1, CELL_MOST as usize) as u8,
        }
    }
}

/// Changes one byte of a model.
fn damage(rng: &mut Rng, model: &mut [u8], counts: &[u8], touched: &BTreeSet<usize>, sort: Damage) {
    let all: Vec<usize> = (0..counts.len()).collect();
    let (inside, outside): (Vec<usize>, Vec<usize>) =
        all.iter().partition(|&at| touched.contains(at));
    let at_ends = vec![0, counts.len() - 1];
    let wanted = match (sort, rng.below(5)) {
        (Damage::FirstByte | Damage::Two, 0 | 1) => at_ends,
        (_, 0) => at_ends,
        (_, 1 | 2) => inside,
        _ => outside,
    };
    // Some routines have no such place.
    let places = |row: usize| sort.places(counts[row]);
    let rows = [wanted, all]
        .map(|rows| rows.into_iter().filter(|&row| !places(row).is_empty()))
        .map(Vec::from_iter);
    if let Some(rows) = rows.iter().find(|rows| !rows.is_empty()) {
        let row = *pick(rng, rows);
        let at = *pick(rng, &places(row));
        model[ROW_BYTES * row + at] = sort.byte(rng);
    }
}

/// The buffer of this length for a model.
fn buffer(rng: &mut Rng, length: Length, mut model: Vec<u8>, new: &[u8]) -> Vec<u8> {
    let routines = model.len() / ROW_BYTES;
    let exact = model.len();
    let length = match length {
        Length::Nothing => 0,
        Length::OneShort => exact - 1,
        Length::OneShortEach => exact - routines,
        Length::Exact => exact,
        Length::Longer => exact + *pick(rng, &[1, 2, 64, 65, 66, 130, 200]),
        Length::ByNew => read(new).map_or(exact, |table| ROW_BYTES * table.routines.len()),
    };
    let behind = length.saturating_sub(exact);
    let tail = match rng.below(3) {
        0 => vec![255; behind],
        1 => vec![0; behind],
        _ => rng.bytes(behind),
    };
    model.extend(tail);
    model.truncate(length);
    model
}

#[cfg(test)]
mod tests {
    use super::*;
    use crate::update::{number, update_by, Way, WRONG};
    use crate::update_marks::{all_marks, marks};
    use std::collections::BTreeMap;

    /// The answer and the buffer afterwards.
    fn outcome(way: Way, input: &Input) -> (u32, Vec<u8>) {
        let mut model = input.model.clone();
        let answer = update_by(way, &input.old, &input.new, input.routine, &mut model);
        (number(answer), model)
    }

    #[test]
    fn a_seed_gives_the_same_inputs_again() {
        for index in 0..200 {
            assert_eq!(input(7, index), input(7, index));
        }
        assert_ne!(input(7, 0), input(8, 0));
    }

    #[test]
    fn a_thousand_inputs_meet_all_that_can_be_said_and_show_all_that_is_wrong() {
        let mut counts: BTreeMap<String, u32> =
            all_marks().into_iter().map(|mark| (mark, 0)).collect();
        let marks_in_all = counts.len();
        let mut wrong = BTreeMap::from(WRONG.map(|(way, _)| (way, 0)));
        for index in 0..1_000 {
            let (_, input) = input(1, index);
            let right = outcome(Way::InForce, &input);
            for mark in marks(&input, right.0, &right.1) {
                *counts.entry(mark).or_default() += 1;
            }
            for (way, count) in &mut wrong {
                *count += u32::from(outcome(*way, &input) != right);
            }
        }
        assert_eq!(counts.len(), marks_in_all);
        for (mark, count) in &counts {
            assert!(*count > 0, "{mark}");
        }
        for (way, count) in wrong {
            assert!(count > 0, "{way:?}");
        }
        // About half are done, and many of those with a model that is not the analysis's.
        assert!((450..=600).contains(&counts["done"]), "{}", counts["done"]);
        assert!(counts["foreign and untouched ones"] >= 100);
    }
}
