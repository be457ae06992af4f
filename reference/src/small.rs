//! All small tables of a few families, and what request #105 moves in their answers.
//!
//! A table is made of bodies of a `Shape` for each routine. `Marks` tell what its LOCK items have
//! to do with the request, and a `Kind` what moved.

use std::fmt;

use crate::generate::assemble;
use crate::limits::code::{CALL, CHOICE, END, FORK, LOCK, MIRROR, NEW, OTHER};
use crate::limits::{RING_BASE, RING_BYTE, RING_NAME, RING_ROUTINE, ROW_BYTES, ROW_SIDE};
use crate::model::{least_model, reached, row_bytes, share, verdict};
use crate::table::{Block, Item, Routine, Table};
use crate::{Rules, Share, Verdict};

// The families.

/// Which bodies a routine can have: one of the heads, and then any items of these sorts.
#[derive(Clone, Debug)]
pub struct Shape {
    pub parameters: u8,
    /// The items that a body begins with, as bytes. They leave no block open.
    pub heads: Vec<Vec<u8>>,
    /// The names that the items behind the head may have, the lowest first. The next local is the
    /// one after the last of them.
    pub names: Vec<u8>,
    /// At most so many items are behind the head. An END and an OTHER is none.
    pub items: usize,
    /// Whether CHOICE is among them. LOCK and FORK always are.
    pub choices: bool,
    /// At most so many of them are a CALL of routine 1 with two names.
    pub calls: usize,
    /// At most so many of them are a NEW or a MIRROR.
    pub locals: usize,
}

/// All tables whose routines have bodies of these shapes, in this order.
#[derive(Clone, Debug)]
pub struct Family {
    pub name: &'static str,
    /// What the tables are, in words.
    pub what: String,
    pub routines: Vec<Shape>,
}

impl Shape {
    /// Bodies with one of these heads and up to so many LOCK and FORK items behind it.
    fn new(parameters: u8, heads: &[&[u8]], names: &[u8], items: usize) -> Shape {
        Shape {
            parameters,
            heads: heads.iter().map(|head| head.to_vec()).collect(),
            names: names.to_vec(),
            items,
            choices: false,
            calls: 0,
            locals: 0,
        }
    }

    /// These bodies and no others.
    fn fixed(parameters: u8, bodies: &[&[u8]]) -> Shape {
        Shape::new(parameters, bodies, &[], 0)
    }
}

/// The families, by the number of items.
pub fn families(items: usize) -> Vec<Family> {
    let [mut all, more] = [in_one_body(items), over_calls(items)];
    all.extend(more);
    all
}

/// The families where one body has the mirror and all that can vary.
fn in_one_body(items: usize) -> Vec<Family> {
    let fewer = items.saturating_sub(1);
    let caller = Shape::fixed(0, &[&[NEW, NEW, CALL, 1, 1, 2]]);
    vec![
        Family {
            name: "choices",
            what: format!(
                "routine 0 is NEW, NEW, CALL 1 (1 2). Routine 1 is MIRROR 1 and any body of up to \
                 {fewer} items LOCK, FORK and CHOICE"
            ),
            routines: vec![
                caller.clone(),
                Shape {
                    choices: true,
                    ..Shape::new(2, &[&[MIRROR, 1]], &[1, 2, 3], fewer)
                },
            ],
        },
        Family {
            name: "two mirrors",
            what: format!(
                "routine 0 is NEW, NEW, CALL 1 (1 2). Routine 1 is MIRROR 1, then MIRROR 1 or \
                 MIRROR 2, and any body of up to {fewer} items LOCK and FORK"
            ),
            routines: vec![
                caller.clone(),
                Shape::new(
                    2,
                    &[&[MIRROR, 1, MIRROR, 1], &[MIRROR, 1, MIRROR, 2]],
                    &[1, 2, 3, 4],
                    fewer,
                ),
            ],
        },
        Family {
            name: "three locks",
            what: format!(
                "routine 0 is NEW, NEW, NEW, CALL 1 (1 2 3). Routine 1 is MIRROR 1 and any body of \
                 up to {fewer} items LOCK and FORK"
            ),
            routines: vec![
                Shape::fixed(0, &[&[NEW, NEW, NEW, CALL, 1, 1, 2, 3]]),
                Shape::new(3, &[&[MIRROR, 1]], &[1, 2, 3, 4], fewer),
            ],
        },
        Family {
            name: "any place",
            what: format!(
                "routine 0 is NEW, NEW, CALL 1 (1 2). Routine 1 is any body of up to {items} items \
                 LOCK, FORK, NEW and MIRROR, at most one of them a NEW or a MIRROR"
            ),
            routines: vec![
                caller,
                Shape {
                    locals: 1,
                    ..Shape::new(2, &[&[]], &[1, 2], items)
                },
            ],
        },
        Family {
            name: "another ring here",
            what: format!(
                "the one routine is NEW, NEW, NEW, a ring at 2, MIRROR 1 and any body of up to \
                 {fewer} items FORK and LOCK 1, 2 and 4. The ring is FORK {{ LOCK 2 {{ LOCK 3 }} }}, \
                 LOCK 3 {{ LOCK 2 }}"
            ),
            routines: vec![Shape::new(
                0,
                &[&[
                    NEW, NEW, NEW, FORK, LOCK, 2, LOCK, 3, END, END, END, LOCK, 3, LOCK, 2, END,
                    END, MIRROR, 1,
                ]],
                &[1, 2, 4],
                fewer,
            )],
        },
        Family {
            name: "another ring there",
            what: format!(
                "routine 0 is NEW, NEW, CALL 1, MIRROR 1 and any body of up to {fewer} items LOCK \
                 and FORK. Routine 1 is a ring at 1: NEW, NEW, FORK {{ LOCK 1 {{ LOCK 2 }} }}, LOCK 2 \
                 {{ LOCK 1 }}"
            ),
            routines: vec![
                Shape::new(0, &[&[NEW, NEW, CALL, 1, MIRROR, 1]], &[1, 2, 3], fewer),
                Shape::fixed(
                    0,
                    &[&[
                        NEW, NEW, FORK, LOCK, 1, LOCK, 2, END, END, END, LOCK, 2, LOCK, 1, END, END,
                    ]],
                ),
            ],
        },
    ]
}

/// The families where it matters how one routine calls the other.
fn over_calls(items: usize) -> Vec<Family> {
    let fewer = items.saturating_sub(1);
    let lower = items / 2;
    let upper = items - lower;
    vec![
        Family {
            name: "ways to call",
            what: format!(
                "routine 1 is MIRROR 1 and any body of up to {fewer} items LOCK and FORK. Routine 0 \
                 is NEW, NEW and then nothing, or CALL 1 (1 1), or CALL 1 (1 2), CALL 1 (2 1), or \
                 FORK {{ CALL 1 (1 2) }}, CALL 1 (1 2), or LOCK 1 {{ CALL 1 (1 2) }}"
            ),
            routines: vec![
                Shape::fixed(
                    0,
                    &[
                        &[NEW, NEW],
                        &[NEW, NEW, CALL, 1, 1, 1],
                        &[NEW, NEW, CALL, 1, 1, 2, CALL, 1, 2, 1],
                        &[NEW, NEW, FORK, CALL, 1, 1, 2, END, CALL, 1, 1, 2],
                        &[NEW, NEW, LOCK, 1, CALL, 1, 1, 2, END],
                    ],
                ),
                Shape::new(2, &[&[MIRROR, 1]], &[1, 2, 3], fewer),
            ],
        },
        Family {
            name: "mirror in the called routine",
            what: format!(
                "routine 0 is NEW, NEW and any body of up to {upper} items LOCK, FORK and CALL 1 \
                 (x y). Routine 1 is MIRROR 1 and any body of up to {lower} items LOCK and FORK"
            ),
            routines: vec![
                Shape {
                    calls: upper,
                    ..Shape::new(0, &[&[NEW, NEW]], &[1, 2], upper)
                },
                Shape::new(2, &[&[MIRROR, 1]], &[1, 2, 3], lower),
            ],
        },
        Family {
            name: "mirror in the caller",
            what: format!(
                "routine 0 is NEW, NEW, MIRROR 1 and any body of up to {upper} items LOCK, FORK and \
                 CALL 1 (x y), at most one of them a CALL. Routine 1 is any body of up to {lower} \
                 items LOCK and FORK"
            ),
            routines: vec![
                Shape {
                    calls: 1,
                    ..Shape::new(0, &[&[NEW, NEW, MIRROR, 1]], &[1, 2, 3], upper)
                },
                Shape::new(2, &[&[]], &[1, 2], lower),
            ],
        },
    ]
}

impl Family {
    /// Visits each table of the family once.
    pub fn tables(&self, visit: &mut impl FnMut(&[u8])) {
        let Some((last, others)) = self.routines.split_last() else {
            return;
        };
        let parameters: Vec<u8> = self.routines.iter().map(|shape| shape.parameters).collect();
        let mut before = vec![vec![]];
        for shape in others {
            let mut longer = Vec::new();
            bodies(shape, &mut |body| {
                longer.extend(before.iter().map(|front| [front, body].concat()));
            });
            before = longer;
        }
        bodies(last, &mut |body| {
            for front in &before {
                visit(&assemble(&parameters, &[front, body].concat()));
            }
        });
    }
}

/// Visits each body of a shape once.
pub fn bodies(shape: &Shape, visit: &mut impl FnMut(&[u8])) {
    let scope = Open {
        scope: shape.names.iter().fold(0, |bits, name| bits | 1 << name),
        first: false,
    };
    for head in &shape.heads {
        let mut writer = Writer {
            body: head.clone(),
            open: vec![scope],
            next_local: shape.names.last().map_or(1, |name| name + 1),
            items: shape.items,
            calls: shape.calls,
            locals: shape.locals,
            choices: shape.choices,
            visit,
        };
        writer.go_on();
    }
}

/// An open block: the names that may be used in it, as bits, and whether it is a first alternative.
#[derive(Clone, Copy)]
struct Open {
    scope: u16,
    first: bool,
}

/// A body that is being written, item by item.
struct Writer<'a, V: FnMut(&[u8])> {
    body: Vec<u8>,
    open: Vec<Open>,
    next_local: u8,
    /// How many more items, calls and locals there may be.
    items: usize,
    calls: usize,
    locals: usize,
    choices: bool,
    visit: &'a mut V,
}

impl<V: FnMut(&[u8])> Writer<'_, V> {
    /// Tries all that can come next: the end of the innermost block, and each item.
    fn go_on(&mut self) {
        self.close();
        if self.items > 0 {
            self.items -= 1;
            self.blocks();
            self.calls();
            self.locals();
            self.items += 1;
        }
    }

    /// Ends the innermost block; the body, if there is no other.
    fn close(&mut self) {
        let Some(innermost) = self.open.pop() else {
            return;
        };
        if innermost.first {
            self.open(&[OTHER], false);
        } else if self.open.is_empty() {
            self.body.push(END);
            (self.visit)(&self.body);
            self.body.pop();
        } else {
            self.write(&[END]);
        }
        self.open.push(innermost);
    }

    fn blocks(&mut self) {
        for name in names(self.scope()) {
            self.open(&[LOCK, name], false);
        }
        self.open(&[FORK], false);
        if self.choices {
            self.open(&[CHOICE], true);
        }
    }

    fn calls(&mut self) {
        if self.calls > 0 {
            self.calls -= 1;
            let scope = self.scope();
            for first in names(scope) {
                for second in names(scope) {
                    self.write(&[CALL, 1, first, second]);
                }
            }
            self.calls += 1;
        }
    }

    fn locals(&mut self) {
        if self.locals > 0 {
            self.locals -= 1;
            let scope = self.scope();
            self.name(&[NEW]);
            for name in names(scope) {
                self.name(&[MIRROR, name]);
            }
            self.locals += 1;
        }
    }

    /// The names that may be used here, as bits.
    fn scope(&self) -> u16 {
        self.open.last().map_or(0, |innermost| innermost.scope)
    }

    /// Writes an item that opens a block.
    fn open(&mut self, item: &[u8], first: bool) {
        let scope = self.scope();
        self.open.push(Open { scope, first });
        self.write(item);
        self.open.pop();
    }

    /// Writes an item that gives the next local name.
    fn name(&mut self, item: &[u8]) {
        let outside = self.open.clone();
        if let Some(innermost) = self.open.last_mut() {
            innermost.scope |= 1 << self.next_local;
        }
        self.next_local += 1;
        self.write(item);
        self.next_local -= 1;
        self.open = outside;
    }

    /// Writes an item and goes on behind it.
    fn write(&mut self, item: &[u8]) {
        let length = self.body.len();
        self.body.extend(item);
        self.go_on();
        self.body.truncate(length);
    }
}

/// The names whose bits are set.
fn names(scope: u16) -> impl Iterator<Item = u8> {
    (1..16).filter(move |name| scope >> name & 1 == 1)
}

// The answers.

/// What the analysis says of an accepted table.
#[derive(Clone, Debug, PartialEq, Eq)]
pub struct Said {
    pub verdict: Verdict,
    pub share: Share,
    pub model: Vec<u8>,
}

/// What the reference says by these rules.
pub fn said(rules: Rules, table: &Table) -> Said {
    let outcomes = least_model(rules, table);
    Said {
        verdict: verdict(table, &outcomes),
        share: share(table, &outcomes),
        model: outcomes.iter().flat_map(row_bytes).collect(),
    }
}

impl Said {
    /// The verdict as the archive's number.
    pub fn number(&self) -> u32 {
        match self.verdict {
            Verdict::Clear => 0,
            Verdict::Ring { routine, name } => {
                RING_BASE + RING_ROUTINE * routine as u32 + RING_NAME * u32::from(name)
            }
        }
    }
}

impl fmt::Display for Said {
    fn fmt(&self, to: &mut fmt::Formatter) -> fmt::Result {
        match self.verdict {
            Verdict::Clear => write!(to, "clear")?,
            Verdict::Ring { routine, name } => write!(to, "ring {routine} {name}")?,
        }
        let Share {
            percent,
            remainder,
            reached,
        } = self.share;
        write!(to, ", share {percent} {remainder} {reached}")
    }
}

/// The bytes of two models that differ, each in words with what it was and what it is.
pub fn differences(before: &Said, now: &Said) -> Vec<String> {
    let bytes = before.model.iter().zip(&now.model).enumerate();
    let differing = bytes.filter(|(_, (was, is))| was != is);
    let in_words = differing.map(|(at, (was, is))| {
        let (routine, byte) = (at / ROW_BYTES, at % ROW_BYTES);
        let place = match byte {
            RING_BYTE => "the last byte".to_string(),
            cell => format!("({}, {})", cell / ROW_SIDE, cell % ROW_SIDE),
        };
        format!("row {routine} {place}: {was} to {is}")
    });
    in_words.collect()
}

/// What may never happen: that something comes into an answer.
pub fn comes_in(before: &Said, now: &Said) -> Option<&'static str> {
    let ring = |said: &Said| said.verdict != Verdict::Clear;
    let mut bytes = before.model.iter().zip(&now.model);
    if ring(now) && !ring(before) {
        Some("a clear table became a ring")
    } else if bytes.any(|(was, is)| is & !was != 0) {
        Some("a pair or a ring came into the model")
    } else {
        None
    }
}

/// Whether some pair is in no row any more, rather than there with fewer labels.
pub fn pair_goes(before: &Said, now: &Said) -> bool {
    let cells = |at: &usize| at % ROW_BYTES != RING_BYTE;
    (0..now.model.len())
        .filter(cells)
        .any(|at| before.model[at] != 0 && now.model[at] == 0)
}

// The marks of a table.

/// What there is among the items of a table. Here the nest is that of the names as written, and a
/// LOCK is *met* where its name is not in the nest but another name of its lock is.
#[derive(Clone, Copy, Debug, Default, PartialEq, Eq, PartialOrd, Ord)]
pub struct Marks(u32);

impl Marks {
    /// A LOCK that is met, where the lock was not the last that came into the nest: by the running
    /// thread, or by a fork.
    pub const OWN: Marks = Marks(1);
    pub const FORK: Marks = Marks(1 << 1);
    /// Such a LOCK of a mirror, whose lock's own name is in the nest.
    pub const MIRROR_INSIDE: Marks = Marks(1 << 2);
    /// Such a LOCK of a lock's own name, with a mirror in the nest.
    pub const MIRROR_OUTSIDE: Marks = Marks(1 << 3);
    /// Such a LOCK of a mirror, with another mirror alone in the nest.
    pub const TWO_MIRRORS: Marks = Marks(1 << 4);
    /// A LOCK that is not passed over, or a CALL, with another holder by roots than by names.
    pub const LOCK_INSIDE: Marks = Marks(1 << 5);
    pub const CALL_INSIDE: Marks = Marks(1 << 6);
    /// A LOCK that is met, where the lock was the last that came into the nest.
    pub const DIRECTLY: Marks = Marks(1 << 7);
    /// A LOCK of a lock that the thread took by another name and has given back, or takes so in
    /// the other alternative of a choice.
    pub const CLOSED: Marks = Marks(1 << 8);
    /// A LOCK in a fork of a lock that the thread outside the fork has by another name.
    pub const BY_PARENT: Marks = Marks(1 << 9);
    /// A LOCK in a called routine of a lock that the caller has by another name, the mirror being
    /// in the one or the other.
    pub const BY_CALLER: Marks = Marks(1 << 10);
    /// A LOCK of one parameter inside that of another, for which some CALL passes the same lock.
    pub const ONE_LOCK_TWICE: Marks = Marks(1 << 11);

    /// Some LOCK that is met, not directly inside its lock.
    pub const NOT_DIRECTLY: Marks = Marks(Marks::OWN.0 | Marks::FORK.0);
    /// Some LOCK that is met.
    pub const MET: Marks = Marks(Marks::NOT_DIRECTLY.0 | Marks::DIRECTLY.0);

    /// Whether one of the other marks is there.
    pub fn any(self, other: Marks) -> bool {
        self.0 & other.0 != 0
    }

    pub fn and(self, other: Marks) -> Marks {
        Marks(self.0 | other.0)
    }

    fn add(&mut self, other: Marks) {
        *self = self.and(other);
    }
}

/// The marks of a table.
pub fn marks(table: &Table) -> Marks {
    let mut marks = Marks::default();
    for routine in &table.routines {
        mark_locks(routine, &mut marks);
        mark_calls(table, routine, &mut marks);
    }
    marks
}

/// The routines with a LOCK that is met, not directly inside its lock.
pub fn met_in(table: &Table) -> Vec<usize> {
    let has = |routine: &usize| {
        let mut marks = Marks::default();
        mark_locks(&table.routines[*routine], &mut marks);
        marks.any(Marks::NOT_DIRECTLY)
    };
    (0..table.routines.len()).filter(has).collect()
}

/// A place in a body.
struct Place<'a> {
    /// 0 for the running thread, or the fork's number.
    thread: u8,
    /// The names of the thread's LOCK blocks in this body, the outermost first, and their roots.
    names: Vec<u8>,
    locks: Vec<u8>,
    /// The roots of all names.
    roots: &'a [u8],
}

impl Place<'_> {
    fn new<'a>(open: &[Block], roots: &'a [u8]) -> Place<'a> {
        let mut thread = 0;
        let mut names = Vec::new();
        for block in open {
            match block {
                Block::Fork(number) => {
                    thread = *number;
                    names.clear();
                }
                Block::Lock(name) => names.push(*name),
                Block::Body | Block::First | Block::Second => {}
            }
        }
        Place {
            thread,
            locks: names.iter().map(|&name| roots[name as usize]).collect(),
            names,
            roots,
        }
    }

    fn root(&self, name: u8) -> u8 {
        self.roots[name as usize]
    }

    /// The root of the holder, by names as written.
    fn holder(&self) -> Option<u8> {
        last_come(&self.names).map(|name| self.root(name))
    }

    /// Whether the holder is another one by roots.
    fn holder_moves(&self) -> bool {
        self.holder() != last_come(&self.locks)
    }

    /// Whether two names are different ones of one lock.
    fn mirrored(&self, one: u8, other: u8) -> bool {
        one != other && self.root(one) == self.root(other)
    }

    /// The marks of a LOCK that is met here.
    fn met(&self, name: u8) -> Marks {
        let root = self.root(name);
        if self.holder() == Some(root) {
            return Marks::DIRECTLY;
        }
        let by = match self.thread {
            0 => Marks::OWN,
            _ => Marks::FORK,
        };
        by.and(if name == root {
            Marks::MIRROR_OUTSIDE
        } else if self.names.contains(&root) {
            Marks::MIRROR_INSIDE
        } else {
            Marks::TWO_MIRRORS
        })
    }
}

/// The last of these that is not there before.
fn last_come(names: &[u8]) -> Option<u8> {
    let came_in = |&at: &usize| !names[..at].contains(&names[at]);
    (0..names.len()).rev().find(came_in).map(|at| names[at])
}

/// Marks what the LOCK items of a routine are, and which items have another holder.
fn mark_locks(routine: &Routine, marks: &mut Marks) {
    let roots = routine.roots();
    let mut earlier: Vec<(u8, u8)> = Vec::new();
    routine.walk(|item, open| match *item {
        Item::Lock { name } => {
            let here = Place::new(open, &roots);
            if here.names.contains(&name) {
                // Passed over by names and by roots.
            } else if here.locks.contains(&here.root(name)) {
                marks.add(here.met(name));
            } else {
                mark_recorded(&here, open, &earlier, name, marks);
            }
            earlier.push((here.thread, name));
        }
        Item::Call { .. } if Place::new(open, &roots).holder_moves() => {
            marks.add(Marks::CALL_INSIDE);
        }
        _ => {}
    });
}

/// Marks a LOCK that is passed over neither by names nor by roots. `earlier` has the threads and
/// the names of the LOCK items before it.
fn mark_recorded(here: &Place, open: &[Block], earlier: &[(u8, u8)], name: u8, marks: &mut Marks) {
    let before = |&(thread, other): &(u8, u8)| thread == here.thread && here.mirrored(other, name);
    let around = |block: &Block| matches!(block, Block::Lock(other) if here.mirrored(*other, name));
    if here.holder_moves() {
        marks.add(Marks::LOCK_INSIDE);
    }
    if earlier.iter().any(before) {
        marks.add(Marks::CLOSED);
    }
    if open.iter().any(around) {
        marks.add(Marks::BY_PARENT);
    }
}

/// Marks what the CALL items of a routine have to do with the LOCK items of those that it calls.
fn mark_calls(table: &Table, routine: &Routine, marks: &mut Marks) {
    let roots = routine.roots();
    routine.walk(|item, open| {
        let Item::Call { routine, names } = item else {
            return;
        };
        let here = Place::new(open, &roots);
        let taken = Taken::of(&table.routines[*routine]);
        for (&name, parameter) in names.iter().zip(1..) {
            let has_lock = here.locks.contains(&here.root(name));
            let by_mirror = taken.by_mirror.contains(&parameter);
            let by_itself = taken.by_itself.contains(&parameter) && !here.names.contains(&name);
            if has_lock && (by_mirror || by_itself) {
                marks.add(Marks::BY_CALLER);
            }
        }
        let passed = |parameter: u8| {
            names
                .get(parameter as usize - 1)
                .map(|&name| here.root(name))
        };
        let one_lock =
            |&(outer, inner): &(u8, u8)| passed(outer).is_some() && passed(outer) == passed(inner);
        if taken.nested.iter().any(one_lock) {
            marks.add(Marks::ONE_LOCK_TWICE);
        }
    });
}

/// What a routine takes, as roots.
#[derive(Default)]
struct Taken {
    by_itself: Vec<u8>,
    by_mirror: Vec<u8>,
    /// Two different ones, the second inside the first and by the same thread.
    nested: Vec<(u8, u8)>,
}

impl Taken {
    fn of(routine: &Routine) -> Taken {
        let roots = routine.roots();
        let mut taken = Taken::default();
        routine.walk(|item, open| {
            if let Item::Lock { name } = *item {
                let root = roots[name as usize];
                let way = match root == name {
                    true => &mut taken.by_itself,
                    false => &mut taken.by_mirror,
                };
                way.push(root);
                let outer = Place::new(open, &roots).locks.into_iter();
                let pairs = outer.filter(|&held| held != root).map(|held| (held, root));
                taken.nested.extend(pairs);
            }
        });
        taken
    }
}

// The kinds of tables that moved.

/// What moved, the first of these that applies.
#[derive(Clone, Copy, Debug, PartialEq, Eq, PartialOrd, Ord)]
pub enum What {
    RingToClear,
    OtherRoutine,
    OtherName,
    /// The ring is the same, but some other routine that is reached lost its ring.
    Share,
    /// Verdict and share are the same, a ring or clear; the row of a reached routine is not.
    RowOfRing,
    RowOfClear,
    /// Nothing but the row of a routine that is not reached.
    NotReached,
}

/// Where a last byte moved.
#[derive(Clone, Copy, Debug, PartialEq, Eq, PartialOrd, Ord)]
pub enum RingLost {
    Nowhere,
    /// In the routine of the LOCK, whether in a caller too or not.
    There,
    /// Only in a caller of it.
    InCaller,
}

/// Who has a LOCK that is met, not directly inside its lock.
#[derive(Clone, Copy, Debug, PartialEq, Eq, PartialOrd, Ord)]
pub enum By {
    Own,
    Fork,
    Both,
}

/// What moved in a table, where, and by which thread's LOCK.
#[derive(Clone, Copy, Debug, PartialEq, Eq, PartialOrd, Ord)]
pub struct Kind {
    pub what: What,
    pub ring_lost: RingLost,
    pub by: By,
}

impl Kind {
    /// The kind of a table whose answer moved.
    pub fn of(table: &Table, before: &Said, now: &Said) -> Kind {
        let marks = marks(table);
        Kind {
            what: what(table, before, now),
            ring_lost: ring_lost(table, before, now),
            by: match (marks.any(Marks::OWN), marks.any(Marks::FORK)) {
                (true, true) => By::Both,
                (false, true) => By::Fork,
                _ => By::Own,
            },
        }
    }
}

/// What moved in a table whose answer moved.
fn what(table: &Table, before: &Said, now: &Said) -> What {
    let row = |said: &Said, routine: usize| said.model[ROW_BYTES * routine..][..ROW_BYTES].to_vec();
    let row_moved = |&routine: &usize| row(before, routine) != row(now, routine);
    match (before.verdict, now.verdict) {
        (Verdict::Ring { .. }, Verdict::Clear) => What::RingToClear,
        (Verdict::Ring { routine: was, .. }, Verdict::Ring { routine: is, .. }) if was != is => {
            What::OtherRoutine
        }
        (was, is) if was != is => What::OtherName,
        _ if before.share != now.share => What::Share,
        _ if !reached(table).iter().any(row_moved) => What::NotReached,
        (Verdict::Clear, _) => What::RowOfClear,
        _ => What::RowOfRing,
    }
}

/// Where a table whose answer moved lost a ring.
fn ring_lost(table: &Table, before: &Said, now: &Said) -> RingLost {
    let last_byte = |said: &Said, routine: usize| said.model[ROW_BYTES * routine + RING_BYTE];
    let lost = |&routine: &usize| last_byte(before, routine) != last_byte(now, routine);
    if met_in(table).iter().any(lost) {
        RingLost::There
    } else if (0..table.routines.len()).any(|routine| lost(&routine)) {
        RingLost::InCaller
    } else {
        RingLost::Nowhere
    }
}

impl fmt::Display for Kind {
    fn fmt(&self, to: &mut fmt::Formatter) -> fmt::Result {
        let what = match self.what {
            What::RingToClear => "a ring becomes clear",
            What::OtherRoutine => "the ring is told of another routine",
            What::OtherName => "the ring is told at another name",
            What::Share => "the same ring, but another share",
            What::RowOfRing => "the same ring, but fewer pairs or labels in a row",
            What::RowOfClear => "clear as before, but fewer pairs or labels in a row",
            What::NotReached => "only the row of a routine that is not reached",
        };
        let ring_lost = match self.ring_lost {
            RingLost::Nowhere => "no last byte moves",
            RingLost::There => "the routine of the LOCK loses a ring",
            RingLost::InCaller => "only its caller loses a ring",
        };
        let by = match self.by {
            By::Own => "by the running thread",
            By::Fork => "by a fork",
            By::Both => "by both",
        };
        write!(to, "{what}; {ring_lost}; {by}")
    }
}

// Tables in words.

/// How many items a table has, without END and OTHER.
pub fn size(table: &Table) -> usize {
    let items = table.routines.iter().flat_map(|routine| &routine.items);
    items
        .filter(|item| !matches!(item, Item::End | Item::Other))
        .count()
}

/// The bodies of a table in words.
pub fn words(table: &Table) -> String {
    let bodies = table.routines.iter().enumerate().map(|(number, routine)| {
        let body = block(&mut routine.items.iter());
        match body.is_empty() {
            true => format!("routine {number}: nothing"),
            false => format!("routine {number}: {body}"),
        }
    });
    bodies.collect::<Vec<String>>().join("; ")
}

/// The items up to the END or OTHER that closes what is open, which is taken too.
fn block<'a>(items: &mut impl Iterator<Item = &'a Item>) -> String {
    let mut all = Vec::new();
    while let Some(item) = items.next() {
        all.push(match item {
            Item::End | Item::Other => break,
            Item::New => "NEW".to_string(),
            Item::Mirror { name } => format!("MIRROR {name}"),
            Item::Call { routine, names } if names.is_empty() => format!("CALL {routine}"),
            Item::Call { routine, names } => {
                let names: Vec<String> = names.iter().map(u8::to_string).collect();
                format!("CALL {routine} ({})", names.join(" "))
            }
            Item::Lock { name } => format!("LOCK {name}{}", in_braces(&block(items))),
            Item::Fork => format!("FORK{}", in_braces(&block(items))),
            Item::Choice => {
                let [first, second] = [block(items), block(items)];
                format!("CHOICE {{ {first} | {second} }}")
            }
        });
    }
    all.join(", ")
}

/// The items of a block in braces, if there are any.
fn in_braces(items: &str) -> String {
    match items.is_empty() {
        true => String::new(),
        false => format!(" {{ {items} }}"),
    }
}

#[cfg(test)]
mod tests {
    use super::*;
    use crate::table::read;
    use std::collections::BTreeSet;

    /// The number of bodies with up to so many items, of which `blocks` open one block, `plain`
    /// open none and `choices` open two.
    fn count(blocks: usize, plain: usize, choices: usize, items: usize) -> usize {
        // A body is empty, or an item with what is inside it, and then a body.
        let mut exactly = vec![1];
        for n in 1..=items {
            let runs = |parts: &[usize]| parts.iter().map(|&part| exactly[part]).product::<usize>();
            let mut sum = plain * exactly[n - 1];
            for inside in 0..n {
                sum += blocks * runs(&[inside, n - 1 - inside]);
                for second in 0..n - inside {
                    sum += choices * runs(&[inside, second, n - 1 - inside - second]);
                }
            }
            exactly.push(sum);
        }
        exactly.iter().sum()
    }

    /// The same of bodies with LOCK 1, LOCK 2 and FORK, where one item more may be a NEW or a
    /// MIRROR of 1 or 2, and LOCK 3 may stand in the rest of its block.
    fn count_with_local(items: usize) -> usize {
        let exactly =
            |blocks, n| count(blocks, 0, 0, n) - if n > 0 { count(blocks, 0, 0, n - 1) } else { 0 };
        // With the local, and so many items besides: it comes first, or inside the first block,
        // or behind that.
        let mut local: Vec<usize> = Vec::new();
        for n in 0..items {
            let mut sum = 3 * exactly(4, n);
            for inside in 0..n {
                let behind = n - 1 - inside;
                sum +=
                    3 * (local[inside] * exactly(3, behind) + exactly(3, inside) * local[behind]);
            }
            local.push(sum);
        }
        count(3, 0, 0, items) + local.iter().sum::<usize>()
    }

    fn number(family: &Family) -> usize {
        let mut number = 0;
        family.tables(&mut |_| number += 1);
        number
    }

    #[test]
    fn numbers_of_tables() {
        for items in 1..=5 {
            let (fewer, lower) = (items - 1, items / 2);
            let upper = items - lower;
            let given: Vec<usize> = families(items).iter().map(number).collect();
            assert_eq!(given[0], count(4, 0, 1, fewer));
            assert_eq!(given[1], 2 * count(5, 0, 0, fewer));
            assert_eq!(given[2], count(5, 0, 0, fewer));
            assert_eq!(given[3], count_with_local(items));
            assert_eq!(given[4], count(4, 0, 0, fewer));
            assert_eq!(given[5], count(4, 0, 0, fewer));
            assert_eq!(given[6], 5 * count(4, 0, 0, fewer));
            assert_eq!(given[7], count(3, 4, 0, upper) * count(4, 0, 0, lower));
            // Without a CALL; and one of nine in each gap of the bodies with one item less.
            let mut with_a_call = 0;
            for n in 0..upper {
                let exactly = count(4, 0, 0, n) - if n > 0 { count(4, 0, 0, n - 1) } else { 0 };
                with_a_call += 9 * (2 * n + 1) * exactly;
            }
            let callers = count(4, 0, 0, upper) + with_a_call;
            assert_eq!(given[8], callers * count(3, 0, 0, lower));
        }
    }

    #[test]
    fn each_table_is_accepted_and_comes_once() {
        for family in families(4) {
            let mut seen = BTreeSet::new();
            family.tables(&mut |bytes| {
                assert!(read(bytes).is_ok(), "{bytes:?}");
                assert!(seen.insert(bytes.to_vec()), "{bytes:?}");
            });
        }
    }

    /// The marks of a table of one routine, with locks 1 and 2 and mirrors 3 and 4 of 1.
    fn marks_of(body: &[u8]) -> Marks {
        let head = [NEW, NEW, MIRROR, 1, MIRROR, 1];
        let section = [&head, body, &[END]].concat();
        marks(&read(&assemble(&[0], &section)).expect("valid"))
    }

    #[test]
    fn marks_of_single_locks() {
        let own = Marks::OWN;
        for (body, expected) in [
            (&[LOCK, 1, LOCK, 2, LOCK, 1, END, END, END][..], Marks(0)),
            (
                &[LOCK, 1, LOCK, 2, LOCK, 3, END, END, END],
                own.and(Marks::MIRROR_INSIDE),
            ),
            (
                &[LOCK, 3, LOCK, 2, LOCK, 1, END, END, END],
                own.and(Marks::MIRROR_OUTSIDE),
            ),
            (
                &[LOCK, 3, LOCK, 2, LOCK, 4, END, END, END],
                own.and(Marks::TWO_MIRRORS),
            ),
            (
                &[FORK, LOCK, 1, LOCK, 2, LOCK, 3, END, END, END, END],
                Marks::FORK.and(Marks::MIRROR_INSIDE),
            ),
            (&[LOCK, 1, LOCK, 3, END, END], Marks::DIRECTLY),
            (&[LOCK, 1, END, LOCK, 3, END], Marks::CLOSED),
            (&[LOCK, 1, FORK, LOCK, 3, END, END, END], Marks::BY_PARENT),
        ] {
            assert_eq!(marks_of(body), expected, "{body:?}");
        }
    }
}
