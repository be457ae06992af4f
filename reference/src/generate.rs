//! Tables to try: boundary tables with their outcome, and seeded random ones.

use std::ops::Range;

use crate::limits::{code, refusal, MAX_FORK, MAX_LOCALS, MAX_OPEN};
use crate::limits::{MAX_PARAMETERS, MAX_ROUTINES, MAX_SECTION};

/// A small generator of numbers (splitmix64): one seed, one sequence.
pub struct Rng(u64);

impl Rng {
    pub fn new(seed: u64) -> Rng {
        Rng(seed)
    }

    /// A generator for table number `index` of a seed.
    pub fn indexed(seed: u64, index: u64) -> Rng {
        let mut rng = Rng(seed);
        let start = rng.draw();
        Rng(start ^ index.wrapping_mul(0xD1B5_4A32_D192_ED03))
    }

    pub fn draw(&mut self) -> u64 {
        self.0 = self.0.wrapping_add(0x9E37_79B9_7F4A_7C15);
        let mut z = self.0;
        z = (z ^ (z >> 30)).wrapping_mul(0xBF58_476D_1CE4_E5B9);
        z = (z ^ (z >> 27)).wrapping_mul(0x94D0_49BB_1331_11EB);
        z ^ (z >> 31)
    }

    /// A number below `bound`, which is not 0.
    pub fn below(&mut self, bound: usize) -> usize {
        (self.draw() % bound as u64) as usize
    }

    /// A number from `low` to `high`, both included.
    pub fn between(&mut self, low: usize, high: usize) -> usize {
        low + self.below(high - low + 1)
    }

    /// True `percent` times in a hundred.
    pub fn chance(&mut self, percent: usize) -> bool {
        self.below(100) < percent
    }

    pub fn byte(&mut self) -> u8 {
        self.below(256) as u8
    }

    pub fn bytes(&mut self, count: usize) -> Vec<u8> {
        (0..count).map(|_| self.byte()).collect()
    }
}

/// A table's bytes from its parameter counts and its body section.
pub fn assemble(parameters: &[u8], section: &[u8]) -> Vec<u8> {
    let mut table = vec![parameters.len() as u8];
    table.extend(parameters);
    table.extend((section.len() as u16).to_le_bytes());
    table.extend(section);
    table
}

/// The kinds of random tables.
#[derive(Clone, Copy, Debug, PartialEq, Eq, PartialOrd, Ord)]
pub enum Kind {
    /// Few names, much aliasing, recursion, forks in called routines.
    Small,
    /// Blocks nested up to the limit.
    Deep,
    /// Many names and forks in a routine.
    Wide,
    /// Many threads that each nest two or three locks: long ways to compose.
    Tangle,
    /// A valid table with bytes changed, cut, put in or added.
    Damaged,
    /// Arbitrary bytes, alone or behind a sound head.
    Arbitrary,
    /// As many body bytes as a table can have, or nearly so.
    Full,
    /// LOCK items on names of the LOCK blocks around them.
    Nested,
    /// Up to 64 routines: some that calls reach and some not, some with a ring and some
    /// without.
    Mixed,
    /// As `Small`, `Deep`, `Wide`, `Tangle` or `Nested`, with mirrors.
    Mirrors,
    /// As `Mixed` or `Full`, with mirrors.
    LargeMirrors,
    /// As `Mirrors`, but damaged, or with names out of scope and too many locals.
    BadMirrors,
    /// LOCK items on other names of the locks that their thread holds, with LOCK and CALL
    /// items inside and forks beside.
    HeldMirrors,
}

pub const KINDS: [(Kind, &str); 13] = [
    (Kind::Small, "small"),
    (Kind::Deep, "deep"),
    (Kind::Wide, "wide"),
    (Kind::Tangle, "tangle"),
    (Kind::Damaged, "damaged"),
    (Kind::Arbitrary, "arbitrary"),
    (Kind::Full, "full"),
    (Kind::Nested, "nested"),
    (Kind::Mixed, "mixed"),
    (Kind::Mirrors, "mirrors"),
    (Kind::LargeMirrors, "large with mirrors"),
    (Kind::BadMirrors, "bad with mirrors"),
    (Kind::HeldMirrors, "held by mirrors"),
];

/// Table number `index` of a seed, with its kind.
pub fn random(seed: u64, index: u64) -> (Kind, Vec<u8>) {
    let mut rng = Rng::indexed(seed, index);
    let kind = match rng.below(100) {
        0..=6 => Kind::Small,
        7..=11 => Kind::Mixed,
        12..=15 => Kind::Deep,
        16..=18 => Kind::Wide,
        19..=22 => Kind::Tangle,
        23..=34 => Kind::Nested,
        35..=43 => Kind::Damaged,
        44..=48 => Kind::Arbitrary,
        49 => Kind::Full,
        50..=73 => Kind::Mirrors,
        74..=85 => Kind::HeldMirrors,
        86..=90 => Kind::LargeMirrors,
        _ => Kind::BadMirrors,
    };
    let table = of_kind(&mut rng, kind);
    (kind, table)
}

/// A random table of one kind.
pub fn of_kind(rng: &mut Rng, kind: Kind) -> Vec<u8> {
    match kind {
        Kind::Small => small(rng, Locals::New),
        Kind::Deep => deep(rng, Locals::New),
        Kind::Wide => wide(rng, Locals::New),
        Kind::Tangle => tangle(rng, Locals::New),
        Kind::Damaged => damaged(rng),
        Kind::Arbitrary => arbitrary(rng),
        Kind::Full => full(rng, Locals::New),
        Kind::Nested => nested(rng, Locals::New),
        Kind::Mixed => mixed(rng, Locals::New),
        Kind::Mirrors => mirrors(rng),
        Kind::LargeMirrors => large_mirrors(rng),
        Kind::BadMirrors => bad_mirrors(rng),
        Kind::HeldMirrors => held_mirrors(rng),
    }
}

/// What the locals of a random table are. With `New` no number is drawn for mirrors, so
/// that tables without them do not depend on how those with them are made.
#[derive(Clone, Copy, PartialEq, Eq)]
enum Locals {
    /// NEW alone.
    New,
    /// NEW and MIRROR.
    Mirrors,
    /// The same, and more than there may be.
    TooMany,
    /// The same, and names out of scope.
    OutOfScope,
}

/// How likely each item is in a random body, and how far the body may go.
struct Style {
    new: usize,
    lock: usize,
    fork: usize,
    choice: usize,
    call: usize,
    /// In a hundred: how often a block is ended before its room is used up.
    stop: usize,
    /// Whether a body goes on until its room is used up.
    fill: bool,
    /// NEW items at the head of routine 0, which has no parameters.
    head: usize,
    max_locals: u8,
    max_fork: u8,
    max_open: usize,
    nests: Nests,
    mirrors: Mirrors,
}

/// How many mirrors a random body has, and how sound they are.
struct Mirrors {
    /// How likely MIRROR is, beside the other items.
    weight: usize,
    /// MIRROR items at the head of each body, behind the NEW items there.
    head: usize,
    /// In a hundred: how often a name is one out of scope, where a local is.
    stray: usize,
}

impl Mirrors {
    const NONE: Mirrors = Mirrors {
        weight: 0,
        head: 0,
        stray: 0,
    };
}

impl Style {
    /// The style with locals of this sort.
    fn with(self, rng: &mut Rng, locals: Locals) -> Style {
        let (weight, head, stray, max_locals) = match locals {
            Locals::New => return self,
            Locals::Mirrors => ((1, 4), (0, 3), 0, rng.between(5, MAX_LOCALS as usize) as u8),
            Locals::TooMany => ((1, 4), (2, 9), 0, MAX_LOCALS + 2),
            Locals::OutOfScope => ((3, 8), (0, 1), 6, MAX_LOCALS),
        };
        let mirrors = Mirrors {
            weight: rng.between(weight.0, weight.1),
            head: rng.between(head.0, head.1),
            stray,
        };
        let nests = match self.nests {
            Nests::Rising(often) if rng.chance(50) => Nests::RisingByLock(often),
            as_it_is => as_it_is,
        };
        Style {
            mirrors,
            max_locals,
            nests,
            ..self
        }
    }
}

/// How a random LOCK comes by its name.
enum Nests {
    /// Any name in scope.
    Any,
    /// At least so many times in a hundred that of a LOCK block around it, also around its fork.
    Again(usize),
    /// At least so many times in a hundred one that its thread holds in the body; else one
    /// above all that it holds there, or the highest of those again.
    Rising(usize),
    /// The same by the names that mirrors lead back to, each lock by any of its names.
    RisingByLock(usize),
}

/// Writes one random body, valid unless its style has too many locals or stray names.
struct Writer<'a> {
    rng: &'a mut Rng,
    style: &'a Style,
    counts: &'a [u8],
    parameters: u8,
    scope: Vec<u8>,
    /// The names of the open LOCK blocks, the outermost first.
    locks: Vec<u8>,
    /// How many of them are outside the fork of the place.
    outside_fork: usize,
    locals: u8,
    /// What each name from 0 on leads back to.
    roots: Vec<u8>,
    forks: u8,
    /// Bytes that may still be written, closing bytes already set aside.
    room: usize,
    out: Vec<u8>,
}

/// A body of at most `room` bytes (at least 1) for routine `routine`.
fn body(rng: &mut Rng, style: &Style, counts: &[u8], routine: usize, room: usize) -> Vec<u8> {
    let parameters = counts[routine];
    let mut writer = Writer {
        rng,
        style,
        counts,
        parameters,
        scope: (1..=parameters).collect(),
        locks: Vec::new(),
        outside_fork: 0,
        locals: 0,
        roots: (0..=parameters).collect(),
        forks: 0,
        room: room - 1,
        out: Vec::new(),
    };
    if routine == 0 {
        for _ in 0..style.head {
            writer.new_item();
        }
    }
    for _ in 0..style.mirrors.head {
        writer.mirror_item();
    }
    writer.items(0);
    writer.out.push(code::END);
    writer.out
}

impl Writer<'_> {
    /// Items until the room or the wish for more is used up.
    fn items(&mut self, depth: usize) {
        let in_scope = self.scope.len();
        let fill = self.style.fill && depth == 0;
        // One block in ten is left empty.
        let mut go_on = fill || !self.rng.chance(10);
        while self.room > 0 && go_on {
            self.item(depth);
            go_on = fill || !self.rng.chance(self.style.stop);
        }
        // What was made in this block goes out of scope with it.
        self.scope.truncate(in_scope);
    }

    /// One item, or none where the one drawn cannot stand here.
    fn item(&mut self, depth: usize) {
        let style = self.style;
        let may_open = depth < style.max_open;
        let mirror = style.mirrors.weight;
        let all = style.new + style.lock + style.fork + style.choice + style.call + mirror;
        let mut drawn = self.rng.below(all);
        let mut falls_to = |weight: usize| {
            let here = drawn < weight;
            drawn = drawn.wrapping_sub(weight);
            here
        };
        if falls_to(style.new) {
            self.new_item();
        } else if falls_to(style.lock) {
            if may_open && self.take(3, !self.scope.is_empty()) {
                let name = self.lock_name();
                self.out.extend([code::LOCK, name]);
                self.locks.push(name);
                self.items(depth + 1);
                self.locks.pop();
                self.out.push(code::END);
            }
        } else if falls_to(style.fork) {
            if may_open && self.take(2, self.forks < style.max_fork) {
                self.forks += 1;
                self.out.push(code::FORK);
                let outside_fork = std::mem::replace(&mut self.outside_fork, self.locks.len());
                self.items(depth + 1);
                self.outside_fork = outside_fork;
                self.out.push(code::END);
            }
        } else if falls_to(style.choice) {
            if may_open && self.take(3, true) {
                self.out.push(code::CHOICE);
                self.items(depth + 1);
                self.out.push(code::OTHER);
                self.items(depth + 1);
                self.out.push(code::END);
            }
        } else if falls_to(mirror) {
            self.mirror_item();
        } else {
            // Routines with parameters are drawn more often.
            let mut routine = self.rng.below(self.counts.len());
            if self.counts[routine] == 0 && self.rng.chance(80) {
                routine = self.rng.below(self.counts.len());
            }
            let names = self.counts[routine] as usize;
            if self.take(2 + names, names == 0 || !self.scope.is_empty()) {
                self.out.extend([code::CALL, routine as u8]);
                for _ in 0..names {
                    let name = self.name();
                    self.out.push(name);
                }
            }
        }
    }

    fn new_item(&mut self) {
        if self.take(1, self.locals < self.style.max_locals) {
            self.out.push(code::NEW);
            self.local(self.parameters + self.locals + 1);
        }
    }

    fn mirror_item(&mut self) {
        let allowed = self.locals < self.style.max_locals && !self.scope.is_empty();
        if self.take(2, allowed) {
            let name = self.mirrored();
            self.out.extend([code::MIRROR, name]);
            self.local(self.root(name));
        }
    }

    /// The next local is there and leads back to this name.
    fn local(&mut self, root: u8) {
        self.locals += 1;
        self.scope.push(self.parameters + self.locals);
        self.roots.push(root);
    }

    /// A name for a MIRROR.
    fn mirrored(&mut self) -> u8 {
        // One local too many has a name out of scope half of the time.
        if self.locals >= MAX_LOCALS && self.rng.chance(50) {
            let numbers = self.out_of_scope();
            return numbers[self.rng.below(numbers.len())];
        }
        // The newest name at times, so that mirrors stand on mirrors.
        match self.scope.last() {
            Some(&newest) if self.rng.chance(30) => newest,
            _ => self.name(),
        }
    }

    /// What a name leads back to, which may be one that is not there yet.
    fn root(&self, name: u8) -> u8 {
        self.roots.get(name as usize).copied().unwrap_or(name)
    }

    /// Sets bytes aside for an item that may stand here; without success, and
    /// so that writing comes to an end, one byte of room is given up.
    fn take(&mut self, bytes: usize, allowed: bool) -> bool {
        let taken = allowed && self.room >= bytes;
        self.room = self.room.saturating_sub(if taken { bytes } else { 1 });
        taken
    }

    fn name(&mut self) -> u8 {
        let stray = self.style.mirrors.stray;
        if stray > 0 && self.rng.chance(stray) {
            let numbers = self.out_of_scope();
            // Name 0 and the next local are always there.
            if numbers.len() > 2 || self.rng.chance(10) {
                return numbers[self.rng.below(numbers.len())];
            }
        }
        self.scope[self.rng.below(self.scope.len())]
    }

    /// The numbers that are no names here: 0, the next local, and locals of closed blocks.
    fn out_of_scope(&self) -> Vec<u8> {
        let next = self.parameters + self.locals + 1;
        (0..=next)
            .filter(|number| !self.scope.contains(number))
            .collect()
    }

    /// A name for a LOCK.
    fn lock_name(&mut self) -> u8 {
        match self.style.nests {
            Nests::Any => self.name(),
            Nests::Again(often) => match self.held_again(0, often) {
                Some(name) => self.either(name),
                None => self.name(),
            },
            Nests::Rising(often) => self.rising_name(often, |_, name| name),
            Nests::RisingByLock(often) => {
                let name = self.rising_name(often, Writer::root);
                self.either(name)
            }
        }
    }

    /// So many times in a hundred a name of the open LOCK blocks, but for the first ones.
    fn held_again(&mut self, but: usize, often: usize) -> Option<u8> {
        let around = &self.locks[but..];
        if around.is_empty() || !self.rng.chance(often) {
            return None;
        }
        Some(around[self.rng.below(around.len())])
    }

    /// A name that the thread holds, or one that is not below those by its height.
    fn rising_name(&mut self, often: usize, height: fn(&Self, u8) -> u8) -> u8 {
        if let Some(name) = self.held_again(self.outside_fork, often) {
            return name;
        }
        let drawn = self.name();
        let around = self.locks[self.outside_fork..].iter().copied();
        match around.max_by_key(|&name| height(self, name)) {
            // A name that is too low gives way to the highest held, taken again.
            Some(highest) if height(self, drawn) < height(self, highest) => highest,
            _ => drawn,
        }
    }

    /// Where there are mirrors, half of the time any name of the same lock.
    fn either(&mut self, name: u8) -> u8 {
        if self.style.mirrors.weight == 0 || self.rng.chance(50) {
            return name;
        }
        let mut names = self.scope.clone();
        names.retain(|&other| self.root(other) == self.root(name));
        if names.contains(&name) {
            names[self.rng.below(names.len())]
        } else {
            name
        }
    }
}

/// A table of random bodies, with the room given for each.
fn written(rng: &mut Rng, style: &Style, counts: &[u8], rooms: &[usize]) -> Vec<u8> {
    let mut section = Vec::new();
    for (routine, &room) in rooms.iter().enumerate() {
        section.extend(body(rng, style, counts, routine, room));
    }
    assemble(counts, &section)
}

/// A random valid body for one routine of a table with these parameter counts, of at most
/// `room` bytes (at least 1).
pub fn valid_body(rng: &mut Rng, counts: &[u8], routine: usize, room: usize) -> Vec<u8> {
    let locals = if rng.chance(50) {
        Locals::New
    } else {
        Locals::Mirrors
    };
    let style = Style {
        new: 1,
        lock: rng.between(4, 16),
        fork: rng.between(0, 4),
        choice: rng.between(0, 3),
        call: rng.between(0, 6),
        stop: rng.between(10, 50),
        fill: rng.chance(50),
        head: rng.between(1, 4),
        max_locals: rng.between(2, 5) as u8,
        max_fork: rng.between(1, 4) as u8,
        max_open: rng.between(2, MAX_OPEN),
        nests: Nests::Any,
        mirrors: Mirrors::NONE,
    }
    .with(rng, locals);
    body(rng, &style, counts, routine, room)
}

/// The same with many NEW, MIRROR and CHOICE items.
pub fn body_of_locals(rng: &mut Rng, counts: &[u8], routine: usize, room: usize) -> Vec<u8> {
    let style = Style {
        new: rng.between(3, 8),
        lock: rng.between(4, 8),
        fork: rng.between(0, 3),
        choice: rng.between(2, 6),
        call: rng.between(1, 6),
        stop: rng.between(10, 40),
        fill: true,
        head: rng.between(0, 2),
        max_locals: MAX_LOCALS,
        max_fork: MAX_FORK,
        max_open: rng.between(2, MAX_OPEN),
        nests: Nests::Any,
        mirrors: Mirrors {
            weight: rng.between(2, 10),
            head: 0,
            stray: 0,
        },
    };
    body(rng, &style, counts, routine, room)
}

/// Parameter counts for `routines` routines, none for routine 0.
pub(crate) fn counts(rng: &mut Rng, routines: usize, most: usize) -> Vec<u8> {
    let mut counts = vec![0];
    for _ in 1..routines {
        let least = if rng.chance(85) { most.min(1) } else { 0 };
        counts.push(rng.between(least, most) as u8);
    }
    counts
}

fn small(rng: &mut Rng, locals: Locals) -> Vec<u8> {
    let style = Style {
        new: 1,
        lock: rng.between(6, 16),
        fork: rng.between(1, 6),
        choice: rng.between(0, 2),
        call: rng.between(0, 8),
        stop: rng.between(20, 50),
        fill: rng.chance(80),
        head: rng.between(2, 4),
        max_locals: rng.between(2, 4) as u8,
        max_fork: rng.between(1, 4) as u8,
        max_open: rng.between(3, 6),
        nests: Nests::Any,
        mirrors: Mirrors::NONE,
    }
    .with(rng, locals);
    let routines = rng.between(1, 4);
    let most = rng.between(2, 3);
    let counts = counts(rng, routines, most);
    let rooms: Vec<usize> = counts.iter().map(|_| rng.between(12, 64)).collect();
    written(rng, &style, &counts, &rooms)
}

fn deep(rng: &mut Rng, locals: Locals) -> Vec<u8> {
    let style = Style {
        new: 1,
        lock: rng.between(4, 12),
        fork: rng.between(0, 4),
        choice: rng.between(0, 6),
        call: rng.between(0, 2),
        stop: rng.between(0, 12),
        fill: rng.chance(50),
        head: rng.between(1, 3),
        max_locals: MAX_LOCALS,
        max_fork: MAX_FORK,
        max_open: MAX_OPEN,
        nests: Nests::Any,
        mirrors: Mirrors::NONE,
    }
    .with(rng, locals);
    let routines = rng.between(1, 3);
    let counts = counts(rng, routines, 3);
    let rooms: Vec<usize> = counts.iter().map(|_| rng.between(20, 120)).collect();
    written(rng, &style, &counts, &rooms)
}

fn wide(rng: &mut Rng, locals: Locals) -> Vec<u8> {
    let style = Style {
        new: 3,
        lock: rng.between(4, 12),
        fork: rng.between(1, 4),
        choice: rng.between(0, 3),
        call: rng.between(1, 4),
        stop: rng.between(2, 15),
        fill: rng.chance(50),
        head: rng.between(0, 8),
        max_locals: MAX_LOCALS,
        max_fork: MAX_FORK,
        max_open: rng.between(2, MAX_OPEN),
        nests: Nests::Any,
        mirrors: Mirrors::NONE,
    }
    .with(rng, locals);
    let routines = rng.between(1, 8);
    let counts = counts(rng, routines, MAX_PARAMETERS as usize);
    let rooms: Vec<usize> = counts.iter().map(|_| rng.between(20, 200)).collect();
    written(rng, &style, &counts, &rooms)
}

fn tangle(rng: &mut Rng, locals: Locals) -> Vec<u8> {
    // Routine 0 calls each of the others once, so all names meet.
    let routines = rng.between(1, 3);
    let most = rng.between(2, MAX_PARAMETERS as usize);
    let counts = counts(rng, routines, most);
    let mut section = Vec::new();
    for (routine, &parameters) in counts.iter().enumerate() {
        let names = parameters + rng.between(2, MAX_LOCALS as usize) as u8;
        section.extend(head(rng, parameters..names, locals));
        let names = names as usize;
        let mut forks = 0;
        for _ in 0..rng.between(1, 12) {
            let forked = forks < MAX_FORK && rng.chance(60);
            if forked {
                forks += 1;
                section.push(code::FORK);
            }
            let nested = rng.between(2, 3);
            for _ in 0..nested {
                section.extend([code::LOCK, rng.between(1, names) as u8]);
            }
            section.extend(vec![code::END; nested + forked as usize]);
        }
        if routine == 0 {
            for (other, &count) in counts.iter().enumerate().skip(1) {
                section.extend([code::CALL, other as u8]);
                section.extend((0..count).map(|_| rng.between(1, names) as u8));
            }
        }
        section.push(code::END);
    }
    assemble(&counts, &section)
}

/// Locals at the head of a body, each behind so many names. With mirrors, half of them are
/// MIRROR of any name before.
fn head(rng: &mut Rng, before: Range<u8>, locals: Locals) -> Vec<u8> {
    let mut items = Vec::new();
    for names in before {
        if locals != Locals::New && names > 0 && rng.chance(50) {
            items.extend([code::MIRROR, rng.between(1, names as usize) as u8]);
        } else {
            items.push(code::NEW);
        }
    }
    items
}

fn full(rng: &mut Rng, locals: Locals) -> Vec<u8> {
    let style = Style {
        new: rng.between(1, 3),
        lock: rng.between(4, 12),
        fork: rng.between(0, 4),
        choice: rng.between(0, 3),
        call: rng.between(1, 8),
        stop: rng.between(5, 30),
        fill: true,
        head: rng.between(0, 8),
        max_locals: MAX_LOCALS,
        max_fork: MAX_FORK,
        max_open: rng.between(2, MAX_OPEN),
        nests: Nests::Any,
        mirrors: Mirrors::NONE,
    }
    .with(rng, locals);
    let routines = if rng.chance(75) {
        MAX_ROUTINES
    } else {
        rng.between(1, MAX_ROUTINES)
    };
    let most = rng.between(0, MAX_PARAMETERS as usize);
    let counts = counts(rng, routines, most);
    let mut section = Vec::new();
    for routine in 0..routines {
        // Shares alike of what is left, and one byte for each body to come.
        let to_come = routines - routine - 1;
        let left = MAX_SECTION - section.len() - to_come;
        section.extend(body(rng, &style, &counts, routine, left / (to_come + 1)));
    }
    // Calls of routine 0 fill the last body up, as its last items.
    section.pop();
    while section.len() + 3 <= MAX_SECTION {
        section.extend([code::CALL, 0]);
    }
    section.push(code::END);
    assemble(&counts, &section)
}

fn nested(rng: &mut Rng, locals: Locals) -> Vec<u8> {
    let often = rng.between(20, 70);
    let nests = if rng.chance(75) {
        Nests::Rising(often)
    } else {
        Nests::Again(often)
    };
    let style = Style {
        new: 1,
        lock: rng.between(10, 16),
        fork: rng.between(1, 4),
        choice: rng.between(0, 3),
        call: rng.between(0, 2),
        stop: rng.between(5, 35),
        fill: rng.chance(80),
        head: rng.between(3, 5),
        max_locals: rng.between(3, 5) as u8,
        max_fork: rng.between(1, 4) as u8,
        max_open: rng.between(5, MAX_OPEN),
        nests,
        mirrors: Mirrors::NONE,
    }
    .with(rng, locals);
    let routines = rng.between(1, 4);
    let most = rng.between(3, 5);
    let counts = counts(rng, routines, most);
    let rooms: Vec<usize> = counts.iter().map(|_| rng.between(40, 140)).collect();
    written(rng, &style, &counts, &rooms)
}

fn mixed(rng: &mut Rng, locals: Locals) -> Vec<u8> {
    let routines = match rng.below(10) {
        0 => MAX_ROUTINES,
        1 => rng.between(10, MAX_ROUTINES),
        _ => rng.between(1, 9),
    };
    let most = rng.below(3);
    let counts = counts(rng, routines, most);
    let callees = callees(rng, routines);
    // In a hundred: how many routines get a ring of their own.
    let rings = [0, 10, 30, 60, 90, 100][rng.below(6)];
    let mut section = Vec::new();
    for (routine, callees) in callees.iter().enumerate() {
        section.extend(mixed_body(rng, &counts, routine, callees, rings, locals));
    }
    assemble(&counts, &section)
}

/// Which routines each routine calls, so that calls reach some from routine 0 and others
/// not.
pub(crate) fn callees(rng: &mut Rng, routines: usize) -> Vec<Vec<usize>> {
    let mut callees = vec![vec![]; routines];
    let mut others: Vec<usize> = (1..routines).collect();
    let to_reach = if rng.chance(30) {
        others.len()
    } else {
        rng.below(routines)
    };
    let mut reached = vec![0];
    for _ in 0..to_reach {
        // Any of the rest, called by any that is reached, often by routine 0.
        let routine = others.remove(rng.below(others.len()));
        let caller = if rng.chance(30) {
            0
        } else {
            reached[rng.below(reached.len())]
        };
        callees[caller].push(routine);
        reached.push(routine);
    }
    // More calls, which reach no more.
    for &caller in &reached {
        if rng.chance(25) {
            callees[caller].push(reached[rng.below(reached.len())]);
        }
    }
    for caller in others {
        for _ in 0..rng.below(3) {
            callees[caller].push(rng.below(routines));
        }
    }
    callees
}

/// A body in which two threads take two locks in opposite order, so many times in a
/// hundred, else in one order or not at all. Then it calls these routines. With mirrors,
/// the one thread takes the locks by their second names.
fn mixed_body(
    rng: &mut Rng,
    counts: &[u8],
    routine: usize,
    callees: &[usize],
    rings: usize,
    locals: Locals,
) -> Vec<u8> {
    let mut body = vec![code::NEW; 2];
    let mut names = counts[routine] + 2;
    let one = rng.between(1, names as usize) as u8;
    let other = one % names + 1;
    let (mut second_one, mut second_other) = (one, other);
    if locals != Locals::New {
        // One has a third name, by way of its second.
        let first_mirror = names + 1;
        for name in [one, other, first_mirror] {
            body.extend([code::MIRROR, name]);
            names += 1;
        }
        (second_one, second_other) = (first_mirror + 2, first_mirror + 1);
    }
    let opposite = rng.chance(rings);
    let mut forks = 0;
    if opposite || rng.chance(20) {
        forks += 1;
        body.push(code::FORK);
        body.extend(two_locks(one, other));
        body.push(code::END);
        body.extend(if opposite {
            two_locks(second_other, second_one)
        } else {
            two_locks(second_one, second_other)
        });
    }
    for &callee in callees {
        let mut call = vec![code::CALL, callee as u8];
        call.extend((0..counts[callee]).map(|_| rng.between(1, names as usize) as u8));
        // Half of the calls stand in a block.
        let (open, close) = match rng.below(8) {
            0 if forks < MAX_FORK => {
                forks += 1;
                (vec![code::FORK], vec![code::END])
            }
            1 => (vec![code::CHOICE], vec![code::OTHER, code::END]),
            2 => (vec![code::CHOICE, code::OTHER], vec![code::END]),
            3 => (vec![code::LOCK, one], vec![code::END]),
            _ => (vec![], vec![]),
        };
        body.extend(joined(&[&open, &call, &close]));
    }
    body.push(code::END);
    body
}

/// A LOCK on one name, and in it a LOCK on another.
fn two_locks(outer: u8, inner: u8) -> [u8; 6] {
    [code::LOCK, outer, code::LOCK, inner, code::END, code::END]
}

fn mirrors(rng: &mut Rng) -> Vec<u8> {
    if rng.chance(10) {
        tangle(rng, Locals::Mirrors)
    } else {
        styled(rng, Locals::Mirrors)
    }
}

/// A table of any of the styles that are not large.
fn styled(rng: &mut Rng, locals: Locals) -> Vec<u8> {
    match rng.below(10) {
        0..=2 => small(rng, locals),
        3 => deep(rng, locals),
        4 => wide(rng, locals),
        _ => nested(rng, locals),
    }
}

fn large_mirrors(rng: &mut Rng) -> Vec<u8> {
    if rng.chance(90) {
        mixed(rng, Locals::Mirrors)
    } else {
        full(rng, Locals::Mirrors)
    }
}

fn bad_mirrors(rng: &mut Rng) -> Vec<u8> {
    match rng.below(10) {
        0..=3 => {
            let table = mirrors(rng);
            damage(rng, table)
        }
        4 | 5 => styled(rng, Locals::TooMany),
        _ => styled(rng, Locals::OutOfScope),
    }
}

fn held_mirrors(rng: &mut Rng) -> Vec<u8> {
    let routines = rng.between(1, 4);
    let most = rng.between(1, 4);
    let counts = counts(rng, routines, most);
    let mut section = Vec::new();
    for &parameters in &counts {
        section.extend(held_body(rng, &counts, parameters));
    }
    assemble(&counts, &section)
}

/// A body of a few nests, each by the routine's thread or by a fork.
fn held_body(rng: &mut Rng, counts: &[u8], parameters: u8) -> Vec<u8> {
    let mut writer = HeldWriter {
        rng,
        counts,
        locks: (1..=parameters).map(|name| vec![name]).collect(),
        last: parameters,
        most: parameters + MAX_LOCALS,
    };
    let mut body = writer.head();
    for _ in 0..writer.rng.between(2, 4) {
        let nest = writer.nest();
        if writer.rng.chance(50) {
            body.extend(joined(&[&[code::FORK], &nest, &[code::END]]));
        } else {
            body.extend(nest);
        }
    }
    body.push(code::END);
    body
}

/// Writes nests in which a lock is taken again, by any of its names.
struct HeldWriter<'a> {
    rng: &'a mut Rng,
    counts: &'a [u8],
    /// The names of each lock.
    locks: Vec<Vec<u8>>,
    /// The last name, and the highest that there may be.
    last: u8,
    most: u8,
}

impl HeldWriter<'_> {
    /// Items that make locals, so that there are three locks or more, and mirrors.
    fn head(&mut self) -> Vec<u8> {
        let news = self.rng.between(3usize.saturating_sub(self.locks.len()), 4);
        for _ in 0..news {
            self.last += 1;
            self.locks.push(vec![self.last]);
        }
        let mut items = vec![code::NEW; news];
        for _ in 0..self.rng.between(1, 3) {
            let lock = self.rng.below(self.locks.len());
            items.extend(self.mirror(lock));
        }
        items
    }

    /// A MIRROR of a lock, by any of its names.
    fn mirror(&mut self, lock: usize) -> [u8; 2] {
        let item = [code::MIRROR, self.name(lock)];
        self.last += 1;
        self.locks[lock].push(self.last);
        item
    }

    /// Any name of a lock.
    fn name(&mut self, lock: usize) -> u8 {
        let names = &self.locks[lock];
        names[self.rng.below(names.len())]
    }

    /// Any name.
    fn any_name(&mut self) -> u8 {
        let lock = self.rng.below(self.locks.len());
        self.name(lock)
    }

    /// A nest of two or three locks, most often in rising order, one of which is taken
    /// again with another between.
    fn nest(&mut self) -> Vec<u8> {
        let mut way: Vec<usize> = (0..self.locks.len()).collect();
        let length = self.rng.between(2, 3);
        while way.len() > length {
            way.remove(self.rng.below(way.len()));
        }
        if self.rng.chance(10) {
            way.reverse();
        }
        let first = self.rng.below(length - 1);
        way.insert(self.rng.between(first + 2, length), way[first]);
        self.taken(&way)
    }

    /// LOCK items on these locks, one inside the other, each by any of its names. Now and
    /// then the name is a mirror that is made there, or the rest stands in an alternative.
    fn taken(&mut self, way: &[usize]) -> Vec<u8> {
        let Some((&lock, rest)) = way.split_first() else {
            return self.inside();
        };
        let names = self.locks.clone();
        let mut items = Vec::new();
        let name = if self.last < self.most && self.rng.chance(15) {
            items.extend(self.mirror(lock));
            self.last
        } else {
            self.name(lock)
        };
        let rest = self.taken(rest);
        // What was made here may be out of scope behind it.
        self.locks = names;
        let rest = match self.rng.below(20) {
            0 => joined(&[&[code::CHOICE], &rest, &[code::OTHER, code::END]]),
            1 => joined(&[&[code::CHOICE, code::OTHER], &rest, &[code::END]]),
            _ => rest,
        };
        joined(&[&items, &[code::LOCK, name], &rest, &[code::END]])
    }

    /// What stands in the innermost block of a nest: a CALL, a fork of two locks, or nothing.
    fn inside(&mut self) -> Vec<u8> {
        match self.rng.below(6) {
            0 => {
                let callee = self.rng.below(self.counts.len());
                let mut call = vec![code::CALL, callee as u8];
                call.extend((0..self.counts[callee]).map(|_| self.any_name()));
                call
            }
            1 => {
                let two_locks = two_locks(self.any_name(), self.any_name());
                joined(&[&[code::FORK], &two_locks, &[code::END]])
            }
            _ => vec![],
        }
    }
}

fn damaged(rng: &mut Rng) -> Vec<u8> {
    let kind = [
        Kind::Small,
        Kind::Small,
        Kind::Small,
        Kind::Deep,
        Kind::Wide,
    ][rng.below(5)];
    let table = of_kind(rng, kind);
    damage(rng, table)
}

/// Changes a valid table in one to three places.
fn damage(rng: &mut Rng, mut table: Vec<u8>) -> Vec<u8> {
    for _ in 0..rng.between(1, 3) {
        // The head is short, so it is chosen outright at times.
        let head = (table.first().copied().unwrap_or(0) as usize + 3).min(table.len());
        let place = if rng.chance(15) {
            rng.below(head + 1)
        } else {
            rng.below(table.len() + 1)
        };
        // Most often a byte that means something.
        let byte = if rng.chance(80) {
            rng.below(10) as u8
        } else {
            rng.byte()
        };
        match rng.below(8) {
            0..=3 if place < table.len() => table[place] = byte,
            4 if place < table.len() => {
                table.remove(place);
            }
            5 => table.insert(place, byte),
            6 => table.truncate(place),
            _ => {
                let count = rng.between(1, 4);
                table.extend(rng.bytes(count));
            }
        }
    }
    // Often the body count is made to fit again, so that the items are read.
    if rng.chance(70) {
        fit_count(&mut table);
    }
    table
}

/// Makes the body count say what follows it, where both of its bytes are there.
fn fit_count(table: &mut [u8]) {
    let at = 1 + table.first().copied().unwrap_or(0) as usize;
    if table.len() >= at + 2 {
        let count = (table.len() - at - 2) as u16;
        table[at..at + 2].copy_from_slice(&count.to_le_bytes());
    }
}

fn arbitrary(rng: &mut Rng) -> Vec<u8> {
    match rng.below(4) {
        // Any bytes at all.
        0 => {
            let count = rng.between(0, 300);
            rng.bytes(count)
        }
        // Any bytes behind a likely routine count.
        1 => {
            let count = rng.between(0, 40);
            let mut table = rng.bytes(count);
            table.insert(0, rng.between(0, 4) as u8);
            table
        }
        // A sound head, then small numbers.
        _ => {
            let routines = rng.between(1, 3);
            let counts = counts(rng, routines, 2);
            let length = rng.between(0, 40);
            let section: Vec<u8> = (0..length)
                .map(|_| {
                    if rng.chance(30) {
                        0
                    } else {
                        rng.below(8) as u8
                    }
                })
                .collect();
            assemble(&counts, &section)
        }
    }
}

/// A table on one side of a limit.
pub struct Boundary {
    pub what: &'static str,
    pub table: Vec<u8>,
    /// The refusal due, none where the table passes.
    pub refusal: Option<u32>,
}

/// `times` copies of some bytes.
fn repeated(bytes: &[u8], times: usize) -> Vec<u8> {
    bytes.repeat(times)
}

/// The parts one after another.
fn joined(parts: &[&[u8]]) -> Vec<u8> {
    parts.concat()
}

/// A table of one routine.
fn one(section: &[u8]) -> Vec<u8> {
    assemble(&[0], section)
}

/// A table of a routine 0 that does nothing, and a routine 1 with k parameters.
fn two(k: u8, section: &[u8]) -> Vec<u8> {
    assemble(&[0, k], &joined(&[&[code::END], section]))
}

/// Tables on both sides of every limit, and tables to which two refusals apply.
pub fn boundaries() -> Vec<Boundary> {
    let mut all = boundaries_without_mirrors();
    all.extend(mirror_boundaries());
    all.extend(held_mirror_boundaries());
    all
}

/// Those about a LOCK on a mirror of what is held: it opens a block and needs its name in
/// scope like any other.
pub fn held_mirror_boundaries() -> Vec<Boundary> {
    use code::*;

    let by_turns = |depth: usize| {
        let locks = repeated(&[LOCK, 1, LOCK, 2], 8);
        let open = joined(&[&locks, &[LOCK, 1]]);
        let items = joined(&[&[MIRROR, 1], &open[..2 * depth]]);
        two(1, &joined(&[&items, &repeated(&[END], depth + 1)]))
    };
    [
        (
            "16 blocks of a name and its mirror by turns",
            by_turns(16),
            None,
        ),
        (
            "17 blocks of a name and its mirror by turns",
            by_turns(17),
            Some(refusal::TOO_DEEP),
        ),
        (
            "LOCK on a mirror out of scope in the block of its lock",
            two(
                1,
                &[
                    LOCK, 1, CHOICE, MIRROR, 1, OTHER, LOCK, 2, END, END, END, END,
                ],
            ),
            Some(refusal::BAD_NAME),
        ),
    ]
    .into_iter()
    .map(|(what, table, refusal)| Boundary {
        what,
        table,
        refusal,
    })
    .collect()
}

/// Those about MIRROR.
pub fn mirror_boundaries() -> Vec<Boundary> {
    use code::*;

    let most_forks = usize::from(MAX_FORK);
    let mirrors = |count| repeated(&[MIRROR, 1], count);
    let mut all = Vec::new();
    let mut put = |what: &'static str, table: Vec<u8>, refusal: Option<u32>| {
        all.push(Boundary {
            what,
            table,
            refusal,
        });
    };

    // The code, and where the section ends.
    put("code 7 with a name", two(1, &[MIRROR, 1, END]), None);
    put(
        "code 8 behind a MIRROR",
        two(1, &[MIRROR, 1, 8]),
        Some(refusal::BAD_CODE),
    );
    put(
        "code 8 behind 8 locals",
        two(1, &joined(&[&mirrors(8), &[8]])),
        Some(refusal::BAD_CODE),
    );
    put(
        "a section that ends with a MIRROR's name",
        two(1, &[MIRROR, 1]),
        Some(refusal::NO_CODE),
    );
    put(
        "a section that ends with MIRROR",
        two(1, &[MIRROR]),
        Some(refusal::BAD_NAME),
    );
    put(
        "4,096 body bytes that end with MIRROR",
        one(&joined(&[&repeated(&[CALL, 0], 2047), &[NEW, MIRROR]])),
        Some(refusal::BAD_NAME),
    );
    put(
        "END behind a MIRROR in a first alternative",
        two(1, &[CHOICE, MIRROR, 1, END, END]),
        Some(refusal::MISPLACED),
    );
    put(
        "a MIRROR after the last body",
        two(1, &[END, MIRROR, 1]),
        Some(refusal::BYTES_LEFT),
    );

    // How many.
    put("8 MIRROR", two(1, &joined(&[&mirrors(8), &[END]])), None);
    put(
        "9 MIRROR",
        two(1, &joined(&[&mirrors(9), &[END]])),
        Some(refusal::TOO_MANY),
    );
    put(
        "4 NEW and 4 MIRROR by turns",
        one(&joined(&[&repeated(&[NEW, MIRROR, 1], 4), &[END]])),
        None,
    );
    put(
        "4 NEW and 4 MIRROR by turns, and a NEW",
        one(&joined(&[&repeated(&[NEW, MIRROR, 1], 4), &[NEW, END]])),
        Some(refusal::TOO_MANY),
    );
    put(
        "4 NEW and 4 MIRROR by turns, and a MIRROR",
        one(&joined(&[
            &repeated(&[NEW, MIRROR, 1], 4),
            &[MIRROR, 1, END],
        ])),
        Some(refusal::TOO_MANY),
    );
    put(
        "8 MIRROR and a NEW",
        two(1, &joined(&[&mirrors(8), &[NEW, END]])),
        Some(refusal::TOO_MANY),
    );
    put(
        "8 NEW and a MIRROR",
        one(&joined(&[&[NEW; 8], &[MIRROR, 1, END]])),
        Some(refusal::TOO_MANY),
    );
    for (what, name) in [
        ("a ninth local, a MIRROR of name 0", 0),
        ("a ninth local, a MIRROR of its own name", 9),
        ("a ninth local, a MIRROR of name 255", 255),
    ] {
        put(
            what,
            one(&joined(&[&[NEW; 8], &[MIRROR, name, END]])),
            Some(refusal::TOO_MANY),
        );
    }
    put(
        "a ninth local, a MIRROR without a name byte",
        one(&joined(&[&[NEW; 8], &[MIRROR]])),
        Some(refusal::TOO_MANY),
    );
    put(
        "an eighth local, a MIRROR of its own name",
        one(&joined(&[&[NEW; 7], &[MIRROR, 8, END]])),
        Some(refusal::BAD_NAME),
    );
    put(
        "an eighth local, a MIRROR without a name byte",
        one(&joined(&[&[NEW; 7], &[MIRROR]])),
        Some(refusal::BAD_NAME),
    );
    put(
        "9 MIRROR over two alternatives",
        two(
            1,
            &joined(&[&[CHOICE], &mirrors(8), &[OTHER, MIRROR, 1, END, END]]),
        ),
        Some(refusal::TOO_MANY),
    );
    put(
        "8 MIRROR in each of two routines",
        assemble(
            &[0, 1, 1],
            &joined(&[&[END], &mirrors(8), &[END], &mirrors(8), &[END]]),
        ),
        None,
    );
    put(
        "8 MIRROR and the most FORK",
        two(
            1,
            &joined(&[&mirrors(8), &repeated(&[FORK, END], most_forks), &[END]]),
        ),
        None,
    );
    put(
        "8 MIRROR and one FORK more than the most",
        two(
            1,
            &joined(&[&mirrors(8), &repeated(&[FORK, END], most_forks + 1), &[END]]),
        ),
        Some(refusal::TOO_MANY),
    );

    // Depth, which a MIRROR does not add to.
    let at_sixteen = |items: &[u8]| {
        let open = repeated(&[LOCK, 1], 16);
        two(1, &joined(&[&open, items, &repeated(&[END], 17)]))
    };
    put("8 MIRROR at depth 16", at_sixteen(&mirrors(8)), None);
    put(
        "9 MIRROR at depth 16",
        at_sixteen(&mirrors(9)),
        Some(refusal::TOO_MANY),
    );
    put(
        "MIRROR of its own name at depth 16",
        at_sixteen(&[MIRROR, 2]),
        Some(refusal::BAD_NAME),
    );
    put(
        "a seventeenth block that is a LOCK on a mirror",
        at_sixteen(&[MIRROR, 1, LOCK, 2, END]),
        Some(refusal::TOO_DEEP),
    );

    // The name.
    for (what, name, refusal) in [
        ("MIRROR of name 0", 0, Some(refusal::BAD_NAME)),
        ("MIRROR of name 1", 1, None),
        ("MIRROR of name k", 7, None),
        ("MIRROR of name k + 1, its own", 8, Some(refusal::BAD_NAME)),
        ("MIRROR of name 16", 16, Some(refusal::BAD_NAME)),
        ("MIRROR of name 255", 255, Some(refusal::BAD_NAME)),
    ] {
        put(what, two(7, &[MIRROR, name, END]), refusal);
    }
    put(
        "MIRROR of its own name where none is in scope",
        one(&[MIRROR, 1, END]),
        Some(refusal::BAD_NAME),
    );
    put(
        "MIRROR of a local that comes later",
        one(&[NEW, MIRROR, 3, NEW, END]),
        Some(refusal::BAD_NAME),
    );
    put(
        "a mirror before its MIRROR",
        two(1, &[LOCK, 2, END, MIRROR, 1, END]),
        Some(refusal::BAD_NAME),
    );
    put(
        "MIRROR of a local after the block that holds it",
        one(&[FORK, NEW, END, MIRROR, 1, END]),
        Some(refusal::BAD_NAME),
    );
    put(
        "MIRROR of a mirror after the block that holds it",
        two(1, &[LOCK, 1, MIRROR, 1, END, MIRROR, 2, END]),
        Some(refusal::BAD_NAME),
    );
    put(
        "a mirror after the block that holds it",
        two(1, &[FORK, MIRROR, 1, LOCK, 2, END, END, LOCK, 2, END, END]),
        Some(refusal::BAD_NAME),
    );
    put(
        "a mirror of the first alternative in the second",
        two(1, &[CHOICE, MIRROR, 1, OTHER, LOCK, 2, END, END, END]),
        Some(refusal::BAD_NAME),
    );
    put(
        "MIRROR of a mirror of the first alternative in the second",
        two(1, &[CHOICE, MIRROR, 1, OTHER, MIRROR, 2, END, END]),
        Some(refusal::BAD_NAME),
    );
    put(
        "a mirror of the second alternative after the choice",
        two(1, &[CHOICE, OTHER, MIRROR, 1, END, LOCK, 2, END, END]),
        Some(refusal::BAD_NAME),
    );
    put(
        "a mirror outside a fork, used in it",
        two(1, &[MIRROR, 1, FORK, LOCK, 2, END, END, END]),
        None,
    );
    put(
        "numbers of mirrors out of scope are not used again",
        two(
            1,
            &[
                CHOICE, MIRROR, 1, OTHER, NEW, MIRROR, 3, LOCK, 4, END, END, NEW, LOCK, 5, END, END,
            ],
        ),
        None,
    );
    put(
        "the number of a mirror out of scope",
        two(
            1,
            &[CHOICE, MIRROR, 1, OTHER, END, MIRROR, 1, LOCK, 2, END, END],
        ),
        Some(refusal::BAD_NAME),
    );
    put(
        "a mirror of the routine before",
        assemble(&[0, 1, 1], &[END, MIRROR, 1, END, LOCK, 2, END, END]),
        Some(refusal::BAD_NAME),
    );
    put(
        "LOCK of name 15, a mirror",
        two(
            7,
            &joined(&[&repeated(&[MIRROR, 7], 8), &[LOCK, 15, END, END]]),
        ),
        None,
    );
    put(
        "LOCK of name 16, behind 8 mirrors",
        two(
            7,
            &joined(&[&repeated(&[MIRROR, 7], 8), &[LOCK, 16, END, END]]),
        ),
        Some(refusal::BAD_NAME),
    );
    put(
        "CALL with a mirror",
        two(1, &[MIRROR, 1, CALL, 1, 2, END]),
        None,
    );
    put(
        "CALL with a mirror out of scope",
        two(1, &[FORK, MIRROR, 1, END, CALL, 1, 2, END]),
        Some(refusal::BAD_NAME),
    );
    all
}

/// Those without a MIRROR.
pub fn boundaries_without_mirrors() -> Vec<Boundary> {
    use code::*;

    let most_forks = usize::from(MAX_FORK);
    let mut all = Vec::new();
    let mut put = |what: &'static str, table: Vec<u8>, refusal: Option<u32>| {
        all.push(Boundary {
            what,
            table,
            refusal,
        });
    };
    // The head.
    put("no byte", vec![], Some(refusal::EMPTY));
    put("no routine", vec![0], Some(refusal::ROUTINE_COUNT));
    put(
        "no routine, with a section",
        assemble(&[], &[END]),
        Some(refusal::ROUTINE_COUNT),
    );
    put(
        "64 routines",
        assemble(&[0; 64], &repeated(&[END], 64)),
        None,
    );
    put(
        "65 routines",
        assemble(&[0; 65], &repeated(&[END], 65)),
        Some(refusal::ROUTINE_COUNT),
    );
    put(
        "255 routines",
        assemble(&[0; 255], &repeated(&[END], 255)),
        Some(refusal::ROUTINE_COUNT),
    );
    put("the count alone", vec![1], Some(refusal::HEADER_CUT));
    put("no body count", vec![2, 0, 0], Some(refusal::HEADER_CUT));
    put(
        "one byte of the body count, with a bad parameter count",
        vec![2, 9, 9, 1],
        Some(refusal::HEADER_CUT),
    );
    put(
        "64 parameter counts, one byte of the body count",
        joined(&[&[64], &[0; 64], &[0]]),
        Some(refusal::HEADER_CUT),
    );
    put("7 parameters", two(7, &[END]), None);
    put(
        "8 parameters",
        two(8, &[END]),
        Some(refusal::PARAMETER_COUNT),
    );
    put(
        "255 parameters and a body count too large",
        vec![2, 0, 255, 1, 16],
        Some(refusal::PARAMETER_COUNT),
    );
    put(
        "a parameter of routine 0",
        assemble(&[1], &[END]),
        Some(refusal::PARAMETER_COUNT),
    );
    put(
        "4,096 body bytes",
        one(&joined(&[
            &repeated(&[FORK, END], most_forks),
            &repeated(&[CALL, 0], 2047 - most_forks),
            &[NEW, END],
        ])),
        None,
    );
    put(
        "4,097 body bytes",
        one(&joined(&[&repeated(&[CALL, 0], 2048), &[END]])),
        Some(refusal::SECTION_COUNT),
    );
    put(
        "4,097 body bytes said, none there",
        vec![1, 0, 1, 16],
        Some(refusal::SECTION_COUNT),
    );
    put(
        "65,535 body bytes said",
        vec![1, 0, 255, 255],
        Some(refusal::SECTION_COUNT),
    );
    put(
        "4,096 body bytes said, 4,095 there",
        joined(&[&[1, 0, 0, 16], &[END; 4095]]),
        Some(refusal::SECTION_LENGTH),
    );
    put(
        "4,096 body bytes said, 4,097 there",
        joined(&[&[1, 0, 0, 16], &[END; 4097]]),
        Some(refusal::SECTION_LENGTH),
    );
    put(
        "a byte missing",
        vec![1, 0, 1, 0],
        Some(refusal::SECTION_LENGTH),
    );
    put(
        "a byte too many",
        vec![1, 0, 1, 0, 0, 0],
        Some(refusal::SECTION_LENGTH),
    );
    put(
        "the largest table",
        assemble(
            &joined(&[&[0], &[7; 63]]),
            &joined(&[
                &repeated(&[END], 63),
                &repeated(&[LOCK, 7, END], 1344),
                &[END],
            ]),
        ),
        None,
    );
    put(
        "the largest table and a byte",
        joined(&[&[64], &[0; 64], &[0, 16], &[END; 4097]]),
        Some(refusal::SECTION_LENGTH),
    );

    // Where a code is due.
    put("an empty section", one(&[]), Some(refusal::NO_CODE));
    put(
        "a second body missing",
        assemble(&[0, 0], &[END]),
        Some(refusal::NO_CODE),
    );
    put("a body not closed", one(&[NEW]), Some(refusal::NO_CODE));
    put(
        "a lock block not closed",
        two(1, &[LOCK, 1, END]),
        Some(refusal::NO_CODE),
    );
    put(
        "a first alternative not closed",
        one(&[CHOICE]),
        Some(refusal::NO_CODE),
    );
    put(
        "a second alternative not closed",
        one(&[CHOICE, OTHER, END]),
        Some(refusal::NO_CODE),
    );
    put(
        "64 routines, 63 bodies",
        assemble(&[0; 64], &repeated(&[END], 63)),
        Some(refusal::NO_CODE),
    );
    put("code 8", one(&[8, END]), Some(refusal::BAD_CODE));
    put("code 255", one(&[255]), Some(refusal::BAD_CODE));
    put(
        "code 8 at depth 16",
        two(1, &joined(&[&repeated(&[LOCK, 1], 16), &[8]])),
        Some(refusal::BAD_CODE),
    );

    // OTHER and END.
    put(
        "a choice of two empty alternatives",
        one(&[CHOICE, OTHER, END, END]),
        None,
    );
    put(
        "OTHER in a body",
        one(&[OTHER, END]),
        Some(refusal::MISPLACED),
    );
    put(
        "OTHER in a lock block in a first alternative",
        two(1, &[CHOICE, LOCK, 1, OTHER, END, END]),
        Some(refusal::MISPLACED),
    );
    put(
        "OTHER in a fork block",
        one(&[FORK, OTHER, END, END]),
        Some(refusal::MISPLACED),
    );
    put(
        "OTHER twice",
        one(&[CHOICE, OTHER, OTHER, END, END]),
        Some(refusal::MISPLACED),
    );
    put(
        "END in a first alternative",
        one(&[CHOICE, END, END]),
        Some(refusal::MISPLACED),
    );

    // Depth.
    for (what, depth, refusal) in [
        ("16 lock blocks", 16, None),
        ("17 lock blocks", 17, Some(refusal::TOO_DEEP)),
    ] {
        put(
            what,
            two(
                1,
                &joined(&[&repeated(&[LOCK, 1], depth), &repeated(&[END], depth + 1)]),
            ),
            refusal,
        );
    }
    for (what, depth, refusal) in [
        ("16 choices in first alternatives", 16, None),
        (
            "17 choices in first alternatives",
            17,
            Some(refusal::TOO_DEEP),
        ),
    ] {
        put(
            what,
            one(&joined(&[
                &repeated(&[CHOICE], depth),
                &repeated(&[OTHER, END], depth),
                &[END],
            ])),
            refusal,
        );
    }
    for (what, depth, refusal) in [
        ("16 choices in second alternatives", 16, None),
        (
            "17 choices in second alternatives",
            17,
            Some(refusal::TOO_DEEP),
        ),
    ] {
        put(
            what,
            one(&joined(&[
                &repeated(&[CHOICE, OTHER], depth),
                &repeated(&[END], depth + 1),
            ])),
            refusal,
        );
    }
    put(
        "16 lock blocks twice over, and once more in the next routine",
        assemble(
            &[0, 1, 1],
            &joined(&[
                &[END],
                &repeated(&[LOCK, 1], 16),
                &repeated(&[END], 16),
                &repeated(&[LOCK, 1], 16),
                &repeated(&[END], 17),
                &repeated(&[LOCK, 1], 16),
                &repeated(&[END], 17),
            ]),
        ),
        None,
    );
    put(
        "8 forks in 8 lock blocks",
        two(
            1,
            &joined(&[&repeated(&[LOCK, 1, FORK], 8), &repeated(&[END], 17)]),
        ),
        None,
    );
    put(
        "one FORK more than the most that is a seventeenth block",
        two(
            1,
            &joined(&[
                &repeated(&[FORK, END], most_forks - 8),
                &repeated(&[LOCK, 1, FORK], 8),
                &[FORK],
                &repeated(&[END], 18),
            ]),
        ),
        Some(refusal::TOO_DEEP),
    );
    put(
        "a seventeenth block with a bad name",
        two(
            1,
            &joined(&[&repeated(&[LOCK, 1], 16), &[LOCK, 2], &repeated(&[END], 18)]),
        ),
        Some(refusal::TOO_DEEP),
    );
    put(
        "a seventeenth block with no name byte",
        two(1, &joined(&[&repeated(&[LOCK, 1], 16), &[LOCK]])),
        Some(refusal::TOO_DEEP),
    );
    put(
        "a sixteenth block with a bad name",
        two(
            1,
            &joined(&[&repeated(&[LOCK, 1], 15), &[LOCK, 2], &repeated(&[END], 17)]),
        ),
        Some(refusal::BAD_NAME),
    );
    put(
        "NEW and CALL at depth 16",
        two(
            1,
            &joined(&[
                &repeated(&[LOCK, 1], 16),
                &[NEW, CALL, 1, 2],
                &repeated(&[END], 17),
            ]),
        ),
        None,
    );

    // NEW and FORK.
    put("8 NEW", one(&joined(&[&[NEW; 8], &[END]])), None);
    put(
        "9 NEW",
        one(&joined(&[&[NEW; 9], &[END]])),
        Some(refusal::TOO_MANY),
    );
    put(
        "8 NEW in each of two routines",
        assemble(&[0, 0], &joined(&[&[NEW; 8], &[END], &[NEW; 8], &[END]])),
        None,
    );
    put(
        "9 NEW over two alternatives",
        one(&joined(&[&[CHOICE], &[NEW; 8], &[OTHER, NEW, END, END]])),
        Some(refusal::TOO_MANY),
    );
    put(
        "the most FORK",
        one(&joined(&[&repeated(&[FORK, END], most_forks), &[END]])),
        None,
    );
    put(
        "one FORK more than the most",
        one(&joined(&[&repeated(&[FORK, END], most_forks + 1), &[END]])),
        Some(refusal::TOO_MANY),
    );
    put(
        "8 NEW and 8 FORK",
        one(&joined(&[&repeated(&[NEW, FORK, END], 8), &[END]])),
        None,
    );
    put(
        "a ninth NEW at depth 16",
        two(
            1,
            &joined(&[&repeated(&[LOCK, 1], 16), &[NEW; 9], &repeated(&[END], 17)]),
        ),
        Some(refusal::TOO_MANY),
    );
    put(
        "one FORK more than the most, at depth 15",
        two(
            1,
            &joined(&[
                &repeated(&[FORK, END], most_forks),
                &repeated(&[LOCK, 1], 15),
                &[FORK],
            ]),
        ),
        Some(refusal::TOO_MANY),
    );

    // The routine byte.
    put(
        "CALL without a routine byte",
        one(&[CALL]),
        Some(refusal::BAD_ROUTINE),
    );
    put(
        "CALL of routine n",
        one(&[CALL, 1, END]),
        Some(refusal::BAD_ROUTINE),
    );
    put(
        "CALL of routine 255",
        one(&[CALL, 255, END]),
        Some(refusal::BAD_ROUTINE),
    );
    put("CALL of routine 0", one(&[CALL, 0, END]), None);
    put(
        "CALL of routine 63 of 64",
        assemble(&[0; 64], &joined(&[&[CALL, 63], &repeated(&[END], 64)])),
        None,
    );
    put(
        "CALL of routine 64 of 64",
        assemble(&[0; 64], &joined(&[&[CALL, 64], &repeated(&[END], 64)])),
        Some(refusal::BAD_ROUTINE),
    );

    // Names.
    put(
        "LOCK without a name byte",
        one(&[LOCK]),
        Some(refusal::BAD_NAME),
    );
    put(
        "LOCK of name 0",
        two(1, &[LOCK, 0, END, END]),
        Some(refusal::BAD_NAME),
    );
    put("LOCK of name k", two(7, &[LOCK, 7, END, END]), None);
    put(
        "LOCK of name k + 1",
        two(7, &[LOCK, 8, END, END]),
        Some(refusal::BAD_NAME),
    );
    put(
        "LOCK of name 255",
        two(7, &[LOCK, 255, END, END]),
        Some(refusal::BAD_NAME),
    );
    put(
        "LOCK of name 15",
        two(7, &joined(&[&[NEW; 8], &[LOCK, 15, END, END]])),
        None,
    );
    put(
        "LOCK of name 16",
        two(7, &joined(&[&[NEW; 8], &[LOCK, 16, END, END]])),
        Some(refusal::BAD_NAME),
    );
    put(
        "a local before its NEW",
        one(&[LOCK, 1, END, NEW, END]),
        Some(refusal::BAD_NAME),
    );
    put(
        "a local after the block that holds it",
        one(&[FORK, NEW, LOCK, 1, END, END, LOCK, 1, END, END]),
        Some(refusal::BAD_NAME),
    );
    put(
        "a local of the first alternative in the second",
        one(&[CHOICE, NEW, OTHER, LOCK, 1, END, END, END]),
        Some(refusal::BAD_NAME),
    );
    put(
        "a local of the second alternative after the choice",
        one(&[CHOICE, OTHER, NEW, END, LOCK, 1, END, END]),
        Some(refusal::BAD_NAME),
    );
    put(
        "a local outside a fork, used in it",
        one(&[NEW, FORK, LOCK, 1, END, END, END]),
        None,
    );
    put(
        "numbers of locals out of scope are not used again",
        one(&[
            CHOICE, NEW, OTHER, NEW, LOCK, 2, END, END, NEW, LOCK, 3, END, END,
        ]),
        None,
    );
    put(
        "the number of a local out of scope",
        one(&[CHOICE, NEW, OTHER, NEW, LOCK, 1, END, END, END]),
        Some(refusal::BAD_NAME),
    );
    put(
        "a local of the routine before",
        assemble(&[0, 0], &[NEW, END, LOCK, 1, END, END]),
        Some(refusal::BAD_NAME),
    );
    put(
        "CALL with 7 names, one repeated",
        assemble(&[0, 7], &[NEW, NEW, CALL, 1, 1, 2, 1, 2, 1, 1, 1, END, END]),
        None,
    );
    put(
        "CALL with a bad last name",
        assemble(&[0, 7], &[NEW, NEW, CALL, 1, 1, 2, 1, 2, 1, 1, 3, END, END]),
        Some(refusal::BAD_NAME),
    );
    put(
        "CALL with its last name missing",
        assemble(&[0, 7], &[NEW, NEW, CALL, 1, 1, 2, 1, 2, 1, 1]),
        Some(refusal::BAD_NAME),
    );
    put(
        "CALL with no name byte",
        assemble(&[0, 1], &[NEW, CALL, 1]),
        Some(refusal::BAD_NAME),
    );

    // After the last body.
    put(
        "a byte after the body",
        one(&[END, END]),
        Some(refusal::BYTES_LEFT),
    );
    put(
        "an unknown code after the last body",
        assemble(&[0, 0], &[END, END, 255]),
        Some(refusal::BYTES_LEFT),
    );
    all
}

#[cfg(test)]
mod tests {
    use super::*;
    use crate::model::reached;
    use crate::table::{read, Block, Item, Table};
    use crate::{check, limits::READ_LIMIT};
    use std::collections::{BTreeMap, BTreeSet};

    #[test]
    fn boundary_tables_come_out_as_said() {
        for boundary in boundaries() {
            assert_eq!(
                check(&boundary.table).err(),
                boundary.refusal,
                "{}",
                boundary.what
            );
        }
    }

    #[test]
    fn boundary_tables_touch_every_refusal_of_the_check() {
        let all = boundaries();
        for number in refusal::EMPTY..=refusal::BYTES_LEFT {
            assert!(all.iter().any(|boundary| boundary.refusal == Some(number)));
        }
    }

    #[test]
    fn a_seed_gives_the_same_tables_again() {
        for index in 0..200 {
            assert_eq!(random(7, index), random(7, index));
        }
        assert_ne!(random(7, 0), random(8, 0));
    }

    #[test]
    fn random_tables_are_of_every_kind() {
        let mut met = [0; KINDS.len()];
        for index in 0..2_000 {
            met[random(1, index).0 as usize] += 1;
        }
        assert!(met.iter().all(|&count| count >= 5), "{met:?}");
    }

    #[test]
    fn undamaged_tables_are_valid() {
        let mut rng = Rng::new(1);
        for _ in 0..500 {
            for kind in [
                Kind::Small,
                Kind::Deep,
                Kind::Wide,
                Kind::Tangle,
                Kind::Nested,
                Kind::Mixed,
                Kind::Mirrors,
                Kind::LargeMirrors,
                Kind::HeldMirrors,
            ] {
                let table = of_kind(&mut rng, kind);
                assert!(check(&table).is_ok(), "{kind:?} {table:?}");
            }
        }
    }

    #[test]
    fn full_tables_are_valid_and_full() {
        let mut rng = Rng::new(1);
        let mut largest = 0;
        for _ in 0..200 {
            let table = of_kind(&mut rng, Kind::Full);
            let (routines, _) = check(&table).expect("valid");
            assert!(table.len() - routines - 3 > MAX_SECTION - 3);
            largest = largest.max(table.len());
        }
        assert!(largest < READ_LIMIT);
    }

    #[test]
    fn random_tables_reach_every_depth_and_count() {
        let (mut open, mut locals, mut forks) = (0, 0, 0);
        for index in 0..2000 {
            let Ok(table) = read(&random(1, index).1) else {
                continue;
            };
            for routine in &table.routines {
                let (mut depth, mut local, mut fork) = (0i32, 0, 0);
                for item in &routine.items {
                    match item {
                        Item::Lock { .. } | Item::Choice => depth += 1,
                        Item::Fork => {
                            depth += 1;
                            fork += 1;
                        }
                        Item::New | Item::Mirror { .. } => local += 1,
                        Item::End => depth -= 1,
                        Item::Other | Item::Call { .. } => {}
                    }
                    open = open.max(depth);
                }
                locals = locals.max(local);
                forks = forks.max(fork);
            }
        }
        assert_eq!((open, locals, forks), (16, MAX_LOCALS, MAX_FORK));
    }

    /// Where a table has a LOCK that its thread's nest passes over although another
    /// lock was taken since, and a LOCK that only the nest of a parent would pass over.
    #[derive(Clone, Copy, Default)]
    struct Nesting {
        anywhere: bool,
        sixteenth_block: bool,
        first_alternative: bool,
        second_alternative: bool,
        fork_in_lock: bool,
        name_of_parent: bool,
    }

    impl Nesting {
        fn of(table: &Table) -> Nesting {
            let mut found = Nesting::default();
            for routine in &table.routines {
                // A nest goes by the locks.
                let routine = routine.renamed(&routine.roots());
                routine.walk(|item, open| {
                    if let Item::Lock { name } = item {
                        found.see(*name, open);
                    }
                });
            }
            found
        }

        /// Looks at a LOCK inside these blocks.
        fn see(&mut self, name: u8, open: &[Block]) {
            let is_lock = |block: &Block| matches!(block, Block::Lock(_));
            let fork = open
                .iter()
                .rposition(|block| matches!(block, Block::Fork(_)));
            let (parents, own) = open.split_at(fork.map_or(0, |at| at + 1));
            match own.iter().position(|&block| block == Block::Lock(name)) {
                Some(at) => {
                    let since = &own[at + 1..];
                    if since.iter().any(|b| is_lock(b) && *b != Block::Lock(name)) {
                        self.anywhere = true;
                        self.sixteenth_block |= open.len() == MAX_OPEN;
                        self.first_alternative |= since.contains(&Block::First);
                        self.second_alternative |= since.contains(&Block::Second);
                        self.fork_in_lock |= parents.iter().any(is_lock);
                    }
                }
                // Only where something is held is there a pair to lose.
                None => {
                    self.name_of_parent |=
                        parents.contains(&Block::Lock(name)) && own.iter().any(is_lock);
                }
            }
        }
    }

    #[test]
    fn random_tables_take_names_again_in_every_place() {
        let all: Vec<Nesting> = (0..4_000)
            .filter_map(|index| read(&random(1, index).1).ok())
            .map(|table| Nesting::of(&table))
            .collect();
        // In a hundred of the accepted tables.
        let share = |has: fn(&Nesting) -> bool| {
            100 * all.iter().filter(|nesting| has(nesting)).count() / all.len()
        };
        assert!(share(|nesting| nesting.anywhere) >= 50);
        assert!(share(|nesting| nesting.sixteenth_block) >= 4);
        assert!(share(|nesting| nesting.first_alternative) >= 15);
        assert!(share(|nesting| nesting.second_alternative) >= 6);
        assert!(share(|nesting| nesting.fork_in_lock) >= 12);
        assert!(share(|nesting| nesting.name_of_parent) >= 15);
    }

    /// What an accepted table does with mirrors.
    fn uses_of_mirrors(table: &Table) -> BTreeSet<&'static str> {
        let mut uses = BTreeSet::new();
        for routine in &table.routines {
            let roots = routine.roots();
            let root = |name: &u8| roots[*name as usize];
            let is_mirror = |name: &u8| root(name) != *name;
            let mut locals = 0;
            let mut mirrors = 0;
            routine.walk(|item, open| match item {
                Item::New => locals += 1,
                Item::Mirror { name } => {
                    locals += 1;
                    mirrors += 1;
                    uses.insert("any");
                    uses.extend(is_mirror(name).then_some("of a mirror"));
                    uses.extend((*name <= routine.parameters).then_some("of a parameter"));
                    uses.extend((open.len() > 1).then_some("in a block"));
                }
                Item::Lock { name } => {
                    uses.extend(is_mirror(name).then_some("locked"));
                    let other_name = |block: &Block| {
                        matches!(block, Block::Lock(held) if held != name && root(held) == root(name))
                    };
                    let around = open.iter().any(other_name);
                    uses.extend(around.then_some("locked in its lock"));
                    let fork = open.iter().rposition(|block| matches!(block, Block::Fork(_)));
                    let (parents, own) = open.split_at(fork.map_or(0, |at| at + 1));
                    let in_parent = parents.iter().any(other_name) && !own.iter().any(other_name);
                    uses.extend(in_parent.then_some("locked in its parent's lock"));
                    let other_lock = |block: &Block| {
                        matches!(block, Block::Lock(held) if root(held) != root(name))
                    };
                    let since = own.iter().position(other_name).map(|at| &own[at..]);
                    let between = since.is_some_and(|since| since.iter().any(other_lock));
                    uses.extend(between.then_some("locked with another between"));
                }
                Item::Call { names, .. } => {
                    uses.extend(names.iter().any(is_mirror).then_some("passed"));
                    let locks: BTreeSet<u8> = names.iter().map(root).collect();
                    let written: BTreeSet<u8> = names.iter().copied().collect();
                    uses.extend((locks.len() < written.len()).then_some("passed with its lock"));
                }
                _ => {}
            });
            uses.extend((locals == MAX_LOCALS && mirrors > 0).then_some("an eighth local"));
        }
        uses
    }

    #[test]
    fn random_tables_use_mirrors_in_every_way() {
        const ALL: usize = 4_000;
        let mut met = BTreeMap::new();
        for index in 0..ALL {
            if let Ok(table) = read(&random(1, index as u64).1) {
                for what in uses_of_mirrors(&table) {
                    *met.entry(what).or_insert(0) += 1;
                }
            }
        }
        // In a hundred of all tables.
        for (what, least) in [
            ("any", 36),
            ("of a mirror", 20),
            ("of a parameter", 15),
            ("in a block", 20),
            ("locked", 25),
            ("locked in its lock", 15),
            ("locked in its parent's lock", 3),
            ("locked with another between", 12),
            ("passed", 10),
            ("passed with its lock", 5),
            ("an eighth local", 5),
        ] {
            let count = met.get(what).unwrap_or(&0);
            assert!(100 * count >= least * ALL, "{what}: {count}");
        }
    }

    #[test]
    fn bad_tables_with_mirrors_are_refused_for_them() {
        let mut rng = Rng::new(1);
        let (mut too_many, mut bad_name) = (0, 0);
        for _ in 0..1_000 {
            match check(&of_kind(&mut rng, Kind::BadMirrors)) {
                Err(refusal::TOO_MANY) => too_many += 1,
                Err(refusal::BAD_NAME) => bad_name += 1,
                _ => {}
            }
        }
        assert!(too_many >= 100, "{too_many}");
        assert!(bad_name >= 150, "{bad_name}");
    }

    #[test]
    fn mixed_tables_reach_any_number_of_routines() {
        let mut rng = Rng::new(1);
        let mut met = BTreeSet::new();
        let (mut all, mut none_but_routine_0) = (0, 0);
        for _ in 0..1_000 {
            let table = read(&of_kind(&mut rng, Kind::Mixed)).expect("valid");
            let (routines, reached) = (table.routines.len(), reached(&table).len());
            all += usize::from(routines > 1 && reached == routines);
            none_but_routine_0 += usize::from(routines > 1 && reached == 1);
            met.insert(reached);
        }
        assert!(all >= 200, "{all}");
        assert!(none_but_routine_0 >= 50, "{none_but_routine_0}");
        assert!(met.len() >= 45 && met.contains(&MAX_ROUTINES), "{met:?}");
    }

    #[test]
    fn damaged_and_arbitrary_tables_meet_every_refusal_of_the_check() {
        let mut met = [0; 15];
        for index in 0..20_000 {
            if let Err(number) = check(&random(1, index).1) {
                met[number as usize] += 1;
            }
        }
        // 5 needs a large count, which the body count's high byte gives.
        for (number, count) in met.iter().enumerate().skip(1) {
            assert!(*count > 0, "refusal {number} was not met");
        }
    }
}
