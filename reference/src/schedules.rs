//! Inputs for the program `desk`: random tables, and schedules made by running them.

use std::collections::BTreeSet;

use crate::cases::{rules, worked, Case};
use crate::desk::{parts, Parts};
use crate::generate::{assemble, boundaries, random, Rng};
use crate::limits::code::{CALL, CHOICE, END, FORK, LOCK, MIRROR, NEW, OTHER};
use crate::limits::{refusal, MAX_FORK, MAX_RUN_LOCKS, MAX_RUN_OPEN};
use crate::limits::{MAX_SCHEDULE, MAX_THREADS, SECOND_FROM};
use crate::runner::{run_watched, thread_of, Answer, Limit, Outcome, Program, State, Turn};
use crate::table::{self, Item, Routine};

/// The sorts of random inputs.
#[derive(Clone, Copy, Debug, PartialEq, Eq, PartialOrd, Ord)]
pub enum Sort {
    /// A table of `generate`, of any kind.
    Generated,
    /// A worked table, or one for a rule.
    Worked,
    /// A boundary table, most of which are refused.
    Boundary,
    /// Up to four threads and more that nest the same locks, each in its own order.
    Opposite,
    /// The same with mirrors.
    Mirrored,
    /// Calls that go on into themselves, towards the most open blocks and calls.
    Deep,
    /// A thread with the most open blocks and calls that has to wait.
    DeepWaiting,
    /// Forks again and again, towards the most threads.
    Forking,
    /// NEW again and again, towards the most locks.
    Locking,
    /// Calls that branch, so that a run goes on for long.
    Branching,
    /// A schedule about as long as the most that is read.
    Longest,
    /// Any of the others, cut off or changed; or arbitrary bytes.
    Cut,
}

/// Every so many inputs one has a schedule of the most bytes.
const LONGEST_EVERY: u64 = 256;

/// Input number `index` of a seed, with its sort.
pub fn input(seed: u64, index: u64) -> (Sort, Vec<u8>) {
    let mut rng = Rng::indexed(seed, index);
    let sort = match rng.below(100) {
        _ if index % LONGEST_EVERY == LONGEST_EVERY / 2 => Sort::Longest,
        0..=17 => Sort::Generated,
        18..=22 => Sort::Worked,
        23..=29 => Sort::Boundary,
        30..=45 => Sort::Opposite,
        46..=57 => Sort::Mirrored,
        58..=68 => Sort::Deep,
        69 => Sort::DeepWaiting,
        70..=81 => Sort::Forking,
        82..=91 => Sort::Locking,
        92..=94 => Sort::Branching,
        _ => Sort::Cut,
    };
    let stdin = of_sort(&mut rng, sort);
    (sort, stdin)
}

/// A random input of one sort.
pub fn of_sort(rng: &mut Rng, sort: Sort) -> Vec<u8> {
    if sort == Sort::Cut {
        return cut(rng);
    }
    let table = table_of(rng, sort);
    let lent = match sort {
        Sort::Longest => MAX_THREADS as u8,
        _ => lent(rng),
    };
    let guide = Guide::of_sort(rng, sort);
    let schedule = schedule(rng, &table, lent, &guide);
    encode(lent, &table, &schedule)
}

/// The input of these parts.
pub fn encode(lent: u8, table: &[u8], schedule: &[u8]) -> Vec<u8> {
    let length = u16::try_from(table.len()).expect("a length of two bytes");
    let mut stdin = vec![lent];
    stdin.extend(length.to_le_bytes());
    stdin.extend(table);
    stdin.extend(schedule);
    stdin
}

/// How many records to lend: most often enough, at times too few, none or too many.
fn lent(rng: &mut Rng) -> u8 {
    match rng.below(100) {
        0..=64 => MAX_THREADS as u8,
        65..=94 => *pick(rng, &[0, 1, 2, 3, 4, 15, 17, 255]),
        _ => rng.byte(),
    }
}

/// Any of these.
pub(crate) fn pick<'a, T>(rng: &mut Rng, all: &'a [T]) -> &'a T {
    &all[rng.below(all.len())]
}

/// An input that is cut off, has another length of its table, or is arbitrary.
fn cut(rng: &mut Rng) -> Vec<u8> {
    let sorts = [Sort::Generated, Sort::Worked, Sort::Opposite, Sort::Forking];
    let sort = *pick(rng, &sorts);
    let mut stdin = of_sort(rng, sort);
    match rng.below(11) {
        0..=2 => stdin.truncate(rng.below(4)),
        3..=5 => stdin.truncate(rng.below(stdin.len() + 1)),
        6 | 7 => {
            // The table ends elsewhere, or beyond the input.
            let at = rng.between(1, 2);
            stdin[at] = rng.byte();
        }
        8 => {
            let length = rng.between(1, 40);
            stdin = rng.bytes(length);
        }
        9 => {
            // The high byte of the body count.
            let routines = stdin.get(3).map_or(0, |&n| n as usize);
            if let Some(high) = stdin.get_mut(3 + 1 + routines + 1) {
                *high = rng.byte();
            }
        }
        _ => {
            let at = rng.below(stdin.len());
            stdin[at] = rng.byte();
        }
    }
    stdin
}

// Tables.

/// A random table of one sort.
pub fn table_of(rng: &mut Rng, sort: Sort) -> Vec<u8> {
    match sort {
        Sort::Generated | Sort::Cut => random(rng.draw(), 0).1,
        Sort::Worked => {
            let cases: Vec<Case> = worked().into_iter().chain(rules()).collect();
            pick(rng, &cases).table.clone()
        }
        Sort::Boundary => loop {
            // A few are longer than two bytes can say.
            let all = boundaries();
            let table = &pick(rng, &all).table;
            if u16::try_from(table.len()).is_ok() {
                return table.clone();
            }
        },
        Sort::Opposite => opposite(rng, false),
        Sort::Mirrored => opposite(rng, true),
        Sort::Deep => deep(rng),
        Sort::DeepWaiting => deep_waiting(rng),
        Sort::Forking => forking(rng),
        Sort::Locking => locking(rng),
        Sort::Branching | Sort::Longest => branching(rng),
    }
}

/// LOCK blocks one in another, with these items in the innermost one.
pub(crate) fn nest(names: &[u8], inside: &[u8]) -> Vec<u8> {
    let mut items: Vec<u8> = names.iter().flat_map(|&name| [LOCK, name]).collect();
    items.extend(inside);
    items.extend(names.iter().map(|_| END));
    items
}

/// These items in a fork.
pub(crate) fn fork(items: &[u8]) -> Vec<u8> {
    [&[FORK], items, &[END]].concat()
}

/// A choice of these items.
pub(crate) fn choice(first: &[u8], second: &[u8]) -> Vec<u8> {
    [&[CHOICE], first, &[OTHER], second, &[END]].concat()
}

/// A CALL with these names.
pub(crate) fn call(routine: u8, names: &[u8]) -> Vec<u8> {
    [&[CALL, routine], names].concat()
}

/// A table of routines, each with its parameter count and its items up to the last END.
fn routines(all: &[(u8, Vec<u8>)]) -> Vec<u8> {
    let counts: Vec<u8> = all.iter().map(|(count, _)| *count).collect();
    let bodies: Vec<u8> = all
        .iter()
        .flat_map(|(_, items)| items.iter().copied().chain([END]))
        .collect();
    assemble(&counts, &bodies)
}

/// Threads that nest the same locks, in orders of their own.
fn opposite(rng: &mut Rng, mirrors: bool) -> Vec<u8> {
    let locks = rng.between(2, 4);
    let mut main = vec![NEW; locks];
    // The names that each lock has.
    let mut names: Vec<Vec<u8>> = (1..=locks as u8).map(|name| vec![name]).collect();
    if mirrors {
        for mirror in 0..rng.between(1, 4) {
            let lock = rng.below(locks);
            main.extend([MIRROR, *pick(rng, &names[lock])]);
            names[lock].push((locks + mirror) as u8 + 1);
        }
    }
    let mut threads: Vec<Vec<u8>> = (0..rng.between(1, 4))
        .map(|at| in_order(rng, &names, at))
        .collect();
    let own = threads.pop().expect("the main thread");
    if rng.chance(30) {
        // Each fork starts the next one.
        let chain = threads
            .iter()
            .fold(vec![], |inside, own| fork(&[&inside, &own[..]].concat()));
        main.extend(chain);
    } else {
        main.extend(threads.iter().flat_map(|own| fork(own)));
    }
    main.extend(&own);
    if rng.chance(20) {
        main.extend(own);
    }
    routines(&[
        (0, main),
        (2, nest(&[1, 2], &[])),
        (2, by_parameters(mirrors)),
        (
            2,
            [fork(&nest(&[1, 2], &[])), nest(&[2, 1], &[NEW])].concat(),
        ),
        (0, [vec![NEW], nest(&[1], &[])].concat()),
    ])
}

/// A routine that takes a parameter by three names; without mirrors, by one.
fn by_parameters(mirrors: bool) -> Vec<u8> {
    if mirrors {
        // 3 and 5 are mirrors of parameter 1, and 4 is a lock between them.
        [vec![MIRROR, 1, NEW, MIRROR, 3], nest(&[5, 2, 3, 1, 4], &[])].concat()
    } else {
        nest(&[1, 2, 1], &[])
    }
}

/// What one thread takes: two or more of the locks, round from lock `at`.
fn in_order(rng: &mut Rng, names: &[Vec<u8>], at: usize) -> Vec<u8> {
    let mut order: Vec<usize> = (0..names.len())
        .map(|step| (at + step) % names.len())
        .collect();
    order.truncate(rng.between(2, names.len()));
    if rng.chance(25) {
        order.reverse();
    }
    let mut taken: Vec<u8> = order.iter().map(|&lock| *pick(rng, &names[lock])).collect();
    let inside = match rng.below(8) {
        0 | 1 => {
            // A called routine takes the last two.
            let last = taken.split_off(taken.len() - 2);
            call(rng.between(1, 3) as u8, &last)
        }
        2 => {
            let lock = taken[rng.below(taken.len())];
            call(rng.between(1, 2) as u8, &[lock, lock])
        }
        3 => {
            // The first lock once more, by any of its names.
            nest(&[*pick(rng, &names[order[0]])], &[])
        }
        4 => {
            let last = taken.split_off(1);
            let other: Vec<u8> = last.iter().rev().copied().collect();
            choice(&nest(&last, &[]), &nest(&other, &[]))
        }
        // A lock of its own, made by a call: a routine has few locals.
        5 => choice(&call(4, &[]), &[]),
        _ => vec![],
    };
    nest(&taken, &inside)
}

/// Routines that call themselves or each other, with blocks between the calls.
fn deep(rng: &mut Rng) -> Vec<u8> {
    let again = if rng.chance(30) { 2 } else { 1 };
    let passed = *pick(rng, &[[1, 2], [2, 1], [1, 1]]);
    let mut level = call(again, &passed);
    let without_choice = rng.chance(20);
    let blocks = rng.below(4);
    for block in 0..blocks {
        level = match rng.below(3) {
            0 if !without_choice => choice(&level, &last_level(rng)),
            _ if block + 1 == blocks && !without_choice => choice(&level, &last_level(rng)),
            1 => nest(&[2], &level),
            _ => nest(&[1], &level),
        };
    }
    // Steps that open nothing, so that they fit where nothing else does.
    for _ in 0..rng.below(3) {
        let before: &[u8] = match rng.below(12) {
            0 => &[NEW],
            1 => &[FORK, LOCK, 1, END, END],
            _ => &[MIRROR, 1],
        };
        level.splice(0..0, before.iter().copied());
    }
    let mut start = call(1, &[1, 2]);
    for _ in 0..rng.below(4) {
        start = match rng.below(3) {
            0 => choice(&start, &[]),
            1 => nest(&[1], &start),
            _ => nest(&[2], &start),
        };
    }
    let main = match rng.below(4) {
        0 | 1 => start,
        2 => fork(&start),
        _ => [fork(&start), start].concat(),
    };
    let second = match rng.below(3) {
        0 => nest(&[1], &call(1, &[2, 1])),
        1 => call(1, &[2, 2]),
        _ => [vec![MIRROR, 2], choice(&call(1, &[1, 3]), &[])].concat(),
    };
    routines(&[
        (0, [vec![NEW, NEW], main].concat()),
        (2, level),
        (2, second),
    ])
}

/// A fork that calls itself, and at last takes the lock that the main thread holds.
fn deep_waiting(rng: &mut Rng) -> Vec<u8> {
    let mut start = call(1, &[1, 2]);
    for _ in 0..rng.below(4) {
        start = choice(&start, &[]);
    }
    let long = nest(&[2], &[]).repeat(6);
    let main = [vec![NEW, NEW], fork(&start), nest(&[1], &long)].concat();
    let level = choice(&call(1, &[1, 2]), &nest(&[1], &[]));
    routines(&[(0, main), (2, level)])
}

/// What the second alternative has where the calls come to an end.
fn last_level(rng: &mut Rng) -> Vec<u8> {
    match rng.below(6) {
        0 => vec![MIRROR, 1],
        1 => nest(&[1], &[]),
        2 => nest(&[1, 2], &[]),
        3 => vec![NEW],
        _ => vec![],
    }
}

/// Forks in a row, and in calls.
fn forking(rng: &mut Rng) -> Vec<u8> {
    let mut inside = || match rng.below(9) {
        0 | 1 => vec![],
        2 => nest(&[1], &[]),
        3 => nest(&[1, 2], &[]),
        4 => nest(&[2, 1], &[]),
        _ => choice(&nest(&[1], &[]), &nest(&[2], &[])),
    };
    let bodies = [inside(), inside(), inside()];
    let again = call(1, &[1, 2]);
    let head = vec![NEW, NEW];
    match rng.below(7) {
        0 | 5 | 6 => {
            // Often exactly as many as a run may start beside the main thread.
            let exact = MAX_THREADS - 1;
            let all = *pick(rng, &[exact - 2, exact - 1, exact, exact, exact, exact + 1]);
            let called = rng.between(all - MAX_FORK as usize, MAX_FORK as usize);
            let row = |count: usize| fork(&bodies[0]).repeat(count);
            let main = [head, row(all - called), again, bodies[1].clone()].concat();
            routines(&[(0, main), (2, row(called))])
        }
        shape => {
            let level = match shape {
                // One thread starts all others.
                1 => [fork(&bodies[0]), choice(&again, &bodies[1])].concat(),
                // Each thread starts the next.
                2 => choice(&[fork(&again), bodies[0].clone()].concat(), &bodies[1]),
                // The same, without an end.
                3 => [fork(&again), bodies[0].clone()].concat(),
                // Each thread starts two.
                _ => choice(
                    &[fork(&again), fork(&again), bodies[0].clone()].concat(),
                    &bodies[1],
                ),
            };
            let main = [head, again, bodies[2].clone()].concat();
            routines(&[(0, main), (2, level)])
        }
    }
}

/// NEW in calls that follow each other, or stand in each other.
fn locking(rng: &mut Rng) -> Vec<u8> {
    // About as many locks as a run may make.
    let all = rng.between(MAX_RUN_LOCKS - 3, MAX_RUN_LOCKS + 2);
    match rng.below(4) {
        0 => {
            let each = rng.between(4, 8);
            let newest = nest(&[each as u8], &[]);
            let made = [vec![NEW; each], newest].concat();
            let mut calls: Vec<Vec<u8>> = vec![call(1, &[]); all / each];
            if rng.chance(40) {
                let at = rng.below(calls.len());
                calls[at] = fork(&calls[at]);
            }
            let main = [vec![NEW; all % each], calls.concat()].concat();
            routines(&[(0, main), (0, made)])
        }
        1 => {
            // The newest lock goes on into the next call, and may be held.
            let each = rng.between(3, 6);
            let newest = each as u8 + 1;
            let again = choice(&call(1, &[newest]), &nest(&[1], &[]));
            let inside = match rng.below(3) {
                0 => nest(&[newest], &again),
                1 => nest(&[1], &again),
                _ => again,
            };
            let main = [vec![NEW], call(1, &[1])].concat();
            routines(&[(0, main), (1, [vec![NEW; each], inside].concat())])
        }
        2 => {
            // Each routine calls the next one twice, the last one has the NEW items.
            let levels = rng.between(3, 5);
            let each = MAX_RUN_LOCKS >> levels;
            let extra = rng.below(3);
            let mut bodies = vec![(0, [vec![NEW; extra], call(1, &[])].concat())];
            bodies.extend((1..=levels).map(|level| {
                let next = call(level as u8 + 1, &[]);
                (0, next.repeat(2))
            }));
            bodies.push((0, [vec![NEW; each], nest(&[each as u8], &[])].concat()));
            routines(&bodies)
        }
        _ => {
            // Threads beside each other.
            let each = rng.between(7, 8);
            let threads = all / each;
            let made = fork(&call(1, &[]));
            let forks = threads.min(MAX_FORK as usize);
            let row = [
                made.repeat(forks),
                call(1, &[]).repeat(threads - forks),
                vec![NEW; all % each],
            ];
            let newest = nest(&[each as u8, 1], &[]);
            routines(&[(0, row.concat()), (0, [vec![NEW; each], newest].concat())])
        }
    }
}

/// Routines that each call the next one twice: few are open at a time, and steps are many.
fn branching(rng: &mut Rng) -> Vec<u8> {
    let levels = rng.between(14, 24);
    let (low, high) = (nest(&[1], &[]), nest(&[1, 2], &[]));
    let leaf = pick(rng, &[vec![], low, high]).clone();
    let mut bodies = vec![];
    let start = call(1, &[1, 2]);
    let threads = fork(&start).repeat(rng.below(4));
    bodies.push((0, [vec![NEW, NEW], threads, start].concat()));
    for level in 1..=levels {
        let next = call(level as u8 + 1, &[1, 2]);
        let items = match rng.below(8) {
            0 => [choice(&next, &[]), next].concat(),
            1 => [nest(&[1], &next), next].concat(),
            2 => [vec![MIRROR, 1], next.repeat(2)].concat(),
            _ => next.repeat(2),
        };
        bodies.push((2, items));
    }
    bodies.push((2, leaf));
    routines(&bodies)
}

// Schedules.

/// How the bytes of a schedule are chosen.
pub struct Guide {
    pub choose: Choose,
    pub alternative: Alternative,
    /// In a hundred: how often a byte is for a thread that waits or has ended.
    pub idle: usize,
    /// Where the byte is for a thread that is not there.
    pub stray: Option<usize>,
    /// Most bytes.
    pub length: usize,
}

/// Which of the threads that can step has the next byte.
#[derive(Clone, Copy)]
pub enum Choose {
    Any,
    /// The one that had the last byte, most of the time.
    Same,
    /// The one that came last, most of the time.
    Newest,
    /// One that gives nothing back, and of those one that holds little: so that threads
    /// come to wait for each other.
    Holding,
}

/// Which alternative is taken.
#[derive(Clone, Copy)]
pub enum Alternative {
    /// The first so many times in a hundred.
    First(usize),
    /// The first while less than this is open in the thread.
    UntilOpen(usize),
    /// The first while there are fewer threads.
    UntilThreads(usize),
    /// The first while there are fewer locks.
    UntilLocks(usize),
}

impl Guide {
    /// A guide that seeks threads which wait.
    pub fn to_wait(rng: &mut Rng) -> Guide {
        Guide {
            choose: *pick(rng, &[Choose::Holding, Choose::Holding, Choose::Any]),
            alternative: Alternative::First(*pick(rng, &[0, 20, 50, 80, 100])),
            idle: *pick(rng, &[0, 10]),
            stray: None,
            length: 600,
        }
    }

    fn of_sort(rng: &mut Rng, sort: Sort) -> Guide {
        let mostly = *pick(rng, &[0, 5, 50, 90, 97, 100]);
        let mut guide = Guide {
            choose: *pick(
                rng,
                &[Choose::Any, Choose::Same, Choose::Newest, Choose::Holding],
            ),
            alternative: Alternative::First(mostly),
            idle: *pick(rng, &[0, 0, 0, 5, 30, 90]),
            stray: rng.chance(12).then(|| {
                let most = rng.between(1, 60);
                rng.below(most)
            }),
            length: match rng.below(100) {
                0..=3 => 0,
                4..=15 => rng.between(1, 12),
                16..=25 => rng.between(13, 80),
                26..=97 => 500,
                _ => 3_000,
            },
        };
        match sort {
            Sort::Opposite | Sort::Mirrored if rng.chance(40) => guide.choose = Choose::Holding,
            Sort::Deep if rng.chance(60) => {
                guide.choose = *pick(rng, &[Choose::Same, Choose::Newest]);
                let open = rng.between(MAX_RUN_OPEN - 4, MAX_RUN_OPEN + 1);
                guide.alternative = Alternative::UntilOpen(open);
            }
            Sort::DeepWaiting => {
                guide.choose = Choose::Newest;
                let open = rng.between(MAX_RUN_OPEN - 2, MAX_RUN_OPEN - 1);
                guide.alternative = Alternative::UntilOpen(open);
                guide.idle = 30;
            }
            Sort::Forking if rng.chance(50) => {
                let threads = rng.between(MAX_THREADS - 4, MAX_THREADS + 1);
                guide.alternative = Alternative::UntilThreads(threads);
            }
            Sort::Forking => guide.alternative = Alternative::First(50),
            Sort::Locking if rng.chance(60) => {
                let locks = rng.between(MAX_RUN_LOCKS - 6, MAX_RUN_LOCKS + 1);
                guide.alternative = Alternative::UntilLocks(locks);
            }
            Sort::Branching => guide.length = rng.between(1_000, 5_000),
            Sort::Longest => {
                guide.length = rng.between(MAX_SCHEDULE - 1, MAX_SCHEDULE + 2);
                guide.stray = None;
            }
            _ => {}
        }
        guide
    }

    /// The next byte; there is a thread that can step.
    fn byte(&self, rng: &mut Rng, state: &State, read: usize, last: usize) -> u8 {
        if self.stray == Some(read) && state.started() < MAX_THREADS {
            let lowest = state.started();
            let any = rng.between(lowest, MAX_THREADS - 1);
            let thread = *pick(rng, &[lowest, MAX_THREADS - 1, any]);
            return byte_of(rng, thread, true);
        }
        let all = 0..state.started();
        let still =
            |thread: usize| state.next_item(thread).is_none() || state.waits(thread).is_some();
        let (idle, can_step): (Vec<usize>, Vec<usize>) = all.partition(|&thread| still(thread));
        if !idle.is_empty() && rng.chance(self.idle) {
            let (thread, first) = (*pick(rng, &idle), rng.chance(50));
            return byte_of(rng, thread, first);
        }
        let thread = match self.choose {
            Choose::Same if can_step.contains(&last) && rng.chance(97) => last,
            Choose::Newest if rng.chance(90) => *can_step.last().expect("a thread"),
            Choose::Holding if rng.chance(95) => *can_step
                .iter()
                .min_by_key(|&&thread| (keeps(state, thread), rng.draw()))
                .expect("a thread"),
            _ => *pick(rng, &can_step),
        };
        let first = match self.alternative {
            Alternative::First(percent) => rng.chance(percent),
            Alternative::UntilOpen(open) => state.open(thread) < open,
            Alternative::UntilThreads(threads) => state.started() < threads,
            Alternative::UntilLocks(locks) => state.locks() < locks,
        };
        byte_of(rng, thread, first)
    }
}

/// How little a thread's next step gives back, and then how little it holds.
fn keeps(state: &State, thread: usize) -> (usize, usize) {
    let gives = match state.next_item(thread) {
        Some(Item::End | Item::Other) | None => 2,
        Some(Item::Lock { .. } | Item::Choice) => 1,
        Some(_) => 0,
    };
    (gives, state.held(thread))
}

/// A byte for a thread and an alternative, at times the one nearest to the other one.
fn byte_of(rng: &mut Rng, thread: usize, first: bool) -> u8 {
    let rows = SECOND_FROM as usize / MAX_THREADS;
    let nearest = rng.chance(60);
    let row = match (first, nearest) {
        (true, true) => rows - 1,
        (true, false) => rng.below(rows),
        (false, true) => rows,
        (false, false) => rows + rng.below(rows),
    };
    (MAX_THREADS * row + thread) as u8
}

/// A schedule for a table, by running it; with bytes behind the end of the run at times.
pub fn schedule(rng: &mut Rng, table: &[u8], lent: u8, guide: &Guide) -> Vec<u8> {
    let program = match Program::read(table) {
        Ok(program) if lent > 0 && !rng.chance(3) => program,
        _ => {
            let length = guide.length.min(rng.below(20));
            return rng.bytes(length);
        }
    };
    let mut state = State::start(&program, lent as usize);
    let mut bytes = Vec::new();
    let mut last = 0;
    while bytes.len() < guide.length && state.answer().is_none() {
        let byte = guide.byte(rng, &state, bytes.len(), last);
        last = thread_of(byte);
        bytes.push(byte);
        match state.look(byte) {
            Turn::Step => state.step(byte),
            Turn::Waiting | Turn::Over => {}
            Turn::Unstarted | Turn::Beyond(_) => break,
        }
    }
    if rng.chance(35) && bytes.len() < guide.length {
        let length = rng.between(1, 6);
        bytes.extend(rng.bytes(length));
    }
    bytes
}

// What inputs have in them.

/// All that can be said of an input: first how it comes out, then what it meets.
pub const MARKS: [&str; 46] = [
    "ended",
    "stuck",
    "open",
    "refused 1",
    "refused 2",
    "refused 3",
    "refused 4",
    "refused 5",
    "refused 6",
    "refused 7",
    "refused 8",
    "refused 9",
    "refused 10",
    "refused 11",
    "refused 12",
    "refused 13",
    "refused 14",
    "16",
    "17 without a record",
    "17 by records",
    "17 by threads",
    "17 by locks",
    "17 by open in thread 0",
    "17 by open in a fork",
    "all records used",
    "at 16 threads",
    "at 64 locks",
    "at 64 open in thread 0",
    "at 64 open in a fork",
    "waiting thread",
    "byte for a waiting thread",
    "byte for an ended thread",
    "waiting at 64 open",
    "16 at the first byte",
    "mirror",
    "mirror of a parameter",
    "mirror of a mirror",
    "held lock by a mirror",
    "one lock passed twice",
    "byte 127 at a CHOICE",
    "byte 128 at a CHOICE",
    "no schedule",
    "bytes left over",
    "1000 bytes read",
    "65536 bytes read",
    "longer than is read",
];

/// An input run by the reference: how it comes out, and what can be said of it.
pub fn marks(stdin: &[u8]) -> (Outcome, BTreeSet<&'static str>) {
    let Parts {
        lent,
        table,
        schedule,
    } = parts(stdin);
    let routines = table::read(table).map_or(vec![], |table| table.routines);
    let mut met = BTreeSet::new();
    let mut open_in_fork = false;
    let outcome = run_watched(table, schedule, lent, |state, byte| {
        let mut threads = 0..state.started();
        if threads.any(|thread| state.waits(thread).is_some()) {
            met.insert("waiting thread");
        }
        if let Some(byte) = byte {
            met.extend(turn_marks(state, byte, &routines));
            open_in_fork = thread_of(byte) != 0;
        }
    });
    met.insert(match outcome.answer {
        Answer::Ended => "ended",
        Answer::Stuck => "stuck",
        Answer::Open => "open",
        Answer::Refused(number) => refused_mark(number),
        Answer::Unstarted => "16",
        Answer::Beyond(Limit::NoRecord) => "17 without a record",
        Answer::Beyond(Limit::Records) => "17 by records",
        Answer::Beyond(Limit::Threads) => "17 by threads",
        Answer::Beyond(Limit::Locks) => "17 by locks",
        Answer::Beyond(Limit::Open) if open_in_fork => "17 by open in a fork",
        Answer::Beyond(Limit::Open) => "17 by open in thread 0",
    });
    // At a limit, and not beyond it.
    let started = outcome.threads.len();
    let within = |limit| outcome.answer != Answer::Beyond(limit);
    for (mark, is_met) in [
        (
            "all records used",
            lent < MAX_THREADS && started == lent && within(Limit::Records),
        ),
        (
            "at 16 threads",
            started == MAX_THREADS && within(Limit::Threads),
        ),
        (
            "at 64 locks",
            outcome.locks == MAX_RUN_LOCKS && within(Limit::Locks),
        ),
        (
            "16 at the first byte",
            outcome.answer == Answer::Unstarted && outcome.read == 0,
        ),
        ("no schedule", schedule.is_empty() && started > 0),
        (
            "bytes left over",
            matches!(outcome.answer, Answer::Ended | Answer::Stuck)
                && schedule.len() > outcome.read,
        ),
        ("1000 bytes read", outcome.read >= 1_000),
        ("65536 bytes read", outcome.read == MAX_SCHEDULE),
        (
            "longer than is read",
            outcome.read == MAX_SCHEDULE && stdin.len() > 3 + table.len() + MAX_SCHEDULE,
        ),
    ] {
        met.extend(is_met.then_some(mark));
    }
    (outcome, met)
}

/// What the next byte of a state meets.
fn turn_marks(state: &State, byte: u8, routines: &[Routine]) -> Vec<&'static str> {
    let thread = thread_of(byte);
    let mut met = Vec::new();
    match state.look(byte) {
        Turn::Unstarted | Turn::Beyond(_) => {}
        Turn::Over => met.push("byte for an ended thread"),
        Turn::Waiting => {
            met.push("byte for a waiting thread");
            let full = state.open(thread) == MAX_RUN_OPEN;
            met.extend(full.then_some("waiting at 64 open"));
        }
        Turn::Step => {
            if state.open(thread) == MAX_RUN_OPEN {
                met.push(match thread {
                    0 => "at 64 open in thread 0",
                    _ => "at 64 open in a fork",
                });
            }
            let routine = &routines[state.next(thread).expect("a next item").routine];
            let is_mirror = |name: u8| routine.roots()[name as usize] != name;
            match state.next_item(thread).expect("a next item") {
                Item::Mirror { name } => {
                    met.push("mirror");
                    let of_parameter = *name <= routine.parameters;
                    met.extend(of_parameter.then_some("mirror of a parameter"));
                    met.extend(is_mirror(*name).then_some("mirror of a mirror"));
                }
                Item::Lock { name } => {
                    let held = state.is_held(state.lock(thread, *name));
                    met.extend((held && is_mirror(*name)).then_some("held lock by a mirror"));
                }
                Item::Call { names, .. } => {
                    let locks = names.iter().map(|&name| state.lock(thread, name));
                    let twice = locks.collect::<BTreeSet<_>>().len() < names.len();
                    met.extend(twice.then_some("one lock passed twice"));
                }
                Item::Choice if byte == SECOND_FROM - 1 => met.push("byte 127 at a CHOICE"),
                Item::Choice if byte == SECOND_FROM => met.push("byte 128 at a CHOICE"),
                _ => {}
            }
        }
    }
    met
}

/// The mark of a refusal by the check.
fn refused_mark(number: u32) -> &'static str {
    let first = MARKS.iter().position(|&mark| mark == "refused 1");
    MARKS[first.expect("a mark") + (number - refusal::EMPTY) as usize]
}

#[cfg(test)]
mod tests {
    use super::*;
    use crate::check;
    use std::collections::BTreeMap;

    #[test]
    fn a_seed_gives_the_same_inputs_again() {
        for index in 0..200 {
            assert_eq!(input(7, index), input(7, index));
        }
        assert_ne!(input(7, 0), input(8, 0));
    }

    #[test]
    fn own_tables_are_accepted() {
        let mut rng = Rng::new(1);
        for _ in 0..2_000 {
            for sort in [
                Sort::Opposite,
                Sort::Mirrored,
                Sort::Deep,
                Sort::DeepWaiting,
                Sort::Forking,
                Sort::Locking,
                Sort::Branching,
            ] {
                let table = table_of(&mut rng, sort);
                assert!(check(&table).is_ok(), "{sort:?} {table:?}");
            }
        }
    }

    #[test]
    fn inputs_come_out_and_meet_all_that_can_be_said() {
        let mut met = BTreeMap::new();
        for index in 0..5_000 {
            for mark in marks(&input(1, index).1).1 {
                *met.entry(mark).or_insert(0) += 1;
            }
        }
        for mark in MARKS {
            let count = met.remove(mark).unwrap_or(0);
            assert!(count >= 5, "{mark}: {count}");
        }
        assert!(met.is_empty(), "{met:?}");
    }
}
