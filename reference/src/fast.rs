//! An analyser made for speed. It is for the benchmark only, the mark that the archive is measured
//! against; the naive analyser of `table` and `model` stays the reference, and `tests/fast.rs` holds
//! this one against it.
//!
//! The pass over the bytes that checks them (`fast_read`) records the pair of each LOCK and lists each
//! CALL, so that no byte is parsed a second time. Pairs are bit matrices, one a label. A routine is due
//! in a round if a row that it calls changed in the one before, and takes what those rows gained; the
//! routines due are the bits of one number. So the rounds are counted exactly. Nothing is taken from the
//! heap.
//!
//! `sweep_number` does the same job but for the count, in sweeps that use a row as soon as it is worked
//! out. It is there to tell what the count costs.

use crate::fast_read::{self, head, read_body, Called, List, Listener, Renaming, NAMES};
use crate::limits::{refusal, MAX_FORK, MAX_PARAMETERS, MAX_ROUTINES, MAX_SECTION};
use crate::limits::{CELL_OWN, CELL_SEVERAL, CELL_UNKNOWN, RING_BYTE, ROW_BYTES, ROW_SIDE};
use crate::limits::{RING_BASE, RING_NAME, RING_ROUTINE, ROUNDS_BASE};

/// Labels: own, the forks from 1 on, unknown, several; and how many there are.
const OWN: usize = 0;
const UNKNOWN: usize = MAX_FORK as usize + 1;
const SEVERAL: usize = MAX_FORK as usize + 2;
const LABELS: usize = MAX_FORK as usize + 3;
/// The holder where nothing is held.
const NOTHING: u8 = 16;
/// A CALL with a name takes three bytes or more.
const CALL_BYTES: usize = 3;
/// A small table has at most this many routines and body bytes; it needs little of the stack.
const FEW_ROUTINES: usize = 8;
const SMALL_SECTION: usize = 192;

/// Row a of a matrix has the names b of the pairs (a, b), as 16 bits; four rows are one word.
const LANES: usize = 4;
const WORDS: usize = NAMES / LANES;
/// The lowest bit of each row of a word.
const LOWEST: u64 = 0x0001_0001_0001_0001;

/// The first 4 × W rows of a matrix. A routine with few names has but few words.
type Matrix<const W: usize> = [u64; W];

/// What callers see of a routine: for each kind of label, bit 8 × a + b is the pair (a, b).
#[derive(Clone, Copy, PartialEq, Eq, Default)]
struct Row {
    own: u64,
    unknown: u64,
    several: u64,
}

impl Row {
    /// What this row has and the other has not.
    fn without(self, other: Row) -> Row {
        Row {
            own: self.own & !other.own,
            unknown: self.unknown & !other.unknown,
            several: self.several & !other.several,
        }
    }
}

/// One CALL: where its names stand in the section, and its place.
#[derive(Clone, Copy)]
struct Call {
    names: u16,
    routine: u8,
    holder: u8,
    thread: u8,
}

/// What is known of one routine.
#[derive(Clone, Copy)]
struct Body {
    /// The recorded pairs of each label. They only grow.
    planes: [Matrix<WORDS>; LABELS],
    /// The first and the second names of the pairs of each label, as bits.
    firsts: [u16; LABELS],
    seconds: [u16; LABELS],
    /// The labels whose planes are not empty, as bits.
    used: u16,
    /// The names with a ring, as bits.
    rings: u16,
    parameters: u8,
    /// How many names the routine has, name 0 with them.
    names: u8,
    /// Its calls are these of the list of calls.
    first_call: u16,
    after_calls: u16,
    /// For each name the one that its pairs are recorded under and that nests go by.
    roots: Renaming,
    row: Row,
    /// What the row gained in the last round that changed it, and what it is to be after this one.
    gained: Row,
    next: Row,
    /// Routines as bits: those it calls, and those that call it.
    callees: u64,
    callers: u64,
}

impl Body {
    fn new(parameters: u8, first_call: usize) -> Body {
        Body {
            planes: [[0; WORDS]; LABELS],
            firsts: [0; LABELS],
            seconds: [0; LABELS],
            used: 0,
            rings: 0,
            parameters,
            names: parameters + 1,
            first_call: first_call as u16,
            after_calls: first_call as u16,
            roots: Renaming::NONE,
            row: Row::default(),
            gained: Row::default(),
            next: Row::default(),
            callees: 0,
            callers: 0,
        }
    }

    /// Adds the pairs from `held` to the names in `wanted`; says whether that added any. A pair with
    /// equal ends is dropped unless its label is several.
    #[inline(always)]
    fn record(&mut self, label: usize, held: usize, wanted: u64) -> bool {
        let dropped = if label == SEVERAL { 0 } else { 1 << held };
        let kept = wanted & !dropped;
        let word = &mut self.planes[label][held / LANES];
        let grown = *word | kept << (NAMES * (held % LANES));
        let more = grown != *word;
        *word = grown;
        let any = u16::from(kept != 0);
        self.firsts[label] |= any << held;
        self.seconds[label] |= kept as u16;
        self.used |= any << label;
        more
    }
}

/// The bodies of a table, R at most, and C calls at most: those with names, as a routine without
/// parameters has an empty row.
struct Program<const R: usize, const C: usize> {
    bodies: List<Body, R>,
    calls: List<Call, C>,
}

/// What is found in a table: the numbers of the verdict and of the rounds.
struct Found {
    verdict: u32,
    rounds: u32,
}

/// Writes the model into the head of `buffer` and gives the verdict, as the archive's analysis does.
pub fn analyse_number(table: &[u8], buffer: &mut [u8]) -> u32 {
    match found::<InRounds>(table, buffer, &mut Nobody) {
        Ok(found) => found.verdict,
        Err(number) => number,
    }
}

/// The same with the number of rounds in place of the verdict.
pub fn rounds_number(table: &[u8], buffer: &mut [u8]) -> u32 {
    match found::<InRounds>(table, buffer, &mut Nobody) {
        Ok(found) => ROUNDS_BASE + found.rounds,
        Err(number) => number,
    }
}

/// `analyse_number` in sweeps, without a count of rounds.
pub fn sweep_number(table: &[u8], buffer: &mut [u8]) -> u32 {
    match found::<InSweeps>(table, buffer, &mut Nobody) {
        Ok(found) => found.verdict,
        Err(number) => number,
    }
}

/// How often a row of a table is worked out: in rounds, and in sweeps.
pub fn rows_worked_out(table: &[u8]) -> [usize; 2] {
    let mut buffer = [0; ROW_BYTES * MAX_ROUTINES];
    let (mut in_rounds, mut in_sweeps) = (Rows(0), Rows(0));
    let _ = found::<InRounds>(table, &mut buffer, &mut in_rounds);
    let _ = found::<InSweeps>(table, &mut buffer, &mut in_sweeps);
    [in_rounds.0, in_sweeps.0]
}

/// Who is told of each row that is worked out.
trait Told {
    fn row(&mut self);
}

struct Nobody;

impl Told for Nobody {
    #[inline(always)]
    fn row(&mut self) {}
}

/// Counts the rows.
struct Rows(usize);

impl Told for Rows {
    fn row(&mut self) {
        self.0 += 1;
    }
}

/// How the rows are worked out.
trait Settle {
    /// Works out all rows and rings. There are at most R bodies and C calls. Gives the number of rounds
    /// where it counts them.
    fn settle<const R: usize, const C: usize>(
        section: &[u8],
        bodies: &mut [Body],
        calls: &[Call],
        told: &mut impl Told,
    ) -> u32;
}

/// Writes the model into the head of `buffer`, or gives the refusal.
#[inline(always)]
fn found<S: Settle>(table: &[u8], buffer: &mut [u8], told: &mut impl Told) -> Result<Found, u32> {
    let (counts, section) = head(table)?;
    if counts.len() <= FEW_ROUTINES && section.len() <= SMALL_SECTION {
        const FEW_CALLS: usize = SMALL_SECTION / CALL_BYTES;
        analyse::<S, FEW_ROUTINES, FEW_CALLS>(counts, section, buffer, told)
    } else {
        const MOST_CALLS: usize = MAX_SECTION / CALL_BYTES;
        analyse::<S, MAX_ROUTINES, MOST_CALLS>(counts, section, buffer, told)
    }
}

/// `found` behind the head, for a table of at most R routines and C calls.
#[inline(never)]
fn analyse<S: Settle, const R: usize, const C: usize>(
    counts: &[u8],
    section: &[u8],
    buffer: &mut [u8],
    told: &mut impl Told,
) -> Result<Found, u32> {
    let mut program = Program::<R, C> {
        bodies: List::new(),
        calls: List::new(),
    };
    read(counts, section, &mut program)?;
    if buffer.len() < ROW_BYTES * counts.len() {
        return Err(refusal::SHORT_BUFFER);
    }
    let calls = program.calls.all_mut();
    let bodies = program.bodies.all_mut();
    let rounds = S::settle::<R, C>(section, bodies, calls, told);
    for (body, bytes) in bodies.iter().zip(buffer.chunks_exact_mut(ROW_BYTES)) {
        write_row(body, bytes);
    }
    Ok(Found {
        verdict: verdict(bodies),
        rounds,
    })
}

/// Refusals 7 to 14; reads all bodies.
fn read<const R: usize, const C: usize>(
    counts: &[u8],
    section: &[u8],
    program: &mut Program<R, C>,
) -> Result<(), u32> {
    let Program { bodies, calls } = program;
    fast_read::bodies(counts, section, |parameters, at| {
        let first_call = calls.len();
        let mut recorder = Recorder {
            body: bodies.push(Body::new(parameters, first_call)),
            calls,
            roots: Renaming::NONE,
        };
        let (after, locals) = read_body(counts, section, at, parameters, &mut recorder)?;
        let Recorder { body, calls, roots } = recorder;
        body.names += locals;
        body.roots = roots;
        body.after_calls = calls.len() as u16;
        Ok(after)
    })?;
    link(program.bodies.all_mut());
    Ok(())
}

/// Turns the routines that each body calls round: the callers of each.
fn link(bodies: &mut [Body]) {
    for caller in 0..bodies.len() {
        for callee in ones(bodies[caller].callees) {
            bodies[callee].callers |= 1 << caller;
        }
    }
}

/// The places of the bits of a number, lowest first.
fn ones(mut bits: u64) -> impl Iterator<Item = usize> {
    std::iter::from_fn(move || {
        if bits == 0 {
            return None;
        }
        let lowest = bits.trailing_zeros() as usize;
        bits &= bits - 1;
        Some(lowest)
    })
}

/// Records the pairs of one body, and its calls.
struct Recorder<'a, const C: usize> {
    body: &'a mut Body,
    calls: &'a mut List<Call, C>,
    roots: Renaming,
}

/// What the analysis knows of a place.
#[derive(Clone, Copy)]
struct Known {
    /// The roots of the names in the LOCK blocks of the thread around this place, as bits.
    nest: u16,
    /// The root of the name held.
    holder: u8,
    thread: u8,
}

impl<const C: usize> Listener for Recorder<'_, C> {
    type Place = Known;
    const START: Known = Known {
        nest: 0,
        holder: 0,
        thread: OWN as u8,
    };

    #[inline(always)]
    fn lock(&mut self, here: &mut Known, name: u8) {
        let root = self.roots.of(name);
        // A lock in the nest is passed over: inside the block all is as outside it.
        if here.nest >> root & 1 == 0 {
            if here.holder != NOTHING {
                let (label, held) = (here.thread as usize, here.holder as usize);
                self.body.record(label, held, 1 << root);
            }
            here.nest |= 1 << root;
            here.holder = root;
        }
    }

    #[inline(always)]
    fn fork(&mut self, here: &mut Known, number: u8) {
        *here = Known {
            nest: 0,
            holder: NOTHING,
            thread: number,
        };
    }

    #[inline(always)]
    fn call(&mut self, here: Known, call: Called) {
        self.body.callees |= 1 << call.routine;
        if call.names != call.after_names {
            self.calls.push(Call {
                names: call.names as u16,
                routine: call.routine,
                holder: here.holder,
                thread: here.thread,
            });
        }
    }

    #[inline(always)]
    fn mirror(&mut self, name: u8, of: u8) {
        self.roots.rename(name, self.roots.of(of));
    }
}

/// The routines with parameters, as bits. The row of any other is empty and never changes, so that no
/// caller waits for it: its rings are worked out at the end.
fn with_parameters(bodies: &[Body]) -> u64 {
    let mut seen = 0;
    for (routine, body) in bodies.iter().enumerate() {
        seen |= u64::from(body.parameters != 0) << routine;
    }
    seen
}

/// All routines but these.
fn others(bodies: &[Body], seen: u64) -> impl Iterator<Item = usize> {
    ones(!seen & u64::MAX >> (MAX_ROUTINES - bodies.len()))
}

/// In rounds, each from the rows of the one before.
struct InRounds;

impl Settle for InRounds {
    #[inline(always)]
    fn settle<const R: usize, const C: usize>(
        section: &[u8],
        bodies: &mut [Body],
        calls: &[Call],
        told: &mut impl Told,
    ) -> u32 {
        let seen = with_parameters(bodies);
        // Round 1: all rows are empty, so that there is nothing to take.
        let mut round = 1;
        // The rows whose cells changed in this round, and those in the round before.
        let (mut changed, mut last) = (0u64, 0u64);
        // Whether a ring came in this round where there was none.
        let mut rung = false;
        for routine in ones(seen) {
            let body = &mut bodies[routine];
            if body.used != 0 {
                told.row();
                let (row, rings) = close(body);
                (body.row, body.gained, body.rings) = (row, row, rings);
                changed |= u64::from(row != Row::default()) << routine;
                rung |= rings != 0;
            }
        }
        while changed != 0 {
            round += 1;
            last = std::mem::take(&mut changed);
            rung = false;
            let mut due = 0;
            for routine in ones(last) {
                due |= bodies[routine].callers;
            }
            for routine in ones(due & seen) {
                if take_calls(section, bodies, calls, routine, last, |callee| {
                    callee.gained
                }) {
                    told.row();
                    let body = &mut bodies[routine];
                    let (row, rings) = close(body);
                    rung |= body.rings == 0 && rings != 0;
                    body.rings = rings;
                    body.next = row;
                    changed |= u64::from(row != body.row) << routine;
                }
            }
            // No row of this round is used before its end.
            for routine in ones(changed) {
                let body = &mut bodies[routine];
                body.gained = body.next.without(body.row);
                body.row = body.next;
            }
        }
        let mut steady = Steady { round, last, rung };
        for routine in others(bodies, seen) {
            steady.rung |= ring_comes(section, bodies, calls, routine, &steady, told);
        }
        round + u32::from(steady.rung)
    }
}

/// The first round that changes no cell. It is the last one unless a ring comes in it.
struct Steady {
    round: u32,
    /// The rows that changed in the round before, as bits.
    last: u64,
    /// Whether a routine is known whose first ring comes in this round.
    rung: bool,
}

/// Works out the rings of a routine without parameters, from rows that are settled. Says whether the
/// first of them comes in the round that is steady; where such a routine is known, that may be missed.
fn ring_comes(
    section: &[u8],
    bodies: &mut [Body],
    calls: &[Call],
    routine: usize,
    steady: &Steady,
    told: &mut impl Told,
) -> bool {
    let callees = bodies[routine].callees;
    let last = callees & steady.last;
    let recorded = (!steady.rung && last != 0).then(|| bodies[routine]);
    take_calls(section, bodies, calls, routine, callees, |callee| {
        callee.row
    });
    told.row();
    let (_, rings) = close(&bodies[routine]);
    let mut comes = rings != 0 && steady.round == 1;
    if let Some(recorded) = recorded.filter(|_| rings != 0) {
        // Once more, without what came in the round before.
        bodies[routine] = recorded;
        let others = callees & !last;
        take_calls(section, bodies, calls, routine, others, |callee| callee.row);
        let before = |callee: &Body| callee.row.without(callee.gained);
        take_calls(section, bodies, calls, routine, last, before);
        told.row();
        comes = close(&bodies[routine]).1 == 0;
    }
    bodies[routine].rings = rings;
    comes
}

/// In sweeps from the highest routine down, until none is due.
struct InSweeps;

impl Settle for InSweeps {
    #[inline(always)]
    fn settle<const R: usize, const C: usize>(
        section: &[u8],
        bodies: &mut [Body],
        calls: &[Call],
        told: &mut impl Told,
    ) -> u32 {
        let seen = with_parameters(bodies);
        // For each routine those whose rows have changed since their pairs were taken, as bits.
        let mut changed = [0u64; R];
        // What each CALL has taken of its row.
        let mut taken = List::<Row, C>::new();
        for _ in calls {
            taken.push(Row::default());
        }
        let taken = taken.all_mut();
        let mut due = seen;
        let mut fresh = seen;
        let mut before = 0;
        while due != 0 {
            let routine = next_due(due, before);
            before = routine;
            due ^= 1 << routine;
            let new = std::mem::take(&mut changed[routine]);
            let grown = take_news(section, bodies, calls, taken, routine, new);
            if grown || fresh >> routine & 1 == 1 {
                told.row();
                let body = &mut bodies[routine];
                let (row, rings) = close(body);
                body.rings = rings;
                if row != body.row {
                    body.row = row;
                    let callers = body.callers;
                    for caller in ones(callers) {
                        changed[caller] |= 1 << routine;
                    }
                    due |= callers & seen;
                }
            }
            fresh &= !(1 << routine);
        }
        for routine in others(bodies, seen) {
            let callees = bodies[routine].callees;
            take_calls(section, bodies, calls, routine, callees, |callee| {
                callee.row
            });
            told.row();
            bodies[routine].rings = close(&bodies[routine]).1;
        }
        0
    }
}

/// The highest routine due below the last one, or the highest of all.
fn next_due(due: u64, last: usize) -> usize {
    let below = due & ((1 << last) - 1);
    let sweep = if below == 0 { due } else { below };
    sweep.ilog2() as usize
}

/// Takes a part of the rows of these routines into the pairs of one that calls them; says whether that
/// added any.
#[inline(always)]
fn take_calls(
    section: &[u8],
    bodies: &mut [Body],
    calls: &[Call],
    routine: usize,
    callees: u64,
    part: impl Fn(&Body) -> Row,
) -> bool {
    let body = &bodies[routine];
    let mut grown = false;
    for call in &calls[body.first_call as usize..body.after_calls as usize] {
        if callees >> call.routine & 1 == 1 {
            let callee = &bodies[call.routine as usize];
            let names = &section[call.names as usize..][..callee.parameters as usize];
            let row = part(callee);
            grown |= take_row(&mut bodies[routine], call, names, row);
        }
    }
    grown
}

/// Takes what is new in the rows of these routines, by what each CALL has taken.
fn take_news(
    section: &[u8],
    bodies: &mut [Body],
    calls: &[Call],
    taken: &mut [Row],
    routine: usize,
    callees: u64,
) -> bool {
    if callees == 0 {
        return false;
    }
    let body = &bodies[routine];
    let mut grown = false;
    for at in body.first_call as usize..body.after_calls as usize {
        let call = &calls[at];
        if callees >> call.routine & 1 == 1 {
            let Body {
                parameters, row, ..
            } = bodies[call.routine as usize];
            let names = &section[call.names as usize..][..parameters as usize];
            let new = row.without(std::mem::replace(&mut taken[at], row));
            grown |= take_row(&mut bodies[routine], call, names, new);
        }
    }
    grown
}

/// Takes the pairs of a called row; says whether that added any.
fn take_row(body: &mut Body, call: &Call, names: &[u8], row: Row) -> bool {
    // What the names 0 to 7 of the called routine stand for.
    let mut renamed = [NOTHING; ROW_SIDE];
    renamed[0] = call.holder;
    for (parameter, &name) in renamed[1..].iter_mut().zip(names) {
        *parameter = body.roots.of(name);
    }
    take_pairs(body, call.thread as usize, &renamed, row.own)
        | take_pairs(body, UNKNOWN, &renamed, row.unknown)
        | take_pairs(body, SEVERAL, &renamed, row.several)
}

/// Takes the pairs of one label; says whether that added any.
fn take_pairs(body: &mut Body, label: usize, renamed: &[u8; ROW_SIDE], pairs: u64) -> bool {
    let mut left = pairs;
    let mut grown = false;
    while left != 0 {
        let held = left.trailing_zeros() as usize / ROW_SIDE;
        let mut wanted = left >> (ROW_SIDE * held) & 0xFF;
        left &= !(0xFF << (ROW_SIDE * held));
        if renamed[held] == NOTHING {
            continue;
        }
        let mut names = 0;
        while wanted != 0 {
            names |= 1 << renamed[wanted.trailing_zeros() as usize];
            wanted &= wanted - 1;
        }
        grown |= body.record(label, renamed[held] as usize, names);
    }
    grown
}

/// The row and the rings that follow from the recorded pairs of a body.
fn close(body: &Body) -> (Row, u16) {
    if body.used == 0 {
        return (Row::default(), 0);
    }
    match (body.names as usize).div_ceil(LANES) {
        1 => close_words::<1>(body),
        2 => close_words::<2>(body),
        3 => close_words::<3>(body),
        _ => close_words::<WORDS>(body),
    }
}

/// `close`, for a body whose names fit in W words.
fn close_words<const W: usize>(body: &Body) -> (Row, u16) {
    let used = u64::from(body.used);
    let mut row = Row::default();
    let mut rings = 0;
    if may_mix(used) {
        let several = several::<W>(body, used);
        rings = diagonal(&several);
        row.several = between_parameters(&several, body.parameters);
    }
    // A row without parameters has no pair with two different ends.
    if body.parameters == 0 {
        return (row, rings);
    }
    let mut unknown = plane::<W>(body, UNKNOWN);
    for label in ones(used & ((1 << UNKNOWN) - 1)) {
        let mut plane = plane::<W>(body, label);
        close_walks(&mut plane, body.firsts[label] & body.seconds[label]);
        if label == OWN {
            row.own = between_parameters(&plane, body.parameters);
        } else {
            add(&mut unknown, &plane);
        }
    }
    row.unknown = between_parameters(&unknown, body.parameters);
    (row, rings)
}

/// Whether pairs of these labels can give a pair labelled several.
fn may_mix(used: u64) -> bool {
    used >> UNKNOWN != 0 || used & used.wrapping_sub(1) != 0
}

/// The recorded pairs of one label.
#[inline(always)]
fn plane<const W: usize>(body: &Body, label: usize) -> Matrix<W> {
    std::array::from_fn(|word| body.planes[label][word])
}

/// The pairs labelled several: R* M R*, where R has all pairs and M those labelled several and those
/// that follow from two with labels that give several.
#[inline(always)]
fn several<const W: usize>(body: &Body, used: u64) -> Matrix<W> {
    // The pairs with one label or more, and those with two or more; several aside.
    let (mut once, mut twice) = ([0; W], [0; W]);
    let (mut firsts, mut seconds) = (0, 0);
    let plain = used & ((1 << SEVERAL) - 1);
    for label in ones(plain) {
        let plane = plane::<W>(body, label);
        for word in 0..W {
            twice[word] |= once[word] & plane[word];
            once[word] |= plane[word];
        }
        firsts |= body.firsts[label];
        seconds |= body.seconds[label];
    }
    let mut mixed = plane::<W>(body, SEVERAL);
    let mut all = once;
    add(&mut all, &mixed);
    for label in ones(plain) {
        let plane = plane::<W>(body, label);
        // The pairs with a label that gives several after this one: any other, and unknown itself.
        let mut after = once;
        if label != UNKNOWN {
            for word in 0..W {
                after[word] &= !plane[word] | twice[word];
            }
        }
        add_product(&mut mixed, &plane, &after, body.seconds[label] & firsts);
    }
    if mixed == [0; W] {
        return mixed;
    }
    firsts |= body.firsts[SEVERAL];
    seconds |= body.seconds[SEVERAL];
    close_walks(&mut all, firsts & seconds);
    let mut later = mixed;
    add_product(&mut later, &mixed, &all, firsts & seconds);
    let mut both = later;
    add_product(&mut both, &all, &later, firsts & seconds);
    both
}

/// Adds one matrix to another.
#[inline(always)]
fn add<const W: usize>(sum: &mut Matrix<W>, more: &Matrix<W>) {
    for word in 0..W {
        sum[word] |= more[word];
    }
}

/// Adds to `sum` what `first` and then `second` relate. `middles` has the names, as bits, at which a
/// pair of `first` can end and one of `second` begin.
#[inline(always)]
fn add_product<const W: usize>(
    sum: &mut Matrix<W>,
    first: &Matrix<W>,
    second: &Matrix<W>,
    middles: u16,
) {
    for middle in ones(middles.into()) {
        add_where(sum, first, middle, row_of(second, middle));
    }
}

/// Adds all walks of two or more steps, by one pass of pivots: the names at which a step can end and
/// another begin.
#[inline(always)]
fn close_walks<const W: usize>(steps: &mut Matrix<W>, pivots: u16) {
    for pivot in ones(pivots.into()) {
        let before = *steps;
        add_where(steps, &before, pivot, row_of(&before, pivot));
    }
}

/// One row of a matrix.
#[inline(always)]
fn row_of<const W: usize>(matrix: &Matrix<W>, name: usize) -> u64 {
    matrix[name / LANES] >> (NAMES * (name % LANES)) & 0xFFFF
}

/// Adds the names in `wanted` to each row of `sum` where `first` has the bit `middle`.
#[inline(always)]
fn add_where<const W: usize>(sum: &mut Matrix<W>, first: &Matrix<W>, middle: usize, wanted: u64) {
    let everywhere = wanted * LOWEST;
    for word in 0..W {
        let here = first[word] >> middle & LOWEST;
        sum[word] |= (here << NAMES).wrapping_sub(here) & everywhere;
    }
}

/// The names that a matrix relates to themselves.
#[inline(always)]
fn diagonal<const W: usize>(matrix: &Matrix<W>) -> u16 {
    let mut names = 0;
    for name in 0..LANES * W {
        names |= row_of(matrix, name) & 1 << name;
    }
    names as u16
}

/// The pairs with two different ends in 0 to k, in the form of a row.
#[inline(always)]
fn between_parameters<const W: usize>(matrix: &Matrix<W>, parameters: u8) -> u64 {
    let mut pairs = 0;
    for held in 0..ROW_SIDE.min(LANES * W) {
        let wanted = row_of(matrix, held) & 0xFF & !(1 << held);
        pairs |= wanted << (ROW_SIDE * held);
    }
    pairs & parameter_pairs(parameters)
}

/// All pairs of the names 0 to k, in the form of a row.
fn parameter_pairs(parameters: u8) -> u64 {
    let names = (2 << parameters) - 1;
    let rows = u64::MAX >> (ROW_SIDE * (MAX_PARAMETERS - parameters) as usize);
    (names * 0x0101_0101_0101_0101) & rows
}

/// Writes the 65 bytes of one routine.
fn write_row(body: &Body, bytes: &mut [u8]) {
    let Row {
        own,
        unknown,
        several,
    } = body.row;
    let (cells, ring) = bytes.split_at_mut(RING_BYTE);
    ring[0] = u8::from(body.rings != 0);
    if own | unknown | several == 0 {
        cells.fill(0);
        return;
    }
    for (held, cells) in cells.chunks_exact_mut(ROW_SIDE).enumerate() {
        let one = |pairs: u64| bytes_of_bits(pairs >> (ROW_SIDE * held) & 0xFF);
        let sum = one(own) * u64::from(CELL_OWN)
            + one(unknown) * u64::from(CELL_UNKNOWN)
            + one(several) * u64::from(CELL_SEVERAL);
        cells.copy_from_slice(&sum.to_le_bytes());
    }
}

/// Eight bytes of 0 or 1 from eight bits, the lowest first.
fn bytes_of_bits(bits: u64) -> u64 {
    let apart = (bits * 0x0101_0101_0101_0101) & 0x8040_2010_0804_0201;
    (apart + 0x7F7F_7F7F_7F7F_7F7F) >> 7 & 0x0101_0101_0101_0101
}

/// The number of the verdict: the lowest reached routine with a ring and its lowest ring name, or 0.
fn verdict(bodies: &[Body]) -> u32 {
    let mut ringed = 0u64;
    for (routine, body) in bodies.iter().enumerate() {
        ringed |= u64::from(body.rings != 0) << routine;
    }
    if ringed == 0 {
        return 0;
    }
    let found = ringed & reached(bodies);
    if found == 0 {
        return 0;
    }
    let routine = found.trailing_zeros();
    let name = bodies[routine as usize].rings.trailing_zeros();
    RING_BASE + RING_ROUTINE * routine + RING_NAME * name
}

/// The routines that calls reach, as bits.
fn reached(bodies: &[Body]) -> u64 {
    let mut reached = 1u64;
    let mut waiting = 1u64;
    while waiting != 0 {
        let routine = waiting.trailing_zeros() as usize;
        waiting &= waiting - 1;
        waiting |= bodies[routine].callees & !reached;
        reached |= bodies[routine].callees;
    }
    reached
}
