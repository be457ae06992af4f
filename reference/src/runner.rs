//! Runs a table under a schedule, by document 01's run and request #106.

use std::collections::BTreeMap;

use crate::limits::{MAX_RUN_LOCKS, MAX_RUN_OPEN, MAX_THREADS, SECOND_FROM};
use crate::table::{self, Item, Routine};

/// How a run came out.
#[derive(Clone, Debug, PartialEq, Eq)]
pub struct Outcome {
    pub answer: Answer,
    /// Bytes of the schedule that were read.
    pub read: usize,
    /// Locks that were made.
    pub locks: usize,
    /// The threads that were started; none where there is no state to tell.
    pub threads: Vec<Standing>,
}

#[derive(Clone, Copy, Debug, PartialEq, Eq)]
pub enum Answer {
    /// The table is refused, by one of 1 to 14.
    Refused(u32),
    /// Every thread has ended.
    Ended,
    /// Some threads have not ended, and each of those waits.
    Stuck,
    /// Neither, and the schedule has no more bytes.
    Open,
    /// 16: the next byte names a thread that is not there.
    Unstarted,
    /// 17: the next byte's step does not fit this limit.
    Beyond(Limit),
}

/// What a step can go beyond.
#[derive(Clone, Copy, Debug, PartialEq, Eq)]
pub enum Limit {
    /// No record is lent, so that thread 0 has none.
    NoRecord,
    /// Each record has its thread, and there are fewer of them than a run may start.
    Records,
    /// As many threads as a run may start.
    Threads,
    /// As many locks as a run may make.
    Locks,
    /// As many open blocks and calls as a thread may have.
    Open,
}

/// Where one thread stands.
#[derive(Clone, Debug, PartialEq, Eq)]
pub struct Standing {
    /// None once it has ended.
    pub next: Option<Next>,
    /// Locks with how often they are held, by the lock's number.
    pub holds: Vec<(usize, usize)>,
    /// The lock that it waits for.
    pub waits: Option<usize>,
}

/// The next item of a thread: its routine, and where it is in the body section.
#[derive(Clone, Copy, Debug, PartialEq, Eq)]
pub struct Next {
    pub routine: usize,
    pub offset: usize,
}

/// Runs a table as far as the schedule says, with room for `lent` threads.
pub fn run_schedule(table: &[u8], schedule: &[u8], lent: usize) -> Outcome {
    run_watched(table, schedule, lent, |_, _| {})
}

/// The same. `watch` gets each state with the byte that comes next, and the last state
/// with none.
pub fn run_watched(
    table: &[u8],
    schedule: &[u8],
    lent: usize,
    mut watch: impl FnMut(&State, Option<u8>),
) -> Outcome {
    let without_state = |answer| Outcome {
        answer,
        read: 0,
        locks: 0,
        threads: Vec::new(),
    };
    let program = match Program::read(table) {
        Ok(program) => program,
        Err(number) => return without_state(Answer::Refused(number)),
    };
    if lent == 0 {
        return without_state(Answer::Beyond(Limit::NoRecord));
    }
    let mut state = State::start(&program, lent);
    let mut read = 0;
    let answer = loop {
        if let Some(answer) = state.answer() {
            break answer;
        }
        let Some(&byte) = schedule.get(read) else {
            break Answer::Open;
        };
        watch(&state, Some(byte));
        match state.look(byte) {
            Turn::Unstarted => break Answer::Unstarted,
            Turn::Beyond(limit) => break Answer::Beyond(limit),
            Turn::Waiting | Turn::Over => {}
            Turn::Step => state.step(byte),
        }
        read += 1;
    };
    watch(&state, None);
    Outcome {
        answer,
        read,
        locks: state.locks,
        threads: state.standings(),
    }
}

/// The thread that a byte names.
pub fn thread_of(byte: u8) -> usize {
    byte as usize % MAX_THREADS
}

/// An accepted table, with what a run has to find in it.
pub struct Program {
    routines: Vec<Vec<Line>>,
}

/// One item and its surroundings.
struct Line {
    item: Item,
    /// Where it begins in the body section.
    offset: usize,
    /// For NEW and MIRROR: the name that it gives.
    name: u8,
    /// For CHOICE: the line of its OTHER.
    other: usize,
    /// For LOCK, FORK, CHOICE and OTHER: the line of the END.
    end: usize,
}

impl Program {
    /// The program of a table, or the refusal's number.
    pub fn read(table: &[u8]) -> Result<Program, u32> {
        let table = table::read(table)?;
        let mut offset = 0;
        let routines = table.routines.iter();
        Ok(Program {
            routines: routines.map(|r| lines(r, &mut offset)).collect(),
        })
    }

    fn line(&self, place: Place) -> &Line {
        &self.routines[place.routine][place.line]
    }
}

/// The lines of a routine whose body begins at `offset`, which goes on to the next body.
fn lines(routine: &Routine, offset: &mut usize) -> Vec<Line> {
    let mut lines: Vec<Line> = Vec::new();
    // The lines whose blocks are open.
    let mut open: Vec<usize> = Vec::new();
    // Locals are numbered as they are written, whether they are run or not.
    let mut name = routine.parameters;
    for (at, item) in routine.items.iter().enumerate() {
        match item {
            Item::New | Item::Mirror { .. } => name += 1,
            Item::Lock { .. } | Item::Fork | Item::Choice => open.push(at),
            Item::Other => {
                let choice = *open.last().expect("a choice");
                lines[choice].other = at;
            }
            Item::End => {
                // The body's own END closes no block.
                if let Some(opened) = open.pop() {
                    lines[opened].end = at;
                    if lines[opened].item == Item::Choice {
                        let other = lines[opened].other;
                        lines[other].end = at;
                    }
                }
            }
            Item::Call { .. } => {}
        }
        lines.push(Line {
            item: item.clone(),
            offset: *offset,
            name,
            other: 0,
            end: 0,
        });
        *offset += bytes(item);
    }
    lines
}

/// Bytes of an item, its operands with it.
fn bytes(item: &Item) -> usize {
    match item {
        Item::End | Item::New | Item::Fork | Item::Choice | Item::Other => 1,
        Item::Lock { .. } | Item::Mirror { .. } => 2,
        Item::Call { names, .. } => 2 + names.len(),
    }
}

/// A line of a routine.
#[derive(Clone, Copy)]
struct Place {
    routine: usize,
    line: usize,
}

impl Place {
    fn head(routine: usize) -> Place {
        Place { routine, line: 0 }
    }

    /// The place behind a line of the same routine.
    fn behind(self, line: usize) -> Place {
        Place {
            line: line + 1,
            ..self
        }
    }
}

/// The lock of each name that was given in a routine. One that is out of scope may stay:
/// its number is not used again.
type Names = BTreeMap<u8, usize>;

/// Something that a thread has open.
#[derive(Clone)]
enum Open {
    /// A block in which this lock is held.
    Lock(usize),
    /// The block that a forked thread began with.
    Fork,
    /// Either alternative of a choice.
    Alternative,
    /// A call, with where it goes on and with which names.
    Call { back: Place, names: Names },
}

#[derive(Clone)]
struct Thread {
    /// None once it has ended.
    next: Option<Place>,
    names: Names,
    /// The innermost last. The body that thread 0 began with is not in it.
    open: Vec<Open>,
    /// How often each lock is held; one that is not held is not there.
    holds: BTreeMap<usize, usize>,
}

/// What a byte would do.
#[derive(Clone, Copy, Debug, PartialEq, Eq)]
pub enum Turn {
    /// Its thread is not there.
    Unstarted,
    /// Its thread has ended.
    Over,
    /// Its thread waits.
    Waiting,
    /// Its thread's step does not fit.
    Beyond(Limit),
    /// Its thread takes a step.
    Step,
}

/// A state of a run.
pub struct State<'a> {
    program: &'a Program,
    /// Most threads that there is room for.
    room: usize,
    threads: Vec<Thread>,
    /// Locks made so far.
    locks: usize,
}

impl<'a> State<'a> {
    /// Thread 0 at the head of routine 0.
    pub fn start(program: &'a Program, lent: usize) -> State<'a> {
        let main = Thread {
            next: Some(Place::head(0)),
            names: Names::new(),
            open: Vec::new(),
            holds: BTreeMap::new(),
        };
        State {
            program,
            room: lent.min(MAX_THREADS),
            threads: vec![main],
            locks: 0,
        }
    }

    /// Threads started so far.
    pub fn started(&self) -> usize {
        self.threads.len()
    }

    /// Locks made so far.
    pub fn locks(&self) -> usize {
        self.locks
    }

    /// Where the next item of a thread is; none once it has ended.
    pub fn next(&self, thread: usize) -> Option<Next> {
        self.threads[thread].next.map(|place| Next {
            routine: place.routine,
            offset: self.program.line(place).offset,
        })
    }

    /// The next item of a thread; none once it has ended.
    pub fn next_item(&self, thread: usize) -> Option<&'a Item> {
        let place = self.threads[thread].next?;
        Some(&self.program.line(place).item)
    }

    /// How many blocks and calls a thread has open.
    pub fn open(&self, thread: usize) -> usize {
        self.threads[thread].open.len()
    }

    /// How many locks a thread holds.
    pub fn held(&self, thread: usize) -> usize {
        self.threads[thread].holds.len()
    }

    /// The lock of a name of the routine that a thread is in.
    pub fn lock(&self, thread: usize, name: u8) -> usize {
        self.threads[thread].names[&name]
    }

    /// Whether some thread holds a lock.
    pub fn is_held(&self, lock: usize) -> bool {
        self.threads.iter().any(|t| t.holds.contains_key(&lock))
    }

    /// The lock that a thread waits for: its next item takes it, and another holds it.
    pub fn waits(&self, thread: usize) -> Option<usize> {
        let Some(Item::Lock { name }) = self.next_item(thread) else {
            return None;
        };
        let lock = self.lock(thread, *name);
        let mut others = (0..self.threads.len()).filter(|&other| other != thread);
        others
            .any(|other| self.threads[other].holds.contains_key(&lock))
            .then_some(lock)
    }

    /// Ended or stuck; none where a thread can go on.
    pub fn answer(&self) -> Option<Answer> {
        let mut left = (0..self.threads.len())
            .filter(|&thread| self.threads[thread].next.is_some())
            .peekable();
        if left.peek().is_none() {
            Some(Answer::Ended)
        } else if left.all(|thread| self.waits(thread).is_some()) {
            Some(Answer::Stuck)
        } else {
            None
        }
    }

    /// What a byte would do here.
    pub fn look(&self, byte: u8) -> Turn {
        let thread = thread_of(byte);
        if thread >= self.threads.len() {
            return Turn::Unstarted;
        }
        let Some(item) = self.next_item(thread) else {
            return Turn::Over;
        };
        if self.waits(thread).is_some() {
            return Turn::Waiting;
        }
        let passed = match item {
            Item::New => (self.locks == MAX_RUN_LOCKS).then_some(Limit::Locks),
            Item::Fork => (self.threads.len() == self.room).then_some(self.last_thread()),
            Item::Lock { .. } | Item::Choice | Item::Call { .. } => {
                (self.open(thread) == MAX_RUN_OPEN).then_some(Limit::Open)
            }
            Item::Mirror { .. } | Item::Other | Item::End => None,
        };
        passed.map_or(Turn::Step, Turn::Beyond)
    }

    /// What keeps a run from having more threads than there is room for.
    fn last_thread(&self) -> Limit {
        if self.room < MAX_THREADS {
            Limit::Records
        } else {
            Limit::Threads
        }
    }

    /// Takes the step of a byte that is looked at as `Step`.
    pub fn step(&mut self, byte: u8) {
        let program = self.program;
        let thread = &mut self.threads[thread_of(byte)];
        let place = thread.next.expect("a next item");
        let line = program.line(place);
        let after = place.behind(place.line);
        let mut forked = None;
        thread.next = match &line.item {
            Item::New => {
                thread.names.insert(line.name, self.locks);
                self.locks += 1;
                Some(after)
            }
            Item::Mirror { name } => {
                let lock = thread.names[name];
                thread.names.insert(line.name, lock);
                Some(after)
            }
            Item::Lock { name } => {
                let lock = thread.names[name];
                *thread.holds.entry(lock).or_insert(0) += 1;
                thread.open.push(Open::Lock(lock));
                Some(after)
            }
            Item::Fork => {
                forked = Some(Thread {
                    next: Some(after),
                    names: thread.names.clone(),
                    open: vec![Open::Fork],
                    holds: BTreeMap::new(),
                });
                Some(place.behind(line.end))
            }
            Item::Choice => {
                thread.open.push(Open::Alternative);
                if byte < SECOND_FROM {
                    Some(after)
                } else {
                    Some(place.behind(line.other))
                }
            }
            Item::Other => {
                thread.open.pop();
                Some(place.behind(line.end))
            }
            Item::Call { routine, names } => {
                let locks = names.iter().map(|name| thread.names[name]);
                let passed = (1..).zip(locks).collect();
                let names = std::mem::replace(&mut thread.names, passed);
                thread.open.push(Open::Call { back: after, names });
                Some(Place::head(*routine))
            }
            Item::End => match thread.open.pop() {
                Some(Open::Lock(lock)) => {
                    thread.give_back(lock);
                    Some(after)
                }
                Some(Open::Alternative) => Some(after),
                Some(Open::Call { back, names }) => {
                    thread.names = names;
                    Some(back)
                }
                Some(Open::Fork) | None => None,
            },
        };
        self.threads.extend(forked);
    }

    /// Where all threads stand.
    pub fn standings(&self) -> Vec<Standing> {
        let standing = |thread: usize| {
            let holds = self.threads[thread].holds.iter();
            Standing {
                next: self.next(thread),
                holds: holds.map(|(&lock, &times)| (lock, times)).collect(),
                waits: self.waits(thread),
            }
        };
        (0..self.threads.len()).map(standing).collect()
    }
}

impl Thread {
    /// One hold less.
    fn give_back(&mut self, lock: usize) {
        match self.holds.remove(&lock) {
            Some(times) if times > 1 => {
                self.holds.insert(lock, times - 1);
            }
            _ => {}
        }
    }
}
