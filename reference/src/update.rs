//! Brings a model up to date where one routine has another body, by request #107.
//!
//! Plain on purpose: the rows that may change are worked out from nothing, and all others
//! are taken as they stand in the buffer.

use std::collections::BTreeSet;

use crate::limits::code::{CALL, CHOICE, END, FORK, LOCK, MIRROR};
use crate::limits::{refusal, OUTER_NAME, ROW_BYTES, ROW_SIDE};
use crate::limits::{CELL_MOST, RING_BYTE, RING_MOST};
use crate::model::{least_rows, row_bytes, row_pairs, Pairs};
use crate::table::{read, Table};
use crate::Rules;

/// How an update goes about it. All but one are wrong, to tell whether inputs show that.
#[derive(Clone, Copy, Debug, PartialEq, Eq, PartialOrd, Ord)]
pub enum Way {
    /// As the request has it.
    InForce,
    /// Works out the routine and its direct callers alone.
    DirectCallers,
    /// Works out the routine alone.
    RoutineAlone,
    /// Clears the last of the rows that are not worked out.
    UntouchedCleared,
    /// Begins the rows that it works out with what the buffer has there.
    BufferTrusted,
    /// Tries 19 before 18.
    ModelFirst,
    /// Works out all rows.
    AllAnew,
    /// Tries 15 by the number of routines of the new table.
    LengthByNew,
    /// Takes the low 32 bits for the routine's number.
    Low32Bits,
    /// Takes the low 8 bits for the routine's number.
    Low8Bits,
}

/// The wrong ways, each in a few words.
pub const WRONG: [(Way, &str); 9] = [
    (Way::DirectCallers, "callers' callers left out"),
    (Way::RoutineAlone, "callers left out"),
    (Way::UntouchedCleared, "untouched row cleared"),
    (Way::BufferTrusted, "touched rows trusted"),
    (Way::ModelFirst, "19 before 18"),
    (Way::AllAnew, "all rows worked out"),
    (Way::LengthByNew, "15 by the new table"),
    (Way::Low32Bits, "routine of 32 bits"),
    (Way::Low8Bits, "routine of 8 bits"),
];

/// Brings the model at the head of the buffer up to date with the new table. A refusal
/// (1 to 15, 18 or 19) leaves the whole buffer as it was.
pub fn update(old: &[u8], new: &[u8], routine: u64, model: &mut [u8]) -> Result<(), u32> {
    update_by(Way::InForce, old, new, routine, model)
}

/// `update` as one number, 0 where it is done.
pub fn update_number(old: &[u8], new: &[u8], routine: u64, model: &mut [u8]) -> u32 {
    number(update(old, new, routine, model))
}

/// The number of an answer.
pub fn number(answer: Result<(), u32>) -> u32 {
    answer.err().unwrap_or(0)
}

/// `update` in the way given.
pub fn update_by(
    way: Way,
    old: &[u8],
    new: &[u8],
    routine: u64,
    model: &mut [u8],
) -> Result<(), u32> {
    let routine = match way {
        Way::Low32Bits => routine & u64::from(u32::MAX),
        Way::Low8Bits => routine & u64::from(u8::MAX),
        _ => routine,
    };
    // 1 to 14: first the old table, then the new one.
    let old_table = read(old)?;
    let new_table = read(new)?;
    // 15: a row for each routine of the old table must be there.
    let counted = match way {
        Way::LengthByNew => &new_table,
        _ => &old_table,
    };
    if model.len() < ROW_BYTES * counted.routines.len() {
        return Err(refusal::SHORT_BUFFER);
    }
    // 18, then 19.
    let other = !differ_there_alone(old, new, routine);
    let bad = !is_well_formed(&old_table, model);
    if bad && way == Way::ModelFirst {
        return Err(refusal::BAD_MODEL);
    }
    if other {
        return Err(refusal::OTHER_TABLE);
    }
    if bad {
        return Err(refusal::BAD_MODEL);
    }
    write_rows(way, &new_table, routine as usize, model);
    Ok(())
}

/// Works out the rows of the routine and of all that reach it, and writes those.
fn write_rows(way: Way, table: &Table, routine: usize, model: &mut [u8]) {
    let all: BTreeSet<usize> = (0..table.routines.len()).collect();
    let anew = match way {
        Way::AllAnew => all.clone(),
        Way::RoutineAlone => BTreeSet::from([routine]),
        Way::DirectCallers => with_callers(table, &BTreeSet::from([routine])),
        _ => reaching(table, routine),
    };
    let given = |at: &usize| row_pairs(&model[ROW_BYTES * at..][..ROW_BYTES]);
    let begin = |at: &usize| match way {
        Way::BufferTrusted => given(at),
        _ if anew.contains(at) => Pairs::new(),
        _ => given(at),
    };
    let rows = all.iter().map(begin).collect();
    for (at, outcome) in least_rows(Rules::InForce, table, &anew, rows) {
        model[ROW_BYTES * at..][..ROW_BYTES].copy_from_slice(&row_bytes(&outcome));
    }
    if way == Way::UntouchedCleared {
        if let Some(at) = all.difference(&anew).last() {
            model[ROW_BYTES * at..][..ROW_BYTES].fill(0);
        }
    }
}

/// The routine and all that reach it by calls. In two tables that differ in its body alone
/// they are the same: a way to it needs no call in that body.
pub fn reaching(table: &Table, routine: usize) -> BTreeSet<usize> {
    let mut found = BTreeSet::from([routine]);
    loop {
        let more = with_callers(table, &found);
        if more == found {
            return found;
        }
        found = more;
    }
}

/// These routines and all that call one of them.
pub fn with_callers(table: &Table, callees: &BTreeSet<usize>) -> BTreeSet<usize> {
    let is_caller = |at: &usize| {
        let mut called = table.routines[*at].callees();
        called.any(|callee| callees.contains(&callee))
    };
    let callers = (0..table.routines.len()).filter(is_caller);
    callers.chain(callees.iter().copied()).collect()
}

/// Whether there is such a routine in both tables, which are accepted ones, and all is the
/// same but its body and the body count.
pub fn differ_there_alone(old: &[u8], new: &[u8], routine: u64) -> bool {
    let n = old[0] as usize;
    if routine >= n as u64 || new[0] != old[0] {
        return false;
    }
    let counts = 1..1 + n;
    if new[counts.clone()] != old[counts] {
        return false;
    }
    let (old, new) = (bodies(old), bodies(new));
    (0..n).all(|at| at as u64 == routine || old[at] == new[at])
}

/// The bytes of each body of an accepted table.
pub fn bodies(table: &[u8]) -> Vec<&[u8]> {
    let n = table[0] as usize;
    let counts = &table[1..1 + n];
    let mut rest = &table[1 + n + 2..];
    let mut bodies = Vec::new();
    for _ in 0..n {
        let (body, behind) = rest.split_at(body_length(rest, counts));
        bodies.push(body);
        rest = behind;
    }
    bodies
}

/// How many bytes the first body of these has.
fn body_length(bytes: &[u8], counts: &[u8]) -> usize {
    let mut at = 0;
    // The body itself is open.
    let mut open = 1;
    while open > 0 {
        let code = bytes[at];
        match code {
            LOCK | FORK | CHOICE => open += 1,
            END => open -= 1,
            _ => {}
        }
        at += item_length(&bytes[at..], counts);
    }
    at
}

/// How many bytes the first item of these has.
fn item_length(bytes: &[u8], counts: &[u8]) -> usize {
    match bytes[0] {
        LOCK | MIRROR => 2,
        CALL => 2 + counts[bytes[1] as usize] as usize,
        _ => 1,
    }
}

/// The bytes of each item of a body.
pub fn items<'a>(body: &'a [u8], counts: &[u8]) -> Vec<&'a [u8]> {
    let mut rest = body;
    let mut items = Vec::new();
    while !rest.is_empty() {
        let (item, behind) = rest.split_at(item_length(rest, counts));
        items.push(item);
        rest = behind;
    }
    items
}

/// Whether the rows of all routines, which are there, could be those of some model.
fn is_well_formed(table: &Table, model: &[u8]) -> bool {
    let mut rows = table.routines.iter().zip(model.chunks_exact(ROW_BYTES));
    rows.all(|(routine, row)| {
        let mut cells = row[..RING_BYTE].iter().enumerate();
        let good =
            |(at, &cell)| cell == 0 || (has_cell(routine.parameters, at) && cell <= CELL_MOST);
        cells.all(good) && row[RING_BYTE] <= RING_MOST
    })
}

/// Whether a routine with so many parameters can have a pair in the cell at this offset.
pub fn has_cell(parameters: u8, at: usize) -> bool {
    let (held, wanted) = ((at / ROW_SIDE) as u8, (at % ROW_SIDE) as u8);
    held != wanted && wanted != OUTER_NAME && held <= parameters && wanted <= parameters
}
