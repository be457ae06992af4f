//! What can be said of inputs for `update`, to tell whether random ones have all in them.

use std::collections::BTreeSet;

use crate::limits::code::{CALL, CHOICE, FORK, MIRROR};
use crate::limits::{refusal, CELL_MOST, MAX_SECTION};
use crate::limits::{RING_BYTE, RING_MOST, ROW_BYTES, ROW_SIDE};
use crate::table::{read, Table};
use crate::update::{bodies, differ_there_alone, items, reaching, with_callers};
use crate::updates::{own_model, Input};

/// What can be said of inputs, beside the number of a table's refusal.
const OTHER_MARKS: [&str; 87] = [
    // Refusals one before the other.
    "old before a lower new",
    "old before a higher new",
    "old before 15",
    "new before 15",
    "new before 18",
    "new before 19",
    "15 before 18",
    "15 before 19",
    "18 before 19",
    "15",
    "15 with no byte",
    "15 by one byte",
    "15 by a byte for each routine",
    "15 and enough for the new table",
    "18",
    "18 by a routine more",
    "18 by a routine less",
    "18 by the routine's count",
    "18 by the routine's count alone",
    "18 by another's count",
    "18 by another's count alone",
    "18 by two bodies",
    "18 by another body",
    "18 with the same head and tail",
    "18 and too short for the new table",
    "18 by n",
    "18 by n + 1",
    "18 by 64",
    "18 by 255",
    "18 by 256",
    "18 by a number mod 256",
    "18 by a number mod 2^32",
    "18 by a number mod 2^63",
    "18 by the highest number",
    "19",
    "19 by a cell above 7",
    "19 by a cell of 8",
    "19 by equal ends",
    "19 by second end 0",
    "19 by first end above k",
    "19 by second end above k",
    "19 by a last byte of 2",
    "19 by a last byte above 2",
    "19 in touched rows alone",
    "19 in untouched rows alone",
    "19 in the first byte of a row",
    "19 in the first byte of all",
    "19 in the last byte of all",
    // Done.
    "done",
    "own model",
    "foreign model",
    "foreign and untouched ones",
    "foreign in touched rows alone",
    "foreign in untouched rows alone",
    "foreign in both",
    "more than the own",
    "less than the own",
    "zero, not the own",
    "a byte changed",
    "no byte changed",
    "a ring comes",
    "a ring goes",
    "a caller's row changed",
    "a caller's caller's row changed",
    "an untouched routine",
    "no untouched routine",
    "the routine alone touched",
    "calls itself",
    "in a round of calls",
    "nobody calls it",
    "all others call it",
    "60 touched",
    "60 untouched",
    "full before and after",
    "mirror in it",
    "fork in it",
    "choice in it",
    "exact length",
    "same table",
    "longer body",
    "shorter body",
    "as long",
    "more calls",
    "fewer calls",
    "as another body",
    "bytes behind the model",
    "255 behind the model",
];

/// All that can be said of inputs.
pub fn all_marks() -> Vec<String> {
    let numbers = refusal::EMPTY..=refusal::BYTES_LEFT;
    let old = numbers
        .clone()
        .map(|number| format!("old refused {number}"));
    let new = numbers.map(|number| format!("new refused {number}"));
    let others = OTHER_MARKS.map(str::to_string);
    old.chain(new).chain(others).collect()
}

/// Those of the marks that are met.
fn met(marks: &[(&str, bool)]) -> Vec<String> {
    let met = marks.iter().filter(|(_, is_met)| *is_met);
    met.map(|(mark, _)| mark.to_string()).collect()
}

/// What can be said of an input with this answer, which leaves these bytes in the buffer.
pub fn marks(input: &Input, answer: u32, after: &[u8]) -> Vec<String> {
    match (read(&input.old), read(&input.new)) {
        (Err(old), new) => {
            let mut all = vec![format!("old refused {old}")];
            all.extend(met(&[
                (
                    "old before a lower new",
                    new.as_ref().is_err_and(|new| *new < old),
                ),
                (
                    "old before a higher new",
                    new.as_ref().is_err_and(|new| *new > old),
                ),
                ("old before 15", input.model.is_empty()),
            ]));
            all
        }
        (Ok(old), Err(new)) => {
            let n = old.routines.len();
            let short = input.model.len() < ROW_BYTES * n;
            let faults = faults(&old, &input.model);
            let mut all = vec![format!("new refused {new}")];
            all.extend(met(&[
                ("new before 15", short),
                ("new before 18", input.routine >= n as u64),
                ("new before 19", !faults.is_empty()),
            ]));
            all
        }
        (Ok(old), Ok(new)) => match answer {
            0 => done_marks(input, &old, &new, after),
            refusal::SHORT_BUFFER => short_marks(input, &old, &new),
            refusal::OTHER_TABLE => other_marks(input, &old, &new),
            _ => bad_marks(input, &old),
        },
    }
}

/// What is wrong with one byte of a model.
struct Fault {
    /// Its offset.
    at: usize,
    byte: u8,
    grounds: Vec<&'static str>,
}

/// All that is wrong with the whole rows of a model.
fn faults(table: &Table, model: &[u8]) -> Vec<Fault> {
    let mut faults = Vec::new();
    let rows = table.routines.iter().zip(model.chunks_exact(ROW_BYTES));
    for (row, (routine, bytes)) in rows.enumerate() {
        for (place, &byte) in bytes.iter().enumerate() {
            let (held, wanted) = (place / ROW_SIDE, place % ROW_SIDE);
            let k = routine.parameters as usize;
            let grounds: Vec<&str> = if place == RING_BYTE {
                let above = byte > RING_MOST;
                above.then_some("last byte").into_iter().collect()
            } else {
                let filled = byte != 0;
                let all = [
                    ("above 7", byte > CELL_MOST),
                    ("equal ends", filled && held == wanted),
                    ("second end 0", filled && wanted == 0),
                    ("first end above k", filled && held > k),
                    ("second end above k", filled && wanted > k),
                ];
                all.iter()
                    .filter(|(_, is)| *is)
                    .map(|(word, _)| *word)
                    .collect()
            };
            if !grounds.is_empty() {
                let at = ROW_BYTES * row + place;
                faults.push(Fault { at, byte, grounds });
            }
        }
    }
    faults
}

fn short_marks(input: &Input, old: &Table, new: &Table) -> Vec<String> {
    let n = old.routines.len();
    let (length, exact) = (input.model.len(), ROW_BYTES * n);
    let other = !differ_there_alone(&input.old, &input.new, input.routine);
    met(&[
        ("15", true),
        ("15 with no byte", length == 0),
        ("15 by one byte", length + 1 == exact),
        (
            "15 by a byte for each routine",
            n > 1 && length + n == exact,
        ),
        (
            "15 and enough for the new table",
            length >= ROW_BYTES * new.routines.len(),
        ),
        ("15 before 18", other),
        ("15 before 19", !faults(old, &input.model).is_empty()),
    ])
}

fn other_marks(input: &Input, old: &Table, new: &Table) -> Vec<String> {
    let (n, new_n) = (old.routines.len(), new.routines.len());
    let routine = input.routine;
    let mut all = met(&[
        ("18", true),
        ("18 before 19", !faults(old, &input.model).is_empty()),
        (
            "18 and too short for the new table",
            input.model.len() < ROW_BYTES * new_n,
        ),
        ("18 by a routine more", new_n > n),
        ("18 by a routine less", new_n < n),
    ]);
    if routine >= n as u64 {
        let is_one = |number: u64| number < n as u64;
        all.extend(met(&[
            ("18 by n", routine == n as u64),
            ("18 by n + 1", routine == n as u64 + 1),
            ("18 by 64", routine == 64),
            ("18 by 255", routine == 255),
            ("18 by 256", routine == 256),
            ("18 by a number mod 256", is_one(routine % 256)),
            ("18 by a number mod 2^32", is_one(routine % (1 << 32))),
            ("18 by a number mod 2^63", is_one(routine % (1 << 63))),
            ("18 by the highest number", routine == u64::MAX),
        ]));
    } else if new_n == n {
        let routine = routine as usize;
        let others = || (0..n).filter(|&at| at != routine);
        let count = |at: usize| old.routines[at].parameters != new.routines[at].parameters;
        let (bodies_before, bodies_after) = (bodies(&input.old), bodies(&input.new));
        let body = |at: usize| bodies_before[at] != bodies_after[at];
        let no_body = !(0..n).any(body);
        let no_count = !(0..n).any(count);
        let behind = bodies_before[routine + 1..].concat();
        all.extend(met(&[
            ("18 by the routine's count", count(routine)),
            ("18 by the routine's count alone", count(routine) && no_body),
            ("18 by another's count", others().any(count)),
            (
                "18 by another's count alone",
                others().any(count) && no_body,
            ),
            (
                "18 by two bodies",
                no_count && body(routine) && others().any(body),
            ),
            (
                "18 by another body",
                no_count && !body(routine) && others().any(body),
            ),
            (
                "18 with the same head and tail",
                no_count
                    && bodies_before[..routine] == bodies_after[..routine]
                    && input.new.ends_with(&behind),
            ),
        ]));
    }
    all
}

fn bad_marks(input: &Input, old: &Table) -> Vec<String> {
    let faults = faults(old, &input.model);
    let touched = reaching(old, input.routine as usize);
    let is_touched = |fault: &Fault| touched.contains(&(fault.at / ROW_BYTES));
    let mut all = met(&[
        ("19", true),
        ("19 in touched rows alone", faults.iter().all(is_touched)),
        ("19 in untouched rows alone", !faults.iter().any(is_touched)),
    ]);
    let [fault] = &faults[..] else {
        return all;
    };
    all.extend(met(&[
        ("19 in the first byte of a row", fault.at % ROW_BYTES == 0),
        ("19 in the first byte of all", fault.at == 0),
        (
            "19 in the last byte of all",
            fault.at + 1 == ROW_BYTES * old.routines.len(),
        ),
    ]));
    if let [ground] = fault.grounds[..] {
        all.extend(met(&[
            ("19 by a cell above 7", ground == "above 7"),
            ("19 by a cell of 8", ground == "above 7" && fault.byte == 8),
            ("19 by equal ends", ground == "equal ends"),
            ("19 by second end 0", ground == "second end 0"),
            ("19 by first end above k", ground == "first end above k"),
            ("19 by second end above k", ground == "second end above k"),
            (
                "19 by a last byte of 2",
                ground == "last byte" && fault.byte == 2,
            ),
            (
                "19 by a last byte above 2",
                ground == "last byte" && fault.byte > 2,
            ),
        ]));
    }
    all
}

fn done_marks(input: &Input, old: &Table, new: &Table, after: &[u8]) -> Vec<String> {
    let n = old.routines.len();
    let routine = input.routine as usize;
    let touched = reaching(new, routine);
    let callers = with_callers(new, &BTreeSet::from([routine]));
    let row = |bytes: &[u8], at: usize| bytes[ROW_BYTES * at..][..ROW_BYTES].to_vec();
    let changes = |at: usize| row(after, at) != row(&input.model, at);
    let ring = |from: u8, to: u8| {
        let byte = |bytes: &[u8], at: usize| bytes[ROW_BYTES * at + RING_BYTE];
        (0..n).any(|at| byte(&input.model, at) == from && byte(after, at) == to)
    };
    let called = |at: usize| {
        let mut callees = new.routines[at].callees();
        callees.any(|callee| callee == routine)
    };
    let full = |table: &[u8]| table.len() == 3 + n + MAX_SECTION;
    let mut all = met(&[
        ("done", true),
        ("a byte changed", after != input.model),
        ("no byte changed", after == input.model),
        ("a ring comes", ring(0, 1)),
        ("a ring goes", ring(1, 0)),
        (
            "a caller's row changed",
            callers.iter().any(|&at| at != routine && changes(at)),
        ),
        (
            "a caller's caller's row changed",
            touched.difference(&callers).any(|&at| changes(at)),
        ),
        ("an untouched routine", touched.len() < n),
        ("no untouched routine", touched.len() == n),
        ("the routine alone touched", n > 1 && touched.len() == 1),
        ("calls itself", called(routine)),
        (
            "in a round of calls",
            new.routines[routine]
                .callees()
                .any(|callee| callee != routine && touched.contains(&callee)),
        ),
        ("nobody calls it", n > 1 && !(0..n).any(called)),
        (
            "all others call it",
            n > 2 && (0..n).all(|at| at == routine || called(at)),
        ),
        ("60 touched", touched.len() >= 60),
        ("60 untouched", n - touched.len() >= 60),
        (
            "full before and after",
            full(&input.old) && full(&input.new),
        ),
        ("exact length", after.len() == ROW_BYTES * n),
        ("bytes behind the model", after.len() > ROW_BYTES * n),
        (
            "255 behind the model",
            after[ROW_BYTES * n..].first() == Some(&255),
        ),
    ]);
    all.extend(model_marks(input, n, &touched));
    all.extend(body_marks(input, routine));
    all
}

/// What can be said of a well-formed model.
fn model_marks(input: &Input, n: usize, touched: &BTreeSet<usize>) -> Vec<String> {
    let own = own_model(&input.old);
    let model = &input.model[..ROW_BYTES * n];
    if model == own {
        return met(&[("own model", true)]);
    }
    let differ =
        |at: &usize| model[ROW_BYTES * at..][..ROW_BYTES] != own[ROW_BYTES * at..][..ROW_BYTES];
    let inside = touched.iter().any(differ);
    let outside = (0..n).any(|at| !touched.contains(&at) && differ(&at));
    let bytes = || model.iter().zip(&own);
    met(&[
        ("foreign model", true),
        ("foreign and untouched ones", touched.len() < n),
        (
            "foreign in touched rows alone",
            inside && !outside && touched.len() < n,
        ),
        ("foreign in untouched rows alone", outside && !inside),
        ("foreign in both", inside && outside),
        (
            "more than the own",
            bytes().all(|(byte, own)| byte & own == *own),
        ),
        (
            "less than the own",
            bytes().all(|(byte, own)| byte & own == *byte),
        ),
        ("zero, not the own", model.iter().all(|&byte| byte == 0)),
    ])
}

/// What can be said of the routine's body.
fn body_marks(input: &Input, routine: usize) -> Vec<String> {
    let counts = &input.new[1..1 + input.new[0] as usize];
    let before = bodies(&input.old);
    let (old, new) = (before[routine], bodies(&input.new)[routine]);
    let codes = |body: &[u8], code: u8| {
        let items = items(body, counts);
        items.iter().filter(|item| item[0] == code).count()
    };
    let calls = |body: &[u8]| codes(body, CALL);
    let other = |at: usize| at != routine && counts[at] == counts[routine];
    met(&[
        ("same table", new == old),
        ("longer body", new.len() > old.len()),
        ("shorter body", new.len() < old.len()),
        ("as long", new != old && new.len() == old.len()),
        ("more calls", calls(new) > calls(old)),
        ("fewer calls", calls(new) < calls(old)),
        (
            "as another body",
            new != old && (0..before.len()).any(|at| other(at) && before[at] == new),
        ),
        ("mirror in it", codes(new, MIRROR) > 0),
        ("fork in it", codes(new, FORK) > 0),
        ("choice in it", codes(new, CHOICE) > 0),
    ])
}
