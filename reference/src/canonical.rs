//! The canonical table of a table, by request #108.
//!
//! Plain on purpose: the table is read whole, its routines are put in the order in which they
//! are met, each is written without its mirrors, and the bytes are put together.

use crate::generate::assemble;
use crate::limits::code::*;
use crate::limits::{refusal, CANONICAL_BASE};
use crate::model::reached;
use crate::table::{read, Item, Routine, Table};

/// How a writer goes about it. All but one are wrong, to tell whether inputs show that.
#[derive(Clone, Copy, Debug, PartialEq, Eq, PartialOrd, Ord)]
pub enum Way {
    /// As the request has it.
    InForce,
    /// Leaves the routines that are reached in the order that they have.
    OldOrder,
    /// Numbers the routines that one body meets by their old numbers.
    ByOldNumber,
    /// Reads the body of a routine as soon as it is met.
    DepthFirst,
    /// Keeps the routines that are not reached, behind the others.
    UnreachedKept,
    /// Keeps those of them that some routine calls.
    CalledKept,
    /// Leaves the parameter counts in their places.
    CountsKept,
    /// Writes the mirrors too.
    MirrorsWritten,
    /// Replaces a mirror by the name that it mirrors, also where that is a mirror.
    OneStep,
    /// Leaves the locals the numbers that they have.
    LocalsKept,
    /// Gives the numbers of locals that are out of scope to other ones.
    NumbersReused,
    /// Tries 20 by the length of the table.
    LengthByTable,
    /// Answers 20 also where the buffer is as long as the result.
    ExactRefused,
    /// Writes what there is room for where it answers 20.
    ShortWritten,
    /// Writes a zero byte behind the result.
    ByteBehind,
    /// Answers with the length of the bodies.
    HeadLeftOut,
    /// Answers with the length alone.
    LengthAlone,
}

/// The wrong ways, each in a few words.
pub const WRONG: [(Way, &str); 16] = [
    (Way::OldOrder, "routines in old order"),
    (Way::ByOldNumber, "met ones by old number"),
    (Way::DepthFirst, "depth first"),
    (Way::UnreachedKept, "unreached ones kept"),
    (Way::CalledKept, "called ones kept"),
    (Way::CountsKept, "counts not moved"),
    (Way::MirrorsWritten, "mirrors written"),
    (Way::OneStep, "mirrors one step back"),
    (Way::LocalsKept, "locals not renumbered"),
    (Way::NumbersReused, "numbers used again"),
    (Way::LengthByTable, "20 by the table"),
    (Way::ExactRefused, "20 where it fits"),
    (Way::ShortWritten, "short buffer written to"),
    (Way::ByteBehind, "a byte behind the result"),
    (Way::HeadLeftOut, "length without the head"),
    (Way::LengthAlone, "length without 65,536"),
];

/// The canonical table, or the number of the refusal (1 to 14).
pub fn canonical(table: &[u8]) -> Result<Vec<u8>, u32> {
    canonical_by(Way::InForce, table)
}

/// Writes the canonical table into the head of `out` and gives 65,536 + its length. A refusal
/// (1 to 14, or 20) leaves the whole buffer as it was.
pub fn canonical_number(table: &[u8], out: &mut [u8]) -> u32 {
    canonical_number_by(Way::InForce, table, out)
}

/// What the program writes for a table: a line with the length and then the canonical table,
/// or a line with the refusal.
pub fn text(table: &[u8]) -> Vec<u8> {
    match canonical(table) {
        Ok(result) => {
            let line = format!("canonical {}\n", result.len());
            [line.as_bytes(), &result].concat()
        }
        Err(number) => format!("refused {number}\n").into_bytes(),
    }
}

/// `canonical` in the way given.
pub fn canonical_by(way: Way, table: &[u8]) -> Result<Vec<u8>, u32> {
    // 1 to 14.
    let table = read(table)?;
    let order = order_by(way, &table);
    let mut result = Table {
        routines: order
            .iter()
            .map(|&old| rewritten(way, &table.routines[old], &order))
            .collect(),
    };
    if way == Way::CountsKept {
        for (routine, old) in result.routines.iter_mut().zip(&table.routines) {
            routine.parameters = old.parameters;
        }
    }
    Ok(bytes(&result))
}

/// `canonical_number` in the way given.
pub fn canonical_number_by(way: Way, table: &[u8], out: &mut [u8]) -> u32 {
    let result = match canonical_by(way, table) {
        Ok(result) => result,
        Err(number) => return number,
    };
    // 20: the whole result must fit.
    let length = result.len();
    let least = match way {
        Way::LengthByTable => table.len(),
        Way::ExactRefused => length + 1,
        _ => length,
    };
    if out.len() < least {
        if way == Way::ShortWritten {
            out.copy_from_slice(&result[..out.len()]);
        }
        return refusal::SHORT_OUTPUT;
    }
    out[..length].copy_from_slice(&result);
    if way == Way::ByteBehind && length < out.len() {
        out[length] = 0;
    }
    match way {
        Way::HeadLeftOut => CANONICAL_BASE + (length - head_length(&result)) as u32,
        Way::LengthAlone => length as u32,
        _ => CANONICAL_BASE + length as u32,
    }
}

/// The bytes before the bodies of an accepted table.
fn head_length(table: &[u8]) -> usize {
    1 + table[0] as usize + 2
}

/// The bytes of a table.
pub fn bytes(table: &Table) -> Vec<u8> {
    let counts: Vec<u8> = table.routines.iter().map(|one| one.parameters).collect();
    let items = table.routines.iter().flat_map(|one| &one.items);
    let section: Vec<u8> = items.flat_map(item_bytes).collect();
    assemble(&counts, &section)
}

fn item_bytes(item: &Item) -> Vec<u8> {
    let head = match item {
        Item::End => vec![END],
        Item::New => vec![NEW],
        Item::Lock { .. } => vec![LOCK],
        Item::Fork => vec![FORK],
        Item::Choice => vec![CHOICE],
        Item::Other => vec![OTHER],
        Item::Call { routine, .. } => vec![CALL, *routine as u8],
        Item::Mirror { .. } => vec![MIRROR],
    };
    [&head, item.names()].concat()
}

// Routines.

/// The routines that are kept, by their new numbers: the number that each has in the table.
pub fn order(table: &Table) -> Vec<usize> {
    order_by(Way::InForce, table)
}

fn order_by(way: Way, table: &Table) -> Vec<usize> {
    let mut order = match way {
        Way::OldOrder => reached(table).into_iter().collect(),
        Way::DepthFirst => {
            let mut order = Vec::new();
            depth_first(table, 0, &mut order);
            order
        }
        _ => as_met(way, table),
    };
    let called = |routine: &usize| {
        let mut callers = table.routines.iter();
        callers.any(|caller| caller.callees().any(|callee| callee == *routine))
    };
    for routine in 0..table.routines.len() {
        let kept = match way {
            Way::UnreachedKept => true,
            Way::CalledKept => called(&routine),
            _ => false,
        };
        if kept && !order.contains(&routine) {
            order.push(routine);
        }
    }
    order
}

/// Reads the bodies by their new numbers, and gives each routine that has no number where it
/// is met the next one.
fn as_met(way: Way, table: &Table) -> Vec<usize> {
    let mut order = vec![0];
    let mut next = 0;
    while next < order.len() {
        let mut callees: Vec<usize> = table.routines[order[next]].callees().collect();
        if way == Way::ByOldNumber {
            callees.sort();
        }
        for callee in callees {
            if !order.contains(&callee) {
                order.push(callee);
            }
        }
        next += 1;
    }
    order
}

/// Gives a routine the next number, and then those that its body meets.
fn depth_first(table: &Table, routine: usize, order: &mut Vec<usize>) {
    order.push(routine);
    for callee in table.routines[routine].callees() {
        if !order.contains(&callee) {
            depth_first(table, callee, order);
        }
    }
}

// Bodies.

/// A routine without its mirrors, with its names and the routines of its calls renumbered.
fn rewritten(way: Way, routine: &Routine, order: &[usize]) -> Routine {
    let names = names(way, routine);
    let is_kept = |item: &&Item| way == Way::MirrorsWritten || !matches!(item, Item::Mirror { .. });
    let items = routine.items.iter().filter(is_kept).map(|item| {
        let mut item = item.with_names(|name| names[name as usize]);
        if let Item::Call { routine, .. } = &mut item {
            let new = order.iter().position(|old| old == routine);
            *routine = new.expect("a routine that is called is kept");
        }
        item
    });
    Routine {
        parameters: routine.parameters,
        items: items.collect(),
    }
}

/// The new number of each name, from 0 on.
fn names(way: Way, routine: &Routine) -> Vec<u8> {
    match way {
        Way::MirrorsWritten => (0..routine.roots().len() as u8).collect(),
        Way::LocalsKept => routine.roots(),
        Way::OneStep => one_step_back(routine),
        Way::NumbersReused => numbered_by_scope(routine),
        _ => without_mirrors(routine),
    }
}

/// Parameters keep their numbers, the local of a NEW gets the next one above them, and a
/// mirror that of what it mirrors.
fn without_mirrors(routine: &Routine) -> Vec<u8> {
    let mut names: Vec<u8> = (0..=routine.parameters).collect();
    let mut last = routine.parameters;
    for item in &routine.items {
        match item {
            Item::New => {
                last += 1;
                names.push(last);
            }
            // What is mirrored stands before it.
            Item::Mirror { name } => names.push(names[*name as usize]),
            _ => {}
        }
    }
    names
}

/// The same, but a mirror of a mirror gets the number that a NEW in that one's place would.
fn one_step_back(routine: &Routine) -> Vec<u8> {
    let mut names: Vec<u8> = (0..=routine.parameters).collect();
    let mut as_news = names.clone();
    let mut next = routine.parameters + 1;
    for item in &routine.items {
        match item {
            Item::New => {
                names.push(next);
                as_news.push(next);
                next += 1;
            }
            Item::Mirror { name } => {
                names.push(as_news[*name as usize]);
                as_news.push(next);
            }
            _ => {}
        }
    }
    names
}

/// The same, but the local of a NEW gets the lowest number above those in scope.
fn numbered_by_scope(routine: &Routine) -> Vec<u8> {
    let mut names: Vec<u8> = (0..=routine.parameters).collect();
    for (item, scope) in routine.items.iter().zip(routine.scopes()) {
        match item {
            Item::New => {
                let highest = scope.iter().map(|&name| names[name as usize]).max();
                names.push(highest.unwrap_or(0) + 1);
            }
            Item::Mirror { name } => names.push(names[*name as usize]),
            _ => {}
        }
    }
    names
}
