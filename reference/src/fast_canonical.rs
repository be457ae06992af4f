//! A writer of canonical tables made for speed. It is for the benchmark only, as `fast` is; the plain
//! one of `canonical` stays the reference, and `tests/fast_canonical.rs` holds this one against it.
//!
//! The pass over the bytes that checks them (`fast_read`) notes where each body begins and ends, how
//! many mirrors it has, and where its calls are. From that come the order of the routines and the length
//! of the result, without another look at other bytes. A body without mirrors is then copied whole and
//! the routines of its calls are put in; only one with mirrors is parsed a second time. Nothing is taken
//! from the heap.

use crate::fast_read::{self, head, read_body, Called, List, Listener, Renaming};
use crate::limits::{code, refusal, CANONICAL_BASE, MAX_ROUTINES, MAX_SECTION};

/// A CALL takes two bytes or more.
const MAX_CALLS: usize = MAX_SECTION / 2;
/// A MIRROR takes two bytes.
const MIRROR_BYTES: usize = 2;

/// What is noted of one body.
#[derive(Clone, Copy)]
struct Body {
    /// It is these bytes of the section.
    start: u16,
    end: u16,
    /// Its calls are these of the list of calls.
    first_call: u16,
    after_calls: u16,
    mirrors: u8,
    /// The routines that it calls, as bits.
    callees: u64,
}

impl Body {
    fn bytes(self, section: &[u8]) -> &[u8] {
        &section[self.start as usize..self.end as usize]
    }

    /// Where the routines of its calls stand in the section.
    fn calls(self, calls: &[u16]) -> &[u16] {
        &calls[self.first_call as usize..self.after_calls as usize]
    }

    /// The bytes that it is written in.
    fn written(self) -> usize {
        usize::from(self.end - self.start) - MIRROR_BYTES * usize::from(self.mirrors)
    }
}

/// Notes what there is in one body.
struct Survey<'a> {
    body: Body,
    calls: &'a mut List<u16, MAX_CALLS>,
}

impl Listener for Survey<'_> {
    type Place = ();
    const START: () = ();

    #[inline(always)]
    fn lock(&mut self, _: &mut (), _: u8) {}

    #[inline(always)]
    fn fork(&mut self, _: &mut (), _: u8) {}

    #[inline(always)]
    fn call(&mut self, _: (), call: Called) {
        self.body.callees |= 1 << call.routine;
        self.calls.push(call.names as u16 - 1);
    }

    #[inline(always)]
    fn mirror(&mut self, _: u8, _: u8) {
        self.body.mirrors += 1;
    }
}

/// The routines that are kept.
struct Order {
    /// By their new numbers, the numbers that they have.
    old: [u8; MAX_ROUTINES],
    kept: usize,
    /// By the numbers that they have, the new ones.
    new: [u8; MAX_ROUTINES],
}

impl Order {
    fn old(&self) -> &[u8] {
        &self.old[..self.kept]
    }
}

/// Writes the canonical table into the head of `out` and gives 65,536 + its length, as the archive's
/// writer does.
pub fn canonical_number(table: &[u8], out: &mut [u8]) -> u32 {
    write(table, out).unwrap_or_else(|number| number)
}

fn write(table: &[u8], out: &mut [u8]) -> Result<u32, u32> {
    let (counts, section) = head(table)?;
    let mut bodies = List::<Body, MAX_ROUTINES>::new();
    let mut calls = List::<u16, MAX_CALLS>::new();
    fast_read::bodies(counts, section, |parameters, at| {
        let (body, after) = survey(counts, section, parameters, at, &mut calls)?;
        bodies.push(body);
        Ok(after)
    })?;
    let (bodies, calls) = (bodies.all_mut(), calls.all_mut());
    let order = order(section, bodies, calls);
    let head = 1 + order.kept + 2;
    let kept = order.old().iter().map(|&old| bodies[old as usize]);
    let said: usize = kept.clone().map(Body::written).sum();
    let length = head + said;
    let out = out.get_mut(..length).ok_or(refusal::SHORT_OUTPUT)?;
    let (new_head, mut rest) = out.split_at_mut(head);
    let (routines, new_counts) = new_head.split_at_mut(1);
    let (new_counts, new_said) = new_counts.split_at_mut(order.kept);
    routines[0] = order.kept as u8;
    new_said.copy_from_slice(&(said as u16).to_le_bytes());
    for ((&old, body), count) in order.old().iter().zip(kept).zip(new_counts) {
        *count = counts[old as usize];
        let (place, behind) = rest.split_at_mut(body.written());
        if body.mirrors == 0 {
            copy(body, section, calls, &order.new, place);
        } else {
            rewrite(body.bytes(section), counts, *count, &order.new, place);
        }
        rest = behind;
    }
    Ok(CANONICAL_BASE + length as u32)
}

/// Checks the body at an offset and notes what there is in it; also the offset after it.
#[inline(always)]
fn survey(
    counts: &[u8],
    section: &[u8],
    parameters: u8,
    at: usize,
    calls: &mut List<u16, MAX_CALLS>,
) -> Result<(Body, usize), u32> {
    let first_call = calls.len() as u16;
    let body = Body {
        start: at as u16,
        end: 0,
        first_call,
        after_calls: 0,
        mirrors: 0,
        callees: 0,
    };
    let mut survey = Survey { body, calls };
    let (after, _) = read_body(counts, section, at, parameters, &mut survey)?;
    let body = Body {
        end: after as u16,
        after_calls: survey.calls.len() as u16,
        ..survey.body
    };
    Ok((body, after))
}

/// Gives each routine the next number where it is first met, in the bodies by their new numbers. A body
/// is gone through only if it calls a routine without a number.
fn order(section: &[u8], bodies: &[Body], calls: &[u16]) -> Order {
    let mut order = Order {
        old: [0; MAX_ROUTINES],
        kept: 1,
        new: [0; MAX_ROUTINES],
    };
    let mut met = 1u64;
    let mut next = 0;
    while next < order.kept {
        let body = bodies[order.old[next] as usize];
        let mut calls = body.calls(calls).iter();
        while body.callees & !met != 0 {
            let Some(&call) = calls.next() else { break };
            let callee = section[call as usize];
            if met >> callee & 1 == 0 {
                met |= 1 << callee;
                order.new[callee as usize] = order.kept as u8;
                order.old[order.kept] = callee;
                order.kept += 1;
            }
        }
        next += 1;
    }
    order
}

/// Writes a body without mirrors: its names stay.
#[inline(always)]
fn copy(body: Body, section: &[u8], calls: &[u16], new: &[u8; MAX_ROUTINES], place: &mut [u8]) {
    place.copy_from_slice(body.bytes(section));
    for &call in body.calls(calls) {
        let callee = &mut place[usize::from(call - body.start)];
        *callee = new[*callee as usize];
    }
}

/// Writes a body with mirrors, item by item.
fn rewrite(body: &[u8], counts: &[u8], parameters: u8, new: &[u8; MAX_ROUTINES], place: &mut [u8]) {
    let mut names = Renaming::NONE;
    // The last name so far, and the last number that a name has got.
    let (mut last, mut number) = (parameters, parameters);
    let (mut from, mut to) = (0, 0);
    while from < body.len() {
        let item = body[from];
        if item == code::MIRROR {
            last += 1;
            names.rename(last, names.of(body[from + 1]));
            from += MIRROR_BYTES;
            continue;
        }
        place[to] = item;
        from += 1;
        to += 1;
        match item {
            code::NEW => {
                last += 1;
                number += 1;
                names.rename(last, number);
            }
            code::LOCK => {
                place[to] = names.of(body[from]);
                from += 1;
                to += 1;
            }
            code::CALL => {
                let callee = body[from] as usize;
                place[to] = new[callee];
                let passed = counts[callee] as usize;
                let old = &body[from + 1..][..passed];
                for (name, &old) in place[to + 1..][..passed].iter_mut().zip(old) {
                    *name = names.of(old);
                }
                from += 1 + passed;
                to += 1 + passed;
            }
            _ => {}
        }
    }
}
