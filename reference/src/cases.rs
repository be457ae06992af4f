//! The worked tables a to j of docs/FORMAT.md, and a table for each of its rules.
//! Verdicts and shares are worked out by hand.

use crate::generate::assemble;
use crate::limits::code::*;
use crate::limits::{MAX_LOCALS, MAX_PARAMETERS, MAX_ROUTINES, ROW_BYTES};
use crate::{hex, Answer, Share, Verdict};

/// A table with the verdict and the share it must get.
pub struct Case {
    /// What the case shows. A worked case's name is also the stem of its example file.
    pub name: &'static str,
    pub table: Vec<u8>,
    pub answer: Said,
}

/// An answer without its rounds, which tests/rounds.rs has.
#[derive(Clone, Copy, Debug, PartialEq, Eq)]
pub enum Said {
    Accepted { verdict: Verdict, share: Share },
    Refused(u32),
}

impl From<Answer> for Said {
    fn from(answer: Answer) -> Said {
        match answer {
            Answer::Accepted { verdict, share, .. } => Said::Accepted { verdict, share },
            Answer::Refused(number) => Said::Refused(number),
        }
    }
}

/// No reached routine has a ring, so the share is whole.
fn clear(reached: u8) -> Said {
    Said::Accepted {
        verdict: Verdict::Clear,
        share: Share {
            percent: 100,
            remainder: 0,
            reached,
        },
    }
}

/// The routine and the name of a ring, with the three numbers of the share.
fn ring(routine: usize, name: u8, [percent, remainder, reached]: [u8; 3]) -> Said {
    Said::Accepted {
        verdict: Verdict::Ring { routine, name },
        share: Share {
            percent,
            remainder,
            reached,
        },
    }
}

/// Cases a to j; i has two tables.
pub fn worked() -> Vec<Case> {
    [
        ("a-empty-body", "01 00 01 00 00", clear(1)),
        (
            "b-two-threads-opposite-order",
            "01 00 11 00 01 01 03 02 01 02 02 00 00 00 02 02 02 01 00 00 00",
            ring(0, 1, [0, 0, 1]),
        ),
        (
            "c-two-threads-same-order",
            "01 00 11 00 01 01 03 02 01 02 02 00 00 00 02 01 02 02 00 00 00",
            clear(1),
        ),
        (
            "d-one-thread-locks-twice",
            "01 00 08 00 01 02 01 02 01 00 00 00",
            clear(1),
        ),
        (
            "e-two-threads-lock-twice",
            "01 00 10 00 01 03 02 01 02 01 00 00 00 02 01 02 01 00 00 00",
            clear(1),
        ),
        (
            "f-opposite-order-under-one-guard",
            "01 00 18 00 01 01 01 03 02 01 02 03 02 02 00 00 00 00
             02 01 02 02 02 03 00 00 00 00",
            ring(0, 2, [0, 0, 1]),
        ),
        (
            "g-philosophers",
            "02 00 02 1D 00 01 06 01 01 01 00
             04 02 02 02 01 00 00 05 01 03 02 01 02 03 00 00 00 06 01 03 02 00 00",
            clear(2),
        ),
        (
            "h-philosophers-all-alike",
            "02 00 02 1D 00 01 06 01 01 01 00
             04 02 01 02 02 00 00 05 01 03 02 01 02 03 00 00 00 06 01 03 02 00 00",
            ring(0, 1, [50, 0, 2]),
        ),
        (
            "i-called-fork-one-lock-twice",
            "02 00 03 14 00 01 01 06 01 01 02 01 00
             03 02 01 02 02 02 03 00 00 00 00 00",
            ring(0, 1, [50, 0, 2]),
        ),
        (
            "i-written-fork-one-lock-twice",
            "01 00 0E 00 01 01 03 02 01 02 02 02 01 00 00 00 00 00",
            clear(1),
        ),
        (
            "j-main-thread-locks-first-again",
            "01 00 14 00 01 01 03 02 01 02 02 00 00 00
             02 01 02 02 02 01 00 00 00 00",
            clear(1),
        ),
    ]
    .into_iter()
    .map(|(name, text, answer)| Case {
        name,
        table: hex::parse(text).expect("a worked case is hexadecimal"),
        answer,
    })
    .collect()
}

/// A table with a model buffer's length, and the answer it must get.
pub struct Limit {
    pub name: &'static str,
    pub table: Vec<u8>,
    pub buffer: usize,
    pub answer: Said,
}

/// The cases that are not worked ones: both sides of the limits on open blocks,
/// locals, routines and the model buffer.
pub fn limits() -> Vec<Limit> {
    let mut all = limits_without_mirrors();
    all.extend(mirror_limits());
    all
}

/// Those on locals of both kinds, and a bad name at one too many.
pub fn mirror_limits() -> Vec<Limit> {
    // A routine 1 with one parameter and these items.
    let table = |items: &[&[u8]]| called(&[1], &[&body(items)]);
    let mirrors = |count| [MIRROR, 1].repeat(count);
    let refused = Said::Refused;
    [
        ("8 MIRROR", table(&[&mirrors(8)]), clear(2)),
        ("9 MIRROR", table(&[&mirrors(9)]), refused(11)),
        (
            "5 NEW and 3 MIRROR",
            table(&[&[NEW; 5], &mirrors(3)]),
            clear(2),
        ),
        (
            "5 NEW, 3 MIRROR and a ninth that is a NEW",
            table(&[&[NEW; 5], &mirrors(3), &[NEW]]),
            refused(11),
        ),
        (
            "5 NEW, 3 MIRROR and a ninth that is a MIRROR",
            table(&[&[NEW; 5], &mirrors(4)]),
            refused(11),
        ),
        (
            "a ninth local that is a MIRROR of a name out of scope",
            table(&[&[NEW; 8], &[MIRROR, 10]]),
            refused(11),
        ),
        (
            "an eighth local that is a MIRROR of a name out of scope",
            table(&[&[NEW; 7], &[MIRROR, 9]]),
            refused(13),
        ),
    ]
    .into_iter()
    .map(|(name, table, answer)| Limit {
        name,
        buffer: ROW_BYTES * table[0] as usize,
        table,
        answer,
    })
    .collect()
}

/// Those of tables without a MIRROR.
pub fn limits_without_mirrors() -> Vec<Limit> {
    // A routine 1 with one parameter that opens `depth` blocks, one in another.
    let nested = |open: &[u8], close: &[u8], depth: usize| {
        let section = [
            &[END],
            &open.repeat(depth)[..],
            &close.repeat(depth),
            &[END],
        ]
        .concat();
        assemble(&[0, 1], &section)
    };
    let locks = |depth| nested(&[LOCK, 1], &[END], depth);
    let firsts = |depth| nested(&[CHOICE], &[OTHER, END], depth);
    let seconds = |depth| nested(&[CHOICE, OTHER], &[END], depth);
    let news = |count| assemble(&[0], &[vec![NEW; count], vec![END]].concat());
    // Routine 0 calls all others.
    let routines = |count| without_ring(count, count);

    let mut all = Vec::new();
    let mut put = |name, table: Vec<u8>, per_routine: usize, answer| {
        all.push(Limit {
            name,
            buffer: per_routine * table[0] as usize,
            table,
            answer,
        });
    };
    let refused = Said::Refused;
    put("16 lock blocks", locks(16), ROW_BYTES, clear(1));
    put("17 lock blocks", locks(17), ROW_BYTES, refused(10));
    put("16 first alternatives", firsts(16), ROW_BYTES, clear(1));
    put("17 first alternatives", firsts(17), ROW_BYTES, refused(10));
    put("16 second alternatives", seconds(16), ROW_BYTES, clear(1));
    put(
        "17 second alternatives",
        seconds(17),
        ROW_BYTES,
        refused(10),
    );
    put("8 NEW", news(8), ROW_BYTES, clear(1));
    put("9 NEW", news(9), ROW_BYTES, refused(11));
    put("64 routines", routines(64), ROW_BYTES, clear(64));
    put("64 routines", routines(64), ROW_BYTES - 1, refused(15));
    put("65 routines", routines(65), ROW_BYTES, refused(2));
    for case in worked() {
        put(case.name, case.table.clone(), ROW_BYTES, case.answer);
        put(case.name, case.table, ROW_BYTES - 1, refused(15));
    }
    // A table that is refused otherwise is not refused for its buffer.
    put(
        "17 lock blocks, short buffer",
        locks(17),
        ROW_BYTES - 1,
        refused(10),
    );
    all
}

/// Tables that come out otherwise where one rule is read otherwise.
pub fn rules() -> Vec<Case> {
    let mut all = rules_without_mirrors();
    all.extend(mirror_rules());
    all.extend(held_mirror_rules());
    all
}

/// Those without a MIRROR.
pub fn rules_without_mirrors() -> Vec<Case> {
    let mut all = pair_rules();
    all.extend(nest_rules());
    all.extend(share_rules());
    all
}

/// A table whose routine 0 makes a lock for each parameter of routine 1 and calls it
/// with all of them; the bodies from routine 1 on follow.
fn called(parameters: &[u8], bodies: &[&[u8]]) -> Vec<u8> {
    let counts = [&[0], parameters].concat();
    let names: Vec<u8> = (1..=parameters[0]).collect();
    let news = vec![NEW; names.len()];
    let section = [&news, &[CALL, 1][..], &names, &[END], &bodies.concat()].concat();
    assemble(&counts, &section)
}

/// LOCK items on these names, one inside the other, with `inside` in the innermost.
fn nest(names: &[u8], inside: &[u8]) -> Vec<u8> {
    let locks: Vec<u8> = names.iter().flat_map(|&name| [LOCK, name]).collect();
    [&locks, inside, &vec![END; names.len()]].concat()
}

/// A fork that runs these items.
fn fork(items: &[u8]) -> Vec<u8> {
    [&[FORK], items, &[END]].concat()
}

/// A choice between these items.
fn choice(first: &[u8], second: &[u8]) -> Vec<u8> {
    [&[CHOICE], first, &[OTHER], second, &[END]].concat()
}

/// A body of these items, one after another.
fn body(parts: &[&[u8]]) -> Vec<u8> {
    [&parts.concat()[..], &[END]].concat()
}

/// A table whose routine 1 has a body of these items, and calls none.
fn alone(parameters: u8, parts: &[&[u8]]) -> Vec<u8> {
    called(&[parameters], &[&body(parts)])
}

/// Tables that tell what counts as one thread, one body, one name and one nest, for a
/// LOCK that is passed over.
fn nest_rules() -> Vec<Case> {
    let lock = |name: u8| nest(&[name], &[]);
    let locks_its_parameter = body(&[&lock(1)]);
    let fork_one_then_two = fork(&nest(&[1, 2], &[]));
    let fork_three_then_two = fork(&nest(&[3, 2], &[]));
    // With a LOCK around them and two LOCK items inside, sixteen blocks are open.
    let thirteen_choices = (0..13).fold(nest(&[2, 1], &[]), |inside, _| choice(&[], &inside));

    [
        (
            "inside a LOCK passed over the h is the outer one",
            alone(3, &[&nest(&[1, 2, 1, 3], &[])]),
            clear(2),
        ),
        (
            "a CALL inside a LOCK passed over puts the outer h for name 0",
            called(
                &[3, 1],
                &[
                    &body(&[&fork_three_then_two, &nest(&[1, 2, 1], &[CALL, 2, 3])]),
                    &locks_its_parameter,
                ],
            ),
            ring(0, 2, [33, 1, 3]),
        ),
        (
            "behind a LOCK passed over the h is as before it",
            alone(
                3,
                &[
                    &fork_three_then_two,
                    &nest(&[1, 2], &[lock(1), lock(3)].concat()),
                ],
            ),
            ring(0, 2, [0, 0, 2]),
        ),
        (
            "a fork in a LOCK block does not hold its name",
            alone(
                2,
                &[&nest(&[1], &[lock(2), fork(&nest(&[2, 1], &[]))].concat())],
            ),
            ring(0, 1, [0, 0, 2]),
        ),
        (
            "a fork passes over what it holds itself",
            alone(3, &[&fork(&nest(&[1, 2, 1, 3], &[])), &nest(&[1, 2], &[])]),
            clear(2),
        ),
        (
            "a nest goes on behind a fork in it",
            alone(
                2,
                &[
                    &fork_one_then_two,
                    &nest(&[1], &[fork(&lock(2)), nest(&[2, 1], &[])].concat()),
                ],
            ),
            clear(2),
        ),
        (
            "a callee does not hold what its caller holds",
            called(
                &[2, 1],
                &[
                    &body(&[&fork_one_then_two, &nest(&[1, 2], &[CALL, 2, 1])]),
                    &locks_its_parameter,
                ],
            ),
            ring(0, 1, [33, 1, 3]),
        ),
        (
            "a name is held no longer than its block",
            alone(
                2,
                &[
                    &fork_one_then_two,
                    &nest(&[1, 2, 1], &[]),
                    &nest(&[2, 1], &[]),
                ],
            ),
            ring(0, 1, [0, 0, 2]),
        ),
        (
            "the end of a LOCK passed over ends no hold",
            alone(
                2,
                &[
                    &fork_one_then_two,
                    &nest(&[1], &[lock(1), nest(&[2, 1], &[])].concat()),
                ],
            ),
            clear(2),
        ),
        (
            "both alternatives stand in the nest around the choice",
            alone(
                3,
                &[
                    &fork_one_then_two,
                    &nest(&[1], &choice(&nest(&[2, 1], &[]), &nest(&[3, 1, 2], &[]))),
                ],
            ),
            clear(2),
        ),
        (
            "what one alternative holds the other does not",
            alone(
                2,
                &[
                    &fork_one_then_two,
                    &choice(&nest(&[1, 2], &[]), &nest(&[2, 1], &[])),
                ],
            ),
            ring(0, 1, [0, 0, 2]),
        ),
        (
            "two parameters are two names, also for one lock",
            called(
                &[2, 3],
                &[
                    &body(&[&fork_one_then_two, &[CALL, 2, 1, 2, 1]]),
                    &body(&[&nest(&[1, 2, 3], &[])]),
                ],
            ),
            ring(0, 1, [33, 1, 3]),
        ),
        (
            "names taken again, one in another",
            alone(3, &[&nest(&[1, 2, 1, 2, 3], &[])]),
            clear(2),
        ),
        (
            "three names taken again down to the last block",
            alone(
                4,
                &[&nest(
                    &[1, 2, 3, 1, 2, 3, 1, 2, 3, 1, 2, 3, 2, 1, 1, 4],
                    &[],
                )],
            ),
            clear(2),
        ),
        (
            "the name of the innermost block taken again",
            alone(2, &[&nest(&[1, 1, 2], &[])]),
            clear(2),
        ),
        (
            "the name of the outermost block taken again in the sixteenth",
            alone(2, &[&fork_one_then_two, &nest(&[1], &thirteen_choices)]),
            clear(2),
        ),
        (
            "the highest names taken again",
            alone(
                MAX_PARAMETERS,
                &[
                    &[NEW; MAX_LOCALS as usize],
                    &fork(&nest(&[14, 15], &[])),
                    &nest(&[14, 15, 14], &[]),
                ],
            ),
            clear(2),
        ),
        (
            "a name and the one eight above it are two",
            alone(
                MAX_PARAMETERS,
                &[
                    &[NEW; MAX_LOCALS as usize],
                    &fork(&nest(&[15, 7], &[])),
                    &nest(&[7, 15], &[]),
                ],
            ),
            ring(1, 7, [50, 0, 2]),
        ),
    ]
    .into_iter()
    .map(|(name, table, answer)| Case {
        name,
        table,
        answer,
    })
    .collect()
}

/// Tables that tell what a mirror stands for and where it is in scope.
pub fn mirror_rules() -> Vec<Case> {
    // The names of the mirrors in a routine with two parameters are 3 and up.
    let fork_one_then_two = fork(&nest(&[1, 2], &[]));
    let fork_two_then_one = fork(&nest(&[2, 1], &[]));
    let one_then_two = body(&[&nest(&[1, 2], &[])]);
    let two_then = |name: u8| nest(&[2, name], &[]);
    // Eight mirrors: each of the parameters once and the last mirror, or one in a row.
    let of_each: Vec<u8> = (1..=7)
        .chain([14])
        .flat_map(|name| [MIRROR, name])
        .collect();
    let in_a_row: Vec<u8> = (7..=14).flat_map(|name| [MIRROR, name]).collect();

    [
        // What it stands for.
        (
            "a mirror of a parameter is the parameter's lock",
            alone(2, &[&[MIRROR, 1], &fork_one_then_two, &two_then(3)]),
            ring(0, 1, [0, 0, 2]),
        ),
        (
            "one order by either name",
            alone(2, &[&[MIRROR, 1], &fork_one_then_two, &nest(&[3, 2], &[])]),
            clear(2),
        ),
        (
            "a mirror of a NEW is its lock",
            plain(&[&[&[NEW, NEW, MIRROR, 1], &fork_one_then_two[..], &two_then(3)].concat()]),
            ring(0, 1, [0, 0, 1]),
        ),
        (
            "a ring is at the lock's name although only its mirror is taken",
            plain(&[&[
                &[NEW, MIRROR, 1, NEW],
                &fork(&nest(&[2, 3], &[]))[..],
                &nest(&[3, 2], &[]),
            ]
            .concat()]),
            ring(0, 1, [0, 0, 1]),
        ),
        (
            "a ring at a mirrored lock that is not the lowest name",
            plain(&[&[
                &[NEW, NEW, MIRROR, 2, NEW],
                &fork(&nest(&[3, 4], &[]))[..],
                &nest(&[4, 3], &[]),
            ]
            .concat()]),
            ring(0, 2, [0, 0, 1]),
        ),
        (
            "a mirror of a mirror",
            alone(
                2,
                &[&[MIRROR, 1, MIRROR, 3], &fork_one_then_two, &two_then(4)],
            ),
            ring(0, 1, [0, 0, 2]),
        ),
        (
            "a mirror of a mirror of a mirror",
            alone(
                2,
                &[
                    &[MIRROR, 1, MIRROR, 3, MIRROR, 4],
                    &fork_one_then_two,
                    &two_then(5),
                ],
            ),
            ring(0, 1, [0, 0, 2]),
        ),
        (
            "a mirror and one that leads back over another",
            alone(
                2,
                &[
                    &[MIRROR, 1, NEW, MIRROR, 3, MIRROR, 5],
                    &fork(&nest(&[3, 2], &[])),
                    &two_then(6),
                ],
            ),
            ring(0, 1, [0, 0, 2]),
        ),
        (
            "two mirrors of one lock",
            alone(
                2,
                &[
                    &[MIRROR, 1, MIRROR, 1],
                    &fork(&nest(&[3, 2], &[])),
                    &two_then(4),
                ],
            ),
            ring(0, 1, [0, 0, 2]),
        ),
        (
            "mirrors of two parameters",
            alone(
                2,
                &[
                    &[MIRROR, 1, MIRROR, 2],
                    &fork(&nest(&[3, 4], &[])),
                    &nest(&[4, 3], &[]),
                ],
            ),
            ring(0, 1, [0, 0, 2]),
        ),
        (
            "a mirror of name 7",
            plain(&[&[
                &[NEW; 7],
                &[MIRROR, 7][..],
                &fork(&nest(&[8, 1], &[])),
                &nest(&[1, 7], &[]),
            ]
            .concat()]),
            ring(0, 1, [0, 0, 1]),
        ),
        (
            "eight mirrors of seven parameters",
            alone(
                MAX_PARAMETERS,
                &[&of_each, &fork(&nest(&[15, 8], &[])), &nest(&[1, 7], &[])],
            ),
            ring(0, 1, [0, 0, 2]),
        ),
        (
            "eight mirrors, each of the one before",
            alone(
                MAX_PARAMETERS,
                &[&in_a_row, &fork(&nest(&[15, 1], &[])), &nest(&[1, 8], &[])],
            ),
            ring(0, 1, [0, 0, 2]),
        ),
        (
            "eight mirrors and one order",
            alone(
                MAX_PARAMETERS,
                &[&of_each, &fork(&nest(&[8, 15], &[])), &nest(&[1, 7], &[])],
            ),
            clear(2),
        ),
        // Threads, blocks and scope.
        (
            "a mirror held in a fork",
            alone(
                2,
                &[
                    &[MIRROR, 1],
                    &fork(&nest(&[3, 2], &[])),
                    &nest(&[2, 1], &[]),
                ],
            ),
            ring(0, 1, [0, 0, 2]),
        ),
        (
            "a mirror made in a fork",
            alone(
                2,
                &[
                    &fork(&[&[MIRROR, 1], &nest(&[3, 2], &[])[..]].concat()),
                    &nest(&[2, 1], &[]),
                ],
            ),
            ring(0, 1, [0, 0, 2]),
        ),
        (
            "a mirror made in a LOCK block of its lock",
            alone(
                2,
                &[
                    &fork_one_then_two,
                    &nest(&[1], &[&[MIRROR, 1], &two_then(3)[..]].concat()),
                ],
            ),
            clear(2),
        ),
        (
            "locals count on over alternatives with a mirror each",
            alone(
                2,
                &[
                    &choice(
                        &[&[MIRROR, 1], &nest(&[3, 2], &[])[..]].concat(),
                        &[MIRROR, 2],
                    ),
                    &[NEW, MIRROR, 2],
                    &fork(&nest(&[6, 1], &[])),
                ],
            ),
            ring(0, 1, [0, 0, 2]),
        ),
        (
            "each alternative has a mirror of another lock",
            alone(
                3,
                &[&choice(
                    &[&[MIRROR, 1], &nest(&[4, 3], &[])[..]].concat(),
                    &[&[MIRROR, 2], &nest(&[5, 3], &[])[..]].concat(),
                )],
            ),
            clear(2),
        ),
        // Calls.
        (
            "a CALL in the block of a mirror puts its lock for name 0",
            called(
                &[2, 1],
                &[
                    &body(&[&[MIRROR, 1], &fork_two_then_one, &nest(&[3], &[CALL, 2, 2])]),
                    &body(&[&nest(&[1], &[])]),
                ],
            ),
            ring(0, 1, [33, 1, 3]),
        ),
        (
            "a CALL passes a mirror's lock",
            called(
                &[2, 2],
                &[
                    &body(&[&[MIRROR, 1], &fork_two_then_one, &[CALL, 2, 3, 2]]),
                    &one_then_two,
                ],
            ),
            ring(0, 1, [33, 1, 3]),
        ),
        (
            "a lock and its mirror passed for two parameters of a fork",
            assemble(
                &[0, 3],
                &[
                    &[NEW, NEW, MIRROR, 1, CALL, 1, 1, 2, 3, END][..],
                    &body(&[&fork(&nest(&[1, 2, 3], &[]))]),
                ]
                .concat(),
            ),
            ring(0, 1, [50, 0, 2]),
        ),
        (
            "a pair labelled several between a lock and its mirror is a ring",
            assemble(
                &[0, 2],
                &[&[NEW, MIRROR, 1, CALL, 1, 2, 1, END], &SEVERAL[..]].concat(),
            ),
            ring(0, 1, [50, 0, 2]),
        ),
        (
            "an own pair between a lock and its mirror is dropped",
            called(
                &[2, 2],
                &[
                    &body(&[&[MIRROR, 1, CALL, 2, 1, 3], &nest(&[1, 2], &[])]),
                    &one_then_two,
                ],
            ),
            clear(3),
        ),
        (
            "a mirror of a parameter that gets the lock of another one",
            assemble(
                &[0, 3],
                &[
                    &[NEW, NEW, CALL, 1, 1, 2, 1, END][..],
                    &body(&[&[MIRROR, 3], &fork(&nest(&[1, 2, 4], &[]))]),
                ]
                .concat(),
            ),
            ring(0, 1, [50, 0, 2]),
        ),
        (
            "a routine that calls itself with a mirror",
            called(
                &[2],
                &[&body(&[
                    &[MIRROR, 1],
                    &nest(&[3, 2], &[]),
                    &[CALL, 1, 2, 3],
                ])],
            ),
            clear(2),
        ),
        // The nest, which goes by the locks; `held_mirror_rules` has more.
        (
            "a LOCK on a mirror of a name held is passed over",
            alone(
                2,
                &[&[MIRROR, 1], &fork_one_then_two, &nest(&[1, 2, 3], &[])],
            ),
            clear(2),
        ),
        (
            "a LOCK on a name whose mirror is held is passed over",
            alone(
                2,
                &[&[MIRROR, 1], &fork_one_then_two, &nest(&[3, 2, 1], &[])],
            ),
            clear(2),
        ),
        (
            "a LOCK on a mirror that is held is passed over",
            alone(
                2,
                &[&[MIRROR, 1], &fork_one_then_two, &nest(&[3, 2, 3], &[])],
            ),
            clear(2),
        ),
        (
            "a LOCK on a mirror directly inside its lock",
            alone(2, &[&[MIRROR, 1], &nest(&[1, 3, 2], &[])]),
            clear(2),
        ),
        (
            "inside a mirror passed over the h is the outer one",
            alone(
                3,
                &[
                    &[MIRROR, 1],
                    &fork(&nest(&[3, 2], &[])),
                    &nest(&[4, 2, 4, 3], &[]),
                ],
            ),
            ring(0, 2, [0, 0, 2]),
        ),
    ]
    .into_iter()
    .map(|(name, table, answer)| Case {
        name,
        table,
        answer,
    })
    .collect()
}

/// Tables that tell when a LOCK is on a lock that its thread holds by another name.
pub fn held_mirror_rules() -> Vec<Case> {
    // Mirrors are the names 3 and up in a routine with two parameters, 4 and up with three.
    let lock = |name: u8| nest(&[name], &[]);
    let fork_one_then_two = fork(&nest(&[1, 2], &[]));
    let fork_two_then_one = fork(&nest(&[2, 1], &[]));
    let fork_three_then_two = fork(&nest(&[3, 2], &[]));
    let locks_its_parameter = body(&[&lock(1)]);
    // Two locals and a mirror of the first, which is taken inside the second.
    let locals = [
        &[NEW, NEW, MIRROR, 1],
        &fork_one_then_two[..],
        &nest(&[1, 2, 3], &[]),
    ]
    .concat();
    // With a LOCK around them and two LOCK items inside, sixteen blocks are open.
    let thirteen_choices = (0..13).fold(nest(&[2, 3], &[]), |inside, _| choice(&inside, &[]));

    [
        // Which names are of one lock.
        (
            "a mirror of a name held, and no other thread",
            alone(2, &[&[MIRROR, 1], &nest(&[1, 2, 3], &[])]),
            clear(2),
        ),
        (
            "a mirror of a NEW that is held",
            plain(&[&locals]),
            clear(1),
        ),
        (
            "one mirror held and another one of its lock",
            alone(
                2,
                &[
                    &[MIRROR, 1, MIRROR, 1],
                    &fork_one_then_two,
                    &nest(&[3, 2, 4], &[]),
                ],
            ),
            clear(2),
        ),
        (
            "a mirror of a mirror of a name held",
            alone(
                2,
                &[
                    &[MIRROR, 1, MIRROR, 3],
                    &fork_one_then_two,
                    &nest(&[1, 2, 4], &[]),
                ],
            ),
            clear(2),
        ),
        (
            "a mirror whose mirror's mirror is held",
            alone(
                2,
                &[
                    &[MIRROR, 1, MIRROR, 3, MIRROR, 4],
                    &fork_one_then_two,
                    &nest(&[5, 2, 3], &[]),
                ],
            ),
            clear(2),
        ),
        (
            "a mirror of a name that is not held",
            alone(3, &[&[MIRROR, 3], &nest(&[1, 2, 4], &[])]),
            clear(2),
        ),
        (
            "a mirror is not the name eight below it",
            alone(
                3,
                &[
                    &[NEW; 5],
                    &[MIRROR, 2],
                    &fork(&nest(&[2, 3], &[])),
                    &nest(&[1, 3, 9], &[]),
                ],
            ),
            ring(0, 2, [0, 0, 2]),
        ),
        (
            "the lowest and the highest of eight mirrors",
            alone(
                MAX_PARAMETERS,
                &[
                    &[MIRROR, 7].repeat(MAX_LOCALS as usize),
                    &fork(&nest(&[7, 1], &[])),
                    &nest(&[8, 1, 15], &[]),
                ],
            ),
            clear(2),
        ),
        (
            "three names taken again by their mirrors, one in another",
            alone(
                3,
                &[
                    &[MIRROR, 1, MIRROR, 2, MIRROR, 3],
                    &nest(&[1, 5, 3, 4, 2, 6], &[]),
                ],
            ),
            clear(2),
        ),
        // The h.
        (
            "a LOCK inside a mirror passed over has the outer h",
            alone(3, &[&[MIRROR, 1], &nest(&[1, 2, 4, 3], &[])]),
            clear(2),
        ),
        (
            "a CALL inside a mirror passed over puts the outer h for name 0",
            called(
                &[3, 1],
                &[
                    &body(&[
                        &[MIRROR, 1],
                        &fork_three_then_two,
                        &nest(&[1, 2, 4], &[CALL, 2, 3]),
                    ]),
                    &locks_its_parameter,
                ],
            ),
            ring(0, 2, [33, 1, 3]),
        ),
        (
            "behind a mirror passed over the h is as before it",
            alone(
                3,
                &[
                    &[MIRROR, 1],
                    &fork_three_then_two,
                    &nest(&[1, 2], &[lock(4), lock(3)].concat()),
                ],
            ),
            ring(0, 2, [0, 0, 2]),
        ),
        (
            "the end of a mirror passed over ends no hold",
            alone(
                2,
                &[
                    &[MIRROR, 1],
                    &fork_one_then_two,
                    &nest(&[1], &[lock(3), nest(&[2, 3], &[])].concat()),
                ],
            ),
            clear(2),
        ),
        // Threads.
        (
            "a fork passes over a mirror of what it holds itself",
            alone(
                2,
                &[
                    &[MIRROR, 1],
                    &fork(&nest(&[1, 2, 3], &[])),
                    &nest(&[1, 2], &[]),
                ],
            ),
            clear(2),
        ),
        (
            "a fork alone passes over a mirror of what it holds",
            alone(2, &[&[MIRROR, 1], &fork(&nest(&[1, 2, 3], &[]))]),
            clear(2),
        ),
        (
            "a fork does not hold its parent's lock by a mirror",
            alone(
                2,
                &[
                    &[MIRROR, 1],
                    &nest(&[1], &[lock(2), fork(&nest(&[2, 3], &[]))].concat()),
                ],
            ),
            ring(0, 1, [0, 0, 2]),
        ),
        (
            "a fork does not hold the lock of its parent's mirror",
            alone(
                2,
                &[
                    &[MIRROR, 1],
                    &nest(&[3], &[lock(2), fork(&nest(&[2, 1], &[]))].concat()),
                ],
            ),
            ring(0, 1, [0, 0, 2]),
        ),
        (
            "a fork inside a mirror passed over holds nothing",
            alone(
                2,
                &[&[MIRROR, 1], &nest(&[1, 2, 3], &fork(&nest(&[2, 1], &[])))],
            ),
            ring(0, 1, [0, 0, 2]),
        ),
        (
            "a fork in a block of the lock that it takes between",
            alone(
                2,
                &[
                    &[MIRROR, 1],
                    &nest(&[2], &fork(&nest(&[1, 2, 3], &[]))),
                    &nest(&[1, 2], &[]),
                ],
            ),
            clear(2),
        ),
        (
            "behind a fork the mirror is still one of a name held",
            alone(
                2,
                &[
                    &[MIRROR, 1],
                    &fork_one_then_two,
                    &nest(&[1], &[fork(&lock(2)), nest(&[2, 3], &[])].concat()),
                ],
            ),
            clear(2),
        ),
        // Calls.
        (
            "a callee's mirror of what its caller holds",
            called(
                &[2, 1],
                &[
                    &body(&[&fork_one_then_two, &nest(&[1, 2], &[CALL, 2, 1])]),
                    &body(&[&[MIRROR, 1], &lock(2)]),
                ],
            ),
            ring(0, 1, [33, 1, 3]),
        ),
        (
            "a CALL passes a mirror of what is held",
            called(
                &[2, 1],
                &[
                    &body(&[
                        &[MIRROR, 1],
                        &fork_one_then_two,
                        &nest(&[1, 2], &[CALL, 2, 3]),
                    ]),
                    &locks_its_parameter,
                ],
            ),
            ring(0, 1, [33, 1, 3]),
        ),
        (
            "a CALL inside a mirror passed over takes its lock",
            called(
                &[2, 1],
                &[
                    &body(&[
                        &[MIRROR, 1],
                        &fork_one_then_two,
                        &nest(&[1, 2, 3], &[CALL, 2, 3]),
                    ]),
                    &locks_its_parameter,
                ],
            ),
            ring(0, 1, [33, 1, 3]),
        ),
        (
            "two parameters are no mirrors, also for a lock and its mirror",
            called(
                &[2, 3],
                &[
                    &body(&[&[MIRROR, 1], &fork_one_then_two, &[CALL, 2, 1, 2, 3]]),
                    &body(&[&nest(&[1, 2, 3], &[])]),
                ],
            ),
            ring(0, 1, [33, 1, 3]),
        ),
        (
            "a row loses a pair, and a caller its ring",
            called(
                &[2, 2],
                &[
                    &body(&[&fork_one_then_two, &[CALL, 2, 1, 2]]),
                    &body(&[&[MIRROR, 1], &nest(&[1, 2, 3], &[])]),
                ],
            ),
            clear(3),
        ),
        // Blocks and scope.
        (
            "a mirror behind the block of its lock",
            alone(
                2,
                &[
                    &[MIRROR, 1],
                    &fork_one_then_two,
                    &lock(1),
                    &nest(&[2, 3], &[]),
                ],
            ),
            ring(0, 1, [0, 0, 2]),
        ),
        (
            "a mirror made in the block between",
            alone(
                2,
                &[
                    &fork_one_then_two,
                    &nest(&[1, 2], &[&[MIRROR, 1], &lock(3)[..]].concat()),
                ],
            ),
            clear(2),
        ),
        (
            "both alternatives pass over a mirror of what is held around them",
            alone(
                3,
                &[
                    &[MIRROR, 1],
                    &fork_one_then_two,
                    &nest(&[1], &choice(&nest(&[2, 4], &[]), &nest(&[3, 4, 2], &[]))),
                ],
            ),
            clear(2),
        ),
        (
            "what one alternative holds by a mirror the other does not",
            alone(
                2,
                &[
                    &[MIRROR, 1],
                    &fork_one_then_two,
                    &choice(&nest(&[3, 2], &[]), &nest(&[2, 1], &[])),
                ],
            ),
            ring(0, 1, [0, 0, 2]),
        ),
        (
            "each alternative has a mirror of its own of what is held",
            alone(
                2,
                &[
                    &fork_one_then_two,
                    &nest(
                        &[1],
                        &choice(
                            &[&[MIRROR, 1], &nest(&[2, 3], &[])[..]].concat(),
                            &[&[MIRROR, 1], &nest(&[2, 4], &[])[..]].concat(),
                        ),
                    ),
                ],
            ),
            clear(2),
        ),
        (
            "the mirror of one alternative is held, that of the other not",
            alone(
                3,
                &[&nest(
                    &[1],
                    &choice(
                        &[&[MIRROR, 1], &nest(&[2, 4], &[])[..]].concat(),
                        &[&[MIRROR, 3], &nest(&[2, 5], &[])[..]].concat(),
                    ),
                )],
            ),
            clear(2),
        ),
        (
            "a mirror of the outermost block's name in the sixteenth",
            alone(
                2,
                &[
                    &[MIRROR, 1],
                    &fork_one_then_two,
                    &nest(&[1], &thirteen_choices),
                ],
            ),
            clear(2),
        ),
        // What becomes of rings and shares.
        (
            "a pair loses the label own, and the ring stays",
            alone(
                2,
                &[&[MIRROR, 1], &fork_two_then_one, &nest(&[1, 2, 3], &[])],
            ),
            ring(0, 1, [0, 0, 2]),
        ),
        (
            "a ring is left in another routine",
            called(
                &[2, 0],
                &[
                    &body(&[
                        &[MIRROR, 1],
                        &fork_one_then_two,
                        &nest(&[1, 2, 3], &[CALL, 2]),
                    ]),
                    &body(&[&RING]),
                ],
            ),
            ring(2, 1, [66, 2, 3]),
        ),
        (
            "a ring is left at locals",
            called(
                &[2],
                &[&[
                    &[MIRROR, 1],
                    &fork_one_then_two[..],
                    &nest(&[1, 2, 3], &[]),
                    &[NEW, NEW],
                    &opposite(4, 5),
                ]
                .concat()],
            ),
            ring(1, 4, [50, 0, 2]),
        ),
        (
            "a share grows, and the ring stays",
            plain(&[&[CALL, 1, CALL, 2], &RING, &locals]),
            ring(1, 1, [66, 2, 3]),
        ),
        (
            "a ring goes from a routine that no call reaches",
            plain(&[&[], &locals]),
            clear(1),
        ),
    ]
    .into_iter()
    .map(|(name, table, answer)| Case {
        name,
        table,
        answer,
    })
    .collect()
}

/// Items that take two locks in opposite order, the routine's thread and a fork of it: a
/// ring at both names.
const RING: [u8; 16] = [
    NEW, NEW, FORK, LOCK, 1, LOCK, 2, END, END, END, LOCK, 2, LOCK, 1, END, END,
];

/// A table of routines without parameters that run these items.
fn plain(bodies: &[&[u8]]) -> Vec<u8> {
    let section: Vec<u8> = bodies
        .iter()
        .flat_map(|items| [items, &[END][..]].concat())
        .collect();
    assemble(&vec![0; bodies.len()], &section)
}

/// A table of `reached` routines: routine 0 calls each of the others. The first `count`
/// have no ring, the rest have one.
fn without_ring(count: usize, reached: usize) -> Vec<u8> {
    let mut bodies: Vec<Vec<u8>> = (0..reached)
        .map(|routine| {
            if routine < count {
                vec![]
            } else {
                RING.to_vec()
            }
        })
        .collect();
    bodies[0].extend((1..reached).flat_map(|routine| [CALL, routine as u8]));
    let bodies: Vec<&[u8]> = bodies.iter().map(Vec::as_slice).collect();
    plain(&bodies)
}

/// A body whose row has (1, 2) labelled several, over a local 3.
const SEVERAL: [u8; 16] = [
    NEW, FORK, LOCK, 1, LOCK, 3, END, END, END, LOCK, 3, LOCK, 2, END, END, END,
];

/// A body in which a fork and the routine's thread take two locks in opposite order.
fn opposite(low: u8, high: u8) -> Vec<u8> {
    vec![
        FORK, LOCK, low, LOCK, high, END, END, END, LOCK, high, LOCK, low, END, END, END,
    ]
}

/// Tables that tell which routines a share counts, what it counts of them, and how it is
/// reckoned.
pub fn share_rules() -> Vec<Case> {
    let one_then_two = body(&[&nest(&[1, 2], &[])]);
    // Routine 0 runs these items, which call routine 1, and routine 1 has a ring.
    let called_in = |items: &[u8]| plain(&[items, &RING]);
    let call = [CALL, 1];
    let fifteen_choices = (0..15).fold(fork(&call), |inside, _| choice(&inside, &[]));
    // Routine 0 calls routine 63, or none, and the last ten have a ring.
    let mut of_64 = vec![&[][..]; MAX_ROUTINES - 10];
    of_64.extend([&RING[..]; 10]);
    let one_of_64 = plain(&of_64);
    of_64[0] = &[CALL, 63];
    let two_of_64 = plain(&of_64);

    [
        // The routines that count.
        (
            "a routine without a ring that no call reaches does not count",
            plain(&[&[], &[]]),
            clear(1),
        ),
        (
            "a routine with a ring that no call reaches does not count",
            plain(&[&call, &[], &RING]),
            clear(2),
        ),
        (
            "reached and not reached, with a ring and without",
            plain(&[&call, &RING, &[], &RING]),
            ring(1, 1, [50, 0, 2]),
        ),
        (
            "calls of a routine that no call reaches reach nothing",
            plain(&[&[], &[CALL, 0, CALL, 1, CALL, 2], &RING]),
            clear(1),
        ),
        (
            "routine 0 has a ring and those that it calls have none",
            plain(&[&[&RING[..], &[CALL, 1, CALL, 2]].concat(), &[], &[]]),
            ring(0, 1, [66, 2, 3]),
        ),
        (
            "routine 0 has no ring and those that it calls have one",
            plain(&[&[CALL, 1, CALL, 2], &RING, &RING]),
            ring(1, 1, [33, 1, 3]),
        ),
        (
            "a routine reached only over another",
            plain(&[&call, &[CALL, 2], &RING]),
            ring(2, 1, [66, 2, 3]),
        ),
        (
            "a routine reached over two higher ones",
            plain(&[&[CALL, 3], &RING, &[CALL, 1], &[CALL, 2]]),
            ring(1, 1, [75, 0, 4]),
        ),
        (
            "a routine called three times counts once",
            called_in(&[CALL, 1, CALL, 1, CALL, 1]),
            ring(1, 1, [50, 0, 2]),
        ),
        (
            "a call behind one that does not return, and routine 0 counts once",
            called_in(&[CALL, 0, CALL, 1]),
            ring(1, 1, [50, 0, 2]),
        ),
        (
            "recursion over three routines",
            plain(&[
                &call,
                &[&RING[..], &[CALL, 1, CALL, 2]].concat(),
                &[CALL, 2, CALL, 1, CALL, 0],
            ]),
            ring(1, 1, [66, 2, 3]),
        ),
        (
            "a call in a fork reaches",
            called_in(&fork(&call)),
            ring(1, 1, [50, 0, 2]),
        ),
        (
            "a call in a first alternative reaches",
            called_in(&choice(&call, &[])),
            ring(1, 1, [50, 0, 2]),
        ),
        (
            "a call in a second alternative reaches",
            called_in(&choice(&[], &call)),
            ring(1, 1, [50, 0, 2]),
        ),
        (
            "a call in a lock block reaches",
            called_in(&[&[NEW][..], &nest(&[1], &call)].concat()),
            ring(1, 1, [50, 0, 2]),
        ),
        (
            "a call in the sixteenth block reaches",
            called_in(&fifteen_choices),
            ring(1, 1, [50, 0, 2]),
        ),
        (
            "a call behind a block reaches",
            called_in(&[&fork(&[])[..], &call].concat()),
            ring(1, 1, [50, 0, 2]),
        ),
        (
            "a call with names and one without",
            assemble(
                &[0, 1, 0],
                &[
                    &[NEW, CALL, 1, 1, CALL, 2, END],
                    &nest(&[1], &[])[..],
                    &[END],
                    &RING,
                    &[END],
                ]
                .concat(),
            ),
            ring(2, 1, [66, 2, 3]),
        ),
        (
            "a name that is the code of a call, before a code that is a routine",
            plain(&[&[&[NEW; 6], &nest(&[6, 1], &[])[..]].concat(), &[], &RING]),
            clear(1),
        ),
        ("one of 64 routines is reached", one_of_64, clear(1)),
        (
            "the first and the last of 64 routines are reached",
            two_of_64,
            ring(63, 1, [50, 0, 2]),
        ),
        // Those of them that have no ring.
        (
            "pairs of a row are no ring",
            called(&[2], &[&one_then_two]),
            clear(2),
        ),
        (
            "a pair labelled several is no ring",
            called(&[2], &[&SEVERAL]),
            clear(2),
        ),
        (
            "a ring at locals of a routine with a parameter",
            called(&[1], &[&[&[NEW, NEW], &opposite(2, 3)[..]].concat()]),
            ring(1, 2, [50, 0, 2]),
        ),
        (
            "a ring at parameters, and so in the caller too",
            called(&[2], &[&opposite(1, 2)]),
            ring(0, 1, [0, 0, 2]),
        ),
        (
            "routines above the first with a ring count too",
            plain(&[&[CALL, 3, CALL, 1, CALL, 2], &RING, &[], &[]]),
            ring(1, 1, [75, 0, 4]),
        ),
        // The reckoning.
        (
            "3 of 3 have no ring: nothing is left over",
            without_ring(3, 3),
            clear(3),
        ),
        (
            "2 of 3 have no ring: the percentage is rounded down",
            without_ring(2, 3),
            ring(2, 1, [66, 2, 3]),
        ),
        (
            "1 of 6 have no ring: the remainder stays in sixths",
            without_ring(1, 6),
            ring(1, 1, [16, 4, 6]),
        ),
        (
            "6 of 7 have no ring: the percentage is not six times that of one",
            without_ring(6, 7),
            ring(6, 1, [85, 5, 7]),
        ),
        (
            "5 of 8 have no ring: half a percent is left over",
            without_ring(5, 8),
            ring(5, 1, [62, 4, 8]),
        ),
        (
            "29 of 50 have no ring: 58 percent exactly",
            without_ring(29, 50),
            ring(29, 1, [58, 0, 50]),
        ),
        (
            "0 of 64 have no ring",
            without_ring(0, 64),
            ring(0, 1, [0, 0, 64]),
        ),
        (
            "1 of 64 have no ring",
            without_ring(1, 64),
            ring(1, 1, [1, 36, 64]),
        ),
        (
            "21 of 64 have no ring",
            without_ring(21, 64),
            ring(21, 1, [32, 52, 64]),
        ),
        (
            "63 of 64 have no ring",
            without_ring(63, 64),
            ring(63, 1, [98, 28, 64]),
        ),
        ("64 of 64 have no ring", without_ring(64, 64), clear(64)),
    ]
    .into_iter()
    .map(|(name, table, answer)| Case {
        name,
        table,
        answer,
    })
    .collect()
}

/// What a place, a label, a call and a row are.
fn pair_rules() -> Vec<Case> {
    let one_then_two = [LOCK, 1, LOCK, 2, END, END, END];
    let fork_one_then_two = [FORK, LOCK, 1, LOCK, 2, END, END, END, END];
    // Calls routine 2 with one name twice, then locks 1 and 2.
    let aliasing = [CALL, 2, 1, 1, LOCK, 1, LOCK, 2, END, END, END];
    let two_locals = [vec![NEW, NEW], opposite(1, 2)].concat();

    let mut all = Vec::new();
    let mut put = |name: &'static str, table: Vec<u8>, answer: Said| {
        all.push(Case {
            name,
            table,
            answer,
        });
    };

    put(
        "a fork in a lock block holds nothing, also after its own lock block",
        called(
            &[2],
            &[&[LOCK, 1, FORK, LOCK, 2, END, LOCK, 2, END, END, END, END]],
        ),
        clear(2),
    );
    put(
        "the running thread keeps its lock past a fork",
        called(&[2], &[&[LOCK, 1, FORK, END, LOCK, 2, END, END, END]]),
        clear(2),
    );
    put(
        "a call in a fork without a lock drops name 0, and own becomes the fork",
        called(
            &[2, 2],
            &[
                &[LOCK, 1, FORK, CALL, 2, 1, 2, END, END, END],
                &one_then_two,
            ],
        ),
        clear(3),
    );
    put(
        "a call in a fork with a lock puts it for name 0",
        called(
            &[2, 1],
            &[
                &[FORK, LOCK, 1, CALL, 2, 2, END, END, END],
                &[LOCK, 1, END, END],
            ],
        ),
        clear(3),
    );
    put(
        "a fork and what it calls are one thread",
        assemble(
            &[0, 2],
            &[
                NEW, NEW, FORK, LOCK, 1, CALL, 1, 1, 2, END, END, END, //
                LOCK, 2, LOCK, 1, END, END, END,
            ],
        ),
        clear(2),
    );
    put(
        "two forks are two threads",
        assemble(
            &[0],
            &[
                NEW, NEW, FORK, LOCK, 1, LOCK, 2, END, END, END, //
                FORK, LOCK, 2, LOCK, 1, END, END, END, END,
            ],
        ),
        ring(0, 1, [0, 0, 1]),
    );
    put(
        "two calls in one fork are one thread",
        assemble(
            &[0, 2],
            &[
                &[NEW, NEW, FORK, CALL, 1, 1, 2, CALL, 1, 2, 1, END, END][..],
                &one_then_two,
            ]
            .concat(),
        ),
        clear(2),
    );
    put(
        "two calls that fork are two threads",
        assemble(
            &[0, 2],
            &[
                &[NEW, NEW, CALL, 1, 1, 2, CALL, 1, 2, 1, END][..],
                &fork_one_then_two,
            ]
            .concat(),
        ),
        ring(0, 1, [50, 0, 2]),
    );
    put(
        "unknown stays unknown in a fork",
        called(
            &[2, 2],
            &[
                &[FORK, LOCK, 1, CALL, 2, 1, 2, END, END, END],
                &fork_one_then_two,
            ],
        ),
        clear(3),
    );
    put(
        "the alternatives of a choice are put together",
        called(
            &[2],
            &[&[
                CHOICE, LOCK, 1, LOCK, 2, END, END, OTHER, LOCK, 2, LOCK, 1, END, END, END, END,
            ]],
        ),
        clear(2),
    );
    put(
        "a ring from a call combines further",
        called(&[2, 2], &[&aliasing, &SEVERAL]),
        ring(1, 1, [66, 2, 3]),
    );
    put(
        "an own pair with equal ends is dropped",
        called(&[2, 2], &[&aliasing, &one_then_two]),
        clear(3),
    );
    put(
        "an unknown pair with equal ends is dropped",
        called(&[2, 2], &[&aliasing, &fork_one_then_two]),
        clear(3),
    );
    put(
        "a callee's ring stays with the callee",
        assemble(&[0, 0], &[&[CALL, 1, END], &two_locals[..]].concat()),
        ring(1, 1, [50, 0, 2]),
    );
    put(
        "a ring that calls do not reach",
        assemble(&[0, 0], &[&[END], &two_locals[..]].concat()),
        clear(1),
    );
    put(
        "a ring reached over a higher routine, from inside a block",
        assemble(
            &[0, 0, 0],
            &[
                &[CHOICE, OTHER, CALL, 2, END, END],
                &two_locals[..],
                &[CALL, 1, END],
            ]
            .concat(),
        ),
        ring(1, 1, [66, 2, 3]),
    );
    put(
        "the lowest routine before the lowest name",
        assemble(
            &[0, 0, 0],
            &[
                vec![CALL, 2, CALL, 1, END],
                vec![NEW; 8],
                opposite(7, 8),
                two_locals.clone(),
            ]
            .concat(),
        ),
        ring(1, 7, [33, 1, 3]),
    );
    put(
        "a ring at the highest names",
        assemble(
            &[0, 7],
            &[
                vec![NEW, CALL, 1, 1, 1, 1, 1, 1, 1, 1, END],
                vec![NEW; 8],
                opposite(14, 15),
            ]
            .concat(),
        ),
        ring(1, 14, [50, 0, 2]),
    );
    put(
        "a chain over locals, each step by another thread",
        called(
            &[2],
            &[&[
                NEW, NEW, NEW, //
                FORK, LOCK, 1, LOCK, 3, END, END, END, //
                FORK, LOCK, 4, LOCK, 5, END, END, END, //
                FORK, LOCK, 3, LOCK, 4, END, END, END, //
                FORK, LOCK, 5, LOCK, 2, END, END, END, END,
            ]],
        ),
        clear(2),
    );
    put(
        "a ring that needs a name twice on the way",
        // Each of two forks goes from 3 and back; one pass over the names misses it.
        assemble(
            &[0],
            &[
                NEW, NEW, NEW, //
                FORK, LOCK, 3, LOCK, 1, END, END, LOCK, 1, LOCK, 3, END, END, END, //
                FORK, LOCK, 3, LOCK, 2, END, END, LOCK, 2, LOCK, 3, END, END, END, END,
            ],
        ),
        ring(0, 1, [0, 0, 1]),
    );
    // Routine r calls routine r + 1 with its names exchanged; the last one locks.
    let mut counts = vec![0];
    let mut section = vec![NEW, NEW, CALL, 1, 1, 2, END];
    for r in 1..63 {
        counts.push(2);
        section.extend([CALL, r + 1, 2, 1, END]);
    }
    counts.push(2);
    section.extend(one_then_two);
    put(
        "a long chain of calls",
        assemble(&counts, &section),
        clear(64),
    );
    put(
        "recursion that turns three names round",
        assemble(
            &[0, 3],
            &[
                NEW, NEW, NEW, CALL, 1, 1, 2, 3, END, //
                LOCK, 1, LOCK, 2, END, END, CALL, 1, 2, 3, 1, END,
            ],
        ),
        clear(2),
    );
    all
}
