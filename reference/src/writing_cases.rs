//! Inputs for `canonical` made by hand, with what they must give.

use crate::cases::{rules, worked};
use crate::generate::{assemble, boundaries};
use crate::limits::code::*;
use crate::limits::{refusal, CANONICAL_BASE, MAX_LOCALS, MAX_ROUTINES, MAX_SECTION};
use crate::writings::Input;

/// An input made by hand.
pub struct ByHand {
    pub what: String,
    pub input: Input,
    /// What it must give, where that is known by hand.
    pub due: Option<Due>,
}

/// The answer, and the buffer afterwards.
#[derive(Clone, Debug, PartialEq, Eq)]
pub struct Due {
    pub answer: u32,
    pub out: Vec<u8>,
}

impl Due {
    /// What is due of a canonical table, or of a refusal, with this buffer.
    fn of(outcome: Result<&[u8], u32>, out: &[u8]) -> Due {
        let (answer, head): (u32, &[u8]) = match outcome {
            Err(number) => (number, &[]),
            Ok(result) if out.len() < result.len() => (refusal::SHORT_OUTPUT, &[]),
            Ok(result) => (CANONICAL_BASE + result.len() as u32, result),
        };
        Due {
            answer,
            out: [head, &out[head.len()..]].concat(),
        }
    }
}

/// A table with its canonical table.
struct Rewritten {
    what: &'static str,
    table: Vec<u8>,
    result: Vec<u8>,
}

/// Tables with buffers on both sides of each limit.
pub fn by_hand() -> Vec<ByHand> {
    let mut all = Vec::new();
    let mut put = |what: &str, table: &[u8], outcome: Option<Result<&[u8], u32>>, out: Vec<u8>| {
        all.push(ByHand {
            what: format!("{what}, {} bytes", out.len()),
            due: outcome.map(|outcome| Due::of(outcome, &out)),
            input: Input {
                table: table.to_vec(),
                out,
            },
        });
    };
    for Rewritten {
        what,
        table,
        result,
    } in small_tables()
    {
        for length in 0..=table.len() + 2 {
            put(what, &table, Some(Ok(&result)), vec![0; length]);
            put(what, &table, Some(Ok(&result)), vec![255; length]);
        }
        // What is written is written again.
        put(what, &result, Some(Ok(&result)), vec![255; result.len()]);
    }
    for Rewritten {
        what,
        table,
        result,
    } in large_tables()
    {
        let exact = result.len();
        for length in [0, exact - 1, exact, exact + 1, table.len(), 2 * table.len()] {
            put(what, &table, Some(Ok(&result)), vec![255; length]);
        }
    }
    for boundary in boundaries() {
        let table = &boundary.table;
        for length in [0, 1, table.len(), table.len() + 100] {
            let refused = boundary.refusal.map(Err);
            put(boundary.what, table, refused, vec![255; length]);
        }
    }
    // The worked tables are canonical as they are.
    for case in worked() {
        let table = &case.table;
        for length in [table.len() - 1, table.len(), table.len() + 1] {
            put(case.name, table, Some(Ok(table)), vec![255; length]);
        }
    }
    for case in rules() {
        let table = &case.table;
        for length in [table.len() - 2, table.len()] {
            put(case.name, table, None, vec![255; length]);
        }
    }
    all
}

/// A table of routines, each with its parameter count and its body.
fn table(routines: &[(u8, &[u8])]) -> Vec<u8> {
    let counts: Vec<u8> = routines.iter().map(|(count, _)| *count).collect();
    let bodies: Vec<&[u8]> = routines.iter().map(|(_, body)| *body).collect();
    assemble(&counts, &bodies.concat())
}

fn rewritten(what: &'static str, before: &[(u8, &[u8])], after: &[(u8, &[u8])]) -> Rewritten {
    Rewritten {
        what,
        table: table(before),
        result: table(after),
    }
}

/// Tables of a few routines.
fn small_tables() -> Vec<Rewritten> {
    vec![
        rewritten("nothing in it", &[(0, &[END])], &[(0, &[END])]),
        rewritten(
            "one that nobody calls",
            &[(0, &[END]), (0, &[END])],
            &[(0, &[END])],
        ),
        // 0 meets 3 and then 1, 3 meets 4, and 1 meets 2.
        rewritten(
            "as they are met",
            &[
                (0, &[NEW, CALL, 3, 1, CALL, 1, END]),
                (0, &[NEW, CALL, 2, 1, 1, END]),
                (2, &[LOCK, 2, END, END]),
                (1, &[CALL, 4, 1, 1, 1, CALL, 1, END]),
                (3, &[LOCK, 3, END, END]),
            ],
            &[
                (0, &[NEW, CALL, 1, 1, CALL, 2, END]),
                (1, &[CALL, 3, 1, 1, 1, CALL, 2, END]),
                (0, &[NEW, CALL, 4, 1, 1, END]),
                (3, &[LOCK, 3, END, END]),
                (2, &[LOCK, 2, END, END]),
            ],
        ),
        // 1 and 3 call each other and themselves; 2 calls both.
        rewritten(
            "a round, and one beside it",
            &[
                (0, &[CALL, 0, CALL, 3, END]),
                (0, &[CALL, 1, CALL, 3, CALL, 0, END]),
                (0, &[CALL, 1, CALL, 2, CALL, 3, END]),
                (0, &[CALL, 3, CALL, 1, END]),
            ],
            &[
                (0, &[CALL, 0, CALL, 1, END]),
                (0, &[CALL, 1, CALL, 2, END]),
                (0, &[CALL, 2, CALL, 1, CALL, 0, END]),
            ],
        ),
        // 3 mirrors 1, 4 is a NEW, 5 mirrors 3 and 6 mirrors 4.
        rewritten(
            "mirrors between NEW items",
            &[
                (0, &[NEW, NEW, CALL, 1, 2, 1, END]),
                (
                    2,
                    &[
                        MIRROR, 1, NEW, MIRROR, 3, MIRROR, 4, NEW, LOCK, 6, LOCK, 5, LOCK, 7, END,
                        END, END, CALL, 1, 3, 4, END,
                    ],
                ),
            ],
            &[
                (0, &[NEW, NEW, CALL, 1, 2, 1, END]),
                (
                    2,
                    &[
                        NEW, NEW, LOCK, 3, LOCK, 1, LOCK, 4, END, END, END, CALL, 1, 1, 3, END,
                    ],
                ),
            ],
        ),
        // 2 is a mirror in the first alternative, 3 and 4 are in the second, 5 is behind.
        rewritten(
            "locals in alternatives",
            &[(
                0,
                &[
                    NEW, CHOICE, MIRROR, 1, LOCK, 2, END, OTHER, NEW, MIRROR, 3, LOCK, 4, END, END,
                    NEW, LOCK, 5, FORK, LOCK, 1, END, END, END, END,
                ],
            )],
            &[(
                0,
                &[
                    NEW, CHOICE, LOCK, 1, END, OTHER, NEW, LOCK, 2, END, END, NEW, LOCK, 3, FORK,
                    LOCK, 1, END, END, END, END,
                ],
            )],
        ),
    ]
}

/// Tables at the limits.
fn large_tables() -> Vec<Rewritten> {
    let n = MAX_ROUTINES;
    // Bodies of 64 bytes: choices that do nothing, a CALL of this routine, and an END.
    let calls = |routine: usize| -> Vec<u8> {
        let choices = [CHOICE, OTHER, END].repeat(20);
        [&choices, &[NEW, CALL, routine as u8, END][..]].concat()
    };
    let of = |bodies: Vec<Vec<u8>>| assemble(&vec![0; bodies.len()], &bodies.concat());
    // 0 calls the last, each other one the one before it, and 1 itself.
    let mut line: Vec<Vec<u8>> = (0..n).map(|at| calls((at + n - 1) % n)).collect();
    line[1] = calls(1);
    let mut straight: Vec<Vec<u8>> = (1..n).map(calls).collect();
    straight.push(calls(n - 1));
    assert_eq!(line.concat().len(), MAX_SECTION);
    // Each calls the one two before it, 0 the last but one and 1 calls 0: the odd ones are not
    // reached.
    let mut by_twos: Vec<Vec<u8>> = (0..n).map(|at| calls((at + n - 2) % n)).collect();
    by_twos[1] = calls(0);
    let half = n / 2;
    let kept: Vec<Vec<u8>> = (0..half).map(|at| calls((at + 1) % half)).collect();
    let most = MAX_LOCALS as usize;
    let mirrors: Vec<u8> = (7..15).flat_map(|name| [MIRROR, name]).collect();
    let names: Vec<u8> = (9..16).collect();
    let news = [vec![NEW; most], [&[CALL, 1][..], &[8; 7], &[END]].concat()].concat();
    let all_mirrors = [&mirrors, &[LOCK, 15, END, CALL, 1][..], &names, &[END]].concat();
    let no_mirrors = [&[LOCK, 7, END, CALL, 1][..], &[7; 7], &[END]].concat();
    vec![
        Rewritten {
            what: "64 routines in a line",
            table: of(line),
            result: of(straight.clone()),
        },
        Rewritten {
            what: "64 routines in a line, as they are met",
            table: of(straight.clone()),
            result: of(straight),
        },
        Rewritten {
            what: "64 routines, each second one reached",
            table: of(by_twos),
            result: of(kept),
        },
        Rewritten {
            what: "8 mirrors one of another",
            table: table(&[(0, &news), (7, &all_mirrors)]),
            result: table(&[(0, &news), (7, &no_mirrors)]),
        },
    ]
}

#[cfg(test)]
mod tests {
    use super::*;
    use crate::canonical::canonical_number;

    #[test]
    fn inputs_made_by_hand_give_what_is_due() {
        let mut known = 0;
        for ByHand { what, input, due } in by_hand() {
            let mut out = input.out.clone();
            let answer = canonical_number(&input.table, &mut out);
            if let Some(due) = due {
                assert_eq!(Due { answer, out }, due, "{what}: {input:?}");
                known += 1;
            }
        }
        assert!(known >= 600, "{known}");
    }
}
