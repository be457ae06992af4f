//! The worked tables a to j, refusals and rules of docs/FORMAT.md, one test for each.

use reference::cases::{limits, rules, worked, Said};
use reference::generate::{assemble, random};
use reference::hex;
use reference::limits::code::*;
use reference::limits::{MAX_ROUTINES, READ_LIMIT, RING_BYTE, ROW_BYTES};
use reference::table::read;
use reference::{analyse, analyse_by, analyse_number, check, check_number, listing};
use reference::{Answer, Rules, Share, Verdict};

/// A byte that no model holds.
const FILLER: u8 = 0xA5;

/// The answer, and the model with the buffer exactly as long as it must be.
fn model(table: &[u8]) -> (Answer, Vec<u8>) {
    let (routines, _) = check(table).expect("valid");
    let mut buffer = vec![FILLER; ROW_BYTES * routines];
    let answer = analyse(table, &mut buffer);
    (answer, buffer)
}

/// The nonzero cells of one routine as (a, b, value), and its last byte.
fn row(table: &[u8], routine: usize) -> (Vec<(usize, usize, u8)>, u8) {
    let (_, model) = model(table);
    let row = &model[ROW_BYTES * routine..][..ROW_BYTES];
    let cells = (0..RING_BYTE)
        .filter(|&cell| row[cell] != 0)
        .map(|cell| (cell / 8, cell % 8, row[cell]))
        .collect();
    (cells, row[RING_BYTE])
}

fn case(name: &str) -> Vec<u8> {
    worked()
        .into_iter()
        .find(|case| case.name == name)
        .expect("a worked case")
        .table
}

fn rule(name: &str) -> Vec<u8> {
    rules()
        .into_iter()
        .find(|case| case.name == name)
        .expect("a table for a rule")
        .table
}

// The worked cases.

#[test]
fn worked_cases_get_their_verdicts_and_shares() {
    assert_eq!(worked().len(), 11);
    for case in worked() {
        assert_eq!(
            Said::from(model(&case.table).0),
            case.answer,
            "{}",
            case.name
        );
    }
}

#[test]
fn case_a_has_65_zero_bytes() {
    let table = case("a-empty-body");
    assert_eq!(check(&table), Ok((1, 1)));
    assert_eq!(model(&table).1, vec![0; 65]);
}

#[test]
fn case_b_has_a_ring_byte_alone() {
    let table = case("b-two-threads-opposite-order");
    assert_eq!(check(&table), Ok((1, 13)));
    assert_eq!(row(&table, 0), (vec![], 1));
}

#[test]
fn case_h_has_its_row_1() {
    let table = case("h-philosophers-all-alike");
    assert_eq!(row(&table, 0), (vec![], 1));
    assert_eq!(row(&table, 1), (vec![(0, 1, 1), (0, 2, 5), (1, 2, 5)], 0));
}

#[test]
fn case_i_has_unknown_pairs_in_its_row_1() {
    let table = case("i-called-fork-one-lock-twice");
    assert_eq!(row(&table, 1), (vec![(1, 2, 2), (1, 3, 2), (2, 3, 2)], 0));
}

#[test]
fn case_j_is_clear_and_was_a_ring_before_request_101() {
    let table = case("j-main-thread-locks-first-again");
    assert_eq!(row(&table, 0), (vec![], 0));
    assert_eq!(
        Said::from(analyse_by(Rules::Before101, &table, &mut [0; ROW_BYTES])),
        Said::Accepted {
            verdict: Verdict::Ring {
                routine: 0,
                name: 1
            },
            share: Share {
                percent: 0,
                remainder: 0,
                reached: 1
            },
        }
    );
}

// The cases on either side of a limit.

#[test]
fn cases_at_limits_get_their_answers() {
    for case in limits() {
        let mut buffer = vec![FILLER; case.buffer];
        assert_eq!(
            Said::from(analyse(&case.table, &mut buffer)),
            case.answer,
            "{}",
            case.name
        );
    }
}

// The refusals, one table for each; `generate` has many more.

#[test]
fn each_refusal_of_the_check() {
    for (number, text) in [
        (1, ""),
        (2, "00 00 00"),
        (2, "41"),
        (3, "01"),
        (3, "01 00 01"),
        (4, "01 01 01 00 00"),
        (4, "02 00 08 02 00 00 00"),
        (5, "01 00 01 10"),
        (6, "01 00 01 00"),
        (6, "01 00 01 00 00 00"),
        (7, "01 00 00 00"),
        (7, "02 00 00 01 00 00"),
        (8, "01 00 02 00 08 00"),
        (9, "01 00 02 00 05 00"),
        (9, "01 00 03 00 04 00 00"),
        (
            10,
            "01 00 12 00 04 04 04 04 04 04 04 04 04 04 04 04 04 04 04 04 04 00",
        ),
        (11, "01 00 0A 00 01 01 01 01 01 01 01 01 01 00"),
        (11, "01 00 0B 00 01 01 01 01 01 01 01 01 07 01 00"),
        (12, "01 00 01 00 06"),
        (12, "01 00 03 00 06 01 00"),
        (13, "01 00 01 00 02"),
        (13, "01 00 04 00 02 01 00 00"),
        (13, "02 00 01 03 00 01 06 01"),
        (13, "01 00 01 00 07"),
        (13, "01 00 03 00 07 01 00"),
        (14, "01 00 02 00 00 00"),
    ] {
        let table = hex::parse(text).expect("hexadecimal");
        assert_eq!(check(&table), Err(number), "{text}");
        assert_eq!(check_number(&table), number, "{text}");
        // The analysis refuses alike, whatever the buffer, and changes nothing.
        for length in [0, 65, 65 * MAX_ROUTINES] {
            let mut buffer = vec![FILLER; length];
            assert_eq!(analyse(&table, &mut buffer), Answer::Refused(number));
            assert_eq!(analyse_number(&table, &mut buffer), number);
            assert_eq!(buffer, vec![FILLER; length]);
        }
        assert_eq!(listing(&table), format!("refused {number}\n").into_bytes());
    }
}

#[test]
fn refusal_15_is_a_short_buffer() {
    for case in worked() {
        let (routines, _) = check(&case.table).expect("valid");
        for length in [0, 1, 64 * routines, 65 * routines - 1] {
            let mut buffer = vec![FILLER; length];
            assert_eq!(analyse(&case.table, &mut buffer), Answer::Refused(15));
            assert_eq!(analyse_number(&case.table, &mut buffer), 15);
            assert_eq!(buffer, vec![FILLER; length]);
        }
    }
}

#[test]
fn bytes_after_the_model_stay() {
    for case in worked() {
        let (answer, model) = model(&case.table);
        for more in [1, 64, 65, 1000] {
            let mut buffer = vec![FILLER; model.len() + more];
            assert_eq!(analyse(&case.table, &mut buffer), answer);
            assert_eq!(buffer[..model.len()], model);
            assert_eq!(buffer[model.len()..], vec![FILLER; more]);
        }
    }
}

/// `depth` nested LOCK blocks in a routine 1 with one parameter, then `inside`.
fn nested(depth: usize, inside: &[u8]) -> Vec<u8> {
    let mut section = vec![END];
    section.extend([LOCK, 1].repeat(depth));
    section.extend(inside);
    section.extend([END].repeat(depth + 1));
    assemble(&[0, 1], &section)
}

#[test]
fn sixteen_blocks_pass_and_seventeen_get_10() {
    assert_eq!(check(&nested(16, &[])), Ok((2, 34)));
    assert_eq!(check(&nested(17, &[])), Err(10));
    assert_eq!(check(&nested(15, &[CHOICE, OTHER, END])), Ok((2, 35)));
    assert_eq!(check(&nested(16, &[CHOICE, OTHER, END])), Err(10));
}

#[test]
fn eight_new_pass_and_nine_get_11() {
    assert_eq!(
        check(&assemble(&[0], &[&[NEW; 8][..], &[END]].concat())),
        Ok((1, 9))
    );
    assert_eq!(
        check(&assemble(&[0], &[&[NEW; 9][..], &[END]].concat())),
        Err(11)
    );
}

#[test]
fn competing_refusals() {
    // A seventeenth block with a bad name, and a sixteenth.
    assert_eq!(check(&nested(16, &[LOCK, 9, END])), Err(10));
    assert_eq!(check(&nested(15, &[LOCK, 9, END])), Err(13));
    // A ninth FORK that would be a seventeenth block, and one that would not.
    let nine_inside = [[FORK].repeat(9), [END].repeat(9)].concat();
    assert_eq!(check(&nested(8, &nine_inside)), Err(10));
    assert_eq!(check(&nested(7, &nine_inside)), Err(11));
    // A ninth local and an eighth, both a MIRROR with a bad name.
    let mirror_behind = |news: usize| {
        let section = [&[NEW].repeat(news)[..], &[MIRROR, 9, END]].concat();
        check(&assemble(&[0], &section))
    };
    assert_eq!(mirror_behind(8), Err(11));
    assert_eq!(mirror_behind(7), Err(13));
    // A missing routine byte, and a missing name after a good one.
    assert_eq!(check(&assemble(&[0, 1], &[END, CALL])), Err(12));
    assert_eq!(check(&assemble(&[0, 1], &[END, CALL, 1])), Err(13));
    // The earlier item is refused first, whatever its number.
    assert_eq!(check(&assemble(&[0], &[LOCK, 9, 8])), Err(13));
    assert_eq!(check(&assemble(&[0], &[8, LOCK, 9])), Err(8));
    // A table refused otherwise is not refused for its buffer.
    assert_eq!(analyse(&[], &mut []), Answer::Refused(1));
}

#[test]
fn numbers() {
    assert_eq!(check_number(&case("g-philosophers")), 65_536 * 2 + 19);
    let number = |name: &str| {
        let table = case(name);
        analyse_number(&table, &mut vec![0; 65 * table[0] as usize])
    };
    assert_eq!(number("g-philosophers"), 0);
    assert_eq!(number("b-two-threads-opposite-order"), 65_536 + 32);
    assert_eq!(number("f-opposite-order-under-one-guard"), 65_536 + 64);
}

// The rules, one by one.

#[test]
fn rule_tables_get_their_verdicts_and_shares() {
    for case in rules() {
        assert_eq!(
            Said::from(model(&case.table).0),
            case.answer,
            "{}",
            case.name
        );
    }
}

/// The row of a thread that locks 1, then 2 inside it.
const ONE_THEN_TWO: [(usize, usize, u8); 3] = [(0, 1, 1), (0, 2, 1), (1, 2, 1)];

#[test]
fn what_a_place_holds() {
    let table = rule("a fork in a lock block holds nothing, also after its own lock block");
    assert_eq!(row(&table, 1), (vec![(0, 1, 1)], 0));
    let table = rule("the running thread keeps its lock past a fork");
    assert_eq!(row(&table, 1), (ONE_THEN_TWO.to_vec(), 0));
}

#[test]
fn what_a_call_in_a_fork_gives() {
    let table = rule("a call in a fork without a lock drops name 0, and own becomes the fork");
    // (0, 1) is the caller's own LOCK, and (0, 2) follows over the fork.
    assert_eq!(row(&table, 1), (vec![(0, 1, 1), (0, 2, 4), (1, 2, 2)], 0));
    assert_eq!(row(&table, 2), (ONE_THEN_TWO.to_vec(), 0));
    let table = rule("a call in a fork with a lock puts it for name 0");
    assert_eq!(row(&table, 1), (vec![(1, 2, 2)], 0));
    let table = rule("unknown stays unknown in a fork");
    assert_eq!(row(&table, 1), (vec![(1, 2, 2)], 0));
    assert_eq!(row(&table, 2), (vec![(1, 2, 2)], 0));
}

#[test]
fn alternatives_are_put_together() {
    let table = rule("the alternatives of a choice are put together");
    assert_eq!(
        row(&table, 1),
        (vec![(0, 1, 1), (0, 2, 1), (1, 2, 1), (2, 1, 1)], 0)
    );
}

#[test]
fn a_ring_from_a_call_combines_further() {
    let table = rule("a ring from a call combines further");
    assert_eq!(row(&table, 2), (vec![(0, 2, 1), (1, 2, 4)], 0));
    // (1, 1) several with (1, 2) own gives (1, 2) several, which nothing else does.
    assert_eq!(row(&table, 1), (vec![(0, 1, 5), (0, 2, 5), (1, 2, 5)], 1));
}

#[test]
fn pairs_with_equal_ends_are_dropped_unless_several() {
    for label in ["own", "unknown"] {
        let table = rule(&format!("an {label} pair with equal ends is dropped"));
        assert_eq!(row(&table, 1), (ONE_THEN_TWO.to_vec(), 0));
    }
}

#[test]
fn a_ring_goes_into_its_own_last_byte_only() {
    let table = rule("a callee's ring stays with the callee");
    assert_eq!(row(&table, 0), (vec![], 0));
    assert_eq!(row(&table, 1), (vec![], 1));
    // The byte is set also where the verdict does not count it.
    let table = rule("a ring that calls do not reach");
    assert_eq!(row(&table, 0), (vec![], 0));
    assert_eq!(row(&table, 1), (vec![], 1));
}

#[test]
fn the_ring_as_a_number() {
    let table = rule("the lowest routine before the lowest name");
    assert_eq!(
        analyse_number(&table, &mut [0; 195]),
        65_536 + 1_024 + 32 * 7
    );
    let table = rule("a ring at the highest names");
    assert_eq!(
        analyse_number(&table, &mut [0; 130]),
        65_536 + 1_024 + 32 * 14
    );
}

#[test]
fn composing_goes_over_locals_to_the_end() {
    let table = rule("a chain over locals, each step by another thread");
    assert_eq!(row(&table, 1), (vec![(1, 2, 4)], 0));
}

#[test]
fn rows_settle_over_a_long_chain_of_calls() {
    let table = rule("a long chain of calls");
    for r in 1..=63 {
        let two_then_one = vec![(0, 1, 1), (0, 2, 1), (2, 1, 1)];
        let expected = if r % 2 == 1 {
            ONE_THEN_TWO.to_vec()
        } else {
            two_then_one
        };
        assert_eq!(row(&table, r), (expected, 0));
    }
}

#[test]
fn recursion_turns_names_round_until_all_pairs_are_there() {
    let mut all = Vec::new();
    for a in 0..=3 {
        for b in 1..=3 {
            if a != b {
                all.push((a, b, 1));
            }
        }
    }
    let table = rule("recursion that turns three names round");
    assert_eq!(row(&table, 1), (all, 0));
}

// A LOCK on a name that its thread holds in the same body.

/// The row of a thread that locks 1, then 2 inside it, then 3 inside that.
const ONE_TWO_THREE: [(usize, usize, u8); 6] = [
    (0, 1, 1),
    (0, 2, 1),
    (0, 3, 1),
    (1, 2, 1),
    (1, 3, 1),
    (2, 3, 1),
];

/// The row of `ONE_THEN_TWO` beside a fork that does the same.
const ONE_THEN_TWO_BESIDE_A_FORK: [(usize, usize, u8); 3] = [(0, 1, 1), (0, 2, 5), (1, 2, 3)];

/// The row where that thread, in another place, locks 2 and then 1 inside it.
const BOTH_WAYS_BESIDE_A_FORK: [(usize, usize, u8); 4] =
    [(0, 1, 5), (0, 2, 5), (1, 2, 7), (2, 1, 5)];

/// The row of `ONE_TWO_THREE` beside a fork that locks 3, then 2 inside it.
const ONE_TWO_THREE_BESIDE_A_FORK: [(usize, usize, u8); 7] = [
    (0, 1, 1),
    (0, 2, 5),
    (0, 3, 5),
    (1, 2, 5),
    (1, 3, 5),
    (2, 3, 5),
    (3, 2, 6),
];

#[test]
fn the_h_in_a_lock_passed_over() {
    for name in [
        "inside a LOCK passed over the h is the outer one",
        "names taken again, one in another",
    ] {
        assert_eq!(row(&rule(name), 1), (ONE_TWO_THREE.to_vec(), 0), "{name}");
    }
    for name in [
        "a CALL inside a LOCK passed over puts the outer h for name 0",
        "behind a LOCK passed over the h is as before it",
    ] {
        assert_eq!(
            row(&rule(name), 1),
            (ONE_TWO_THREE_BESIDE_A_FORK.to_vec(), 1),
            "{name}"
        );
    }
    let table = rule("the name of the innermost block taken again");
    assert_eq!(row(&table, 1), (ONE_THEN_TWO.to_vec(), 0));
    let table = rule("three names taken again down to the last block");
    assert_eq!(most_open(&table), 16);
    let mut rising = Vec::new();
    for a in 0..4 {
        for b in a + 1..=4 {
            rising.push((a, b, 1));
        }
    }
    assert_eq!(row(&table, 1), (rising, 0));
}

#[test]
fn a_fork_has_a_nest_of_its_own() {
    let table = rule("a fork in a LOCK block does not hold its name");
    assert_eq!(
        row(&table, 1),
        (vec![(0, 1, 5), (0, 2, 5), (1, 2, 5), (2, 1, 6)], 1)
    );
    let table = rule("a fork passes over what it holds itself");
    assert_eq!(
        row(&table, 1),
        (
            vec![
                (0, 1, 1),
                (0, 2, 5),
                (0, 3, 4),
                (1, 2, 3),
                (1, 3, 6),
                (2, 3, 2)
            ],
            0
        )
    );
}

/// The most blocks that are open at one time in a table, bodies not counted.
fn most_open(bytes: &[u8]) -> usize {
    let mut most = 0;
    for routine in read(bytes).expect("valid").routines {
        routine.walk(|_, open| most = most.max(open.len() - 1));
    }
    most
}

#[test]
fn how_far_a_nest_goes() {
    for name in [
        "a nest goes on behind a fork in it",
        "the end of a LOCK passed over ends no hold",
        "the name of the outermost block taken again in the sixteenth",
    ] {
        assert_eq!(
            row(&rule(name), 1),
            (ONE_THEN_TWO_BESIDE_A_FORK.to_vec(), 0),
            "{name}"
        );
    }
    for name in [
        "a name is held no longer than its block",
        "what one alternative holds the other does not",
    ] {
        assert_eq!(
            row(&rule(name), 1),
            (BOTH_WAYS_BESIDE_A_FORK.to_vec(), 1),
            "{name}"
        );
    }
    let table = rule("the name of the outermost block taken again in the sixteenth");
    assert_eq!(most_open(&table), 16);
    let table = rule("both alternatives stand in the nest around the choice");
    assert_eq!(
        row(&table, 1),
        (
            vec![
                (0, 1, 1),
                (0, 2, 5),
                (0, 3, 1),
                (1, 2, 3),
                (1, 3, 1),
                (3, 2, 1)
            ],
            0
        )
    );
}

#[test]
fn a_nest_is_of_one_body_and_tells_parameters_apart() {
    let table = rule("a callee does not hold what its caller holds");
    assert_eq!(row(&table, 1), (BOTH_WAYS_BESIDE_A_FORK.to_vec(), 1));
    assert_eq!(row(&table, 2), (vec![(0, 1, 1)], 0));
    let table = rule("two parameters are two names, also for one lock");
    assert_eq!(row(&table, 1), (BOTH_WAYS_BESIDE_A_FORK.to_vec(), 1));
    assert_eq!(row(&table, 2), (ONE_TWO_THREE.to_vec(), 0));
}

#[test]
fn a_nest_tells_all_names_apart() {
    // 14 and 15 are locals, so the first row is empty; in the second table 7 is a parameter, and (0, 7) is in the row.
    let table = rule("the highest names taken again");
    assert_eq!(row(&table, 1), (vec![], 0));
    let table = rule("a name and the one eight above it are two");
    assert_eq!(row(&table, 1), (vec![(0, 7, 5)], 1));
}

// The listing.

#[test]
fn listings_of_worked_cases() {
    let one_routine_clear = "routines 1\nshare 100 0 1\nclear\n";
    let expected = [
        ("a-empty-body", one_routine_clear),
        (
            "b-two-threads-opposite-order",
            "routines 1\nshare 0 0 1\nring 0 1\n",
        ),
        ("c-two-threads-same-order", one_routine_clear),
        ("d-one-thread-locks-twice", one_routine_clear),
        ("e-two-threads-lock-twice", one_routine_clear),
        (
            "f-opposite-order-under-one-guard",
            "routines 1\nshare 0 0 1\nring 0 2\n",
        ),
        (
            "g-philosophers",
            "routines 2\npair 1 0 1 1\npair 1 0 2 1\npair 1 2 1 1\nshare 100 0 2\nclear\n",
        ),
        (
            "h-philosophers-all-alike",
            "routines 2\npair 1 0 1 1\npair 1 0 2 5\npair 1 1 2 5\nshare 50 0 2\nring 0 1\n",
        ),
        (
            "i-called-fork-one-lock-twice",
            "routines 2\npair 1 1 2 2\npair 1 1 3 2\npair 1 2 3 2\nshare 50 0 2\nring 0 1\n",
        ),
        ("i-written-fork-one-lock-twice", one_routine_clear),
        ("j-main-thread-locks-first-again", one_routine_clear),
    ];
    assert_eq!(worked().len(), expected.len());
    for (case, (name, text)) in worked().iter().zip(expected) {
        assert_eq!(case.name, name);
        let given = String::from_utf8(listing(&case.table)).expect("text");
        assert_eq!(given, text, "{name}");
    }
}

#[test]
fn what_the_program_does_not_read_changes_nothing() {
    for head in [&[][..], &[64], &[1, 0, 0, 16], &[64, 0, 9]] {
        let mut table = head.to_vec();
        table.resize(10_000, 0);
        assert_eq!(listing(&table), listing(&table[..READ_LIMIT]));
    }
}

#[test]
fn cells_outside_a_routines_names_are_zero() {
    for index in 0..500 {
        let (_, table) = random(3, index);
        let Ok((routines, _)) = check(&table) else {
            continue;
        };
        let (_, model) = model(&table);
        for r in 0..routines {
            let k = table[1 + r] as usize;
            let row = &model[ROW_BYTES * r..][..ROW_BYTES];
            for a in 0..8 {
                for b in 0..8 {
                    let value = row[8 * a + b];
                    // Name 0 is never wanted, and ends differ.
                    let allowed = a <= k && b <= k && a != b && b != 0;
                    assert!(value <= 7 && (allowed || value == 0));
                }
            }
            assert!(row[RING_BYTE] <= 1);
        }
    }
}
