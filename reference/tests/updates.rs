//! One routine replaced, by request #107: models worked out by hand, each refusal on both
//! sides of its limit, and what holds of all.

use reference::analyse;
use reference::cases::worked;
use reference::generate::assemble;
use reference::limits::code::*;
use reference::limits::{refusal, RING_BYTE, ROW_BYTES, ROW_SIDE};
use reference::table::read;
use reference::update::{bodies, reaching, update, update_number};
use reference::updates::{input, own_model, Input};

/// A row with these cells (a, b, value) and this last byte.
fn row(cells: &[(usize, usize, u8)], ring: u8) -> Vec<u8> {
    let mut bytes = vec![0; ROW_BYTES];
    for &(held, wanted, value) in cells {
        bytes[ROW_SIDE * held + wanted] = value;
    }
    bytes[RING_BYTE] = ring;
    bytes
}

fn empty() -> Vec<u8> {
    row(&[], 0)
}

/// A table of these parameter counts and bodies.
fn table(counts: &[u8], bodies: &[&[u8]]) -> Vec<u8> {
    assemble(counts, &bodies.concat())
}

/// The table with another body for one routine.
fn with(old: &[u8], routine: usize, body: &[u8]) -> Vec<u8> {
    let counts = &old[1..1 + old[0] as usize];
    let mut all = bodies(old);
    all[routine] = body;
    table(counts, &all)
}

/// The model of these rows, brought up to date, is that of those.
fn leads(old: &[u8], new: &[u8], routine: u64, from: &[Vec<u8>], to: &[Vec<u8>]) {
    let mut model = from.concat();
    assert_eq!(update(old, new, routine, &mut model), Ok(()));
    for (at, (given, due)) in model.chunks(ROW_BYTES).zip(to).enumerate() {
        assert_eq!(given, due, "row {at}");
    }
    assert_eq!(model.len(), ROW_BYTES * to.len());
}

/// The rows that a fresh analysis writes are these.
fn has_rows(table: &[u8], rows: &[Vec<u8>]) {
    assert_eq!(own_model(table), rows.concat());
}

fn worked_table(name: &str) -> Vec<u8> {
    let mut all = worked().into_iter();
    let case = all.find(|case| case.name.starts_with(name));
    case.expect("a worked table").table
}

// Models worked out by hand.

#[test]
fn routine_0_of_h_passes_two_locks_and_one_again() {
    let h = worked_table("h-");
    let two = with(&h, 0, &[NEW, NEW, CALL, 1, 1, 2, END]);
    let row_1 = row(&[(0, 1, 1), (0, 2, 5), (1, 2, 5)], 0);
    let ring = [row(&[], 1), row_1.clone()];
    let clear = [empty(), row_1];
    has_rows(&h, &ring);
    has_rows(&two, &clear);
    leads(&h, &two, 0, &ring, &clear);
    leads(&two, &h, 0, &clear, &ring);
}

#[test]
fn routine_0_of_g_gets_a_fork_in_the_opposite_order() {
    let g = worked_table("g-");
    let fork = [
        NEW, NEW, FORK, LOCK, 1, LOCK, 2, END, END, END, CALL, 1, 1, 2, END,
    ];
    let ring = with(&g, 0, &fork);
    let row_1 = row(&[(0, 1, 1), (0, 2, 1), (2, 1, 1)], 0);
    // The fork's (1, 2) and the call's (2, 1) meet at both names.
    let before = [empty(), row_1.clone()];
    let after = [row(&[], 1), row_1];
    leads(&g, &ring, 0, &before, &after);
    leads(&ring, &g, 0, &after, &before);
}

#[test]
fn routine_1_of_g_becomes_that_of_h() {
    let (g, h) = (worked_table("g-"), worked_table("h-"));
    let of_g = [empty(), row(&[(0, 1, 1), (0, 2, 1), (2, 1, 1)], 0)];
    let of_h = [row(&[], 1), row(&[(0, 1, 1), (0, 2, 5), (1, 2, 5)], 0)];
    leads(&g, &h, 1, &of_g, &of_h);
    leads(&h, &g, 1, &of_h, &of_g);
    // The routine calls itself. Its row begins from nothing, whatever the buffer has.
    let anything = [
        row(&[], 1),
        row(&[(0, 1, 7), (0, 2, 7), (1, 2, 7), (2, 1, 7)], 1),
    ];
    leads(&g, &h, 1, &anything, &of_h);
    leads(&h, &g, 1, &anything, &of_g);
    leads(&g, &g, 1, &anything, &of_g);
}

/// Routine 0 calls 1, 1 calls 2 with its names exchanged, and 2 has this body. Nobody calls
/// 3, which takes both of its names.
fn chain(leaf: &[u8]) -> Vec<u8> {
    table(
        &[0, 2, 2, 2],
        &[
            &[NEW, NEW, CALL, 1, 1, 2, END],
            &[CALL, 2, 2, 1, END],
            leaf,
            &[LOCK, 2, LOCK, 1, END, END, END],
        ],
    )
}

const NESTS: &[u8] = &[LOCK, 1, LOCK, 2, END, END, END];

#[test]
fn the_end_of_a_chain_takes_nothing() {
    let row_3 = row(&[(0, 2, 1), (2, 1, 1), (0, 1, 1)], 0);
    let before = [
        empty(),
        row(&[(0, 2, 1), (2, 1, 1), (0, 1, 1)], 0),
        row(&[(0, 1, 1), (1, 2, 1), (0, 2, 1)], 0),
        row_3.clone(),
    ];
    let after = [empty(), empty(), empty(), row_3];
    has_rows(&chain(NESTS), &before);
    leads(&chain(NESTS), &chain(&[END]), 2, &before, &after);
    leads(&chain(&[END]), &chain(NESTS), 2, &after, &before);
}

#[test]
fn the_end_of_a_chain_gets_a_ring() {
    let rings = [
        FORK, LOCK, 1, LOCK, 2, END, END, END, LOCK, 2, LOCK, 1, END, END, END,
    ];
    let row_3 = row(&[(0, 2, 1), (2, 1, 1), (0, 1, 1)], 0);
    let before = [
        empty(),
        row(&[(0, 2, 1), (2, 1, 1), (0, 1, 1)], 0),
        row(&[(0, 1, 1), (1, 2, 1), (0, 2, 1)], 0),
        row_3.clone(),
    ];
    // (1, 2) is the fork's, and (2, 1) the routine's own. In line they are rings at 1 and 2,
    // and every way over those is of several. In routine 1 the names are exchanged.
    let after = [
        row(&[], 1),
        row(&[(0, 1, 5), (0, 2, 5), (2, 1, 6), (1, 2, 5)], 1),
        row(&[(0, 1, 5), (0, 2, 5), (1, 2, 6), (2, 1, 5)], 1),
        row_3,
    ];
    leads(&chain(NESTS), &chain(&rings), 2, &before, &after);
    leads(&chain(&rings), &chain(NESTS), 2, &after, &before);
}

#[test]
fn the_middle_of_a_chain_leaves_its_end() {
    let old = chain(NESTS);
    let new = with(&old, 1, &[CALL, 2, 1, 1, END]);
    // In the end's row the cells are not what the analysis writes, and they stay.
    let end = row(&[(0, 2, 6), (1, 2, 3)], 1);
    let from = [empty(), empty(), end.clone(), empty()];
    // (0, 2) becomes (0, 1) of an unknown thread and of several; (1, 2) has equal ends.
    let to = [empty(), row(&[(0, 1, 6)], 0), end, empty()];
    leads(&old, &new, 1, &from, &to);
    // Of several, (1, 2) is a ring at 1, which takes part in every way through 1.
    let end = row(&[(0, 2, 1), (1, 2, 4)], 0);
    let from = [empty(), empty(), end.clone(), empty()];
    let to = [empty(), row(&[(0, 1, 5)], 1), end, empty()];
    leads(&old, &new, 1, &from, &to);
}

#[test]
fn rows_of_a_round_do_not_hold_each_other_up() {
    let round = |second: &[u8]| {
        table(
            &[0, 1, 1, 1],
            &[
                &[NEW, CALL, 3, 1, END],
                &[CALL, 2, 1, END],
                second,
                &[LOCK, 1, END, END],
            ],
        )
    };
    let old = round(&[LOCK, 1, END, CALL, 1, 1, END]);
    let new = round(&[CALL, 1, 1, END]);
    let takes = row(&[(0, 1, 1)], 0);
    let before = [empty(), takes.clone(), takes.clone(), takes.clone()];
    let after = [empty(), empty(), empty(), takes];
    has_rows(&old, &before);
    leads(&old, &new, 2, &before, &after);
    leads(&new, &old, 2, &after, &before);
    // Not in the round, and not above it: routine 0 alone is worked out.
    let without = with(&old, 0, &[END]);
    leads(&old, &without, 0, &before, &before);
}

#[test]
fn a_given_row_shows_in_the_callers_rows() {
    // Routine 1 does nothing, and its row says that an unknown thread wants 2 inside 1.
    let with_second = |second: &[u8]| {
        table(
            &[0, 2, 2],
            &[&[NEW, NEW, CALL, 2, 1, 2, END], &[END], second],
        )
    };
    let old = with_second(&[END]);
    let false_row = row(&[(1, 2, 2)], 1);
    let from = [empty(), false_row.clone(), empty()];
    let calls = with_second(&[CALL, 1, 2, 1, END]);
    let to = [empty(), false_row.clone(), row(&[(2, 1, 2)], 0)];
    leads(&old, &calls, 2, &from, &to);
    // The routine takes 1 inside 2 by itself: a way of several from 1 to 1.
    let both = with_second(&[LOCK, 2, LOCK, 1, END, END, CALL, 1, 1, 2, END]);
    let to = [
        row(&[], 1),
        false_row.clone(),
        row(&[(0, 1, 5), (0, 2, 5), (1, 2, 6), (2, 1, 5)], 1),
    ];
    leads(&old, &both, 2, &from, &to);
    // Passed one lock twice, the pair is dropped unless it is of several.
    let twice = with_second(&[CALL, 1, 2, 2, END]);
    leads(&old, &twice, 2, &from, &from);
    let several = row(&[(1, 2, 4)], 0);
    let from = [empty(), several.clone(), empty()];
    let to = [empty(), several, row(&[], 1)];
    leads(&old, &twice, 2, &from, &to);
}

#[test]
fn a_mirror_and_a_nest_in_the_new_body() {
    // 3 is a mirror of 1: its LOCK inside 1 and 2 records nothing.
    let old = chain(NESTS);
    let new = chain(&[
        MIRROR, 1, LOCK, 1, LOCK, 2, LOCK, 3, END, END, END, LOCK, 3, END, END,
    ]);
    let same = own_model(&old);
    let mut model = same.clone();
    assert_eq!(update(&old, &new, 2, &mut model), Ok(()));
    assert_eq!(model, same);
}

// Refusals.

/// A table, the same with another routine 2, and the model of the first.
fn replaced() -> (Vec<u8>, Vec<u8>, Vec<u8>) {
    let old = chain(NESTS);
    let model = own_model(&old);
    (old, chain(&[END]), model)
}

/// The answer for a buffer, which a refusal leaves as it was.
fn answer(old: &[u8], new: &[u8], routine: u64, model: &[u8]) -> u32 {
    let mut buffer = model.to_vec();
    let answer = update_number(old, new, routine, &mut buffer);
    assert!(answer == 0 || buffer == model, "{answer}");
    answer
}

#[test]
fn the_old_table_comes_before_the_new_one_and_all_else() {
    let (old, new, _) = replaced();
    assert_eq!(answer(&[], &[0], 9, &[]), refusal::EMPTY);
    assert_eq!(answer(&[0], &[], 9, &[]), refusal::ROUTINE_COUNT);
    assert_eq!(answer(&old, &[], 9, &[]), refusal::EMPTY);
    assert_eq!(answer(&old, &[65], 2, &[]), refusal::ROUTINE_COUNT);
    assert_eq!(answer(&[], &new, 2, &[]), refusal::EMPTY);
    let more = [&old[..], &[END]].concat();
    assert_eq!(answer(&more, &new, 2, &[]), refusal::SECTION_LENGTH);
    assert_eq!(answer(&old, &more, 2, &[]), refusal::SECTION_LENGTH);
    let code = with(&old, 2, &[LAST + 1, END]);
    assert_eq!(answer(&old, &code, 2, &[]), refusal::BAD_CODE);
    assert_eq!(answer(&code, &more, 2, &[]), refusal::BAD_CODE);
    assert_eq!(answer(&more, &code, 2, &[]), refusal::SECTION_LENGTH);
}

#[test]
fn the_buffer_goes_by_the_old_table() {
    let (old, new, model) = replaced();
    for length in [0, 1, 64 * 4, 65 * 4 - 1] {
        assert_eq!(
            answer(&old, &new, 2, &model[..length]),
            refusal::SHORT_BUFFER
        );
        assert_eq!(
            answer(&old, &new, 4, &model[..length]),
            refusal::SHORT_BUFFER
        );
    }
    assert_eq!(answer(&old, &new, 2, &model), 0);
    // One routine fewer, which nobody calls.
    let fewer = table(&[0, 2, 2], &bodies(&old)[..3]);
    let three = &model[..3 * ROW_BYTES];
    assert_eq!(answer(&old, &fewer, 2, three), refusal::SHORT_BUFFER);
    assert_eq!(answer(&old, &fewer, 2, &model), refusal::OTHER_TABLE);
    assert_eq!(answer(&fewer, &old, 2, three), refusal::OTHER_TABLE);
    assert_eq!(answer(&fewer, &old, 3, &model), refusal::OTHER_TABLE);
    assert_eq!(answer(&fewer, &old, 3, &three[1..]), refusal::SHORT_BUFFER);
}

#[test]
fn bytes_behind_the_model_are_not_looked_at() {
    let (old, new, model) = replaced();
    for behind in [vec![255], vec![8; 64], vec![255; 65], vec![2; 200]] {
        let mut buffer = [&model[..], &behind].concat();
        assert_eq!(update(&old, &new, 2, &mut buffer), Ok(()));
        assert_eq!(buffer[..model.len()], own_model(&new));
        assert_eq!(buffer[model.len()..], behind);
    }
}

#[test]
fn there_must_be_such_a_routine() {
    let (old, new, model) = replaced();
    for other in [
        0,
        1,
        3,
        4,
        5,
        64,
        255,
        256,
        256 + 2,
        (1 << 32) + 2,
        (1 << 63) + 2,
        u64::MAX,
    ] {
        assert_eq!(
            answer(&old, &new, other, &model),
            refusal::OTHER_TABLE,
            "{other}"
        );
    }
    assert_eq!(answer(&old, &new, 2, &model), 0);
    for routine in 0..4 {
        assert_eq!(answer(&old, &old, routine, &model), 0);
    }
    assert_eq!(answer(&old, &old, 4, &model), refusal::OTHER_TABLE);
}

#[test]
fn nothing_else_may_differ() {
    let (old, new, model) = replaced();
    let other = |new: &[u8]| {
        for routine in 0..5 {
            assert_eq!(answer(&old, new, routine, &model), refusal::OTHER_TABLE);
        }
    };
    // Two bodies.
    other(&with(&new, 3, &[END]));
    // A body that ends elsewhere, with the same bytes before and behind.
    other(&with(
        &with(&old, 2, &[END]),
        3,
        &[LOCK, 2, END, LOCK, 2, LOCK, 1, END, END, END],
    ));
    // The count of routine 3, which nobody calls, alone and with its body.
    let mut count = old.clone();
    count[1 + 3] = 3;
    other(&count);
    other(&with(&count, 3, &[END]));
    other(&with(&count, 2, &[END]));
    // Two bodies exchanged.
    let all = bodies(&old);
    other(&with(&with(&old, 2, all[3]), 3, all[2]));
    // The body of the routine alone, also one that calls others.
    for body in [&[END][..], all[3], &[CALL, 3, 1, 1, CALL, 0, END]] {
        assert_eq!(answer(&old, &with(&old, 2, body), 2, &model), 0);
    }
}

#[test]
fn cells_and_last_bytes_have_limits() {
    let (old, new, model) = replaced();
    let given = |row: usize, at: usize, byte: u8| {
        let mut model = model.clone();
        model[ROW_BYTES * row + at] = byte;
        let other = answer(&old, &new, 3, &model);
        assert_eq!(other, refusal::OTHER_TABLE);
        let short = answer(&old, &new, 2, &model[..model.len() - 1]);
        assert_eq!(short, refusal::SHORT_BUFFER);
        answer(&old, &new, 2, &model)
    };
    let cell = |a: usize, b: usize| ROW_SIDE * a + b;
    // Touched and untouched rows alike. Routines 1 to 3 have two parameters.
    for row in 1..4 {
        for (a, b) in [(0, 1), (0, 2), (1, 2), (2, 1)] {
            assert_eq!(given(row, cell(a, b), 0), 0);
            assert_eq!(given(row, cell(a, b), 7), 0);
            assert_eq!(given(row, cell(a, b), 8), refusal::BAD_MODEL);
            assert_eq!(given(row, cell(a, b), 255), refusal::BAD_MODEL);
        }
        // Equal ends, 0 as the second, one of them above 2.
        for (a, b) in [
            (0, 0),
            (1, 1),
            (2, 2),
            (7, 7),
            (1, 0),
            (2, 0),
            (0, 3),
            (1, 3),
            (3, 1),
            (7, 2),
        ] {
            assert_eq!(given(row, cell(a, b), 1), refusal::BAD_MODEL);
        }
        assert_eq!(given(row, RING_BYTE, 0), 0);
        assert_eq!(given(row, RING_BYTE, 1), 0);
        assert_eq!(given(row, RING_BYTE, 2), refusal::BAD_MODEL);
        assert_eq!(given(row, RING_BYTE, 255), refusal::BAD_MODEL);
    }
    // Routine 0 has none.
    for at in 0..RING_BYTE {
        assert_eq!(given(0, at, 1), refusal::BAD_MODEL);
    }
    assert_eq!(given(0, RING_BYTE, 1), 0);
}

// What holds of all inputs.

/// The outcome of an input.
fn outcome(input: &Input) -> (u32, Vec<u8>) {
    let mut model = input.model.clone();
    let answer = update_number(&input.old, &input.new, input.routine, &mut model);
    (answer, model)
}

/// The first inputs of a seed that are done, each with the buffer afterwards.
fn done(seed: u64) -> Vec<(Input, Vec<u8>)> {
    (0..6_000)
        .map(|index| input(seed, index).1)
        .map(|input| {
            let (answer, after) = outcome(&input);
            (answer, input, after)
        })
        .filter(|(answer, _, _)| *answer == 0)
        .map(|(_, input, after)| (input, after))
        .collect()
}

#[test]
fn the_analysis_s_own_model_leads_to_a_fresh_one() {
    let (mut own, mut moved) = (0, 0);
    for (input, _) in done(11) {
        // Also where the input has another model.
        let before = own_model(&input.old);
        let mut model = before.clone();
        assert_eq!(
            update(&input.old, &input.new, input.routine, &mut model),
            Ok(())
        );
        let mut fresh = vec![255; model.len()];
        analyse(&input.new, &mut fresh);
        assert_eq!(model, fresh, "{input:?}");
        own += 1;
        moved += usize::from(before != model);
    }
    assert!(own >= 2_000, "{own}");
    assert!(moved >= 600, "{moved}");
}

#[test]
fn only_rows_that_reach_the_routine_change() {
    let mut kept = 0;
    for (input, after) in done(12) {
        let [old, new] = [&input.old, &input.new].map(|table| read(table).expect("accepted"));
        let touched = reaching(&new, input.routine as usize);
        assert_eq!(touched, reaching(&old, input.routine as usize));
        for (at, (after, before)) in after.iter().zip(&input.model).enumerate() {
            if !touched.contains(&(at / ROW_BYTES)) {
                assert_eq!(after, before);
                kept += usize::from(*after != 0);
            }
        }
    }
    assert!(kept >= 10_000, "{kept}");
}

#[test]
fn touched_rows_do_not_depend_on_what_they_were() {
    for (input, after) in done(13) {
        let table = read(&input.new).expect("accepted");
        let mut cleared = input.clone();
        for at in reaching(&table, input.routine as usize) {
            cleared.model[ROW_BYTES * at..][..ROW_BYTES].fill(0);
        }
        assert_eq!(outcome(&cleared), (0, after.clone()));
        // And a second update changes nothing.
        let again = Input {
            old: input.new.clone(),
            model: after.clone(),
            ..input
        };
        assert_eq!(outcome(&again), (0, after));
    }
}

#[test]
fn more_in_given_rows_leads_to_no_less() {
    for (input, after) in done(14) {
        let mut less = input.clone();
        let rows = ROW_BYTES * input.old[0] as usize;
        for (at, byte) in less.model[..rows].iter_mut().enumerate() {
            // Every third cell is cleared.
            if at % 3 == 0 {
                *byte = 0;
            }
        }
        let (answer, below) = outcome(&less);
        assert_eq!(answer, 0);
        for at in 0..rows {
            assert_eq!(below[at] & after[at], below[at], "{input:?}");
        }
    }
}
