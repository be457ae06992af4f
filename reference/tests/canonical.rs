//! The canonical table, by request #108: tables written out by hand, each refusal and the
//! limits. What holds of all tables is in canonical_all.rs.

use std::collections::BTreeMap;

use reference::canonical::{canonical, canonical_number, text};
use reference::cases::worked;
use reference::generate::{assemble, boundaries};
use reference::hex;
use reference::limits::code::*;
use reference::limits::{refusal, MAX_LOCALS, MAX_ROUTINES, MAX_SECTION};
use reference::table::read;

/// The bytes of hexadecimal text.
fn from_hex(text: &str) -> Vec<u8> {
    hex::parse(text).expect("hexadecimal text")
}

/// A table of these parameter counts and bodies.
fn table(counts: &[u8], bodies: &[&[u8]]) -> Vec<u8> {
    assemble(counts, &bodies.concat())
}

/// The canonical table of the first is the second, and so is that of the second.
fn leads(table: &[u8], result: &[u8]) {
    assert_eq!(canonical(table), Ok(result.to_vec()));
    assert_eq!(canonical(result), Ok(result.to_vec()));
}

/// The body of routine 1, with this many parameters, becomes the second. Routine 0 calls it.
fn body_leads(parameters: u8, body: &[u8], result: &[u8]) {
    let names = vec![1; parameters as usize];
    let first = [&[NEW, CALL, 1], &names[..], &[END]].concat();
    let counts = [0, parameters];
    leads(
        &table(&counts, &[&first, body]),
        &table(&counts, &[&first, result]),
    );
}

// Whole tables.

#[test]
fn the_smallest_table_stays() {
    let a = from_hex("01 00 01 00 00");
    leads(&a, &a);
}

#[test]
fn table_g_stays() {
    let g = from_hex(
        "02 00 02 1D 00 01 06 01 01 01 00 04 02 02 02 01 00 00 05 01 03 02 01 02 03 00 00 00 \
         06 01 03 02 00 00",
    );
    leads(&g, &g);
}

#[test]
fn two_teams_send_one_table() {
    // NEW, CALL of the one with name 1, CALL of the other with 1 and 1. The one forks a LOCK,
    // and the other calls the one with its second name.
    let one =
        from_hex("03 00 01 02 13 00 01 06 01 01 06 02 01 01 00 03 02 01 00 00 00 06 01 02 00");
    let other =
        from_hex("03 00 02 01 13 00 01 06 02 01 06 01 01 01 00 06 02 02 00 03 02 01 00 00 00");
    assert_ne!(read(&one), read(&other));
    leads(&one, &one);
    leads(&other, &one);
}

#[test]
fn all_at_once_byte_by_byte() {
    // Routine 0: NEW (1), MIRROR 1 (2), NEW (3), CALL 2 with 2 and 3. Routine 1: nobody calls
    // it. Routine 2: MIRROR 2 (3), MIRROR 3 (4), NEW (5), LOCK 4, in it LOCK 5.
    let before = from_hex(
        "03 00 00 02 18 00 \
         01 07 01 01 06 02 02 03 00 \
         06 00 00 \
         07 02 07 03 01 02 04 02 05 00 00 00",
    );
    let after = from_hex(
        "02 00 02 0F 00 \
         01 01 06 01 01 02 00 \
         01 02 02 02 03 00 00 00",
    );
    leads(&before, &after);
}

#[test]
fn worked_tables_stay() {
    let all = worked();
    assert_eq!(all.len(), 11);
    for case in all {
        leads(&case.table, &case.table);
    }
}

// Routines.

/// A table of routines without parameters, by the routines that each calls.
fn of_calls(callees: &[&[u8]]) -> Vec<u8> {
    let body = |callees: &&[u8]| {
        let calls = callees.iter().flat_map(|&callee| [CALL, callee]);
        calls.chain([END]).collect::<Vec<u8>>()
    };
    let bodies: Vec<Vec<u8>> = callees.iter().map(body).collect();
    assemble(&vec![0; callees.len()], &bodies.concat())
}

/// The calls of the first table become those of the second.
fn calls_lead(before: &[&[u8]], after: &[&[u8]]) {
    leads(&of_calls(before), &of_calls(after));
}

#[test]
fn routines_are_numbered_as_they_are_met() {
    // In one body, by the places of the calls.
    calls_lead(
        &[&[3, 1, 2], &[], &[0], &[1]],
        &[&[1, 2, 3], &[2], &[], &[0]],
    );
    // 0 meets 2 and 1; the body of 2 is read before that of 1, so 4 comes before 3.
    calls_lead(
        &[&[2, 1], &[3], &[4], &[], &[0]],
        &[&[1, 2], &[3], &[4], &[0], &[]],
    );
    // All that 0 meets comes before what 3 meets, which is 1.
    calls_lead(&[&[3, 2], &[], &[1], &[1]], &[&[1, 2], &[3], &[3], &[]]);
}

#[test]
fn a_routine_that_has_a_number_keeps_it() {
    calls_lead(&[&[0, 1, 1, 0], &[1, 0]], &[&[0, 1, 1, 0], &[1, 0]]);
    calls_lead(
        &[&[2, 2, 0], &[2, 1, 0], &[2, 1, 2]],
        &[&[1, 1, 0], &[1, 2, 1], &[1, 2, 0]],
    );
}

#[test]
fn routines_that_are_not_reached_are_dropped() {
    calls_lead(&[&[], &[], &[]], &[&[]]);
    calls_lead(&[&[2], &[2, 0], &[2]], &[&[1], &[1]]);
    // 1 and 4 call each other and those that are reached.
    calls_lead(
        &[&[3], &[4, 3, 1], &[0], &[2], &[1, 2, 0]],
        &[&[1], &[2], &[0]],
    );
}

#[test]
fn calls_in_blocks_are_met_in_written_order() {
    let before = table(
        &[0; 5],
        &[
            &[
                NEW, CHOICE, FORK, CALL, 4, END, OTHER, LOCK, 1, CALL, 2, END, END, CALL, 1, CALL,
                3, END,
            ],
            &[NEW, END],
            &[NEW, NEW, END],
            &[FORK, END, END],
            &[CHOICE, OTHER, END, END],
        ],
    );
    let after = table(
        &[0; 5],
        &[
            &[
                NEW, CHOICE, FORK, CALL, 1, END, OTHER, LOCK, 1, CALL, 2, END, END, CALL, 3, CALL,
                4, END,
            ],
            &[CHOICE, OTHER, END, END],
            &[NEW, NEW, END],
            &[NEW, END],
            &[FORK, END, END],
        ],
    );
    leads(&before, &after);
}

#[test]
fn parameter_counts_go_with_their_routines() {
    let before = table(
        &[0, 3, 1, 2],
        &[
            &[NEW, CALL, 3, 1, 1, END],
            &[END],
            &[END],
            &[CALL, 1, 2, 1, 2, END],
        ],
    );
    let after = table(
        &[0, 2, 3],
        &[&[NEW, CALL, 1, 1, 1, END], &[CALL, 2, 2, 1, 2, END], &[END]],
    );
    leads(&before, &after);
}

// Names.

#[test]
fn a_mirror_gives_way_to_what_it_leads_back_to() {
    // Of a parameter, and of a NEW.
    body_leads(1, &[MIRROR, 1, LOCK, 2, END, END], &[LOCK, 1, END, END]);
    body_leads(
        1,
        &[NEW, MIRROR, 2, LOCK, 3, END, END],
        &[NEW, LOCK, 2, END, END],
    );
    // Of a mirror of a mirror: 4, 5 and 6 lead back to 2.
    body_leads(
        3,
        &[
            MIRROR, 2, MIRROR, 4, MIRROR, 5, LOCK, 6, CALL, 1, 6, 3, 5, END, END,
        ],
        &[LOCK, 2, CALL, 1, 2, 3, 2, END, END],
    );
    // One that nothing uses.
    body_leads(2, &[MIRROR, 2, END], &[END]);
}

#[test]
fn locals_are_numbered_without_the_mirrors() {
    // 2 and 4 are mirrors, 3 and 5 are not.
    body_leads(
        1,
        &[
            MIRROR, 1, NEW, MIRROR, 3, NEW, LOCK, 5, LOCK, 4, LOCK, 2, END, END, END, END,
        ],
        &[NEW, NEW, LOCK, 3, LOCK, 2, LOCK, 1, END, END, END, END],
    );
}

#[test]
fn locals_of_alternatives_and_blocks_keep_apart() {
    // Without a mirror nothing moves: a number is not used again.
    let body = [
        CHOICE, NEW, LOCK, 2, END, OTHER, NEW, LOCK, 3, END, END, FORK, NEW, END, NEW, LOCK, 5,
        END, END,
    ];
    body_leads(1, &body, &body);
    // A mirror in the first alternative moves what is in the second and behind the choice.
    body_leads(
        1,
        &[
            CHOICE, MIRROR, 1, LOCK, 2, END, OTHER, NEW, MIRROR, 3, LOCK, 4, END, END, NEW, LOCK,
            5, END, END,
        ],
        &[
            CHOICE, LOCK, 1, END, OTHER, NEW, LOCK, 2, END, END, NEW, LOCK, 3, END, END,
        ],
    );
    // One in the second alternative moves nothing that is in the first.
    body_leads(
        1,
        &[
            CHOICE, NEW, LOCK, 2, END, OTHER, MIRROR, 1, LOCK, 3, END, END, NEW, LOCK, 4, END, END,
        ],
        &[
            CHOICE, NEW, LOCK, 2, END, OTHER, LOCK, 1, END, END, NEW, LOCK, 3, END, END,
        ],
    );
}

#[test]
fn eight_mirrors_are_left_out() {
    let mirrors: Vec<u8> = (7..7 + MAX_LOCALS)
        .flat_map(|name| [MIRROR, name])
        .collect();
    let last = 7 + MAX_LOCALS;
    let body = [&mirrors, &[CALL, 1][..], &[last; 7], &[END]].concat();
    body_leads(7, &body, &[&[CALL, 1][..], &[7; 7], &[END]].concat());
    // One more is refused.
    let nine = [&[MIRROR, 1], &body[..]].concat();
    let refused = table(&[0, 7], &[&[END], &nine]);
    assert_eq!(canonical(&refused), Err(refusal::TOO_MANY));
}

// Answers.

/// The answer for a buffer of 255, and the buffer afterwards.
fn answer(table: &[u8], length: usize) -> (u32, Vec<u8>) {
    let mut out = vec![255; length];
    (canonical_number(table, &mut out), out)
}

#[test]
fn a_refused_table_leaves_the_buffer() {
    let mut numbers = BTreeMap::new();
    for boundary in boundaries() {
        let Some(number) = boundary.refusal else {
            continue;
        };
        *numbers.entry(number).or_insert(0) += 1;
        for length in [0, 1, 5, 5_000] {
            let due = (number, vec![255; length]);
            assert_eq!(answer(&boundary.table, length), due, "{}", boundary.what);
        }
        let line = format!("refused {number}\n");
        assert_eq!(text(&boundary.table), line.as_bytes());
    }
    let all = refusal::EMPTY..=refusal::BYTES_LEFT;
    assert!(numbers.into_keys().eq(all));
}

#[test]
fn a_short_buffer_stays_and_a_long_one_keeps_its_end() {
    // The result has 9 bytes, the table 14.
    let before = from_hex("02 00 00 09 00 01 07 01 02 02 00 00 01 00");
    let after = from_hex("01 00 05 00 01 02 01 00 00");
    leads(&before, &after);
    for length in 0..9 {
        assert_eq!(answer(&before, length), (20, vec![255; length]));
    }
    for length in 9..40 {
        let due = [&after[..], &vec![255; length - 9]].concat();
        assert_eq!(answer(&before, length), (65_536 + 9, due));
    }
    assert_eq!(text(&before), [b"canonical 9\n", &after[..]].concat());
}

#[test]
fn the_largest_tables_are_written_whole() {
    // 63 bodies call the next and the last none; all but routine 0 stand in reverse.
    let number = |new: usize| if new == 0 { 0 } else { MAX_ROUTINES - new };
    let of = |by_number: &dyn Fn(usize) -> usize| {
        let mut all = vec![vec![]; MAX_ROUTINES];
        for new in 0..MAX_ROUTINES {
            let last = new + 1 == MAX_ROUTINES;
            let next = if last { 0 } else { by_number(new + 1) };
            let choices = [CHOICE, OTHER, END].repeat(20);
            all[by_number(new)] = [&choices, &[NEW, CALL, next as u8, END][..]].concat();
        }
        assemble(&[0; MAX_ROUTINES], &all.concat())
    };
    let (reverse, straight) = (of(&number), of(&|new| new));
    assert_eq!(straight.len(), 3 + MAX_ROUTINES + MAX_SECTION);
    assert_ne!(reverse, straight);
    leads(&reverse, &straight);
    assert_eq!(answer(&reverse, 4_162), (20, vec![255; 4_162]));
    assert_eq!(answer(&reverse, 4_163), (65_536 + 4_163, straight));
    // One body byte more, and one routine more.
    let section = [&reverse[3 + MAX_ROUTINES..], &[END]].concat();
    let longer = assemble(&[0; MAX_ROUTINES], &section);
    assert_eq!(canonical(&longer), Err(refusal::SECTION_COUNT));
    let wider = assemble(&[0; MAX_ROUTINES + 1], &[END; MAX_ROUTINES + 1]);
    assert_eq!(canonical(&wider), Err(refusal::ROUTINE_COUNT));
}
