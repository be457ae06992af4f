//! Tables under schedules, by request #106: runs worked by hand, and what holds of all.

use std::collections::{BTreeMap, BTreeSet};
use std::fs;
use std::path::Path;

use reference::desk::{desk, parts, text};
use reference::generate::{assemble, Rng};
use reference::limits::code::*;
use reference::limits::{MAX_ROUTINES, ROW_BYTES};
use reference::limits::{MAX_RUN_LOCKS, MAX_RUN_OPEN, MAX_THREADS};
use reference::runner::{run_schedule, Answer, Limit, Outcome};
use reference::schedules::{encode, input, marks, schedule, table_of, Guide, Sort};
use reference::{analyse, hex, Verdict};

/// An example's table.
fn example(name: &str) -> Vec<u8> {
    let folder = Path::new(env!("CARGO_MANIFEST_DIR")).join("../examples");
    let file = fs::read_to_string(folder.join(format!("{name}.hex"))).expect(name);
    hex::parse(&file).expect("hexadecimal")
}

/// The text of a run with all records.
fn run(table: &[u8], schedule: &[u8]) -> String {
    text(&run_schedule(table, schedule, MAX_THREADS))
}

/// Lines as the program writes them.
fn lines(lines: &[&str]) -> String {
    lines.iter().map(|line| format!("{line}\n")).collect()
}

/// So many turns of thread 0.
fn main_thread(turns: usize) -> Vec<u8> {
    vec![0; turns]
}

// The worked tables.

#[test]
fn a_ends_at_its_first_byte() {
    let table = example("a-empty-body");
    assert_eq!(
        run(&table, &[]),
        lines(&["open 0", "locks 0", "thread 0 at 0 0"])
    );
    let ended = lines(&["ended 1", "locks 0", "thread 0 ended"]);
    assert_eq!(run(&table, &[0]), ended);
    // What is behind the end is not read, not even for a thread that is not there.
    assert_eq!(run(&table, &[0, 5, 0]), ended);
}

#[test]
fn b_sticks_where_each_thread_has_its_first_lock() {
    let table = example("b-two-threads-opposite-order");
    let stuck = lines(&[
        "stuck 5",
        "locks 2",
        "thread 0 at 0 12",
        "holds 0 1 1",
        "waits 0 0",
        "thread 1 at 0 5",
        "holds 1 0 1",
        "waits 1 1",
    ]);
    assert_eq!(run(&table, &[0, 0, 0, 0, 1]), stuck);
    assert_eq!(run(&table, &[0, 0, 0, 1, 0]), stuck);
    assert_eq!(run(&table, &[0, 0, 0, 0, 1, 0, 1, 9]), stuck);
    // One byte before, thread 1 stands before a lock that is free.
    let before = lines(&[
        "open 4",
        "locks 2",
        "thread 0 at 0 12",
        "holds 0 1 1",
        "thread 1 at 0 3",
    ]);
    assert_eq!(run(&table, &[0, 0, 0, 0]), before);
}

#[test]
fn b_ends_where_one_thread_follows_the_other() {
    let table = example("b-two-threads-opposite-order");
    let schedule = [0, 0, 0, 0, 0, 0, 0, 0, 1, 1, 1, 1, 1];
    let ended = lines(&["ended 13", "locks 2", "thread 0 ended", "thread 1 ended"]);
    assert_eq!(run(&table, &schedule), ended);
    // The upper four bits are of no account where there is no choice.
    let upper: Vec<u8> = schedule.iter().map(|byte| byte + 0xE0).collect();
    assert_eq!(run(&table, &upper), ended);
    let open = lines(&["open 8", "locks 2", "thread 0 ended", "thread 1 at 0 3"]);
    assert_eq!(run(&table, &schedule[..8]), open);
}

#[test]
fn b_reads_bytes_of_threads_that_wait_or_have_ended() {
    let table = example("b-two-threads-opposite-order");
    // Thread 0 has both locks, and thread 1 waits for the first.
    let waiting = |read: &str| {
        lines(&[
            read,
            "locks 2",
            "thread 0 at 0 14",
            "holds 0 0 1",
            "holds 0 1 1",
            "thread 1 at 0 3",
            "waits 1 0",
        ])
    };
    assert_eq!(run(&table, &[0, 0, 0, 0, 0]), waiting("open 5"));
    assert_eq!(run(&table, &[0, 0, 0, 0, 0, 1, 1]), waiting("open 7"));
    // The inner block's END lets it go on; then thread 0 is over.
    let schedule = [0, 0, 0, 0, 0, 1, 0, 1, 0, 0, 0, 0, 1];
    let open = lines(&[
        "open 13",
        "locks 2",
        "thread 0 ended",
        "thread 1 at 0 7",
        "holds 1 0 1",
        "holds 1 1 1",
    ]);
    assert_eq!(run(&table, &schedule), open);
}

#[test]
fn b_is_refused_at_a_thread_that_is_not_there() {
    let table = example("b-two-threads-opposite-order");
    let first = lines(&["refused 16 0", "locks 0", "thread 0 at 0 0"]);
    assert_eq!(run(&table, &[1]), first);
    assert_eq!(run(&table, &[15, 0, 0]), first);
    let third = lines(&["refused 16 2", "locks 2", "thread 0 at 0 2"]);
    assert_eq!(run(&table, &[0, 0, 1]), third);
    let fourth = lines(&[
        "refused 16 3",
        "locks 2",
        "thread 0 at 0 10",
        "thread 1 at 0 3",
    ]);
    assert_eq!(run(&table, &[0, 0, 0, 2]), fourth);
    // 16 and more are threads 0 and on.
    assert_eq!(
        run(&table, &[16]),
        lines(&["open 1", "locks 1", "thread 0 at 0 1"])
    );
}

#[test]
fn b_is_refused_where_its_fork_has_no_record() {
    let table = example("b-two-threads-opposite-order");
    let lent = |lent: usize, schedule: &[u8]| text(&run_schedule(&table, schedule, lent));
    let at_fork = lines(&["refused 17 2", "locks 2", "thread 0 at 0 2"]);
    assert_eq!(lent(1, &[0, 0, 0]), at_fork);
    assert_eq!(lent(1, &[0, 0, 0, 0]), at_fork);
    // A thread without a record is not there.
    let not_there = lines(&["refused 16 2", "locks 2", "thread 0 at 0 2"]);
    assert_eq!(lent(1, &[0, 0, 1]), not_there);
    assert!(lent(2, &[0, 0, 0]).starts_with("open 3\n"));
    // Without any record no byte is looked at.
    for schedule in [&[][..], &[0], &[1]] {
        assert_eq!(lent(0, schedule), "refused 17 0\n");
    }
}

#[test]
fn d_gives_back_one_hold_at_each_end() {
    let table = example("d-one-thread-locks-twice");
    let expected: [&[&str]; 7] = [
        &["open 0", "locks 0", "thread 0 at 0 0"],
        &["open 1", "locks 1", "thread 0 at 0 1"],
        &["open 2", "locks 1", "thread 0 at 0 3", "holds 0 0 1"],
        &["open 3", "locks 1", "thread 0 at 0 5", "holds 0 0 2"],
        &["open 4", "locks 1", "thread 0 at 0 6", "holds 0 0 1"],
        &["open 5", "locks 1", "thread 0 at 0 7"],
        &["ended 6", "locks 1", "thread 0 ended"],
    ];
    for (turns, expected) in expected.iter().enumerate() {
        assert_eq!(run(&table, &main_thread(turns)), lines(expected));
    }
}

#[test]
fn e_waits_until_the_last_hold_is_given_back() {
    let table = example("e-two-threads-lock-twice");
    let waits = |schedule: &[u8]| run(&table, schedule).contains("waits 1 0\n");
    assert!(!waits(&main_thread(2)));
    assert!(waits(&main_thread(3)));
    assert!(waits(&main_thread(4)));
    assert!(waits(&main_thread(5)));
    assert!(!waits(&main_thread(6)));
    // The turn of a thread that waits is no step, so its locks come later.
    let schedule = [0, 0, 0, 1, 0, 1, 0, 1, 0, 1, 1];
    let open = lines(&[
        "open 11",
        "locks 1",
        "thread 0 at 0 15",
        "thread 1 at 0 6",
        "holds 1 0 2",
    ]);
    assert_eq!(run(&table, &schedule), open);
}

#[test]
fn h_sticks_and_g_does_not() {
    // The second alternative once: a fork over locks 0 and 1, a call over 1 and 0.
    let schedule = [0, 0, 128, 0, 0, 0, 0, 0, 1];
    let stuck = lines(&[
        "stuck 9",
        "locks 2",
        "thread 0 at 1 9",
        "holds 0 1 1",
        "waits 0 0",
        "thread 1 at 1 18",
        "holds 1 0 1",
        "waits 1 1",
    ]);
    assert_eq!(run(&example("h-philosophers-all-alike"), &schedule), stuck);
    let open = lines(&[
        "open 9",
        "locks 2",
        "thread 0 at 1 9",
        "holds 0 0 1",
        "thread 1 at 1 16",
        "waits 1 0",
    ]);
    assert_eq!(run(&example("g-philosophers"), &schedule), open);
}

#[test]
fn g_is_never_stuck_and_h_often_is() {
    let mut rng = Rng::new(1);
    let [g, h] = ["g-philosophers", "h-philosophers-all-alike"].map(example);
    let (mut ended, mut beyond, mut waited, mut stuck) = (0, 0, 0, 0);
    for _ in 0..2_000 {
        let guide = Guide {
            idle: 20,
            length: 5_000,
            ..Guide::to_wait(&mut rng)
        };
        let bytes = schedule(&mut rng, &g, 16, &guide);
        let (outcome, met) = marks(&encode(16, &g, &bytes));
        assert_ne!(outcome.answer, Answer::Stuck, "{bytes:?}");
        ended += usize::from(outcome.answer == Answer::Ended);
        beyond += usize::from(matches!(outcome.answer, Answer::Beyond(_)));
        waited += usize::from(met.contains("byte for a waiting thread"));
        let bytes = schedule(&mut rng, &h, 16, &guide);
        stuck += usize::from(run_schedule(&h, &bytes, 16).answer == Answer::Stuck);
        // Without a guide, so that threads are named before they are there.
        let bytes = rng.bytes(300);
        assert_ne!(run_schedule(&g, &bytes, 16).answer, Answer::Stuck);
    }
    assert!(ended >= 1_000, "{ended}");
    assert!(beyond >= 200, "{beyond}");
    assert!(waited >= 400, "{waited}");
    assert!(stuck >= 200, "{stuck}");
}

// Items.

#[test]
fn choices_go_by_the_upper_half_of_a_byte() {
    let table = assemble(&[0], &[CHOICE, NEW, OTHER, END, END]);
    let at = |offset: u8| lines(&["open 1", "locks 0", &format!("thread 0 at 0 {offset}")]);
    for byte in [0, 16, 112] {
        assert_eq!(run(&table, &[byte]), at(1), "{byte}");
    }
    for byte in [128, 144, 240] {
        assert_eq!(run(&table, &[byte]), at(3), "{byte}");
    }
    // OTHER goes behind the END of the choice, and END does so too.
    let both = |first: &[u8]| run(&table, &[first, &[0]].concat());
    assert_eq!(
        both(&[0, 0]),
        lines(&["open 3", "locks 1", "thread 0 at 0 4"])
    );
    assert_eq!(
        both(&[128]),
        lines(&["open 2", "locks 0", "thread 0 at 0 4"])
    );
}

#[test]
fn bytes_127_and_143_are_of_thread_15() {
    let forks = [FORK, CHOICE, OTHER, END, END];
    let bodies = [
        &forks.repeat(8)[..],
        &[CALL, 1, END],
        &forks.repeat(7),
        &[END],
    ];
    let table = assemble(&[0, 0], &bodies.concat());
    // Thread 15 has the last fork of routine 1, whose CHOICE is at 43 + 6 × 5 + 1.
    let last = |byte: u8| {
        let text = run(&table, &[main_thread(16), vec![byte]].concat());
        assert!(text.starts_with("open 17\n"), "{text}");
        text.lines().last().expect("a line").to_string()
    };
    assert_eq!(last(0), "thread 15 at 1 74");
    assert_eq!(last(15), "thread 15 at 1 75");
    assert_eq!(last(127), "thread 15 at 1 75");
    assert_eq!(last(143), "thread 15 at 1 76");
    assert_eq!(last(255), "thread 15 at 1 76");
}

#[test]
fn locals_have_the_names_that_are_written() {
    // The NEW of the alternative that is not taken, and that of the fork, have names too.
    let body = [
        CHOICE, NEW, OTHER, END, FORK, NEW, LOCK, 2, END, END, NEW, LOCK, 3, END, END,
    ];
    let table = assemble(&[0], &body);
    // Lock 0 is name 3 of thread 0, and lock 1 is name 2 of thread 1.
    let open = lines(&[
        "open 7",
        "locks 2",
        "thread 0 at 0 13",
        "holds 0 0 1",
        "thread 1 at 0 8",
        "holds 1 1 1",
    ]);
    assert_eq!(run(&table, &[128, 0, 0, 0, 0, 1, 1]), open);
    // The other way round.
    let open = lines(&[
        "open 7",
        "locks 2",
        "thread 0 at 0 13",
        "holds 0 1 1",
        "thread 1 at 0 8",
        "holds 1 0 1",
    ]);
    assert_eq!(run(&table, &[128, 0, 0, 1, 1, 0, 0]), open);
}

#[test]
fn a_call_has_names_of_its_own_and_gives_back_its_callers() {
    let main = [NEW, NEW, CALL, 1, 2, LOCK, 1, END, END];
    let called = [NEW, LOCK, 2, LOCK, 1, END, END, END];
    let table = assemble(&[0, 1], &[&main[..], &called].concat());
    // In the call, 1 is lock 1 and 2 is lock 2.
    let inside = lines(&[
        "open 6",
        "locks 3",
        "thread 0 at 1 14",
        "holds 0 1 1",
        "holds 0 2 1",
    ]);
    assert_eq!(run(&table, &main_thread(6)), inside);
    let back = lines(&["open 9", "locks 3", "thread 0 at 0 5"]);
    assert_eq!(run(&table, &main_thread(9)), back);
    let behind = lines(&["open 10", "locks 3", "thread 0 at 0 7", "holds 0 0 1"]);
    assert_eq!(run(&table, &main_thread(10)), behind);
}

#[test]
fn a_lock_passed_twice_is_one_lock() {
    let main = [NEW, CALL, 1, 1, 1, END];
    let called = [FORK, LOCK, 2, END, END, LOCK, 1, LOCK, 2, END, END, END];
    let table = assemble(&[0, 2], &[&main[..], &called].concat());
    let open = lines(&[
        "open 5",
        "locks 1",
        "thread 0 at 1 15",
        "holds 0 0 2",
        "thread 1 at 1 7",
        "waits 1 0",
    ]);
    assert_eq!(run(&table, &main_thread(5)), open);
}

#[test]
fn a_fork_of_a_call_ends_with_its_block() {
    let main = [CALL, 1, NEW, END];
    let called = [FORK, NEW, END, END];
    let table = assemble(&[0, 0], &[&main[..], &called].concat());
    // The caller is back and over before its fork is.
    let open = lines(&["open 5", "locks 1", "thread 0 ended", "thread 1 at 1 5"]);
    assert_eq!(run(&table, &main_thread(5)), open);
    let ended = lines(&["ended 7", "locks 2", "thread 0 ended", "thread 1 ended"]);
    assert_eq!(run(&table, &[0, 0, 0, 0, 0, 1, 1]), ended);
}

#[test]
fn a_fork_holds_nothing_of_its_parent() {
    let table = assemble(&[0], &[NEW, LOCK, 1, FORK, LOCK, 1, END, END, END, END]);
    let waits = lines(&[
        "open 3",
        "locks 1",
        "thread 0 at 0 8",
        "holds 0 0 1",
        "thread 1 at 0 4",
        "waits 1 0",
    ]);
    assert_eq!(run(&table, &main_thread(3)), waits);
}

#[test]
fn a_thread_that_ends_can_leave_others_stuck() {
    // Two forks take 1 and 2 in opposite orders, and thread 0 ends last.
    let first = [FORK, LOCK, 1, LOCK, 2, END, END, END];
    let second = [FORK, LOCK, 2, LOCK, 1, END, END, END];
    let table = assemble(&[0], &[&[NEW, NEW], &first[..], &second, &[END]].concat());
    let stuck = lines(&[
        "stuck 7",
        "locks 2",
        "thread 0 ended",
        "thread 1 at 0 5",
        "holds 1 0 1",
        "waits 1 1",
        "thread 2 at 0 13",
        "holds 2 1 1",
        "waits 2 0",
    ]);
    assert_eq!(run(&table, &[0, 0, 0, 0, 1, 2, 0]), stuck);
}

// Mirrors.

#[test]
fn a_mirror_is_the_same_lock() {
    // 2 is a mirror of 1, and 3 is one of 2.
    let body = [
        NEW, MIRROR, 1, MIRROR, 2, FORK, LOCK, 3, END, END, LOCK, 1, LOCK, 2, LOCK, 3, END, END,
        END, END,
    ];
    let table = assemble(&[0], &body);
    let open = lines(&[
        "open 7",
        "locks 1",
        "thread 0 at 0 16",
        "holds 0 0 3",
        "thread 1 at 0 6",
        "waits 1 0",
    ]);
    assert_eq!(run(&table, &main_thread(7)), open);
    let after = lines(&["open 10", "locks 1", "thread 0 at 0 19", "thread 1 at 0 6"]);
    assert_eq!(run(&table, &main_thread(10)), after);
}

#[test]
fn a_mirror_is_a_step_and_its_name_is_counted_with_those_of_new() {
    let main = [NEW, NEW, CALL, 1, 1, 2, END];
    // 3 is a mirror of 2, 4 is a lock, 5 is a mirror of 3.
    let called = [
        MIRROR, 2, NEW, MIRROR, 3, LOCK, 5, LOCK, 4, LOCK, 1, END, END, END, END,
    ];
    let table = assemble(&[0, 2], &[&main[..], &called].concat());
    assert_eq!(
        run(&table, &main_thread(4)),
        lines(&["open 4", "locks 2", "thread 0 at 1 9"])
    );
    let open = lines(&[
        "open 9",
        "locks 3",
        "thread 0 at 1 18",
        "holds 0 0 1",
        "holds 0 1 1",
        "holds 0 2 1",
    ]);
    assert_eq!(run(&table, &main_thread(9)), open);
    assert_eq!(
        run(&table, &main_thread(7)),
        lines(&["open 7", "locks 3", "thread 0 at 1 14", "holds 0 1 1"])
    );
}

#[test]
fn two_names_of_one_lock_stick() {
    let table = example("mirror-work-memory");
    let mut rng = Rng::new(1);
    let stuck = (0..100).any(|_| {
        let guide = Guide::to_wait(&mut rng);
        let bytes = schedule(&mut rng, &table, 16, &guide);
        run_schedule(&table, &bytes, 16).answer == Answer::Stuck
    });
    assert!(stuck);
}

// Limits.

/// Routine 0 with these items, and a routine 1 that calls itself.
fn endless(main: &[u8]) -> Vec<u8> {
    assemble(&[0, 0], &[main, &[END, CALL, 1, END]].concat())
}

#[test]
fn sixty_four_calls_pass() {
    let table = endless(&[CALL, 1]);
    let at_limit = |answer: &str| lines(&[answer, "locks 0", "thread 0 at 1 3"]);
    assert_eq!(run(&table, &main_thread(63)), at_limit("open 63"));
    assert_eq!(run(&table, &main_thread(64)), at_limit("open 64"));
    assert_eq!(run(&table, &main_thread(65)), at_limit("refused 17 64"));
    assert_eq!(run(&table, &main_thread(90)), at_limit("refused 17 64"));
}

#[test]
fn sixty_three_calls_pass_beside_a_forks_own_block() {
    let table = endless(&[FORK, CALL, 1, END]);
    let schedule = |calls: usize| [vec![0], vec![1; calls]].concat();
    let at_limit = |answer: &str| lines(&[answer, "locks 0", "thread 0 at 0 4", "thread 1 at 1 5"]);
    assert_eq!(run(&table, &schedule(63)), at_limit("open 64"));
    assert_eq!(run(&table, &schedule(64)), at_limit("refused 17 64"));
}

#[test]
fn the_block_of_a_fork_is_not_open_in_its_parent() {
    // Two forks before leave thread 0 room for all 64.
    let table = endless(&[FORK, END, FORK, END, CALL, 1]);
    let run = run(&table, &main_thread(70));
    assert!(run.starts_with("refused 17 66\n"), "{run}");
}

#[test]
fn blocks_and_calls_count_together() {
    // Three to a level: LOCK, CHOICE, CALL.
    let main = [NEW, CALL, 1, 1, END];
    let level = [LOCK, 1, CHOICE, CALL, 1, 1, OTHER, END, END, END];
    let table = assemble(&[0, 1], &[&main[..], &level].concat());
    let at_limit = |answer: &str| lines(&[answer, "locks 1", "thread 0 at 1 5", "holds 0 0 21"]);
    // NEW, the first CALL and 21 levels.
    assert_eq!(run(&table, &main_thread(65)), at_limit("open 65"));
    // Also a lock that the thread has needs a block.
    assert_eq!(run(&table, &main_thread(66)), at_limit("refused 17 65"));
}

#[test]
fn what_opens_nothing_passes_at_the_limit() {
    let main = [NEW, CALL, 1, 1, END];
    let level = [
        CHOICE, CALL, 1, 1, OTHER, MIRROR, 1, NEW, FORK, END, END, END,
    ];
    let table = assemble(&[0, 1], &[&main[..], &level].concat());
    // The second alternative of the 32nd choice is the 64th that is open.
    let deepest = [main_thread(64), vec![128]].concat();
    let then = |turns: usize| run(&table, &[deepest.clone(), main_thread(turns)].concat());
    assert_eq!(then(0), lines(&["open 65", "locks 1", "thread 0 at 1 10"]));
    assert_eq!(then(1), lines(&["open 66", "locks 1", "thread 0 at 1 12"]));
    assert_eq!(then(2), lines(&["open 67", "locks 2", "thread 0 at 1 13"]));
    let forked = |answer: &str, place: &str| {
        let main = format!("thread 0 at {place}");
        lines(&[answer, "locks 2", &main, "thread 1 at 1 14"])
    };
    assert_eq!(then(3), forked("open 68", "1 15"));
    assert_eq!(then(4), forked("open 69", "1 16"));
    assert_eq!(then(5), forked("open 70", "1 9"));
    // The first alternative has a CALL there, and a CHOICE at 64 does not pass either.
    let beyond = lines(&["refused 17 65", "locks 1", "thread 0 at 1 6"]);
    assert_eq!(run(&table, &main_thread(66)), beyond);
    let odd = [NEW, LOCK, 1, CALL, 1, 1, END, END];
    let table = assemble(&[0, 1], &[&odd[..], &level].concat());
    let beyond = lines(&["refused 17 65", "locks 1", "thread 0 at 1 8", "holds 0 0 1"]);
    assert_eq!(run(&table, &main_thread(66)), beyond);
}

#[test]
fn a_thread_that_waits_at_the_limit_does_nothing() {
    // A fork goes down to 64 and takes a lock that thread 0 has.
    let main = [
        NEW, FORK, CHOICE, CALL, 1, 1, OTHER, END, END, LOCK, 1, END, END,
    ];
    let level = [CHOICE, CALL, 1, 1, OTHER, LOCK, 1, END, END, END];
    let table = assemble(&[0, 1], &[&main[..], &level].concat());
    // Its block, a choice, and 31 calls, each with a choice.
    let mut down = [vec![0, 0], vec![1; 63]].concat();
    down[64] = 129;
    let waits = [&down[..], &[0, 1, 1, 1]].concat();
    let waiting = lines(&[
        "open 69",
        "locks 1",
        "thread 0 at 0 11",
        "holds 0 0 1",
        "thread 1 at 1 18",
        "waits 1 0",
    ]);
    assert_eq!(run(&table, &waits), waiting);
    // Where the lock is free, the block does not fit.
    let free = [&down[..], &[1, 0]].concat();
    let beyond = lines(&[
        "refused 17 65",
        "locks 1",
        "thread 0 at 0 9",
        "thread 1 at 1 18",
    ]);
    assert_eq!(run(&table, &free), beyond);
    let freed = [waits, vec![0, 1]].concat();
    let beyond = lines(&[
        "refused 17 70",
        "locks 1",
        "thread 0 at 0 12",
        "thread 1 at 1 18",
    ]);
    assert_eq!(run(&table, &freed), beyond);
}

/// Eight forks in routine 0, and so many in routine 1.
fn forks(called: usize) -> Vec<u8> {
    let row = |count: usize| [FORK, END].repeat(count);
    let bodies = [row(8), vec![CALL, 1, END], row(called), vec![END]];
    assemble(&[0, 0], &bodies.concat())
}

#[test]
fn sixteen_threads_pass() {
    // Thread 0 ends at its 18th turn, each other one at its first.
    let turns = [main_thread(18), (1..16).collect()].concat();
    let mut ended = vec!["ended 33".to_string(), "locks 0".to_string()];
    ended.extend((0..16).map(|thread| format!("thread {thread} ended")));
    let ended: Vec<&str> = ended.iter().map(String::as_str).collect();
    assert_eq!(run(&forks(7), &turns), lines(&ended));
    // Threads that have ended count too, and their records are not used again.
    let turns: Vec<u8> = (1..9).flat_map(|thread| [0, thread]).collect();
    let turns = [turns, main_thread(9)].concat();
    let outcome = run_schedule(&forks(8), &turns, 16);
    assert_eq!(outcome.answer, Answer::Beyond(Limit::Threads));
    assert_eq!((outcome.read, outcome.threads.len()), (24, 16));
}

#[test]
fn a_seventeenth_thread_does_not_pass() {
    let mut expected = vec!["refused 17 16".to_string(), "locks 0".to_string()];
    expected.push("thread 0 at 1 33".to_string());
    expected.extend((1..9).map(|thread| format!("thread {thread} at 0 {}", 2 * thread - 1)));
    expected.extend((9..16).map(|thread| format!("thread {thread} at 1 {}", 2 * thread + 2)));
    let expected: Vec<&str> = expected.iter().map(String::as_str).collect();
    assert_eq!(run(&forks(8), &main_thread(17)), lines(&expected));
    // More records than threads change nothing.
    for lent in [16, 17, 255] {
        let stdin = encode(lent, &forks(8), &main_thread(17));
        assert_eq!(desk(&stdin), lines(&expected), "{lent}");
    }
}

#[test]
fn fewer_records_are_fewer_threads() {
    for lent in 1..16 {
        let outcome = run_schedule(&forks(7), &main_thread(18), lent);
        assert_eq!(outcome.answer, Answer::Beyond(Limit::Records));
        assert_eq!(outcome.threads.len(), lent);
        // The CALL is a turn too.
        let forked = lent - 1;
        assert_eq!(outcome.read, forked + usize::from(forked >= 8));
    }
    let outcome = run_schedule(&forks(6), &main_thread(17), 15);
    assert_eq!((outcome.answer, outcome.read), (Answer::Open, 17));
}

#[test]
fn sixty_four_locks_pass() {
    let table = |more: &[u8]| {
        let calls = [CALL, 1].repeat(8);
        let bodies = [&calls[..], more, &[END], &[NEW; 8], &[END]];
        assemble(&[0, 0], &bodies.concat())
    };
    // Ten turns for each call.
    let ended = lines(&["ended 81", "locks 64", "thread 0 ended"]);
    assert_eq!(run(&table(&[]), &main_thread(81)), ended);
    let beyond = lines(&["refused 17 80", "locks 64", "thread 0 at 0 16"]);
    assert_eq!(run(&table(&[NEW]), &main_thread(81)), beyond);
    // A mirror is no lock, and passes.
    let main = [
        &[NEW][..],
        &[CALL, 1].repeat(7),
        &[CALL, 2, MIRROR, 1, NEW, END],
    ];
    let bodies = [&main.concat()[..], &[NEW; 8], &[END], &[NEW; 7], &[END]];
    let table = assemble(&[0, 0, 0], &bodies.concat());
    let beyond = lines(&["refused 17 81", "locks 64", "thread 0 at 0 19"]);
    assert_eq!(run(&table, &main_thread(82)), beyond);
}

// The program's input.

#[test]
fn refused_tables_tell_their_number_alone() {
    for (table, number) in [
        (vec![], 1),
        (vec![0], 2),
        (vec![1, 0], 3),
        (vec![1, 1, 1, 0, END], 4),
        (vec![1, 0, 1, 16], 5),
        (vec![1, 0, 2, 0, END], 6),
        (vec![1, 0, 0, 0], 7),
        (vec![1, 0, 1, 0, 8], 8),
        (vec![1, 0, 1, 0, OTHER], 9),
        (assemble(&[0], &[CHOICE; 17]), 10),
        (assemble(&[0], &[NEW; 9]), 11),
        (vec![1, 0, 1, 0, CALL], 12),
        (vec![1, 0, 2, 0, LOCK, 1], 13),
        (vec![1, 0, 2, 0, END, END], 14),
    ] {
        for lent in [0, 1, 16] {
            let stdin = encode(lent, &table, &[0, 1, 2]);
            assert_eq!(desk(&stdin), format!("refused {number} 0\n"));
        }
    }
}

#[test]
fn short_inputs_are_read_as_they_are() {
    assert_eq!(desk(&[]), "refused 1 0\n");
    assert_eq!(desk(&[16]), "refused 1 0\n");
    assert_eq!(desk(&[16, 5]), "refused 1 0\n");
    assert_eq!(desk(&[16, 5, 0]), "refused 1 0\n");
    assert_eq!(desk(&[16, 5, 0, 1]), "refused 3 0\n");
    assert_eq!(desk(&[16, 5, 0, 1, 0, 1, 0]), "refused 6 0\n");
    let open = lines(&["open 0", "locks 0", "thread 0 at 0 0"]);
    assert_eq!(desk(&[16, 5, 0, 1, 0, 1, 0, 0]), open);
    let ended = lines(&["ended 1", "locks 0", "thread 0 ended"]);
    assert_eq!(desk(&[1, 5, 0, 1, 0, 1, 0, 0, 0]), ended);
    assert_eq!(desk(&[0, 5, 0, 1, 0, 1, 0, 0, 0]), "refused 17 0\n");
}

#[test]
fn no_more_than_65536_bytes_are_read() {
    // Thread 0 ends, thread 1 does not; the last byte would be for no thread.
    let table = assemble(&[0], &[FORK, END, END]);
    let long = |bytes: usize, last: u8| {
        let mut schedule = main_thread(bytes);
        schedule.push(last);
        desk(&encode(16, &table, &schedule))
    };
    let state = ["locks 0", "thread 0 ended", "thread 1 at 0 1"];
    let with = |answer: &'static str| lines(&[&[answer], &state[..]].concat());
    assert_eq!(long(65_535, 7), with("refused 16 65535"));
    assert_eq!(long(65_536, 7), with("open 65536"));
    assert!(long(65_535, 1).starts_with("ended 65536\n"));
    assert!(long(65_536, 1).starts_with("open 65536\n"));
}

// What holds of all runs.

/// A thread of a text.
#[derive(Clone, Debug, Default, PartialEq, Eq)]
struct Shown {
    /// Its routine and offset; none where it has ended.
    at: Option<(usize, usize)>,
    /// Each lock that it holds, with how often.
    holds: Vec<(usize, usize)>,
    waits: Option<usize>,
}

impl Shown {
    fn can_step(&self) -> bool {
        self.at.is_some() && self.waits.is_none()
    }

    fn has(&self, lock: usize) -> bool {
        self.holds.iter().any(|&(held, _)| held == lock)
    }
}

/// The state of a text.
struct Picture {
    locks: usize,
    threads: Vec<Shown>,
}

/// The words of the first line, and the state if there is one.
fn read_text(text: &str) -> (Vec<&str>, Option<Picture>) {
    assert!(text.ends_with('\n'));
    let mut all = text.lines().map(|line| line.split(' ').collect::<Vec<_>>());
    let first = all.next().expect("a line");
    let number = |word: &str| word.parse::<usize>().expect("a number");
    let mut picture: Option<Picture> = None;
    for line in all {
        let state = match (&mut picture, &line[..]) {
            (none @ None, ["locks", locks]) => {
                let locks = number(locks);
                let threads = vec![];
                *none = Some(Picture { locks, threads });
                continue;
            }
            (Some(state), _) => state,
            _ => panic!("{text}"),
        };
        let last = state.threads.len().wrapping_sub(1);
        match line[..] {
            ["thread", thread, "ended"] if number(thread) == state.threads.len() => {
                state.threads.push(Shown::default());
            }
            ["thread", thread, "at", routine, offset] if number(thread) == state.threads.len() => {
                let at = Some((number(routine), number(offset)));
                state.threads.push(Shown {
                    at,
                    ..Shown::default()
                });
            }
            ["holds", thread, lock, times] if number(thread) == last => {
                assert_eq!(state.threads[last].waits, None, "{text}");
                let held = (number(lock), number(times));
                state.threads[last].holds.push(held);
            }
            ["waits", thread, lock] if number(thread) == last => {
                assert_eq!(state.threads[last].waits, None, "{text}");
                state.threads[last].waits = Some(number(lock));
            }
            _ => panic!("{text}"),
        }
    }
    (first, picture)
}

/// The routine and the code at each offset of an accepted table's body section where an
/// item begins, found by the bytes alone.
fn places(table: &[u8]) -> BTreeMap<usize, (usize, u8)> {
    let n = table[0] as usize;
    let section = &table[3 + n..];
    let mut places = BTreeMap::new();
    let (mut at, mut routine, mut depth) = (0, 0, 0);
    while at < section.len() {
        places.insert(at, (routine, section[at]));
        at += match section[at] {
            LOCK | MIRROR => 2,
            CALL => 2 + table[1 + section[at + 1] as usize] as usize,
            _ => 1,
        };
        match places[places.keys().last().expect("a place")].1 {
            LOCK | FORK | CHOICE => depth += 1,
            END if depth == 0 => routine += 1,
            END => depth -= 1,
            _ => {}
        }
    }
    places
}

/// Holds the text of an input against what every answer and every state must be.
fn check_text(stdin: &[u8], text: &str) {
    let input = parts(stdin);
    let (first, picture) = read_text(text);
    let number = |word: &str| word.parse::<usize>().expect("a number");
    let Some(Picture { locks, threads }) = picture else {
        // Refused by the check, or without a record.
        let ["refused", why, "0"] = first[..] else {
            panic!("{text}")
        };
        assert!((1..=14).contains(&number(why)) || (why == "17" && input.lent == 0));
        return;
    };
    let places = places(input.table);
    let code = |thread: &Shown| thread.at.map(|(_, offset)| places[&offset].1);

    // Each thread by itself.
    assert!(!threads.is_empty() && threads.len() <= input.lent.min(MAX_THREADS));
    assert!(locks <= MAX_RUN_LOCKS);
    for thread in &threads {
        if let Some((routine, offset)) = thread.at {
            assert_eq!(places[&offset].0, routine, "{text}");
        } else {
            assert_eq!(*thread, Shown::default(), "{text}");
        }
        assert!(thread.holds.is_sorted_by(|a, b| a.0 < b.0), "{text}");
        let all_locks = thread.holds.iter().map(|held| held.0).chain(thread.waits);
        assert!(all_locks.into_iter().all(|lock| lock < locks), "{text}");
        assert!(thread.holds.iter().all(|held| held.1 > 0), "{text}");
        let blocks: usize = thread.holds.iter().map(|held| held.1).sum();
        assert!(blocks <= MAX_RUN_OPEN, "{text}");
        if let Some(lock) = thread.waits {
            assert_eq!(code(thread), Some(LOCK), "{text}");
            assert!(!thread.has(lock), "{text}");
            assert!(threads.iter().any(|other| other.has(lock)), "{text}");
        }
    }
    // No lock is with two threads.
    let held = threads.iter().flat_map(|thread| &thread.holds);
    let held: Vec<usize> = held.map(|held| held.0).collect();
    assert_eq!(held.iter().collect::<BTreeSet<_>>().len(), held.len());

    // The answer.
    let over = threads.iter().all(|thread| thread.at.is_none());
    let goes_on = threads.iter().any(Shown::can_step);
    let read = number(first.last().expect("a word"));
    let next = input.schedule.get(read);
    match first[..] {
        ["ended", _] => assert!(over && read > 0, "{text}"),
        ["stuck", _] => assert!(!over && !goes_on, "{text}"),
        ["open", _] => assert!(goes_on && next.is_none(), "{text}"),
        ["refused", "16", _] => {
            let named = *next.expect("a byte") as usize % MAX_THREADS;
            assert!(goes_on && named >= threads.len(), "{text}");
        }
        ["refused", "17", _] => {
            let named = *next.expect("a byte") as usize % MAX_THREADS;
            assert!(threads[named].can_step(), "{text}");
            assert!(
                match code(&threads[named]) {
                    Some(NEW) => locks == MAX_RUN_LOCKS,
                    Some(FORK) => threads.len() == input.lent.min(MAX_THREADS),
                    code => matches!(code, Some(LOCK | CHOICE | CALL)),
                },
                "{text}"
            );
        }
        _ => panic!("{text}"),
    }

    // The bytes that were read leave the same state by themselves.
    let lent = input.lent as u8;
    let again = desk(&encode(lent, input.table, &input.schedule[..read]));
    let state = |text: &str| text.split_once('\n').expect("a line").1.to_string();
    assert_eq!(state(&again), state(text));
    if let ["ended" | "stuck", _] = first[..] {
        assert_eq!(again, text);
        let before = desk(&encode(lent, input.table, &input.schedule[..read - 1]));
        assert!(before.starts_with("open "), "{text}");
    } else {
        assert!(again.starts_with(&format!("open {read}\n")), "{text}");
    }
}

#[test]
fn texts_are_what_they_must_be() {
    for index in 0..6_000 {
        let (_, stdin) = input(3, index);
        check_text(&stdin, &desk(&stdin));
    }
}

#[test]
fn a_byte_changes_its_own_thread_alone() {
    let (mut steps, mut still) = (0, 0);
    for index in 0..3_000 {
        let (_, stdin) = input(4, index);
        let input = parts(&stdin);
        let prefix = |bytes| {
            let lent = input.lent as u8;
            desk(&encode(lent, input.table, &input.schedule[..bytes]))
        };
        let mut before = prefix(0);
        for (at, byte) in input.schedule.iter().enumerate().take(100) {
            if !before.starts_with("open ") {
                break;
            }
            let after = prefix(at + 1);
            let both = format!("{before}{after}");
            let [old, new] = [&before, &after].map(|text| read_text(text).1.expect("a state"));
            let named = *byte as usize % MAX_THREADS;
            let stays = if named >= old.threads.len() {
                assert!(after.starts_with(&format!("refused 16 {at}\n")), "{both}");
                true
            } else if old.threads[named].can_step() {
                after.starts_with(&format!("refused 17 {at}\n"))
            } else {
                assert!(after.starts_with(&format!("open {}\n", at + 1)), "{both}");
                true
            };
            if stays {
                assert_eq!(old.threads, new.threads, "{both}");
                assert_eq!(old.locks, new.locks, "{both}");
                still += 1;
            } else {
                check_step(input.table, named, &old, &new);
                steps += 1;
            }
            before = after;
        }
    }
    assert!(steps >= 30_000 && still >= 3_000, "{steps} {still}");
}

/// Holds a step of one thread against the code of its item.
fn check_step(table: &[u8], named: usize, old: &Picture, new: &Picture) {
    for (thread, (old, new)) in old.threads.iter().zip(&new.threads).enumerate() {
        let same = (old.at, &old.holds) == (new.at, &new.holds);
        assert!(same || thread == named);
    }
    let (before, after) = (&old.threads[named], &new.threads[named]);
    let (routine, offset) = before.at.expect("a next item");
    let (_, code) = places(table)[&offset];
    // A routine that calls itself first of all is at the same place again.
    assert!(before.at != after.at || code == CALL);
    // Other items go on in the same body, and further down.
    let further = |at: (usize, usize)| at.0 == routine && at.1 > offset;
    assert!(matches!(code, CALL | END) || after.at.is_some_and(further));
    let count = |shown: &Shown| shown.holds.iter().map(|held| held.1).sum::<usize>();
    let (was, is) = (count(before), count(after));
    match code {
        LOCK => assert_eq!(is, was + 1),
        END => assert!(is == was || is + 1 == was),
        _ => assert_eq!(is, was),
    }
    assert_eq!(new.locks, old.locks + usize::from(code == NEW));
    let started = old.threads.len() + usize::from(code == FORK);
    assert_eq!(new.threads.len(), started);
    if code == FORK {
        let forked = &new.threads[started - 1];
        assert_eq!(forked.at, Some((routine, offset + 1)));
        assert!(forked.holds.is_empty());
    }
}

/// Whether some of a few schedules that seek waiting make a table stick, and whether a
/// thread has to wait in one.
fn search(rng: &mut Rng, table: &[u8]) -> (bool, bool) {
    let (mut stuck, mut waited) = (false, false);
    for _ in 0..4 {
        let guide = Guide::to_wait(rng);
        let bytes = schedule(rng, table, 16, &guide);
        let (Outcome { answer, .. }, met) = marks(&encode(16, table, &bytes));
        stuck |= answer == Answer::Stuck;
        waited |= met.contains("waiting thread");
    }
    (stuck, waited)
}

#[test]
fn clear_tables_never_stick_and_many_rings_do() {
    let mut rng = Rng::new(1);
    let (mut clear, mut clear_waited, mut rings, mut rings_stuck) = (0, 0, 0, 0);
    let sorts = [
        Sort::Generated,
        Sort::Generated,
        Sort::Worked,
        Sort::Opposite,
        Sort::Mirrored,
        Sort::Forking,
        Sort::Deep,
    ];
    for index in 0..12_000 {
        let table = table_of(&mut rng, sorts[index % sorts.len()]);
        let mut model = vec![0; ROW_BYTES * MAX_ROUTINES];
        let reference::Answer::Accepted { verdict, .. } = analyse(&table, &mut model) else {
            continue;
        };
        let (stuck, waited) = search(&mut rng, &table);
        if verdict == Verdict::Clear {
            assert!(!stuck, "{}", hex::text(&table));
            clear += 1;
            clear_waited += usize::from(waited);
        } else {
            rings += 1;
            rings_stuck += usize::from(stuck);
        }
    }
    assert!(clear >= 5_000, "{clear}");
    assert!(clear_waited >= 2_000, "{clear_waited}");
    assert!(rings_stuck >= 2_500, "{rings_stuck} of {rings}");
}
