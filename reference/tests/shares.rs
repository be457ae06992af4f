//! What request #102 adds: the share of an accepted table, and its line.

use std::collections::BTreeSet;

use reference::cases::{limits, rules, share_rules, worked, Said};
use reference::generate::random;
use reference::limits::{code, RING_BYTE, ROW_BYTES, ROW_SIDE};
use reference::model::{least_model, row_bytes, Outcome};
use reference::table::{read, Block, Item, Routine, Table};
use reference::{analyse, listing, listing_with, Answer, Rules, Share, Verdict};

/// The listings of the tables for the share, whole, worked out by hand.
const LISTINGS: [(&str, &str); 37] = [
    (
        "a routine without a ring that no call reaches does not count",
        "routines 2\nshare 100 0 1\nclear\n",
    ),
    (
        "a routine with a ring that no call reaches does not count",
        "routines 3\nshare 100 0 2\nclear\n",
    ),
    (
        "reached and not reached, with a ring and without",
        "routines 4\nshare 50 0 2\nring 1 1\n",
    ),
    (
        "calls of a routine that no call reaches reach nothing",
        "routines 3\nshare 100 0 1\nclear\n",
    ),
    (
        "routine 0 has a ring and those that it calls have none",
        "routines 3\nshare 66 2 3\nring 0 1\n",
    ),
    (
        "routine 0 has no ring and those that it calls have one",
        "routines 3\nshare 33 1 3\nring 1 1\n",
    ),
    (
        "a routine reached only over another",
        "routines 3\nshare 66 2 3\nring 2 1\n",
    ),
    (
        "a routine reached over two higher ones",
        "routines 4\nshare 75 0 4\nring 1 1\n",
    ),
    (
        "a routine called three times counts once",
        "routines 2\nshare 50 0 2\nring 1 1\n",
    ),
    (
        "a call behind one that does not return, and routine 0 counts once",
        "routines 2\nshare 50 0 2\nring 1 1\n",
    ),
    (
        "recursion over three routines",
        "routines 3\nshare 66 2 3\nring 1 1\n",
    ),
    (
        "a call in a fork reaches",
        "routines 2\nshare 50 0 2\nring 1 1\n",
    ),
    (
        "a call in a first alternative reaches",
        "routines 2\nshare 50 0 2\nring 1 1\n",
    ),
    (
        "a call in a second alternative reaches",
        "routines 2\nshare 50 0 2\nring 1 1\n",
    ),
    (
        "a call in a lock block reaches",
        "routines 2\nshare 50 0 2\nring 1 1\n",
    ),
    (
        "a call in the sixteenth block reaches",
        "routines 2\nshare 50 0 2\nring 1 1\n",
    ),
    (
        "a call behind a block reaches",
        "routines 2\nshare 50 0 2\nring 1 1\n",
    ),
    (
        "a call with names and one without",
        "routines 3\npair 1 0 1 1\nshare 66 2 3\nring 2 1\n",
    ),
    (
        "a name that is the code of a call, before a code that is a routine",
        "routines 3\nshare 100 0 1\nclear\n",
    ),
    (
        "one of 64 routines is reached",
        "routines 64\nshare 100 0 1\nclear\n",
    ),
    (
        "the first and the last of 64 routines are reached",
        "routines 64\nshare 50 0 2\nring 63 1\n",
    ),
    (
        "pairs of a row are no ring",
        "routines 2\npair 1 0 1 1\npair 1 0 2 1\npair 1 1 2 1\nshare 100 0 2\nclear\n",
    ),
    (
        "a pair labelled several is no ring",
        "routines 2\npair 1 0 2 1\npair 1 1 2 4\nshare 100 0 2\nclear\n",
    ),
    (
        "a ring at locals of a routine with a parameter",
        "routines 2\nshare 50 0 2\nring 1 2\n",
    ),
    (
        "a ring at parameters, and so in the caller too",
        "routines 2\npair 1 0 1 5\npair 1 0 2 5\npair 1 1 2 6\npair 1 2 1 5\nshare 0 0 2\nring 0 1\n",
    ),
    (
        "routines above the first with a ring count too",
        "routines 4\nshare 75 0 4\nring 1 1\n",
    ),
    (
        "3 of 3 have no ring: nothing is left over",
        "routines 3\nshare 100 0 3\nclear\n",
    ),
    (
        "2 of 3 have no ring: the percentage is rounded down",
        "routines 3\nshare 66 2 3\nring 2 1\n",
    ),
    (
        "1 of 6 have no ring: the remainder stays in sixths",
        "routines 6\nshare 16 4 6\nring 1 1\n",
    ),
    (
        "6 of 7 have no ring: the percentage is not six times that of one",
        "routines 7\nshare 85 5 7\nring 6 1\n",
    ),
    (
        "5 of 8 have no ring: half a percent is left over",
        "routines 8\nshare 62 4 8\nring 5 1\n",
    ),
    (
        "29 of 50 have no ring: 58 percent exactly",
        "routines 50\nshare 58 0 50\nring 29 1\n",
    ),
    (
        "0 of 64 have no ring",
        "routines 64\nshare 0 0 64\nring 0 1\n",
    ),
    (
        "1 of 64 have no ring",
        "routines 64\nshare 1 36 64\nring 1 1\n",
    ),
    (
        "21 of 64 have no ring",
        "routines 64\nshare 32 52 64\nring 21 1\n",
    ),
    (
        "63 of 64 have no ring",
        "routines 64\nshare 98 28 64\nring 63 1\n",
    ),
    (
        "64 of 64 have no ring",
        "routines 64\nshare 100 0 64\nclear\n",
    ),
];

#[test]
fn tables_for_the_share_list_as_worked_out() {
    let cases = share_rules();
    assert_eq!(cases.len(), LISTINGS.len());
    for (case, (name, text)) in cases.iter().zip(LISTINGS) {
        assert_eq!(case.name, name);
        let given = String::from_utf8(listing(&case.table)).expect("text");
        assert_eq!(given, text, "{name}");
    }
}

#[test]
fn refused_tables_print_no_share() {
    for case in limits() {
        if let Said::Refused(number) = case.answer {
            let text = format!("refused {number}\n").into_bytes();
            assert_eq!(
                listing_with(&case.table, case.buffer),
                text,
                "{}",
                case.name
            );
        }
    }
}

// What the numbers are, counted anew from the bytes of the model.

/// How many reached routines have no ring and how many are reached: from the bytes of the
/// model, and by sweeps over all calls.
fn counted(table: &Table, model: &[u8]) -> (u32, u32) {
    let mut reached = vec![false; table.routines.len()];
    reached[0] = true;
    for _ in 0..table.routines.len() {
        for (caller, routine) in table.routines.iter().enumerate() {
            for item in &routine.items {
                if let Item::Call { routine, .. } = item {
                    reached[*routine] |= reached[caller];
                }
            }
        }
    }
    let (mut c, mut m) = (0, 0);
    for (routine, row) in model.chunks(ROW_BYTES).enumerate() {
        if reached[routine] {
            m += 1;
            c += u32::from(row[RING_BYTE] == 0);
        }
    }
    (c, m)
}

#[test]
fn a_share_is_the_quotient_and_what_is_left_over() {
    let cases = worked().into_iter().chain(rules()).map(|case| case.table);
    let tables = cases.chain((0..3_000).map(|index| random(6, index).1));
    let mut accepted = 0;
    for bytes in tables {
        let Ok(table) = read(&bytes) else {
            continue;
        };
        accepted += 1;
        let mut model = vec![0; ROW_BYTES * table.routines.len()];
        let Answer::Accepted { verdict, share, .. } = analyse(&bytes, &mut model) else {
            panic!("refused after all: {bytes:?}");
        };
        let (c, m) = counted(&table, &model);
        let [percent, remainder, reached] =
            [share.percent, share.remainder, share.reached].map(u32::from);
        assert_eq!(reached, m, "{bytes:?}");
        assert!(remainder < m, "{bytes:?}");
        assert_eq!(100 * c, percent * m + remainder, "{bytes:?}");
        // Whole where the table is clear, and there alone.
        assert_eq!(verdict == Verdict::Clear, percent == 100);
    }
    assert!(accepted >= 1_000, "{accepted}");
}

// Versions of the request that are wrong, each with a table that tells it apart.

/// Percentage, remainder and reached routines; none where a version divides by 0.
type Numbers = Option<[i64; 3]>;

/// A table with what the model says of it.
struct Given {
    table: Table,
    outcomes: Vec<Outcome>,
}

impl Given {
    fn new(bytes: &[u8]) -> Given {
        let table = read(bytes).expect("valid");
        let outcomes = least_model(Rules::InForce, &table);
        Given { table, outcomes }
    }

    fn routines(&self) -> BTreeSet<usize> {
        (0..self.table.routines.len()).collect()
    }

    fn has_ring(&self, routine: usize) -> bool {
        !self.outcomes[routine].rings.is_empty()
    }

    fn row(&self, routine: usize) -> [u8; ROW_BYTES] {
        row_bytes(&self.outcomes[routine])
    }

    /// How many of these routines have no ring.
    fn without_ring(&self, routines: &BTreeSet<usize>) -> i64 {
        routines.iter().filter(|&&r| !self.has_ring(r)).count() as i64
    }

    /// The routines reached from `start`, where `callees` gives those that one calls.
    fn over(&self, start: usize, callees: impl Fn(&Routine) -> Vec<usize>) -> BTreeSet<usize> {
        let mut reached = BTreeSet::from([start]);
        loop {
            let next: Vec<usize> = reached
                .iter()
                .flat_map(|&routine| callees(&self.table.routines[routine]))
                .collect();
            let before = reached.len();
            reached.extend(next);
            if reached.len() == before {
                return reached;
            }
        }
    }

    fn reached(&self) -> BTreeSet<usize> {
        self.over(0, callees)
    }
}

/// The routines that a body calls, one for each CALL inside blocks that pass.
fn callees_in(routine: &Routine, passes: impl Fn(&[Block]) -> bool) -> Vec<usize> {
    let mut callees = Vec::new();
    routine.walk(|item, open| {
        if let Item::Call { routine, .. } = item {
            if passes(open) {
                callees.push(*routine);
            }
        }
    });
    callees
}

fn callees(routine: &Routine) -> Vec<usize> {
    callees_in(routine, |_| true)
}

/// The routines of the CALL items that pass.
fn callees_of<'a>(items: impl Iterator<Item = &'a Item>) -> Vec<usize> {
    items
        .filter_map(|item| match item {
            Item::Call { routine, .. } => Some(*routine),
            _ => None,
        })
        .collect()
}

/// The bytes of a body.
fn bytes(routine: &Routine) -> Vec<u8> {
    let mut bytes = Vec::new();
    for item in &routine.items {
        match item {
            Item::End => bytes.push(code::END),
            Item::New => bytes.push(code::NEW),
            Item::Lock { name } => bytes.extend([code::LOCK, *name]),
            Item::Fork => bytes.push(code::FORK),
            Item::Choice => bytes.push(code::CHOICE),
            Item::Other => bytes.push(code::OTHER),
            Item::Call { routine, names } => {
                bytes.extend([code::CALL, *routine as u8]);
                bytes.extend(names);
            }
            Item::Mirror { name } => bytes.extend([code::MIRROR, *name]),
        }
    }
    bytes
}

/// The numbers for `c` of `m` routines.
fn reckoned(c: i64, m: i64) -> Numbers {
    (m != 0).then(|| [100 * c / m, 100 * c % m, m])
}

/// The numbers that the case of this name must get, and its table.
fn case(name: &str) -> (Given, Numbers) {
    let case = worked()
        .into_iter()
        .chain(rules())
        .find(|case| case.name == name)
        .unwrap_or_else(|| panic!("no table: {name}"));
    let Said::Accepted { share, .. } = case.answer else {
        panic!("refused: {name}");
    };
    let Share {
        percent,
        remainder,
        reached,
    } = share;
    let numbers = [percent, remainder, reached].map(i64::from);
    (Given::new(&case.table), Some(numbers))
}

#[test]
fn the_version_without_a_mistake_is_right_everywhere() {
    for rule in worked().into_iter().chain(rules()) {
        let (given, right) = case(rule.name);
        let reached = given.reached();
        let numbers = reckoned(given.without_ring(&reached), reached.len() as i64);
        assert_eq!(numbers, right, "{}", rule.name);
    }
}

#[test]
fn another_set_of_routines_is_told_apart() {
    type Set = fn(&Given) -> BTreeSet<usize>;
    let wrong: [(&str, &str, Set); 21] = [
        (
            "all routines",
            "a routine without a ring that no call reaches does not count",
            Given::routines,
        ),
        (
            "all routines",
            "a routine with a ring that no call reaches does not count",
            Given::routines,
        ),
        (
            "all up to the highest reached",
            "the first and the last of 64 routines are reached",
            |given| (0..=given.reached().last().copied().unwrap_or(0)).collect(),
        ),
        (
            "without routine 0",
            "routine 0 has a ring and those that it calls have none",
            |given| given.reached().into_iter().filter(|&r| r != 0).collect(),
        ),
        (
            "without routine 0",
            "routine 0 has no ring and those that it calls have one",
            |given| given.reached().into_iter().filter(|&r| r != 0).collect(),
        ),
        ("without routine 0", "a-empty-body", |given| {
            given.reached().into_iter().filter(|&r| r != 0).collect()
        }),
        (
            "routine 0 and those that it calls itself",
            "a routine reached only over another",
            |given| {
                let callees = callees(&given.table.routines[0]);
                callees.into_iter().chain([0]).collect()
            },
        ),
        (
            "routine 0 and those that any routine calls",
            "calls of a routine that no call reaches reach nothing",
            |given| {
                let all = given.table.routines.iter().flat_map(callees);
                all.chain([0]).collect()
            },
        ),
        (
            "those that one sweep upward finds",
            "a routine reached over two higher ones",
            |given| {
                let mut reached = BTreeSet::from([0]);
                for (r, routine) in given.table.routines.iter().enumerate() {
                    if reached.contains(&r) {
                        reached.extend(callees(routine));
                    }
                }
                reached
            },
        ),
        (
            "over calls outside forks",
            "a call in a fork reaches",
            |given| {
                let passes = |open: &[Block]| !open.contains(&Block::Fork(1));
                given.over(0, |routine| callees_in(routine, passes))
            },
        ),
        (
            "over calls outside first alternatives",
            "a call in a first alternative reaches",
            |given| {
                let passes = |open: &[Block]| !open.contains(&Block::First);
                given.over(0, |routine| callees_in(routine, passes))
            },
        ),
        (
            "over calls outside second alternatives",
            "a call in a second alternative reaches",
            |given| {
                let passes = |open: &[Block]| !open.contains(&Block::Second);
                given.over(0, |routine| callees_in(routine, passes))
            },
        ),
        (
            "over calls outside lock blocks",
            "a call in a lock block reaches",
            |given| {
                let passes = |open: &[Block]| !open.contains(&Block::Lock(1));
                given.over(0, |routine| callees_in(routine, passes))
            },
        ),
        (
            "over calls in fifteen blocks at most",
            "a call in the sixteenth block reaches",
            |given| {
                // The body is one of the open ones.
                let passes = |open: &[Block]| open.len() <= 16;
                given.over(0, |routine| callees_in(routine, passes))
            },
        ),
        (
            "over calls before the first END",
            "a call behind a block reaches",
            |given| {
                given.over(0, |routine| {
                    callees_of(routine.items.iter().take_while(|&i| *i != Item::End))
                })
            },
        ),
        (
            "over the first call of a body alone",
            "a call behind one that does not return, and routine 0 counts once",
            |given| given.over(0, |routine| callees(routine).into_iter().take(1).collect()),
        ),
        (
            "over calls with names",
            "a call with names and one without",
            |given| {
                let named =
                    |item: &&Item| matches!(item, Item::Call { names, .. } if !names.is_empty());
                given.over(0, |routine| callees_of(routine.items.iter().filter(named)))
            },
        ),
        (
            "over calls without names",
            "a call with names and one without",
            |given| {
                let nameless =
                    |item: &&Item| matches!(item, Item::Call { names, .. } if names.is_empty());
                given.over(0, |routine| {
                    callees_of(routine.items.iter().filter(nameless))
                })
            },
        ),
        (
            "over bytes that look like a call",
            "a name that is the code of a call, before a code that is a routine",
            |given| {
                let n = given.table.routines.len();
                given.over(0, |routine| {
                    bytes(routine)
                        .windows(2)
                        .filter(|pair| pair[0] == code::CALL && (pair[1] as usize) < n)
                        .map(|pair| pair[1] as usize)
                        .collect()
                })
            },
        ),
        (
            "as bits below bit n, where a shift by 64 is one by 0",
            "64 of 64 have no ring",
            |given| {
                let n = given.table.routines.len();
                given
                    .reached()
                    .into_iter()
                    .filter(|&r| r < n % 64)
                    .collect()
            },
        ),
        (
            "as bits of a number of 32 bits",
            "the first and the last of 64 routines are reached",
            |given| given.reached().into_iter().map(|r| r % 32).collect(),
        ),
    ];
    for (what, name, set) in wrong {
        let (given, right) = case(name);
        let set = set(&given);
        let numbers = reckoned(given.without_ring(&set), set.len() as i64);
        assert_ne!(numbers, right, "{what}: {name}");
    }
}

#[test]
fn another_count_is_told_apart() {
    /// Gives c and m.
    type Count = fn(&Given) -> (i64, i64);
    /// Counts the reached routines that pass.
    fn count(given: &Given, passes: impl Fn(usize) -> bool) -> (i64, i64) {
        let reached = given.reached();
        let c = reached.iter().filter(|&&r| passes(r)).count();
        (c as i64, reached.len() as i64)
    }
    /// Counts routine 0 and the routine of each CALL that calls reach.
    fn each_call(given: &Given) -> (i64, i64) {
        let reached = given.reached();
        let called = reached.iter().map(|&r| callees(&given.table.routines[r]));
        let all: Vec<usize> = called.flatten().chain([0]).collect();
        let c = all.iter().filter(|&&r| !given.has_ring(r)).count();
        (c as i64, all.len() as i64)
    }
    let wrong: [(&str, &str, Count); 16] = [
        (
            "c of all routines",
            "reached and not reached, with a ring and without",
            |given| {
                let c = given.without_ring(&given.routines());
                (c, given.reached().len() as i64)
            },
        ),
        (
            "m of all routines",
            "reached and not reached, with a ring and without",
            |given| {
                let c = given.without_ring(&given.reached());
                (c, given.table.routines.len() as i64)
            },
        ),
        (
            "each call for itself",
            "a routine called three times counts once",
            each_call,
        ),
        (
            "each call for itself",
            "recursion over three routines",
            each_call,
        ),
        (
            "each call of routine 0 for itself",
            "a call behind one that does not return, and routine 0 counts once",
            |given| {
                let calls = callees(&given.table.routines[0]);
                let c = calls.iter().filter(|&&r| !given.has_ring(r)).count() + 1;
                (c as i64, calls.len() as i64 + 1)
            },
        ),
        (
            "those with a ring",
            "2 of 3 have no ring: the percentage is rounded down",
            |given| count(given, |r| given.has_ring(r)),
        ),
        (
            "those with an empty row and no ring",
            "pairs of a row are no ring",
            |given| count(given, |r| given.row(r) == [0; ROW_BYTES]),
        ),
        (
            "those with no pair labelled several",
            "a pair labelled several is no ring",
            |given| {
                count(given, |r| {
                    !given.has_ring(r) && given.row(r).iter().all(|&b| b < 4)
                })
            },
        ),
        (
            "those without a ring at a parameter",
            "a ring at locals of a routine with a parameter",
            |given| {
                count(given, |r| {
                    let k = given.table.routines[r].parameters;
                    given.outcomes[r].rings.iter().all(|&name| name > k)
                })
            },
        ),
        (
            "those without a ring at a local",
            "a ring at parameters, and so in the caller too",
            |given| {
                count(given, |r| {
                    let k = given.table.routines[r].parameters;
                    given.outcomes[r].rings.iter().all(|&name| name <= k)
                })
            },
        ),
        (
            "those whose last cell is 0",
            "2 of 3 have no ring: the percentage is rounded down",
            |given| count(given, |r| given.row(r)[ROW_SIDE * ROW_SIDE - 1] == 0),
        ),
        (
            "those from which calls reach no ring",
            "a routine reached only over another",
            |given| {
                count(given, |r| {
                    given.over(r, callees).iter().all(|&s| !given.has_ring(s))
                })
            },
        ),
        (
            "those below the first with a ring",
            "routines above the first with a ring count too",
            |given| count(given, |r| (0..=r).all(|s| !given.has_ring(s))),
        ),
        (
            "all but the one of the verdict",
            "routine 0 has no ring and those that it calls have one",
            |given| {
                let (c, m) = count(given, |r| !given.has_ring(r));
                (if c < m { m - 1 } else { m }, m)
            },
        ),
        (
            "all or none, by the verdict",
            "2 of 3 have no ring: the percentage is rounded down",
            |given| {
                let (c, m) = count(given, |r| !given.has_ring(r));
                (if c < m { 0 } else { m }, m)
            },
        ),
        (
            "one less for each ring name",
            "2 of 3 have no ring: the percentage is rounded down",
            |given| {
                let reached = given.reached();
                let rings: usize = reached.iter().map(|&r| given.outcomes[r].rings.len()).sum();
                (reached.len() as i64 - rings as i64, reached.len() as i64)
            },
        ),
    ];
    for (what, name, count) in wrong {
        let (given, right) = case(name);
        let (c, m) = count(&given);
        assert_ne!(reckoned(c, m), right, "{what}: {name}");
    }
}

#[test]
fn another_reckoning_is_told_apart() {
    type Reckoning = fn(i64, i64) -> [i64; 3];
    let rounded_down = "2 of 3 have no ring: the percentage is rounded down";
    let wrong: [(&str, &str, Reckoning); 14] = [
        ("rounded up", rounded_down, |c, m| {
            let q = (100 * c + m - 1) / m;
            [q, (100 * c).rem_euclid(m), m]
        }),
        (
            "rounded to the nearest",
            "6 of 7 have no ring: the percentage is not six times that of one",
            |c, m| [(100 * c + m / 2) / m, 100 * c % m, m],
        ),
        (
            "rounded half up",
            "5 of 8 have no ring: half a percent is left over",
            |c, m| [(200 * c + m) / (2 * m), 100 * c % m, m],
        ),
        (
            "c times the percentage of one",
            "3 of 3 have no ring: nothing is left over",
            |c, m| [100 / m * c, 100 * c % m, m],
        ),
        (
            "c times the percentage of one",
            "6 of 7 have no ring: the percentage is not six times that of one",
            |c, m| [100 / m * c, 100 * c % m, m],
        ),
        ("the quotient before the factor", rounded_down, |c, m| {
            [c / m * 100, 100 * c % m, m]
        }),
        ("the remainder of 100", rounded_down, |c, m| {
            [100 * c / m, 100 % m, m]
        }),
        (
            "the remainder of c",
            "1 of 6 have no ring: the remainder stays in sixths",
            |c, m| [100 * c / m, c % m, m],
        ),
        (
            "what is missing to the next percent",
            rounded_down,
            |c, m| [100 * c / m, (m - 100 * c % m) % m, m],
        ),
        (
            "in lowest terms",
            "1 of 6 have no ring: the remainder stays in sixths",
            |c, m| {
                let (mut a, mut b) = (m, 100 * c % m);
                while b != 0 {
                    (a, b) = (b, a % b);
                }
                [100 * c / m, 100 * c % m / a, m / a]
            },
        ),
        (
            "a remainder up to m",
            "3 of 3 have no ring: nothing is left over",
            |c, m| {
                let q = (100 * c - 1).div_euclid(m);
                [q, 100 * c - q * m, m]
            },
        ),
        (
            "in numbers of one byte",
            "3 of 3 have no ring: nothing is left over",
            |c, m| [100 * c % 256 / m, 100 * c % 256 % m, m],
        ),
        (
            "by a fraction in floating point",
            "29 of 50 have no ring: 58 percent exactly",
            |c, m| {
                let q = (c as f64 / m as f64 * 100.0).floor() as i64;
                [q, 100 * c - q * m, m]
            },
        ),
        ("c in the place of m", rounded_down, |c, m| {
            [100 * c / m, 100 * c % m, c]
        }),
    ];
    for (what, name, reckoning) in wrong {
        let (given, right) = case(name);
        let reached = given.reached();
        let (c, m) = (given.without_ring(&reached), reached.len() as i64);
        assert_ne!(Some(reckoning(c, m)), right, "{what}: {name}");
    }
}
