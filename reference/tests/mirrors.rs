//! What request #104 adds: a second name for a lock, in the model, with #105, and in a run.

mod common;

use std::collections::HashSet;
use std::rc::Rc;

use reference::cases::{held_mirror_rules, mirror_rules, worked};
use reference::generate::{assemble, Kind, Rng};
use reference::limits::{code, RING_BYTE, ROW_SIDE};
use reference::model::{least_model, locks_passed_over, row_bytes, verdict, Outcome};
use reference::table::{read, Item, Routine, Table};
use reference::{check, Rules, Verdict};

/// Those with a mirror.
fn tables() -> Vec<Table> {
    let all = common::accepted(8, &[Kind::Mirrors, Kind::HeldMirrors], 2_000);
    all.into_iter()
        .filter(|table| table.mirrors() > 0)
        .collect()
}

/// The table with other items in each routine.
fn with_items(table: &Table, items: impl Fn(&Routine) -> Vec<Item>) -> Table {
    let routines = table.routines.iter().map(|routine| Routine {
        parameters: routine.parameters,
        items: items(routine),
    });
    Table {
        routines: routines.collect(),
    }
}

/// For each name of a routine, the one it has where mirrors are left out and the locals
/// numbered anew.
fn renamed(routine: &Routine) -> Vec<u8> {
    let mut next = routine.parameters + 1;
    let mut names: Vec<u8> = (0..next).collect();
    for item in &routine.items {
        match item {
            Item::New => {
                names.push(next);
                next += 1;
            }
            Item::Mirror { name } => names.push(names[*name as usize]),
            _ => {}
        }
    }
    names
}

/// The table without its mirrors, each use of one replaced by what it leads back to.
fn resolved(table: &Table) -> Table {
    with_items(table, |routine| {
        let renamed = renamed(routine);
        let rename = |name: &u8| renamed[*name as usize];
        let items = routine.items.iter().filter_map(|item| match item {
            Item::Mirror { .. } => None,
            Item::Lock { name } => Some(Item::Lock { name: rename(name) }),
            Item::Call { routine, names } => Some(Item::Call {
                routine: *routine,
                names: names.iter().map(rename).collect(),
            }),
            other => Some(other.clone()),
        });
        items.collect()
    })
}

/// What the table's routines get, with the rings as the resolved table names them.
fn outcomes(rules: Rules, table: &Table) -> Vec<Outcome> {
    let mut outcomes = least_model(rules, table);
    for (outcome, routine) in outcomes.iter_mut().zip(&table.routines) {
        let renamed = renamed(routine);
        let rings = outcome.rings.iter().map(|&name| renamed[name as usize]);
        outcome.rings = rings.collect();
    }
    outcomes
}

// The model.

#[test]
fn a_name_leads_all_the_way_back() {
    use code::*;
    let section = [
        END, MIRROR, 2, NEW, CHOICE, MIRROR, 3, MIRROR, 5, OTHER, MIRROR, 4, END, MIRROR, 4, END,
    ];
    let table = read(&assemble(&[0, 2], &section)).expect("valid");
    assert_eq!(table.routines[1].roots(), [0, 1, 2, 2, 4, 2, 2, 4, 4]);
    assert_eq!(table.mirrors(), 5);
    // A MIRROR is one item.
    assert_eq!(check(&assemble(&[0, 2], &section)), Ok((2, 11)));
}

#[test]
fn a_mirror_is_its_lock_written_in_its_place() {
    let mut passed_over = 0;
    for table in tables() {
        let resolved = resolved(&table);
        // Without request #101 too.
        for rules in [Rules::InForce, Rules::Before101] {
            let expected = least_model(rules, &resolved);
            assert_eq!(outcomes(rules, &table), expected, "{table:?}");
        }
        let counts = [&table, &resolved].map(|table| locks_passed_over(Rules::InForce, table));
        assert_eq!(counts[0], counts[1], "{table:?}");
        passed_over += usize::from(counts[0] > 0);
    }
    assert!(passed_over >= 1_000, "{passed_over}");
}

#[test]
fn before_request_105_it_was_not_in_a_nest() {
    let (mut alike, mut more_pairs, mut more_rings) = (0, 0, 0);
    for table in tables() {
        let resolved = resolved(&table);
        let given = outcomes(Rules::Before105, &table);
        let expected = least_model(Rules::Before105, &resolved);
        // A LOCK that is passed over by its name is so by its lock.
        let passed_over =
            [&table, &resolved].map(|table| locks_passed_over(Rules::Before105, table));
        assert!(passed_over[0] <= passed_over[1], "{table:?}");
        if passed_over[0] == passed_over[1] {
            alike += 1;
            assert_eq!(given, expected, "{table:?}");
        }
        let differ = |of: fn(&Outcome, &Outcome) -> bool| {
            usize::from(given.iter().zip(&expected).any(|(a, b)| of(a, b)))
        };
        more_pairs += differ(|a, b| a.row != b.row);
        more_rings += differ(|a, b| a.rings != b.rings);
    }
    // Not by chance: there are many of each.
    assert!(alike >= 500, "{alike}");
    assert!(more_pairs >= 500, "{more_pairs}");
    assert!(more_rings >= 500, "{more_rings}");
}

#[test]
fn with_mirrors_apart_each_is_a_new_written_in_its_place() {
    let mut changed = 0;
    for table in tables() {
        let apart = least_model(Rules::MirrorsApart, &table);
        let replaced = with_items(&table, |routine| {
            let items = routine.items.iter().map(|item| match item {
                Item::Mirror { .. } => Item::New,
                other => other.clone(),
            });
            items.collect()
        });
        assert_eq!(least_model(Rules::InForce, &replaced), apart, "{table:?}");
        changed += usize::from(least_model(Rules::InForce, &table) != apart);
    }
    assert!(changed >= 500, "{changed}");
}

#[test]
fn tables_for_the_rules_tell_a_mirror_from_a_lock_of_its_own() {
    let not_told = |table: &[u8]| {
        let table = read(table).expect("valid");
        least_model(Rules::InForce, &table) == least_model(Rules::MirrorsApart, &table)
    };
    let rules = mirror_rules().into_iter();
    let names: Vec<&str> = rules
        .filter(|case| not_told(&case.table))
        .map(|case| case.name)
        .collect();
    // But for one about a pair with equal ends, and three that are passed over: as a lock of
    // its own the mirror is a local, and the pairs of the parameters come out the same.
    assert_eq!(
        names,
        [
            "a mirror made in a LOCK block of its lock",
            "an own pair between a lock and its mirror is dropped",
            "a LOCK on a mirror of a name held is passed over",
            "a LOCK on a mirror directly inside its lock"
        ]
    );
}

#[test]
fn no_ring_is_at_a_mirror() {
    for table in tables() {
        let outcomes = least_model(Rules::InForce, &table);
        for (routine, outcome) in table.routines.iter().zip(outcomes) {
            let roots = routine.roots();
            let own = |&name: &u8| roots[name as usize] == name;
            assert!(outcome.rings.iter().all(own), "{table:?}");
        }
    }
}

/// The nonzero cells of routine 1 as (a, b, value), and its last byte.
fn row(name: &str) -> (Vec<(usize, usize, u8)>, u8) {
    let case = mirror_rules().into_iter().find(|case| case.name == name);
    let table = read(&case.expect(name).table).expect("valid");
    let row = row_bytes(&least_model(Rules::InForce, &table)[1]);
    let cells = (0..RING_BYTE)
        .filter(|&cell| row[cell] != 0)
        .map(|cell| (cell / ROW_SIDE, cell % ROW_SIDE, row[cell]));
    (cells.collect(), row[RING_BYTE])
}

#[test]
fn rows_of_tables_with_mirrors() {
    // Own goes 2, 1 and the fork 1, 2; or the other way round.
    let own_two_one = vec![(0, 1, 5), (0, 2, 5), (1, 2, 6), (2, 1, 5)];
    let own_one_two = vec![(0, 1, 5), (0, 2, 5), (1, 2, 5), (2, 1, 6)];
    let one_then_two = vec![(0, 1, 1), (0, 2, 1), (1, 2, 1)];
    let beside_a_fork = vec![(0, 1, 1), (0, 2, 5), (1, 2, 3)];
    for (name, cells, ring) in [
        (
            "a mirror of a parameter is the parameter's lock",
            &own_two_one,
            1,
        ),
        ("one order by either name", &beside_a_fork, 0),
        ("a mirror of a mirror", &own_two_one, 1),
        ("a mirror of a mirror of a mirror", &own_two_one, 1),
        (
            "a mirror and one that leads back over another",
            &own_two_one,
            1,
        ),
        ("two mirrors of one lock", &own_two_one, 1),
        ("mirrors of two parameters", &own_two_one, 1),
        ("a mirror held in a fork", &own_two_one, 1),
        ("a mirror made in a fork", &own_two_one, 1),
        (
            "a mirror made in a LOCK block of its lock",
            &beside_a_fork,
            0,
        ),
        (
            "locals count on over alternatives with a mirror each",
            &own_one_two,
            1,
        ),
        (
            "each alternative has a mirror of another lock",
            &vec![(0, 1, 1), (0, 2, 1), (0, 3, 1), (1, 3, 1), (2, 3, 1)],
            0,
        ),
        (
            "a CALL in the block of a mirror puts its lock for name 0",
            &own_one_two,
            1,
        ),
        ("a CALL passes a mirror's lock", &own_one_two, 1),
        (
            "an own pair between a lock and its mirror is dropped",
            &one_then_two,
            0,
        ),
        (
            "a mirror of a parameter that gets the lock of another one",
            &vec![(1, 2, 2), (1, 3, 2), (2, 3, 2)],
            0,
        ),
        (
            "a routine that calls itself with a mirror",
            &vec![(0, 1, 1), (0, 2, 1), (1, 2, 1), (2, 1, 1)],
            0,
        ),
        (
            "a LOCK on a mirror of a name held is passed over",
            &beside_a_fork,
            0,
        ),
        (
            "a LOCK on a name whose mirror is held is passed over",
            &beside_a_fork,
            0,
        ),
        (
            "a LOCK on a mirror that is held is passed over",
            &beside_a_fork,
            0,
        ),
        (
            "a LOCK on a mirror directly inside its lock",
            &one_then_two,
            0,
        ),
    ] {
        assert_eq!(row(name), (cells.clone(), ring), "{name}");
    }
}

// The run.

/// What one item of a routine needs to be run: the local that it makes, and the place of
/// the END or OTHER that ends what it opens.
struct Plan {
    locals: Vec<usize>,
    ends: Vec<usize>,
}

impl Plan {
    fn of(routine: &Routine) -> Plan {
        let mut plan = Plan {
            locals: vec![0; routine.items.len()],
            ends: vec![0; routine.items.len()],
        };
        let mut next = routine.parameters as usize;
        let mut open = Vec::new();
        for (at, item) in routine.items.iter().enumerate() {
            if matches!(item, Item::New | Item::Mirror { .. }) {
                next += 1;
                plan.locals[at] = next;
            }
            if matches!(item, Item::End | Item::Other) {
                if let Some(opened) = open.pop() {
                    plan.ends[opened] = at;
                }
            }
            if matches!(
                item,
                Item::Lock { .. } | Item::Fork | Item::Choice | Item::Other
            ) {
                open.push(at);
            }
        }
        plan
    }
}

/// The lock that each name stands for.
type Names = [usize; 16];

/// Where a thread is in a routine.
#[derive(Clone, PartialEq, Eq, Hash)]
struct Place {
    routine: usize,
    at: usize,
    names: Names,
}

/// What a thread has open.
#[derive(Clone, PartialEq, Eq, Hash)]
enum Opened {
    Lock(usize),
    Alternative,
    /// A call, with the place to go on at.
    Call(Place),
}

#[derive(Clone, PartialEq, Eq, Hash)]
struct Thread {
    /// None where it has ended.
    place: Option<Place>,
    open: Vec<Opened>,
}

impl Thread {
    fn new(place: Place) -> Thread {
        Thread {
            place: Some(place),
            open: Vec::new(),
        }
    }

    fn holds(&self, lock: usize) -> bool {
        let is_it = |opened: &Opened| matches!(opened, Opened::Lock(held) if *held == lock);
        self.open.iter().any(is_it)
    }
}

/// A state of a run.
#[derive(Clone)]
struct Run<'a> {
    table: &'a Table,
    plans: Rc<[Plan]>,
    threads: Vec<Thread>,
    locks: usize,
}

impl<'a> Run<'a> {
    fn new(table: &'a Table) -> Run<'a> {
        Run {
            table,
            plans: table.routines.iter().map(Plan::of).collect(),
            threads: vec![Thread::new(Place {
                routine: 0,
                at: 0,
                names: [0; 16],
            })],
            locks: 0,
        }
    }

    /// The thread that this one waits for.
    fn waits_for(&self, thread: usize) -> Option<usize> {
        let place = self.threads[thread].place.as_ref()?;
        let Item::Lock { name } = &self.table.routines[place.routine].items[place.at] else {
            return None;
        };
        let lock = place.names[*name as usize];
        (0..self.threads.len()).find(|&other| other != thread && self.threads[other].holds(lock))
    }

    fn can_step(&self, thread: usize) -> bool {
        self.threads[thread].place.is_some() && self.waits_for(thread).is_none()
    }

    /// The next step of a thread that can take one.
    fn step(&mut self, thread: usize, second: bool) {
        let Thread { place, open } = &mut self.threads[thread];
        let mut here = place.take().expect("a thread that has not ended");
        let plan = &self.plans[here.routine];
        let at = here.at;
        here.at += 1;
        let mut forked = None;
        match &self.table.routines[here.routine].items[at] {
            Item::New => {
                here.names[plan.locals[at]] = self.locks;
                self.locks += 1;
            }
            Item::Mirror { name } => here.names[plan.locals[at]] = here.names[*name as usize],
            Item::Lock { name } => open.push(Opened::Lock(here.names[*name as usize])),
            Item::Fork => {
                forked = Some(here.clone());
                here.at = plan.ends[at] + 1;
            }
            Item::Choice => {
                open.push(Opened::Alternative);
                if second {
                    here.at = plan.ends[at] + 1;
                }
            }
            Item::Other => {
                open.pop();
                here.at = plan.ends[at] + 1;
            }
            Item::Call { routine, names } => {
                let mut inside = Place {
                    routine: *routine,
                    at: 0,
                    names: [0; 16],
                };
                for (parameter, name) in names.iter().enumerate() {
                    inside.names[parameter + 1] = here.names[*name as usize];
                }
                open.push(Opened::Call(std::mem::replace(&mut here, inside)));
            }
            Item::End => match open.pop() {
                Some(Opened::Call(back)) => here = back,
                Some(_) => {}
                None => return,
            },
        }
        *place = Some(here);
        self.threads.extend(forked.map(Thread::new));
    }

    /// Whether threads wait in a circle. A lock has one holder, so each waits for one.
    fn has_circle(&self) -> bool {
        (0..self.threads.len()).any(|start| {
            let waiting = std::iter::successors(self.waits_for(start), |&t| self.waits_for(t));
            waiting.take(self.threads.len()).any(|t| t == start)
        })
    }

    /// Whether some are left and all of those wait.
    fn is_stuck(&self) -> bool {
        let left = self.threads.iter().any(|thread| thread.place.is_some());
        left && !(0..self.threads.len()).any(|thread| self.can_step(thread))
    }

    /// Whether it has many threads, or a thread that has much open.
    fn is_large(&self) -> bool {
        self.threads.len() > 8 || self.threads.iter().any(|thread| thread.open.len() > 40)
    }

    /// Takes random turns; says whether threads came to wait in a circle or for ever.
    fn sticks(mut self, rng: &mut Rng, turns: usize) -> bool {
        for _ in 0..turns {
            // Enough for recursion that starts threads.
            if self.threads.len() > 40 {
                break;
            }
            let thread = rng.below(self.threads.len());
            if self.can_step(thread) {
                self.step(thread, rng.chance(50));
                if self.has_circle() || self.is_stuck() {
                    return true;
                }
            }
        }
        false
    }
}

/// Whether one of all runs sticks; none where more states than these come about, or a
/// large one, as by recursion.
fn any_sticks(table: &Table, most: usize) -> Option<bool> {
    let mut seen = HashSet::new();
    let mut left = vec![Run::new(table)];
    while let Some(run) = left.pop() {
        if run.has_circle() || run.is_stuck() {
            return Some(true);
        }
        if !seen.insert((run.threads.clone(), run.locks)) {
            continue;
        }
        if seen.len() > most || run.is_large() {
            return None;
        }
        for thread in 0..run.threads.len() {
            for second in [false, true] {
                if run.can_step(thread) {
                    let mut next = run.clone();
                    next.step(thread, second);
                    left.push(next);
                }
            }
        }
    }
    Some(false)
}

/// Whether one of some random runs sticks.
fn sticks(table: &Table, rng: &mut Rng) -> bool {
    (0..8).any(|_| Run::new(table).sticks(rng, 200))
}

fn is_clear(rules: Rules, table: &Table) -> bool {
    verdict(table, &least_model(rules, table)) == Verdict::Clear
}

/// Whether the table is clear by request #105 alone.
fn is_clear_by_105(table: &Table) -> bool {
    is_clear(Rules::InForce, table) && !is_clear(Rules::Before105, table)
}

#[test]
fn all_runs_of_worked_tables() {
    for (name, sticks) in [
        ("b-two-threads-opposite-order", true),
        ("c-two-threads-same-order", false),
        // The ring of this one is a false alarm.
        ("f-opposite-order-under-one-guard", false),
        ("j-main-thread-locks-first-again", false),
    ] {
        let case = worked().into_iter().find(|case| case.name == name);
        let table = read(&case.expect(name).table).expect("valid");
        assert_eq!(any_sticks(&table, 1_000), Some(sticks), "{name}");
    }
}

#[test]
fn no_run_sticks_of_a_table_that_is_clear_by_request_105() {
    let (mut all, mut seen_whole) = (0, 0);
    for table in tables() {
        if is_clear_by_105(&table) {
            let sticks = any_sticks(&table, 2_000);
            assert_ne!(sticks, Some(true), "{table:?}");
            all += 1;
            seen_whole += usize::from(sticks == Some(false));
        }
    }
    assert!(all >= 400, "{all}");
    assert!(seen_whole >= 200, "{seen_whole} of {all}");
}

#[test]
fn all_runs_of_tables_for_request_105() {
    let mut clear_by_105 = 0;
    for case in held_mirror_rules() {
        let table = read(&case.table).expect("valid");
        let sticks = any_sticks(&table, 100_000).expect("few states");
        assert!(
            !(sticks && is_clear(Rules::InForce, &table)),
            "{}",
            case.name
        );
        clear_by_105 += usize::from(is_clear_by_105(&table));
    }
    assert_eq!(clear_by_105, 15);
}

#[test]
fn clear_tables_run_without_sticking_and_others_stick() {
    let mut rng = Rng::new(9);
    let (mut clear, mut stuck, mut only_by_mirrors, mut by_105) = (0, 0, 0, 0);
    for table in tables() {
        let sticks = sticks(&table, &mut rng);
        if is_clear(Rules::InForce, &table) {
            assert!(!sticks, "{table:?}");
            clear += 1;
            by_105 += usize::from(is_clear_by_105(&table));
        }
        stuck += usize::from(sticks);
        only_by_mirrors += usize::from(sticks && is_clear(Rules::MirrorsApart, &table));
    }
    assert!(clear >= 400, "{clear}");
    assert!(by_105 >= 400, "{by_105}");
    assert!(stuck >= 100, "{stuck}");
    // With each mirror a lock of its own, these would pass for clear.
    assert!(only_by_mirrors >= 20, "{only_by_mirrors}");
}
