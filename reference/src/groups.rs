//! The tables that the benchmark times, in groups. Random ones are of one fixed seed.

use crate::cases::worked;
use crate::generate::{assemble, of_kind, valid_body, Kind, Rng};
use crate::limits::code::*;
use crate::limits::{MAX_LOCALS, MAX_PARAMETERS, MAX_ROUTINES, MAX_SECTION};
use crate::round_tables::{stored, Stored};
use crate::rounds;
use crate::table::read;
use crate::update::reaching;
use crate::updates::Draft;

const SEED: u64 = 1;
/// Tables of each random group, and of the one with random full tables.
const RANDOM: usize = 100;
const RANDOM_FULL: usize = 10;
/// Most bytes of a random body that is put in place of another.
const RANDOM_BODY: usize = 60;
/// Routines of a table with the most of them.
const LAST_ROUTINE: usize = MAX_ROUTINES - 1;
const MIDDLE: usize = MAX_ROUTINES / 2;

/// Tables that are timed together.
pub struct Group {
    pub name: &'static str,
    /// What the tables are.
    pub what: &'static str,
    pub tables: Vec<Vec<u8>>,
}

/// Two tables that differ in the body of one routine.
pub struct Replaced {
    pub old: Vec<u8>,
    pub new: Vec<u8>,
    pub routine: usize,
}

impl Replaced {
    /// How many rows may change, and how many there are.
    pub fn rows(&self) -> (usize, usize) {
        let table = read(&self.old).expect("an accepted table");
        let changing = reaching(&table, self.routine).len();
        (changing, table.routines.len())
    }
}

/// Pairs of tables that are timed together.
pub struct UpdateGroup {
    pub name: &'static str,
    /// What the tables are, and what is replaced.
    pub what: &'static str,
    pub pairs: Vec<Replaced>,
}

/// The ordinary random tables.
const ORDINARY: [(&str, &str, Kind); 7] = [
    (
        "ordinary: small",
        "random, 1 to 4 routines, few names, much aliasing",
        Kind::Small,
    ),
    (
        "ordinary: deep",
        "random, 1 to 3 routines, blocks nested up to the limit",
        Kind::Deep,
    ),
    (
        "ordinary: wide",
        "random, 1 to 8 routines, many names and forks",
        Kind::Wide,
    ),
    (
        "ordinary: tangle",
        "random, many threads that each nest two or three locks",
        Kind::Tangle,
    ),
    (
        "ordinary: nested",
        "random, many LOCKs on names that their thread holds",
        Kind::Nested,
    ),
    (
        "ordinary: mirrors",
        "random, of all these sorts, with locks that have two names or more",
        Kind::Mirrors,
    ),
    (
        "ordinary: held by mirrors",
        "random, many LOCKs on other names of what their thread holds",
        Kind::HeldMirrors,
    ),
];

/// All groups.
pub fn groups() -> Vec<Group> {
    let group = |name, what, tables| Group { name, what, tables };
    let mut groups = vec![group(
        "worked cases",
        "the worked tables of docs/FORMAT.md, a to j",
        worked().into_iter().map(|case| case.table).collect(),
    )];
    groups.extend(ORDINARY.map(|(name, what, kind)| group(name, what, valid(kind, RANDOM))));
    groups.extend([
        group(
            "full: LOCKs",
            "64 routines of seven names, LOCK and END items alone",
            vec![full_of_locks()],
        ),
        group(
            "full: calls",
            "64 routines of seven names, each with six calls of any routine",
            vec![full_of_calls()],
        ),
        group(
            "full: random",
            "random, as many body bytes as a table can have",
            valid(Kind::Full, RANDOM_FULL),
        ),
        group(
            "chain: rising",
            "64 routines, each calls the next higher one",
            vec![chain_rising()],
        ),
        group(
            "chain: falling",
            "64 routines, each calls the next lower one",
            vec![chain_falling()],
        ),
        group(
            "chain: dearest",
            "the chain of 64 routines that needs 65 rounds",
            vec![dearest_chain()],
        ),
    ]);
    groups.extend(stored().into_iter().map(
        |Stored {
             name, what, table, ..
         }| group(name, what, vec![table]),
    ));
    groups.extend([
        group(
            "refused: damaged",
            "random valid tables with bytes changed, cut, put in or added",
            refused(Kind::Damaged, RANDOM),
        ),
        group(
            "refused: arbitrary",
            "random bytes, alone or behind a sound head",
            refused(Kind::Arbitrary, RANDOM),
        ),
        group(
            "refused: full",
            "the two full tables above, with a bad code as their last byte",
            vec![spoilt(full_of_locks()), spoilt(full_of_calls())],
        ),
    ]);
    groups
}

/// All groups of pairs.
pub fn update_groups() -> Vec<UpdateGroup> {
    let group = |name, what, pairs| UpdateGroup { name, what, pairs };
    let mut groups = vec![
        group(
            "uncalled: LOCKs",
            "the table of full: LOCKs; nobody calls routine 63, which gets other LOCKs",
            vec![uncalled_with_locks()],
        ),
        group(
            "uncalled: calls",
            "as full: calls, but nobody calls routine 63, which gets other LOCKs and calls",
            vec![uncalled_with_calls()],
        ),
        group(
            "called by all",
            "64 routines; all others call routine 63, which takes its two locks in the other order",
            vec![turned(all_call_one(), LAST_ROUTINE, None)],
        ),
        group(
            "chain: middle",
            "the table of chain: rising; routine 32 takes its other lock, and calls 33 as before",
            vec![turned(chain_rising(), MIDDLE, Some(MIDDLE + 1))],
        ),
        group(
            "chain: leaf",
            "the same; routine 63, which all reach, takes its two locks in the other order",
            vec![turned(chain_rising(), LAST_ROUTINE, None)],
        ),
    ];
    groups.extend(ORDINARY.map(|(name, _, kind)| {
        let what = "the tables of that group above; any one routine gets another random body";
        group(name, what, ordinary_pairs(kind))
    }));
    groups
}

/// Those of the groups above that are written anew too, and what is said of them there.
const ALSO_WRITTEN: [(&str, &str); 7] = [
    ("ordinary: small", AS_ABOVE),
    ("ordinary: deep", AS_ABOVE),
    ("ordinary: wide", AS_ABOVE),
    ("ordinary: mirrors", AS_ABOVE),
    ("full: calls", AS_ABOVE),
    ("chain: falling", AS_ABOVE),
    (
        "full: LOCKs",
        "the table of that group above; nobody calls a routine, so that only routine 0 is kept",
    ),
];
const AS_ABOVE: &str = "the tables of that group above";

/// All groups of tables to be written anew; all are accepted.
pub fn writing_groups() -> Vec<Group> {
    let group = |name, what, table| Group {
        name,
        what,
        tables: vec![table],
    };
    let mut all = groups();
    let mut groups: Vec<Group> = ALSO_WRITTEN
        .into_iter()
        .map(|(name, what)| {
            let at = all.iter().position(|group| group.name == name);
            let group = all.swap_remove(at.expect("a group of that name"));
            Group { what, ..group }
        })
        .collect();
    groups.extend([
        group(
            "falling: LOCKs",
            "as full: LOCKs, but each routine calls the next lower one, and 0 the highest",
            full_and_falling(|rng, _, room| locks(rng, room)),
        ),
        group(
            "falling: choices",
            "the same with choices in place of the LOCKs",
            full_and_falling(|rng, _, room| choices(rng, room)),
        ),
        group(
            "falling: mirrors",
            "the same with MIRRORs, as many as there may be, and LOCKs on names of all sorts",
            full_and_falling(mirrors_and_locks),
        ),
    ]);
    groups
}

/// A table and the same with this body for one routine.
fn replaced(old: Vec<u8>, routine: usize, body: Vec<u8>) -> Replaced {
    let new = Draft::of(&old).with(routine, body).table();
    Replaced { old, new, routine }
}

/// The last routine of a table replaced, by items that `body` writes in as many bytes as there is
/// room for.
fn last_replaced(old: Vec<u8>, body: impl FnOnce(usize) -> Vec<u8>) -> Replaced {
    let room = Draft::of(&old).room(LAST_ROUTINE);
    let mut items = body(room - 1);
    items.push(END);
    replaced(old, LAST_ROUTINE, items)
}

fn uncalled_with_locks() -> Replaced {
    let mut rng = Rng::new(SEED + 1);
    last_replaced(full_of_locks(), |room| locks(&mut rng, room))
}

fn uncalled_with_calls() -> Replaced {
    let most = LAST_ROUTINE - 1;
    let mut rng = Rng::new(SEED + 1);
    last_replaced(full_of_calls_up_to(most), |room| {
        calls(&mut rng, most, room)
    })
}

/// A routine of a chain replaced: it takes its second name where it took the first.
fn turned(old: Vec<u8>, routine: usize, next: Option<usize>) -> Replaced {
    replaced(old, routine, link([2, 1], next))
}

/// The random tables of a kind, with another body for any of their routines.
fn ordinary_pairs(kind: Kind) -> Vec<Replaced> {
    let mut rng = Rng::new(SEED);
    let pairs = valid(kind, RANDOM).into_iter();
    pairs.map(|old| randomly_replaced(&mut rng, old)).collect()
}

fn randomly_replaced(rng: &mut Rng, old: Vec<u8>) -> Replaced {
    let draft = Draft::of(&old);
    let routine = rng.below(draft.counts.len());
    let room = draft.room(routine).min(RANDOM_BODY);
    loop {
        let body = valid_body(rng, &draft.counts, routine, room);
        if body != draft.bodies[routine] {
            return replaced(old, routine, body);
        }
    }
}

/// Random tables of a kind, those that pass or those that do not.
fn random(kind: Kind, count: usize, accepted: bool) -> Vec<Vec<u8>> {
    let mut rng = Rng::indexed(SEED, kind as u64);
    std::iter::repeat_with(|| of_kind(&mut rng, kind))
        .filter(|table| read(table).is_ok() == accepted)
        .take(count)
        .collect()
}

fn valid(kind: Kind, count: usize) -> Vec<Vec<u8>> {
    random(kind, count, true)
}

fn refused(kind: Kind, count: usize) -> Vec<Vec<u8>> {
    random(kind, count, false)
}

/// A table of 64 routines with seven names each: parameters, but locals in routine 0. `body` writes
/// items of the routine given that take at most the number of bytes given.
fn full(mut body: impl FnMut(usize, usize) -> Vec<u8>) -> Vec<u8> {
    let mut counts = [MAX_PARAMETERS; MAX_ROUTINES];
    counts[0] = 0;
    let mut section = vec![NEW; MAX_PARAMETERS as usize];
    for routine in 0..MAX_ROUTINES {
        let to_come = MAX_ROUTINES - routine;
        let room = (MAX_SECTION - section.len()) / to_come - 1;
        section.extend(body(routine, room));
        section.push(END);
    }
    assemble(&counts, &section)
}

/// Any name up to the last one.
fn name_up_to(rng: &mut Rng, last: u8) -> u8 {
    rng.between(1, last as usize) as u8
}

/// One of the seven names.
fn name(rng: &mut Rng) -> u8 {
    name_up_to(rng, MAX_PARAMETERS)
}

/// Two to five LOCK items on names up to the last one, one inside the other.
fn nest(rng: &mut Rng, last: u8) -> Vec<u8> {
    let depth = rng.between(2, 5);
    let mut items: Vec<u8> = (0..depth)
        .flat_map(|_| [LOCK, name_up_to(rng, last)])
        .collect();
    items.extend(vec![END; depth]);
    items
}

/// One choice in another, each in any alternative, two to five deep.
fn nested_choices(rng: &mut Rng) -> Vec<u8> {
    let mut items = Vec::new();
    for _ in 0..rng.between(2, 5) {
        items = if rng.chance(50) {
            [&[CHOICE], &items[..], &[OTHER, END]].concat()
        } else {
            [&[CHOICE, OTHER], &items[..], &[END]].concat()
        };
    }
    items
}

/// One after the other while there is room.
fn while_there_is_room(room: usize, mut one: impl FnMut() -> Vec<u8>) -> Vec<u8> {
    let mut items = Vec::new();
    loop {
        let more = one();
        if items.len() + more.len() > room {
            return items;
        }
        items.extend(more);
    }
}

/// Nests of LOCK items while there is room.
fn locks(rng: &mut Rng, room: usize) -> Vec<u8> {
    while_there_is_room(room, || nest(rng, MAX_PARAMETERS))
}

fn choices(rng: &mut Rng, room: usize) -> Vec<u8> {
    while_there_is_room(room, || nested_choices(rng))
}

/// As many MIRROR items as there may be, of any names before them, and nests of LOCK items on names
/// of all sorts.
fn mirrors_and_locks(rng: &mut Rng, routine: usize, room: usize) -> Vec<u8> {
    // The seven names of routine 0 are locals.
    let locals = if routine == 0 { MAX_PARAMETERS } else { 0 };
    let last = MAX_PARAMETERS + MAX_LOCALS - locals;
    let mut items: Vec<u8> = (MAX_PARAMETERS..last)
        .flat_map(|before| [MIRROR, name_up_to(rng, before)])
        .collect();
    let left = room - items.len();
    items.extend(while_there_is_room(left, || nest(rng, last)));
    items
}

/// The table of `full` in which each routine calls another one first, as in `chain_falling`, and
/// `items` writes the others.
fn full_and_falling(items: impl Fn(&mut Rng, usize, usize) -> Vec<u8>) -> Vec<u8> {
    let mut rng = Rng::new(SEED);
    full(|routine, room| {
        let mut body = match falling(routine) {
            Some(callee) => call_of(&mut rng, callee),
            None => Vec::new(),
        };
        let left = room - body.len();
        body.extend(items(&mut rng, routine, left));
        body
    })
}

fn full_of_locks() -> Vec<u8> {
    let mut rng = Rng::new(SEED);
    full(|_, room| locks(&mut rng, room))
}

/// One LOCK inside another, and calls of routines up to `most` with seven names while there is room,
/// the first of them by a new thread that holds a lock.
fn calls(rng: &mut Rng, most: usize, room: usize) -> Vec<u8> {
    let mut items = vec![LOCK, name(rng), LOCK, name(rng), END, END];
    items.extend([FORK, LOCK, name(rng)]);
    items.extend(call(rng, most));
    items.extend([END, END]);
    let left = room - items.len();
    items.extend(while_there_is_room(left, || call(rng, most)));
    items
}

fn full_of_calls() -> Vec<u8> {
    full_of_calls_up_to(LAST_ROUTINE)
}

/// Nobody calls a routine above `most`.
fn full_of_calls_up_to(most: usize) -> Vec<u8> {
    let mut rng = Rng::new(SEED);
    full(|_, room| calls(&mut rng, most, room))
}

/// A CALL of any routine up to `most` but 0.
fn call(rng: &mut Rng, most: usize) -> Vec<u8> {
    let routine = rng.between(1, most);
    call_of(rng, routine)
}

/// A CALL of a routine of seven parameters.
fn call_of(rng: &mut Rng, routine: usize) -> Vec<u8> {
    let mut item = vec![CALL, routine as u8];
    item.extend((0..MAX_PARAMETERS).map(|_| name(rng)));
    item
}

/// A body that takes the first of its two names, and in it calls the next routine, or takes the second
/// if there is none.
fn link([first, second]: [u8; 2], next: Option<usize>) -> Vec<u8> {
    let inside = match next {
        Some(callee) => vec![CALL, callee as u8, 1, 2],
        None => vec![LOCK, second, END],
    };
    [&[LOCK, first], &inside[..], &[END, END]].concat()
}

/// A table of 64 routines with two names each: `next` gives the one that another calls, none for the
/// last of a chain.
fn chain(next: impl Fn(usize) -> Option<usize>) -> Vec<u8> {
    let mut counts = [2; MAX_ROUTINES];
    counts[0] = 0;
    let mut section = vec![NEW, NEW];
    for routine in 0..MAX_ROUTINES {
        section.extend(link([1, 2], next(routine)));
    }
    assemble(&counts, &section)
}

fn all_call_one() -> Vec<u8> {
    chain(|routine| Some(LAST_ROUTINE).filter(|&one| one != routine))
}

fn chain_rising() -> Vec<u8> {
    chain(|routine| Some(routine + 1).filter(|&next| next < MAX_ROUTINES))
}

fn chain_falling() -> Vec<u8> {
    chain(falling)
}

/// The next lower routine, for 0 the highest; none for 1, the last of the chain.
fn falling(routine: usize) -> Option<usize> {
    match routine {
        0 => Some(LAST_ROUTINE),
        1 => None,
        _ => Some(routine - 1),
    }
}

fn dearest_chain() -> Vec<u8> {
    rounds::chain(MAX_ROUTINES).expect("a chain of so many")
}

/// The table with a bad code in place of its last END.
fn spoilt(mut table: Vec<u8>) -> Vec<u8> {
    if let Some(last) = table.last_mut() {
        *last = LAST + 1;
    }
    table
}

#[cfg(test)]
mod tests {
    use super::*;
    use crate::canonical::{canonical, order};
    use crate::limits::ROW_BYTES;
    use crate::table::Item;
    use crate::update::differ_there_alone;
    use crate::updates::own_model;

    #[test]
    fn pairs_differ_in_one_body() {
        for group in update_groups() {
            for pair in &group.pairs {
                assert!(read(&pair.old).is_ok() && read(&pair.new).is_ok());
                assert_ne!(pair.old, pair.new, "{}", group.name);
                let routine = pair.routine as u64;
                assert!(differ_there_alone(&pair.old, &pair.new, routine));
            }
        }
    }

    #[test]
    fn groups_to_be_written_keep_as_many_routines_as_they_say() {
        let groups = writing_groups();
        assert_eq!(groups.len(), ALSO_WRITTEN.len() + 3);
        for Group { name, tables, .. } in groups {
            for bytes in &tables {
                let table = read(bytes).expect("an accepted table");
                let order = order(&table);
                if name == "full: LOCKs" {
                    assert_eq!(order, [0]);
                } else if name.starts_with("falling: ") || name == "chain: falling" {
                    let due: Vec<usize> = [0].into_iter().chain((1..MAX_ROUTINES).rev()).collect();
                    assert_eq!(order, due, "{name}");
                } else if name == "full: calls" {
                    assert_eq!(order.len(), MAX_ROUTINES);
                }
                let items = table.routines.iter().flat_map(|routine| &routine.items);
                let mirrors = items.filter(|item| matches!(item, Item::Mirror { .. }));
                if name == "falling: mirrors" {
                    let most = MAX_LOCALS as usize * MAX_ROUTINES;
                    assert_eq!(mirrors.count(), most - MAX_PARAMETERS as usize);
                    let left_out = bytes.len() - canonical(bytes).map_or(0, |result| result.len());
                    assert_eq!(left_out, 2 * (most - MAX_PARAMETERS as usize));
                }
            }
        }
    }

    /// In the pairs made by hand all rows change that may, but that of routine 0: it has no cells.
    #[test]
    fn rows_change_as_far_as_the_groups_say() {
        let due = [(1, 1), (1, 1), (64, 63), (33, 32), (64, 63)];
        for (group, (may, do_change)) in update_groups().iter().zip(due) {
            let [pair] = &group.pairs[..] else {
                panic!("{} has not one pair", group.name);
            };
            assert_eq!(pair.rows(), (may, MAX_ROUTINES), "{}", group.name);
            let (old, new) = (own_model(&pair.old), own_model(&pair.new));
            let rows = old.chunks(ROW_BYTES).zip(new.chunks(ROW_BYTES));
            let changed = rows.filter(|(old, new)| old != new).count();
            assert_eq!(changed, do_change, "{}", group.name);
        }
    }
}
