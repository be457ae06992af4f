//! Tables that differ from another in the order of the routines behind 0, in routines that
//! are not reached and in mirrors, so that both have the same canonical table.

use crate::canonical::bytes;
use crate::generate::{valid_body, Rng};
use crate::limits::code::END;
use crate::limits::{MAX_LOCALS, MAX_PARAMETERS, MAX_ROUTINES, MAX_SECTION};
use crate::model::reached;
use crate::schedules::pick;
use crate::table::{read, Item, Routine, Table};
use crate::updates::Draft;

/// In what a table is made to differ.
#[derive(Clone, Copy, Debug, PartialEq, Eq, PartialOrd, Ord)]
pub enum Shuffle {
    /// The order of the routines behind 0.
    Order,
    /// Routines that are not reached: some have another body, and there are more of them.
    Unreached,
    /// There are more mirrors.
    Mirrors,
    /// All of these at once.
    All,
}

/// All of them, each in a few words.
pub const SHUFFLES: [(Shuffle, &str); 4] = [
    (Shuffle::Order, "order"),
    (Shuffle::Unreached, "unreached"),
    (Shuffle::Mirrors, "mirrors"),
    (Shuffle::All, "all at once"),
];

/// An accepted table that is made to differ so; nothing where no byte comes to differ.
pub fn shuffled(rng: &mut Rng, shuffle: Shuffle, table: &[u8]) -> Option<Vec<u8>> {
    let before = read(table).expect("an accepted table");
    let after = match shuffle {
        Shuffle::Order => reordered(rng, &before),
        Shuffle::Unreached => with_unreached(rng, &before),
        Shuffle::Mirrors => with_mirrors(rng, &before),
        Shuffle::All => {
            let more = with_unreached(rng, &before);
            let mirrored = with_mirrors(rng, &more);
            reordered(rng, &mirrored)
        }
    };
    Some(bytes(&after)).filter(|after| after != table)
}

/// The routines behind 0 in any order.
pub(crate) fn reordered(rng: &mut Rng, table: &Table) -> Table {
    let n = table.routines.len();
    // The new number of each.
    let mut numbers: Vec<usize> = (0..n).collect();
    for at in 2..n {
        numbers.swap(at, rng.between(1, at));
    }
    let mut routines = table.routines.clone();
    for (old, routine) in table.routines.iter().enumerate() {
        let mut moved = routine.clone();
        for item in &mut moved.items {
            if let Item::Call { routine, .. } = item {
                *routine = numbers[*routine];
            }
        }
        routines[numbers[old]] = moved;
    }
    Table { routines }
}

/// Other bodies for some of the routines that are not reached, and more such routines.
fn with_unreached(rng: &mut Rng, table: &Table) -> Table {
    let reached = reached(table);
    let mut draft = Draft::of(&bytes(table));
    let mut others: Vec<usize> = (0..draft.counts.len()).collect();
    others.retain(|routine| !reached.contains(routine) && rng.chance(50));
    let more = match rng.below(20) {
        0 => MAX_ROUTINES,
        _ => rng.between(1, 4),
    };
    for _ in 0..more {
        let section: usize = draft.bodies.iter().map(Vec::len).sum();
        if draft.counts.len() == MAX_ROUTINES || section == MAX_SECTION {
            break;
        }
        others.push(draft.counts.len());
        draft
            .counts
            .push(rng.between(0, MAX_PARAMETERS as usize) as u8);
        draft.bodies.push(vec![END]);
    }
    // They may call any routine, themselves among them.
    for routine in others {
        let room = rng.between(1, 40).min(draft.room(routine));
        draft.bodies[routine] = valid_body(rng, &draft.counts, routine, room);
    }
    read(&draft.table()).expect("bodies that may stand there")
}

/// More mirrors in any routines, at times as many as there is room for.
pub(crate) fn with_mirrors(rng: &mut Rng, table: &Table) -> Table {
    let mut table = table.clone();
    let n = table.routines.len();
    let tries = match rng.below(10) {
        0 => 2 * n * MAX_LOCALS as usize,
        _ => rng.between(1, 12),
    };
    let section = bytes(&table).len() - 3 - n;
    let mut room = MAX_SECTION - section;
    for _ in 0..tries {
        let at = rng.below(n);
        // A MIRROR has two bytes.
        if room < 2 {
            break;
        }
        if let Some(routine) = with_mirror(rng, &table.routines[at]) {
            table.routines[at] = routine;
            room -= 2;
        }
    }
    table
}

/// A MIRROR more at any place, of any name in scope there. Behind it, as long as the mirror is
/// in scope, some of the names of its lock give way to it. Nothing where there are as many
/// locals as there may be, or no name is ever in scope.
fn with_mirror(rng: &mut Rng, routine: &Routine) -> Option<Routine> {
    let locals = |items: &[Item]| items.iter().filter(|item| item.makes_local()).count() as u8;
    let scopes = routine.scopes();
    let mut places: Vec<usize> = (0..scopes.len()).collect();
    places.retain(|&at| !scopes[at].is_empty());
    if places.is_empty() || locals(&routine.items) == MAX_LOCALS {
        return None;
    }
    let at = *pick(rng, &places);
    let mirrored = match scopes[at].last() {
        // The newest name at times, so that mirrors stand on mirrors.
        Some(&newest) if rng.chance(30) => newest,
        _ => *pick(rng, &scopes[at]),
    };
    // The locals behind it move up.
    let mirror = routine.parameters + locals(&routine.items[..at]) + 1;
    let moved = |name: u8| if name < mirror { name } else { name + 1 };
    let renamed = routine.items.iter().map(|item| item.with_names(moved));
    let mut with = Routine {
        parameters: routine.parameters,
        items: renamed.collect(),
    };
    with.items.insert(at, Item::Mirror { name: mirrored });
    let (roots, scopes) = (with.roots(), with.scopes());
    for (item, scope) in with.items.iter_mut().zip(scopes) {
        if scope.contains(&mirror) {
            let is_other = |name: u8| roots[name as usize] == roots[mirror as usize];
            *item = item.with_names(|name| {
                if is_other(name) && rng.chance(50) {
                    mirror
                } else {
                    name
                }
            });
        }
    }
    Some(with)
}

#[cfg(test)]
mod tests {
    use super::*;
    use crate::canonical::canonical;
    use crate::writings::input;

    #[test]
    fn a_shuffle_has_the_same_canonical_table() {
        let mut counts = SHUFFLES.map(|_| 0);
        for index in 0..1_500 {
            let mut rng = Rng::indexed(3, index);
            let table = input(3, index).1.table;
            if read(&table).is_err() {
                continue;
            }
            for (at, (shuffle, _)) in SHUFFLES.into_iter().enumerate() {
                if let Some(other) = shuffled(&mut rng, shuffle, &table) {
                    assert_eq!(
                        canonical(&other),
                        canonical(&table),
                        "{shuffle:?} {table:?}"
                    );
                    counts[at] += 1;
                }
            }
        }
        assert!(counts.iter().all(|&count| count >= 700), "{counts:?}");
    }

    #[test]
    fn a_mirror_takes_the_place_of_names_in_its_scope_alone() {
        // LOCK 1 with NEW in it, and LOCK 1 again.
        let routine = Routine {
            parameters: 1,
            items: vec![
                Item::Lock { name: 1 },
                Item::New,
                Item::Lock { name: 2 },
                Item::End,
                Item::End,
                Item::Lock { name: 1 },
                Item::End,
                Item::End,
            ],
        };
        let mut rng = Rng::new(1);
        let mut inside = 0;
        for _ in 0..200 {
            let with = with_mirror(&mut rng, &routine).expect("room for a mirror");
            let place = with
                .items
                .iter()
                .position(|item| !routine.items.contains(item));
            let place = place.expect("a MIRROR");
            // In the first block the mirror is out of scope at the last LOCK.
            if (1..=4).contains(&place) {
                inside += 1;
                assert_eq!(with.items[6], Item::Lock { name: 1 }, "{with:?}");
            }
            assert_eq!(with.items.len(), routine.items.len() + 1);
        }
        assert!(inside >= 50, "{inside}");
    }
}
