//! What holds of all canonical tables, by request #108, and another way to work them out.

use reference::analyse;
use reference::canonical::{bytes, canonical, order};
use reference::generate::{assemble, Rng};
use reference::limits::code::{CALL, LOCK, MIRROR, NEW};
use reference::limits::{refusal, ROW_BYTES};
use reference::shuffles::{shuffled, SHUFFLES};
use reference::table::{read, Item};
use reference::update::{bodies, items};
use reference::writings::input;
use reference::{Answer, Verdict};

/// The accepted ones of the first random tables of a seed.
fn accepted(seed: u64) -> Vec<Vec<u8>> {
    let all = (0..2_000).map(|index| input(seed, index).1.table);
    let accepted: Vec<Vec<u8>> = all.filter(|table| read(table).is_ok()).collect();
    assert!(accepted.len() >= 1_500);
    accepted
}

/// The canonical table worked out another way, on the bytes: mirrors go one by one, and
/// routines are sorted by the ways of calls that lead to them.
fn by_bytes(table: &[u8]) -> Vec<u8> {
    let counts = &table[1..1 + table[0] as usize];
    let split = |body: &&[u8]| {
        items(body, counts)
            .into_iter()
            .map(<[u8]>::to_vec)
            .collect()
    };
    let mut bodies: Vec<Vec<Vec<u8>>> = bodies(table).iter().map(split).collect();
    for (body, &count) in bodies.iter_mut().zip(counts) {
        while take_out_first_mirror(body, count) {}
    }
    let ways = ways(&bodies);
    let mut order: Vec<usize> = (0..counts.len()).filter(|&at| ways[at].is_some()).collect();
    order.sort_by_key(|&at| ways[at].as_ref().map(|way| (way.len(), way.clone())));
    let new_counts: Vec<u8> = order.iter().map(|&old| counts[old]).collect();
    let mut section = Vec::new();
    for &old in &order {
        for mut item in bodies[old].clone() {
            if item[0] == CALL {
                let new = order.iter().position(|&other| other == item[1] as usize);
                item[1] = new.expect("a routine with a way") as u8;
            }
            section.extend(item);
        }
    }
    assemble(&new_counts, &section)
}

/// Takes the first MIRROR out of the items of a body: its name gives way to the one mirrored,
/// and each higher one to the next lower. Says whether there was one.
fn take_out_first_mirror(body: &mut Vec<Vec<u8>>, parameters: u8) -> bool {
    let Some(at) = body.iter().position(|item| item[0] == MIRROR) else {
        return false;
    };
    // All locals before it are of NEW items.
    let news = body[..at].iter().filter(|item| item[0] == NEW).count() as u8;
    let mirror = parameters + news + 1;
    let mirrored = body.remove(at)[1];
    for item in body {
        let first_name = match item[0] {
            LOCK | MIRROR => 1,
            CALL => 2,
            _ => continue,
        };
        for name in &mut item[first_name..] {
            if *name == mirror {
                *name = mirrored;
            } else if *name > mirror {
                *name -= 1;
            }
        }
    }
    true
}

/// For each routine the best way of calls to it from routine 0, by the places of the calls in
/// their bodies: the shortest, and of those the one with the lowest places. They are bettered
/// until none can be.
fn ways(bodies: &[Vec<Vec<u8>>]) -> Vec<Option<Vec<usize>>> {
    let mut ways = vec![None; bodies.len()];
    ways[0] = Some(vec![]);
    loop {
        let before = ways.clone();
        for (caller, body) in bodies.iter().enumerate() {
            let Some(way) = ways[caller].clone() else {
                continue;
            };
            for (place, item) in body.iter().enumerate().filter(|(_, item)| item[0] == CALL) {
                let longer = [&way[..], &[place]].concat();
                let best = &mut ways[item[1] as usize];
                let is_better = |best: &Vec<usize>| (longer.len(), &longer) < (best.len(), best);
                if best.as_ref().is_none_or(is_better) {
                    *best = Some(longer);
                }
            }
        }
        if ways == before {
            return ways;
        }
    }
}

#[test]
fn another_way_gives_the_same() {
    let mut changed = 0;
    for table in accepted(21) {
        let result = by_bytes(&table);
        assert_eq!(canonical(&table), Ok(result.clone()), "{table:?}");
        changed += usize::from(result != table);
    }
    assert!(changed >= 1_200, "{changed}");
}

#[test]
fn a_second_writing_changes_nothing_and_nothing_is_left_to_do() {
    for table in accepted(22) {
        let result = canonical(&table).expect("an accepted table");
        assert_eq!(canonical(&result), Ok(result.clone()));
        let (before, after) = (read(&table), read(&result).expect("an accepted table"));
        assert_eq!(bytes(&after), result);
        assert_eq!(after.mirrors(), 0);
        assert!(order(&after).into_iter().eq(0..after.routines.len()));
        // What is kept has all its items but the mirrors.
        let before = before.expect("an accepted table");
        for (new, old) in after.routines.iter().zip(order(&before)) {
            let old = &before.routines[old];
            let is_mirror = |item: &&Item| matches!(item, Item::Mirror { .. });
            let mirrors = old.items.iter().filter(is_mirror).count();
            assert_eq!(new.items.len() + mirrors, old.items.len());
            assert_eq!(new.parameters, old.parameters);
        }
    }
}

/// The rows of an accepted table, and whether it is clear.
fn analysed(table: &[u8]) -> (Vec<u8>, bool) {
    let mut model = vec![0; ROW_BYTES * table[0] as usize];
    match analyse(table, &mut model) {
        Answer::Accepted { verdict, .. } => (model, verdict == Verdict::Clear),
        Answer::Refused(number) => panic!("refused {number}"),
    }
}

#[test]
fn rows_stay_and_clear_stays_clear() {
    let (mut clear, mut rings, mut filled) = (0, 0, 0);
    for table in accepted(23) {
        let result = canonical(&table).expect("an accepted table");
        let (before, was_clear) = analysed(&table);
        let (after, is_clear) = analysed(&result);
        assert_eq!(is_clear, was_clear, "{table:?}");
        clear += usize::from(is_clear);
        rings += usize::from(!is_clear);
        let order = order(&read(&table).expect("an accepted table"));
        assert_eq!(after.len(), ROW_BYTES * order.len());
        for (row, old) in after.chunks(ROW_BYTES).zip(order) {
            assert_eq!(row, &before[ROW_BYTES * old..][..ROW_BYTES], "{table:?}");
            filled += usize::from(row.iter().any(|&byte| byte != 0));
        }
    }
    assert!(clear >= 1_000 && rings >= 300, "{clear} {rings}");
    assert!(filled >= 4_000, "{filled}");
}

#[test]
fn tables_that_differ_in_what_is_left_out_give_the_same() {
    let mut counts = SHUFFLES.map(|_| 0);
    let mut rng = Rng::new(24);
    for table in accepted(24) {
        let result = canonical(&table);
        for (at, (shuffle, what)) in SHUFFLES.into_iter().enumerate() {
            if let Some(other) = shuffled(&mut rng, shuffle, &table) {
                assert_ne!(other, table);
                assert_eq!(canonical(&other), result, "{what}: {table:?}");
                counts[at] += 1;
            }
        }
    }
    assert!(counts.iter().all(|&count| count >= 800), "{counts:?}");
}

#[test]
fn a_name_may_stand_where_it_is_in_scope_and_nowhere_else() {
    let (mut inside, mut outside) = (0, 0);
    for table in accepted(25).iter().filter(|table| table.len() < 80) {
        let table = read(table).expect("an accepted table");
        for (at, routine) in table.routines.iter().enumerate() {
            for (place, scope) in routine.scopes().iter().enumerate() {
                let item = &routine.items[place];
                for name in (0..=16).filter(|_| !item.names().is_empty()) {
                    let mut other = table.clone();
                    other.routines[at].items[place] = item.with_names(|_| name);
                    let due = if scope.contains(&name) {
                        inside += 1;
                        Ok(other.clone())
                    } else {
                        outside += 1;
                        Err(refusal::BAD_NAME)
                    };
                    assert_eq!(read(&bytes(&other)), due, "{name} at {place} of {at}");
                }
            }
        }
    }
    assert!(inside >= 10_000 && outside >= 50_000, "{inside} {outside}");
}
