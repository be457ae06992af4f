//! Tables that are made to need many rounds, and the stored ones that need the most.

use crate::generate::Rng;
use crate::hex;
use crate::limits::code::{CALL, END, FORK, LOCK, NEW};
use crate::limits::{MAX_FORK, MAX_LOCALS, MAX_PARAMETERS, MAX_ROUTINES};
use crate::schedules::pick;
use crate::update::items;
use crate::updates::Draft;

/// The kinds of such tables.
#[derive(Clone, Copy, Debug, PartialEq, Eq, PartialOrd, Ord)]
pub enum Kind {
    /// A few routines that call themselves and one another, with their names in other orders.
    Tangled,
    /// One such routine, whose calls of itself go round through others that pass their names on.
    Relayed,
    /// A stored table with a few names changed, also with its calls of itself sent round.
    Varied,
    /// A chain of routines in any order, with a ring or without, that calls reach or not.
    Chain,
}

/// Each kind, and how many of twenty tables are of it.
pub const KINDS: [(Kind, &str, usize); 4] = [
    (Kind::Tangled, "tangled", 8),
    (Kind::Relayed, "relayed", 4),
    (Kind::Varied, "varied", 4),
    (Kind::Chain, "chains", 4),
];

/// Table number `index` of a seed, with its kind.
pub fn table(seed: u64, index: u64) -> (Kind, Vec<u8>) {
    let mut rng = Rng::indexed(seed, index);
    let kinds: Vec<Kind> = KINDS
        .iter()
        .flat_map(|&(kind, _, share)| vec![kind; share])
        .collect();
    let kind = kinds[(index % kinds.len() as u64) as usize];
    let table = match kind {
        Kind::Tangled => tangled(&mut rng),
        Kind::Relayed => relayed(&mut rng),
        Kind::Varied => varied(&mut rng),
        Kind::Chain => chain(&mut rng),
    };
    (kind, table)
}

/// A stored table.
pub struct Stored {
    /// Its name in the benchmark, and what it is.
    pub name: &'static str,
    pub what: &'static str,
    pub rounds: u32,
    pub table: Vec<u8>,
}

/// The tables of the folder `tables`, those that need fewer rounds first.
pub fn stored() -> Vec<Stored> {
    [
        (
            "many rounds: 46",
            "two routines whose rows settle after 46 rounds",
            46,
            include_str!("../tables/many-rounds-2.hex"),
        ),
        (
            "many rounds: 64",
            "the same, found by a longer search",
            64,
            include_str!("../tables/many-rounds-64.hex"),
        ),
        (
            "many rounds: 89",
            "three routines, found by a search",
            89,
            include_str!("../tables/many-rounds-89.hex"),
        ),
        (
            "many rounds: 3970",
            "the table of 64 rounds, with its calls of itself sent round through 62 other routines",
            3_970,
            include_str!("../tables/many-rounds-3970.hex"),
        ),
    ]
    .into_iter()
    .map(|(name, what, rounds, text)| Stored {
        name,
        what,
        rounds,
        table: hex::parse(text).expect("a stored table is hexadecimal"),
    })
    .collect()
}

/// A name up to the last one, most often a parameter.
fn name(rng: &mut Rng, parameters: u8, last: u8) -> u8 {
    let most = if rng.chance(60) { parameters } else { last };
    rng.between(1, most as usize) as u8
}

/// All parameters in any order, some of them replaced by any names up to the last one.
fn shuffled_names(rng: &mut Rng, count: u8, parameters: u8, last: u8) -> Vec<u8> {
    let mut names: Vec<u8> = (0..count).map(|at| at % parameters + 1).collect();
    for at in (1..names.len()).rev() {
        names.swap(at, rng.below(at + 1));
    }
    for passed in &mut names {
        if rng.chance(20) {
            *passed = name(rng, parameters, last);
        }
    }
    names
}

/// A body that calls some of these routines again and again: threads that each take some locks and call
/// in the innermost block.
fn tangled_body(rng: &mut Rng, counts: &[u8], routine: usize, callees: &[usize]) -> Vec<u8> {
    let parameters = counts[routine];
    let locals = rng.below(MAX_LOCALS as usize + 1) as u8;
    let last = parameters + locals;
    let mut body = vec![NEW; locals as usize];
    let mut forks = 0;
    for part in 0..rng.between(2, 6) {
        let fork = rng.chance(50) && forks < MAX_FORK;
        forks += u8::from(fork);
        let locks: Vec<u8> = (0..rng.below(4))
            .map(|_| name(rng, parameters, last))
            .collect();
        // The first part takes locks alone, so that there is a pair to begin with.
        let calls = if part == 0 { 0 } else { rng.below(3) };
        body.extend(vec![FORK; usize::from(fork)]);
        body.extend(locks.iter().flat_map(|&name| [LOCK, name]));
        for _ in 0..calls {
            let callee = *pick(rng, callees);
            body.extend([CALL, callee as u8]);
            body.extend(shuffled_names(rng, counts[callee], parameters, last));
        }
        body.extend(vec![END; locks.len() + usize::from(fork)]);
    }
    body.push(END);
    body
}

/// A body of routine 0 that calls routine 1 with as many locks of its own.
fn start(counts: &[u8]) -> Vec<u8> {
    let mut body = vec![NEW; counts[1] as usize];
    body.extend([CALL, 1]);
    body.extend(1..=counts[1]);
    body.push(END);
    body
}

fn tangled(rng: &mut Rng) -> Vec<u8> {
    let many = rng.between(1, 4);
    let mut counts = vec![0];
    counts.extend((0..many).map(|_| rng.between(4, MAX_PARAMETERS as usize) as u8));
    let callees: Vec<usize> = (1..=many).collect();
    let mut bodies = vec![start(&counts)];
    for routine in 1..=many {
        bodies.push(tangled_body(rng, &counts, routine, &callees));
    }
    shuffled(rng, Draft { counts, bodies }).table()
}

fn relayed(rng: &mut Rng) -> Vec<u8> {
    let counts = vec![0, rng.between(4, MAX_PARAMETERS as usize) as u8];
    let bodies = vec![start(&counts), tangled_body(rng, &counts, 1, &[1])];
    let through = some_relays(rng);
    let draft = sent_round(Draft { counts, bodies }, through);
    shuffled(rng, draft).table()
}

/// Few, and seldom many.
fn some_relays(rng: &mut Rng) -> usize {
    match rng.below(10) {
        0 => rng.between(11, 30),
        1..=4 => rng.between(4, 10),
        _ => rng.between(1, 3),
    }
}

/// The table of two routines with the calls of routine 1 of itself sent round: it calls the first of so
/// many others, each of which passes its names on to the next, and the last to routine 1.
fn sent_round(draft: Draft, through: usize) -> Draft {
    let parameters = draft.counts[1];
    let mut sent = draft.clone();
    if through == 0 {
        return sent;
    }
    let to = |callee: u8| if callee == 1 { 2 } else { callee };
    sent.bodies[1] = items(&draft.bodies[1], &draft.counts)
        .iter()
        .flat_map(|item| match item {
            [CALL, callee, names @ ..] => [&[CALL, to(*callee)], names].concat(),
            other => other.to_vec(),
        })
        .collect();
    for relay in 2..through + 2 {
        let next = if relay == through + 1 { 1 } else { relay + 1 };
        sent.counts.push(parameters);
        let mut body = vec![CALL, next as u8];
        body.extend(1..=parameters);
        body.push(END);
        sent.bodies.push(body);
    }
    sent
}

/// The same table with all routines but 0 in any order.
fn shuffled(rng: &mut Rng, draft: Draft) -> Draft {
    let n = draft.counts.len();
    // The old number of each routine.
    let mut order: Vec<usize> = (0..n).collect();
    for at in (2..n).rev() {
        order.swap(at, rng.between(1, at));
    }
    renumbered(&draft, &order)
}

/// The same table with its routines in this order.
fn renumbered(draft: &Draft, order: &[usize]) -> Draft {
    let new = |old: u8| order.iter().position(|&at| at == old as usize).unwrap_or(0) as u8;
    let body = |&old: &usize| {
        let items = items(&draft.bodies[old], &draft.counts);
        let item = |item: &&[u8]| match item {
            [CALL, callee, names @ ..] => [&[CALL, new(*callee)], names].concat(),
            other => other.to_vec(),
        };
        items.iter().flat_map(item).collect()
    };
    Draft {
        counts: order.iter().map(|&old| draft.counts[old]).collect(),
        bodies: order.iter().map(body).collect(),
    }
}

fn varied(rng: &mut Rng) -> Vec<u8> {
    let stored = stored();
    let two: Vec<&Stored> = stored
        .iter()
        .filter(|stored| stored.table[0] == 2)
        .collect();
    let mut draft = Draft::of(&pick(rng, &two).table);
    for _ in 0..rng.below(3) {
        draft.bodies[1] = with_another_name(rng, &draft);
    }
    let through = match rng.below(4) {
        0 => 0,
        1 => rng.between(3, 6),
        _ => rng.between(1, 2),
    };
    let draft = sent_round(draft, through);
    shuffled(rng, draft).table()
}

/// The body of routine 1 with another parameter for one of the names that it passes.
fn with_another_name(rng: &mut Rng, draft: &Draft) -> Vec<u8> {
    let mut items: Vec<Vec<u8>> = items(&draft.bodies[1], &draft.counts)
        .into_iter()
        .map(<[u8]>::to_vec)
        .collect();
    let calls: Vec<usize> = (0..items.len())
        .filter(|&at| items[at][0] == CALL)
        .collect();
    let call = &mut items[*pick(rng, &calls)];
    let at = rng.between(2, call.len() - 1);
    call[at] = rng.between(1, draft.counts[1] as usize) as u8;
    items.concat()
}

fn chain(rng: &mut Rng) -> Vec<u8> {
    let most = if rng.chance(10) { MAX_ROUTINES } else { 12 };
    let n = rng.between(2, most);
    let mut counts = vec![2; n];
    counts[0] = 0;
    // Some chains begin behind routine 0, and some end in a routine that begins another one.
    let most = if rng.chance(30) { n - 1 } else { 1 };
    let head = rng.between(1, most);
    let mut bodies = vec![vec![NEW, NEW, CALL, head as u8, 1, 2, END]];
    for routine in 1..n - 1 {
        let names = if rng.chance(80) { [1, 2] } else { [2, 1] };
        let mut body = match rng.below(8) {
            0 => vec![LOCK, 1, CALL, routine as u8 + 1, names[0], names[1], END],
            1 => vec![FORK, CALL, routine as u8 + 1, names[0], names[1], END],
            2 => vec![LOCK, 1, END, CALL, routine as u8 + 1, names[0], names[1]],
            _ => vec![CALL, routine as u8 + 1, names[0], names[1]],
        };
        body.push(END);
        bodies.push(body);
    }
    bodies.push(last_body(rng));
    shuffled(rng, Draft { counts, bodies }).table()
}

/// The body of the last routine of a chain: a fork and the running thread take the two names, in one
/// order or in both; or the running thread alone does.
fn last_body(rng: &mut Rng) -> Vec<u8> {
    let (one, other) = if rng.chance(70) { (1, 2) } else { (2, 1) };
    let mut body = Vec::new();
    if rng.chance(80) {
        body.extend([FORK, LOCK, 1, LOCK, 2, END, END, END]);
    }
    body.extend([LOCK, other, LOCK, one, END, END, END]);
    body
}

#[cfg(test)]
mod tests {
    use super::*;
    use crate::limits::{ROUNDS_BASE, ROW_BYTES};
    use crate::rounds_number;

    fn rounds(table: &[u8]) -> u32 {
        let number = rounds_number(table, &mut [0; ROW_BYTES * MAX_ROUTINES]);
        assert!(number > ROUNDS_BASE, "{number}: {table:?}");
        number - ROUNDS_BASE
    }

    #[test]
    fn tables_are_accepted_and_some_of_each_kind_need_many_rounds() {
        let mut most = KINDS.map(|(kind, ..)| (kind, 0));
        for index in 0..300 {
            let (kind, table) = table(3, index);
            let rounds = rounds(&table);
            for (_, most) in most.iter_mut().filter(|(other, _)| *other == kind) {
                *most = rounds.max(*most);
            }
        }
        for (kind, most) in most {
            assert!(most >= 10, "{kind:?}: {most}");
        }
    }

    /// Each change of the row of routine 1 goes round before the next one comes.
    #[test]
    fn calls_sent_round_need_so_many_times_the_rounds() {
        for stored in stored().iter().filter(|stored| stored.table[0] == 2) {
            for through in 0..4 {
                let table = sent_round(Draft::of(&stored.table), through).table();
                let due = (stored.rounds - 1) * (through as u32 + 1) + 1;
                assert_eq!(rounds(&table), due, "{} through {through}", stored.name);
            }
        }
    }

    #[test]
    fn other_numbers_of_routines_need_the_same_rounds() {
        let mut rng = Rng::new(1);
        for index in 0..60 {
            let draft = Draft::of(&table(4, index).1);
            let shuffled = shuffled(&mut rng, draft.clone());
            assert_eq!(rounds(&shuffled.table()), rounds(&draft.table()));
        }
    }
}
