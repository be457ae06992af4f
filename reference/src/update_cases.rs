//! Inputs for `update` made by hand, each with the answer that it must get.

use crate::cases::{rules, worked};
use crate::generate::boundaries;
use crate::limits::code::*;
use crate::limits::{refusal, MAX_ROUTINES, RING_BYTE, ROW_BYTES, ROW_SIDE};
use crate::updates::{own_model, Draft, Input};

/// An input with the answer that it must get, 0 where it is done.
pub struct ByHand {
    pub what: String,
    pub input: Input,
    pub answer: u32,
}

/// Inputs on both sides of every limit, and inputs to which several refusals apply.
pub fn by_hand() -> Vec<ByHand> {
    let mut all = numbers_and_lengths();
    all.extend(other_tables());
    all.extend(several_grounds());
    all.extend(every_byte());
    all.extend(boundary_tables());
    all.extend(worked_tables());
    all
}

/// Routine 0 calls 1, 1 calls 2, and nobody calls 3. 2 takes its parameter.
fn chain() -> Draft {
    Draft {
        counts: vec![0, 1, 1, 1],
        bodies: vec![
            vec![NEW, CALL, 1, 1, END],
            vec![CALL, 2, 1, END],
            vec![LOCK, 1, END, END],
            vec![END],
        ],
    }
}

/// The same with a routine 2 that takes nothing.
fn changed_chain() -> Draft {
    chain().with(2, vec![END])
}

fn by_hand_of(
    what: &str,
    drafts: [&Draft; 2],
    routine: u64,
    model: Vec<u8>,
    answer: u32,
) -> ByHand {
    ByHand {
        what: what.to_string(),
        input: Input {
            old: drafts[0].table(),
            new: drafts[1].table(),
            routine,
            model,
        },
        answer,
    }
}

/// Each number that a routine may be thought to have, and each length.
fn numbers_and_lengths() -> Vec<ByHand> {
    let (old, new) = (chain(), changed_chain());
    let model = own_model(&old.table());
    let mut all = Vec::new();
    let wide = [1 << 8, 1 << 16, 1 << 31, 1 << 32, 1 << 63].map(|high: u64| high + 2);
    for number in (0..=260)
        .chain(wide)
        .chain([1 << 32, u64::MAX - 1, u64::MAX])
    {
        let changed = if number == 2 { 0 } else { refusal::OTHER_TABLE };
        let same = if number < 4 { 0 } else { refusal::OTHER_TABLE };
        let what = format!("routine {number}");
        all.push(by_hand_of(
            &what,
            [&old, &new],
            number,
            model.clone(),
            changed,
        ));
        all.push(by_hand_of(&what, [&old, &old], number, model.clone(), same));
    }
    for length in 0..=5 * ROW_BYTES {
        let mut buffer = model.clone();
        buffer.resize(length, 255);
        let short = length < 4 * ROW_BYTES;
        let answer = if short { refusal::SHORT_BUFFER } else { 0 };
        let what = format!("{length} bytes");
        all.push(by_hand_of(&what, [&old, &new], 2, buffer, answer));
    }
    all
}

/// Tables that differ elsewhere, or seem to.
fn other_tables() -> Vec<ByHand> {
    let old = chain();
    let model = own_model(&old.table());
    let mut all = Vec::new();
    let mut put = |what: &str, old: &Draft, new: &Draft, routine: u64, answer: u32| {
        all.push(by_hand_of(what, [old, new], routine, model.clone(), answer));
        all.push(by_hand_of(what, [new, old], routine, model.clone(), answer));
    };
    let other = refusal::OTHER_TABLE;
    let two = changed_chain().with(3, vec![NEW, END]);
    for routine in 0..5 {
        put("two bodies", &old, &two, routine, other);
    }
    // The bytes before the body of 2 are the same, and those behind it too, if it ends
    // elsewhere.
    let first = old.with(2, vec![NEW, END]);
    let second = old.with(3, vec![NEW, END]).with(2, vec![END]);
    put("a body's end moved", &first, &second, 2, other);
    put("a body's end moved", &first, &second, 3, other);
    let none = old
        .with(2, vec![END])
        .with(3, vec![CHOICE, OTHER, END, END]);
    let some = old.with(2, vec![CHOICE, OTHER, END, END]);
    put("an item moved to the next body", &some, &none, 2, other);
    put("an item moved to the next body", &some, &none, 3, other);
    for count in (0..=7).filter(|&count| count != 1) {
        let mut counted = old.clone();
        counted.counts[3] = count;
        put("a count alone", &old, &counted, 3, other);
        put("a count alone", &old, &counted, 2, other);
        let mut both = changed_chain();
        both.counts[3] = count;
        put("a count and a body", &old, &both, 3, other);
        put("a count and a body", &old, &both, 2, other);
    }
    for body in [vec![NEW, END], vec![CALL, 3, 1, END], vec![CALL, 0, END]] {
        put("the last body", &old, &old.with(3, body), 3, 0);
    }
    for body in [vec![END], vec![NEW, CALL, 2, 1, END]] {
        put("the first body", &old, &old.with(0, body), 0, 0);
    }
    all
}

/// Inputs to which several refusals apply, and tables of different sizes.
fn several_grounds() -> Vec<ByHand> {
    let (chain, changed) = (chain(), changed_chain());
    let model = own_model(&chain.table());
    let mut bad = model.clone();
    bad[0] = 1;
    let mut fewer = chain.clone();
    fewer.counts.pop();
    fewer.bodies.pop();
    let rows = |n: usize| vec![0; ROW_BYTES * n];
    let none: &[u8] = &[];
    let mut all = Vec::new();
    let mut put = |what: &str, old: &[u8], new: &[u8], routine: u64, model: &[u8], answer: u32| {
        all.push(ByHand {
            what: what.to_string(),
            input: Input {
                old: old.to_vec(),
                new: new.to_vec(),
                routine,
                model: model.to_vec(),
            },
            answer,
        });
    };
    let short = &bad[..bad.len() - 1];
    let (old, new, fewer) = (chain.table(), changed.table(), fewer.table());
    put("1 and 2", none, &[0], 9, none, refusal::EMPTY);
    put("2 and 1", &[0], none, 9, none, refusal::ROUTINE_COUNT);
    put("1 twice", none, none, 0, none, refusal::EMPTY);
    put("1 of the old", none, &new, 2, none, refusal::EMPTY);
    for routine in [2, 3, 4] {
        for model in [none, short, &bad, &model] {
            put("1 of the new", &old, none, routine, model, refusal::EMPTY);
        }
    }
    put("15, 18 and 19", &old, &new, 3, short, refusal::SHORT_BUFFER);
    put("15, 18 and 19", &old, &new, 4, short, refusal::SHORT_BUFFER);
    put("15 and 18", &old, &new, 4, none, refusal::SHORT_BUFFER);
    put("15 and 19", &old, &new, 2, short, refusal::SHORT_BUFFER);
    put("18 and 19", &old, &new, 3, &bad, refusal::OTHER_TABLE);
    put("18 and 19", &old, &new, 4, &bad, refusal::OTHER_TABLE);
    put("19 alone", &old, &new, 2, &bad, refusal::BAD_MODEL);
    for routine in 0..5 {
        for n in 0..6 {
            let by = |enough: usize| {
                if n < enough {
                    refusal::SHORT_BUFFER
                } else {
                    refusal::OTHER_TABLE
                }
            };
            put("a routine less", &old, &fewer, routine, &rows(n), by(4));
            put("a routine more", &fewer, &old, routine, &rows(n), by(3));
        }
    }
    all
}

/// A model of routines with 0 to 7 parameters, zero but for one byte.
fn every_byte() -> Vec<ByHand> {
    let n = ROW_SIDE;
    let draft = Draft {
        counts: (0..n as u8).collect(),
        bodies: vec![vec![END]; n],
    };
    let changed = draft.with(4, vec![CALL, 7, 1, 2, 3, 4, 1, 2, 3, END]);
    let mut all = Vec::new();
    for k in 0..n {
        let parameters = 1..=k;
        for at in 0..ROW_BYTES {
            for byte in [1, 2, 4, 7, 8, 16, 128, 255] {
                let (held, wanted) = (at / n, at % n);
                let good = if at == RING_BYTE {
                    byte == 1
                } else {
                    let ends = parameters.contains(&wanted) && held <= k && held != wanted;
                    ends && byte < 8
                };
                let mut model = vec![0; ROW_BYTES * n];
                model[ROW_BYTES * k + at] = byte;
                let answer = if good { 0 } else { refusal::BAD_MODEL };
                let what = format!("{byte} at byte {at} of row {k}");
                all.push(by_hand_of(&what, [&draft, &changed], 4, model, answer));
            }
        }
    }
    all
}

/// Each boundary table as the old one, the new one and both.
fn boundary_tables() -> Vec<ByHand> {
    let sound = chain().table();
    let mut all = Vec::new();
    for boundary in boundaries() {
        let table = boundary.table;
        let refused = boundary.refusal;
        let model = vec![0; ROW_BYTES * MAX_ROUTINES];
        let other = if table == sound {
            0
        } else {
            refusal::OTHER_TABLE
        };
        for (old, new, otherwise) in [
            (&table, &sound, other),
            (&sound, &table, other),
            (&table, &table, 0),
        ] {
            all.push(ByHand {
                what: boundary.what.to_string(),
                input: Input {
                    old: old.clone(),
                    new: new.clone(),
                    routine: 0,
                    model: model.clone(),
                },
                answer: refused.unwrap_or(otherwise),
            });
        }
    }
    all
}

/// Each worked table and each one for a rule, for each of its routines: as it is, and with a
/// body that does nothing before or after. The model is the analysis's, or zero.
fn worked_tables() -> Vec<ByHand> {
    let mut all = Vec::new();
    for case in worked().into_iter().chain(rules()) {
        let table = Draft::of(&case.table);
        for routine in 0..table.counts.len() {
            let empty = table.with(routine, vec![END]);
            for drafts in [[&table, &table], [&table, &empty], [&empty, &table]] {
                let own = own_model(&drafts[0].table());
                let zero = vec![0; own.len()];
                for model in [own, zero] {
                    all.push(by_hand_of(case.name, drafts, routine as u64, model, 0));
                }
            }
        }
    }
    all
}

#[cfg(test)]
mod tests {
    use super::*;
    use crate::update::update_number;

    #[test]
    fn inputs_made_by_hand_get_their_answers() {
        for ByHand {
            what,
            input,
            answer,
        } in by_hand()
        {
            let mut model = input.model.clone();
            let given = update_number(&input.old, &input.new, input.routine, &mut model);
            assert_eq!(given, answer, "{what}: {input:?}");
        }
    }
}
