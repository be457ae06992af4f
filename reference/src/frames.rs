//! Many tables in one input, each in a frame of its own, and the listings they must give.
//!
//! A frame is the model buffer's length and the table's length, two bytes each,
//! low byte first, and the table's bytes.

use crate::cases::{held_mirror_rules, mirror_rules, rules_without_mirrors};
use crate::cases::{limits_without_mirrors, mirror_limits, worked, Case, Limit};
use crate::generate::{self, of_kind, Boundary, Kind, Rng};
use crate::generate::{boundaries_without_mirrors, held_mirror_boundaries, mirror_boundaries};
use crate::limits::{MAX_ROUTINES, ROW_BYTES};
use crate::listing_with;

/// A table and how many bytes of model buffer it is analysed with.
#[derive(Clone, Debug, PartialEq, Eq)]
pub struct Frame {
    pub buffer: usize,
    pub table: Vec<u8>,
}

/// The seed of the random tables among the fixed frames.
const SEED: u64 = 1;

/// How many random tables there are of each kind without mirrors.
const RANDOM: [(Kind, usize); 9] = [
    (Kind::Small, 240),
    (Kind::Deep, 40),
    (Kind::Wide, 30),
    (Kind::Tangle, 60),
    (Kind::Damaged, 160),
    (Kind::Arbitrary, 80),
    (Kind::Full, 6),
    (Kind::Nested, 120),
    (Kind::Mixed, 120),
];

/// How many random tables there are of each kind with mirrors.
const RANDOM_MIRRORS: [(Kind, usize); 3] = [
    (Kind::Mirrors, 100),
    (Kind::LargeMirrors, 6),
    (Kind::BadMirrors, 90),
];

/// How many random tables there are with LOCK items on mirrors of what is held.
const RANDOM_HELD_MIRRORS: [(Kind, usize); 1] = [(Kind::HeldMirrors, 60)];

/// Frames take at most so many bytes. The program reads 262,144.
const ROOM: usize = 250_000;

/// Bytes of a frame before the table: two lengths of two bytes.
const LENGTHS: usize = 4;

/// A boundary table that is longer than this is left to `compare`.
const MODERATE: usize = 600;

/// The frames, always the same ones: first those without mirrors, then those with, then
/// those about mirrors of what is held.
pub fn all() -> Vec<Frame> {
    let mut rng = Rng::new(SEED);
    let cases = worked().into_iter().chain(rules_without_mirrors());
    let mut frames = fixed(
        limits_without_mirrors(),
        cases.collect(),
        boundaries_without_mirrors(),
    );
    frames.extend(random_of(&mut rng, &RANDOM));
    frames.extend(fixed(mirror_limits(), mirror_rules(), mirror_boundaries()));
    frames.extend(random_of(&mut rng, &RANDOM_MIRRORS));
    frames.extend(fixed(vec![], held_mirror_rules(), held_mirror_boundaries()));
    frames.extend(random_of(&mut rng, &RANDOM_HELD_MIRRORS));
    frames
}

/// Frames of tables that are not random.
fn fixed(limits: Vec<Limit>, cases: Vec<Case>, boundaries: Vec<Boundary>) -> Vec<Frame> {
    let mut frames = Vec::new();
    for case in limits {
        frames.push(Frame {
            buffer: case.buffer,
            table: case.table,
        });
    }
    for case in cases {
        frames.extend(with_each_buffer(&case.table));
    }
    for boundary in boundaries {
        if boundary.table.len() <= MODERATE {
            frames.extend(with_each_buffer(&boundary.table));
        }
    }
    frames
}

/// Frames of so many random tables of each kind.
fn random_of(rng: &mut Rng, kinds: &[(Kind, usize)]) -> Vec<Frame> {
    let mut frames = Vec::new();
    for &(kind, count) in kinds {
        for _ in 0..count {
            let table = of_kind(rng, kind);
            frames.push(with_some_buffer(rng, table));
        }
    }
    frames
}

/// Frames of the first random tables of a seed, of all kinds, as many as there is room for.
pub fn random(seed: u64) -> Vec<Frame> {
    let mut frames = Vec::new();
    let mut rng = Rng::new(seed);
    let mut room = ROOM;
    for index in 0.. {
        let (_, table) = generate::random(seed, index);
        let bytes = LENGTHS + table.len();
        if bytes > room {
            break;
        }
        room -= bytes;
        frames.push(with_some_buffer(&mut rng, table));
    }
    frames
}

/// Lengths of a model buffer: exact, one byte too short, much too short, none, longer, enough for every table.
fn buffers(table: &[u8]) -> [usize; 7] {
    let n = table.first().map_or(0, |&n| n as usize);
    let exact = ROW_BYTES * n;
    [
        exact,
        exact.saturating_sub(1),
        (ROW_BYTES - 1) * n,
        0,
        exact + 1,
        exact + ROW_BYTES,
        ROW_BYTES * MAX_ROUTINES,
    ]
}

/// One table with a buffer of any of these lengths, half of the time of the exact one.
fn with_some_buffer(rng: &mut Rng, table: Vec<u8>) -> Frame {
    let lengths = buffers(&table);
    let at = if rng.chance(50) {
        0
    } else {
        rng.below(lengths.len())
    };
    Frame {
        buffer: lengths[at],
        table,
    }
}

/// One table with an exact buffer, one that is a byte too short, and a longer one.
fn with_each_buffer(table: &[u8]) -> Vec<Frame> {
    let [exact, short, .., longer, _] = buffers(table);
    let frame = |buffer| Frame {
        buffer,
        table: table.to_vec(),
    };
    vec![frame(exact), frame(short), frame(longer)]
}

/// The frames as bytes.
pub fn encode(frames: &[Frame]) -> Vec<u8> {
    let mut bytes = Vec::new();
    for frame in frames {
        for length in [frame.buffer, frame.table.len()] {
            let length = u16::try_from(length).expect("a length of two bytes");
            bytes.extend(length.to_le_bytes());
        }
        bytes.extend(&frame.table);
    }
    bytes
}

/// The listings of the frames, one after another.
pub fn listings(frames: &[Frame]) -> Vec<u8> {
    frames
        .iter()
        .flat_map(|frame| listing_with(&frame.table, frame.buffer))
        .collect()
}

#[cfg(test)]
mod tests {
    use super::*;
    use crate::cases::Said;
    use crate::generate::KINDS;
    use crate::limits::{READ_LIMIT, RING_BYTE};
    use crate::model::reached;
    use crate::table::read;
    use crate::{analyse, analyse_by, Answer, Rules, Share, Verdict};
    use std::collections::BTreeSet;

    #[test]
    fn frames_are_as_said() {
        let frame = |buffer, table: &[u8]| Frame {
            buffer,
            table: table.to_vec(),
        };
        let frames = [frame(65, &[1, 0, 1, 0, 0]), frame(258, &[])];
        assert_eq!(encode(&frames), [65, 0, 5, 0, 1, 0, 1, 0, 0, 2, 1, 0, 0]);
        assert_eq!(
            listings(&frames),
            b"routines 1\nshare 100 0 1\nclear\nrefused 1\n"
        );
    }

    #[test]
    fn frames_meet_every_refusal_and_both_verdicts() {
        let (mut clear, mut ring, mut refused) = (0, 0, [0; 16]);
        for frame in all() {
            match analyse(&frame.table, &mut vec![0; frame.buffer]) {
                Answer::Accepted { verdict, .. } => match verdict {
                    Verdict::Clear => clear += 1,
                    Verdict::Ring { .. } => ring += 1,
                },
                Answer::Refused(number) => refused[number as usize] += 1,
            }
        }
        assert!(clear >= 100 && ring >= 100, "clear {clear}, ring {ring}");
        for (number, count) in refused.iter().enumerate().skip(1) {
            assert!(*count > 0, "refusal {number} was not met");
        }
    }

    #[test]
    fn frames_meet_what_request_101_changes() {
        let mut changed = 0;
        for frame in all() {
            let [now, before] = [Rules::InForce, Rules::Before101].map(|rules| {
                let mut buffer = vec![0; frame.buffer];
                (
                    Said::from(analyse_by(rules, &frame.table, &mut buffer)),
                    buffer,
                )
            });
            changed += usize::from(now != before);
        }
        assert!(changed >= 80, "{changed}");
    }

    #[test]
    fn frames_meet_what_request_105_changes() {
        let (mut changed, mut clear_now) = (0, 0);
        for frame in all() {
            let [now, before] = [Rules::InForce, Rules::Before105].map(|rules| {
                let mut buffer = vec![0; frame.buffer];
                (
                    Said::from(analyse_by(rules, &frame.table, &mut buffer)),
                    buffer,
                )
            });
            changed += usize::from(now != before);
            let is_clear = |answer| matches!(answer, Said::Accepted { verdict, .. } if verdict == Verdict::Clear);
            assert!(is_clear(now.0) || !is_clear(before.0));
            clear_now += usize::from(is_clear(now.0) && !is_clear(before.0));
        }
        assert!(changed >= 80, "{changed}");
        assert!(clear_now >= 40, "{clear_now}");
    }

    #[test]
    fn frames_meet_what_mirrors_change() {
        let (mut mirrors, mut changed) = (0, 0);
        for frame in all() {
            let Ok(table) = read(&frame.table) else {
                continue;
            };
            mirrors += usize::from(table.mirrors() > 0);
            let [with, without] = [Rules::InForce, Rules::MirrorsApart].map(|rules| {
                let mut buffer = vec![0; frame.buffer];
                (
                    Said::from(analyse_by(rules, &frame.table, &mut buffer)),
                    buffer,
                )
            });
            changed += usize::from(with != without);
        }
        assert!(mirrors >= 200, "{mirrors}");
        assert!(changed >= 80, "{changed}");
    }

    /// What the share of a frame shows, and in which other readings the percentage, and so the
    /// line, would be another.
    #[derive(Clone, Copy)]
    struct Shares {
        share: Share,
        unreached_ring: bool,
        all_routines_differ: bool,
        without_routine_0_differs: bool,
        rounded_differs: bool,
    }

    impl Shares {
        /// None where the frame is refused.
        fn of(frame: &Frame) -> Option<Shares> {
            let mut model = vec![0; frame.buffer];
            let Answer::Accepted { share, .. } = analyse(&frame.table, &mut model) else {
                return None;
            };
            let table = read(&frame.table).expect("accepted");
            let reached = reached(&table);
            let all: BTreeSet<usize> = (0..table.routines.len()).collect();
            let called: BTreeSet<usize> = reached.iter().copied().filter(|&r| r != 0).collect();
            let has_ring = |routine: usize| model[ROW_BYTES * routine + RING_BYTE] == 1;
            // The percentage of other routines than the reached ones; none where there are none.
            let percent = |routines: &BTreeSet<usize>| {
                let c = routines.iter().filter(|&&r| !has_ring(r)).count() as u32;
                (100 * c).checked_div(routines.len() as u32)
            };
            let right = Some(u32::from(share.percent));
            Some(Shares {
                share,
                unreached_ring: all.difference(&reached).any(|&r| has_ring(r)),
                all_routines_differ: percent(&all) != right,
                without_routine_0_differs: percent(&called) != right,
                rounded_differs: 2 * share.remainder >= share.reached,
            })
        }
    }

    #[test]
    fn frames_meet_shares_of_every_kind() {
        let all: Vec<Shares> = all().iter().filter_map(Shares::of).collect();
        let met = |has: fn(&Shares) -> bool| all.iter().filter(|shares| has(shares)).count();
        for (what, least, count) in [
            ("remainder 0", 300, met(|met| met.share.remainder == 0)),
            ("another one", 40, met(|met| met.share.remainder != 0)),
            ("none clear", 80, met(|met| met.share.percent == 0)),
            ("all clear", 200, met(|met| met.share.percent == 100)),
            (
                "some clear",
                80,
                met(|met| (1..100).contains(&met.share.percent)),
            ),
            ("one reached", 100, met(|met| met.share.reached == 1)),
            ("64 reached", 10, met(|met| met.share.reached == 64)),
            ("a ring not reached", 30, met(|met| met.unreached_ring)),
            ("all routines", 30, met(|met| met.all_routines_differ)),
            (
                "without routine 0",
                200,
                met(|met| met.without_routine_0_differs),
            ),
            ("rounded", 20, met(|met| met.rounded_differs)),
        ] {
            assert!(count >= least, "{what}: {count}");
        }
        let reached: BTreeSet<u8> = all.iter().map(|met| met.share.reached).collect();
        assert!(reached.len() >= 15, "{reached:?}");
        assert_eq!((reached.first(), reached.last()), (Some(&1), Some(&64)));
    }

    #[test]
    fn random_frames_are_of_all_kinds_and_fill_their_room() {
        for seed in [1, 2] {
            let frames = random(seed);
            let bytes = encode(&frames).len();
            assert!(bytes <= ROOM, "{bytes}");
            // Less is left than the largest table needs.
            assert!(bytes + LENGTHS + READ_LIMIT > ROOM, "{bytes}");
            assert_eq!(frames, random(seed));
            let kinds: BTreeSet<Kind> = (0..frames.len() as u64)
                .map(|index| generate::random(seed, index).0)
                .collect();
            assert_eq!(kinds.len(), KINDS.len());
        }
        assert_ne!(random(1), random(2));
    }

    #[test]
    fn frames_are_not_too_many() {
        let frames = all();
        assert!(encode(&frames).len() <= ROOM);
        assert!(listings(&frames).len() < 600_000);
    }
}
