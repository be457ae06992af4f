//! What the program `desk` reads and prints.

use crate::limits::{refusal, MAX_SCHEDULE, MAX_THREADS};
use crate::runner::{run_schedule, Answer, Limit, Next, Outcome};

/// The parts of the program's input.
#[derive(Clone, Copy, Debug, PartialEq, Eq)]
pub struct Parts<'a> {
    /// Records to lend.
    pub lent: usize,
    pub table: &'a [u8],
    /// As much of the schedule as is read.
    pub schedule: &'a [u8],
}

/// Takes the input apart: records, two bytes of the table's length, table, schedule.
pub fn parts(stdin: &[u8]) -> Parts<'_> {
    // A head byte that is not there counts as 0.
    let head = |at: usize| stdin.get(at).map_or(0, |&byte| byte as usize);
    let length = head(1) + 256 * head(2);
    let rest = stdin.get(3..).unwrap_or(&[]);
    let (table, schedule) = rest.split_at(length.min(rest.len()));
    Parts {
        lent: head(0).min(MAX_THREADS),
        table,
        schedule: &schedule[..schedule.len().min(MAX_SCHEDULE)],
    }
}

/// What the program prints for an input.
pub fn desk(stdin: &[u8]) -> String {
    let Parts {
        lent,
        table,
        schedule,
    } = parts(stdin);
    text(&run_schedule(table, schedule, lent))
}

/// An outcome in lines: the answer and, where there is one, the state.
pub fn text(outcome: &Outcome) -> String {
    let answer = match outcome.answer {
        Answer::Refused(number) => format!("refused {number}"),
        Answer::Ended => "ended".to_string(),
        Answer::Stuck => "stuck".to_string(),
        Answer::Open => "open".to_string(),
        Answer::Unstarted => format!("refused {}", refusal::UNSTARTED),
        Answer::Beyond(_) => format!("refused {}", refusal::BEYOND),
    };
    let mut text = format!("{answer} {}\n", outcome.read);
    if matches!(
        outcome.answer,
        Answer::Refused(_) | Answer::Beyond(Limit::NoRecord)
    ) {
        return text;
    }
    text += &format!("locks {}\n", outcome.locks);
    for (number, thread) in outcome.threads.iter().enumerate() {
        text += &match thread.next {
            None => format!("thread {number} ended\n"),
            Some(Next { routine, offset }) => format!("thread {number} at {routine} {offset}\n"),
        };
        for (lock, times) in &thread.holds {
            text += &format!("holds {number} {lock} {times}\n");
        }
        if let Some(lock) = thread.waits {
            text += &format!("waits {number} {lock}\n");
        }
    }
    text
}

#[cfg(test)]
mod tests {
    use super::*;

    fn lent_and_lengths(stdin: &[u8]) -> (usize, usize, usize) {
        let parts = parts(stdin);
        (parts.lent, parts.table.len(), parts.schedule.len())
    }

    #[test]
    fn inputs_come_apart() {
        let stdin = [3, 2, 0, 10, 11, 12, 13, 14];
        let expected = Parts {
            lent: 3,
            table: &[10, 11],
            schedule: &[12, 13, 14],
        };
        assert_eq!(parts(&stdin), expected);
        // The high byte of the length.
        let stdin = [vec![1, 2, 1], vec![0; 300]].concat();
        assert_eq!(lent_and_lengths(&stdin), (1, 258, 42));
    }

    #[test]
    fn what_is_missing_is_none() {
        assert_eq!(lent_and_lengths(&[]), (0, 0, 0));
        assert_eq!(lent_and_lengths(&[5]), (5, 0, 0));
        assert_eq!(lent_and_lengths(&[5, 1]), (5, 0, 0));
        assert_eq!(lent_and_lengths(&[5, 1, 0]), (5, 0, 0));
        assert_eq!(lent_and_lengths(&[5, 9, 0, 1, 2]), (5, 2, 0));
        assert_eq!(lent_and_lengths(&[5, 0, 0, 1, 2]), (5, 0, 2));
    }

    #[test]
    fn what_is_too_much_is_left() {
        assert_eq!(lent_and_lengths(&[16]), (16, 0, 0));
        assert_eq!(lent_and_lengths(&[17]), (16, 0, 0));
        assert_eq!(lent_and_lengths(&[255]), (16, 0, 0));
        let with_schedule = |bytes: usize| {
            let stdin = [vec![1, 1, 0, 1], vec![0; bytes]].concat();
            lent_and_lengths(&stdin)
        };
        assert_eq!(with_schedule(65_535), (1, 1, 65_535));
        assert_eq!(with_schedule(65_536), (1, 1, 65_536));
        assert_eq!(with_schedule(65_537), (1, 1, 65_536));
    }
}
