//! The program's text.

use crate::limits::{MAX_ROUTINES, ROW_BYTES, ROW_SIDE};
use crate::{analyse_by, check, Answer, Rules, Share, Verdict};

/// The lines printed for a table, each ended by 0A.
pub fn listing(table: &[u8]) -> Vec<u8> {
    listing_with(table, ROW_BYTES * MAX_ROUTINES)
}

/// The same where the model buffer has `size` bytes.
pub fn listing_with(table: &[u8], size: usize) -> Vec<u8> {
    listing_by(Rules::InForce, table, size)
}

/// The same by the rules given.
pub fn listing_by(rules: Rules, table: &[u8], size: usize) -> Vec<u8> {
    let mut model = vec![0; size];
    let (verdict, share) = match analyse_by(rules, table, &mut model) {
        // A refused table prints this line alone.
        Answer::Refused(number) => return format!("refused {number}\n").into_bytes(),
        Answer::Accepted { verdict, share, .. } => (verdict, share),
    };
    let routines = check(table).map_or(0, |(routines, _)| routines);
    let mut text = format!("routines {routines}\n");
    // Nonzero cells by routine, then a, then b.
    for r in 0..routines {
        for a in 0..ROW_SIDE {
            for b in 0..ROW_SIDE {
                let value = model[ROW_BYTES * r + ROW_SIDE * a + b];
                if value != 0 {
                    text += &format!("pair {r} {a} {b} {value}\n");
                }
            }
        }
    }
    text += &share_line(share);
    text += &verdict_line(verdict);
    text.into_bytes()
}

fn share_line(share: Share) -> String {
    let Share {
        percent,
        remainder,
        reached,
    } = share;
    format!("share {percent} {remainder} {reached}\n")
}

fn verdict_line(verdict: Verdict) -> String {
    match verdict {
        Verdict::Clear => "clear\n".to_string(),
        Verdict::Ring { routine, name } => format!("ring {routine} {name}\n"),
    }
}
