//! A call that is lent a table and a buffer for its model, the archive's held against the
//! reference's.

use crate::check;
use crate::limits::{MAX_ROUTINES, ROW_BYTES};

/// Such a call.
pub type Call = fn(&[u8], &mut [u8]) -> u32;

/// Bytes on both sides of a buffer, which must stay as they were.
const GUARD: usize = 128;

/// Bytes that tell their places apart, never 0.
fn filler(count: usize) -> Vec<u8> {
    (0..count).map(|place| (place % 251) as u8 + 1).collect()
}

/// The lengths of a buffer that matter for a table.
fn lengths(table: &[u8]) -> Vec<usize> {
    match check(table) {
        Err(_) => vec![0, 1, ROW_BYTES, ROW_BYTES * MAX_ROUTINES],
        Ok((n, _)) => {
            let exact = ROW_BYTES * n;
            vec![0, exact - 1, 64 * n, exact, exact + ROW_BYTES + 7]
        }
    }
}

/// Compares the two calls of a name on one table, with buffers of every length that matters: the
/// answers, every byte of the buffer and those on both sides, and that the table is as it was. Gives
/// the answers, or says how the two differ. `refuses` tells which answers are refusals.
pub fn compare(
    name: &str,
    archive: Call,
    reference: Call,
    refuses: fn(u32) -> bool,
    table: &[u8],
) -> Result<Vec<u32>, String> {
    let one = |length: usize| {
        let before = filler(length + 2 * GUARD);
        // The reference gets the buffer alone, so its guards cannot change.
        let mut expected_bytes = before.clone();
        let expected = reference(table, &mut expected_bytes[GUARD..GUARD + length]);
        let mut given_bytes = before.clone();
        let lent = table.to_vec();
        let given = archive(&lent, &mut given_bytes[GUARD..GUARD + length]);

        let said = format!("{name} with a buffer of {length}: ");
        if given != expected {
            return Err(format!("{said}archive {given}, reference {expected}"));
        }
        if lent != table {
            return Err(format!("{said}{given} in both, but the table was changed"));
        }
        if refuses(expected) && expected_bytes != before {
            return Err(format!("{said}the reference changed a byte and refused"));
        }
        let differing = (0..before.len()).find(|&at| given_bytes[at] != expected_bytes[at]);
        if let Some(at) = differing {
            return Err(format!(
                "{said}{given} in both, but byte {} of the buffer is {} in the archive's, {} in the reference's",
                at as i64 - GUARD as i64, given_bytes[at], expected_bytes[at]
            ));
        }
        Ok(expected)
    };
    lengths(table).into_iter().map(one).collect()
}
