//! Functions that get a table and a buffer: whether they agree, and the time that they take.

use std::hint::black_box;

use reference::groups::Group;
use reference::hex;
use reference::timing::Side;

/// A byte that no model holds.
pub const FILLER: u8 = 0xA5;

/// What gets a table and a buffer.
pub type Call = fn(&[u8], &mut [u8]) -> u32;

/// The answer, and the buffer of this length that held `FILLER` before.
fn outcome(call: Call, table: &[u8], length: usize) -> (u32, Vec<u8>) {
    let mut buffer = vec![FILLER; length];
    (call(table, &mut buffer), buffer)
}

/// What must agree.
pub struct Alike<'a> {
    pub reference: Call,
    pub others: &'a [(&'a str, Call)],
    /// The length of the buffer that is timed, and the least that is enough for a table.
    pub timed: usize,
    pub exact: fn(&[u8]) -> usize,
}

impl Alike<'_> {
    /// Whether all agree on a table, for the buffer that is timed, for one that just fits and for one
    /// that is a byte too short.
    fn agree(&self, table: &[u8]) -> Result<(), String> {
        let exact = (self.exact)(table);
        for length in [self.timed, exact, exact - 1] {
            let expected = outcome(self.reference, table, length);
            for (name, call) in self.others {
                let given = outcome(*call, table, length);
                if given.0 != expected.0 {
                    return Err(format!("{name} {}, reference {}", given.0, expected.0));
                }
                if given.1 != expected.1 {
                    return Err(format!("{name}: the buffer of {length} bytes differs"));
                }
            }
        }
        Ok(())
    }

    /// Compares all tables of all groups; the first difference.
    pub fn verify(&self, groups: &[Group]) -> Result<(), String> {
        for Group { name, tables, .. } in groups {
            for table in tables {
                self.agree(table)
                    .map_err(|how| format!("{name}: {how}\n{}", hex::text(table)))?;
            }
        }
        Ok(())
    }
}

/// The side of one, with its own buffer of this length, which is not cleared between calls.
pub fn side(call: Call, tables: &[Vec<u8>], length: usize) -> Side<'_> {
    let mut buffer = vec![FILLER; length];
    Side::new(tables.len(), move || {
        let call = black_box(call);
        for table in tables {
            black_box(call(black_box(table), black_box(&mut buffer)));
        }
    })
}

/// The bytes of one table, on average.
pub fn bytes<'a>(tables: impl ExactSizeIterator<Item = &'a Vec<u8>>) -> String {
    let count = tables.len();
    let bytes: usize = tables.map(Vec::len).sum();
    (bytes / count).to_string()
}
