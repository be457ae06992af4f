//! Every number that docs/FORMAT.md and requests #106 to #109 fix, in one place.

/// Most routines in a table.
pub const MAX_ROUTINES: usize = 64;
/// Most parameters of a routine.
pub const MAX_PARAMETERS: u8 = 7;
/// Most bytes in the body section.
pub const MAX_SECTION: usize = 4_096;
/// Most locals of a routine: NEW and MIRROR items together.
pub const MAX_LOCALS: u8 = 8;
/// Most FORK items in a routine.
pub const MAX_FORK: u8 = 8;
/// Most blocks open at one time, the body not counted.
pub const MAX_OPEN: usize = 16;

/// Bytes of one routine's row in the model.
pub const ROW_BYTES: usize = 65;
/// Cell (a, b) of a row is at ROW_SIDE × a + b.
pub const ROW_SIDE: usize = 8;
/// Offset in a row of the byte that says whether the body has a ring.
pub const RING_BYTE: usize = 64;
/// What each label adds to a cell.
pub const CELL_OWN: u8 = 1;
pub const CELL_UNKNOWN: u8 = 2;
pub const CELL_SEVERAL: u8 = 4;
/// A cell with every label.
pub const CELL_MOST: u8 = CELL_OWN + CELL_UNKNOWN + CELL_SEVERAL;
/// The ring byte of a body with a ring.
pub const RING_MOST: u8 = 1;

/// The whole that a share is given in.
pub const WHOLE: usize = 100;

/// The name of the lock held before the call.
pub const OUTER_NAME: u8 = 0;

/// Most bytes that the program reads: one more than the largest table.
pub const READ_LIMIT: usize = 4_164;

/// `check_number` of an accepted table: this × routines, plus items.
pub const CHECK_ROUTINE: u32 = 65_536;
/// `analyse_number` of a ring: base + this × routine + this × name.
pub const RING_BASE: u32 = 65_536;
pub const RING_ROUTINE: u32 = 1_024;
pub const RING_NAME: u32 = 32;
/// `canonical_number` of a table that is written: this + the length of the result.
pub const CANONICAL_BASE: u32 = 65_536;
/// `rounds_number` of an accepted table: this + the number of rounds.
pub const ROUNDS_BASE: u32 = 65_536;

/// Cells of a row that can hold a label: the first end is 0 to 7, the second 1 to 7 and never 0, and
/// the two differ.
pub const ROW_CELLS: u32 = 49;
/// Labels that a cell can hold: own, unknown and several.
pub const CELL_LABELS: u32 = 3;
/// How often one routine's bytes can change from round to round: each label of each cell can come
/// once, and the last byte can become 1 once. Nothing goes away again.
pub const ROW_CHANGES: u32 = CELL_LABELS * ROW_CELLS + 1;

/// Most rounds that a table of so many routines needs: all changes in rounds of their own, and the
/// last round, which changes nothing.
pub const fn most_rounds(routines: usize) -> u32 {
    ROW_CHANGES * routines as u32 + 1
}

/// The same where no calls lead from a routine back to it.
pub const fn most_rounds_without_cycle(routines: usize) -> u32 {
    routines as u32 + 1
}

/// Most threads that a run starts.
pub const MAX_THREADS: usize = 16;
/// Most locks that a run makes.
pub const MAX_RUN_LOCKS: usize = 64;
/// Most blocks and calls that a thread of a run has open.
pub const MAX_RUN_OPEN: usize = 64;
/// The lowest schedule byte that goes into a second alternative.
pub const SECOND_FROM: u8 = 128;
/// Most schedule bytes that the program `desk` reads.
pub const MAX_SCHEDULE: usize = 65_536;

/// Item codes.
pub mod code {
    pub const END: u8 = 0;
    pub const NEW: u8 = 1;
    pub const LOCK: u8 = 2;
    pub const FORK: u8 = 3;
    pub const CHOICE: u8 = 4;
    pub const OTHER: u8 = 5;
    pub const CALL: u8 = 6;
    pub const MIRROR: u8 = 7;
    /// The highest code.
    pub const LAST: u8 = MIRROR;
}

/// Refusals, numbered in the order in which they are tried.
pub mod refusal {
    pub const EMPTY: u32 = 1;
    pub const ROUTINE_COUNT: u32 = 2;
    pub const HEADER_CUT: u32 = 3;
    pub const PARAMETER_COUNT: u32 = 4;
    pub const SECTION_COUNT: u32 = 5;
    pub const SECTION_LENGTH: u32 = 6;
    pub const NO_CODE: u32 = 7;
    pub const BAD_CODE: u32 = 8;
    pub const MISPLACED: u32 = 9;
    pub const TOO_DEEP: u32 = 10;
    pub const TOO_MANY: u32 = 11;
    pub const BAD_ROUTINE: u32 = 12;
    pub const BAD_NAME: u32 = 13;
    pub const BYTES_LEFT: u32 = 14;
    pub const SHORT_BUFFER: u32 = 15;
    pub const UNSTARTED: u32 = 16;
    pub const BEYOND: u32 = 17;
    pub const OTHER_TABLE: u32 = 18;
    pub const BAD_MODEL: u32 = 19;
    pub const SHORT_OUTPUT: u32 = 20;
}
