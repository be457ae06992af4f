//! The check of a table, made for speed: what `fast` and `fast_canonical` share, for the benchmark alone.
//!
//! One pass over the bytes tries refusals 1 to 14 and tells a listener of the items, so that it need
//! not parse them a second time. Nothing is taken from the heap.

use std::mem::MaybeUninit;

use crate::limits::{code, refusal, MAX_FORK, MAX_LOCALS, MAX_OPEN};
use crate::limits::{MAX_PARAMETERS, MAX_ROUTINES, MAX_SECTION};

/// Names of a routine: name 0, the parameters and the locals.
pub(crate) const NAMES: usize = 16;

/// For each name another one, four bits a name, the lowest for name 0.
#[derive(Clone, Copy)]
pub(crate) struct Renaming(u64);

impl Renaming {
    /// Each name for itself.
    pub(crate) const NONE: Renaming = Renaming(0xFEDC_BA98_7654_3210);

    #[inline(always)]
    pub(crate) fn of(self, name: u8) -> u8 {
        (self.0 >> (4 * name) & 0xF) as u8
    }

    /// Puts another name for one that is for itself.
    #[inline(always)]
    pub(crate) fn rename(&mut self, name: u8, other: u8) {
        self.0 ^= u64::from(name ^ other) << (4 * name);
    }
}

/// A list of at most N things that lives on the stack and is not cleared before use.
pub(crate) struct List<T: Copy, const N: usize> {
    items: [MaybeUninit<T>; N],
    len: usize,
}

impl<T: Copy, const N: usize> List<T, N> {
    pub(crate) fn new() -> Self {
        List {
            items: [const { MaybeUninit::uninit() }; N],
            len: 0,
        }
    }

    pub(crate) fn len(&self) -> usize {
        self.len
    }

    /// Adds one at the end and gives it back to be filled.
    pub(crate) fn push(&mut self, item: T) -> &mut T {
        let place = &mut self.items[self.len];
        self.len += 1;
        place.write(item)
    }

    pub(crate) fn all_mut(&mut self) -> &mut [T] {
        // SAFETY: `push` has written the first `len` things.
        unsafe { std::slice::from_raw_parts_mut(self.items.as_mut_ptr().cast(), self.len) }
    }
}

/// Refusals 1 to 6; the parameter counts and the body section.
#[inline]
pub(crate) fn head(table: &[u8]) -> Result<(&[u8], &[u8]), u32> {
    let Some((&n, rest)) = table.split_first() else {
        return Err(refusal::EMPTY);
    };
    let n = n as usize;
    if n == 0 || n > MAX_ROUTINES {
        return Err(refusal::ROUTINE_COUNT);
    }
    if rest.len() < n + 2 {
        return Err(refusal::HEADER_CUT);
    }
    let (counts, rest) = rest.split_at(n);
    if counts[0] != 0 || counts.iter().any(|&k| k > MAX_PARAMETERS) {
        return Err(refusal::PARAMETER_COUNT);
    }
    let said = u16::from_le_bytes([rest[0], rest[1]]) as usize;
    let section = &rest[2..];
    if said > MAX_SECTION {
        return Err(refusal::SECTION_COUNT);
    }
    if said != section.len() {
        return Err(refusal::SECTION_LENGTH);
    }
    Ok((counts, section))
}

/// Refusals 7 to 14. `body` reads one body: it gets the parameter count and the offset, and gives the
/// offset after it.
#[inline(always)]
pub(crate) fn bodies(
    counts: &[u8],
    section: &[u8],
    mut body: impl FnMut(u8, usize) -> Result<usize, u32>,
) -> Result<(), u32> {
    let mut at = 0;
    for &parameters in counts {
        at = body(parameters, at)?;
    }
    if at < section.len() {
        return Err(refusal::BYTES_LEFT);
    }
    Ok(())
}

/// Who is told of the items of a body while they are checked.
pub(crate) trait Listener {
    /// What it knows of a place: inside a block at first what it is outside, and behind the block that
    /// again.
    type Place: Copy;
    /// What it knows where a body begins.
    const START: Self::Place;

    /// A LOCK on a name. `here` is inside its block.
    fn lock(&mut self, here: &mut Self::Place, name: u8);
    /// A FORK, by its number from 1 on. `here` is inside its block.
    fn fork(&mut self, here: &mut Self::Place, number: u8);
    fn call(&mut self, here: Self::Place, call: Called);
    /// A MIRROR that gives a name to what another one stands for.
    fn mirror(&mut self, name: u8, of: u8);
}

/// A CALL: the routine, and where its names stand in the section.
pub(crate) struct Called {
    pub(crate) routine: u8,
    pub(crate) names: usize,
    pub(crate) after_names: usize,
}

/// What holds inside an open block.
#[derive(Clone, Copy)]
struct Place<P> {
    /// The names in scope, as bits.
    scope: u16,
    /// Whether the block is a first alternative.
    first: bool,
    /// What the listener knows.
    known: P,
}

/// Reads the body at an offset, up to and with the END that closes it; the offset after it, and how
/// many locals it has.
#[inline(always)]
pub(crate) fn read_body<L: Listener>(
    counts: &[u8],
    section: &[u8],
    at: usize,
    parameters: u8,
    listener: &mut L,
) -> Result<(usize, u8), u32> {
    let mut outside: Outside<L::Place> = [const { MaybeUninit::uninit() }; MAX_OPEN];
    let mut reader = Reader {
        at,
        depth: 0,
        here: Place {
            scope: (2 << parameters) - 2,
            first: false,
            known: L::START,
        },
    };
    let (mut locals, mut forks) = (0, 0);
    loop {
        match reader.byte(section, refusal::NO_CODE)? {
            code::END => {
                if reader.here.first {
                    return Err(refusal::MISPLACED);
                }
                if reader.depth == 0 {
                    break;
                }
                reader.close(&outside);
            }
            code::NEW => {
                if locals == MAX_LOCALS {
                    return Err(refusal::TOO_MANY);
                }
                locals += 1;
                reader.here.scope |= 1 << (parameters + locals);
            }
            code::LOCK => {
                reader.open(&mut outside)?;
                let name = reader.name(section)?;
                listener.lock(&mut reader.here.known, name);
            }
            code::FORK => {
                reader.open(&mut outside)?;
                if forks == MAX_FORK {
                    return Err(refusal::TOO_MANY);
                }
                forks += 1;
                listener.fork(&mut reader.here.known, forks);
            }
            code::CHOICE => {
                reader.open(&mut outside)?;
                reader.here.first = true;
            }
            code::OTHER => {
                if !reader.here.first {
                    return Err(refusal::MISPLACED);
                }
                // One block closes and one opens, without the locals of the first alternative.
                reader.close(&outside);
                reader.open(&mut outside)?;
            }
            code::CALL => {
                let call = reader.call(counts, section)?;
                listener.call(reader.here.known, call);
            }
            code::MIRROR => {
                if locals == MAX_LOCALS {
                    return Err(refusal::TOO_MANY);
                }
                let of = reader.name(section)?;
                locals += 1;
                reader.here.scope |= 1 << (parameters + locals);
                listener.mirror(parameters + locals, of);
            }
            _ => return Err(refusal::BAD_CODE),
        }
    }
    Ok((reader.at, locals))
}

/// What held outside each open block, the outermost first.
type Outside<P> = [MaybeUninit<Place<P>>; MAX_OPEN];

/// How far a body has been read, how many blocks are open, and what holds in the innermost. The bytes
/// and the outer places are kept apart, so that this stays in registers.
struct Reader<P> {
    at: usize,
    depth: usize,
    here: Place<P>,
}

impl<P: Copy> Reader<P> {
    /// The next byte, or the refusal that is due without it.
    #[inline(always)]
    fn byte(&mut self, section: &[u8], number: u32) -> Result<u8, u32> {
        let byte = *section.get(self.at).ok_or(number)?;
        self.at += 1;
        Ok(byte)
    }

    /// The next byte, which must be a name in scope.
    #[inline(always)]
    fn name(&mut self, section: &[u8]) -> Result<u8, u32> {
        let name = self.byte(section, refusal::BAD_NAME)?;
        if name < NAMES as u8 && self.here.scope >> name & 1 == 1 {
            Ok(name)
        } else {
            Err(refusal::BAD_NAME)
        }
    }

    /// Opens a block, unless it would be a seventeenth.
    #[inline(always)]
    fn open(&mut self, outside: &mut Outside<P>) -> Result<(), u32> {
        let place = outside.get_mut(self.depth).ok_or(refusal::TOO_DEEP)?;
        place.write(self.here);
        self.depth += 1;
        self.here.first = false;
        Ok(())
    }

    /// Closes the innermost open block, of which there is one.
    #[inline(always)]
    fn close(&mut self, outside: &Outside<P>) {
        self.depth -= 1;
        // SAFETY: `open` has written the places below the depth.
        self.here = unsafe { outside[self.depth].assume_init() };
    }

    /// The rest of a CALL.
    #[inline(always)]
    fn call(&mut self, counts: &[u8], section: &[u8]) -> Result<Called, u32> {
        let routine = self.byte(section, refusal::BAD_ROUTINE)?;
        let count = counts.get(routine as usize).ok_or(refusal::BAD_ROUTINE)?;
        let names = self.at;
        for _ in 0..*count {
            self.name(section)?;
        }
        Ok(Called {
            routine,
            names,
            after_names: self.at,
        })
    }
}
