//! The functions of the archives that are under test. Nothing checks these
//! declarations against their source: see the headers in launcher/.
//!
//! A binary needs the archives of those functions alone that it calls: the linker drops the
//! others.

extern "C" {
    fn vangpear_check(table: *const u8, len: usize) -> u32;
    fn vangpear_analyse(
        table: *const u8,
        table_len: usize,
        model: *mut u8,
        model_len: usize,
    ) -> u32;
    fn vangpear_rounds(table: *const u8, table_len: usize, model: *mut u8, model_len: usize)
        -> u32;
    fn vangpear_update(
        old: *const u8,
        old_len: usize,
        new: *const u8,
        new_len: usize,
        routine: u64,
        model: *mut u8,
        model_len: usize,
    ) -> u32;
    fn vangpear_canonical(table: *const u8, table_len: usize, out: *mut u8, out_len: usize) -> u32;
}

pub fn check(table: &[u8]) -> u32 {
    // SAFETY: pointer and length are those of one slice, lent for the call.
    unsafe { vangpear_check(table.as_ptr(), table.len()) }
}

pub fn analyse(table: &[u8], model: &mut [u8]) -> u32 {
    // SAFETY: pointers and lengths are those of two slices that do not overlap,
    // lent for the call.
    unsafe { vangpear_analyse(table.as_ptr(), table.len(), model.as_mut_ptr(), model.len()) }
}

pub fn rounds(table: &[u8], model: &mut [u8]) -> u32 {
    // SAFETY: pointers and lengths are those of two slices that do not overlap,
    // lent for the call.
    unsafe { vangpear_rounds(table.as_ptr(), table.len(), model.as_mut_ptr(), model.len()) }
}

pub fn update(old: &[u8], new: &[u8], routine: u64, model: &mut [u8]) -> u32 {
    // SAFETY: pointers and lengths are those of three slices of which the last overlaps none
    // of the others, lent for the call.
    unsafe {
        vangpear_update(
            old.as_ptr(),
            old.len(),
            new.as_ptr(),
            new.len(),
            routine,
            model.as_mut_ptr(),
            model.len(),
        )
    }
}

pub fn canonical(table: &[u8], out: &mut [u8]) -> u32 {
    // SAFETY: pointers and lengths are those of two slices that do not overlap,
    // lent for the call.
    unsafe { vangpear_canonical(table.as_ptr(), table.len(), out.as_mut_ptr(), out.len()) }
}
