//! The proved library, called through its C functions (include/openrules.h). A Rattle slice is passed as a pointer and then a length.

use crate::firm::Row;
use crate::sheet::Mode;

extern "C" {
    fn openrules_partial(
        sheet: *const u8,
        sheet_len: usize,
        first: *mut u32,
        first_len: usize,
        second: *mut u32,
        second_len: usize,
        out: *mut u8,
        out_len: usize,
        line: *mut usize,
        length: *mut usize,
    ) -> u32;
    fn openrules_complete(
        sheet: *const u8,
        sheet_len: usize,
        first: *mut u32,
        first_len: usize,
        second: *mut u32,
        second_len: usize,
        out: *mut u8,
        out_len: usize,
        line: *mut usize,
        length: *mut usize,
    ) -> u32;
    fn openrules_page(
        sheet: *const u8,
        sheet_len: usize,
        first: *mut u32,
        first_len: usize,
        second: *mut u32,
        second_len: usize,
        out: *mut u8,
        out_len: usize,
        line: *mut usize,
        length: *mut usize,
    ) -> u32;
    fn openrules_finish(
        partial: *const u8,
        partial_len: usize,
        complete: *const u8,
        complete_len: usize,
        first: *mut u32,
        first_len: usize,
        second: *mut u32,
        second_len: usize,
        out: *mut u8,
        out_len: usize,
        line: *mut usize,
        length: *mut usize,
    ) -> u32;
    fn openrules_preview(
        sheet: *const u8,
        sheet_len: usize,
        of_line: usize,
        replacement: *const u8,
        replacement_len: usize,
        first: *mut u32,
        first_len: usize,
        second: *mut u32,
        second_len: usize,
        out: *mut u8,
        out_len: usize,
        line: *mut usize,
        length: *mut usize,
    ) -> u32;
    fn openrules_firm(
        rows: *mut Row,
        rows_len: usize,
        sheet: *const u8,
        sheet_len: usize,
        first: *mut u32,
        first_len: usize,
        second: *mut u32,
        second_len: usize,
        line: *mut usize,
        length: *mut usize,
        group: *mut u32,
    ) -> u32;
    fn openrules_test_load(seed: u64, policies: u32, out: *mut u8, out_len: usize, line: *mut usize, length: *mut usize) -> u32;
}

/// Number, line and length of a call. A number too large for the comparison becomes one that no call returns.
fn returned(number: u32, line: usize, length: usize) -> [u32; 3] {
    [number, u32::try_from(line).unwrap_or(u32::MAX), u32::try_from(length).unwrap_or(u32::MAX)]
}

/// A C function over one sheet.
type Entry =
    unsafe extern "C" fn(*const u8, usize, *mut u32, usize, *mut u32, usize, *mut u8, usize, *mut usize, *mut usize) -> u32;

/// The answer to a sheet; returns number, line and length.
pub fn call(mode: Mode, sheet: &[u8], work_a: &mut [u32], work_b: &mut [u32], out: &mut [u8]) -> [u32; 3] {
    let entry: Entry = match mode {
        Mode::Partial => openrules_partial,
        Mode::Complete => openrules_complete,
    };
    lend(entry, sheet, work_a, work_b, out)
}

/// The counter page of a partial sheet.
pub fn page(sheet: &[u8], work_a: &mut [u32], work_b: &mut [u32], out: &mut [u8]) -> [u32; 3] {
    lend(openrules_page, sheet, work_a, work_b, out)
}

/// One call over one sheet.
fn lend(entry: Entry, sheet: &[u8], work_a: &mut [u32], work_b: &mut [u32], out: &mut [u8]) -> [u32; 3] {
    let (mut line, mut length) = (usize::MAX, usize::MAX);
    // Every pointer is that of a slice of the length beside it or of a number, and no two of them overlap.
    let number = unsafe {
        entry(
            sheet.as_ptr(),
            sheet.len(),
            work_a.as_mut_ptr(),
            work_a.len(),
            work_b.as_mut_ptr(),
            work_b.len(),
            out.as_mut_ptr(),
            out.len(),
            &mut line,
            &mut length,
        )
    };
    returned(number, line, length)
}

/// One call over two sheets.
pub fn finish(partial: &[u8], complete: &[u8], work_a: &mut [u32], work_b: &mut [u32], out: &mut [u8]) -> [u32; 3] {
    let (mut line, mut length) = (usize::MAX, usize::MAX);
    // As above.
    let number = unsafe {
        openrules_finish(
            partial.as_ptr(),
            partial.len(),
            complete.as_ptr(),
            complete.len(),
            work_a.as_mut_ptr(),
            work_a.len(),
            work_b.as_mut_ptr(),
            work_b.len(),
            out.as_mut_ptr(),
            out.len(),
            &mut line,
            &mut length,
        )
    };
    returned(number, line, length)
}

/// One call over a sheet, the number of a line and a line for it.
pub fn preview(
    sheet: &[u8],
    of_line: usize,
    replacement: &[u8],
    work_a: &mut [u32],
    work_b: &mut [u32],
    out: &mut [u8],
) -> [u32; 3] {
    let (mut line, mut length) = (usize::MAX, usize::MAX);
    // As above.
    let number = unsafe {
        openrules_preview(
            sheet.as_ptr(),
            sheet.len(),
            of_line,
            replacement.as_ptr(),
            replacement.len(),
            work_a.as_mut_ptr(),
            work_a.len(),
            work_b.as_mut_ptr(),
            work_b.len(),
            out.as_mut_ptr(),
            out.len(),
            &mut line,
            &mut length,
        )
    };
    returned(number, line, length)
}

/// One call over a sheet and a list of rows.
pub fn firm(rows: &mut [Row], sheet: &[u8], work_a: &mut [u32], work_b: &mut [u32]) -> ([u32; 3], u32) {
    let (mut line, mut length, mut group) = (usize::MAX, usize::MAX, u32::MAX);
    // As above.
    let number = unsafe {
        openrules_firm(
            rows.as_mut_ptr(),
            rows.len(),
            sheet.as_ptr(),
            sheet.len(),
            work_a.as_mut_ptr(),
            work_a.len(),
            work_b.as_mut_ptr(),
            work_b.len(),
            &mut line,
            &mut length,
            &mut group,
        )
    };
    (returned(number, line, length), group)
}

/// A test load.
pub fn test_load(seed: u64, policies: u32, out: &mut [u8]) -> [u32; 3] {
    let (mut line, mut length) = (usize::MAX, usize::MAX);
    // As above.
    let number = unsafe { openrules_test_load(seed, policies, out.as_mut_ptr(), out.len(), &mut line, &mut length) };
    returned(number, line, length)
}
