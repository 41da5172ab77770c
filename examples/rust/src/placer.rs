//! `placer_place` of include/placer.h as a safe function. A slice is a pointer that is never null and a length,
//! and a `&mut` overlaps nothing, so the types meet all that the header asks.

/// The shortest output buffer that is not refused with number 10.
pub const OUT: usize = 4096;

/// The table's number, the refused input and row, and the bytes written.
#[derive(Default)]
pub struct Answer {
    pub number: u16,
    pub input: u16,
    pub row: usize,
    pub bytes: usize,
}

extern "C" {
    fn placer_place(
        sheet: *const u8,
        sheet_len: usize,
        pattern: *const u8,
        pattern_len: usize,
        out: *mut u8,
        out_len: usize,
        input: *mut u16,
        row: *mut usize,
        bytes: *mut usize,
    ) -> u16;
}

/// Finds the pattern in the sheet, and writes the list of fillings into `out`.
pub fn place(sheet: &[u8], pattern: &[u8], out: &mut [u8]) -> Answer {
    let mut answer = Answer::default();
    answer.number = unsafe {
        placer_place(
            sheet.as_ptr(),
            sheet.len(),
            pattern.as_ptr(),
            pattern.len(),
            out.as_mut_ptr(),
            out.len(),
            &mut answer.input,
            &mut answer.row,
            &mut answer.bytes,
        )
    };
    answer
}
