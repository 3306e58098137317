//! Clearing, reading, the conversion, the tape of a text and the judgement of a pattern, by the static library `lubiksan`. A slice is passed as its address and its length.

#![allow(unsafe_code)]

use lubiksan_sys as c;

use crate::paper::sheet::Sheet;
use crate::paper::{answer, Answer};
use crate::tape::Tape;

/// What the place holds before a call; no call gives it.
const UNSET: usize = 77_777;

/// Clears the sheet with a choice.
pub fn clear(sheet: &mut Sheet, choice: u32) -> Answer {
    let (rows, names) = (&mut sheet.rows, &mut sheet.names);
    let mut place = UNSET;
    // SAFETY: each address and its length are those of one slice; all are lent for the call.
    let number = unsafe {
        c::lubiksan_clear(
            rows.as_mut_ptr(),
            rows.len(),
            names.as_mut_ptr(),
            names.len(),
            choice,
            &mut place,
        )
    };
    answer(number, place as u32)
}

/// Fills in the count of a sheet.
pub fn convert(sheet: &mut Sheet) -> Answer {
    let (rows, names) = (&mut sheet.rows, &sheet.names);
    let mut place = UNSET;
    // SAFETY: each address and its length are those of one slice; all are lent for the call.
    let number = unsafe {
        c::lubiksan_convert(
            rows.as_mut_ptr(),
            rows.len(),
            names.as_ptr(),
            names.len(),
            &mut place,
        )
    };
    answer(number, place as u32)
}

/// Reads the tape into the sheet.
pub fn read(sheet: &mut Sheet, tape: &Tape) -> Answer {
    let (rows, names) = (&mut sheet.rows, &mut sheet.names);
    let mut place = UNSET;
    // SAFETY: each address and its length are those of one slice; all are lent for the call.
    let number = unsafe {
        c::lubiksan_read(
            rows.as_mut_ptr(),
            rows.len(),
            names.as_mut_ptr(),
            names.len(),
            tape.text.as_ptr(),
            tape.text.len(),
            tape.marks.as_ptr(),
            tape.marks.len(),
            &mut place,
        )
    };
    answer(number, place as u32)
}

/// Writes the tape of the text into the marks.
pub fn tape(text: &[u8], marks: &mut [u32]) -> Answer {
    let mut place = UNSET;
    // SAFETY: each address and its length are those of one slice; all are lent for the call.
    let number = unsafe {
        c::lubiksan_tape(
            text.as_ptr(),
            text.len(),
            marks.as_mut_ptr(),
            marks.len(),
            &mut place,
        )
    };
    answer(number, place as u32)
}

/// Judges a pattern.
pub fn pattern(pattern: &[u8]) -> Answer {
    let mut place = UNSET;
    // SAFETY: the address and the length are those of one slice; the place is lent for the call.
    let number = unsafe { c::lubiksan_pattern(pattern.as_ptr(), pattern.len(), &mut place) };
    answer(number, place as u32)
}
