//! The call of the static library `lubiksan`. A slice is passed as its address and its length.

#![allow(unsafe_code)]

use lubiksan_sys as c;

use crate::paper::sheet::Sheet;
use crate::paper::{answer, Answer};

/// What the place holds before a call; no call gives it.
const UNSET: usize = 77_777;

/// Writes the schema of the sheet into the text.
pub fn write(sheet: &Sheet, text: &mut [u8]) -> Answer {
    let (rows, names) = (&sheet.rows, &sheet.names);
    let mut place = UNSET;
    // SAFETY: each address and its length are those of one slice; all are lent for the call.
    let number = unsafe {
        c::lubiksan_write(
            rows.as_ptr(),
            rows.len(),
            names.as_ptr(),
            names.len(),
            text.as_mut_ptr(),
            text.len(),
            &mut place,
        )
    };
    answer(number, place as u32)
}
