//! The two calls of the static library `lubiksan`. A slice is passed as its address and its length.

#![allow(unsafe_code)]

use lubiksan_sys as c;

/// Number and place of `lubiksan_columns`.
pub fn to_columns(rows: &[u32], columns: &mut [u32]) -> (u32, usize) {
    let mut place = usize::MAX;
    // SAFETY: each address and its length are those of one slice; all are lent for the call.
    let number = unsafe {
        c::lubiksan_columns(
            rows.as_ptr(),
            rows.len(),
            columns.as_mut_ptr(),
            columns.len(),
            &mut place,
        )
    };
    (number, place)
}

/// Number and place of `lubiksan_rows`.
pub fn to_rows(columns: &[u32], rows: &mut [u32]) -> (u32, usize) {
    let mut place = usize::MAX;
    // SAFETY: each address and its length are those of one slice; all are lent for the call.
    let number = unsafe {
        c::lubiksan_rows(
            columns.as_ptr(),
            columns.len(),
            rows.as_mut_ptr(),
            rows.len(),
            &mut place,
        )
    };
    (number, place)
}
