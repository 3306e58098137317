//! Lowering and labels of the static library `lubiksan`. A slice is passed as its address and its length.

#![allow(unsafe_code)]

use lubiksan_sys as c;

use crate::paper::lowering::Lowered;
use crate::paper::{answer, sheet::Sheet};

/// What is stored holds this before a call; no call gives it.
const UNSET: usize = 77_777;

/// Lowers the sheet into a graph sheet and with a scratch that hold `lowered.graph` and `lowered.scratch`;
/// answer, graph and scratch are left in `lowered`.
pub fn lower(sheet: &Sheet, lowered: &mut Lowered) {
    let (graph, scratch) = (&mut lowered.graph, &mut lowered.scratch);
    let mut place = UNSET;
    // SAFETY: each address and its length are those of one slice; all are lent for the call.
    let number = unsafe {
        c::lubiksan_lower(
            sheet.rows.as_ptr(),
            sheet.rows.len(),
            sheet.names.as_ptr(),
            sheet.names.len(),
            graph.rows.as_mut_ptr(),
            graph.rows.len(),
            graph.names.as_mut_ptr(),
            graph.names.len(),
            scratch.as_mut_ptr(),
            scratch.len(),
            &mut place,
        )
    };
    lowered.answer = answer(number, place as u32);
}

/// A label as the library gives it.
#[derive(Clone, Copy, Debug, PartialEq, Eq)]
pub struct Label {
    pub number: u32,
    pub in_words: u32,
    pub start: usize,
    pub length: usize,
    /// The number by the call that gives it alone.
    pub alone: u32,
}

/// The label of row `row`.
pub fn label(rows: &[u32], names: &[u8], words: &[u8], row: usize) -> Label {
    let (mut in_words, mut start, mut length) = (UNSET as u32, UNSET, UNSET);
    // SAFETY: each address and its length are those of one slice; all are lent for the call.
    let number = unsafe {
        c::lubiksan_label(
            rows.as_ptr(),
            rows.len(),
            names.as_ptr(),
            names.len(),
            words.as_ptr(),
            words.len(),
            row,
            &mut in_words,
            &mut start,
            &mut length,
        )
    };
    Label {
        number,
        in_words,
        start,
        length,
        alone: label_number(rows, names, words, row),
    }
}

/// The number alone.
fn label_number(rows: &[u32], names: &[u8], words: &[u8], row: usize) -> u32 {
    // SAFETY: each address and its length are those of one slice.
    unsafe {
        c::lubiksan_label_number(
            rows.as_ptr(),
            rows.len(),
            names.as_ptr(),
            names.len(),
            words.as_ptr(),
            words.len(),
            row,
        )
    }
}
