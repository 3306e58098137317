//! The two calls of the static library `lubiksan`. A slice is passed as its address and its length.

#![allow(unsafe_code)]

use lubiksan_sys as c;

use crate::paper::sheet::Sheet;
use crate::paper::{answer, Answer};

/// What the place holds before a call; no call gives it.
const UNSET: usize = 77_777;

/// Judges the form of a graph.
pub fn form(graph: &Sheet) -> Answer {
    let mut place = UNSET;
    // SAFETY: each address and its length are those of one slice; the place is lent for the call.
    let number = unsafe {
        c::lubiksan_graph_form(
            graph.rows.as_ptr(),
            graph.rows.len(),
            graph.names.as_ptr(),
            graph.names.len(),
            &mut place,
        )
    };
    answer(number, place as u32)
}

/// Reduces a graph into the target.
pub fn reduce(graph: &Sheet, target: &mut Sheet) -> Answer {
    let mut place = UNSET;
    // SAFETY: each address and its length are those of one slice; all are lent for the call.
    let number = unsafe {
        c::lubiksan_reduce(
            graph.rows.as_ptr(),
            graph.rows.len(),
            graph.names.as_ptr(),
            graph.names.len(),
            target.rows.as_mut_ptr(),
            target.rows.len(),
            target.names.as_mut_ptr(),
            target.names.len(),
            &mut place,
        )
    };
    answer(number, place as u32)
}
