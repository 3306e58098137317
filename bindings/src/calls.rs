//! The calls of the static library. A slice is passed as its address and its length; the address of an empty slice is
//! aligned and not null, as the library asks.

#![allow(unsafe_code)]

use lubiksan_sys as c;

/// A returned number with its place.
#[derive(Clone, Copy)]
pub(crate) struct Answer {
    pub number: u32,
    pub place: usize,
}

pub(crate) fn tape(text: &[u8], marks: &mut [u32]) -> Answer {
    let mut place = 0;
    // SAFETY: each address and its length are those of one slice; all are lent for the call.
    let number = unsafe {
        c::lubiksan_tape(
            text.as_ptr(),
            text.len(),
            marks.as_mut_ptr(),
            marks.len(),
            &mut place,
        )
    };
    Answer { number, place }
}

pub(crate) fn pattern(pattern: &[u8]) -> Answer {
    let mut place = 0;
    // SAFETY: the address and the length are those of one slice; the place is lent for the call.
    let number = unsafe { c::lubiksan_pattern(pattern.as_ptr(), pattern.len(), &mut place) };
    Answer { number, place }
}

pub(crate) fn clear(rows: &mut [u32], names: &mut [u8], choice: u32) -> Answer {
    let mut place = 0;
    // SAFETY: each address and its length are those of one slice; all are lent for the call.
    let number = unsafe {
        c::lubiksan_clear(
            rows.as_mut_ptr(),
            rows.len(),
            names.as_mut_ptr(),
            names.len(),
            choice,
            &mut place,
        )
    };
    Answer { number, place }
}

pub(crate) fn read(rows: &mut [u32], names: &mut [u8], text: &[u8], marks: &[u32]) -> Answer {
    let mut place = 0;
    // SAFETY: each address and its length are those of one slice; all are lent for the call.
    let number = unsafe {
        c::lubiksan_read(
            rows.as_mut_ptr(),
            rows.len(),
            names.as_mut_ptr(),
            names.len(),
            text.as_ptr(),
            text.len(),
            marks.as_ptr(),
            marks.len(),
            &mut place,
        )
    };
    Answer { number, place }
}

pub(crate) fn convert(rows: &mut [u32], names: &[u8]) -> Answer {
    let mut place = 0;
    // SAFETY: each address and its length are those of one slice; all are lent for the call.
    let number = unsafe {
        c::lubiksan_convert(
            rows.as_mut_ptr(),
            rows.len(),
            names.as_ptr(),
            names.len(),
            &mut place,
        )
    };
    Answer { number, place }
}

pub(crate) fn lower(
    rows: &[u32],
    names: &[u8],
    graph_rows: &mut [u32],
    graph_names: &mut [u8],
    scratch: &mut [u32],
) -> Answer {
    let mut place = 0;
    // SAFETY: each address and its length are those of one slice; all are lent for the call.
    let number = unsafe {
        c::lubiksan_lower(
            rows.as_ptr(),
            rows.len(),
            names.as_ptr(),
            names.len(),
            graph_rows.as_mut_ptr(),
            graph_rows.len(),
            graph_names.as_mut_ptr(),
            graph_names.len(),
            scratch.as_mut_ptr(),
            scratch.len(),
            &mut place,
        )
    };
    Answer { number, place }
}

pub(crate) fn write(rows: &[u32], names: &[u8], text: &mut [u8]) -> Answer {
    let mut place = 0;
    // SAFETY: each address and its length are those of one slice; all are lent for the call.
    let number = unsafe {
        c::lubiksan_write(
            rows.as_ptr(),
            rows.len(),
            names.as_ptr(),
            names.len(),
            text.as_mut_ptr(),
            text.len(),
            &mut place,
        )
    };
    Answer { number, place }
}

/// What the label call gives: its number, whether the part lies in the words, where it starts, its length.
pub(crate) struct Part {
    pub number: u32,
    pub in_words: bool,
    pub start: usize,
    pub length: usize,
}

pub(crate) fn label(rows: &[u32], names: &[u8], words: &[u8], row: usize) -> Part {
    let (mut in_words, mut start, mut length) = (0, 0, 0);
    // SAFETY: each address and its length are those of one slice; all are lent for the call.
    let number = unsafe {
        c::lubiksan_label(
            rows.as_ptr(),
            rows.len(),
            names.as_ptr(),
            names.len(),
            words.as_ptr(),
            words.len(),
            row,
            &mut in_words,
            &mut start,
            &mut length,
        )
    };
    Part {
        number,
        in_words: in_words == c::LUBIKSAN_IN_WORDS,
        start,
        length,
    }
}

pub(crate) fn label_number(rows: &[u32], names: &[u8], words: &[u8], row: usize) -> u32 {
    // SAFETY: each address and its length are those of one slice.
    unsafe {
        c::lubiksan_label_number(
            rows.as_ptr(),
            rows.len(),
            names.as_ptr(),
            names.len(),
            words.as_ptr(),
            words.len(),
            row,
        )
    }
}

pub(crate) fn graph_form(rows: &[u32], names: &[u8]) -> Answer {
    let mut place = 0;
    // SAFETY: each address and its length are those of one slice; the place is lent for the call.
    let number = unsafe {
        c::lubiksan_graph_form(
            rows.as_ptr(),
            rows.len(),
            names.as_ptr(),
            names.len(),
            &mut place,
        )
    };
    Answer { number, place }
}

pub(crate) fn reduce(
    graph_rows: &[u32],
    graph_names: &[u8],
    rows: &mut [u32],
    names: &mut [u8],
) -> Answer {
    let mut place = 0;
    // SAFETY: each address and its length are those of one slice; all are lent for the call.
    let number = unsafe {
        c::lubiksan_reduce(
            graph_rows.as_ptr(),
            graph_rows.len(),
            graph_names.as_ptr(),
            graph_names.len(),
            rows.as_mut_ptr(),
            rows.len(),
            names.as_mut_ptr(),
            names.len(),
            &mut place,
        )
    };
    Answer { number, place }
}

pub(crate) fn columns(rows: &[u32], columns: &mut [u32]) -> Answer {
    let mut place = 0;
    // SAFETY: each address and its length are those of one slice; all are lent for the call.
    let number = unsafe {
        c::lubiksan_columns(
            rows.as_ptr(),
            rows.len(),
            columns.as_mut_ptr(),
            columns.len(),
            &mut place,
        )
    };
    Answer { number, place }
}

pub(crate) fn rows(columns: &[u32], rows: &mut [u32]) -> Answer {
    let mut place = 0;
    // SAFETY: each address and its length are those of one slice; all are lent for the call.
    let number = unsafe {
        c::lubiksan_rows(
            columns.as_ptr(),
            columns.len(),
            rows.as_mut_ptr(),
            rows.len(),
            &mut place,
        )
    };
    Answer { number, place }
}

pub(crate) fn local_name(name: &[u8]) -> usize {
    // SAFETY: the address and the length are those of one slice.
    unsafe { c::lubiksan_local_name(name.as_ptr(), name.len()) }
}

pub(crate) fn parse_u32(text: &[u8]) -> Option<u32> {
    let mut value = 0;
    // SAFETY: the address and the length are those of one slice; the value is lent for the call.
    let number = unsafe { c::lubiksan_parse_u32(text.as_ptr(), text.len(), &mut value) };
    (number == c::LUBIKSAN_ACCEPTED).then_some(value)
}

pub(crate) fn parse_u64(text: &[u8]) -> Option<u64> {
    let mut value = 0;
    // SAFETY: the address and the length are those of one slice; the value is lent for the call.
    let number = unsafe { c::lubiksan_parse_u64(text.as_ptr(), text.len(), &mut value) };
    (number == c::LUBIKSAN_ACCEPTED).then_some(value)
}

pub(crate) fn map_builtin(name: &[u8]) -> u32 {
    // SAFETY: the address and the length are those of one slice.
    unsafe { c::lubiksan_map_builtin(name.as_ptr(), name.len()) }
}

pub(crate) fn normalize_type_name(name: &[u8], out: &mut [u8]) -> usize {
    // SAFETY: each address and its length are those of one slice; they do not overlap.
    unsafe {
        c::lubiksan_normalize_type_name(name.as_ptr(), name.len(), out.as_mut_ptr(), out.len())
    }
}

pub(crate) fn xml_to_snake_case(name: &[u8], out: &mut [u8]) -> usize {
    // SAFETY: each address and its length are those of one slice; they do not overlap.
    unsafe { c::lubiksan_xml_to_snake_case(name.as_ptr(), name.len(), out.as_mut_ptr(), out.len()) }
}

pub(crate) fn code_to_pascal_case(value: &[u8], out: &mut [u8]) -> usize {
    // SAFETY: each address and its length are those of one slice; they do not overlap.
    unsafe {
        c::lubiksan_code_to_pascal_case(value.as_ptr(), value.len(), out.as_mut_ptr(), out.len())
    }
}

pub(crate) fn same_normalized(a: &[u8], b: &[u8]) -> bool {
    // SAFETY: each address and its length are those of one slice.
    unsafe { c::lubiksan_same_normalized(a.as_ptr(), a.len(), b.as_ptr(), b.len()) == 1 }
}

pub(crate) fn version() -> u32 {
    // SAFETY: the call takes nothing.
    unsafe { c::lubiksan_version() }
}
