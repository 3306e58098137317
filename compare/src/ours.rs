//! The functions of the static library `lubiksan`. A slice is passed as its address and its length.

#![allow(unsafe_code)]

use lubiksan_sys as c;

/// Where the local name starts in `name`.
pub fn local_name(name: &str) -> usize {
    // SAFETY: the address and the length are those of one slice.
    unsafe { c::lubiksan_local_name(name.as_ptr(), name.len()) }
}

/// 0 with the number stored in `value`, or 10 with `value` unchanged.
pub fn parse_u32(text: &str, value: &mut u32) -> u32 {
    // SAFETY: the address and the length are those of one slice; `value` is lent for the call.
    unsafe { c::lubiksan_parse_u32(text.as_ptr(), text.len(), value) }
}

/// 0 with the number stored in `value`, or 10 with `value` unchanged.
pub fn parse_u64(text: &str, value: &mut u64) -> u32 {
    // SAFETY: the address and the length are those of one slice; `value` is lent for the call.
    unsafe { c::lubiksan_parse_u64(text.as_ptr(), text.len(), value) }
}

/// The number of the primitive type, 0 for none.
pub fn map_builtin(name: &str) -> u32 {
    // SAFETY: the address and the length are those of one slice.
    unsafe { c::lubiksan_map_builtin(name.as_ptr(), name.len()) }
}

/// The bytes written to `out`, or `usize::MAX` where the conversion is longer than `out`.
pub fn normalize_type_name(name: &str, out: &mut [u8]) -> usize {
    // SAFETY: each address and its length are those of one slice; `out` is lent for the call.
    unsafe {
        c::lubiksan_normalize_type_name(name.as_ptr(), name.len(), out.as_mut_ptr(), out.len())
    }
}

/// The bytes written to `out`, or `usize::MAX` where the conversion is longer than `out`.
pub fn xml_to_snake_case(name: &str, out: &mut [u8]) -> usize {
    // SAFETY: each address and its length are those of one slice; `out` is lent for the call.
    unsafe { c::lubiksan_xml_to_snake_case(name.as_ptr(), name.len(), out.as_mut_ptr(), out.len()) }
}

/// The bytes written to `out`, or `usize::MAX` where the conversion is longer than `out`.
pub fn code_to_pascal_case(value: &str, out: &mut [u8]) -> usize {
    // SAFETY: each address and its length are those of one slice; `out` is lent for the call.
    unsafe {
        c::lubiksan_code_to_pascal_case(value.as_ptr(), value.len(), out.as_mut_ptr(), out.len())
    }
}

/// 1 if the two names normalise to the same text, else 0.
pub fn same_normalized(a: &str, b: &str) -> u32 {
    // SAFETY: each address and its length are those of one slice.
    unsafe { c::lubiksan_same_normalized(a.as_ptr(), a.len(), b.as_ptr(), b.len()) }
}
