//! The kinds of events on a tape, and the choices of a clearing.

/// `<tag ..>`
pub const LUBIKSAN_START: u32 = 1;
/// `<tag ../>`
pub const LUBIKSAN_EMPTY: u32 = 2;
/// `</tag>`
pub const LUBIKSAN_END: u32 = 3;

/// The first close that is not a type's ends the schema.
pub const LUBIKSAN_AS_ORIGINAL: u32 = 0;
/// Its own close ends the schema.
pub const LUBIKSAN_BY_STANDARD: u32 = 1;
