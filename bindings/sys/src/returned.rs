//! The numbers returned.

/// The result; the place is the events read, the graph's rows used, the marks used, the bytes written, or 0.
pub const LUBIKSAN_ACCEPTED: u32 = 0;
/// A length outside the limits, or a choice above 1.
pub const LUBIKSAN_LENGTHS: u32 = 1;
/// The schema sheet is not good.
pub const LUBIKSAN_NOT_GOOD: u32 = 2;
/// A record of the tape is no event.
pub const LUBIKSAN_RECORD: u32 = 3;
/// A pair outside the text or out of order.
pub const LUBIKSAN_PAIR: u32 = 4;
/// A byte above 127.
pub const LUBIKSAN_BYTE: u32 = 5;
/// A close with no tag open.
pub const LUBIKSAN_CLOSE: u32 = 6;
/// A start with [`LUBIKSAN_OPEN_TAGS_MAX`](crate::LUBIKSAN_OPEN_TAGS_MAX) tags open.
pub const LUBIKSAN_OPEN_TAGS: u32 = 7;
/// [`LUBIKSAN_EVENTS_MAX`](crate::LUBIKSAN_EVENTS_MAX) events are done.
pub const LUBIKSAN_EVENTS: u32 = 8;
/// An attribute that must be there is missing.
pub const LUBIKSAN_ATTRIBUTE: u32 = 9;
/// The value of an attribute is no number of its width.
pub const LUBIKSAN_VALUE: u32 = 10;
/// The state after the event needs more rows or names than lent.
pub const LUBIKSAN_ROOM: u32 = 11;
/// No schema tag was read.
pub const LUBIKSAN_NO_ROOT: u32 = 12;
/// A simple type's base is not built in.
pub const LUBIKSAN_UNKNOWN_BASE: u32 = 13;
/// The scratch has fewer than [`LUBIKSAN_SCRATCH_MIN`](crate::LUBIKSAN_SCRATCH_MIN) numbers.
pub const LUBIKSAN_SCRATCH: u32 = 14;
/// The graph needs more rows or names than lent.
pub const LUBIKSAN_GRAPH_ROOM: u32 = 15;
/// The row has no type reference, or the word list is not five words.
pub const LUBIKSAN_NO_LABEL: u32 = 16;
/// The text is not well formed, or not whole.
pub const LUBIKSAN_MALFORMED: u32 = 17;
/// The text has a document type.
pub const LUBIKSAN_DOCTYPE: u32 = 18;
/// The tape needs more marks than lent.
pub const LUBIKSAN_MARKS: u32 = 19;
/// Two finished types normalise to the same name.
pub const LUBIKSAN_NAME_TWICE: u32 = 20;
/// The graph has not the form of a graph sheet, or two of its types have one name.
pub const LUBIKSAN_GRAPH_FORM: u32 = 21;
/// A value that XML 1.0 can't hold in an attribute.
pub const LUBIKSAN_NO_VALUE: u32 = 22;
/// The text is longer than lent.
pub const LUBIKSAN_TEXT_ROOM: u32 = 23;
/// The pattern is no regular expression of XML Schema.
pub const LUBIKSAN_NO_PATTERN: u32 = 24;
/// The pattern has a form that is not judged.
pub const LUBIKSAN_PATTERN_ASIDE: u32 = 25;
