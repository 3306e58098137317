//! The numbers that the library's calls return, each with its case and its words: the one table of this crate.

use std::error::Error;
use std::fmt;

use lubiksan_sys as sys;

/// Makes the enum, and from the same lines the numbers and the words.
macro_rules! causes {
    ($($(#[$says:meta])* $case:ident = $number:ident, $words:literal;)*) => {
        /// What the number of a refusal says, a case for each number; its words by `Display`. [`Refusal`](crate::Refusal) and
        /// [`NoTape`](crate::NoTape) add the place.
        ///
        /// ```
        /// use lubiksan::Cause;
        ///
        /// assert_eq!((Cause::Doctype.number(), Cause::of(18)), (18, Cause::Doctype));
        /// assert_eq!(Cause::Doctype.to_string(), "the text has a document type");
        /// assert_eq!(Cause::of(99).to_string(), "a number that is not known");
        /// ```
        #[derive(Clone, Copy, Debug, PartialEq, Eq, Hash)]
        #[non_exhaustive]
        pub enum Cause {
            $($(#[$says])* $case,)*
            /// A number that this crate does not know.
            Unknown(u32),
        }

        impl Cause {
            /// All cases that have a number of their own, in the order of the numbers.
            pub const ALL: &'static [Cause] = &[$(Cause::$case),*];

            /// The case of a number other than 0.
            pub fn of(number: u32) -> Cause {
                match number {
                    $(sys::$number => Cause::$case,)*
                    _ => Cause::Unknown(number),
                }
            }

            /// The library's number.
            pub fn number(self) -> u32 {
                match self {
                    $(Cause::$case => sys::$number,)*
                    Cause::Unknown(number) => number,
                }
            }

            fn words(self) -> &'static str {
                match self {
                    $(Cause::$case => $words,)*
                    Cause::Unknown(_) => "a number that is not known",
                }
            }
        }
    };
}

causes! {
    /// 1: a buffer has a length that the library does not take.
    Lengths = LUBIKSAN_LENGTHS, "a buffer has a length that is not taken";
    /// 2: the schema sheet is not good.
    NotGood = LUBIKSAN_NOT_GOOD, "the schema sheet is not good";
    /// 3: a record of the tape has not the form of an event, or the tag has over 32 attributes.
    Record = LUBIKSAN_RECORD, "the record is no event, or its tag has over 32 attributes";
    /// 4: a pair of the record lies outside the text or out of order.
    Pair = LUBIKSAN_PAIR, "a pair lies outside the text or out of order";
    /// 5: a byte above 127 that is of no character from U+0080 to U+017F in UTF-8; in a reading under a pair, those of a character that an
    /// end of the pair cuts among them, else anywhere in the text. Of a pattern any byte above 127.
    Byte = LUBIKSAN_BYTE, "a byte above 127 that is of no character up to U+017F";
    /// 6: a close with no tag open.
    NothingOpen = LUBIKSAN_CLOSE, "a close with no tag open";
    /// 7: a start with 255 tags open.
    TooDeep = LUBIKSAN_OPEN_TAGS, "a start with 255 tags open";
    /// 8: 1,000,000 events are done.
    TooManyEvents = LUBIKSAN_EVENTS, "1,000,000 events are done";
    /// 9: a type without a name.
    MissingAttribute = LUBIKSAN_ATTRIBUTE, "a type without a name";
    /// 10: a value that is not a number within its width.
    InvalidValue = LUBIKSAN_VALUE, "a value is not a number within its width";
    /// 11: the sheet has not the rows or names that the event needs.
    NoRoom = LUBIKSAN_ROOM, "the sheet has no room for what the event adds";
    /// 12: no schema was read.
    NoRoot = LUBIKSAN_NO_ROOT, "no schema element was read";
    /// 13: the base of a simple type is not built in.
    UnknownBase = LUBIKSAN_UNKNOWN_BASE, "the base of a simple type is not built in";
    /// 14: the scratch has fewer than 64 numbers.
    Scratch = LUBIKSAN_SCRATCH, "the scratch has fewer than 64 numbers";
    /// 15: the graph has not the rows or names that the schema needs.
    GraphRoom = LUBIKSAN_GRAPH_ROOM, "the graph has no room for the schema";
    /// 16: the row has no label.
    NoLabel = LUBIKSAN_NO_LABEL, "the row has no label";
    /// 17: the text is not well formed by XML 1.0 (Fifth Edition), or not whole.
    Malformed = LUBIKSAN_MALFORMED, "the text is not well-formed XML";
    /// 18: a document type, `<!DOCTYPE`, stands behind a well-formed prolog or at the start.
    Doctype = LUBIKSAN_DOCTYPE, "the text has a document type";
    /// 19: the tags of the text take more marks than lent.
    ShortMarks = LUBIKSAN_MARKS, "the tags of the text take more marks than lent";
    /// 20: two finished types have the same name in the graph.
    RepeatedName = LUBIKSAN_NAME_TWICE, "two types have the same name in the graph";
    /// 21: the graph has not the form of a graph sheet, or two of its types have one name.
    GraphForm = LUBIKSAN_GRAPH_FORM, "the graph has not the form of a type graph, or two types of one name";
    /// 22: a value that an attribute of XML 1.0 can't hold as it is.
    NoValue = LUBIKSAN_NO_VALUE, "a value can't stand in XML as it is";
    /// 23: the schema's text is longer than lent, or than 65,536 bytes.
    TextRoom = LUBIKSAN_TEXT_ROOM, "the schema's text is longer than lent";
    /// 24: no derivation of the pattern exists by the productions of XML Schema.
    NoPattern = LUBIKSAN_NO_PATTERN, "not a regular expression of XML Schema";
    /// 25: the pattern has a form that is not judged.
    PatternAside = LUBIKSAN_PATTERN_ASIDE, "has a form that is not judged";
}

impl fmt::Display for Cause {
    fn fmt(&self, f: &mut fmt::Formatter<'_>) -> fmt::Result {
        f.write_str(self.words())
    }
}

impl Error for Cause {}
