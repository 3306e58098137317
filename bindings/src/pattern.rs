//! Patterns, judged by the grammar of XML Schema's regular expressions.

use std::error::Error;
use std::fmt;

use lubiksan_sys::{
    LUBIKSAN_ACCEPTED as ACCEPTED, LUBIKSAN_FIRST_AT as FIRST, LUBIKSAN_TAG_AT as TAG,
    LUBIKSAN_XSD_PATTERN as PATTERN, LUBIKSAN_XSD_SIMPLE_TYPE as SIMPLE_TYPE,
};

use crate::calls;
use crate::cause::Cause;
use crate::sheet::SchemaSheet;

/// What a pattern is by the productions of XML Schema Part 2 (Second Edition), Appendix F, alone.
///
/// ```
/// use lubiksan::{Pattern, Unjudged};
///
/// assert_eq!(Pattern::judged("[A-Z]{6,6}"), Ok(Pattern::Derived));
/// assert_eq!(Pattern::judged("[A-Z"), Ok(Pattern::NotDerived));
/// assert_eq!(Pattern::judged("\\p{L}"), Err(Unjudged::Aside));
/// ```
#[derive(Clone, Copy, Debug, PartialEq, Eq, Hash)]
pub enum Pattern {
    /// A derivation exists.
    Derived,
    /// 24: no derivation exists.
    NotDerived,
}

impl Pattern {
    /// What the pattern is.
    ///
    /// # Errors
    ///
    /// [`Unjudged`], where the library does not judge it.
    pub fn judged(pattern: &str) -> Result<Pattern, Unjudged> {
        match calls::pattern(pattern.as_bytes()).number {
            ACCEPTED => Ok(Pattern::Derived),
            number => match Cause::of(number) {
                Cause::NoPattern => Ok(Pattern::NotDerived),
                Cause::Lengths => Err(Unjudged::Long),
                Cause::Byte => Err(Unjudged::NotAscii),
                Cause::PatternAside => Err(Unjudged::Aside),
                cause => Err(Unjudged::Other { cause }),
            },
        }
    }
}

impl fmt::Display for Pattern {
    fn fmt(&self, f: &mut fmt::Formatter<'_>) -> fmt::Result {
        match self {
            Pattern::Derived => f.write_str("a regular expression of XML Schema"),
            Pattern::NotDerived => Cause::NoPattern.fmt(f),
        }
    }
}

/// Why a pattern is not judged. The library tries them in this order.
#[derive(Clone, Copy, Debug, PartialEq, Eq, Hash)]
#[non_exhaustive]
pub enum Unjudged {
    /// 1: it has over 1,024 bytes.
    Long,
    /// 5: it has a byte above 127.
    NotAscii,
    /// 25: it has the bytes `\p`, `\P` or `-[`, or over 32 bytes `(`.
    Aside,
    /// A number that the judgement of a pattern should not return.
    Other {
        /// What the number says.
        cause: Cause,
    },
}

impl Unjudged {
    /// The cause, by the table of the numbers.
    pub fn cause(&self) -> Cause {
        match self {
            Unjudged::Long => Cause::Lengths,
            Unjudged::NotAscii => Cause::Byte,
            Unjudged::Aside => Cause::PatternAside,
            Unjudged::Other { cause } => *cause,
        }
    }

    /// The library's number.
    pub fn number(&self) -> u32 {
        self.cause().number()
    }
}

impl fmt::Display for Unjudged {
    fn fmt(&self, f: &mut fmt::Formatter<'_>) -> fmt::Result {
        match self {
            Unjudged::Long => f.write_str("has over 1,024 bytes and is not judged"),
            Unjudged::NotAscii => f.write_str("has a byte above 127 and is not judged"),
            Unjudged::Aside | Unjudged::Other { .. } => self.cause().fmt(f),
        }
    }
}

impl Error for Unjudged {}

/// A pattern of a simple type in a schema sheet.
#[derive(Clone, Copy, Debug, PartialEq, Eq)]
pub struct PatternFacet<'s> {
    /// Its row.
    pub row: usize,
    /// The name of its type.
    pub type_name: &'s str,
    /// The pattern as the schema has it.
    pub value: &'s str,
}

impl SchemaSheet<'_> {
    /// The patterns of the simple types in order, those of code lists and of the open type too.
    ///
    /// ```
    /// use lubiksan::{Pattern, ReadAs, SchemaSheet, Tape};
    ///
    /// let text = "<schema><simpleType name='Code'><restriction base='string'><pattern value='[A-Z'/></restriction></simpleType></schema>";
    /// let mut sheet = SchemaSheet::cleared(ReadAs::Standard);
    /// sheet.read(&Tape::of_text(text.into())?)?;
    /// let found = sheet.patterns().next().ok_or("a pattern was expected")?;
    /// assert_eq!((found.type_name, found.value), ("Code", "[A-Z"));
    /// assert_eq!(Pattern::judged(found.value), Ok(Pattern::NotDerived));
    /// # Ok::<(), Box<dyn std::error::Error>>(())
    /// ```
    pub fn patterns(&self) -> impl Iterator<Item = PatternFacet<'_>> {
        let mut type_name = "";
        (2..self.rows_used()).filter_map(move |row| match self.number(row, TAG) {
            SIMPLE_TYPE => {
                type_name = self.text(row, FIRST);
                None
            }
            PATTERN => Some(PatternFacet {
                row,
                type_name,
                value: self.text(row, FIRST),
            }),
            _ => None,
        })
    }
}
