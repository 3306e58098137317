//! The tape of a schema text, which the library reads itself.

use std::error::Error;
use std::fmt;

use lubiksan_sys::LUBIKSAN_ACCEPTED as ACCEPTED;

use crate::calls;
use crate::cause::Cause;
use crate::limits::{MARKS, TEXT};

/// Why a text has no tape, with the library's number ([`NoTape::number`]). The library tries them in the order 1, 5, 18,
/// 17, 19, each over the whole text, and names no place.
#[derive(Clone, Copy, Debug, PartialEq, Eq)]
#[non_exhaustive]
pub enum NoTape {
    /// 1: the text has over 65,536 bytes, or over 16,384 marks are lent.
    Lengths,
    /// 5: the text has a byte above 127 that is of no character up to U+017F.
    Byte,
    /// 17: the text is not well formed by XML 1.0 (Fifth Edition), or not whole.
    Malformed,
    /// 18: a document type, `<!DOCTYPE`, stands behind a well-formed prolog or at the start.
    Doctype,
    /// 19: the tags of the text take more marks than lent.
    ShortMarks,
    /// A number that the tape of a text should not return.
    Other {
        /// What the number says.
        cause: Cause,
    },
}

impl NoTape {
    /// The refusal of an answer other than 0.
    fn of(number: u32) -> NoTape {
        match Cause::of(number) {
            Cause::Lengths => NoTape::Lengths,
            Cause::Byte => NoTape::Byte,
            Cause::Malformed => NoTape::Malformed,
            Cause::Doctype => NoTape::Doctype,
            Cause::ShortMarks => NoTape::ShortMarks,
            cause => NoTape::Other { cause },
        }
    }

    /// What was refused.
    pub fn cause(&self) -> Cause {
        match self {
            NoTape::Lengths => Cause::Lengths,
            NoTape::Byte => Cause::Byte,
            NoTape::Malformed => Cause::Malformed,
            NoTape::Doctype => Cause::Doctype,
            NoTape::ShortMarks => Cause::ShortMarks,
            NoTape::Other { cause } => *cause,
        }
    }

    /// The library's number.
    pub fn number(&self) -> u32 {
        self.cause().number()
    }
}

impl fmt::Display for NoTape {
    fn fmt(&self, f: &mut fmt::Formatter<'_>) -> fmt::Result {
        write!(f, "{}", self.cause())?;
        if *self == NoTape::Lengths {
            write!(f, ": a text has at most {TEXT} bytes and {MARKS} marks")?;
        }
        write!(f, " (refused with {})", self.number())
    }
}

impl Error for NoTape {}

/// Writes the tape of a schema text into the lent marks and gives how many it takes; the marks behind them are 0. The
/// pairs of the marks point into the text. [`Tape::of_text`](crate::Tape::of_text) lends marks of its own.
///
/// # Errors
///
/// [`NoTape`]; all marks are 0 then, but as they were under [`NoTape::Lengths`].
///
/// ```
/// let mut marks = [9; 8];
/// assert_eq!(lubiksan::tape_of(b"<ab>x</ab>", &mut marks), Ok(6));
/// assert_eq!(marks, [1, 0, 1, 2, 3, 0, 0, 0]);
/// assert_eq!(lubiksan::tape_of(b"<ab/>", &mut marks[..3]), Err(lubiksan::NoTape::ShortMarks));
/// ```
pub fn tape_of(text: &[u8], marks: &mut [u32]) -> Result<usize, NoTape> {
    let answer = calls::tape(text, marks);
    match answer.number {
        ACCEPTED => Ok(answer.place),
        number => Err(NoTape::of(number)),
    }
}
