//! Why a call was refused.

use std::error::Error;
use std::fmt;

use crate::calls::Answer;
use crate::cause::Cause;

/// Where an event stands.
#[derive(Clone, Copy, Debug, PartialEq, Eq)]
pub struct At {
    /// The event's number in the piece, from 0.
    pub place: usize,
    /// The event's number in the run, from 0: the events done before the call added.
    pub event: usize,
}

/// A type of a schema sheet.
#[derive(Clone, Debug, PartialEq, Eq)]
pub struct TypeAt {
    /// Its row, from 0.
    pub row: usize,
    /// Its name as in the schema.
    pub name: String,
}

impl TypeAt {
    /// A type of which the row alone is known.
    fn nameless(row: usize) -> TypeAt {
        let name = String::new();
        TypeAt { row, name }
    }
}

/// Why a call was refused, with the library's number ([`Refusal::number`]) and the place.
#[derive(Clone, Debug, PartialEq, Eq)]
#[non_exhaustive]
pub enum Refusal {
    /// 1: a buffer has a length that the library does not take.
    Lengths,
    /// 2: the schema sheet is not good.
    NotGood,
    /// 3: a record of the tape has not the form of an event, or the tag has over 32 attributes.
    Record(At),
    /// 4: a pair of the record lies outside the text or out of order.
    Pair(At),
    /// 5: a name, a key or a value has a byte above 127 that is of no character up to U+017F.
    Byte(At),
    /// 6: a close with no tag open.
    NothingOpen(At),
    /// 7: a start with 255 tags open.
    TooDeep(At),
    /// 8: 1,000,000 events are done.
    TooManyEvents(At),
    /// 9: a type without a name.
    MissingAttribute(At),
    /// 10: a value that is not a number within its width.
    InvalidValue(At),
    /// 11: the sheet has not the rows or names that the event needs.
    NoRoom(At),
    /// 12: no schema was read.
    NoRoot,
    /// 13: the base of a simple type is not built in; the type's row in the schema sheet.
    UnknownBase {
        /// The row of the type, from 0.
        row: usize,
    },
    /// 14: the scratch has fewer than 64 numbers.
    Scratch,
    /// 15: the graph has not the rows or names that the schema needs.
    GraphRoom,
    /// 16: the row has no label.
    NoLabel,
    /// 20: two finished types have the same name in the graph.
    RepeatedName {
        /// The type whose name came before; its row is the place. Simple types come before complex ones.
        again: TypeAt,
        /// The type that has the name already.
        first: TypeAt,
    },
    /// 21: the graph has not the form of a graph sheet, or, where it is reduced, two of its types have one name.
    GraphForm,
    /// 22: a row of the schema sheet has a value that XML 1.0 can't hold in an attribute.
    NoValue {
        /// The row, from 0; 1 is the namespace.
        row: usize,
    },
    /// 23: the schema's text is longer than lent, or than 65,536 bytes.
    TextRoom,
    /// A number that no call should return here.
    Other {
        /// What the number says.
        cause: Cause,
        /// The place stored.
        place: usize,
    },
}

impl Refusal {
    /// The refusal of an answer other than 0; `done` events were done before the call.
    pub(crate) fn of(answer: Answer, done: usize) -> Refusal {
        let Answer { number, place } = answer;
        let event = done.saturating_add(place);
        let at = At { place, event };
        match Cause::of(number) {
            Cause::Lengths => Refusal::Lengths,
            Cause::NotGood => Refusal::NotGood,
            Cause::Record => Refusal::Record(at),
            Cause::Pair => Refusal::Pair(at),
            Cause::Byte => Refusal::Byte(at),
            Cause::NothingOpen => Refusal::NothingOpen(at),
            Cause::TooDeep => Refusal::TooDeep(at),
            Cause::TooManyEvents => Refusal::TooManyEvents(at),
            Cause::MissingAttribute => Refusal::MissingAttribute(at),
            Cause::InvalidValue => Refusal::InvalidValue(at),
            Cause::NoRoom => Refusal::NoRoom(at),
            Cause::NoRoot => Refusal::NoRoot,
            Cause::UnknownBase => Refusal::UnknownBase { row: place },
            Cause::Scratch => Refusal::Scratch,
            Cause::GraphRoom => Refusal::GraphRoom,
            Cause::NoLabel => Refusal::NoLabel,
            Cause::RepeatedName => Refusal::RepeatedName {
                again: TypeAt::nameless(place),
                first: TypeAt::nameless(0),
            },
            Cause::GraphForm => Refusal::GraphForm,
            Cause::NoValue => Refusal::NoValue { row: place },
            Cause::TextRoom => Refusal::TextRoom,
            cause => Refusal::Other { cause, place },
        }
    }

    /// What was refused, without the place.
    pub fn cause(&self) -> Cause {
        match self {
            Refusal::Lengths => Cause::Lengths,
            Refusal::NotGood => Cause::NotGood,
            Refusal::Record(_) => Cause::Record,
            Refusal::Pair(_) => Cause::Pair,
            Refusal::Byte(_) => Cause::Byte,
            Refusal::NothingOpen(_) => Cause::NothingOpen,
            Refusal::TooDeep(_) => Cause::TooDeep,
            Refusal::TooManyEvents(_) => Cause::TooManyEvents,
            Refusal::MissingAttribute(_) => Cause::MissingAttribute,
            Refusal::InvalidValue(_) => Cause::InvalidValue,
            Refusal::NoRoom(_) => Cause::NoRoom,
            Refusal::NoRoot => Cause::NoRoot,
            Refusal::UnknownBase { .. } => Cause::UnknownBase,
            Refusal::Scratch => Cause::Scratch,
            Refusal::GraphRoom => Cause::GraphRoom,
            Refusal::NoLabel => Cause::NoLabel,
            Refusal::RepeatedName { .. } => Cause::RepeatedName,
            Refusal::GraphForm => Cause::GraphForm,
            Refusal::NoValue { .. } => Cause::NoValue,
            Refusal::TextRoom => Cause::TextRoom,
            Refusal::Other { cause, .. } => *cause,
        }
    }

    /// The library's number.
    pub fn number(&self) -> u32 {
        self.cause().number()
    }

    /// The place: the event's number in the piece, the row of 13, 20 and 22, else 0.
    pub fn place(&self) -> usize {
        match self {
            Refusal::UnknownBase { row } | Refusal::NoValue { row } => *row,
            Refusal::RepeatedName { again, .. } => again.row,
            Refusal::Other { place, .. } => *place,
            _ => self.at().map_or(0, |at| at.place),
        }
    }

    /// The event's number in the run, where an event was refused.
    pub fn event(&self) -> Option<usize> {
        self.at().map(|at| at.event)
    }

    fn at(&self) -> Option<At> {
        match self {
            Refusal::Record(at) | Refusal::Pair(at) | Refusal::Byte(at) => Some(*at),
            Refusal::NothingOpen(at) | Refusal::TooDeep(at) | Refusal::TooManyEvents(at) => {
                Some(*at)
            }
            Refusal::MissingAttribute(at) | Refusal::InvalidValue(at) | Refusal::NoRoom(at) => {
                Some(*at)
            }
            _ => None,
        }
    }
}

impl fmt::Display for Refusal {
    fn fmt(&self, f: &mut fmt::Formatter<'_>) -> fmt::Result {
        write!(f, "{}", self.cause())?;
        if let Refusal::RepeatedName { again, first } = self {
            write!(f, ": {:?} and {:?}", first.name, again.name)?;
        }
        write!(f, " (refused with {}", self.number())?;
        match (self.event(), self) {
            (Some(event), _) => write!(f, ", event {event})"),
            (None, Refusal::UnknownBase { row } | Refusal::NoValue { row }) => {
                write!(f, ", row {row})")
            }
            (None, Refusal::RepeatedName { again, first }) => {
                write!(f, ", rows {} and {})", first.row, again.row)
            }
            _ => write!(f, ")"),
        }
    }
}

impl Error for Refusal {}
