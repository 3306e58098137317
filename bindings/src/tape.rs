//! Pieces of a run of events. Nothing outside this module knows how an event is marked.

use std::error::Error;
use std::fmt;
use std::ops::Range;

use lubiksan_sys::{LUBIKSAN_EMPTY as EMPTY, LUBIKSAN_END as CLOSE, LUBIKSAN_START as START};

use crate::limits::{MARKS, TEXT};
use crate::text::{tape_of, NoTape};

/// A piece of a run of events: a text and the marks into it.
///
/// ```
/// use lubiksan::{Event, TapeBuilder};
///
/// let mut piece = TapeBuilder::new();
/// piece.empty("element", &[("name", "D")])?;
/// let tape = piece.finish();
/// let Some(Event::Empty(tag)) = tape.events().next() else {
///     return Err("an empty tag was expected".into());
/// };
/// assert_eq!(tag.name(), b"element");
/// assert_eq!(tag.attributes().next(), Some((&b"name"[..], &b"D"[..])));
/// # Ok::<(), Box<dyn std::error::Error>>(())
/// ```
#[derive(Clone, Debug, Default, PartialEq, Eq)]
pub struct Tape {
    text: Vec<u8>,
    marks: Vec<u32>,
}

impl Tape {
    /// The tape of these buffers, whatever they hold: the library judges them when they are read.
    pub fn from_buffers(text: Vec<u8>, marks: Vec<u32>) -> Tape {
        Tape { text, marks }
    }

    /// The tape of a schema text, which the library reads: UTF-8 without characters above U+017F, at most 65,536 bytes, well formed and
    /// whole.
    ///
    /// # Errors
    ///
    /// [`NoTape`] where it is not, or where its tags take over 16,384 marks.
    ///
    /// ```
    /// use lubiksan::{NoTape, ReadAs, SchemaSheet, Tape};
    ///
    /// let tape = Tape::of_text(b"<?xml version='1.0'?><!-- one --><schema><a/></schema>".to_vec())?;
    /// assert_eq!(SchemaSheet::cleared(ReadAs::Standard).read(&tape)?, 3);
    /// assert_eq!(Tape::of_text(b"<schema>".to_vec()), Err(NoTape::Malformed));
    /// # Ok::<(), Box<dyn std::error::Error>>(())
    /// ```
    pub fn of_text(text: Vec<u8>) -> Result<Tape, NoTape> {
        let mut marks = vec![0; MARKS];
        let used = tape_of(&text, &mut marks)?;
        marks.truncate(used);
        Ok(Tape { text, marks })
    }

    /// The text and the marks.
    pub fn into_buffers(self) -> (Vec<u8>, Vec<u32>) {
        (self.text, self.marks)
    }

    /// The text.
    pub fn text(&self) -> &[u8] {
        &self.text
    }

    /// The marks.
    pub fn marks(&self) -> &[u32] {
        &self.marks
    }

    /// The events in order, up to the first record that is none.
    pub fn events(&self) -> Events<'_> {
        Events::of(&self.text, &self.marks)
    }
}

/// The events of a [`Tape`].
#[derive(Clone, Debug)]
pub struct Events<'t> {
    text: &'t [u8],
    marks: &'t [u32],
}

impl<'t> Events<'t> {
    /// The events in these buffers, whatever they hold, in order, up to the first record that is none.
    pub fn of(text: &'t [u8], marks: &'t [u32]) -> Events<'t> {
        Events { text, marks }
    }

    /// The marks of the events that are still to come.
    pub fn marks(&self) -> &'t [u32] {
        self.marks
    }
}

/// An event of a [`Tape`].
#[derive(Clone, Copy, Debug, PartialEq, Eq)]
pub enum Event<'t> {
    /// `<tag ..>`
    Start(Tag<'t>),
    /// `<tag ../>`
    Empty(Tag<'t>),
    /// `</tag>`
    Close,
}

impl<'t> Iterator for Events<'t> {
    type Item = Event<'t>;

    fn next(&mut self) -> Option<Event<'t>> {
        let (&kind, &count) = self.marks.first().zip(self.marks.get(1))?;
        let numbers = if kind == CLOSE {
            0
        } else {
            2 + 4 * usize::try_from(count).ok()?
        };
        let pairs = self.marks.get(2..2 + numbers)?;
        self.marks = self.marks.get(2 + numbers..)?;
        let tag = Tag {
            text: self.text,
            pairs,
        };
        match kind {
            START => Some(Event::Start(tag)),
            EMPTY => Some(Event::Empty(tag)),
            CLOSE => Some(Event::Close),
            _ => None,
        }
    }
}

/// A tag of an [`Event`].
#[derive(Clone, Copy, Debug, PartialEq, Eq)]
pub struct Tag<'t> {
    text: &'t [u8],
    pairs: &'t [u32],
}

impl<'t> Tag<'t> {
    /// The name of the tag, with its prefix.
    pub fn name(&self) -> &'t [u8] {
        self.part(0)
    }

    /// Keys and values in order.
    pub fn attributes(&self) -> impl Iterator<Item = (&'t [u8], &'t [u8])> {
        let tag = *self;
        let count = (tag.pairs.len() / 2).saturating_sub(1) / 2;
        (0..count).map(move |i| (tag.part(1 + 2 * i), tag.part(2 + 2 * i)))
    }

    /// Where the name stands in the text, then the key and the value of each attribute, as the marks say it.
    ///
    /// ```
    /// use lubiksan::{Event, Tape};
    ///
    /// let tape = Tape::of_text(b"<a b='cd'/>".to_vec())?;
    /// let Some(Event::Empty(tag)) = tape.events().next() else {
    ///     return Err("an empty tag was expected".into());
    /// };
    /// assert!(tag.ranges().eq([1..2, 3..4, 6..8]));
    /// # Ok::<(), Box<dyn std::error::Error>>(())
    /// ```
    pub fn ranges(&self) -> impl Iterator<Item = Range<usize>> + 't {
        let tag = *self;
        (0..tag.pairs.len() / 2).map(move |pair| tag.range(pair))
    }

    /// Where the part under a pair stands.
    fn range(&self, pair: usize) -> Range<usize> {
        let number = |i: usize| self.pairs.get(i).map_or(0, |&n| n as usize);
        let (offset, length) = (number(2 * pair), number(2 * pair + 1));
        offset..offset.saturating_add(length)
    }

    /// The part under a pair; a pair outside the text has an empty one.
    fn part(&self, pair: usize) -> &'t [u8] {
        self.text.get(self.range(pair)).unwrap_or_default()
    }
}

/// An event has no place in a piece.
#[derive(Clone, Copy, Debug, PartialEq, Eq)]
pub enum PieceFull {
    /// It does not fit behind the others: finish this piece and put it into the next.
    Full,
    /// It fits into no piece.
    TooLong {
        /// The bytes of its name, keys and values.
        text: usize,
        /// The marks that it takes.
        marks: usize,
    },
}

impl fmt::Display for PieceFull {
    fn fmt(&self, f: &mut fmt::Formatter<'_>) -> fmt::Result {
        match self {
            PieceFull::Full => write!(f, "the piece is full"),
            PieceFull::TooLong { text, marks } => write!(
                f,
                "the tag takes {text} bytes and {marks} marks, and a piece has at most {TEXT} and {MARKS}"
            ),
        }
    }
}

impl Error for PieceFull {}

/// Makes a [`Tape`] event by event, within the limits of a piece.
///
/// ```
/// use lubiksan::TapeBuilder;
///
/// let mut piece = TapeBuilder::new();
/// piece.start("schema", &[])?;
/// piece.close()?;
/// assert_eq!(piece.events(), 2);
/// assert_eq!(piece.finish().marks(), [1, 0, 0, 6, 3, 0]);
/// # Ok::<(), lubiksan::PieceFull>(())
/// ```
#[derive(Clone, Debug, Default)]
pub struct TapeBuilder {
    tape: Tape,
    events: usize,
}

impl TapeBuilder {
    /// An empty piece.
    pub fn new() -> TapeBuilder {
        TapeBuilder::default()
    }

    /// Adds `<name key="value" ..>`.
    ///
    /// # Errors
    ///
    /// [`PieceFull`] where it has no place; the piece is as it was.
    pub fn start(&mut self, name: &str, attributes: &[(&str, &str)]) -> Result<(), PieceFull> {
        self.put_tag(START, name, attributes)
    }

    /// Adds `<name key="value" ../>`.
    ///
    /// # Errors
    ///
    /// [`PieceFull`] where it has no place; the piece is as it was.
    pub fn empty(&mut self, name: &str, attributes: &[(&str, &str)]) -> Result<(), PieceFull> {
        self.put_tag(EMPTY, name, attributes)
    }

    /// Adds a close.
    ///
    /// # Errors
    ///
    /// [`PieceFull`] where it has no place; the piece is as it was.
    pub fn close(&mut self) -> Result<(), PieceFull> {
        self.has_place(0, 2)?;
        self.tape.marks.extend([CLOSE, 0]);
        self.events += 1;
        Ok(())
    }

    /// How many events were added.
    pub fn events(&self) -> usize {
        self.events
    }

    /// The piece.
    pub fn finish(self) -> Tape {
        self.tape
    }

    fn put_tag(
        &mut self,
        kind: u32,
        name: &str,
        attributes: &[(&str, &str)],
    ) -> Result<(), PieceFull> {
        let pairs: usize = attributes
            .iter()
            .map(|(key, value)| key.len() + value.len())
            .sum();
        self.has_place(name.len() + pairs, 4 + 4 * attributes.len())?;
        self.tape.marks.extend([kind, attributes.len() as u32]);
        self.put_text(name);
        for (key, value) in attributes {
            self.put_text(key);
            self.put_text(value);
        }
        self.events += 1;
        Ok(())
    }

    fn has_place(&self, text: usize, marks: usize) -> Result<(), PieceFull> {
        if text > TEXT || marks > MARKS {
            return Err(PieceFull::TooLong { text, marks });
        }
        if self.tape.text.len() + text > TEXT || self.tape.marks.len() + marks > MARKS {
            return Err(PieceFull::Full);
        }
        Ok(())
    }

    fn put_text(&mut self, piece: &str) {
        let offset = self.tape.text.len() as u32;
        self.tape.marks.extend([offset, piece.len() as u32]);
        self.tape.text.extend(piece.bytes());
    }
}
