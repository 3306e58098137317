//! The events of a text that the library itself reads into a tape, with their places in the text.
//!
//! A tape says where names, keys and values stand. What it does not say, where a close stands, is looked for here: the
//! library has found the text well formed, so that between two tags stand only text, comments, instructions and CDATA
//! sections.

use lubiksan::{limits, tape_of, NoTape, Tag};

use crate::xml::{Attribute, Event, EventKind, Events};

/// The tape of a text, and its events.
#[derive(Clone, Debug)]
pub struct Taped {
    marks: Vec<u32>,
    /// Where the marks of each event start.
    starts: Vec<usize>,
}

impl Taped {
    /// The tape that the library writes for a text, with its events.
    ///
    /// # Errors
    ///
    /// [`NoTape`] where it writes none.
    pub fn of(text: &[u8]) -> Result<(Taped, Events), NoTape> {
        let mut marks = vec![0; limits::MARKS];
        let used = tape_of(text, &mut marks)?;
        marks.truncate(used);
        // What is accepted is UTF-8.
        let text = std::str::from_utf8(text).map_err(|_| NoTape::Byte)?;
        let mut walk = Walk::new(text);
        walk.all(&marks);
        let starts = walk.starts;
        Ok((Taped { marks, starts }, walk.found))
    }

    /// The marks of all events.
    pub fn marks(&self) -> &[u32] {
        &self.marks
    }

    /// The marks of at most `most` events from `first` on, and how many events these are.
    pub fn part(&self, first: usize, most: usize) -> (&[u32], usize) {
        let end = self.starts.len().min(first.saturating_add(most));
        let start = |event: usize| self.starts.get(event).copied().unwrap_or(self.marks.len());
        let part = self.marks.get(start(first)..start(end));
        (part.unwrap_or_default(), end.saturating_sub(first))
    }
}

/// Where `<!DOCTYPE` stands behind a well-formed prolog.
pub fn document_type(text: &str) -> usize {
    next_tag(text, 0)
}

/// The way along the events of a tape.
struct Walk<'t> {
    text: &'t str,
    found: Events,
    starts: Vec<usize>,
    /// The lengths of the names of the open tags.
    open: Vec<usize>,
    /// Behind the last tag.
    at: usize,
}

impl<'t> Walk<'t> {
    fn new(text: &'t str) -> Walk<'t> {
        Walk {
            text,
            found: Events::default(),
            starts: Vec::new(),
            open: Vec::new(),
            at: 0,
        }
    }

    fn all(&mut self, marks: &[u32]) {
        let mut tape = lubiksan::Events::of(self.text.as_bytes(), marks);
        let mut start = 0;
        while let Some(event) = tape.next() {
            self.starts.push(start);
            start = marks.len() - tape.marks().len();
            match event {
                lubiksan::Event::Start(tag) => self.tag(EventKind::Start, &tag),
                lubiksan::Event::Empty(tag) => self.tag(EventKind::Empty, &tag),
                lubiksan::Event::Close => self.close(),
            }
        }
    }

    fn tag(&mut self, kind: EventKind, tag: &Tag<'_>) {
        let mut ranges = tag.ranges();
        let name = ranges.next().unwrap_or_default();
        if kind == EventKind::Start {
            self.open.push(name.len());
        }
        let first = self.found.attributes.len();
        let mut last = name.end;
        while let Some((key, value)) = ranges.next().zip(ranges.next()) {
            // Behind a value stands its quote.
            last = value.end + 1;
            self.found.attributes.push(Attribute { key, value });
        }
        let event = Event {
            kind,
            at: name.start.saturating_sub(1),
            name,
            attributes: first..self.found.attributes.len(),
        };
        self.put(event, last);
    }

    fn close(&mut self) {
        let at = next_tag(self.text, self.at);
        let length = self.open.pop().unwrap_or(0);
        let name = at + 2..at + 2 + length;
        let last = name.end;
        let event = Event {
            kind: EventKind::Close,
            at,
            name,
            attributes: 0..0,
        };
        self.put(event, last);
    }

    /// Adds an event whose `>` is the next one from `last` on.
    fn put(&mut self, event: Event, last: usize) {
        self.found.events.push(event);
        let rest = self.text.get(last..).unwrap_or_default();
        self.at = last + rest.find('>').map_or(0, |found| found + 1);
    }
}

/// Where the next tag or document type from `at` on starts.
fn next_tag(text: &str, mut at: usize) -> usize {
    while let Some(found) = text.get(at..).and_then(|rest| rest.find('<')) {
        at += found;
        match passed_over(text.get(at..).unwrap_or_default()) {
            Some(length) => at += length,
            None => return at,
        }
    }
    at
}

/// How long the comment, instruction or CDATA section is that the text starts with.
fn passed_over(text: &str) -> Option<usize> {
    let kinds = [("<!--", "-->"), ("<?", "?>"), ("<![CDATA[", "]]>")];
    let (start, end) = kinds.iter().find(|(start, _)| text.starts_with(start))?;
    let inside = text.get(start.len()..)?.find(end)?;
    Some(start.len() + inside + end.len())
}
