//! The tags of a schema as a tree, and the texts of its annotations.

use crate::document::Document;
use crate::xml::{Event, EventKind};

/// A tag with what stands inside it.
pub struct Node<'d> {
    document: &'d Document,
    event: &'d Event,
    /// Its number among the events.
    pub index: usize,
    /// The tags directly inside.
    pub children: Vec<Node<'d>>,
    /// The byte of its close.
    end: usize,
}

impl<'d> Node<'d> {
    /// The root of a document, whose tags all have their closes.
    pub fn root(document: &'d Document) -> Option<Node<'d>> {
        let mut open: Vec<Node<'d>> = Vec::new();
        let mut done = None;
        for (index, event) in document.events().iter().enumerate() {
            let node = match event.kind {
                EventKind::Start => {
                    open.push(Node::new(document, event, index));
                    continue;
                }
                EventKind::Empty => Some(Node::new(document, event, index)),
                EventKind::Close => open.pop().map(|node| Node {
                    end: event.at,
                    ..node
                }),
            };
            match open.last_mut() {
                Some(parent) => parent.children.extend(node),
                None => done = node,
            }
        }
        done
    }

    fn new(document: &'d Document, event: &'d Event, index: usize) -> Node<'d> {
        Node {
            document,
            event,
            index,
            children: Vec::new(),
            end: event.at,
        }
    }

    /// The name of the tag, after its last colon.
    pub fn name(&self) -> &'d str {
        self.document.local(self.event)
    }

    /// The byte of the tag.
    pub fn at(&self) -> usize {
        self.event.at
    }

    /// The value of an attribute as it is written.
    pub fn attribute(&self, word: &str) -> Option<&'d str> {
        let found = self.document.attribute(self.event, word);
        found.map(|(value, _)| value)
    }

    /// Its attributes as they are written.
    pub fn attributes(&self) -> impl Iterator<Item = (&'d str, &'d str)> {
        let found = self.document.attributes(self.event);
        found.map(|(key, value, _)| (key, value))
    }

    /// The first child of this name.
    pub fn child(&self, name: &str) -> Option<&Node<'d>> {
        self.children.iter().find(|child| child.name() == name)
    }

    /// Every node of the tree, this one first.
    pub fn all(&self) -> Vec<&Node<'d>> {
        let mut found = vec![self];
        let mut next = 0;
        while let Some(node) = found.get(next).copied() {
            found.extend(node.children.iter());
            next += 1;
        }
        found
    }

    /// What its annotations say, each text on one line.
    pub fn documentation(&self) -> Vec<String> {
        let annotations = self.children.iter().filter(|c| c.name() == "annotation");
        let texts = annotations.flat_map(|annotation| annotation.children.iter());
        let texts = texts.filter(|c| c.name() == "documentation");
        let texts = texts.map(|c| one_line(&unescaped(&c.text())));
        texts.filter(|text| !text.is_empty()).collect()
    }

    /// The text between the tag and its close, tags, comments and instructions left out.
    fn text(&self) -> String {
        let whole = self.document.text();
        let last = self.document.attributes(self.event).last();
        let behind = last.map_or(self.event.name.end, |(_, value, at)| at + value.len() + 1);
        let rest = whole.get(behind..self.end).unwrap_or_default();
        let inside = rest.split_once('>').map_or("", |(_, inside)| inside);
        let mut text = String::new();
        let mut rest = inside;
        while let Some((before, tag)) = rest.split_once('<') {
            text.push_str(before);
            let end = match tag.starts_with("!--") {
                true => "-->",
                false => ">",
            };
            rest = tag.split_once(end).map_or("", |(_, behind)| behind);
        }
        text + rest
    }
}

/// Runs of white space as one space, none at the ends.
fn one_line(text: &str) -> String {
    let words: Vec<&str> = text.split_whitespace().collect();
    words.join(" ")
}

/// A text with its references replaced: the five entities of XML and characters. Others stay.
pub fn unescaped(text: &str) -> String {
    let mut out = String::new();
    let mut rest = text;
    while let Some((before, behind)) = rest.split_once('&') {
        out.push_str(before);
        let found = behind.split_once(';');
        match found.and_then(|(name, rest)| Some((referred(name)?, rest))) {
            Some((c, behind)) => {
                out.push(c);
                rest = behind;
            }
            None => {
                out.push('&');
                rest = behind;
            }
        }
    }
    out + rest
}

fn referred(name: &str) -> Option<char> {
    match name {
        "amp" => Some('&'),
        "lt" => Some('<'),
        "gt" => Some('>'),
        "quot" => Some('"'),
        "apos" => Some('\''),
        _ => {
            let number = name.strip_prefix('#')?;
            let code = match number.strip_prefix('x') {
                Some(digits) => u32::from_str_radix(digits, 16),
                None => number.parse(),
            };
            char::from_u32(code.ok()?)
        }
    }
}
