//! Schema events, the tape that stands for them, and their XML text.

/// A tag: its name and its attributes, keys and values in order.
#[derive(Clone, Debug, PartialEq, Eq)]
pub struct Tag {
    pub name: String,
    pub attributes: Vec<(String, String)>,
}

impl Tag {
    /// The tag with these attributes, in order.
    pub fn of(name: &str, attributes: &[(&str, &str)]) -> Tag {
        let owned = |&(key, value): &(&str, &str)| (key.to_owned(), value.to_owned());
        Tag {
            name: name.to_owned(),
            attributes: attributes.iter().map(owned).collect(),
        }
    }
}

/// An event.
#[derive(Clone, Debug, PartialEq, Eq)]
pub enum Event {
    Start(Tag),
    Empty(Tag),
    Close,
}

/// A tape: the text and the marks.
#[derive(Clone, Debug, Default, PartialEq, Eq)]
pub struct Tape {
    pub text: Vec<u8>,
    pub marks: Vec<u32>,
}

impl Tape {
    /// The tape of `events`, each text put behind the one before.
    pub fn of(events: &[Event]) -> Tape {
        Tape::made(events, |_, _| None)
    }

    /// The tape of `events` in which a text that already stands somewhere is used again.
    pub fn shared(events: &[Event]) -> Tape {
        Tape::made(events, find)
    }

    fn made(events: &[Event], known: fn(&[u8], &[u8]) -> Option<usize>) -> Tape {
        let mut tape = Tape::default();
        for event in events {
            match event {
                Event::Start(tag) => tape.put_tag(1, tag, known),
                Event::Empty(tag) => tape.put_tag(2, tag, known),
                Event::Close => tape.marks.extend([3, 0]),
            }
        }
        tape
    }

    fn put_tag(&mut self, kind: u32, tag: &Tag, known: fn(&[u8], &[u8]) -> Option<usize>) {
        self.marks.extend([kind, tag.attributes.len() as u32]);
        let mut end = self.put_text(0, &tag.name, known);
        for (key, value) in &tag.attributes {
            end = self.put_text(end, key, known);
            end = self.put_text(end, value, known);
        }
    }

    /// Puts a pair for `piece` that starts at or after `from`; gives its end.
    fn put_text(
        &mut self,
        from: usize,
        piece: &str,
        known: fn(&[u8], &[u8]) -> Option<usize>,
    ) -> usize {
        let offset = match known(&self.text[from..], piece.as_bytes()) {
            Some(found) => from + found,
            None => {
                self.text.extend(piece.bytes());
                self.text.len() - piece.len()
            }
        };
        self.marks.extend([offset as u32, piece.len() as u32]);
        offset + piece.len()
    }
}

/// Where `piece` first stands in `text`.
fn find(text: &[u8], piece: &[u8]) -> Option<usize> {
    (0..=text.len()).find(|&at| text[at..].starts_with(piece))
}

/// The XML text of one start tag or empty tag; `last` is `>` or `/>`.
pub fn tag_xml(tag: &Tag, last: &str) -> String {
    let attributes: String = tag
        .attributes
        .iter()
        .map(|(key, value)| format!(" {key}=\"{value}\""))
        .collect();
    format!("<{}{attributes}{last}", tag.name)
}

/// The XML text of `events`, or none where they are outside the domain of the Rust: a tag that
/// cannot be written, or a close with no tag open.
pub fn xml(events: &[Event]) -> Option<String> {
    let mut open = Vec::new();
    let mut text = String::new();
    for event in events {
        text.push_str(&event_xml(event, &mut open)?);
    }
    Some(text)
}

fn event_xml<'a>(event: &'a Event, open: &mut Vec<&'a str>) -> Option<String> {
    match event {
        Event::Start(tag) => {
            open.push(&tag.name);
            is_writable(tag).then(|| tag_xml(tag, ">"))
        }
        Event::Empty(tag) => is_writable(tag).then(|| tag_xml(tag, "/>")),
        Event::Close => open.pop().map(|name| format!("</{name}>")),
    }
}

/// The tag can be written as XML 1.0 and is in the domain: names of characters up to U+017F, keys unique,
/// values without `<`, `"`, `&` and ASCII control bytes.
pub fn is_writable(tag: &Tag) -> bool {
    let keys: Vec<&String> = tag.attributes.iter().map(|(key, _)| key).collect();
    let unique = (0..keys.len()).all(|i| !keys[..i].contains(&keys[i]));
    unique
        && is_name(&tag.name)
        && tag
            .attributes
            .iter()
            .all(|(key, value)| is_name(key) && value.chars().all(is_plain))
}

/// An XML 1.0 name of characters up to U+017F.
fn is_name(text: &str) -> bool {
    let accented = |c: char| ('\u{C0}'..='\u{17F}').contains(&c) && c != '\u{D7}' && c != '\u{F7}';
    let first = |c: char| c.is_ascii_alphabetic() || c == '_' || c == ':' || accented(c);
    let later = |c: char| first(c) || c.is_ascii_digit() || matches!(c, '-' | '.' | '\u{B7}');
    text.chars().next().is_some_and(first) && text.chars().all(later)
}

fn is_plain(c: char) -> bool {
    (' '..='~').contains(&c) && !"<\"&".contains(c) || ('\u{80}'..='\u{17F}').contains(&c)
}

/// The events that `lines` writes: `<tag key=value>`, `<tag/>`, `</>`; a value may stand in `'`.
pub fn events(lines: &str) -> Vec<Event> {
    lines
        .split('<')
        .skip(1)
        .map(|piece| event(piece.rsplit_once('>').expect("a tag ends with >").0))
        .collect()
}

fn event(inside: &str) -> Event {
    if inside.starts_with('/') {
        return Event::Close;
    }
    match inside.strip_suffix('/') {
        Some(rest) => Event::Empty(tag(rest)),
        None => Event::Start(tag(inside)),
    }
}

fn tag(inside: &str) -> Tag {
    let (name, mut rest) = inside.split_once(' ').unwrap_or((inside, ""));
    let mut attributes = Vec::new();
    while let Some((key, after)) = rest.split_once('=') {
        let (value, left) = value(after);
        attributes.push((key.trim().to_owned(), value.to_owned()));
        rest = left;
    }
    Tag {
        name: name.to_owned(),
        attributes,
    }
}

/// The value at the start of `text`, and what stands behind it.
fn value(text: &str) -> (&str, &str) {
    match text.strip_prefix('\'') {
        Some(quoted) => quoted.split_once('\'').expect("a quote is closed"),
        None => text.split_once(' ').unwrap_or((text, "")),
    }
}
