//! Messages made at random from a schema itself: from its tags, not from the graph.

use std::collections::HashMap;
use std::fmt::Write;
use std::path::Path;

use quick_xml::events::{BytesStart, Event};
use quick_xml::Reader;

use super::Random;

/// A tag of a schema.
#[derive(Clone, Debug, Default)]
pub struct Tag {
    pub name: String,
    pub attributes: HashMap<String, String>,
    pub children: Vec<Tag>,
    /// Its number in the file.
    pub number: usize,
}

impl Tag {
    fn new(start: &BytesStart<'_>, number: usize) -> Tag {
        let text = |bytes: &[u8]| String::from_utf8(bytes.to_vec()).unwrap();
        let attributes = start.attributes().map(|attribute| {
            let attribute = attribute.unwrap();
            let value = attribute.unescape_value().unwrap().into_owned();
            (text(attribute.key.as_ref()), value)
        });
        Tag {
            name: text(start.local_name().as_ref()),
            attributes: attributes.collect(),
            children: Vec::new(),
            number,
        }
    }

    fn get(&self, key: &str) -> Option<&str> {
        self.attributes.get(key).map(String::as_str)
    }

    fn child(&self, name: &str) -> Option<&Tag> {
        self.children.iter().find(|child| child.name == name)
    }

    /// minOccurs and maxOccurs; no bound is a large one.
    fn occurs(&self) -> (usize, usize) {
        let number = |key: &str| match self.get(key) {
            Some("unbounded") => usize::MAX,
            Some(text) => text.trim().parse().unwrap(),
            None => 1,
        };
        (number("minOccurs"), number("maxOccurs"))
    }
}

/// The tags of a file.
fn tree(file: &Path) -> Tag {
    let text = std::fs::read_to_string(file).unwrap();
    let mut reader = Reader::from_str(text.trim_start_matches('\u{FEFF}'));
    let (mut open, mut number) = (vec![Tag::default()], 0);
    loop {
        number += 1;
        match reader.read_event().unwrap() {
            Event::Start(start) => open.push(Tag::new(&start, number)),
            Event::Empty(start) => open
                .last_mut()
                .unwrap()
                .children
                .push(Tag::new(&start, number)),
            Event::End(_) => {
                let done = open.pop().unwrap();
                open.last_mut().unwrap().children.push(done);
            }
            Event::Eof => return open.pop().unwrap().children.pop().unwrap(),
            _ => {}
        }
    }
}

/// Leaves out prefixes of the schema's own namespace before names of types, and elements that name no type, which no bindings have.
fn follow(tag: &mut Tag, own: &[String]) {
    for key in ["type", "base"] {
        if let Some(kind) = tag.attributes.get_mut(key) {
            let local = own
                .iter()
                .find_map(|prefix| kind.strip_prefix(prefix.as_str()));
            *kind = local.unwrap_or(kind).to_owned();
        }
    }
    tag.children
        .retain(|inner| inner.name != "element" || inner.get("type").is_some());
    tag.children.iter_mut().for_each(|inner| follow(inner, own));
}

/// What stands where the schema leaves a choice.
#[derive(Clone, Copy, Debug, PartialEq, Eq)]
pub enum Mode {
    /// What is required alone.
    Required,
    /// Everything, lists of two.
    Everything,
    /// Each time another branch, and lists of 0, 1 and many.
    Turns,
    Random,
}

/// A simple type's facet that is to be broken: the name of the type, the facet and its number among the type's facets.
pub type Target = (String, String, usize);

/// Makes messages of one schema.
pub struct Messages {
    types: HashMap<String, Tag>,
    root: (String, String),
    namespace: String,
    qualified: bool,
    random: Random,
    /// How often each choice of the schema was made, by the number of its tag.
    turns: HashMap<usize, Vec<usize>>,
}

/// A message: as it is given to the reader, and in canonical form.
pub struct Message {
    pub text: String,
    pub canonical: String,
    /// The facet that was to be broken is.
    pub broken: bool,
}

struct Making<'m> {
    message: Message,
    mode: Mode,
    depth: usize,
    elements: usize,
    target: Option<&'m Target>,
}

/// From so many elements on only what is required follows.
const MOST_ELEMENTS: usize = 2_500;
const FEW_ELEMENTS: usize = 500;
const MANY: usize = 3;

impl Messages {
    pub fn of(file: &Path, seed: u64) -> Messages {
        let mut schema = tree(file);
        let namespace = schema.get("targetNamespace").unwrap_or_default().to_owned();
        let bound = schema.attributes.iter();
        let own = bound.filter(|(key, value)| key.starts_with("xmlns:") && **value == namespace);
        let own: Vec<String> = own
            .map(|(key, _)| key.replace("xmlns:", "") + ":")
            .collect();
        follow(&mut schema, &own);
        let named = |name: &'static str| {
            schema
                .children
                .iter()
                .filter(move |tag| tag.name.ends_with(name))
        };
        let types = named("Type").map(|tag| (tag.get("name").unwrap().to_owned(), tag.clone()));
        let root = named("element").next().unwrap();
        Messages {
            types: types.collect(),
            root: (
                root.get("name").unwrap().to_owned(),
                root.get("type").unwrap().to_owned(),
            ),
            namespace,
            qualified: schema.get("elementFormDefault") == Some("qualified"),
            random: Random(seed),
            turns: HashMap::new(),
        }
    }

    /// The Rust name of the root's type.
    pub fn root_type(&self) -> String {
        self.root.1.clone()
    }

    /// Every facet of every simple type.
    pub fn targets(&self) -> Vec<Target> {
        let mut found = Vec::new();
        for (name, tag) in &self.types {
            let facets = tag
                .child("restriction")
                .map(|tag| tag.children.as_slice())
                .unwrap_or_default();
            let facets = facets
                .iter()
                .filter(|facet| facet.name != "annotation" && facet.name != "whiteSpace");
            for (number, facet) in facets.enumerate() {
                if is_checked(facet) && (facet.name != "enumeration" || number == 0) {
                    found.push((name.clone(), facet.name.clone(), number));
                }
            }
        }
        found.sort();
        found
    }

    /// Every branch of every choice that was met has had its turn.
    pub fn had_all_turns(&self) -> bool {
        self.turns
            .values()
            .all(|counts| counts.iter().all(|&count| count > 0))
    }

    pub fn message(&mut self, mode: Mode, target: Option<&Target>) -> Message {
        let (text, canonical, broken) = (String::new(), String::new(), false);
        let mut making = Making {
            message: Message {
                text,
                canonical,
                broken,
            },
            mode,
            depth: 0,
            elements: 0,
            target,
        };
        let (name, kind) = self.root.clone();
        let space = |prefix: &str| match self.namespace.is_empty() {
            true => String::new(),
            false => format!(" xmlns{prefix}=\"{}\"", self.namespace),
        };
        let (name, space) = match self.qualified || self.namespace.is_empty() {
            true => (name, space("")),
            false => (format!("n:{name}"), space(":n")),
        };
        making
            .message
            .text
            .push_str("<?xml version=\"1.0\"?>\n<!-- made -->\n");
        self.element(&mut making, (&name, &space), &kind);
        making.message
    }

    /// One of `count` ways: the one that had the fewest turns, or by the mode.
    fn turn(&mut self, number: usize, count: usize, mode: Mode) -> usize {
        let counts = self.turns.entry(number).or_insert_with(|| vec![0; count]);
        let least = counts.iter().min().copied().unwrap_or(0);
        let way = match mode {
            Mode::Required | Mode::Turns => {
                counts.iter().position(|&count| count == least).unwrap()
            }
            _ => self.random.below(count),
        };
        counts[way] += 1;
        way
    }

    fn element(&mut self, making: &mut Making<'_>, (name, space): (&str, &str), kind: &str) {
        making.elements += 1;
        making.depth += 1;
        let (attributes, simple) = self.head(making, kind);
        let tag = format!("<{name}{space}{attributes}>");
        for out in [&mut making.message.text, &mut making.message.canonical] {
            out.push_str(&tag);
        }
        match simple {
            Some(kind) => {
                let value = self.value(making, &kind);
                let escaped = value
                    .replace('&', "&amp;")
                    .replace('<', "&lt;")
                    .replace('>', "&gt;");
                let shown = match self.random.below(8) {
                    0 if !value.is_empty() && !value.contains("]]>") => {
                        format!("<![CDATA[{value}]]>")
                    }
                    1 if value == "true" => "1".to_owned(),
                    1 if value == "false" => "0".to_owned(),
                    _ => escaped.clone(),
                };
                making.message.text.push_str(&shown);
                making.message.canonical.push_str(&escaped);
            }
            None => {
                let tags = self
                    .types
                    .get(kind)
                    .map(|tag| tag.children.clone())
                    .unwrap_or_default();
                for tag in tags
                    .iter()
                    .filter(|tag| tag.name == "sequence" || tag.name == "choice")
                {
                    self.group(making, tag);
                    making.message.text.push('\n');
                }
            }
        }
        making.depth -= 1;
        for out in [&mut making.message.text, &mut making.message.canonical] {
            let _ = write!(out, "</{name}>");
        }
    }

    /// The attributes of an element of a type, and the simple type of its text; none where elements stand inside.
    fn head(&mut self, making: &mut Making<'_>, kind: &str) -> (String, Option<String>) {
        let Some(tag) = self.types.get(kind).cloned() else {
            return (String::new(), Some(kind.to_owned()));
        };
        if tag.name == "simpleType" {
            return (String::new(), Some(kind.to_owned()));
        }
        let Some(extension) = tag
            .child("simpleContent")
            .and_then(|tag| tag.child("extension"))
        else {
            return (String::new(), None);
        };
        let mut attributes = String::new();
        for attribute in extension
            .children
            .iter()
            .filter(|tag| tag.name == "attribute")
        {
            let required = attribute.get("use") == Some("required");
            let there = match making.mode {
                Mode::Required => false,
                Mode::Everything => true,
                _ => self.random.below(2) == 0,
            };
            if (required || there) && attribute.get("use") != Some("prohibited") {
                let value = self.value(making, attribute.get("type").unwrap());
                let value = value
                    .replace('&', "&amp;")
                    .replace('<', "&lt;")
                    .replace('"', "&quot;");
                let _ = write!(
                    attributes,
                    " {}=\"{value}\"",
                    attribute.get("name").unwrap()
                );
            }
        }
        (attributes, extension.get("base").map(str::to_owned))
    }

    fn group(&mut self, making: &mut Making<'_>, group: &Tag) {
        let parts: Vec<&Tag> = group
            .children
            .iter()
            .filter(|tag| tag.name != "annotation")
            .collect();
        for _ in 0..self.times(making, group) {
            match group.name.as_str() {
                "choice" => {
                    let shallow = |tag: &&&Tag| self.ends(tag);
                    let few: Vec<&Tag> = match making.depth > 16 {
                        true => parts.iter().filter(shallow).copied().collect(),
                        false => Vec::new(),
                    };
                    match few.is_empty() {
                        true => {
                            let way = self.turn(group.number, parts.len(), making.mode);
                            self.part(making, parts[way]);
                        }
                        false => self.part(making, few[0]),
                    }
                }
                _ => parts.iter().for_each(|part| self.part(making, part)),
            }
        }
    }

    /// The element is of a simple type.
    fn ends(&self, tag: &Tag) -> bool {
        let kind = tag.get("type").unwrap_or_default();
        self.types
            .get(kind)
            .is_none_or(|tag| tag.name == "simpleType")
    }

    fn part(&mut self, making: &mut Making<'_>, tag: &Tag) {
        match tag.name.as_str() {
            "sequence" | "choice" => self.group(making, tag),
            "element" => {
                for _ in 0..self.times(making, tag) {
                    if self.random.below(3) == 0 {
                        making.message.text.push_str("\n  ");
                    }
                    self.element(
                        making,
                        (tag.get("name").unwrap(), ""),
                        tag.get("type").unwrap(),
                    );
                }
            }
            "any" => {}
            other => panic!("{other}"),
        }
    }

    /// How often an element or group stands there.
    fn times(&mut self, making: &Making<'_>, tag: &Tag) -> usize {
        let (least, most) = tag.occurs();
        let enough = match (making.mode, making.target) {
            (Mode::Everything, None) => MOST_ELEMENTS,
            _ => FEW_ELEMENTS,
        };
        let full = making.elements > enough || making.depth > 16;
        if full || least == most {
            return least;
        }
        let many = most.min(least + MANY);
        match making.mode {
            Mode::Required => least,
            Mode::Everything => most.min(least.max(if making.elements < 500 { 2 } else { 1 })),
            Mode::Turns => least + self.turn(tag.number, many - least + 1, Mode::Turns),
            Mode::Random => least + self.random.below(many - least + 1),
        }
    }

    /// A value of a simple type, broken where it is to be.
    fn value(&mut self, making: &mut Making<'_>, kind: &str) -> String {
        let target = making
            .target
            .filter(|target| target.0 == kind && !making.message.broken);
        let Some(tag) = self.types.get(kind).cloned() else {
            let base = kind.rsplit(':').next().unwrap();
            return self.of_base(base, &Facets::default());
        };
        let restriction = tag.child("restriction").unwrap();
        let base = restriction.get("base").unwrap().rsplit(':').next().unwrap();
        let facets = Facets::of(restriction);
        match target {
            None => self.of_base(base, &facets),
            Some((_, facet, number)) => {
                making.message.broken = true;
                self.broken(base, &facets, (facet, *number))
            }
        }
    }

    fn of_base(&mut self, base: &str, facets: &Facets) -> String {
        if !facets.codes.is_empty() {
            return facets.codes[self.random.below(facets.codes.len())].clone();
        }
        match base {
            "boolean" => ["true", "false"][self.random.below(2)].to_owned(),
            "decimal" | "integer" | "int" | "long" | "nonNegativeInteger" | "positiveInteger" => {
                self.decimal(base, facets)
            }
            "date" => format!(
                "20{:02}-0{}-1{}",
                self.random.below(100),
                1 + self.random.below(9),
                self.random.below(10)
            ),
            "dateTime" => {
                let zones = ["", "Z", "+01:00", "-12:30"];
                let zone = zones[self.random.below(zones.len())];
                format!(
                    "2024-02-29T1{}:0{}:59.{}{zone}",
                    self.random.below(10),
                    self.random.below(10),
                    self.random.below(1000)
                )
            }
            "time" => "23:59:59".to_owned(),
            "gYear" => "2024".to_owned(),
            "gYearMonth" => "2024-02".to_owned(),
            "base64Binary" => {
                let least = facets.number("minLength").unwrap_or(1).max(1);
                "QUJD".repeat(least.div_ceil(3))
            }
            _ => self.text(facets),
        }
    }

    fn decimal(&mut self, base: &str, facets: &Facets) -> String {
        let total = facets.number("totalDigits").unwrap_or(9);
        let fraction = match base {
            "decimal" => facets
                .number("fractionDigits")
                .unwrap_or(2)
                .min(total.saturating_sub(1)),
            _ => 0,
        };
        let most = facets
            .number("maxInclusive")
            .or(facets.number("maxExclusive").map(|bound| bound - 1));
        let least = facets
            .number("minInclusive")
            .or(facets.number("minExclusive").map(|bound| bound + 1));
        let least = least.unwrap_or(1);
        let whole = match most {
            Some(most) => least + self.random.below(most.saturating_sub(least).max(1)),
            None => {
                least.max(1)
                    + self
                        .random
                        .below(10usize.pow((total - fraction).min(6) as u32) - 1)
            }
        };
        match self.random.below(3) {
            0 if fraction > 0 && most.is_none_or(|most| whole < most) => {
                let digits: String = (0..fraction)
                    .map(|_| char::from(b'1' + self.random.below(9) as u8))
                    .collect();
                let whole = whole % 10usize.pow((total - fraction).min(6) as u32);
                format!("{whole}.{digits}")
            }
            _ => whole.to_string(),
        }
    }

    fn text(&mut self, facets: &Facets) -> String {
        if let Some(pattern) = facets.patterns.first() {
            return self.matching(pattern);
        }
        let exact = facets.number("length");
        let least = exact.or(facets.number("minLength")).unwrap_or(0);
        let most = exact
            .or(facets.number("maxLength"))
            .unwrap_or(least + 20)
            .min(least + 60);
        let length = least + self.random.below(most - least + 1);
        const LETTERS: [char; 12] = ['a', 'B', '0', ' ', '&', '<', '>', '"', '\'', '-', 'é', '€'];
        (0..length)
            .map(|_| LETTERS[self.random.below(LETTERS.len())])
            .collect()
    }

    /// A value that one facet does not allow.
    fn broken(&mut self, base: &str, facets: &Facets, (facet, number): (&str, usize)) -> String {
        let limit = facets
            .all
            .get(number)
            .and_then(|(_, value)| value.parse::<usize>().ok())
            .unwrap_or(0);
        match facet {
            "minLength" if base == "base64Binary" => String::new(),
            "maxLength" if base == "base64Binary" => "QUJD".repeat(limit / 3 + 1),
            "minLength" | "length" => "x".repeat(limit.saturating_sub(1)),
            "maxLength" => "x".repeat(limit + 1),
            "totalDigits" => "9".repeat(limit + 1),
            "fractionDigits" => format!("1.{}", "1".repeat(limit + 1)),
            "minInclusive" => "-1".to_owned(),
            "maxInclusive" => {
                let bound = facets
                    .all
                    .get(number)
                    .map_or("", |(_, value)| value.as_str());
                format!("1{}", "0".repeat(bound.split('.').next().unwrap().len()))
            }
            "minExclusive" | "maxExclusive" => limit.to_string(),
            _ => {
                let good = self.of_base(base, facets);
                [format!("{good}~"), format!("~{good}"), "~".to_owned()][self.random.below(3)]
                    .clone()
            }
        }
    }

    /// A text that matches a pattern of classes, groups, branches and counts.
    fn matching(&mut self, pattern: &str) -> String {
        let chars: Vec<char> = pattern.chars().collect();
        let (mut at, mut out) = (0, String::new());
        self.branches(&chars, &mut at, &mut out);
        out
    }

    fn branches(&mut self, chars: &[char], at: &mut usize, out: &mut String) {
        let mut ways = vec![String::new()];
        while let Some(&c) = chars.get(*at) {
            match c {
                ')' => break,
                '|' => {
                    *at += 1;
                    ways.push(String::new());
                }
                _ => {
                    let mut last = ways.pop().unwrap();
                    self.piece(chars, at, &mut last);
                    ways.push(last);
                }
            }
        }
        *at += 1;
        out.push_str(&ways[self.random.below(ways.len())]);
    }

    fn piece(&mut self, chars: &[char], at: &mut usize, out: &mut String) {
        let start = *at;
        let mut once = String::new();
        self.atom(chars, at, &mut once);
        let end = *at;
        let (least, most) = counts(chars, at);
        let times = least + self.random.below(most.min(least + 4) - least + 1);
        let behind = *at;
        for _ in 0..times {
            let mut again = start;
            self.atom(chars, &mut again, out);
            assert_eq!(again, end);
        }
        *at = behind;
    }

    fn atom(&mut self, chars: &[char], at: &mut usize, out: &mut String) {
        let c = chars[*at];
        *at += 1;
        match c {
            '(' => self.branches(chars, at, out),
            '[' => {
                let letters = class(chars, at);
                out.push(letters[self.random.below(letters.len())]);
            }
            '\\' => {
                out.push(match chars[*at] {
                    'd' => '7',
                    's' => ' ',
                    'c' | 'i' | 'w' => 'a',
                    c => c,
                });
                *at += 1;
            }
            '.' => out.push('x'),
            c => out.push(c),
        }
    }
}

/// A pattern that the library does not judge is not checked by the bindings.
fn is_checked(facet: &Tag) -> bool {
    let value = facet.get("value").unwrap_or_default();
    let aside = ["-[", "\\p", "\\P"].iter().any(|part| value.contains(part));
    facet.name != "pattern" || !aside
}

/// The letters of a class without a `^`.
fn class(chars: &[char], at: &mut usize) -> Vec<char> {
    let mut letters: Vec<char> = Vec::new();
    while chars[*at] != ']' {
        let c = chars[*at];
        *at += 1;
        match c {
            '\\' => {
                letters.push(chars[*at]);
                *at += 1;
            }
            '-' if !letters.is_empty() && chars[*at] != ']' => {
                let from = *letters.last().unwrap();
                letters.extend((from..=chars[*at]).skip(1));
                *at += 1;
            }
            c => letters.push(c),
        }
    }
    *at += 1;
    letters
}

/// The count behind an atom.
fn counts(chars: &[char], at: &mut usize) -> (usize, usize) {
    let one = match chars.get(*at) {
        Some('?') => (0, 1),
        Some('*') => (0, 4),
        Some('+') => (1, 4),
        Some('{') => {
            let rest: String = chars[*at + 1..].iter().collect();
            let inside = rest.split_once('}').unwrap().0;
            *at += inside.chars().count() + 2;
            let (least, most) = inside.split_once(',').unwrap_or((inside, inside));
            let least = least.parse().unwrap();
            return (least, most.parse().unwrap_or(least + 4));
        }
        _ => return (1, 1),
    };
    *at += 1;
    one
}

/// The facets of a restriction.
#[derive(Default)]
struct Facets {
    all: Vec<(String, String)>,
    codes: Vec<String>,
    patterns: Vec<String>,
}

impl Facets {
    fn of(restriction: &Tag) -> Facets {
        let mut facets = Facets::default();
        let tags = restriction.children.iter();
        for tag in tags.filter(|tag| tag.name != "annotation" && tag.name != "whiteSpace") {
            let value = tag.get("value").unwrap().to_owned();
            match tag.name.as_str() {
                "enumeration" => facets.codes.push(value.clone()),
                "pattern" => facets.patterns.push(value.clone()),
                _ => {}
            }
            facets.all.push((tag.name.clone(), value));
        }
        facets
    }

    fn number(&self, name: &str) -> Option<usize> {
        let found = self.all.iter().find(|(facet, _)| facet == name);
        found.and_then(|(_, value)| value.parse().ok())
    }
}
