//! Random documents with real structure, and changed forms of them.

use crate::random::Random;
use crate::tape::{Event, Tag};

const TAG_PREFIXES: [&str; 8] = ["", "", "", "", "xs:", "xs:", "a:b:", ":"];
const KEY_PREFIXES: [&str; 8] = ["", "", "", "", "", "", "x:", "xmlns:"];
const NAMES: [&str; 12] = [
    "A",
    "B",
    "A",
    "B",
    "AB",
    "a_b",
    "_",
    "",
    "Dt2Nm",
    "FooBARBaz",
    "x-Y",
    "date",
];
const TYPES: [&str; 12] = [
    "A",
    "B",
    "a_b",
    "string",
    "xs:int",
    "my:date",
    "dateTime",
    "xs:boolean",
    "my:a_b",
    "QName",
    "",
    "_x",
];
const BASES: [&str; 8] = [
    "string",
    "xs:decimal",
    "boolean",
    "my:date",
    "dateTime",
    "string",
    "token",
    "QName",
];
const CODES: [&str; 8] = [
    "ABC",
    "a-b",
    "",
    "TEST-VALUE",
    "TestValue",
    "-",
    "x9",
    "A_B",
];
const GOOD_NUMBERS: [&str; 8] = ["0", "1", "2", "35", "+7", "007", "4294967295", "1"];
const WIDE_NUMBERS: [&str; 4] = ["4294967296", "18446744073709551615", "5", "8589934593"];
/// Order 2 takes them, and the Rust does not.
const NEW_NUMBERS: [&str; 6] = ["-0", " 7", "7 ", "  35 ", " -000 ", " +1"];
const BAD_NUMBERS: [&str; 9] = [
    "",
    "+",
    "-1",
    "- 0",
    " ",
    "1_0",
    "x",
    "4294967296",
    "18446744073709551616",
];
const FACETS: [&str; 9] = [
    "enumeration",
    "enumeration",
    "pattern",
    "minLength",
    "maxLength",
    "minInclusive",
    "maxInclusive",
    "totalDigits",
    "fractionDigits",
];
const UNKNOWN: [&str; 9] = [
    "annotation",
    "documentation",
    "import",
    "group",
    "schema",
    "element",
    "attribute",
    "any",
    "x",
];

/// A document that begins with a schema most of the time.
pub fn document(random: &mut Random) -> Vec<Event> {
    let mut walk = Walk {
        random,
        events: Vec::new(),
    };
    walk.document();
    walk.events
}

/// The document with a few events taken out, doubled, swapped or of another kind.
pub fn messed(random: &mut Random) -> Vec<Event> {
    let mut events = document(random);
    for _ in 0..1 + random.below(3) {
        if events.len() < 2 {
            break;
        }
        mess_once(&mut events, random);
    }
    events
}

fn mess_once(events: &mut Vec<Event>, random: &mut Random) {
    let at = random.below(events.len() - 1);
    match random.below(4) {
        0 => drop(events.remove(at)),
        1 => events.insert(at, events[at].clone()),
        2 => events.swap(at, at + 1),
        _ => events[at] = other_kind(&events[at]),
    }
}

fn other_kind(event: &Event) -> Event {
    match event {
        Event::Start(tag) => Event::Empty(tag.clone()),
        Event::Empty(tag) => Event::Start(tag.clone()),
        Event::Close => Event::Close,
    }
}

/// A few events of any words, for states in the middle of a document.
pub fn odd_events(random: &mut Random, count: usize) -> Vec<Event> {
    let mut walk = Walk {
        random,
        events: Vec::new(),
    };
    for _ in 0..count {
        walk.any_event();
    }
    walk.events
}

struct Walk<'a> {
    random: &'a mut Random,
    events: Vec<Event>,
}

impl Walk<'_> {
    fn pick<'w>(&mut self, words: &[&'w str]) -> &'w str {
        words[self.random.below(words.len())]
    }

    /// True `times` out of a hundred times.
    fn chance(&mut self, times: usize) -> bool {
        self.random.below(100) < times
    }

    fn tag(&mut self, word: &str, attributes: Vec<(&str, String)>) -> Tag {
        let prefix = self.pick(&TAG_PREFIXES);
        let keyed = attributes
            .into_iter()
            .map(|(key, value)| (format!("{}{key}", self.pick(&KEY_PREFIXES)), value))
            .collect();
        Tag {
            name: format!("{prefix}{word}"),
            attributes: keyed,
        }
    }

    fn start(&mut self, word: &str, attributes: Vec<(&str, String)>) {
        let tag = self.tag(word, attributes);
        self.events.push(Event::Start(tag));
    }

    fn empty(&mut self, word: &str, attributes: Vec<(&str, String)>) {
        let tag = self.tag(word, attributes);
        self.events.push(Event::Empty(tag));
    }

    fn close(&mut self) {
        self.events.push(Event::Close);
    }

    /// The attribute, most of the time.
    fn maybe<'k>(&mut self, key: &'k str, words: &[&str], times: usize) -> Vec<(&'k str, String)> {
        let value = self.pick(words).to_owned();
        let there = self.chance(times);
        there.then_some((key, value)).into_iter().collect()
    }

    fn document(&mut self) {
        if self.chance(10) {
            self.unknown(0);
        }
        let namespace = self.maybe("targetNamespace", &["urn:x", "u", ""], 60);
        if self.chance(95) {
            self.start("schema", namespace);
        }
        for _ in 0..1 + self.random.below(4) {
            self.item();
        }
        if self.chance(70) {
            self.close();
        }
        if self.chance(15) {
            self.second_schema();
        }
    }

    fn second_schema(&mut self) {
        let namespace = self.maybe("targetNamespace", &["v", "urn:y"], 60);
        if self.chance(30) {
            self.empty("schema", namespace);
        } else {
            self.start("schema", namespace);
            self.item();
        }
    }

    fn item(&mut self) {
        match self.random.below(20) {
            0..=3 => self.top_element(),
            4..=9 => self.simple_type(),
            10..=17 => self.complex_type(),
            18 => self.unknown(0),
            _ => {
                let name = self.maybe("name", &NAMES, 50);
                let word = self.pick(&["simpleType", "complexType"]);
                self.empty(word, name);
            }
        }
    }

    fn name_and_type(&mut self) -> Vec<(&'static str, String)> {
        let mut attributes = self.maybe("name", &NAMES, 92);
        let typed = self.maybe("type", &TYPES, 92);
        let at = self.random.below(attributes.len() + 1);
        attributes.splice(at..at, typed);
        attributes
    }

    fn top_element(&mut self) {
        let attributes = self.name_and_type();
        if self.chance(10) {
            self.start("element", attributes);
            self.close();
        } else {
            self.empty("element", attributes);
        }
    }

    /// An unknown tag with what stands in it.
    fn unknown(&mut self, depth: usize) {
        let word = self.pick(&UNKNOWN);
        let attributes = self.name_and_type();
        if self.chance(40) {
            self.empty(word, attributes);
            return;
        }
        self.start(word, attributes);
        if depth < 2 && self.chance(40) {
            self.unknown(depth + 1);
        }
        self.close();
    }

    fn simple_type(&mut self) {
        let name = self.maybe("name", &NAMES, 97);
        self.start("simpleType", name);
        if self.chance(8) {
            self.unknown(0);
        }
        self.restriction();
        if self.chance(90) {
            self.close();
        }
    }

    fn restriction(&mut self) {
        let base = self.maybe("base", &BASES, 92);
        if self.chance(15) {
            self.empty("restriction", base);
            return;
        }
        self.start("restriction", base);
        let only_codes = self.chance(35);
        for _ in 0..self.random.below(4) {
            let word = if only_codes {
                "enumeration"
            } else {
                self.pick(&FACETS)
            };
            self.facet(word);
        }
        self.close();
    }

    fn facet(&mut self, word: &str) {
        let value = match word {
            "minLength" | "maxLength" if self.chance(30) => self.maybe("value", &WIDE_NUMBERS, 100),
            "minLength" | "maxLength" | "totalDigits" | "fractionDigits" => {
                self.number("value", 98)
            }
            _ => self.maybe("value", &CODES, 92),
        };
        if self.chance(5) {
            self.start(word, value);
            self.close();
        } else {
            self.empty(word, value);
        }
    }

    /// A number, a bad one or one in a spelling of order 2 now and then.
    fn number<'k>(&mut self, key: &'k str, times: usize) -> Vec<(&'k str, String)> {
        if self.chance(4) {
            self.maybe(key, &BAD_NUMBERS, times)
        } else if self.chance(3) {
            self.maybe(key, &NEW_NUMBERS, times)
        } else {
            self.maybe(key, &GOOD_NUMBERS, times)
        }
    }

    fn complex_type(&mut self) {
        let name = self.maybe("name", &NAMES, 97);
        self.start("complexType", name);
        if self.chance(8) {
            self.unknown(0);
        }
        for _ in 0..if self.chance(12) { 2 } else { 1 } {
            self.content();
        }
        if self.chance(90) {
            self.close();
        }
    }

    fn content(&mut self) {
        match self.random.below(10) {
            0..=3 => self.elements("sequence"),
            4..=5 => self.elements("choice"),
            6..=7 => self.simple_content(),
            8 => self.any(),
            _ => {
                if self.chance(50) {
                    self.empty("sequence", Vec::new());
                }
            }
        }
    }

    fn elements(&mut self, word: &str) {
        self.start(word, Vec::new());
        for _ in 0..self.random.below(4) {
            self.child_element();
        }
        if self.chance(8) {
            self.unknown(1);
        }
        if self.chance(8) {
            self.any();
        }
        self.close();
    }

    fn child_element(&mut self) {
        let mut attributes = self.name_and_type();
        if self.chance(50) {
            attributes.extend(self.number("minOccurs", 100));
        }
        if self.chance(30) {
            attributes.extend(self.maybe(
                "maxOccurs",
                &[
                    "unbounded",
                    "unbounded",
                    "unbounded",
                    "Unbounded",
                    " unbounded ",
                ],
                100,
            ));
        } else if self.chance(60) {
            attributes.extend(self.number("maxOccurs", 100));
        }
        if self.chance(15) {
            self.start("element", attributes);
            self.close();
        } else {
            self.empty("element", attributes);
        }
    }

    fn any(&mut self) {
        let namespace = self.maybe("namespace", &["##any", "", "n"], 60);
        self.empty("any", namespace);
    }

    fn simple_content(&mut self) {
        self.start("simpleContent", Vec::new());
        let base = self.maybe("base", &TYPES, 92);
        self.start("extension", base);
        for _ in 0..self.random.below(3) {
            self.attribute();
        }
        self.close();
        if self.chance(20) {
            self.attribute();
        }
        self.close();
    }

    fn attribute(&mut self) {
        let mut attributes = self.name_and_type();
        attributes.extend(self.maybe("use", &["required", "required", "optional", "Required"], 60));
        self.empty("attribute", attributes);
    }

    /// One event of any word that means something somewhere.
    fn any_event(&mut self) {
        match self.random.below(12) {
            0..=2 => self.close(),
            3 => self.child_element(),
            4 => self.attribute(),
            5 => self.any(),
            6 => {
                let word = self.pick(&FACETS);
                self.facet(word);
            }
            7 => {
                let base = self.maybe("base", &TYPES, 90);
                let word = self.pick(&["extension", "restriction"]);
                self.start(word, base);
            }
            8 => {
                let base = self.maybe("base", &TYPES, 90);
                self.empty("restriction", base);
            }
            9 => {
                let word = self.pick(&["sequence", "choice", "simpleContent"]);
                self.start(word, Vec::new());
            }
            10 => {
                let name = self.maybe("name", &NAMES, 90);
                let word = self.pick(&["simpleType", "complexType"]);
                self.start(word, name);
            }
            _ => {
                let namespace = self.maybe("targetNamespace", &["w"], 50);
                self.start("schema", namespace);
            }
        }
    }
}
