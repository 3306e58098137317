//! Order 8: the schema of a sheet written back. The rows become a tree of tags first, then the tree a text.

use super::sheet::{good_lengths, Row, Sheet};
use super::state::State;
use super::xml::can_stand_in_quotes;
use super::{answer, Answer};

/// What a good sheet gives.
#[derive(Clone, Debug, PartialEq, Eq)]
pub enum Written {
    /// 12: no schema tag was read.
    NoRoot,
    /// 22: the first row with a value that no attribute holds.
    Unheld(usize),
    /// The text.
    Text(String),
}

/// The call: the answer and the text afterwards.
pub fn write(sheet: &Sheet, lent: &[u8]) -> (Answer, Vec<u8>) {
    if !good_lengths(sheet.lent()) || lent.len() > 65_536 {
        return (answer(1, 0), lent.to_vec());
    }
    match State::of(sheet) {
        None => (answer(2, 0), lent.to_vec()),
        Some(state) => answered(&written(&state), lent.len()),
    }
}

/// The answer and the text afterwards, with `lent` bytes lent, at most 65,536.
pub fn answered(written: &Written, lent: usize) -> (Answer, Vec<u8>) {
    let mut bytes = vec![0; lent];
    match written {
        Written::NoRoot => (answer(12, 0), bytes),
        Written::Unheld(row) => (answer(22, *row as u32), bytes),
        Written::Text(text) if text.len() > lent => (answer(23, 0), bytes),
        Written::Text(text) => {
            bytes[..text.len()].copy_from_slice(text.as_bytes());
            (answer(0, text.len() as u32), bytes)
        }
    }
}

/// What a good state gives.
pub fn written(state: &State) -> Written {
    if !state.root_seen {
        return Written::NoRoot;
    }
    let rows = finished(state);
    let unheld = |row: &Row| {
        !row.texts
            .iter()
            .all(|text| can_stand_in_quotes(text.as_bytes()))
    };
    match rows.iter().position(unheld) {
        Some(index) => Written::Unheld(1 + index),
        None => {
            let mut text = String::new();
            schema(rows).put(&mut text);
            Written::Text(text)
        }
    }
}

/// "a good sheet's finished part (all below row 0 but an open type)": the rows from row 1 on.
pub fn finished(state: &State) -> &[Row] {
    let is_type = |row: &Row| row.is_head() && row.tag != 2;
    let open = match state.context {
        2 | 3 => state.rows.iter().rposition(is_type),
        _ => None,
    };
    &state.rows[..open.unwrap_or(state.rows.len())]
}

/// A tag with its attributes; an empty tag, or one with tags between its start and its end.
struct Node {
    word: &'static str,
    attributes: Vec<(&'static str, String)>,
    inside: Option<Vec<Node>>,
}

/// "Elements, facets, `any` and `attribute` are empty tags"
fn empty(word: &'static str, attributes: Vec<(&'static str, String)>) -> Node {
    Node {
        word,
        attributes,
        inside: None,
    }
}

/// "all others open and close"
fn full(word: &'static str, attributes: Vec<(&'static str, String)>, inside: Vec<Node>) -> Node {
    Node {
        word,
        attributes,
        inside: Some(inside),
    }
}

impl Node {
    /// "tags prefixed `xs:`", "one space before each", "nothing stands between tags"
    fn put(&self, text: &mut String) {
        text.extend(["<xs:", self.word]);
        for (key, value) in &self.attributes {
            // "quotes double unless the value has one"
            let quote = if value.contains('"') { "'" } else { "\"" };
            text.extend([" ", key, "=", quote, value, quote]);
        }
        match &self.inside {
            None => text.push_str("/>"),
            Some(nodes) => {
                text.push('>');
                nodes.iter().for_each(|node| node.put(text));
                text.extend(["</xs:", self.word, ">"]);
            }
        }
    }
}

/// The whole schema; the first row is the namespace.
fn schema(rows: &[Row]) -> Node {
    let attributes = vec![
        ("xmlns:xs", "http://www.w3.org/2001/XMLSchema".to_owned()),
        ("targetNamespace", rows[0].texts[0].clone()),
    ];
    // Each element or type with the rows behind it that are its own.
    let items = rows[1..].chunk_by(|_, next| next.is_child());
    full("schema", attributes, items.map(item).collect())
}

/// An element or a type with its children.
fn item(rows: &[Row]) -> Node {
    let (head, children) = (&rows[0], &rows[1..]);
    let name = ("name", head.texts[0].clone());
    let nodes: Vec<Node> = children.iter().map(child).collect();
    let second = || head.texts[1].clone();
    let content = match head.tag {
        2 => return empty("element", vec![name, ("type", second())]),
        3 => {
            let restriction = full("restriction", vec![("base", second())], nodes);
            return full("simpleType", vec![name], vec![restriction]);
        }
        12 => full("sequence", Vec::new(), nodes),
        13 => full("choice", Vec::new(), nodes),
        14 => {
            let extension = full("extension", vec![("base", second())], nodes);
            full("simpleContent", Vec::new(), vec![extension])
        }
        15 => {
            let namespace = (head.a == 1).then(|| ("namespace", second()));
            let any = empty("any", namespace.into_iter().collect());
            full("sequence", Vec::new(), vec![any])
        }
        tag => unreachable!("tag {tag} is no finished item"),
    };
    full("complexType", vec![name], vec![content])
}

/// A facet, an element of a sequence or choice, an attribute.
fn child(row: &Row) -> Node {
    let facet = |word: &'static str, value: String| empty(word, vec![("value", value)]);
    let value = || row.texts[0].clone();
    let wide = || (u128::from(row.a) + (1 << 32) * u128::from(row.b)).to_string();
    let narrow = || row.a.to_string();
    let word = match row.tag {
        4 => return facet("enumeration", value()),
        5 => return facet("pattern", value()),
        6 => return facet("minLength", wide()),
        7 => return facet("maxLength", wide()),
        8 => return facet("minInclusive", value()),
        9 => return facet("maxInclusive", value()),
        10 => return facet("totalDigits", narrow()),
        11 => return facet("fractionDigits", narrow()),
        20 => "attribute",
        _ => "element",
    };
    let mut attributes = vec![("name", value()), ("type", row.texts[1].clone())];
    match row.tag {
        17 => attributes.extend([("minOccurs", narrow()), ("maxOccurs", row.b.to_string())]),
        18 => attributes.extend([
            ("minOccurs", narrow()),
            ("maxOccurs", "unbounded".to_owned()),
        ]),
        // "`use` only if required"
        20 if row.a == 1 => attributes.push(("use", "required".to_owned())),
        _ => {}
    }
    empty(word, attributes)
}
