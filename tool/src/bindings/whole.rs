//! For `diff`: what the bindings have no type for. Types inside elements and references to elements are followed where all in them is; of all else that
//! a message depends on there is the text.

use lubiksan::names::{local_name, map_builtin, normalize_type_name};
use lubiksan::{Builtin, Graph};

use super::make::{occurs, type_of, Maker};
use super::model::{Code, Kind, Rest, Type};
use super::rules;
use super::tree::{unescaped, Node};
use crate::notkept::{Kind as Lost, Place};

impl<'d> Maker<'d> {
    /// The name of an element that has no named type, and that of what it holds; none where that can't be followed.
    pub(super) fn held_otherwise(&mut self, node: &Node<'d>) -> Option<(&'d str, String)> {
        if let Some(to) = node.attribute("ref") {
            self.held.insert(node.index);
            return Some((local_name(to), self.referred(node, to)));
        }
        let name = node.attribute("name")?;
        let inner = types_in(node).find(|inner| is_followed(inner))?;
        self.held.insert(node.index);
        let kind = self.inner_kind(inner);
        // No name in Rust starts so.
        let rust = format!("#{}", inner.index);
        self.inner.push(Type {
            rust: rust.clone(),
            xml: String::new(),
            line: Some(self.line(inner)),
            docs: Vec::new(),
            inner: true,
            kind,
        });
        Some((name, rust))
    }

    /// What a reference to an element holds: the type of an element of this schema, or the name with its namespace.
    fn referred(&mut self, node: &Node<'d>, to: &'d str) -> String {
        let (prefix, local) = to.split_once(':').unwrap_or(("", to));
        if prefix.is_empty() || self.own.has(prefix) {
            let roots = self.root.children.iter();
            let mut roots = roots.filter(|root| root.attribute("name") == Some(local));
            let root = roots.find(|root| root.name() == "element");
            if let Some(kind) = root.and_then(|root| root.attribute("type")) {
                return self.reference(node, kind);
            }
        }
        let key = format!("xmlns:{prefix}");
        let mut bound = self.root.attributes();
        let namespace = bound.find(|(name, _)| *name == key);
        format!("{{{}}}{local}", namespace.map_or(prefix, |(_, it)| it))
    }

    fn inner_kind(&mut self, node: &Node<'d>) -> Kind {
        if node.name() == "simpleType" {
            return simple(node);
        }
        match node.child("simpleContent") {
            Some(_) => self.value(node),
            None => self.content(node, &std::collections::HashMap::new()),
        }
    }

    /// The text of a place that is in no type.
    pub(super) fn rest_of_place(&mut self, place: &Place<'_>) {
        let text_alone = matches!(place.kind, Lost::Default | Lost::Fixed | Lost::Key);
        let followed = place.type_name.is_some() && self.follows(place) && !text_alone;
        if followed || self.held.contains(&place.event) {
            return;
        }
        let kept = place.type_name.map(normalize_type_name);
        let owner = kept.map(|name| self.type_word(&name));
        let is_whole = |rest: &Rest| rest.owner == owner && rest.name == CONTENT;
        if owner.is_some() && self.rest.iter().any(is_whole) {
            return;
        }
        if let Some(node) = self.nodes.get(&place.event).copied() {
            match word_of(place.kind) {
                Some(word) => self.rest_of_attribute(owner, node, word),
                None => self.rest_of_tag(owner, node, named(node)),
            }
        }
    }

    /// The base of a list of codes.
    pub(super) fn rest_of_base(&mut self, name: &str, node: &Node<'d>) {
        let restriction = node.child("restriction").filter(|_| self.wanted.whole);
        let base = restriction.and_then(|node| node.attribute("base"));
        if let Some(base) = base {
            let mut types = Vec::new();
            self.rest.push(Rest {
                owner: Some(self.type_word(name)),
                name: "base".to_owned(),
                text: self.types_of(base, &mut types),
                types,
                line: self.line(node),
            });
        }
    }

    /// The text of a type that takes any content.
    pub(super) fn rest_of_content(&mut self, name: &str, node: &Node<'d>) {
        if self.wanted.whole {
            self.rest_of_tag(Some(self.type_word(name)), node, CONTENT.to_owned());
        }
    }

    fn rest_of_tag(&mut self, owner: Option<String>, node: &Node<'d>, name: String) {
        let mut types = Vec::new();
        // The name of a type is compared apart.
        let text = self.text_of(node, name == CONTENT, &mut types);
        self.rest.push(Rest {
            owner,
            name,
            text,
            types,
            line: self.line(node),
        });
    }

    fn rest_of_attribute(&mut self, owner: Option<String>, node: &Node<'d>, word: &str) {
        let Some(value) = node.attribute(word) else {
            return;
        };
        self.rest.push(Rest {
            owner,
            name: format!("{word} of {}", named(node)),
            text: unescaped(value),
            types: Vec::new(),
            line: self.line(node),
        });
    }

    /// What stands beside the types and roots, and what `form`, `block` and `final` say.
    pub(super) fn beside(&mut self, graph: &Graph<'_>) {
        let (root, all) = (self.root, self.root.all());
        let events = graph.types().filter_map(|found| found.event());
        let events = events.chain(graph.roots().filter_map(|root| root.event()));
        let kept: Vec<usize> = events.map(|event| event as usize).collect();
        for node in root
            .children
            .iter()
            .filter(|node| node.name() != "annotation")
        {
            if !kept.contains(&node.index) {
                self.rest_of_tag(None, node, named(node));
            }
        }
        for word in [
            "elementFormDefault",
            "attributeFormDefault",
            "blockDefault",
            "finalDefault",
        ] {
            self.rest_of_attribute(None, root, word);
        }
        for node in all {
            for word in ["form", "block", "final"] {
                self.rest_of_attribute(None, node, word);
            }
        }
    }

    /// A tag and what stands in it without annotations.
    fn text_of(&self, node: &Node<'d>, nameless: bool, types: &mut Vec<String>) -> String {
        let mut attributes: Vec<(&str, &str)> = node.attributes().collect();
        attributes
            .retain(|(key, value)| says_something(key, value) && !(nameless && *key == "name"));
        attributes.sort_unstable();
        let mut text = format!("<{}", node.name());
        for (key, value) in attributes {
            let value = match key {
                "type" | "base" | "itemType" | "memberTypes" => self.types_of(value, types),
                _ => unescaped(value),
            };
            text += &format!(" {key}=\"{value}\"");
        }
        let inner = node.children.iter();
        let inner = inner.filter(|inner| inner.name() != "annotation");
        let inner: String = inner
            .map(|inner| self.text_of(inner, false, types))
            .collect();
        match inner.is_empty() {
            true => text + "/>",
            false => format!("{text}>{inner}</{}>", node.name()),
        }
    }

    /// Names of types: `*` for each of the schema, which is compared apart.
    fn types_of(&self, names: &str, types: &mut Vec<String>) -> String {
        let mut shown = Vec::new();
        for name in names.split_whitespace() {
            shown.push(match type_of(name, &self.own, &self.known) {
                Some(known) => {
                    types.push(self.type_word(&known));
                    "*".to_owned()
                }
                None if map_builtin(name).is_some() => format!("xs:{}", local_name(name)),
                None => name.to_owned(),
            });
        }
        shown.join(" ")
    }
}

/// The name of the rest that is all of a type.
const CONTENT: &str = "any content";

/// An attribute that is no default of XML Schema, no name for editors and no prefix.
fn says_something(key: &str, value: &str) -> bool {
    match key {
        "minOccurs" | "maxOccurs" => value.trim() != "1",
        "use" => value != "optional",
        "nillable" | "abstract" | "mixed" => !matches!(value.trim(), "false" | "0"),
        _ => key != "id" && key != "xmlns" && !key.starts_with("xmlns:"),
    }
}

/// The attribute of which a place of this kind is.
fn word_of(kind: Lost) -> Option<&'static str> {
    match kind {
        Lost::Default => Some("default"),
        Lost::Fixed => Some("fixed"),
        Lost::Nillable => Some("nillable"),
        Lost::Abstract => Some("abstract"),
        Lost::Mixed => Some("mixed"),
        Lost::SubstitutionGroup => Some("substitutionGroup"),
        Lost::OccursOfSequence | Lost::OccursOfChoice => Some("maxOccurs"),
        _ => None,
    }
}

/// `attribute "a"`, `sequence`
fn named(node: &Node<'_>) -> String {
    let name = node.attribute("name").or_else(|| node.attribute("ref"));
    match name.filter(|_| !matches!(node.name(), "complexType" | "simpleType")) {
        Some(name) => format!(
            "{} {}",
            node.name(),
            crate::failure::quoted(local_name(name))
        ),
        None => node.name().to_owned(),
    }
}

fn types_in<'n, 'd>(node: &'n Node<'d>) -> impl Iterator<Item = &'n Node<'d>> {
    let inner = node.children.iter();
    inner.filter(|inner| matches!(inner.name(), "simpleType" | "complexType"))
}

/// A simple type without a name: codes where it has enumerations alone.
fn simple(node: &Node<'_>) -> Kind {
    let restriction = node.child("restriction");
    let facets = restriction.map(|node| node.children.as_slice());
    let facets = facets.unwrap_or_default().iter();
    let facets: Vec<&Node<'_>> = facets.filter(|tag| tag.name() != "annotation").collect();
    let code = |tag: &&Node<'_>| Code {
        rust: String::new(),
        xml: unescaped(tag.attribute("value").unwrap_or_default()),
        docs: Vec::new(),
    };
    if !facets.is_empty() && facets.iter().all(|tag| tag.name() == "enumeration") {
        return Kind::Codes(facets.iter().map(code).collect());
    }
    let base = restriction.and_then(|node| node.attribute("base"));
    match base.and_then(map_builtin) {
        Some(Builtin::Bool) => Kind::Boolean,
        _ => Kind::Text(rules::of_type(node)),
    }
}

/// All that stands in a type without a name is followed.
fn is_followed(node: &Node<'_>) -> bool {
    let (tags, words): (&[&str], &[&str]) = match node.name() {
        "complexType" => (&["sequence", "choice", "simpleContent"], &[]),
        "sequence" | "choice" => (
            &["element", "sequence", "choice"],
            &["minOccurs", "maxOccurs"],
        ),
        "element" => (
            &["simpleType", "complexType"],
            &["name", "type", "ref", "minOccurs", "maxOccurs"],
        ),
        "simpleContent" => (&["extension"], &[]),
        "extension" => (&["attribute"], &["base"]),
        "attribute" => (&[], &["name", "type", "use"]),
        "simpleType" => (&["restriction"], &[]),
        "restriction" => (&FACETS, &["base"]),
        _ => (&[], &["value"]),
    };
    let inner = node.children.iter();
    let mut inner = inner.filter(|inner| inner.name() != "annotation");
    let mut attributes = node.attributes();
    has_its_parts(node)
        && attributes.all(|(key, value)| words.contains(&key) || !says_something(key, value))
        && inner.all(|inner| tags.contains(&inner.name()) && is_followed(inner))
}

const FACETS: [&str; 12] = [
    "enumeration",
    "fractionDigits",
    "length",
    "maxExclusive",
    "maxInclusive",
    "maxLength",
    "minExclusive",
    "minInclusive",
    "minLength",
    "pattern",
    "totalDigits",
    "whiteSpace",
];

/// What stands in the tag is what such a tag is to have.
fn has_its_parts(node: &Node<'_>) -> bool {
    let named = |word: &str| node.attribute(word).is_some();
    match node.name() {
        "element" => [named("type"), named("ref"), types_in(node).count() == 1]
            .iter()
            .filter(|&&is| is)
            .count()
            .eq(&1),
        "sequence" | "choice" => occurs(node).most.is_some_and(|most| most <= 1),
        "attribute" => named("name") && named("type"),
        "complexType" | "simpleContent" | "simpleType" => {
            let inner = node.children.iter();
            inner.filter(|inner| inner.name() != "annotation").count() == 1
        }
        "restriction" => node.attribute("base").and_then(map_builtin).is_some(),
        _ => true,
    }
}
