//! The model of a schema, from its graph for the names and from its tags for what the graph does not keep.

use std::collections::{BTreeSet, HashMap};

use lubiksan::names::{local_name, map_builtin, normalize_type_name, parse_u32, xml_to_snake_case};
use lubiksan::{Builtin, Graph, Refusal, TypeDef};

use super::bases::base;
use super::model::{Code, Field, Group, Kind, Many, Occurs, Part, Rest, Root, Schema, Type};
use super::own::Own;
use super::reach::{references_of, used_types};
use super::rules;
use super::tree::{unescaped, Node};
use crate::failure::{named, quoted, Failure};
use crate::identifier::{identifier, spelled};
use crate::notkept::{Kind as Lost, NotKept, Place};
use crate::source::Source;

/// What is asked for.
#[derive(Clone, Copy, Debug, Default, PartialEq, Eq)]
pub struct Wanted {
    /// Also the types that no root reaches.
    pub all: bool,
    /// What can't be followed is left out.
    pub lossy: bool,
    /// For comparing: elements with types inside and references to elements too, and the text of all that is left out.
    pub whole: bool,
}

/// The model of a schema.
///
/// # Errors
///
/// [`Failure::Refused`] with a line for each place that can't be followed.
pub fn schema(
    source: &Source,
    graph: &Graph<'_>,
    not_kept: &NotKept<'_>,
    wanted: Wanted,
) -> Result<Schema, Failure> {
    let Some(root) = Node::root(source.document()) else {
        return Err(Failure::Refused(format!(
            "{}: there is no tag",
            named(source.path())
        )));
    };
    let refused = |refusal| Failure::Refused(format!("{}: {refusal}", named(source.path())));
    let mut maker = Maker::new(source, graph, &root, wanted).map_err(refused)?;
    let types = maker.types(graph);
    maker.sort_places(not_kept);
    let roots = maker.roots(graph);
    if wanted.whole {
        maker.beside(graph);
    }
    let types = maker.with_builtins(types);
    maker.finished(graph, &root, roots, types)
}

/// Names that no type may have: what serde derives has `usize` without a path, and the others are those of the variables in the made code, which
/// can't have the name of a tuple struct.
const TAKEN: [&str; 13] = [
    "usize", "code", "f", "faults", "field", "found", "from", "inside", "number", "path", "text",
    "to", "value",
];

pub(super) struct Maker<'d> {
    source: &'d Source,
    pub(super) root: &'d Node<'d>,
    pub(super) nodes: HashMap<usize, &'d Node<'d>>,
    used: BTreeSet<String>,
    pub(super) known: BTreeSet<String>,
    pub(super) own: Own<'d>,
    pub(super) wanted: Wanted,
    /// The built-in types that fields have, and their Rust names.
    builtins: Vec<(String, String)>,
    followed: Vec<(usize, String)>,
    refused: Vec<(usize, String)>,
    /// For comparing: types inside elements, the numbers of the tags of these and of references, and what is left out.
    pub(super) inner: Vec<Type>,
    pub(super) held: BTreeSet<usize>,
    pub(super) rest: Vec<Rest>,
}

impl<'d> Maker<'d> {
    fn new(
        source: &'d Source,
        graph: &Graph<'_>,
        root: &'d Node<'d>,
        wanted: Wanted,
    ) -> Result<Maker<'d>, Refusal> {
        let nodes: HashMap<usize, &Node<'_>> = root
            .all()
            .into_iter()
            .map(|node| (node.index, node))
            .collect();
        let known: BTreeSet<String> = graph.types().map(|found| found.name().to_owned()).collect();
        let mut used = match wanted.all {
            true => known.clone(),
            false => used_types(graph)?,
        };
        let node_of = |found: &TypeDef<'_>| nodes.get(&(found.event()? as usize)).copied();
        let by_name: HashMap<&str, &Node<'_>> = graph
            .types()
            .filter_map(|found| Some((found.name(), node_of(&found)?)))
            .collect();
        // An element that the graph does not keep may be the only one of its type.
        let own = Own::of(source.document());
        let named = |kind: &str| type_of(kind, &own, &known);
        let roots = graph.roots().filter_map(|root| named(root.type_name));
        used.extend(roots);
        let mut rest: Vec<String> = used.iter().cloned().collect();
        while let Some(name) = rest.pop() {
            let node = by_name.get(name.as_str());
            let kinds = node.map(|node| references_of(node)).unwrap_or_default();
            for name in kinds.into_iter().filter_map(named) {
                if used.insert(name.clone()) {
                    rest.push(name);
                }
            }
        }
        Ok(Maker {
            source,
            root,
            nodes,
            used,
            known,
            own,
            wanted,
            builtins: Vec::new(),
            followed: Vec::new(),
            refused: Vec::new(),
            inner: Vec::new(),
            held: BTreeSet::new(),
            rest: Vec::new(),
        })
    }

    pub(super) fn line(&self, node: &Node<'_>) -> usize {
        self.source.line(node.at())
    }

    fn refuse(&mut self, at: usize, words: &str) {
        self.refused.push((at, self.source.at(at, words)));
    }

    fn types(&mut self, graph: &Graph<'_>) -> Vec<Type> {
        let mut types = Vec::new();
        for found in graph.types() {
            if !self.used.contains(found.name()) {
                continue;
            }
            let node = found
                .event()
                .and_then(|event| self.nodes.get(&(event as usize)).copied());
            let Some(node) = node else {
                let words = format!(
                    "{}: the tag of type {} is not known",
                    named(self.source.path()),
                    quoted(found.name())
                );
                self.refused.push((0, words));
                continue;
            };
            let kind = self.kind(&found, node);
            types.push(Type {
                rust: self.type_word(found.name()),
                xml: node.attribute("name").unwrap_or_default().to_owned(),
                line: Some(self.line(node)),
                docs: node.documentation(),
                inner: false,
                kind,
            });
        }
        types.append(&mut self.inner);
        types
    }

    fn kind(&mut self, found: &TypeDef<'_>, node: &Node<'d>) -> Kind {
        match found {
            TypeDef::CodeList(it) => {
                self.rest_of_base(found.name(), node);
                let tags = node
                    .child("restriction")
                    .map(|node| node.children.as_slice());
                let docs = |value: &str| {
                    let tags = tags.unwrap_or_default().iter();
                    let mut tags = tags.filter(|tag| tag.attribute("value") == Some(value));
                    tags.next().map(Node::documentation).unwrap_or_default()
                };
                let code = |code: lubiksan::Code<'_>| Code {
                    rust: spelled(code.rust_name),
                    xml: unescaped(code.xml_value),
                    docs: docs(code.xml_value),
                };
                Kind::Codes(it.codes().map(code).collect())
            }
            TypeDef::Newtype(it) if it.inner() == Builtin::Bool => Kind::Boolean,
            TypeDef::Newtype(_) => Kind::Text(rules::of_type(node)),
            TypeDef::Value(_) => self.value(node),
            TypeDef::Struct(_) => self.content(node, &HashMap::new()),
            TypeDef::Choice(it) => {
                let names = it.variants().map(|v| (v.xml_name, v.rust_name));
                self.content(node, &names.collect())
            }
            TypeDef::Opaque(_) => self.opaque(found.name(), node),
        }
    }

    /// A type that takes any content, or none at all.
    fn opaque(&mut self, name: &str, node: &Node<'d>) -> Kind {
        let tags = node.all();
        if let Some(any) = tags.iter().find(|tag| tag.name() == "any") {
            self.refuse(
                any.at(),
                &format!("in type {} any content can stand", quoted(name)),
            );
            self.rest_of_content(name, node);
            return Kind::Any;
        }
        let mut tags = tags.iter();
        if tags.any(|tag| matches!(tag.name(), "complexContent" | "all")) {
            self.rest_of_content(name, node);
            return Kind::Any;
        }
        self.content(node, &HashMap::new())
    }

    pub(super) fn value(&mut self, node: &Node<'d>) -> Kind {
        let extension = node
            .child("simpleContent")
            .and_then(|node| node.child("extension"));
        let tags = extension
            .map(|node| node.children.as_slice())
            .unwrap_or_default();
        let mut attributes = Vec::new();
        for tag in tags.iter().filter(|tag| tag.name() == "attribute") {
            let wanted = tag.attribute("use");
            let (Some(name), Some(kind)) = (tag.attribute("name"), tag.attribute("type")) else {
                continue;
            };
            if wanted == Some("prohibited") {
                continue;
            }
            let many = match wanted {
                Some("required") => Many::One,
                _ => Many::Maybe,
            };
            attributes.push(self.field(tag, name, kind, many));
        }
        let base = extension
            .and_then(|node| node.attribute("base"))
            .unwrap_or("xs:string");
        let mut text = self.field(node, "", base, Many::One);
        text.rust = "value".to_owned();
        while attributes.iter().any(|field| field.rust == text.rust) {
            text.rust.push('_');
        }
        text.docs.clear();
        Kind::Value(Box::new(text), attributes)
    }

    fn field(&mut self, tag: &Node<'d>, name: &str, kind: &str, many: Many) -> Field {
        let holds = self.reference(tag, kind);
        self.field_of(tag, name, holds, many)
    }

    fn field_of(&self, tag: &Node<'d>, name: &str, holds: String, many: Many) -> Field {
        Field {
            rust: spelled(&xml_to_snake_case(name)),
            xml: name.to_owned(),
            holds,
            many,
            occurs: Occurs::ONCE,
            inside: Occurs::ONCE,
            certain: true,
            line: self.line(tag),
            docs: tag.documentation(),
            boxed: false,
        }
    }

    /// The Rust type of a type's name in the schema.
    pub(super) fn reference(&mut self, tag: &Node<'d>, kind: &str) -> String {
        if let Some(name) = self.own.named(kind, &self.known) {
            let words = format!(
                "the type {} is the schema's own {}, the graph has none of that name",
                quoted(kind),
                quoted(&name)
            );
            self.followed
                .push((tag.at(), self.source.at(tag.at(), &words)));
            return self.type_word(&name);
        }
        if let Some(builtin) = map_builtin(kind) {
            return self.builtin(local_name(kind), builtin);
        }
        let name = normalize_type_name(kind);
        if !self.known.contains(&name) {
            self.refuse(tag.at(), &format!("the type {} is not there", quoted(kind)));
        }
        self.type_word(&name)
    }

    /// The Rust name of a type; one of [`TAKEN`] gets `_` behind it.
    pub(super) fn type_word(&self, name: &str) -> String {
        let mut word = spelled(name);
        if TAKEN.contains(&word.as_str()) {
            word.push('_');
            while self.known.iter().any(|known| spelled(known) == word) {
                word.push('_');
            }
        }
        word
    }

    fn builtin(&mut self, name: &str, builtin: Builtin) -> String {
        if self.wanted.whole {
            return format!("xs:{name}");
        }
        if builtin != Builtin::Bool && base(name).is_free() {
            return super::write::STRING.to_owned();
        }
        if let Some((_, rust)) = self.builtins.iter().find(|(known, _)| known == name) {
            return rust.clone();
        }
        let mut letters = name.chars();
        let first = letters.next().map(|c| c.to_ascii_uppercase());
        let mut rust: String = "Xs".chars().chain(first).chain(letters).collect();
        while self.known.iter().any(|known| identifier(known) == rust) {
            rust.push('_');
        }
        self.builtins.push((name.to_owned(), rust.clone()));
        rust
    }

    /// A sequence or choice: an enum where it is a choice of elements, each once; else a struct.
    pub(super) fn content(&mut self, node: &Node<'d>, variants: &HashMap<&str, &str>) -> Kind {
        let top = ["sequence", "choice"]
            .iter()
            .find_map(|name| node.child(name));
        let mut content = Content {
            maker: self,
            fields: Vec::new(),
        };
        let group = match top {
            Some(top) => content.group(top, true, false),
            None => content.empty(),
        };
        let mut fields = content.fields;
        self.no_two_fields(node, &fields);
        let once = |field: &Field| field.occurs == Occurs::ONCE;
        let element = |part: &Part| matches!(part, Part::Element(_));
        let plain = group.choice && group.required && group.parts.iter().all(element);
        if !plain || !fields.iter().all(once) || fields.is_empty() {
            return Kind::Struct(fields, group);
        }
        for field in &mut fields {
            field.many = Many::One;
            field.rust = match variants.get(field.xml.as_str()) {
                Some(name) => spelled(name),
                None => spelled(&capital(&field.xml)),
            };
        }
        Kind::Choice(fields)
    }

    fn no_two_fields(&mut self, node: &Node<'d>, fields: &[Field]) {
        let mut seen = BTreeSet::new();
        for field in fields
            .iter()
            .filter(|field| !seen.insert(field.rust.clone()))
        {
            let words = format!(
                "two elements of one type have the Rust name {}",
                quoted(&field.rust)
            );
            self.refused
                .push((node.at(), self.source.at(node.at(), &words)));
        }
    }

    fn roots(&mut self, graph: &Graph<'_>) -> Vec<Root> {
        let mut roots = Vec::new();
        for root in graph.roots() {
            let node = root
                .event()
                .and_then(|event| self.nodes.get(&(event as usize)).copied());
            let Some(node) = node else { continue };
            roots.push(Root {
                xml: root.xml_name.to_owned(),
                line: self.line(node),
                holds: self.reference(node, root.type_name),
            });
        }
        roots
    }

    /// The types with the built-in ones that their fields have.
    fn with_builtins(&self, mut types: Vec<Type>) -> Vec<Type> {
        for (name, rust) in &self.builtins {
            types.push(Type {
                rust: rust.clone(),
                xml: format!("xs:{name}"),
                line: None,
                docs: Vec::new(),
                inner: false,
                kind: match name.as_str() {
                    "boolean" => Kind::Boolean,
                    _ => Kind::Text(rules::of_builtin(name)),
                },
            });
        }
        types
    }

    /// The places of the used types: those that the bindings follow, and the others.
    fn sort_places(&mut self, not_kept: &NotKept<'_>) {
        for place in &not_kept.places {
            let name = place.type_name.map(normalize_type_name);
            if name.is_some_and(|name| !self.used.contains(&name)) {
                continue;
            }
            if self.wanted.whole {
                self.rest_of_place(place);
            }
            let line = (place.at, self.source.at(place.at, &place.sentence()));
            match self.follows(place) {
                true => self.followed.push(line),
                false => self.refused.push(line),
            }
        }
    }

    pub(super) fn follows(&self, place: &Place<'_>) -> bool {
        let node = self.nodes.get(&place.event);
        match place.kind {
            Lost::ChoiceInSequence
            | Lost::SequenceInChoice
            | Lost::MinOccursInChoice
            | Lost::MaxOccursInChoice
            | Lost::MaxOccursZero
            | Lost::Facet
            | Lost::Enumeration
            | Lost::Default
            | Lost::Fixed
            | Lost::Prohibited
            | Lost::Key => true,
            Lost::OccursOfSequence | Lost::OccursOfChoice => {
                node.is_some_and(|node| occurs(node).most.is_some_and(|most| most <= 1))
            }
            Lost::Element => node.is_some_and(|node| node.attribute("type").is_some()),
            _ => place.type_name.is_none(),
        }
    }

    /// A type that must hold another value of itself, and so has none.
    fn refuse_endless(&mut self, types: &mut [Type]) {
        let starts = super::reach::starts(types);
        let endless = |found: &&mut Type| !starts.contains_key(&found.rust);
        for found in types.iter_mut().filter(endless) {
            let is_it = |node: &&&Node<'_>| {
                node.name() == "complexType" && node.attribute("name") == Some(&found.xml)
            };
            let at = self.nodes.values().filter(is_it).map(|node| node.at());
            let words = format!(
                "type {} must stand inside itself, and so has no value",
                quoted(&found.xml)
            );
            self.refuse(at.min().unwrap_or_default(), &words);
            found.kind = Kind::Any;
        }
    }

    fn finished(
        mut self,
        graph: &Graph<'_>,
        root: &Node<'_>,
        roots: Vec<Root>,
        mut types: Vec<Type>,
    ) -> Result<Schema, Failure> {
        if !self.wanted.whole {
            self.refuse_endless(&mut types);
        }
        let lines = |places: &mut Vec<(usize, String)>| -> Vec<String> {
            places.sort();
            places.dedup();
            places.drain(..).map(|(_, line)| line).collect()
        };
        let (lost, followed) = (lines(&mut self.refused), lines(&mut self.followed));
        if !lost.is_empty() && !self.wanted.lossy {
            let words = "the bindings can't follow this; --lossy leaves it out";
            return Err(Failure::Refused(format!(
                "{}\n{}: {words}",
                lost.join("\n"),
                named(self.source.path())
            )));
        }
        super::reach::break_circles(&mut types);
        super::large::box_large(&mut types);
        let file = self
            .source
            .path()
            .file_name()
            .map(|name| name.to_string_lossy().into_owned());
        Ok(Schema {
            name: String::new(),
            file: crate::failure::escaped(&file.unwrap_or_default()),
            namespace: unescaped(graph.namespace()),
            qualified: root.attribute("elementFormDefault") == Some("qualified"),
            roots,
            types,
            followed,
            lost,
            rest: self.rest,
        })
    }
}

/// The name in the graph of the type that a reference means; none where that is built-in or not there.
pub(super) fn type_of(kind: &str, own: &Own<'_>, known: &BTreeSet<String>) -> Option<String> {
    own.named(kind, known).or_else(|| {
        let named = map_builtin(kind)
            .is_none()
            .then(|| normalize_type_name(kind));
        named.filter(|name| known.contains(name))
    })
}

/// `Abc` of `abc`
fn capital(name: &str) -> String {
    let mut letters = name.chars();
    let first: String = letters
        .next()
        .into_iter()
        .flat_map(char::to_uppercase)
        .collect();
    first + letters.as_str()
}

/// minOccurs and maxOccurs of a tag.
pub(super) fn occurs(node: &Node<'_>) -> Occurs {
    let number = |word| node.attribute(word).map_or(Some(1), parse_u32);
    Occurs {
        least: number("minOccurs").unwrap_or(1),
        most: number("maxOccurs"),
    }
}

/// The way through the groups of a type.
struct Content<'m, 'd> {
    maker: &'m mut Maker<'d>,
    fields: Vec<Field>,
}

impl<'d> Content<'_, 'd> {
    fn empty(&self) -> Group {
        Group {
            choice: false,
            required: true,
            parts: Vec::new(),
        }
    }

    /// A sequence or choice; `certain` where all around it must be there, `repeated` where it or one around it is repeated.
    fn group(&mut self, node: &Node<'d>, certain: bool, repeated: bool) -> Group {
        let how = occurs(node);
        let choice = node.name() == "choice";
        let certain = certain && how.least > 0 && !choice;
        let repeated = repeated || how.most.is_none_or(|most| most > 1);
        let mut parts = Vec::new();
        for child in &node.children {
            match child.name() {
                "element" => parts.extend(self.element(child, certain, repeated)),
                "sequence" | "choice" => {
                    parts.push(Part::Group(self.group(child, certain, repeated)))
                }
                _ => {}
            }
        }
        Group {
            choice,
            required: how.least > 0,
            parts,
        }
    }

    fn element(&mut self, node: &Node<'d>, certain: bool, repeated: bool) -> Option<Part> {
        let mut how = occurs(node);
        if how.most == Some(0) {
            return None;
        }
        let inside = how;
        let (name, holds) = match (node.attribute("name"), node.attribute("type")) {
            (Some(name), Some(kind)) => (name, self.maker.reference(node, kind)),
            _ if self.maker.wanted.whole => self.maker.held_otherwise(node)?,
            _ => return None,
        };
        if repeated {
            how = Occurs {
                least: 0,
                most: None,
            };
        }
        let many = match how {
            Occurs {
                most: Some(1),
                least,
            } if certain && least > 0 => Many::One,
            Occurs { most: Some(1), .. } => Many::Maybe,
            _ => Many::List,
        };
        let field = self.maker.field_of(node, name, holds, many);
        self.fields.push(Field {
            occurs: how,
            inside,
            certain,
            ..field
        });
        Some(Part::Element(self.fields.len() - 1))
    }
}
