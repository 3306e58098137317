//! Every XML name with its Rust name, and the names that meet.

use std::collections::{HashMap, HashSet};

use lubiksan::names::{map_builtin, normalize_type_name};
use lubiksan::{Context, Declared, Graph, Kind, SchemaSheet, TypeDef, TypeRef};

use crate::failure::{escaped, quoted};
use crate::formats::word_of;
use crate::identifier::{identifier, spelled};

const SIMPLE_TYPE: &str = "simple type";
const COMPLEX_TYPE: &str = "complex type";

/// A name.
#[derive(Clone, Debug, PartialEq, Eq)]
pub struct Entry {
    /// As in the schema.
    pub xml: String,
    /// The identifier.
    pub rust: String,
    /// What it is and in which type it stands.
    pub place: String,
    /// Its row in the schema sheet.
    pub row: usize,
    /// It meets another, or refers to a type that is not there.
    pub meets: bool,
}

/// Names that meet, or a reference to a type that is not there.
#[derive(Clone, Debug, PartialEq, Eq)]
pub struct Meeting {
    /// The row in the schema sheet: that of the later one of two.
    pub row: usize,
    /// What it is in words.
    pub words: String,
    /// The type that is not there, where it is a reference.
    pub missing: Option<String>,
}

/// The names of a schema.
#[derive(Clone, Debug, Default, PartialEq, Eq)]
pub struct Names {
    /// Every name.
    pub entries: Vec<Entry>,
    /// What meets.
    pub meetings: Vec<Meeting>,
}

impl Names {
    /// The names of a sheet and its graph, which may have only some of the sheet's types.
    pub fn of(sheet: &SchemaSheet<'_>, graph: &Graph<'_>) -> Names {
        let finished = finished(sheet);
        let mut names = Names::default();
        let known: HashSet<&str> = graph.types().map(|found| found.name()).collect();
        for declared in finished
            .iter()
            .filter(|declared| declared.kind == Kind::Element)
        {
            let (xml, type_name) = (declared.name, declared.second);
            names.put_root(xml, type_name, declared.row, &known);
        }
        names.put_types(&finished, &known);
        let heads = heads(&finished);
        for found in graph.types() {
            let head = heads.get(found.name()).copied().unwrap_or(0);
            names.put_children(&found, head, &known);
        }
        names
    }

    /// The names of a graph alone: types under the names that they have there, and no rows.
    pub fn of_graph(graph: &Graph<'_>) -> Names {
        let mut names = Names::default();
        let known: HashSet<&str> = graph.types().map(|found| found.name()).collect();
        for root in graph.roots() {
            names.put_root(root.xml_name, root.type_name, 0, &known);
        }
        let types: Vec<TypeDef<'_>> = graph.types().collect();
        let named = types.iter().map(|found| Named {
            xml: found.name(),
            rust: found.name().to_owned(),
            place: match found {
                TypeDef::Newtype(_) | TypeDef::CodeList(_) => SIMPLE_TYPE,
                _ => COMPLEX_TYPE,
            }
            .to_owned(),
            row: 0,
        });
        names.put_scope("types", "", &named.collect::<Vec<Named<'_>>>());
        for found in &types {
            names.put_children(found, 0, &known);
        }
        names
    }

    /// The listing, names that meet with a mark before them; `line` says on which line of the file a row stands.
    pub fn listing(&self, line: impl Fn(usize) -> Option<usize>) -> String {
        let width = |of: fn(&Entry) -> &str| {
            let widths = self.entries.iter().map(|e| of(e).chars().count());
            widths.max().unwrap_or(0)
        };
        let (xml, rust) = (width(|e| &e.xml), width(|e| &e.rust));
        let shown = |e: &Entry| {
            let mark = if e.meets { '!' } else { ' ' };
            let line = line(e.row).map_or(String::new(), |line| format!(", line {line}"));
            format!(
                "{mark} {:xml$}  {:rust$}  {}{line}\n",
                e.xml, e.rust, e.place
            )
        };
        self.entries.iter().map(shown).collect()
    }

    /// What meets, a line each; `place` is what stands before the words of a row.
    pub fn words(&self, place: impl Fn(usize) -> String) -> String {
        let line = |meeting: &Meeting| format!("{}{}", place(meeting.row), meeting.words);
        let lines: Vec<String> = self.meetings.iter().map(line).collect();
        lines.join("\n")
    }

    fn put_root(&mut self, xml: &str, type_name: &str, row: usize, known: &HashSet<&str>) {
        let normal = normalize_type_name(type_name);
        let missing = map_builtin(type_name).is_none() && !known.contains(normal.as_str());
        let place = format!("root element of type {}", quoted(type_name));
        self.entries.push(Entry {
            xml: escaped(xml),
            rust: spelled(&normal),
            place,
            row,
            meets: missing,
        });
        if missing {
            let here = format!("the root element {}", quoted(xml));
            self.missing(row, &here, type_name);
        }
    }

    /// The types of the graph as the schema spells them. Lowering has refused two of one name; two may still have one Rust name.
    fn put_types(&mut self, finished: &[Declared<'_>], known: &HashSet<&str>) {
        let types = finished
            .iter()
            .filter(|declared| declared.kind != Kind::Element)
            .map(|declared| (declared, normalize_type_name(declared.name)))
            .filter(|(_, rust)| known.contains(rust.as_str()));
        let named = types.map(|(declared, rust)| Named {
            xml: declared.name,
            rust,
            place: if declared.kind == Kind::SimpleType {
                SIMPLE_TYPE
            } else {
                COMPLEX_TYPE
            }
            .to_owned(),
            row: declared.row,
        });
        let named: Vec<Named<'_>> = named.collect();
        self.put_scope("types", "", &named);
    }

    /// The fields, variants, codes or attributes of a type whose head is the row `head`.
    fn put_children(&mut self, found: &TypeDef<'_>, head: usize, known: &HashSet<&str>) {
        let (word, children) = children(found);
        let owner = format!("{} {}", kind_of(found), quoted(found.name()));
        if let TypeDef::Value(it) = found {
            self.refer(
                usize::MAX,
                head,
                &format!("the text of {owner}"),
                Some(it.value()),
                known,
            );
        }
        let place = format!("{word} of {owner}");
        let named = children.iter().zip(head + 1..).map(|(child, row)| Named {
            xml: child.xml,
            rust: child.rust.to_owned(),
            place: place.clone(),
            row,
        });
        let (first, named) = (self.entries.len(), named.collect::<Vec<Named<'_>>>());
        self.put_scope(&format!("{word}s"), &format!(" of {owner}"), &named);
        for (index, child) in children.iter().enumerate() {
            let here = format!("the {word} {} of {owner}", quoted(child.xml));
            self.refer(
                first + index,
                head + 1 + index,
                &here,
                child.reference,
                known,
            );
        }
    }

    /// Names that stand side by side.
    fn put_scope(&mut self, what: &str, owner: &str, named: &[Named<'_>]) {
        let mut first: HashMap<String, usize> = HashMap::new();
        for name in named {
            let (word, at) = (identifier(&name.rust), self.entries.len());
            self.entries.push(Entry {
                xml: escaped(name.xml),
                rust: spelled(&name.rust),
                place: name.place.clone(),
                row: name.row,
                meets: false,
            });
            match first.get(&word) {
                Some(&other) => self.meet(what, owner, &word, [other, at]),
                None => drop(first.insert(word, at)),
            }
        }
    }

    /// Two names of one scope are one in Rust.
    fn meet(&mut self, what: &str, owner: &str, word: &str, pair: [usize; 2]) {
        let (mut spellings, mut row) = (Vec::new(), 0);
        for at in pair {
            if let Some(entry) = self.entries.get_mut(at) {
                entry.meets = true;
                row = entry.row;
                spellings.push(format!("\"{}\"", entry.xml));
            }
        }
        let both = spellings.join(" and ");
        let words = format!(
            "two {what}{owner} have the Rust name {}: {both}",
            quoted(word)
        );
        self.meetings.push(Meeting {
            row,
            words,
            missing: None,
        });
    }

    /// A reference from the entry `at`, in the row `row`; it must be to a type that is there.
    fn refer(
        &mut self,
        at: usize,
        row: usize,
        here: &str,
        reference: Option<TypeRef<'_>>,
        known: &HashSet<&str>,
    ) {
        let Some(TypeRef::Named(name)) = reference else {
            return;
        };
        if known.contains(name) {
            return;
        }
        if let Some(entry) = self.entries.get_mut(at) {
            entry.meets = true;
        }
        self.missing(row, here, name);
    }

    fn missing(&mut self, row: usize, here: &str, name: &str) {
        let words = format!("{here} has the type {}, which is not there", quoted(name));
        self.meetings.push(Meeting {
            row,
            words,
            missing: Some(name.to_owned()),
        });
    }
}

struct Named<'g> {
    xml: &'g str,
    rust: String,
    place: String,
    row: usize,
}

/// The elements and the finished types.
fn finished<'s>(sheet: &'s SchemaSheet<'_>) -> Vec<Declared<'s>> {
    let mut finished: Vec<Declared<'s>> = sheet.declared().collect();
    if matches!(sheet.context(), Context::SimpleType | Context::ComplexType) {
        finished.pop();
    }
    finished
}

/// The rows of the types' heads by normalised name, which no two of them share.
fn heads(finished: &[Declared<'_>]) -> HashMap<String, usize> {
    let types = finished
        .iter()
        .filter(|declared| declared.kind != Kind::Element);
    types
        .map(|declared| (normalize_type_name(declared.name), declared.row))
        .collect()
}

/// What a type is called here.
fn kind_of(found: &TypeDef<'_>) -> &'static str {
    match found {
        TypeDef::CodeList(_) => "code list",
        other => word_of(other),
    }
}

/// A field, variant, code or attribute.
struct Child<'g> {
    xml: &'g str,
    rust: &'g str,
    reference: Option<TypeRef<'g>>,
}

/// What the children of a type are called, and the children.
fn children<'g>(found: &TypeDef<'g>) -> (&'static str, Vec<Child<'g>>) {
    let child = |xml, rust, reference| Child {
        xml,
        rust,
        reference,
    };
    match found {
        TypeDef::Struct(it) => (
            "field",
            it.fields()
                .map(|f| child(f.xml_name, f.rust_name, Some(f.type_ref)))
                .collect(),
        ),
        TypeDef::Choice(it) => (
            "variant",
            it.variants()
                .map(|v| child(v.xml_name, v.rust_name, Some(v.type_ref)))
                .collect(),
        ),
        TypeDef::CodeList(it) => (
            "code",
            it.codes()
                .map(|c| child(c.xml_value, c.rust_name, None))
                .collect(),
        ),
        TypeDef::Value(it) => (
            "attribute",
            it.attributes()
                .map(|a| child(a.xml_name, a.rust_name, Some(a.type_ref)))
                .collect(),
        ),
        TypeDef::Newtype(_) | TypeDef::Opaque(_) => ("name", Vec::new()),
    }
}
