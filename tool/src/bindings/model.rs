//! The types of a schema as the bindings have them: by the schema where the graph is not the schema.

/// A schema: one module.
pub struct Schema {
    /// The name of the module.
    pub name: String,
    /// The name of the file.
    pub file: String,
    pub namespace: String,
    /// The elements inside a root are of the namespace too.
    pub qualified: bool,
    pub roots: Vec<Root>,
    pub types: Vec<Type>,
    /// Where the graph is not the schema and the bindings follow the schema, a line each.
    pub followed: Vec<String>,
    /// What is not kept, with `--lossy`, a line each.
    pub lost: Vec<String>,
    /// What is in no type here, where it is asked for.
    pub rest: Vec<Rest>,
}

/// A part of a schema that is in no type here, as text.
pub struct Rest {
    /// The Rust name of its type; none outside of the types.
    pub owner: Option<String>,
    /// What it is, by its tag or attribute.
    pub name: String,
    /// Its tags without annotations, with `*` in the place of the types of the schema.
    pub text: String,
    /// These types, by their Rust names.
    pub types: Vec<String>,
    pub line: usize,
}

/// A root element.
pub struct Root {
    pub xml: String,
    pub line: usize,
    /// The Rust type.
    pub holds: String,
}

/// A type.
pub struct Type {
    /// The name in Rust, as it is spelled there.
    pub rust: String,
    /// The name in the schema.
    pub xml: String,
    /// None of a built-in type.
    pub line: Option<usize>,
    pub docs: Vec<String>,
    /// It stands inside an element and has no name.
    pub inner: bool,
    pub kind: Kind,
}

/// What a type is.
pub enum Kind {
    /// Elements side by side.
    Struct(Vec<Field>, Group),
    /// One of several elements, once.
    Choice(Vec<Field>),
    Codes(Vec<Code>),
    /// A text.
    Text(Rules),
    /// A truth value.
    Boolean,
    /// A text with attributes.
    Value(Box<Field>, Vec<Field>),
    /// Any content.
    Any,
}

/// A field, variant or attribute.
#[derive(Clone)]
pub struct Field {
    pub rust: String,
    pub xml: String,
    /// The Rust type inside.
    pub holds: String,
    pub many: Many,
    pub occurs: Occurs,
    /// How often in the group around it.
    pub inside: Occurs,
    /// All around it must be there.
    pub certain: bool,
    pub line: usize,
    pub docs: Vec<String>,
    /// A circle of types is broken here.
    pub boxed: bool,
}

/// How a field holds its values.
#[derive(Clone, Copy, PartialEq, Eq)]
pub enum Many {
    One,
    Maybe,
    List,
}

/// How often something stands there.
#[derive(Clone, Copy, PartialEq, Eq)]
pub struct Occurs {
    pub least: u32,
    /// None where there is no bound.
    pub most: Option<u32>,
}

impl Occurs {
    pub const ONCE: Occurs = Occurs {
        least: 1,
        most: Some(1),
    };
}

/// A code.
pub struct Code {
    pub rust: String,
    pub xml: String,
    pub docs: Vec<String>,
}

/// A sequence or choice.
pub struct Group {
    pub choice: bool,
    /// It must be there.
    pub required: bool,
    pub parts: Vec<Part>,
}

/// A part of a group.
pub enum Part {
    /// An element, by its number among the fields.
    Element(usize),
    Group(Group),
}

impl Group {
    /// It is a choice, or has one alone inside.
    pub fn is_choice(&self) -> bool {
        match self.parts.as_slice() {
            [Part::Group(inner)] if !self.choice => inner.is_choice(),
            _ => self.choice,
        }
    }

    /// The elements stand in it one behind the other, and nothing else.
    pub fn is_plain(&self) -> bool {
        let element = |part: &Part| matches!(part, Part::Element(_));
        !self.choice && self.required && self.parts.iter().all(element)
    }
}

/// What is asked of a text.
pub struct Rules {
    /// The built-in type below, without a prefix.
    pub base: String,
    pub space: super::bases::Space,
    pub facets: Vec<Facet>,
    /// What is asked and not checked, in words.
    pub unchecked: Vec<String>,
}

/// A facet with its words.
pub struct Facet {
    pub words: String,
    pub check: Check,
}

/// How a facet is checked.
pub enum Check {
    /// A case of `Facet` with a number.
    Number(&'static str, u64),
    /// A case of `Facet` with a text.
    Text(&'static str, String),
    /// One of these texts.
    OneOf(Vec<String>),
    /// The regular expression, and the patterns of the schema.
    Pattern(String, String),
}
