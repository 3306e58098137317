//! The kinds of places and their words.

use crate::failure::{escaped, quoted};

/// What is not kept.
#[derive(Clone, Copy, Debug, PartialEq, Eq, PartialOrd, Ord, Hash)]
pub enum Kind {
    /// A choice inside a sequence: its elements are fields side by side.
    ChoiceInSequence,
    /// A sequence inside a choice: its elements are apart.
    SequenceInChoice,
    /// minOccurs of an element of a choice.
    MinOccursInChoice,
    /// maxOccurs of an element of a choice.
    MaxOccursInChoice,
    /// minOccurs or maxOccurs of a sequence.
    OccursOfSequence,
    /// minOccurs or maxOccurs of a choice.
    OccursOfChoice,
    /// maxOccurs 0 of a field.
    MaxOccursZero,
    /// An element or simple type with a type of its own inside.
    OwnType,
    /// An element that is passed over.
    Element,
    /// A reference to an element or attribute.
    Reference,
    /// A reference to a group.
    Group,
    /// A reference to an attribute group.
    AttributeGroup,
    /// `all`.
    All,
    /// `complexContent`.
    ComplexContent,
    /// Simple content of which the base is not kept.
    SimpleContent,
    /// An attribute of a complex type.
    Attribute,
    /// `anyAttribute`.
    AnyAttribute,
    /// `any` beside elements, or with content of its own.
    Any,
    /// A facet.
    Facet,
    /// Enumerations beside other facets.
    Enumeration,
    /// `union`.
    Union,
    /// `list`.
    List,
    /// `default`.
    Default,
    /// `fixed`.
    Fixed,
    /// `nillable`.
    Nillable,
    /// `abstract`.
    Abstract,
    /// `substitutionGroup`.
    SubstitutionGroup,
    /// Mixed content.
    Mixed,
    /// `use="prohibited"`.
    Prohibited,
    /// `key`, `keyref` or `unique`.
    Key,
    /// A tag in an annotation that joins the type.
    Annotation,
    /// Any other tag.
    Tag,
}

impl Kind {
    /// The name in JSON and in counts.
    pub fn name(self) -> &'static str {
        match self {
            Kind::ChoiceInSequence => "choice in sequence",
            Kind::SequenceInChoice => "sequence in choice",
            Kind::MinOccursInChoice => "minOccurs in choice",
            Kind::MaxOccursInChoice => "maxOccurs in choice",
            Kind::OccursOfSequence => "occurs of sequence",
            Kind::OccursOfChoice => "occurs of choice",
            Kind::MaxOccursZero => "maxOccurs 0",
            Kind::OwnType => "type of its own",
            Kind::Element => "element",
            Kind::Reference => "reference",
            Kind::Group => "group",
            Kind::AttributeGroup => "attributeGroup",
            Kind::All => "all",
            Kind::ComplexContent => "complexContent",
            Kind::SimpleContent => "simpleContent",
            Kind::Attribute => "attribute",
            Kind::AnyAttribute => "anyAttribute",
            Kind::Any => "any",
            Kind::Facet => "facet",
            Kind::Enumeration => "enumeration",
            Kind::Union => "union",
            Kind::List => "list",
            Kind::Default => "default",
            Kind::Fixed => "fixed",
            Kind::Nillable => "nillable",
            Kind::Abstract => "abstract",
            Kind::SubstitutionGroup => "substitutionGroup",
            Kind::Mixed => "mixed",
            Kind::Prohibited => "prohibited",
            Kind::Key => "key",
            Kind::Annotation => "annotation",
            Kind::Tag => "tag",
        }
    }

    /// It is about what stands in the type, not about its attributes: of a type that takes any content none of these is left.
    pub(super) fn is_of_content(self) -> bool {
        !matches!(
            self,
            Kind::Attribute
                | Kind::AttributeGroup
                | Kind::AnyAttribute
                | Kind::Abstract
                | Kind::Mixed
                | Kind::ComplexContent
                | Kind::All
        )
    }
}

/// A place before its words are made.
#[derive(Clone, Debug)]
pub(super) struct Found<'d> {
    pub kind: Kind,
    pub event: usize,
    /// The elements, attributes or codes that it is about, and whether each is required in the graph.
    pub fields: Vec<(&'d str, bool)>,
    /// The element, attribute, group, tag or facet itself.
    pub what: &'d str,
    /// A value, or why.
    pub more: String,
}

/// `"A", "B" and "C"`, not more than ten of them.
fn list(names: &[&str]) -> String {
    const LONGEST: usize = 10;
    let mut shown: Vec<String> = names
        .iter()
        .take(LONGEST)
        .map(|name| quoted(name))
        .collect();
    if names.len() > LONGEST {
        shown.push(format!("{} more", names.len() - LONGEST));
    }
    match shown.split_last() {
        Some((last, before)) if !before.is_empty() => format!("{} and {last}", before.join(", ")),
        _ => shown.concat(),
    }
}

/// `A, B, C`
fn plain(names: &[&str]) -> String {
    escaped(&names.join(", "))
}

impl Found<'_> {
    /// The words of the line and those of the comment.
    pub fn words(&self) -> (String, String) {
        let names: Vec<&str> = self.fields.iter().map(|&(name, _)| name).collect();
        let (what, more) = (quoted(self.what), &self.more);
        let same = |words: String| (words.clone(), words);
        match self.kind {
            Kind::ChoiceInSequence => (
                format!("a choice stands inside a sequence: {}", self.side_by_side(&names)),
                format!("the schema asks for one of {}", plain(&names)),
            ),
            Kind::SequenceInChoice if names.is_empty() => {
                same("a sequence stands inside a choice, and none of its parts is kept".to_owned())
            }
            Kind::SequenceInChoice => (
                format!(
                    "a sequence stands inside a choice: the schema asks for {} together, the graph has them apart",
                    list(&names)
                ),
                format!("the schema asks for {} together", plain(&names)),
            ),
            Kind::MinOccursInChoice | Kind::MaxOccursInChoice => (
                format!("{what} of a choice has {more} in the schema, the graph has it once"),
                format!("the schema has {more}"),
            ),
            Kind::OccursOfSequence | Kind::OccursOfChoice if names.is_empty() => {
                same(format!("{more} of a {} is not kept", self.what))
            }
            Kind::OccursOfSequence | Kind::OccursOfChoice => (
                format!(
                    "{more} of a {} is not kept: the graph has {} as if it stood there once",
                    self.what,
                    list(&names)
                ),
                format!("the schema has {more} for {} as a whole", plain(&names)),
            ),
            Kind::MaxOccursZero => (
                format!("{what} has maxOccurs 0, it is required in the graph"),
                "the schema has maxOccurs 0".to_owned(),
            ),
            Kind::OwnType => self.own_type(&names),
            Kind::Any if !names.is_empty() => same(format!(
                "any content stands beside {}, which the graph does not keep: it takes any content",
                list(&names)
            )),
            Kind::Enumeration => same(format!(
                "the enumerations {} stand beside other facets and are not kept",
                list(&names)
            )),
            _ => same(self.plain_words()),
        }
    }

    /// What becomes of the elements of a choice that stands inside a sequence.
    fn side_by_side(&self, names: &[&str]) -> String {
        let required = self.fields.iter().all(|&(_, required)| required);
        let all = list(names);
        match names.len() {
            0 => "none of its parts is kept".to_owned(),
            1 if required => format!(
                "{all} is required in the graph, the schema asks for it or for another part"
            ),
            2 if required => {
                format!("{all} are both required in the graph, the schema asks for one of them")
            }
            _ if required => {
                format!("{all} are all required in the graph, the schema asks for one of them")
            }
            _ => format!("the graph has {all} side by side, the schema asks for one of its parts"),
        }
    }

    fn own_type(&self, names: &[&str]) -> (String, String) {
        let what = quoted(self.what);
        if self.what == "simpleType" {
            let words = "a simple type stands inside: its base and facets join the type".to_owned();
            return (words.clone(), words);
        }
        let words = format!("the element {what} has a type of its own and is not kept");
        // The first is the element itself.
        match names.get(1..).unwrap_or_default() {
            [] => (words.clone(), words),
            joined => (
                format!(
                    "{words}, what stands inside joins the type: {}",
                    list(joined)
                ),
                format!("the schema has it inside {}", escaped(self.what)),
            ),
        }
    }

    fn plain_words(&self) -> String {
        let (what, more) = (quoted(self.what), &self.more);
        match self.kind {
            Kind::Element => format!("the element {what} is not kept: {more}"),
            Kind::Reference => format!("the reference to {what} is not kept"),
            Kind::Group => format!("the group {what} is not kept"),
            Kind::AttributeGroup => format!("the attribute group {what} is not kept"),
            Kind::All | Kind::ComplexContent => {
                format!("{what} is not kept: the graph takes any content")
            }
            Kind::SimpleContent => format!("the base of the simple content is not kept: {more}"),
            Kind::Attribute => format!("the attribute {what} is not kept"),
            Kind::Any => format!("{what} is not kept: it has content of its own"),
            Kind::Facet => format!("the facet {} {more}", self.what),
            Kind::Mixed => "text between the elements is not kept (mixed)".to_owned(),
            Kind::Abstract => format!("abstract of {what} is not kept"),
            Kind::Prohibited => {
                format!("{what} is prohibited in the schema, optional in the graph")
            }
            Kind::Nillable => format!("nillable of {what} is not kept"),
            Kind::Default | Kind::Fixed | Kind::SubstitutionGroup => {
                format!("{} {more} of {what} is not kept", self.kind.name())
            }
            Kind::Key => format!("the {} {what} is not kept", self.more),
            Kind::Annotation => format!("the tag {what} in an annotation joins the type"),
            _ => format!("the tag {what} is not kept"),
        }
    }
}
