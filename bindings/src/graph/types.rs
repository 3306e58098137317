//! Typed views of the rows of a graph.

use std::fmt;

use lubiksan_sys as sys;

use super::rows::{Row, Rows, FIRST, SECOND, THIRD};

/// A root element.
#[derive(Clone, Copy, Debug, PartialEq, Eq)]
pub struct Root<'g> {
    /// The XML name of the element.
    pub xml_name: &'g str,
    /// The name of its type as in the schema, with its prefix; not normalised.
    pub type_name: &'g str,
    event: Option<u32>,
}

impl<'g> Root<'g> {
    pub(super) fn is_root(row: &Row<'_>) -> bool {
        row.tag() == sys::LUBIKSAN_IR_ROOT
    }

    pub(super) fn of(row: Row<'g>) -> Root<'g> {
        Root {
            xml_name: row.text(FIRST),
            type_name: row.text(SECOND),
            event: row.event(),
        }
    }

    /// The number in the run, from 0, of the event that gave the root its name: the start or empty tag of its element. `None` where it
    /// is not known: in a graph of a sheet stored before there were numbers, or of event 0 of a run begun inside a schema.
    ///
    /// Of a file that was read whole from a cleared sheet it is the event's place in the file, all tags counted.
    pub fn event(&self) -> Option<u32> {
        self.event
    }
}

/// A type of the graph.
#[derive(Clone, Copy, Debug)]
pub enum TypeDef<'g> {
    /// A sequence of elements.
    Struct(Struct<'g>),
    /// A choice of elements.
    Choice(Choice<'g>),
    /// A list of codes.
    CodeList(CodeList<'g>),
    /// A built-in type with facets.
    Newtype(Newtype<'g>),
    /// A value with attributes.
    Value(Value<'g>),
    /// Any content.
    Opaque(Opaque<'g>),
}

impl<'g> TypeDef<'g> {
    /// The name of the type.
    pub fn name(&self) -> &'g str {
        self.rows().next_row().map_or("", |row| row.text(FIRST))
    }

    /// The number in the run, from 0, of the event that gave the type its name: the start tag of its `simpleType` or `complexType`.
    /// `None` where it is not known, as of [`Root::event`].
    pub fn event(&self) -> Option<u32> {
        self.rows().next_row().and_then(Row::event)
    }

    fn rows(&self) -> Rows<'g> {
        match self {
            TypeDef::Struct(it) => it.0,
            TypeDef::Choice(it) => it.0,
            TypeDef::CodeList(it) => it.0,
            TypeDef::Newtype(it) => it.0,
            TypeDef::Value(it) => it.0,
            TypeDef::Opaque(it) => it.0,
        }
    }

    fn of(tag: u32, rows: Rows<'g>) -> TypeDef<'g> {
        match tag {
            sys::LUBIKSAN_IR_STRUCT => TypeDef::Struct(Struct(rows)),
            sys::LUBIKSAN_IR_ENUM => TypeDef::Choice(Choice(rows)),
            sys::LUBIKSAN_IR_NEWTYPE => TypeDef::Newtype(Newtype(rows)),
            sys::LUBIKSAN_IR_CODE_ENUM => TypeDef::CodeList(CodeList(rows)),
            sys::LUBIKSAN_IR_VALUE => TypeDef::Value(Value(rows)),
            _ => TypeDef::Opaque(Opaque(rows)),
        }
    }
}

/// The types of some rows.
pub(super) struct Types<'g> {
    rest: Rows<'g>,
}

impl<'g> Types<'g> {
    /// The types behind row 0, the namespace and the roots.
    pub fn of(rows: Rows<'g>) -> Types<'g> {
        let before = rows
            .iter()
            .take_while(|row| row.tag() <= sys::LUBIKSAN_IR_ROOT)
            .count();
        Types {
            rest: rows.skip(before),
        }
    }
}

impl<'g> Iterator for Types<'g> {
    type Item = TypeDef<'g>;

    fn next(&mut self) -> Option<TypeDef<'g>> {
        let head = self.rest.next_row()?;
        let behind = self.rest.skip(1);
        let children = behind
            .iter()
            .take_while(|row| row.tag() > sys::LUBIKSAN_IR_OPAQUE);
        let count = 1 + children.count();
        let rows = self.rest.take(count);
        self.rest = self.rest.skip(count);
        Some(TypeDef::of(head.tag(), rows))
    }
}

/// The name of the head, and the rows of its children.
trait Parts<'g> {
    fn head(self) -> Option<Row<'g>>;
    fn children<T>(self, of: fn(Row<'g>) -> T) -> impl Iterator<Item = T>;
}

impl<'g> Parts<'g> for Rows<'g> {
    fn head(self) -> Option<Row<'g>> {
        self.next_row()
    }

    fn children<T>(self, of: fn(Row<'g>) -> T) -> impl Iterator<Item = T> {
        self.skip(1).iter().map(of)
    }
}

/// A struct: a complex type with a sequence.
#[derive(Clone, Copy, Debug)]
pub struct Struct<'g>(Rows<'g>);

impl<'g> Struct<'g> {
    /// The name of the type.
    pub fn name(&self) -> &'g str {
        TypeDef::Struct(*self).name()
    }

    /// The number of its event, as [`TypeDef::event`].
    pub fn event(&self) -> Option<u32> {
        TypeDef::Struct(*self).event()
    }

    /// The fields in order.
    pub fn fields(&self) -> impl Iterator<Item = Field<'g>> {
        self.0.children(Field::of)
    }
}

/// A choice: a complex type with a choice.
#[derive(Clone, Copy, Debug)]
pub struct Choice<'g>(Rows<'g>);

impl<'g> Choice<'g> {
    /// The name of the type.
    pub fn name(&self) -> &'g str {
        TypeDef::Choice(*self).name()
    }

    /// The number of its event, as [`TypeDef::event`].
    pub fn event(&self) -> Option<u32> {
        TypeDef::Choice(*self).event()
    }

    /// The variants in order.
    pub fn variants(&self) -> impl Iterator<Item = Variant<'g>> {
        self.0.children(Variant::of)
    }
}

/// A list of codes: a simple type whose facets are all enumerations.
#[derive(Clone, Copy, Debug)]
pub struct CodeList<'g>(Rows<'g>);

impl<'g> CodeList<'g> {
    /// The name of the type.
    pub fn name(&self) -> &'g str {
        TypeDef::CodeList(*self).name()
    }

    /// The number of its event, as [`TypeDef::event`].
    pub fn event(&self) -> Option<u32> {
        TypeDef::CodeList(*self).event()
    }

    /// The codes in order.
    pub fn codes(&self) -> impl Iterator<Item = Code<'g>> {
        self.0.children(Code::of)
    }
}

/// A newtype: a simple type over a built-in one.
#[derive(Clone, Copy, Debug)]
pub struct Newtype<'g>(Rows<'g>);

impl<'g> Newtype<'g> {
    /// The name of the type.
    pub fn name(&self) -> &'g str {
        TypeDef::Newtype(*self).name()
    }

    /// The number of its event, as [`TypeDef::event`].
    pub fn event(&self) -> Option<u32> {
        TypeDef::Newtype(*self).event()
    }

    /// The built-in type inside.
    pub fn inner(&self) -> Builtin {
        let number = self.0.head().map_or(sys::LUBIKSAN_NAMED, Row::a);
        Builtin::of(number).unwrap_or(Builtin::String)
    }

    /// The facets in order; enumerations beside other facets are dropped by the lowering.
    pub fn facets(&self) -> impl Iterator<Item = Facet<'g>> {
        self.0.children(Facet::of)
    }
}

/// A value with attributes: a complex type with simple content.
#[derive(Clone, Copy, Debug)]
pub struct Value<'g>(Rows<'g>);

impl<'g> Value<'g> {
    /// The name of the type.
    pub fn name(&self) -> &'g str {
        TypeDef::Value(*self).name()
    }

    /// The number of its event, as [`TypeDef::event`].
    pub fn event(&self) -> Option<u32> {
        TypeDef::Value(*self).event()
    }

    /// The type of the value.
    pub fn value(&self) -> TypeRef<'g> {
        self.0
            .head()
            .map_or(TypeRef::Named(""), |row| TypeRef::of(row, SECOND))
    }

    /// The attributes in order.
    pub fn attributes(&self) -> impl Iterator<Item = Attribute<'g>> {
        self.0.children(Attribute::of)
    }
}

/// Any content.
#[derive(Clone, Copy, Debug)]
pub struct Opaque<'g>(Rows<'g>);

impl<'g> Opaque<'g> {
    /// The name of the type.
    pub fn name(&self) -> &'g str {
        TypeDef::Opaque(*self).name()
    }

    /// The number of its event, as [`TypeDef::event`].
    pub fn event(&self) -> Option<u32> {
        TypeDef::Opaque(*self).event()
    }

    /// The namespace that the schema names for the content.
    pub fn namespace(&self) -> Option<&'g str> {
        let head = self.0.head()?;
        (head.a() == 1).then(|| head.text(SECOND))
    }
}

/// A field of a [`Struct`].
#[derive(Clone, Copy, Debug, PartialEq, Eq)]
pub struct Field<'g> {
    /// The XML name of the element.
    pub xml_name: &'g str,
    /// The Rust name of the field.
    pub rust_name: &'g str,
    /// The type.
    pub type_ref: TypeRef<'g>,
    /// How often it may come.
    pub cardinality: Cardinality,
}

impl<'g> Field<'g> {
    fn of(row: Row<'g>) -> Field<'g> {
        Field {
            xml_name: row.text(FIRST),
            rust_name: row.text(SECOND),
            type_ref: TypeRef::of(row, THIRD),
            cardinality: Cardinality::of(row),
        }
    }
}

/// A variant of a [`Choice`].
#[derive(Clone, Copy, Debug, PartialEq, Eq)]
pub struct Variant<'g> {
    /// The XML name of the element.
    pub xml_name: &'g str,
    /// The Rust name of the variant.
    pub rust_name: &'g str,
    /// The type inside.
    pub type_ref: TypeRef<'g>,
}

impl<'g> Variant<'g> {
    fn of(row: Row<'g>) -> Variant<'g> {
        Variant {
            xml_name: row.text(FIRST),
            rust_name: row.text(SECOND),
            type_ref: TypeRef::of(row, THIRD),
        }
    }
}

/// A code of a [`CodeList`].
#[derive(Clone, Copy, Debug, PartialEq, Eq)]
pub struct Code<'g> {
    /// The code as in XML.
    pub xml_value: &'g str,
    /// Its Rust name.
    pub rust_name: &'g str,
}

impl<'g> Code<'g> {
    fn of(row: Row<'g>) -> Code<'g> {
        Code {
            xml_value: row.text(FIRST),
            rust_name: row.text(SECOND),
        }
    }
}

/// An attribute of a [`Value`].
#[derive(Clone, Copy, Debug, PartialEq, Eq)]
pub struct Attribute<'g> {
    /// The XML name of the attribute.
    pub xml_name: &'g str,
    /// The Rust name of the field.
    pub rust_name: &'g str,
    /// The type.
    pub type_ref: TypeRef<'g>,
    /// It must be there.
    pub required: bool,
}

impl<'g> Attribute<'g> {
    fn of(row: Row<'g>) -> Attribute<'g> {
        Attribute {
            xml_name: row.text(FIRST),
            rust_name: row.text(SECOND),
            type_ref: TypeRef::of(row, THIRD),
            required: row.b() == 1,
        }
    }
}

/// A reference to a type.
#[derive(Clone, Copy, Debug, PartialEq, Eq)]
pub enum TypeRef<'g> {
    /// A type by its normalised name. It need not be in the graph.
    Named(&'g str),
    /// A built-in type.
    Builtin(Builtin),
}

impl<'g> TypeRef<'g> {
    fn of(row: Row<'g>, column: usize) -> TypeRef<'g> {
        match Builtin::of(row.a()) {
            Some(builtin) => TypeRef::Builtin(builtin),
            None => TypeRef::Named(row.text(column)),
        }
    }
}

impl fmt::Display for TypeRef<'_> {
    fn fmt(&self, f: &mut fmt::Formatter<'_>) -> fmt::Result {
        match self {
            TypeRef::Named(name) => f.write_str(name),
            TypeRef::Builtin(builtin) => builtin.fmt(f),
        }
    }
}

/// A built-in type.
#[derive(Clone, Copy, Debug, PartialEq, Eq)]
pub enum Builtin {
    /// Text.
    String,
    /// `true` or `false`.
    Bool,
    /// A decimal number.
    Decimal,
    /// A date.
    Date,
    /// A date with a time.
    DateTime,
}

impl Builtin {
    pub(crate) fn of(number: u32) -> Option<Builtin> {
        match number {
            sys::LUBIKSAN_STRING => Some(Builtin::String),
            sys::LUBIKSAN_BOOL => Some(Builtin::Bool),
            sys::LUBIKSAN_DECIMAL => Some(Builtin::Decimal),
            sys::LUBIKSAN_DATE => Some(Builtin::Date),
            sys::LUBIKSAN_DATE_TIME => Some(Builtin::DateTime),
            _ => None,
        }
    }

    /// The name of the type.
    pub fn name(self) -> &'static str {
        match self {
            Builtin::String => "String",
            Builtin::Bool => "Bool",
            Builtin::Decimal => "Decimal",
            Builtin::Date => "Date",
            Builtin::DateTime => "DateTime",
        }
    }
}

impl fmt::Display for Builtin {
    fn fmt(&self, f: &mut fmt::Formatter<'_>) -> fmt::Result {
        f.write_str(self.name())
    }
}

/// How often a field may come.
#[derive(Clone, Copy, Debug, PartialEq, Eq)]
pub enum Cardinality {
    /// Once.
    Required,
    /// Once or not.
    Optional,
    /// Any number of times.
    Vec,
    /// At most so many times, more than one.
    Bounded(u32),
}

impl Cardinality {
    fn of(row: Row<'_>) -> Cardinality {
        match row.b() {
            sys::LUBIKSAN_OPTIONAL => Cardinality::Optional,
            sys::LUBIKSAN_VEC => Cardinality::Vec,
            sys::LUBIKSAN_BOUNDED => Cardinality::Bounded(row.c()),
            _ => Cardinality::Required,
        }
    }
}

/// A number of characters.
#[derive(Clone, Copy, Debug, PartialEq, Eq, PartialOrd, Ord)]
pub struct CharacterCount(pub u64);

/// A number of digits.
#[derive(Clone, Copy, Debug, PartialEq, Eq, PartialOrd, Ord)]
pub struct DigitCount(pub u32);

/// A facet of a [`Newtype`].
#[derive(Clone, Copy, Debug, PartialEq, Eq)]
pub enum Facet<'g> {
    /// A regular expression, as in the schema.
    Pattern(&'g str),
    /// At least so many characters.
    MinLength(CharacterCount),
    /// At most so many characters.
    MaxLength(CharacterCount),
    /// The smallest value, as in the schema.
    MinInclusive(&'g str),
    /// The largest value, as in the schema.
    MaxInclusive(&'g str),
    /// At most so many digits.
    TotalDigits(DigitCount),
    /// At most so many digits behind the point.
    FractionDigits(DigitCount),
}

impl<'g> Facet<'g> {
    fn of(row: Row<'g>) -> Facet<'g> {
        let characters = CharacterCount(u64::from(row.b()) << 32 | u64::from(row.a()));
        let digits = DigitCount(row.a());
        match row.tag() {
            sys::LUBIKSAN_IR_MIN_LENGTH => Facet::MinLength(characters),
            sys::LUBIKSAN_IR_MAX_LENGTH => Facet::MaxLength(characters),
            sys::LUBIKSAN_IR_MIN_INCLUSIVE => Facet::MinInclusive(row.text(FIRST)),
            sys::LUBIKSAN_IR_MAX_INCLUSIVE => Facet::MaxInclusive(row.text(FIRST)),
            sys::LUBIKSAN_IR_TOTAL_DIGITS => Facet::TotalDigits(digits),
            sys::LUBIKSAN_IR_FRACTION_DIGITS => Facet::FractionDigits(digits),
            _ => Facet::Pattern(row.text(FIRST)),
        }
    }

    /// The facet's name in XSD.
    pub fn name(&self) -> &'static str {
        match self {
            Facet::Pattern(_) => "pattern",
            Facet::MinLength(_) => "minLength",
            Facet::MaxLength(_) => "maxLength",
            Facet::MinInclusive(_) => "minInclusive",
            Facet::MaxInclusive(_) => "maxInclusive",
            Facet::TotalDigits(_) => "totalDigits",
            Facet::FractionDigits(_) => "fractionDigits",
        }
    }
}
