//! The type graph that a graph sheet says, read row by row.

use crate::ir::types::{
    AttrDef, Cardinality, CodeEnumDef, CodeValue, Constraint, EnumDef, FieldDef, NewtypeDef,
    OpaqueDef, RootElement, RustType, StructDef, TypeDef, TypeGraph, TypeRef, ValueWithAttrDef,
    VariantDef,
};

use super::sheet::Sheet;

/// A type graph with its types in order.
#[derive(Clone, Debug, PartialEq)]
pub struct Graph {
    pub namespace: String,
    pub roots: Vec<RootElement>,
    pub types: Vec<(String, TypeDef)>,
}

impl From<TypeGraph> for Graph {
    fn from(graph: TypeGraph) -> Graph {
        Graph {
            namespace: graph.namespace,
            roots: graph.root_elements,
            types: graph.types.into_iter().collect(),
        }
    }
}

/// The ten numbers of a row with the names.
#[derive(Clone, Copy)]
struct Ten<'a> {
    numbers: &'a [u32],
    names: &'a [u8],
}

impl Ten<'_> {
    fn tag(self) -> u32 {
        self.numbers[0]
    }

    /// The text under pair `pair`, from 0.
    fn text(self, pair: usize) -> Option<String> {
        let [at, length] = [1, 2].map(|i| self.numbers[2 * pair + i] as usize);
        let bytes = self.names.get(at..)?.get(..length)?;
        String::from_utf8(bytes.to_vec()).ok()
    }

    /// a, b and c.
    fn abc(self) -> [u32; 3] {
        [7, 8, 9].map(|i| self.numbers[i])
    }

    /// The reference whose name stands under pair `pair`.
    fn reference(self, pair: usize) -> Option<TypeRef> {
        match self.abc()[0] {
            0 => self.text(pair).map(TypeRef::Named),
            number => rust_type(number).map(TypeRef::Builtin),
        }
    }

    /// The characters that a length facet counts.
    fn length(self) -> u64 {
        let [low, high, _] = self.abc();
        u64::from(high) << 32 | u64::from(low)
    }
}

fn rust_type(number: u32) -> Option<RustType> {
    let types = [
        RustType::String,
        RustType::Bool,
        RustType::Decimal,
        RustType::Date,
        RustType::DateTime,
    ];
    types.get(number.checked_sub(1)? as usize).copied()
}

/// The graph of a graph sheet; none where a row cannot be read, or row 0 does not count its rows.
pub fn graph_of(sheet: &Sheet) -> Option<Graph> {
    let row0 = sheet.rows.get(..10)?;
    let used = 10 * row0[1] as usize;
    let rows: Vec<Ten<'_>> = sheet
        .rows
        .get(10..used)?
        .chunks(10)
        .map(|numbers| Ten {
            numbers,
            names: &sheet.names,
        })
        .collect();
    let (first, rest) = rows.split_first()?;
    let (roots, types) = rest.split_at_checked(row0[3] as usize)?;
    let graph = Graph {
        namespace: first.text(0).filter(|_| first.tag() == 1)?,
        roots: roots.iter().map(|&row| root(row)).collect::<Option<_>>()?,
        types: definitions(types)?,
    };
    (graph.types.len() == row0[4] as usize).then_some(graph)
}

fn root(row: Ten<'_>) -> Option<RootElement> {
    (row.tag() == 2).then_some(RootElement {
        xml_name: row.text(0)?,
        type_name: row.text(1)?,
    })
}

/// The definitions of the rows, each a head of tag 3 to 8 with the rows behind it.
fn definitions(rows: &[Ten<'_>]) -> Option<Vec<(String, TypeDef)>> {
    let is_head = |row: &Ten<'_>| (3..=8).contains(&row.tag());
    let mut found = Vec::new();
    let mut rest = rows;
    while let Some((head, behind)) = rest.split_first() {
        let count = behind.iter().take_while(|row| !is_head(row)).count();
        let (children, after) = behind.split_at(count);
        found.push((head.text(0)?, definition(*head, children)?));
        rest = after;
    }
    Some(found)
}

fn definition(head: Ten<'_>, children: &[Ten<'_>]) -> Option<TypeDef> {
    let name = head.text(0)?;
    Some(match head.tag() {
        3 => TypeDef::Struct(StructDef {
            name,
            fields: all(children, 9, field)?,
        }),
        4 => TypeDef::Enum(EnumDef {
            name,
            variants: all(children, 10, variant)?,
        }),
        5 => TypeDef::Newtype(NewtypeDef {
            name,
            inner: rust_type(head.abc()[0])?,
            constraints: children
                .iter()
                .map(|&row| constraint(row))
                .collect::<Option<_>>()?,
        }),
        6 => TypeDef::CodeEnum(CodeEnumDef {
            name,
            codes: all(children, 18, code)?,
        }),
        7 => TypeDef::ValueWithAttr(ValueWithAttrDef {
            name,
            value_type: head.reference(1)?,
            attributes: all(children, 19, attribute)?,
        }),
        8 if children.is_empty() => TypeDef::Opaque(OpaqueDef {
            name,
            namespace: namespace(head)?,
        }),
        _ => return None,
    })
}

/// Each of the rows, all of tag `tag`, read by `one`.
fn all<A>(rows: &[Ten<'_>], tag: u32, one: fn(Ten<'_>) -> Option<A>) -> Option<Vec<A>> {
    rows.iter()
        .map(|&row| one(row).filter(|_| row.tag() == tag))
        .collect()
}

fn namespace(head: Ten<'_>) -> Option<Option<String>> {
    match head.abc()[0] {
        0 => Some(None),
        1 => head.text(1).map(Some),
        _ => None,
    }
}

fn field(row: Ten<'_>) -> Option<FieldDef> {
    let [_, b, c] = row.abc();
    let cardinality = match (b, c) {
        (0, 0) => Cardinality::Required,
        (1, 0) => Cardinality::Optional,
        (2, 0) => Cardinality::Vec,
        (3, bound) => Cardinality::BoundedVec(bound),
        _ => return None,
    };
    Some(FieldDef {
        xml_name: row.text(0)?,
        rust_name: row.text(1)?,
        type_ref: row.reference(2)?,
        cardinality,
    })
}

fn variant(row: Ten<'_>) -> Option<VariantDef> {
    Some(VariantDef {
        xml_name: row.text(0)?,
        rust_name: row.text(1)?,
        type_ref: row.reference(2)?,
    })
}

fn code(row: Ten<'_>) -> Option<CodeValue> {
    Some(CodeValue {
        xml_value: row.text(0)?,
        rust_name: row.text(1)?,
    })
}

fn attribute(row: Ten<'_>) -> Option<AttrDef> {
    let required = row.abc()[1];
    Some(AttrDef {
        xml_name: row.text(0)?,
        rust_name: row.text(1)?,
        type_ref: row.reference(2)?,
        required: (required <= 1).then_some(required == 1)?,
    })
}

fn constraint(row: Ten<'_>) -> Option<Constraint> {
    Some(match row.tag() {
        11 => Constraint::Pattern(row.text(0)?),
        12 => Constraint::MinLength(row.length()),
        13 => Constraint::MaxLength(row.length()),
        14 => Constraint::MinInclusive(row.text(0)?),
        15 => Constraint::MaxInclusive(row.text(0)?),
        16 => Constraint::TotalDigits(row.abc()[0]),
        17 => Constraint::FractionDigits(row.abc()[0]),
        _ => return None,
    })
}
