//! The rows of a graph sheet.

use super::sheet::{names_used, rows_used, Lent, Row, Sheet};
use crate::ir::types::{
    AttrDef, Cardinality, Constraint, FieldDef, TypeDef, TypeGraph, TypeRef, VariantDef,
};
use crate::leaves::builtin_number;

/// The rows of `graph` behind row 0: the namespace, the roots, the types with their children.
pub fn graph_rows(graph: &TypeGraph) -> Vec<Row> {
    let mut rows = vec![Row::new(1, &[&graph.namespace])];
    for root in &graph.root_elements {
        rows.push(Row::new(2, &[&root.xml_name, &root.type_name]));
    }
    for definition in graph.types.values() {
        rows.extend(type_rows(definition));
    }
    rows
}

/// The sheet of `graph`, whose rows are `rows`.
pub fn graph_sheet(graph: &TypeGraph, rows: &[Row], lent: Lent) -> Sheet {
    let mut row0 = [0; 10];
    row0[1] = rows_used(rows) as u32;
    row0[2] = names_used(rows) as u32;
    row0[3] = graph.root_elements.len() as u32;
    row0[4] = graph.types.len() as u32;
    Sheet::packed(row0, rows, lent)
}

fn type_rows(definition: &TypeDef) -> Vec<Row> {
    match definition {
        TypeDef::Struct(d) => head(Row::new(3, &[&d.name]), &d.fields, field_row),
        TypeDef::Enum(d) => head(Row::new(4, &[&d.name]), &d.variants, variant_row),
        TypeDef::Newtype(d) => {
            let first = Row::new(5, &[&d.name]).with(builtin_number(Some(d.inner)), 0);
            head(first, &d.constraints, constraint_row)
        }
        TypeDef::CodeEnum(d) => head(Row::new(6, &[&d.name]), &d.codes, |code| {
            Row::new(18, &[&code.xml_value, &code.rust_name])
        }),
        TypeDef::ValueWithAttr(d) => {
            let first = with_reference(Row::new(7, &[&d.name]), &d.value_type);
            head(first, &d.attributes, attribute_row)
        }
        TypeDef::Opaque(d) => vec![opaque_row(&d.name, d.namespace.as_deref())],
    }
}

/// A head with a row for each of its children.
fn head<C>(first: Row, children: &[C], row: impl Fn(&C) -> Row) -> Vec<Row> {
    [first]
        .into_iter()
        .chain(children.iter().map(row))
        .collect()
}

fn opaque_row(name: &str, namespace: Option<&str>) -> Row {
    match namespace {
        Some(namespace) => Row::new(8, &[name, namespace]).with(1, 0),
        None => Row::new(8, &[name]),
    }
}

/// "A reference is a: 0 named (the pair, normalised), 1 String .. (pair unused)."
fn with_reference(mut row: Row, reference: &TypeRef) -> Row {
    match reference {
        TypeRef::Named(name) => row.texts.push(name.clone()),
        TypeRef::Builtin(builtin) => row.a = builtin_number(Some(*builtin)),
    }
    row
}

fn field_row(field: &FieldDef) -> Row {
    let row = Row::new(9, &[&field.xml_name, &field.rust_name]);
    let (b, c) = match field.cardinality {
        Cardinality::Required => (0, 0),
        Cardinality::Optional => (1, 0),
        Cardinality::Vec => (2, 0),
        Cardinality::BoundedVec(bound) => (3, bound),
    };
    with_reference(Row { b, c, ..row }, &field.type_ref)
}

fn variant_row(variant: &VariantDef) -> Row {
    let row = Row::new(10, &[&variant.xml_name, &variant.rust_name]);
    with_reference(row, &variant.type_ref)
}

fn attribute_row(attribute: &AttrDef) -> Row {
    let row = Row::new(19, &[&attribute.xml_name, &attribute.rust_name]);
    with_reference(
        row.with(0, u32::from(attribute.required)),
        &attribute.type_ref,
    )
}

fn constraint_row(constraint: &Constraint) -> Row {
    match constraint {
        Constraint::Pattern(value) => Row::new(11, &[value]),
        Constraint::MinLength(length) => length_row(12, *length),
        Constraint::MaxLength(length) => length_row(13, *length),
        Constraint::MinInclusive(value) => Row::new(14, &[value]),
        Constraint::MaxInclusive(value) => Row::new(15, &[value]),
        Constraint::TotalDigits(digits) => Row::new(16, &[]).with(*digits, 0),
        Constraint::FractionDigits(digits) => Row::new(17, &[]).with(*digits, 0),
    }
}

fn length_row(tag: u32, length: u64) -> Row {
    Row::new(tag, &[]).with(length as u32, (length >> 32) as u32)
}
