//! The lowering call. The Rust's `lower` gives the graph.

use super::graph::{graph_rows, graph_sheet};
use super::sheet::{fits, good_lengths, rows_used, Row, Sheet};
use super::state::State;
use super::{answer, Answer};
use crate::ir::lower::lower;
use crate::leaves::normalize_type_name;
use crate::xsd::types::{
    Attribute, ChoiceVariant, ComplexContent, ComplexType, Element, Facet, MaxOccurs, Restriction,
    Schema, SequenceElement, SimpleType,
};

/// Order 11: "From now on 14 means fewer than 64".
pub const SCRATCH_LEAST: usize = 64;

/// A lowering's answer, the graph sheet and the scratch afterwards.
#[derive(Clone, Debug, PartialEq, Eq)]
pub struct Lowered {
    pub answer: Answer,
    pub graph: Sheet,
    pub scratch: Vec<u32>,
}

/// The lowering call on `sheet`, with the lent graph sheet and scratch.
pub fn lowering(sheet: &Sheet, graph: &Sheet, scratch: &[u32]) -> Lowered {
    let unchanged = |number| Lowered {
        answer: answer(number, 0),
        graph: graph.clone(),
        scratch: scratch.to_vec(),
    };
    if !good_lengths(sheet.lent()) || !good_lengths(graph.lent()) {
        return unchanged(1);
    }
    match State::of(sheet) {
        None => unchanged(2),
        Some(_) if scratch.len() < SCRATCH_LEAST => unchanged(14),
        Some(state) => state.lowered(graph, scratch.len()),
    }
}

impl State {
    /// The rows of the finished types and the elements, each head with its children, and where
    /// the head's row stands in the sheet.
    pub(super) fn finished(&self) -> Vec<(usize, &[Row])> {
        let mut heads: Vec<(usize, &[Row])> = Vec::new();
        let mut from = 1;
        while from < self.rows.len() {
            let children = self.rows[from + 1..]
                .iter()
                .take_while(|row| row.is_child());
            let to = from + 1 + children.count();
            heads.push((1 + from, &self.rows[from..to]));
            from = to;
        }
        if self.context >= 2 {
            heads.pop();
        }
        heads
    }

    /// How many types are finished.
    pub fn finished_types(&self) -> usize {
        let types = self.finished();
        types.iter().filter(|(_, rows)| rows[0].tag != 2).count()
    }

    /// The finished part as the Rust's schema.
    pub fn schema(&self) -> Schema {
        let mut schema = Schema {
            target_namespace: self.rows[0].texts[0].clone(),
            elements: Vec::new(),
            simple_types: Vec::new(),
            complex_types: Vec::new(),
        };
        for (_, rows) in self.finished() {
            match rows[0].tag {
                2 => schema.elements.push(element(&rows[0])),
                3 => schema.simple_types.push(simple_type(rows)),
                _ => schema.complex_types.push(complex_type(rows)),
            }
        }
        schema
    }

    /// From 12 on: on 0 the graph, on 12, 13, 20 and 15 zeros; the scratch is zero.
    fn lowered(&self, lent: &Sheet, scratch: usize) -> Lowered {
        let scratch = vec![0; scratch];
        match self.lowered_graph(lent) {
            Ok((place, graph)) => Lowered {
                answer: answer(0, place),
                graph,
                scratch,
            },
            Err(refusal) => Lowered {
                answer: refusal,
                graph: zeros(lent),
                scratch,
            },
        }
    }

    fn lowered_graph(&self, lent: &Sheet) -> Result<(u32, Sheet), Answer> {
        if !self.root_seen {
            return Err(answer(12, 0));
        }
        let graph = lower(&self.schema()).map_err(|_| answer(13, self.first_unknown()))?;
        if let Some(row) = self.first_repeated() {
            return Err(answer(20, row));
        }
        let rows = self.numbered(graph_rows(&graph));
        if !fits(&rows, lent.lent()) {
            return Err(answer(15, 0));
        }
        Ok((
            rows_used(&rows) as u32,
            graph_sheet(&graph, &rows, lent.lent()),
        ))
    }

    /// Order 5: the rows of the graph, each root and type with the c of its head. Roots are the elements in order; a type is
    /// found by its name, which only one has.
    fn numbered(&self, mut rows: Vec<Row>) -> Vec<Row> {
        let heads: Vec<&Row> = self.finished().iter().map(|(_, rows)| &rows[0]).collect();
        let mut elements = heads.iter().filter(|head| head.tag == 2);
        let named = |name: &str| {
            let types = heads.iter().filter(|head| head.tag != 2);
            types
                .map(|head| (head, normalize_type_name(&head.texts[0])))
                .find_map(|(head, own)| (own == name).then_some(head.c))
        };
        for row in &mut rows {
            row.c = match row.tag {
                2 => elements.next().expect("a root is an element").c,
                3..=8 => named(&row.texts[0]).expect("a type has a head"),
                _ => row.c,
            };
        }
        rows
    }

    /// The row of the first simple type that the Rust refuses when it stands alone.
    fn first_unknown(&self) -> u32 {
        let found = self.finished().into_iter().find(|(_, rows)| refused(rows));
        found.expect("the Rust refused one").0 as u32
    }

    /// Order 7: "how many finished simple types lowering would refuse by 13", each as the Rust judges it alone.
    pub fn refused_types(&self) -> u32 {
        let finished = self.finished();
        finished.iter().filter(|(_, rows)| refused(rows)).count() as u32
    }
}

/// The Rust refuses the simple type of these rows.
fn refused(rows: &[Row]) -> bool {
    rows[0].tag == 3 && lower(&alone(rows)).is_err()
}

fn zeros(sheet: &Sheet) -> Sheet {
    Sheet {
        rows: vec![0; sheet.rows.len()],
        names: vec![0; sheet.names.len()],
    }
}

/// The schema of one simple type.
fn alone(rows: &[Row]) -> Schema {
    Schema {
        target_namespace: String::new(),
        elements: Vec::new(),
        simple_types: vec![simple_type(rows)],
        complex_types: Vec::new(),
    }
}

fn element(row: &Row) -> Element {
    Element {
        name: row.texts[0].clone(),
        type_name: row.texts[1].clone(),
    }
}

/// The simple type of a head 3 with its facets.
pub fn simple_type(rows: &[Row]) -> SimpleType {
    SimpleType {
        name: rows[0].texts[0].clone(),
        restriction: Restriction {
            base: rows[0].texts[1].clone(),
            facets: rows[1..].iter().map(facet).collect(),
        },
    }
}

fn facet(row: &Row) -> Facet {
    let text = || row.texts[0].clone();
    let length = u64::from(row.b) << 32 | u64::from(row.a);
    match row.tag {
        4 => Facet::Enumeration(text()),
        5 => Facet::Pattern(text()),
        6 => Facet::MinLength(length),
        7 => Facet::MaxLength(length),
        8 => Facet::MinInclusive(text()),
        9 => Facet::MaxInclusive(text()),
        10 => Facet::TotalDigits(row.a),
        _ => Facet::FractionDigits(row.a),
    }
}

/// The complex type of a head 12 to 15 with its children.
pub fn complex_type(rows: &[Row]) -> ComplexType {
    let (head, children) = (&rows[0], rows[1..].iter());
    let content = match head.tag {
        12 => ComplexContent::Sequence(children.map(sequence_element).collect()),
        13 => ComplexContent::Choice(children.map(variant).collect()),
        14 => ComplexContent::SimpleContent {
            base: head.texts[1].clone(),
            attributes: children.map(attribute).collect(),
        },
        _ => ComplexContent::Any {
            namespace: head.texts.get(1).cloned(),
        },
    };
    ComplexType {
        name: head.texts[0].clone(),
        content,
    }
}

fn sequence_element(row: &Row) -> SequenceElement {
    SequenceElement {
        name: row.texts[0].clone(),
        type_name: row.texts[1].clone(),
        min_occurs: row.a,
        max_occurs: if row.tag == 18 {
            MaxOccurs::Unbounded
        } else {
            MaxOccurs::Bounded(row.b)
        },
    }
}

fn variant(row: &Row) -> ChoiceVariant {
    ChoiceVariant {
        name: row.texts[0].clone(),
        type_name: row.texts[1].clone(),
    }
}

fn attribute(row: &Row) -> Attribute {
    Attribute {
        name: row.texts[0].clone(),
        type_name: row.texts[1].clone(),
        required: row.a == 1,
    }
}
