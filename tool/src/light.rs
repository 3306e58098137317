//! The light of order 7: how many finished simple types of a sheet lowering would refuse, and which is the first.

use lubiksan::{Graph, Refusal, SchemaSheet};

use crate::failure::{named, quoted};
use crate::formats::plural;
use crate::origins::Origins;
use crate::source::Source;

/// `2 simple types that lowering would refuse`
pub fn counted(count: usize) -> String {
    let types = plural(count as u64, "type");
    format!("{count} simple {types} that lowering would refuse")
}

/// `, 2 simple types that lowering would refuse (first: "Foo" at a.xsd:12)`, nothing where there is none. The line is there where the
/// source is at hand.
pub fn told(sheet: &SchemaSheet<'_>, source: Option<&Source>) -> String {
    match sheet.refused_types() {
        0 => String::new(),
        count => match first(sheet, source) {
            Some(first) => format!(", {} (first: {first})", counted(count)),
            None => format!(", {}", counted(count)),
        },
    }
}

/// The first of them, as lowering finds it.
fn first(sheet: &SchemaSheet<'_>, source: Option<&Source>) -> Option<String> {
    let Err(Refusal::UnknownBase { row }) = sheet.lower(&mut Graph::new()) else {
        return None;
    };
    let declared = sheet.declared().find(|declared| declared.row == row)?;
    let name = quoted(declared.name);
    Some(match Origins::of(source).at(declared.event()) {
        Some(origin) => format!("{name} at {}:{}", named(origin.file), origin.line),
        None => name,
    })
}
