//! Changes as text and as JSON.

use std::fmt::Write;

use serde::ser::SerializeStruct;
use serde::{Serialize, Serializer};

use super::changes::Change;
use super::shape::Shape;
use crate::failure::{escaped, named};

/// The version of the shape of the JSON.
const VERSION: u32 = 1;

/// A line for each change, the most important ones first, then how many there are.
pub fn text(old: &Shape, new: &Shape, changes: &[Change]) -> String {
    let mut out = String::new();
    for change in changes {
        let mark = if change.breaking {
            "breaking"
        } else {
            "        "
        };
        let path = match change.path.is_empty() {
            true => String::new(),
            false => format!("{}: ", escaped(&change.path)),
        };
        let places = places(old, new, change);
        let _ = writeln!(out, "{mark}  {path}{}{places}", escaped(&change.words));
    }
    let breaking = changes.iter().filter(|change| change.breaking).count();
    let changed = if changes.len() == 1 {
        "change"
    } else {
        "changes"
    };
    let _ = writeln!(
        out,
        "{} {changed}, {breaking} of them breaking",
        changes.len()
    );
    out
}

/// ` (OLD:LINE, NEW:LINE)`, as far as these are known.
fn places(old: &Shape, new: &Shape, change: &Change) -> String {
    let place = |shape: &Shape, line: Option<usize>| {
        line.map(|line| format!("{}:{line}", named(&shape.path)))
    };
    let known: Vec<String> = [place(old, change.lines.0), place(new, change.lines.1)]
        .into_iter()
        .flatten()
        .collect();
    match known.is_empty() {
        true => String::new(),
        false => format!(" ({})", known.join(", ")),
    }
}

/// One object with the list of changes.
///
/// # Errors
///
/// The error of the serializer; nothing here is refused.
pub fn json(old: &Shape, new: &Shape, changes: &[Change]) -> Result<String, serde_json::Error> {
    let list = List { old, new, changes };
    let mut text = serde_json::to_string_pretty(&list)?;
    text.push('\n');
    Ok(text)
}

struct List<'c> {
    old: &'c Shape,
    new: &'c Shape,
    changes: &'c [Change],
}

impl Serialize for List<'_> {
    fn serialize<S: Serializer>(&self, out: S) -> Result<S::Ok, S::Error> {
        let breaking = self.changes.iter().filter(|change| change.breaking).count();
        let mut out = out.serialize_struct("diff", 5)?;
        out.serialize_field("version", &VERSION)?;
        out.serialize_field("old", &named(&self.old.path))?;
        out.serialize_field("new", &named(&self.new.path))?;
        out.serialize_field("breaking", &breaking)?;
        let changes: Vec<Shown<'_>> = self.changes.iter().map(Shown).collect();
        out.serialize_field("changes", &changes)?;
        out.end()
    }
}

struct Shown<'c>(&'c Change);

impl Serialize for Shown<'_> {
    fn serialize<S: Serializer>(&self, out: S) -> Result<S::Ok, S::Error> {
        let mut out = out.serialize_struct("change", 6)?;
        out.serialize_field("what", self.0.what)?;
        out.serialize_field("breaking", &self.0.breaking)?;
        out.serialize_field("path", &self.0.path)?;
        out.serialize_field("words", &self.0.words)?;
        out.serialize_field("oldLine", &self.0.lines.0)?;
        out.serialize_field("newLine", &self.0.lines.1)?;
        out.end()
    }
}
