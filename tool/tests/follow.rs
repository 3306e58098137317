//! The rows that the program follows are those that the library makes, tag by tag.

mod common;

use std::fmt::Write;
use std::path::Path;

use common::{cases, lubiksan, schemas, side_by_side, Folder, Random};
use lubiksan::{ReadAs, SchemaSheet};
use lubiksan_tool::follow;
use lubiksan_tool::reading::read_on;
use lubiksan_tool::source::Source;

/// Reads on by one event at a time: the event behind which a row first stands, of those that stand at the end, made it. `None`
/// where the library refuses an event.
fn made(source: &Source, read_as: ReadAs) -> Option<Vec<usize>> {
    let mut sheet = SchemaSheet::cleared(read_as);
    let mut rows = vec![0; sheet.rows_used()];
    for index in 0..source.document().events().len() {
        read_on(source, &mut sheet, 1, |_| Ok(())).ok()?;
        // No event takes rows away and adds others: where content is replaced, its head stays alone.
        rows.truncate(sheet.rows_used());
        rows.resize(sheet.rows_used(), index);
    }
    Some(rows)
}

fn followed(source: &Source) {
    for read_as in [ReadAs::Standard, ReadAs::Original] {
        let Some(expected) = made(source, read_as) else {
            continue;
        };
        let events = source.document().events().len();
        let rows = follow::rows(source.document(), read_as, events);
        assert_eq!(rows, expected, "{read_as:?} {}", source.path().display());
    }
}

#[test]
fn schemas_are_followed() {
    side_by_side(&schemas(), |file| followed(&Source::load(file).unwrap()));
}

const TAGS: [&str; 20] = [
    "schema",
    "complexType",
    "simpleType",
    "complexType",
    "simpleType",
    "sequence",
    "choice",
    "simpleContent",
    "extension",
    "restriction",
    "element",
    "element",
    "element",
    "attribute",
    "any",
    "enumeration",
    "pattern",
    "annotation",
    "all",
    "xs:sequence",
];

/// A tree of tags with names and types here and there.
fn tree(random: &mut Random, depth: usize, text: &mut String) {
    let tag = TAGS[random.below(TAGS.len())];
    let named = matches!(tag, "complexType" | "simpleType") || random.below(4) > 0;
    let name = if named { " name='n' value='v'" } else { "" };
    let typed = if random.below(4) > 0 { " type='t'" } else { "" };
    if depth == 0 || random.below(3) == 0 {
        let _ = write!(text, "<{tag}{name}{typed}/>");
        return;
    }
    let _ = write!(text, "<{tag}{name}{typed}>");
    for _ in 0..random.below(4) {
        tree(random, depth - 1, text);
    }
    let _ = write!(text, "</{tag}>");
}

#[test]
fn random_trees_are_followed() {
    let mut random = Random(26);
    for _ in 0..cases(1_500) {
        let mut text = String::from("<schema>");
        for _ in 0..random.below(8) {
            tree(&mut random, 5, &mut text);
        }
        text += "</schema>";
        followed(&Source::of(Path::new("a.xsd"), text.into_bytes()).unwrap());
    }
}

#[test]
fn names_have_places_behind_any_number_of_tags() {
    let folder = Folder::new();
    let tags = "<sequence/>".repeat(60_000);
    let text = format!(
        "<schema>\n{tags}<complexType name='T'>\n<sequence><element name='e' type='date'/></sequence></complexType></schema>"
    );
    let file = folder.put("a.xsd", text);
    let ran = lubiksan(["names".as_ref(), file.as_os_str()]);
    assert_eq!(
        (ran.status, ran.out.as_str()),
        (
            Some(0),
            "  T  T  complex type, line 2\n  e  e  field of struct \"T\", line 3\n"
        )
    );
}
