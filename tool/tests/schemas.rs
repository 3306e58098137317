//! Every schema at hand through the program, against the unchanged Rust.

mod common;

use std::fs;
use std::path::Path;
use std::process::{Command, Stdio};

use common::{compiles, lubiksan, schemas, side_by_side, tells_of_names, to_rust, Folder};
use compare::ir::types::{
    AttrDef, Cardinality, Constraint, FieldDef, RustType, TypeDef, TypeGraph, TypeRef, VariantDef,
};
use compare::paper::graph::{graph_rows, graph_sheet};
use compare::paper::sheet::{Lent, Row};
use compare::paper::tree::{declared, Kind};
use lubiksan::{Event, Tag, Tape};
use serde_json::{json, Value};

/// The graph of the unchanged Rust; none where it refuses the schema.
fn judged(file: &Path) -> Option<TypeGraph> {
    let text = fs::read_to_string(file).unwrap();
    let schema = compare::xsd::parser::parse_str(&text).ok()?;
    compare::ir::lower::lower(&schema).ok()
}

fn events(file: &Path) -> usize {
    compare::events::events_of_xml(&fs::read_to_string(file).unwrap())
        .unwrap()
        .len()
}

/// What `rows` is to print.
fn expected_rows(file: &Path, graph: &TypeGraph) -> String {
    let rows: Vec<Row> = graph_rows(graph);
    let names = rows
        .iter()
        .flat_map(|row| &row.texts)
        .map(String::len)
        .sum();
    let sheet = graph_sheet(
        graph,
        &rows,
        Lent {
            rows: 10 * (1 + rows.len()),
            names,
        },
    );
    let mut text = format!("read 0 {}\nlower 0 {}\n", events(file), 1 + rows.len());
    for ten in sheet.rows.chunks(10) {
        let numbers: Vec<String> = ten.iter().map(u32::to_string).collect();
        text += &(numbers.join(" ") + "\n");
    }
    text + std::str::from_utf8(&sheet.names).unwrap() + "\n"
}

/// What `rows` prints, with 0 for the event of each root and type: the Rust has none.
fn without_numbers(printed: &str) -> String {
    let used = |line: &str| line.split(' ').nth(1).and_then(|n| n.parse::<usize>().ok());
    let rows = printed.lines().nth(2).and_then(used).unwrap_or(0);
    let cleared = |(index, line): (usize, &str)| {
        let numbers: Vec<&str> = line.trim_end_matches('\n').split(' ').collect();
        let head = matches!(numbers[0], "2" | "3" | "4" | "5" | "6" | "7" | "8");
        match (3..2 + rows).contains(&index) && head {
            true => numbers[..9].join(" ") + " 0\n",
            false => line.to_owned(),
        }
    };
    let lines = printed.split_inclusive('\n').enumerate();
    lines.map(cleared).collect()
}

/// The line of each tag, by looking for `<` outside comments, instructions and CDATA; none for a file with a document type.
fn lines_of_tags(text: &str) -> Option<Vec<usize>> {
    let mut lines = Vec::new();
    let mut at = 0;
    while let Some(found) = text[at..].find('<') {
        let start = at + found;
        let end = match &text[start..] {
            rest if rest.starts_with("<!--") => "-->",
            rest if rest.starts_with("<?") => "?>",
            rest if rest.starts_with("<![CDATA[") => "]]>",
            rest if rest.starts_with("<!") => return None,
            _ => "",
        };
        if end.is_empty() {
            lines.push(1 + text[..start].matches('\n').count());
        }
        at = start + 1 + text[start + 1..].find(end)?;
    }
    Some(lines)
}

/// Takes event, file and line from a root or type; they are those of a tag with this name.
fn take_origin(shown: &mut Value, file: &Path, named: impl Fn(&str) -> bool) {
    let text = fs::read_to_string(file).unwrap();
    let keys = shown.as_object_mut().unwrap();
    let [event, path, line] = ["event", "file", "line"].map(|key| keys.remove(key).unwrap());
    let event = event.as_u64().unwrap() as usize;
    assert_eq!(path, json!(file.to_str().unwrap()));
    if let Some(lines) = lines_of_tags(&text) {
        assert_eq!(line, json!(lines[event]), "{}", file.display());
    }
    let events = compare::events::events_of_xml(&text).unwrap();
    let (compare::tape::Event::Start(tag) | compare::tape::Event::Empty(tag)) = &events[event]
    else {
        panic!("event {event} of {} is a close", file.display());
    };
    let name = tag.attributes.iter().find(|(key, _)| key == "name");
    assert!(name.is_some_and(|(_, name)| named(name)), "{tag:?}");
}

#[test]
fn there_are_schemas() {
    assert!(schemas().len() >= 3);
}

#[test]
fn rows_are_those_of_the_unchanged_rust() {
    for file in schemas() {
        let ran = lubiksan([
            "graph".as_ref(),
            file.as_os_str(),
            "--format".as_ref(),
            "rows".as_ref(),
            "--as-original".as_ref(),
            "--quiet".as_ref(),
        ]);
        match judged(&file) {
            Some(graph) => {
                assert_eq!(
                    (ran.status, ran.err.as_str()),
                    (Some(0), ""),
                    "{}",
                    file.display()
                );
                assert!(
                    without_numbers(&ran.out) == expected_rows(&file, &graph),
                    "{}",
                    file.display()
                );
            }
            None => assert_eq!(ran.status, Some(1), "{}: {}", file.display(), ran.err),
        }
    }
}

/// By the standard a sheet holds the elements with name and type and the named types directly in the schema.
#[test]
fn a_sheet_holds_what_an_xml_parser_counts() {
    let folder = Folder::new();
    let mut compared = 0;
    for (index, file) in schemas().iter().enumerate() {
        let text = fs::read_to_string(file).unwrap();
        let tree = declared(&compare::events::events_of_xml(&text).unwrap());
        let sheet = folder.path(&format!("s{index}.sheet"));
        let read: [&std::ffi::OsStr; 5] = [
            "read".as_ref(),
            file.as_os_str(),
            "--sheet".as_ref(),
            sheet.as_ref(),
            "--quiet".as_ref(),
        ];
        let ran = lubiksan(read);
        if ran.status != Some(0) {
            assert!(ran.err.contains("(refused with 5"), "{}", ran.err);
            continue;
        }
        let count = |kind: Kind| tree.iter().filter(|(found, _, _)| *found == kind).count();
        let holds = format!(
            "\nholds: {} elements, {} simple types, {} complex types\n",
            count(Kind::Element),
            count(Kind::SimpleType),
            count(Kind::ComplexType)
        );
        let check = lubiksan(["check".as_ref(), sheet.as_os_str()]).out;
        assert!(check.contains("\nread: by the standard\n"), "{check}");
        assert!(check.contains(&holds), "{}: {check}", file.display());
        compared += 1;
    }
    assert!(compared >= 3);
}

#[test]
fn json_is_the_graph_field_by_field() {
    for file in schemas() {
        let Some(graph) = judged(&file) else { continue };
        let ran = lubiksan([
            "graph".as_ref(),
            file.as_os_str(),
            "--format".as_ref(),
            "json".as_ref(),
            "--as-original".as_ref(),
        ]);
        let mut shown: Value = serde_json::from_str(&ran.out).unwrap();
        assert_eq!(shown["version"], json!(3));
        for root in shown["roots"].as_array_mut().unwrap() {
            let name = root["xml"].as_str().unwrap().to_owned();
            take_origin(root, &file, |found| found == name);
        }
        for found in shown["types"].as_array_mut().unwrap() {
            let own = found["name"].as_str().unwrap().to_owned();
            let named = |name: &str| compare::leaves::normalize_type_name(name) == own;
            take_origin(found, &file, named);
        }
        assert_eq!(shown["namespace"], json!(graph.namespace));
        let roots: Vec<Value> = graph
            .root_elements
            .iter()
            .map(|r| json!({"xml": r.xml_name, "type": r.type_name}))
            .collect();
        assert_eq!(shown["roots"], json!(roots));
        let types: Vec<Value> = graph.types.values().map(type_json).collect();
        assert_eq!(shown["types"], json!(types), "{}", file.display());
        assert!(shown["notKept"].is_array());
        assert_eq!(shown.as_object().unwrap().len(), 5);
    }
}

fn type_json(found: &TypeDef) -> Value {
    match found {
        TypeDef::Struct(d) => {
            json!({"kind": "struct", "name": d.name, "fields": d.fields.iter().map(field_json).collect::<Vec<_>>()})
        }
        TypeDef::Enum(d) => {
            let variants: Vec<Value> = d.variants.iter().map(variant_json).collect();
            json!({"kind": "choice", "name": d.name, "variants": variants})
        }
        TypeDef::CodeEnum(d) => {
            let codes: Vec<Value> = d
                .codes
                .iter()
                .map(|c| json!({"xml": c.xml_value, "rust": c.rust_name}))
                .collect();
            json!({"kind": "codes", "name": d.name, "codes": codes})
        }
        TypeDef::Newtype(d) => {
            let facets: Vec<Value> = d.constraints.iter().map(facet_json).collect();
            json!({"kind": "newtype", "name": d.name, "inner": builtin(d.inner), "facets": facets})
        }
        TypeDef::ValueWithAttr(d) => {
            let attributes: Vec<Value> = d.attributes.iter().map(attribute_json).collect();
            json!({"kind": "value", "name": d.name, "type": reference(&d.value_type), "attributes": attributes})
        }
        TypeDef::Opaque(d) => json!({"kind": "opaque", "name": d.name, "namespace": d.namespace}),
    }
}

fn field_json(field: &FieldDef) -> Value {
    let cardinality = match field.cardinality {
        Cardinality::Required => json!({"kind": "required"}),
        Cardinality::Optional => json!({"kind": "optional"}),
        Cardinality::Vec => json!({"kind": "vec"}),
        Cardinality::BoundedVec(most) => json!({"kind": "bounded", "most": most}),
    };
    json!({"xml": field.xml_name, "rust": field.rust_name, "type": reference(&field.type_ref), "cardinality": cardinality})
}

fn variant_json(variant: &VariantDef) -> Value {
    json!({"xml": variant.xml_name, "rust": variant.rust_name, "type": reference(&variant.type_ref)})
}

fn attribute_json(attribute: &AttrDef) -> Value {
    let kind = reference(&attribute.type_ref);
    json!({"xml": attribute.xml_name, "rust": attribute.rust_name, "type": kind, "required": attribute.required})
}

fn facet_json(constraint: &Constraint) -> Value {
    match constraint {
        Constraint::Pattern(value) => json!({"facet": "pattern", "value": value}),
        Constraint::MinLength(count) => json!({"facet": "minLength", "characters": count}),
        Constraint::MaxLength(count) => json!({"facet": "maxLength", "characters": count}),
        Constraint::MinInclusive(value) => json!({"facet": "minInclusive", "value": value}),
        Constraint::MaxInclusive(value) => json!({"facet": "maxInclusive", "value": value}),
        Constraint::TotalDigits(count) => json!({"facet": "totalDigits", "digits": count}),
        Constraint::FractionDigits(count) => json!({"facet": "fractionDigits", "digits": count}),
    }
}

fn reference(reference: &TypeRef) -> Value {
    match reference {
        TypeRef::Named(name) => json!({"named": name}),
        TypeRef::Builtin(kind) => json!({"builtin": builtin(*kind)}),
    }
}

fn builtin(kind: RustType) -> &'static str {
    match kind {
        RustType::String => "String",
        RustType::Bool => "Bool",
        RustType::Decimal => "Decimal",
        RustType::Date => "Date",
        RustType::DateTime => "DateTime",
    }
}

#[test]
fn rust_compiles_or_names_refuses_in_the_same_words() {
    let folder = Folder::new();
    let files: Vec<_> = schemas()
        .into_iter()
        .enumerate()
        .filter(|(_, file)| judged(file).is_some())
        .collect();
    side_by_side(&files, |(index, file)| {
        let source = folder.path(&format!("s{index}.rs"));
        let rust = to_rust(file, &source);
        let names = lubiksan(["names".as_ref(), file.as_os_str(), "--quiet".as_ref()]);
        assert_eq!(
            (rust.status, &rust.err),
            (names.status, &names.err),
            "{}",
            file.display()
        );
        assert_eq!(source.exists(), rust.status == Some(0));
        if rust.status == Some(0) {
            compiles(&source, "2015");
            compiles(&source, "2024");
        } else {
            assert!(tells_of_names(&rust.err), "{}", rust.err);
        }
    });
}

#[test]
fn dot_is_taken_by_graphviz_where_that_is_installed() {
    let installed = Command::new("dot").arg("-V").output().is_ok();
    for file in schemas().iter().filter(|file| judged(file).is_some()) {
        let ran = lubiksan([
            "graph".as_ref(),
            file.as_os_str(),
            "--format".as_ref(),
            "dot".as_ref(),
        ]);
        assert!(ran.out.starts_with("digraph schema {\n") && ran.out.ends_with("}\n"));
        ran.out.lines().for_each(quotes_are_closed);
        if installed {
            taken_by_graphviz(&ran.out);
        }
    }
}

/// A line of dot has its quotes closed, with every quote and backslash inside them escaped.
fn quotes_are_closed(line: &str) {
    let mut inside = false;
    let mut characters = line.chars();
    while let Some(c) = characters.next() {
        match c {
            '"' => inside = !inside,
            '\\' => assert!(
                inside && characters.next().is_some_and(|c| "\\\"l".contains(c)),
                "{line}"
            ),
            _ => assert!(!c.is_control()),
        }
    }
    assert!(!inside, "{line}");
}

fn taken_by_graphviz(text: &str) {
    use std::io::Write;
    let child = Command::new("dot")
        .arg("-Tsvg")
        .stdin(Stdio::piped())
        .stdout(Stdio::null())
        .spawn();
    let mut child = child.unwrap();
    child
        .stdin
        .take()
        .unwrap()
        .write_all(text.as_bytes())
        .unwrap();
    assert!(child.wait().unwrap().success());
}

#[test]
fn text_shows_every_name_and_no_line_breaks_out() {
    for file in schemas() {
        let Some(graph) = judged(&file) else { continue };
        let ran = lubiksan([
            "graph".as_ref(),
            file.as_os_str(),
            "--as-original".as_ref(),
            "--quiet".as_ref(),
        ]);
        let paragraphs: Vec<&str> = ran.out.split("\n\n").collect();
        assert_eq!(
            paragraphs.len(),
            1 + graph.types.len(),
            "{}",
            file.display()
        );
        for (paragraph, name) in paragraphs.iter().skip(1).zip(graph.types.keys()) {
            assert!(paragraph
                .lines()
                .next()
                .is_some_and(|line| line.contains(name.as_str())));
        }
    }
}

#[test]
fn a_stored_sheet_gives_the_same_graph() {
    let folder = Folder::new();
    for file in schemas() {
        let sheet = folder.path("s.sheet");
        let _ = fs::remove_file(&sheet);
        let read: [&std::ffi::OsStr; 5] = [
            "read".as_ref(),
            file.as_os_str(),
            "--sheet".as_ref(),
            sheet.as_ref(),
            "--quiet".as_ref(),
        ];
        if lubiksan(read).status != Some(0) {
            continue;
        }
        for format in ["text", "json", "dot", "rust", "rows"] {
            let one = lubiksan([
                "graph".as_ref(),
                file.as_os_str(),
                "--format".as_ref(),
                format.as_ref(),
            ]);
            let other = lubiksan([
                "graph".as_ref(),
                sheet.as_os_str(),
                "--format".as_ref(),
                format.as_ref(),
            ]);
            assert!(
                (one.status, one.out) == (other.status, other.out),
                "{} {format}",
                file.display()
            );
        }
    }
}

#[test]
fn tapes_are_the_printing_programs_input() {
    let folder = Folder::new();
    for (index, file) in schemas().iter().enumerate() {
        let out = folder.path(&format!("t{index}"));
        let args: [&std::ffi::OsStr; 4] = [
            "tape".as_ref(),
            file.as_os_str(),
            "--output".as_ref(),
            out.as_ref(),
        ];
        assert_eq!(lubiksan(args).status, Some(0));
        let pieces = compare::events::pieces(
            &compare::events::events_of_xml(&fs::read_to_string(file).unwrap()).unwrap(),
        );
        let text = fs::read(file).unwrap();
        let taken =
            std::str::from_utf8(&text).is_ok_and(|text| text.chars().all(|c| c <= '\u{17F}'));
        if let ([piece], true) = (pieces.as_slice(), taken && text.len() <= 65_536) {
            let written = tape_in(&out);
            assert!(written.text() == text, "{}", file.display());
            let expected = Tape::from_buffers(piece.text.clone(), piece.marks.clone());
            assert!(shown(&written) == shown(&expected), "{}", file.display());
            continue;
        }
        for (number, piece) in pieces.iter().enumerate() {
            let name = if pieces.len() == 1 {
                out.clone()
            } else {
                folder.path(&format!("t{index}.{number:03}"))
            };
            let mut bytes = Vec::new();
            bytes.extend((piece.text.len() as u32).to_le_bytes());
            bytes.extend((piece.marks.len() as u32).to_le_bytes());
            bytes.extend(&piece.text);
            bytes.extend(piece.marks.iter().flat_map(|mark| mark.to_le_bytes()));
            assert!(fs::read(name).unwrap() == bytes, "{}", file.display());
        }
    }
}

/// The tape in a file: the two lengths, the text, the marks.
fn tape_in(file: &Path) -> Tape {
    let bytes = fs::read(file).unwrap();
    let numbers = |bytes: &[u8]| -> Vec<u32> {
        let fours = bytes.chunks_exact(4);
        fours
            .map(|four| u32::from_le_bytes(four.try_into().unwrap()))
            .collect()
    };
    let length = numbers(&bytes[..8])[0] as usize;
    let (text, marks) = bytes[8..].split_at(length);
    assert_eq!(marks.len(), 4 * numbers(&bytes[..8])[1] as usize);
    Tape::from_buffers(text.to_vec(), numbers(marks))
}

/// The events of a tape with what they say, wherever it stands in the text.
fn shown(tape: &Tape) -> Vec<(u8, Vec<&[u8]>)> {
    let events = tape.events().map(|event| match event {
        Event::Start(tag) => (1, texts(tag)),
        Event::Empty(tag) => (2, texts(tag)),
        Event::Close => (3, Vec::new()),
    });
    events.collect()
}

fn texts(tag: Tag<'_>) -> Vec<&[u8]> {
    let attributes = tag.attributes().flat_map(|(key, value)| [key, value]);
    std::iter::once(tag.name()).chain(attributes).collect()
}
