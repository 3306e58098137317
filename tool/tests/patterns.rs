//! Patterns: the list, its status, and where a refused one is told. What each pattern is was worked out by hand.

mod common;

use common::{lubiksan, Folder, Ran};

const TEXT: &str = "<schema>
<simpleType name='Good'><restriction base='string'><pattern value='[A-Z]{2}'/></restriction></simpleType>
<simpleType name='Bad'><restriction base='string'>
<pattern value='[A-Z'/><pattern value='\\p{L}'/></restriction></simpleType>
</schema>";

fn ran(words: &[&str], text: &str) -> Ran {
    let folder = Folder::new();
    let file = folder.put("a.xsd", text);
    let mut args: Vec<std::ffi::OsString> = words.iter().map(Into::into).collect();
    args.insert(1, file.into_os_string());
    let mut ran = lubiksan(args);
    let before = format!("{}/", folder.0.display());
    ran.err = ran.err.replace(&before, "");
    ran.out = ran.out.replace(&before, "");
    ran
}

#[test]
fn each_pattern_is_listed_with_its_verdict() {
    let ran = ran(&["patterns"], TEXT);
    let lines = "\
a.xsd:2:52: in type \"Good\" the pattern \"[A-Z]{2}\": a regular expression of XML Schema
a.xsd:4:1: in type \"Bad\" the pattern \"[A-Z\": not a regular expression of XML Schema
a.xsd:4:24: in type \"Bad\" the pattern \"\\p{L}\": has a form that is not judged
";
    assert_eq!((ran.status, ran.out.as_str()), (Some(1), lines));
    assert_eq!(ran.err, "a.xsd: 1 pattern refused\n");
}

#[test]
fn without_a_refused_one_the_status_is_0() {
    let text = TEXT.replace("[A-Z'", "[A-Z]'");
    let ran = ran(&["patterns"], &text);
    assert_eq!((ran.status, ran.err.as_str()), (Some(0), ""));
    assert_eq!(ran.out.lines().count(), 3);
}

#[test]
fn a_refused_pattern_is_told_by_names_and_refused_by_strict() {
    let told =
        "a.xsd:4:1: in type \"Bad\" the pattern \"[A-Z\": not a regular expression of XML Schema\n";
    let names = ran(&["names"], TEXT);
    assert_eq!((names.status, names.err.as_str()), (Some(0), told));
    let graph = ran(&["graph"], TEXT);
    assert_eq!((graph.status, graph.err.as_str()), (Some(0), ""));
    let strict = ran(&["graph", "--strict"], TEXT);
    assert_eq!((strict.status, strict.err.as_str()), (Some(1), told));
}

#[test]
fn rust_has_a_note_at_the_type() {
    let rust = ran(&["graph", "--format", "rust"], TEXT);
    let note = "// the pattern \"[A-Z\" is not a regular expression of XML Schema\n";
    assert_eq!(rust.out.matches(note).count(), 1);
    assert!(rust.out.contains(&format!("{note}#[derive")));
}
