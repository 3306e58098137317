//! Names that meet, and references to types that are not there.

mod common;

use std::collections::HashSet;

use common::{compiles, lubiksan, to_rust, Folder, Ran};
use lubiksan::names::{code_to_pascal_case, xml_to_snake_case};
use lubiksan_tool::identifier::identifier;

fn names(text: &str) -> (Ran, Ran) {
    let folder = Folder::new();
    let file = folder.put("a.xsd", text);
    let before = format!("{}/", folder.0.display());
    let cut = |mut ran: Ran| {
        ran.err = ran.err.replace(&before, "");
        ran
    };
    let names = cut(lubiksan(["names".as_ref(), file.as_os_str()]));
    let rust = cut(lubiksan([
        "graph".as_ref(),
        file.as_os_str(),
        "--format".as_ref(),
        "rust".as_ref(),
    ]));
    (names, rust)
}

/// `names` and `rust` end with 1 in these words, at the place that `@` marks in the text.
fn meet(marked: &str, words: &str) {
    let column = 1 + marked.chars().position(|c| c == '@').unwrap();
    let words = format!("a.xsd:1:{column}: {words}\n");
    let (names, rust) = names(&marked.replace('@', ""));
    assert_eq!((names.status, names.err), (Some(1), words.clone()));
    assert_eq!(
        (rust.status, rust.err, rust.out.as_str()),
        (Some(1), words.clone(), "")
    );
    assert!(names.out.lines().any(|line| line.starts_with("! ")) || words.contains("the text of"));
}

fn typed(inside: &str) -> String {
    format!("<schema><complexType name='T'>{inside}</complexType></schema>")
}

#[test]
fn fields_meet() {
    let text = typed(
        "<sequence><element name='AB' type='string'/>@<element name='Ab' type='string'/></sequence>",
    );
    meet(
        &text,
        "two fields of struct \"T\" have the Rust name \"ab\": \"AB\" and \"Ab\"",
    );
    let text = typed("<sequence><element name='a.b' type='string'/>@<element name='a-b' type='string'/></sequence>");
    meet(
        &text,
        "two fields of struct \"T\" have the Rust name \"a_b\": \"a.b\" and \"a-b\"",
    );
}

#[test]
fn variants_meet() {
    let text =
        typed("<choice><element name='A' type='string'/>@<element name='A' type='date'/></choice>");
    meet(
        &text,
        "two variants of choice \"T\" have the Rust name \"A\": \"A\" and \"A\"",
    );
}

#[test]
fn codes_meet() {
    let text = "<schema><simpleType name='C'><restriction base='string'><enumeration value='AB'/>@<enumeration value='ab'/></restriction></simpleType></schema>";
    meet(
        text,
        "two codes of code list \"C\" have the Rust name \"Ab\": \"AB\" and \"ab\"",
    );
}

#[test]
fn attributes_meet() {
    let text = typed("<simpleContent><extension base='date'><attribute name='Ab' type='string'/>@<attribute name='ab' type='string'/></extension></simpleContent>");
    meet(
        &text,
        "two attributes of value \"T\" have the Rust name \"ab\": \"Ab\" and \"ab\"",
    );
}

#[test]
fn types_of_one_name_are_refused_by_both() {
    let text = "<schema><complexType name='a_b'><choice/></complexType><complexType name='AB'><choice/></complexType></schema>";
    let (names, rust) = names(text);
    let words =
        "a.xsd:1:56: type \"AB\" has the same Rust name as \"a_b\" in line 1 (refused with 20)\n";
    assert_eq!((names.status, names.err.as_str()), (Some(1), words));
    assert_eq!((rust.status, rust.err.as_str()), (Some(1), words));
    assert_eq!((names.out.as_str(), rust.out.as_str()), ("", ""));
}

#[test]
fn types_meet_by_their_identifiers() {
    let text = "<schema><complexType name='a.b'><choice/></complexType>@<complexType name='a-b'><choice/></complexType></schema>";
    meet(
        text,
        "two types have the Rust name \"a_b\": \"a.b\" and \"a-b\"",
    );
}

#[test]
fn accented_names_meet_by_case() {
    let choice = |name: &str| format!("<complexType name='{name}'><choice/></complexType>");
    for (first, again) in [
        ("ı_a", "I_a"),
        ("ı_a", "i_a"),
        ("I_a", "i_a"),
        ("ß_a", "SS_a"),
    ] {
        let text = format!("<schema>{}{}</schema>", choice(first), choice(again));
        let column = 9 + choice(first).chars().count();
        let words = format!(
            "a.xsd:1:{column}: type \"{again}\" has the same Rust name as \"{first}\" in line 1 (refused with 20)\n"
        );
        let (names, rust) = names(&text);
        assert_eq!((names.status, names.err), (Some(1), words.clone()));
        assert_eq!((rust.status, rust.err), (Some(1), words));
    }
    let fields = |first: &str, again: &str| {
        typed(&format!(
            "<sequence><element name='{first}' type='string'/>@<element name='{again}' type='string'/></sequence>"
        ))
    };
    meet(
        &fields("Éa", "éa"),
        "two fields of struct \"T\" have the Rust name \"éa\": \"Éa\" and \"éa\"",
    );
    // rustc would take the two for look-alikes, so they have one identifier.
    meet(
        &fields("kayıt", "kayit"),
        "two fields of struct \"T\" have the Rust name \"kayit\": \"kayıt\" and \"kayit\"",
    );
    let text = "<schema><simpleType name='C'><restriction base='string'><enumeration value='ı'/>@<enumeration value='i'/></restriction></simpleType></schema>";
    meet(
        text,
        "two codes of code list \"C\" have the Rust name \"I\": \"ı\" and \"i\"",
    );
    let (ran, _) = names(&fields("CréditÉtat", "İlk_Ödeme").replace('@', ""));
    assert_eq!(ran.status, Some(0));
    let listed = |word: &str| ran.out.lines().any(|line| line.contains(word));
    assert!(
        listed("crédit_état ") && listed("ilk_ödeme "),
        "{}",
        ran.out
    );
}

#[test]
fn references_are_to_types_that_are_there() {
    let text = typed("<sequence>@<element name='x' type='tns:T'/></sequence>");
    meet(
        &text,
        "the field \"x\" of struct \"T\" has the type \"tns:T\", which is not there",
    );
    let text = typed("<simpleContent><extension base='Q'></extension></simpleContent>")
        .replace("<complexType", "@<complexType");
    meet(
        &text,
        "the text of value \"T\" has the type \"Q\", which is not there",
    );
    meet(
        "<schema>@<element name='r' type='p:T'/></schema>",
        "the root element \"r\" has the type \"p:T\", which is not there",
    );
    let (names, rust) = names("<schema><element name='r' type='xs:string'/></schema>");
    assert_eq!((names.status, rust.status), (Some(0), Some(0)));
}

#[test]
fn every_name_is_listed_with_its_place() {
    let (ran, _) = names(
        &std::fs::read_to_string(concat!(
            env!("CARGO_MANIFEST_DIR"),
            "/tests/data/payment.xsd"
        ))
        .unwrap(),
    );
    let line = |line: &str| line.split_whitespace().collect::<Vec<&str>>().join(" ");
    let lines: Vec<String> = ran.out.lines().map(line).collect();
    assert_eq!(
        lines[0],
        "Document Payment root element of type \"Payment\", line 3"
    );
    for expected in [
        "Amount_SimpleType AmountSimpleType simple type, line 33",
        "CreDtTm cre_dt_tm field of struct \"Payment\", line 7",
        "ADDR Addr code of code list \"AddressType2Code\", line 53",
        "Ccy ccy attribute of value \"CurrencyAndAmount\", line 29",
    ] {
        assert!(lines.iter().any(|line| line == expected), "{expected}");
    }
    assert_eq!(lines.len(), 1 + 8 + 5 + 4 + 1 + 2);
}

#[test]
fn from_a_stored_sheet_there_is_no_place() {
    let folder = Folder::new();
    let file = folder.put("a.xsd", "<schema><element name='r' type='p:T'/></schema>");
    let sheet = folder.path("a.sheet");
    let (file, sheet) = (file.to_str().unwrap(), sheet.to_str().unwrap());
    assert_eq!(lubiksan(["read", file, "--sheet", sheet]).status, Some(0));
    let ran = lubiksan(["names", sheet]);
    let words = "a.sheet: the root element \"r\" has the type \"p:T\", which is not there\n";
    assert!(
        ran.status == Some(1) && ran.err.ends_with(words),
        "{}",
        ran.err
    );
    assert_eq!(ran.out, "! r  p_T  root element of type \"p:T\"\n");
}

#[test]
fn places_are_those_of_the_last_definition() {
    let (ran, _) = names(
        "<schema>\n<complexType name='T'>\n<sequence>\n<element name='a' type='date'/>\n</sequence>\n<choice>\n\
         <element name='b' type='date'/>\r\n</choice>\r<element name='c' type='date'/></complexType>\n</schema>",
    );
    let places: Vec<&str> = ran
        .out
        .lines()
        .filter_map(|line| line.rsplit_once(", "))
        .map(|(_, line)| line)
        .collect();
    assert_eq!(places, ["line 2", "line 7", "line 9"]);
}

/// Every character that a value of XML may hold up to U+017F, but for those of markup.
fn characters() -> impl Iterator<Item = char> {
    let ascii = (' '..='~').filter(|c| !"<&'\"".contains(*c));
    ascii.chain('\u{80}'..='\u{17F}')
}

/// Names of one letter between others, those whose identifier came before left out.
fn distinct(rust_name: fn(&str) -> String) -> Vec<String> {
    let mut seen = HashSet::new();
    let names = characters().map(|c| format!("Q{c}q"));
    names
        .filter(|name| seen.insert(identifier(&rust_name(name))))
        .collect()
}

#[test]
fn every_letter_stands_in_an_identifier_that_rustc_does_not_warn_of() {
    let joined = |names: Vec<String>, tag: fn(&str) -> String| -> String {
        names.iter().map(|name| tag(name)).collect()
    };
    let types = joined(distinct(str::to_owned), |name| {
        format!("<complexType name='{name}'><choice/></complexType>")
    });
    let fields = joined(distinct(xml_to_snake_case), |name| {
        format!("<element name='{name}' type='string'/>")
    });
    let codes = joined(distinct(code_to_pascal_case), |name| {
        format!("<enumeration value='{name}'/>")
    });
    let text = format!(
        "<schema>{types}<complexType name='_ß_ŉ_µ'><sequence>{fields}</sequence></complexType>\
         <simpleType name='ªCodes'><restriction base='string'>{codes}</restriction></simpleType></schema>"
    );
    let folder = Folder::new();
    let (file, source) = (folder.put("a.xsd", text), folder.path("a.rs"));
    let ran = to_rust(&file, &source);
    assert_eq!((ran.status, ran.err.as_str()), (Some(0), ""));
    for edition in ["2015", "2024"] {
        compiles(&source, edition);
    }
    let made = std::fs::read_to_string(&source).unwrap();
    for word in ["struct QÄq", "pub qßq: ", " Qéq,", "struct SS_NM "] {
        assert!(made.contains(word), "{word}");
    }
}
