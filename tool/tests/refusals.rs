//! Refusals in words, with file, line, column, number and event; warnings; what is read and what is not.

mod common;

use std::fs;

use common::{lubiksan, marked, Folder, Ran};

/// Runs `graph --format rows` on a schema that is in a file `a.xsd`; its folder is cut from the words.
fn graph(text: impl AsRef<[u8]>, more: &[&str]) -> Ran {
    let folder = Folder::new();
    let file = folder.put("a.xsd", text);
    let mut args = vec!["graph", file.to_str().unwrap(), "--format", "rows"];
    args.extend(more);
    let mut ran = lubiksan(args);
    ran.err = ran.err.replace(&format!("{}/", folder.0.display()), "");
    ran
}

/// The words on standard error and the line on standard output of a refused schema.
fn refused(text: impl AsRef<[u8]>) -> (String, String) {
    let ran = graph(text, &[]);
    assert_eq!(ran.status, Some(1), "{}{}", ran.out, ran.err);
    (ran.err.trim_end().to_owned(), ran.out.trim_end().to_owned())
}

fn sequence(element: &str) -> String {
    format!("<schema>\n <complexType name=\"T\">\n  <sequence>\n   {element}\n  </sequence>\n </complexType>\n</schema>")
}

fn facet(facet: &str) -> String {
    format!("<schema>\n <simpleType name=\"T\">\n  <restriction base=\"string\">{facet}</restriction>\n </simpleType>\n</schema>")
}

#[test]
fn numbers_are_refused_with_the_place_of_the_value() {
    let (words, line) = refused(sequence(r#"<element name="a" type="b" minOccurs="x"/>"#));
    assert_eq!(
        words,
        r#"a.xsd:4:42: minOccurs "x" is not a number (refused with 10, event 3)"#
    );
    assert_eq!(line, "read 10 3");
    let (words, _) = refused(sequence(
        r#"<element name="é’" type="b" maxOccurs="4294967296"/>"#,
    ));
    assert_eq!(
        words,
        r#"a.xsd:4:4: name "é’" has a character above U+017F (refused with 5, event 3)"#
    );
    let (words, _) = refused(sequence(r#"<element name="é" type="ß" maxOccurs="é"/>"#));
    assert_eq!(
        words,
        r#"a.xsd:4:42: maxOccurs "é" is not a number (refused with 10, event 3)"#
    );
    let (words, _) = refused(sequence(
        r#"<element name="a" type="b" minOccurs='1' maxOccurs='4294967296'/>"#,
    ));
    assert_eq!(
        words,
        r#"a.xsd:4:56: maxOccurs "4294967296" is above 4294967295 (refused with 10, event 3)"#
    );
    let (words, _) = refused(facet(r#"<minLength value=""/>"#));
    assert_eq!(
        words,
        r#"a.xsd:3:48: minLength "" is not a number (refused with 10, event 3)"#
    );
    let (words, _) = refused(facet("<maxLength value='18446744073709551616'/>"));
    assert!(words.contains("is above 18446744073709551615 (refused with 10, event 3)"));
    for (value, why) in [
        (" 99999999999 ", "is above 4294967295"),
        ("\t+99999999999\r\n", "is above 4294967295"),
        (" -5 ", "is below 0"),
        ("- 0", "is not a number"),
        ("  ", "is not a number"),
    ] {
        let element = format!("<element name='a' type='b' maxOccurs='{value}'/>");
        let (words, _) = refused(sequence(&element));
        assert!(
            words.contains(&format!(" {why} (refused with 10, ")),
            "{words}"
        );
    }
    let (words, _) = refused(facet("<!-- ü --><totalDigits/>"));
    assert_eq!(
        words,
        "a.xsd:3:40: totalDigits has no value (refused with 10, event 3)"
    );
}

#[test]
fn tags_are_refused_with_the_place_of_the_tag() {
    let (words, line) = refused("<schema>\r\n\t<complexType>\r\n</complexType></schema>");
    assert_eq!(
        words,
        "a.xsd:2:2: complexType has no name (refused with 9, event 1)"
    );
    assert_eq!(line, "read 9 1");
    let (words, _) = refused("<éƀ/>");
    assert_eq!(
        words,
        r#"a.xsd:1:1: the tag name "éƀ" has a character above U+017F (refused with 5, event 0)"#
    );
    let (words, _) = refused("<é ΐ='ß'/>");
    assert_eq!(
        words,
        r#"a.xsd:1:1: the attribute name "ΐ" has a character above U+017F (refused with 5, event 0)"#
    );
    let attributes: String = (0..33).map(|i| format!(" a{i}=''")).collect();
    let (words, line) = refused(format!("<a{attributes}/>"));
    assert_eq!(
        words,
        r#"a.xsd:1:1: the tag "a" has 33 attributes, more than 32 (refused with 3, event 0)"#
    );
    assert_eq!(line, "read 3 0");
    let (words, _) = refused(format!("{}{}", "<a>".repeat(256), "</a>".repeat(256)));
    assert_eq!(
        words,
        r#"a.xsd:1:766: the tag "a" stands inside 255 others, the most that may be open (refused with 7, event 255)"#
    );
}

#[test]
fn the_limits_are_refused() {
    let long = "x".repeat(65_536);
    let (words, line) = refused(format!("<schema>\n<a b='{long}'/></schema>"));
    assert!(
        words.starts_with(r#"a.xsd:2:1: the tag "a" is too long: the tag takes 65538 bytes"#),
        "{words}"
    );
    assert_eq!(line, "read 1 0");
    let (words, line) = refused(format!(
        "<schema>{}</schema>",
        "<element name='a' type='b'/>".repeat(5_000)
    ));
    assert!(
        words.ends_with(
            "a schema sheet has 4,096 rows and 65,536 bytes of names (refused with 11, event 4095)"
        ),
        "{words}"
    );
    assert_eq!(line, "read 11 4095");
    let (words, line) = refused(format!("<a>{}</a>", "<b/>".repeat(1_000_000)));
    assert!(
        words.contains(r#"the tag "b" stands behind 1,000,000 events"#),
        "{words}"
    );
    assert_eq!(line, "read 8 1000000");
}

#[test]
fn lowering_is_refused_in_words() {
    let (words, line) = refused("<a/>");
    assert_eq!(words, "a.xsd: there is no schema element (refused with 12)");
    assert_eq!(line, "read 0 1\nlower 12 0");
    let text = "<schema>\n<element name='e' type='t'/>\n  <simpleType name='Q'><restriction base='xs:QName'/></simpleType></schema>";
    let (words, line) = refused(text);
    assert_eq!(
        words,
        r#"a.xsd:3:3: simpleType "Q" has the base "xs:QName", which is not built in (refused with 13)"#
    );
    assert_eq!(line, "read 0 6\nlower 13 3");
    let twice = "<schema><simpleType name='Q'><restriction base='string'/></simpleType>\n<simpleType name='Q'><list/></simpleType></schema>";
    assert_eq!(
        refused(twice).0,
        r#"a.xsd:2:1: simpleType "Q" has no base (refused with 13)"#
    );
    let names: String = (0..600)
        .map(|i| format!("<element name='{}{i}' type='b'/>", "AbcdEfgh".repeat(6)))
        .collect();
    let (words, line) = refused(sequence(&names));
    assert_eq!(
        words,
        "a.xsd: the graph needs more than 4,096 rows or 65,536 bytes of names (refused with 15)"
    );
    assert_eq!(line, "read 0 606\nlower 15 0");
}

#[test]
fn thirteen_from_a_stored_sheet_names_the_type() {
    let folder = Folder::new();
    let file = folder.put(
        "a.xsd",
        "<schema><simpleType name='Q'><list/></simpleType></schema>",
    );
    let sheet = folder.path("a.sheet");
    let (file, sheet) = (file.to_str().unwrap(), sheet.to_str().unwrap());
    assert_eq!(lubiksan(["read", file, "--sheet", sheet]).status, Some(0));
    let ran = lubiksan(["graph", sheet]);
    assert_eq!(ran.status, Some(1));
    assert!(
        ran.err
            .ends_with("a.sheet: simpleType \"Q\" has no base (refused with 13)\n"),
        "{}",
        ran.err
    );
}

/// Two types, a simple and a complex one, on lines 2 and 4 of a file, or 4 and 2.
fn two_types(first: (&str, &str), second: (&str, &str)) -> String {
    let one = |(tag, name): (&str, &str)| {
        format!("  <{tag} name='{name}'>\n<restriction base='string'/></{tag}>\n")
    };
    format!("<schema>\n{}{}</schema>", one(first), one(second))
}

#[test]
fn types_of_one_name_are_refused_with_both_places() {
    let (simple, complex) = ("simpleType", "complexType");
    let (words, line) = refused(two_types(
        (simple, "Amount_SimpleType"),
        (simple, "AmountSimpleType"),
    ));
    assert_eq!(
        words,
        r#"a.xsd:4:3: type "AmountSimpleType" has the same Rust name as "Amount_SimpleType" in line 2 (refused with 20)"#
    );
    assert_eq!(line, "read 0 8\nlower 20 3");
    let (words, line) = refused(two_types((complex, "AB"), (simple, "a_b")));
    assert_eq!(
        words,
        r#"a.xsd:2:3: type "AB" has the same Rust name as "a_b" in line 4 (refused with 20)"#
    );
    assert_eq!(line, "read 0 8\nlower 20 2");
    let (words, _) = refused(two_types((complex, "T"), (complex, "T")));
    assert_eq!(
        words,
        r#"a.xsd:4:3: type "T" has the same Rust name as "T" in line 2 (refused with 20)"#
    );
    let nested = "<schema><complexType name='T'>\n<complexType name='T'></complexType></complexType>\n<complexType name='_T'></complexType></schema>";
    assert_eq!(
        refused(nested).0,
        r#"a.xsd:3:1: type "_T" has the same Rust name as "T" in line 1 (refused with 20)"#
    );
    let other = "<schema><element name='T' type='T'/><complexType name='T'><choice/></complexType><element name='T' type='T'/></schema>";
    assert_eq!(graph(other, &[]).status, Some(0));
}

#[test]
fn thirteen_comes_before_twenty() {
    let twice = two_types(("simpleType", "A"), ("simpleType", "A"));
    let text = twice.replace(
        "</schema>",
        "<simpleType name='Q'><list/></simpleType></schema>",
    );
    assert_eq!(
        refused(text).0,
        r#"a.xsd:6:1: simpleType "Q" has no base (refused with 13)"#
    );
}

#[test]
fn types_of_one_name_in_a_stored_sheet_are_read_on_and_named() {
    let folder = Folder::new();
    let file = folder.put(
        "a.xsd",
        two_types(("complexType", "AB"), ("simpleType", "a_b")),
    );
    let sheet = folder.path("a.sheet");
    let (file, sheet) = (file.to_str().unwrap(), sheet.to_str().unwrap());
    let part = lubiksan(["read", file, "--sheet", sheet, "--events", "7"]);
    assert_eq!(part.status, Some(0), "{}", part.err);
    assert_eq!(lubiksan(["read", file, "--sheet", sheet]).status, Some(0));
    assert_eq!(lubiksan(["check", sheet]).status, Some(0));
    let ran = lubiksan(["graph", sheet]);
    assert_eq!(ran.status, Some(1));
    let words = "a.sheet: type \"AB\" has the same Rust name as \"a_b\" (refused with 20)\n";
    assert!(ran.err.ends_with(words), "{}", ran.err);
}

/// Texts that are no XML, and why. Those without a character above U+017F are refused by the library, with 17.
const BAD: [(&[u8], &str); 33] = [
    (
        b"<schema>\n<a/>\n",
        r#"a.xsd:3:1: the file ends, and "schema" of line 1 is not closed"#,
    ),
    (
        b"<schema><a></schema>",
        r#"a.xsd:1:12: the close of "schema" where "a" of line 1 is open"#,
    ),
    (
        b"<schema/></a>",
        r#"a.xsd:1:10: the close of "a" where no tag is open"#,
    ),
    (
        b"<a b='1' b='2'/>",
        r#"a.xsd:1:10: the attribute "b" stands there twice"#,
    ),
    (b"<a>\xff</a>", "a.xsd:1:4: a byte that is no UTF-8"),
    (
        b"<a>\0</a>",
        "a.xsd:1:4: the character U+0000 is not allowed in XML",
    ),
    (
        b"<a b='\x01'/>",
        "a.xsd:1:7: the character U+0001 is not allowed in XML",
    ),
    (b"", "a.xsd:1:1: the file has no root element"),
    (b"<!-- a -->", "a.xsd:1:11: the file has no root element"),
    (b"<a/><b/>", "a.xsd:1:5: a second root element"),
    (b"<a/>x", "a.xsd:1:5: text outside the root element"),
    (b"x<a/>", "a.xsd:1:1: text outside the root element"),
    (
        b"<a><![CDATA[x]]></a><![CDATA[x]]>",
        "a.xsd:1:21: a CDATA section outside the root element",
    ),
    (
        b"<a b=c/>",
        r#"a.xsd:1:6: the value of "b" is not in quotes"#,
    ),
    (b"<a b/>", r#"a.xsd:1:4: the attribute "b" has no value"#),
    (
        b"<a b='1'c='2'/>",
        "a.xsd:1:9: white space is missing before an attribute",
    ),
    (b"<a b='<'/>", "a.xsd:1:7: \"<\" in a value"),
    (
        b"<a b='&x;'/>",
        r#"a.xsd:1:7: the reference "&x;" stands for nothing"#,
    ),
    (b"<a b='&'/>", "a.xsd:1:7: \"&\" that starts no reference"),
    (
        b"<a>&#0;</a>",
        r#"a.xsd:1:4: the reference "&#0;" stands for nothing"#,
    ),
    (b"<a>]]></a>", "a.xsd:1:4: \"]]>\" in text"),
    (b"<a><!-- -- --></a>", "a.xsd:1:4: \"--\" in a comment"),
    (b"<a", "a.xsd:1:1: the file ends inside a tag"),
    (b"<a><!-- ", "a.xsd:1:4: the file ends inside a comment"),
    (
        b" <?xml version='1.0'?><a/>",
        "a.xsd:1:2: the XML declaration is not at the start of the file",
    ),
    (
        b"\xff\xfe<\0a\0",
        "a.xsd:1:1: the file is in UTF-16, only UTF-8 is read; write the file anew by `iconv -f UTF-16 -t UTF-8` and have its first line say UTF-8",
    ),
    (b"<1a/>", "a.xsd:1:2: a tag has no name"),
    (b"<\xc2\xb7a/>", "a.xsd:1:2: a tag has no name"),
    (
        b"<a \xc3\x97=''/>",
        "a.xsd:1:4: an attribute has no name",
    ),
    (
        b"<\xc3\xa9></\xc3\x89>",
        "a.xsd:1:4: the close of \"\u{c9}\" where \"\u{e9}\" of line 1 is open",
    ),
    (
        b"<a \xc3\x9f='' \xc3\x9f=''/>",
        "a.xsd:1:9: the attribute \"\u{df}\" stands there twice",
    ),
    (
        b"<a><?xml x?></a>",
        "a.xsd:1:4: the XML declaration is not at the start of the file",
    ),
    (
        b"<a/><!DOCTYPE a>",
        "a.xsd:1:5: a document type behind the root element",
    ),
];

#[test]
fn what_is_no_xml_is_refused() {
    for (text, words) in BAD {
        let shown = String::from_utf8_lossy(text);
        let is_text = std::str::from_utf8(text).is_ok();
        let number = if is_text { " (refused with 17)" } else { "" };
        let (said, line) = refused(text);
        assert_eq!(
            (said, line.as_str()),
            (format!("{words}{number}"), ""),
            "{shown}"
        );
        if is_text {
            assert_eq!(refused(marked(text)).0, words, "{shown}");
        }
    }
}

#[test]
fn the_name_of_an_encoding_is_looked_up_only_where_it_matters() {
    let text = "<?xml version='1.0' encoding='latin1'?><schema/>";
    assert_eq!(graph(text, &[]).status, Some(0), "ASCII is read as it is");
    let words = r#"a.xsd:1:31: the encoding "latin1" is not read, only UTF-8; write the file anew by `iconv -f latin1 -t UTF-8` and have its first line say UTF-8"#;
    assert_eq!(refused(marked(text)).0, words);
    assert_eq!(refused(format!("{text}<!-- \u{e9} -->")).0, words);
    assert_eq!(refused(format!("{text}<!-- \u{2019} -->")).0, words);
    assert_eq!(
        refused([text.as_bytes(), b"<!-- \xe9 -->"].concat()).0,
        words
    );
    let (said, _) = refused(text.replace("<schema/>", "<schema>"));
    let words =
        r#"a.xsd:1:48: the file ends, and "schema" of line 1 is not closed (refused with 17)"#;
    assert_eq!(said, words);
    let (said, _) = refused(text.replace("latin1", "1"));
    let words = r#"a.xsd:1:31: the encoding "1" is not read, only UTF-8 (refused with 17)"#;
    assert_eq!(said, words);
}

#[test]
fn a_byte_order_mark_is_passed_over() {
    let text = sequence(r#"<element name="a" type="b" minOccurs="x"/>"#);
    let (words, _) = refused(marked(text.replacen('\n', "", 3)));
    assert_eq!(
        words,
        r#"a.xsd:1:85: minOccurs "x" is not a number (refused with 10, event 3)"#
    );
    let declared = "<?xml version=\"1.0\" encoding=\"utf-8\"?><schema/>";
    assert_eq!(graph(marked(declared), &[]).status, Some(0));
}

#[test]
fn nothing_is_lost_silently() {
    let types = "<complexType name='A'><sequence/></complexType>\n<simpleType name='B'><restriction base='string'/></simpleType>";
    let text = format!("<schema>\n  <annotation>\n  </annotation>\n{types}</schema>");
    let ran = graph(&text, &["--strict"]);
    assert_eq!((ran.status, ran.err.as_str()), (Some(0), ""));
    let ran = graph(&text, &["--as-original"]);
    let words = "a.xsd:3:3: the schema ended here by the close of \"annotation\": 2 types in the file, 0 kept\n";
    assert_eq!((ran.status, ran.err.as_str()), (Some(0), words));
    let ran = graph(&text, &["--as-original", "--strict"]);
    assert_eq!(
        (ran.status, ran.err.as_str(), ran.out.as_str()),
        (Some(1), words, "")
    );
    let ran = graph(&text, &["--as-original", "--quiet"]);
    assert_eq!((ran.status, ran.err.as_str()), (Some(0), ""));
    let untyped =
        "<schema><element name='e'/><element name='f' type='g'/><complexType name='T'/></schema>";
    let ran = graph(untyped, &[]);
    assert_eq!(
        ran.err,
        "a.xsd:1:9: element \"e\" is not kept, it has no type, and 1 more like it: 1 type in the file, 0 kept; 2 elements in the file, 1 kept\n"
    );
}

#[test]
fn what_a_stored_sheet_lost_is_said_too() {
    let folder = Folder::new();
    let file = folder.put(
        "a.xsd",
        "<schema><annotation> </annotation><element name='e' type='t'/></schema>",
    );
    let sheet = folder.path("a.sheet");
    let (file, sheet) = (file.to_str().unwrap(), sheet.to_str().unwrap());
    let read = lubiksan(["read", file, "--sheet", sheet, "--as-original"]);
    assert!(
        read.err
            .ends_with("by the close of \"annotation\": 1 element in the file, 0 kept\n"),
        "{}",
        read.err
    );
    let ran = lubiksan(["graph", sheet]);
    assert_eq!(ran.status, Some(0));
    assert!(
        ran.err
            .ends_with("a.sheet: 1 element in the source, 0 kept\n"),
        "{}",
        ran.err
    );
    assert_eq!(lubiksan(["graph", sheet, "--strict"]).status, Some(1));
}

#[test]
fn a_stored_sheet_keeps_its_choice() {
    let folder = Folder::new();
    let file = folder.put(
        "a.xsd",
        "<schema><annotation> </annotation><element name='e' type='t'/></schema>",
    );
    let file = file.to_str().unwrap();
    let kinds = [
        ("old.sheet", &["--as-original"][..], "as the original", 0),
        ("new.sheet", &[], "by the standard", 1),
    ];
    for (name, more, said, elements) in kinds {
        let sheet = folder.path(name);
        let sheet = sheet.to_str().unwrap();
        let begun = ["read", file, "--sheet", sheet, "--events", "2"];
        assert_eq!(lubiksan([&begun[..], more].concat()).status, Some(0));
        assert_eq!(
            lubiksan(["read", file, "--sheet", sheet, "--quiet"]).status,
            Some(0)
        );
        let check = lubiksan(["check", sheet]).out;
        assert!(check.contains(&format!("\nread: {said}")), "{check}");
        assert!(
            check.contains(&format!("\nholds: {elements} elements")),
            "{check}"
        );
    }
    let new = folder.path("new.sheet");
    let new = new.to_str().unwrap();
    for args in [
        &["graph", new, "--as-original"][..],
        &["read", file, "--sheet", new, "--as-original"],
    ] {
        let ran = lubiksan(args);
        assert_eq!(ran.status, Some(1));
        assert!(
            ran.err.ends_with("new.sheet: the stored sheet is read by the standard and stays so; --as-original is for a new one\n"),
            "{}",
            ran.err
        );
    }
    let again = ["read", file, "--sheet", new, "--as-original", "--restart"];
    assert_eq!(lubiksan(again).status, Some(0));
    assert!(lubiksan(["check", new])
        .out
        .contains("\nread: as the original"));
}

#[test]
fn files_that_are_not_there_or_can_not_be_read() {
    let folder = Folder::new();
    let absent = folder.path("none.xsd");
    let ran = lubiksan(["graph".as_ref(), absent.as_os_str()]);
    assert_eq!(ran.status, Some(1));
    assert!(ran.err.ends_with("none.xsd: there is no such file\n"));
    let ran = lubiksan(["graph".as_ref(), folder.0.as_os_str()]);
    assert_eq!(ran.status, Some(1));
    assert!(ran.err.ends_with(": it is a folder, not a file\n"));
    assert_eq!(lubiksan(["graph"]).status, Some(2));
    assert_eq!(lubiksan(["grph", "x"]).status, Some(2));
    assert_eq!(lubiksan(["graph", "x", "--format", "xml"]).status, Some(2));
    assert_eq!(lubiksan(["read", "x"]).status, Some(2));
    assert_eq!(lubiksan(["--help"]).status, Some(0));
}

#[test]
fn values_stay_as_written() {
    let text = facet(r#"<pattern value="a&#10;b&amp;&quot;"/>"#);
    let ran = graph(text, &["--format=rows"]);
    assert_eq!(ran.status, Some(2), "an option twice is wrong use");
    let ran = graph(facet(r#"<pattern value="a&#10;b&amp;&quot;"/>"#), &[]);
    assert!(ran.out.ends_with("Ta&#10;b&amp;&quot;\n"), "{}", ran.out);
}

#[test]
fn pieces_are_cut_between_any_tags() {
    let folder = Folder::new();
    let long = "y".repeat(9_000);
    let text = format!(
        "<schema>{}<element name='e' type='t'/></schema>",
        format!("<a b='{long}'/>").repeat(40)
    );
    let file = folder.put("a.xsd", &text);
    let ran = lubiksan([
        "graph".as_ref(),
        file.as_os_str(),
        "--format".as_ref(),
        "rows".as_ref(),
    ]);
    assert_eq!(ran.out.lines().next(), Some("read 0 43"));
    let out = folder.path("t");
    let args: [&std::ffi::OsStr; 4] = [
        "tape".as_ref(),
        file.as_os_str(),
        "--output".as_ref(),
        out.as_os_str(),
    ];
    assert_eq!(lubiksan(args).status, Some(0));
    assert_eq!(
        folder.names(),
        ["a.xsd", "t.000", "t.001", "t.002", "t.003", "t.004", "t.005"]
    );
    let lengths: u32 = (0..6)
        .map(|i| text_length(&folder.path(&format!("t.{i:03}"))))
        .sum();
    assert_eq!(lengths, 40 * 9_002 + 6 + 7 + 4 + 1 + 4 + 1);
}

fn text_length(file: &std::path::Path) -> u32 {
    let bytes = fs::read(file).unwrap();
    u32::from_le_bytes(bytes[..4].try_into().unwrap())
}

/// The files of other encodings, told what to do by their first bytes.
#[test]
fn other_encodings_are_told_what_to_do() {
    for (start, name) in [
        (&b"\xff\xfe<\0"[..], "UTF-16"),
        (b"\xfe\xff\0<", "UTF-16"),
        (b"<\0a\0", "UTF-16LE"),
        (b"\0<\0a", "UTF-16BE"),
        (b"\xff\xfe\0\0<\0\0\0", "UTF-32"),
        (b"\0\0\xfe\xff", "UTF-32"),
        (b"<\0\0\0", "UTF-32LE"),
        (b"\0\0\0<", "UTF-32BE"),
    ] {
        let words = format!(
            "a.xsd:1:1: the file is in {name}, only UTF-8 is read; write the file anew by `iconv -f {name} -t UTF-8` and have its first line say UTF-8"
        );
        let (said, _) = refused(start);
        assert!(said.starts_with(&words), "{said}");
    }
}

/// Document types, well formed or not.
const TYPES: [&str; 10] = [
    "<!DOCTYPE schema>",
    "<!DOCTYPE schema SYSTEM 'a.dtd' >",
    "<!DOCTYPE schema PUBLIC \"-//W3C//DTD\" 'http://a' [ ]>",
    "<!DOCTYPE schema [<!ENTITY a '<b>]>'><!ENTITY b \"'\"><!ENTITY % p ''> %p; <!-- > ' --><?pi ]> ?>]>",
    "<!DOCTYPE schema [<!ELEMENT a (b)><!ELEMENT b (c?,(d|e)*,( f ))+ >]>",
    "<!DOCTYPE schema [<!ENTITY e '&#65;'><!ATTLIST a b CDATA '&e;'>]>",
    "<!DOCTYPE>",
    "<!DOCTYPE a",
    "<!DOCTYPE a [<!-- -- -->]>",
    "<!DOCTYPE a \u{1}>",
];

/// The same text short, long, and with characters up to and above U+017F, in the same words.
#[test]
fn document_types_are_refused_whatever_the_length() {
    let said =
        |place: &str| format!("a.xsd:{place}: a document type is not read (refused with 18)");
    let all_ways = |text: &str, place: &str| {
        let long = format!("{text}{}", " ".repeat(65_536));
        let with = |c: char| format!("{text}<!-- {c} -->");
        for text in [text.to_owned(), long, with('\u{e9}'), with('\u{2019}')] {
            assert_eq!(refused(&text).0, said(place), "{text:.80}");
        }
        assert_eq!(refused(marked(text)).0, said(place), "{text}");
    };
    for text in TYPES {
        all_ways(&format!("{text}<schema/>"), "1:1");
    }
    let prologs = [
        (" \n <!DOCTYPE a>", "2:2"),
        ("<?xml version='1.0'?><!DOCTYPE a><a/>", "1:22"),
        ("<!--<!DOCTYPE x>-->\n<?p <!DOCTYPE ?><!DOCTYPE", "2:17"),
    ];
    for (text, place) in prologs {
        all_ways(text, place);
    }
    let commented = "<!--<!DOCTYPE a>--><schema/>";
    assert_eq!(graph(commented, &[]).status, Some(0));
    assert_eq!(graph(marked(commented), &[]).status, Some(0));
}

#[test]
fn a_schema_of_another_namespace_gets_a_warning() {
    let warned = "it is read as if it were\n";
    for text in [
        "<schema xmlns='urn:other'/>",
        "<o:schema xmlns:o='http://www.w3.org/2000/10/XMLSchema' xmlns='http://www.w3.org/2001/XMLSchema'/>",
        "<a xmlns='urn:other'><b xmlns='http://www.w3.org/2001/XMLSchema'/><schema/></a>",
    ] {
        let ran = graph(text, &["--strict"]);
        assert_eq!(ran.status, Some(0), "it is no refusal: {}", ran.err);
        assert!(ran.err.ends_with(warned), "{}", ran.err);
        assert_eq!(graph(text, &["--quiet"]).err, "");
    }
    let ran = graph("<a>\n<schema xmlns='urn:other'/></a>", &[]);
    let words = "a.xsd:2:1: the schema is of the namespace \"urn:other\", not of XML Schema's, \"http://www.w3.org/2001/XMLSchema\"; it is read as if it were\n";
    assert_eq!(ran.err, words);
    for text in [
        "<schema/>",
        "<schema xmlns='http://www.w3.org/2001/XMLSchema'/>",
        "<a:schema xmlns='urn:other' xmlns:a='http://www.w3.org/2001/XMLSchema'/>",
        "<a xmlns='http://www.w3.org/2001/XMLSchema'><schema/></a>",
    ] {
        assert_eq!(graph(text, &[]).err, "", "{text}");
    }
}
