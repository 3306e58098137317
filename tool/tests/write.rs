//! The schema written back by the program: read again it is the same sheet, as the library's text and indented; where it goes; every refusal in
//! words; what is told not to be in it.

mod common;

use std::ffi::OsStr;
use std::fs;
use std::os::unix::fs::PermissionsExt;
use std::path::{Path, PathBuf};
use std::process::Command;

use common::{lubiksan, schemas, side_by_side, Folder, Ran};
use lubiksan::{limits, ReadAs, SchemaSheet, TapeBuilder};
use lubiksan_tool::reading::read_whole;
use lubiksan_tool::source::Source;
use lubiksan_tool::stored::{encoded, About};
use lubiksan_tool::writing::indented;

const ACCOUNT: &str = concat!(env!("CARGO_MANIFEST_DIR"), "/tests/data/account.xsd");
const PAYMENT: &str = concat!(env!("CARGO_MANIFEST_DIR"), "/tests/data/payment.xsd");

/// Runs `write` on a file with more words behind it.
fn write(file: &Path, more: &[&str]) -> Ran {
    let words: Vec<&OsStr> = more.iter().map(OsStr::new).collect();
    lubiksan(
        [OsStr::new("write"), file.as_os_str()]
            .into_iter()
            .chain(words),
    )
}

/// Runs `write` on a text, the folder's name left out of what it says.
fn of_text(text: impl AsRef<[u8]>, more: &[&str]) -> Ran {
    let folder = Folder::new();
    let ran = write(&folder.put("a.xsd", text), more);
    let before = format!("{}/", folder.0.display());
    Ran {
        err: ran.err.replace(&before, ""),
        ..ran
    }
}

/// The rows behind row 0 without the numbers of events, and the names, of a text that is read so.
fn kept(text: &[u8], read_as: ReadAs) -> (Vec<Vec<u32>>, Vec<u8>) {
    let source = Source::of(Path::new("a.xsd"), text.to_vec()).unwrap();
    let sheet = read_whole(&source, read_as).unwrap();
    let tens = sheet.rows().chunks(limits::ROW);
    let rows = tens.take(sheet.rows_used()).skip(1);
    let without_event = |ten: &[u32]| match ten[0] {
        2 | 3 | 12..=16 => ten[..limits::ROW - 1].to_vec(),
        _ => ten.to_vec(),
    };
    let names = sheet.names()[..sheet.names_used()].to_vec();
    (rows.map(without_event).collect(), names)
}

#[test]
fn every_schema_is_read_again_as_the_same_sheet() {
    let files = schemas();
    side_by_side(&files, |file| {
        let bytes = fs::read(file).unwrap();
        for (read_as, more) in [
            (ReadAs::Standard, ["--quiet"].as_slice()),
            (ReadAs::Original, &["--quiet", "--as-original"]),
        ] {
            let plain = write(file, more);
            if plain.status == Some(1) {
                let long = "takes more than 65536 bytes (refused with 23)";
                assert!(plain.err.contains(long), "{}", plain.err);
                continue;
            }
            let pretty = write(file, &[more, &["--pretty"]].concat());
            assert_eq!(pretty.status, Some(0), "{}", pretty.err);
            let expected = kept(&bytes, read_as);
            for again in [ReadAs::Standard, ReadAs::Original] {
                for text in [&plain.out, &pretty.out] {
                    assert_eq!(kept(text.as_bytes(), again), expected, "{file:?}");
                }
            }
            // Indented it is the same text with white space between tags.
            assert_eq!(indented(&plain.out), pretty.out);
            let joined: String = pretty.out.lines().map(str::trim_start).collect();
            assert_eq!(joined, plain.out);
        }
    });
}

#[test]
fn for_iso20022_the_sheet_is_the_same_and_a_validator_takes_messages() {
    let folder = Folder::new();
    let message = folder.put(
        "m.xml",
        "<Document xmlns='urn:example:account'><Id><IBAN>AB12C</IBAN><Othr>x</Othr></Id></Document>",
    );
    let bytes = fs::read(ACCOUNT).unwrap();
    let ran = write(ACCOUNT.as_ref(), &["--quiet", "--iso20022", "--pretty"]);
    let first = "<xs:schema xmlns:xs=\"http://www.w3.org/2001/XMLSchema\" xmlns=\"urn:example:account\" elementFormDefault=\"qualified\" \
                 targetNamespace=\"urn:example:account\">\n";
    assert!(ran.out.starts_with(first), "{}", ran.out);
    for read_as in [ReadAs::Standard, ReadAs::Original] {
        assert_eq!(kept(ran.out.as_bytes(), read_as), kept(&bytes, read_as));
    }
    let schema = folder.put("a.xsd", &ran.out);
    let judged = Command::new("xmllint")
        .args(["--noout", "--schema"])
        .args([&schema, &message])
        .output();
    if let Ok(judged) = judged {
        let said = String::from_utf8_lossy(&judged.stderr);
        assert!(judged.status.success(), "{said}");
    }
}

/// Values with everything that ends a tag or a line outside of quotes.
const AWKWARD: &str =
    "<schema targetNamespace='a>b'><simpleType name='S'><restriction base='string'>\
<enumeration value=\"it's\n>/>\"/><pattern value='\"&lt;>'/></restriction></simpleType>\
<complexType name='C'><choice></choice></complexType></schema>";

#[test]
fn values_are_not_indented() {
    let pretty = of_text(AWKWARD, &["--pretty"]);
    let expected = "\
<xs:schema xmlns:xs=\"http://www.w3.org/2001/XMLSchema\" targetNamespace=\"a>b\">
  <xs:simpleType name=\"S\">
    <xs:restriction base=\"string\">
      <xs:enumeration value=\"it's\n>/>\"/>
      <xs:pattern value='\"&lt;>'/>
    </xs:restriction>
  </xs:simpleType>
  <xs:complexType name=\"C\">
    <xs:choice></xs:choice>
  </xs:complexType>
</xs:schema>
";
    assert_eq!((pretty.status, pretty.out.as_str()), (Some(0), expected));
    for read_as in [ReadAs::Standard, ReadAs::Original] {
        let again = kept(pretty.out.as_bytes(), read_as);
        assert_eq!(again, kept(AWKWARD.as_bytes(), read_as));
    }
}

#[test]
fn a_file_is_replaced_whole_and_a_refusal_leaves_it() {
    let folder = Folder::new();
    let out = folder.put("out.xsd", "old");
    fs::set_permissions(&out, fs::Permissions::from_mode(0o640)).unwrap();
    let (text, name) = (write(PAYMENT.as_ref(), &[]).out, out.to_str().unwrap());
    let bad = folder.put("bad.xsd", "<a/>");
    assert_eq!(write(&bad, &["--output", name]).status, Some(1));
    assert_eq!(fs::read_to_string(&out).unwrap(), "old");
    let ran = write(PAYMENT.as_ref(), &["--output", name]);
    assert_eq!((ran.status, ran.out.as_str()), (Some(0), ""));
    assert_eq!(fs::read_to_string(&out).unwrap(), text);
    let mode = fs::metadata(&out).unwrap().permissions().mode();
    assert_eq!(mode & 0o777, 0o640);
    assert_eq!(folder.names(), ["bad.xsd", "out.xsd"]);
    assert!(!text.ends_with('\n') && !text.contains('\n'));
}

/// The sheet of a file, stored behind so many events.
fn stored(folder: &Folder, file: &str, events: &str) -> PathBuf {
    let sheet = folder.path("s.sheet");
    let sheet_words = ["--events", events, "--quiet", "--sheet"];
    let words: Vec<&OsStr> = sheet_words.iter().map(OsStr::new).collect();
    let first = [OsStr::new("read"), OsStr::new(file)].into_iter();
    let ran = lubiksan(first.chain(words).chain([sheet.as_os_str()]));
    assert_eq!(ran.status, Some(0), "{}", ran.err);
    sheet
}

#[test]
fn a_stored_sheet_is_written_as_its_source() {
    let folder = Folder::new();
    let sheet = stored(&folder, PAYMENT, "1000");
    let (of_sheet, of_file) = (write(&sheet, &[]), write(PAYMENT.as_ref(), &[]));
    assert_eq!((of_sheet.status, of_sheet.err.as_str()), (Some(0), ""));
    assert_eq!(of_sheet.out, of_file.out);
}

#[test]
fn a_sheet_that_is_not_whole_is_written_without_its_open_type() {
    let folder = Folder::new();
    let text = "<schema><element name='D' type='T'/><complexType name='T'><sequence/></complexType></schema>";
    let file = folder.put("a.xsd", text);
    let sheet = stored(&folder, file.to_str().unwrap(), "3");
    let refused = write(&sheet, &[]);
    assert_eq!(refused.status, Some(1));
    assert!(
        refused.err.contains("--partial takes it so"),
        "{}",
        refused.err
    );
    let partial = write(&sheet, &["--partial"]);
    assert!(partial
        .out
        .ends_with("<xs:element name=\"D\" type=\"T\"/></xs:schema>"));
    let told = "s.sheet: type \"T\" is not read to its end and not in the text\n";
    assert!(partial.err.ends_with(told), "{}", partial.err);
    assert_eq!(write(&sheet, &["--partial", "--strict"]).status, Some(1));
}

#[test]
fn a_stored_graph_and_a_text_without_a_schema_are_refused() {
    let folder = Folder::new();
    let graph = folder.path("g.graph");
    let words = ["graph", PAYMENT, "--format", "stored", "--output"].map(OsStr::new);
    assert_eq!(
        lubiksan(words.into_iter().chain([graph.as_os_str()])).status,
        Some(0)
    );
    let ran = write(&graph, &[]);
    assert_eq!((ran.status, ran.out.as_str()), (Some(1), ""));
    assert!(ran.err.contains("it is a stored graph"), "{}", ran.err);
    let none = of_text("<a/>", &[]);
    let words = "a.xsd: there is no schema element (refused with 12)\n";
    assert_eq!((none.status, none.err.as_str()), (Some(1), words));
}

/// A schema of `count` elements.
fn elements(count: usize) -> String {
    let element = |index: usize| format!("<element name='E{index:04}' type='T'/>");
    let inside: String = (0..count).map(element).collect();
    format!("<schema>{inside}</schema>")
}

#[test]
fn a_text_that_is_too_long_is_refused() {
    // An element takes 35 bytes, the two schema tags 74 and 12: with 1,870 elements the text has 65,536 bytes.
    let most = 1_870;
    let fits = of_text(elements(most), &[]);
    assert_eq!((fits.status, fits.out.len()), (Some(0), 65_536));
    let long = of_text(elements(most + 1), &[]);
    let words = "a.xsd: the schema written back takes more than 65536 bytes (refused with 23)\n";
    assert_eq!((long.status, long.err.as_str()), (Some(1), words));
}

/// A stored sheet of events that no XML text gives, with a file of so many tags beside it, or another in its place.
fn made_by_hand(folder: &Folder, file: &str, changed: bool) -> PathBuf {
    let mut piece = TapeBuilder::new();
    piece.start("schema", &[]).unwrap();
    piece
        .empty("element", &[("name", "D"), ("type", "T")])
        .unwrap();
    piece.start("simpleType", &[("name", "T")]).unwrap();
    piece.start("restriction", &[("base", "string")]).unwrap();
    piece.empty("pattern", &[("value", "a<b")]).unwrap();
    for _ in 0..3 {
        piece.close().unwrap();
    }
    let mut sheet = SchemaSheet::cleared(ReadAs::Standard);
    sheet.read(&piece.finish()).unwrap();
    let text = "<schema>\n<element name='D' type='T'/>\n <simpleType name='T'><restriction base='string'><pattern value='a'/></restriction></simpleType></schema>";
    let path = folder.put(file, text);
    let source = Source::load(&path).unwrap();
    let about = About::of(&source, ReadAs::Standard);
    if changed {
        folder.put(file, "<schema/>");
    }
    folder.put("s.sheet", encoded(&sheet, &about).unwrap())
}

#[test]
fn a_value_that_xml_cannot_hold_is_refused_with_its_type() {
    let why = "XML can't hold \"a<b\" as it is: a \"<\", both quotes, a control character or an \"&\" without a reference (refused with 22, row 4)";
    for (changed, place) in [(false, "a.xsd:3:2: "), (true, "s.sheet: ")] {
        let folder = Folder::new();
        let ran = write(&made_by_hand(&folder, "a.xsd", changed), &[]);
        let expected = format!("{}/{place}type \"T\": {why}\n", folder.0.display());
        assert_eq!((ran.status, ran.err.as_str()), (Some(1), expected.as_str()));
        assert_eq!(ran.out, "");
    }
}

#[test]
fn what_is_not_in_the_text_is_counted() {
    let ran = write(ACCOUNT.as_ref(), &[]);
    let told =
        format!("{ACCOUNT}: 1 place of the schema is not in the text: 1 choice in sequence\n");
    assert_eq!((ran.status, ran.err.as_str()), (Some(0), told.as_str()));
    assert_eq!(write(ACCOUNT.as_ref(), &["--quiet"]).err, "");
    let strict = write(ACCOUNT.as_ref(), &["--strict"]);
    assert_eq!(
        (strict.status, strict.out.as_str(), strict.err.as_str()),
        (Some(1), "", told.as_str())
    );
    // Two kinds that the graph does not keep stand in the text.
    let text = "<schema><simpleType name='S'><restriction base='string'><enumeration value='A'/><maxLength value='3'/></restriction></simpleType>\
                <complexType name='T'><sequence><element name='e' type='S' maxOccurs='0'/></sequence></complexType></schema>";
    let kept = of_text(text, &["--strict"]);
    assert_eq!((kept.status, kept.err.as_str()), (Some(0), ""));
    assert!(kept.out.contains("<xs:enumeration value=\"A\"/>"));
    assert!(kept.out.contains("maxOccurs=\"0\""));
}

#[test]
fn of_a_stored_sheet_without_its_source_the_count_is_told() {
    let folder = Folder::new();
    let file = folder.put("a.xsd", fs::read(ACCOUNT).unwrap());
    let sheet = stored(&folder, file.to_str().unwrap(), "1000");
    fs::remove_file(&file).unwrap();
    let ran = write(&sheet, &[]);
    let told = "s.sheet: up to 1 place of the schema is not in the text, and its source is not there as it was\n";
    assert!(
        ran.status == Some(0) && ran.err.ends_with(told),
        "{}",
        ran.err
    );
}
