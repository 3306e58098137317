//! Schema files of any length and UTF-8 text: read whole, or refused with file, line and column.

use std::env;
use std::error::Error;
use std::fs;
use std::path::{Path, PathBuf};

use lubiksan::{limits, Cause, Kind, ReadAs, SchemaSheet, Tape};
use lubiksan_xml::{NotRead, Schema, Unread, Why};

type Tried = Result<(), Box<dyn Error>>;

/// The ISO 20022 files in LUBIKSAN_SCHEMAS, or else in ../shared/schemas beside the repository. None where that is missing;
/// where `CI` is set they must be there.
fn iso_files() -> Result<Vec<PathBuf>, Box<dyn Error>> {
    let named = env::var_os("LUBIKSAN_SCHEMAS").map(PathBuf::from);
    let beside = Path::new(env!("CARGO_MANIFEST_DIR")).join("../../../shared/schemas");
    let folder = named.unwrap_or(beside).join("iso20022");
    if !folder.is_dir() {
        assert!(env::var_os("CI").is_none(), "there is no {folder:?}");
        eprintln!("there is no {folder:?}, no file of it was tried");
        return Ok(Vec::new());
    }
    let entries: Vec<_> = fs::read_dir(folder)?.collect::<Result<_, _>>()?;
    let files = entries.into_iter().map(|entry| entry.path());
    Ok(files
        .filter(|file| file.extension().is_some_and(|ending| ending == "xsd"))
        .collect())
}

/// How many tags start so.
fn starts(text: &str, word: &str) -> usize {
    let ends = [' ', '\t', '\r', '\n'];
    let tags = text.split('<').skip(1);
    let names = tags.filter_map(|tag| tag.split(ends).next());
    names
        .filter(|name| name.rsplit(':').next() == Some(word))
        .count()
}

#[test]
fn every_iso_file_is_read() -> Tried {
    let (mut long, mut high) = (0, 0);
    for file in iso_files()? {
        let text = fs::read_to_string(&file)?;
        let schema = Schema::read(&file, ReadAs::Standard)?;
        let graph = schema.graph()?;
        let types = starts(&text, "simpleType") + starts(&text, "complexType");
        let kept = |kind| {
            schema
                .sheet()
                .declared()
                .filter(move |found| found.kind == kind)
        };
        let found = kept(Kind::SimpleType).count() + kept(Kind::ComplexType).count();
        assert_eq!(found, types, "{file:?}");
        assert_eq!(graph.types().count(), types, "{file:?}");
        for declared in schema.sheet().declared() {
            let place = schema.place(declared.event()).ok_or("it has a place")?;
            let line = text.lines().nth(place.line - 1).ok_or("it has a line")?;
            assert!(
                line.contains(&format!("name=\"{}\"", declared.name)),
                "{file:?}"
            );
            assert_eq!(line.chars().nth(place.column - 1), Some('<'), "{file:?}");
        }
        long += usize::from(text.len() > limits::TEXT);
        let above = text.chars().any(|c| c > '\u{17F}');
        high += usize::from(text.len() <= limits::TEXT && above);
    }
    if !iso_files()?.is_empty() {
        assert!(
            long > 0 && high > 0,
            "{long} long files, {high} with characters above U+017F"
        );
    }
    Ok(())
}

const SMALL: &str = "<schema>\n <element name='D' type='T'/>\n <complexType name='T'><sequence>\n  \
                     <element name='A' type='string' minOccurs='0'/>\n </sequence></complexType>\n</schema>";

#[test]
fn a_text_gives_the_same_sheet_both_ways() -> Tried {
    let long = SMALL.replacen('\n', &" ".repeat(limits::TEXT), 1);
    let high = SMALL.replacen('\n', "<!-- — -->", 1);
    let accented = SMALL.replacen('\n', "<!-- é -->", 1);
    let mut by_tape = SchemaSheet::cleared(ReadAs::Standard);
    by_tape.read(&Tape::of_text(SMALL.into())?)?;
    for text in [SMALL, &long, &high, &accented] {
        let sheet = Schema::of_bytes(text.into(), ReadAs::Standard)?.into_sheet();
        assert_eq!(sheet.rows(), by_tape.rows());
        assert_eq!(sheet.names(), by_tape.names());
    }
    let marked = [b"\xEF\xBB\xBF", SMALL.as_bytes()].concat();
    let sheet = Schema::of_bytes(marked, ReadAs::Standard)?.into_sheet();
    assert_eq!(sheet.rows(), by_tape.rows());
    Ok(())
}

fn refused(text: &str) -> Result<NotRead, Box<dyn Error>> {
    let read = Schema::of_bytes(text.into(), ReadAs::Standard);
    let lowered = read.and_then(|schema| schema.graph());
    Ok(lowered.err().ok_or(format!("it is read: {text}"))?)
}

#[test]
fn refusals_have_their_place_in_every_text() -> Tried {
    let faults = [
        ("type='T'/>", "type='T'>", 17, 6),
        ("minOccurs='0'", "minOccurs='x'", 10, 4),
        ("<complexType name='T'>", "<complexType>", 9, 3),
        (
            "<element name='D' type='T'/>",
            "<simpleType name='S'><restriction base='b'/></simpleType>",
            13,
            2,
        ),
        (
            "<element name='D' type='T'/>",
            "<complexType name='T'/>\n<complexType name='T'></complexType>",
            20,
            4,
        ),
    ];
    let long = format!("<!--{}-->", "x".repeat(limits::TEXT));
    for (part, other, number, line) in faults {
        for behind in ["", "<!-- é -->", "<!-- — -->", &long] {
            let text = SMALL.replacen(part, other, 1) + behind;
            let refused = refused(&text)?;
            let place = refused.place.ok_or("it has a place")?;
            assert_eq!(place.line, line, "{number}: {refused}");
            let told = refused.to_string();
            assert!(
                told.starts_with(&format!("{line}:{}: ", place.column)),
                "{told}"
            );
            match &refused.why {
                Why::Refused(refusal) => assert_eq!(refusal.number(), number),
                Why::Document(refused) => {
                    assert_eq!((number, refused.cause), (17, Unread::Malformed));
                }
                other => return Err(format!("{other:?}").into()),
            }
            let source = refused.source().ok_or("it has a source")?;
            assert!(told.ends_with(&source.to_string()), "{told}");
        }
    }
    Ok(())
}

#[test]
fn a_file_is_named() -> Tried {
    let folder = Path::new(env!("CARGO_TARGET_TMPDIR"));
    fs::create_dir_all(folder)?;
    let file = folder.join("twice.xsd");
    let text = "<schema>\n<complexType name='A_b'></complexType>\n <complexType name='AB'></complexType></schema>";
    fs::write(&file, text)?;
    let schema = Schema::read(&file, ReadAs::Standard)?;
    let refused = schema.graph().err().ok_or("it is refused")?;
    let words = "two types have the same name in the graph: \"A_b\" and \"AB\" (refused with 20, rows 2 and 3)";
    assert_eq!(
        refused.to_string(),
        format!("{}:3:2: {words}", file.display())
    );
    let Why::Refused(refusal) = &refused.why else {
        return Err("the lowering refuses".into());
    };
    assert_eq!(refusal.cause(), Cause::RepeatedName);
    let none = folder.join("none.xsd");
    let refused = Schema::read(&none, ReadAs::Standard)
        .err()
        .ok_or("it is not there")?;
    assert!(matches!(refused.why, Why::File(_)));
    assert!(refused
        .to_string()
        .starts_with(&format!("{}: it can't be read: ", none.display())));
    Ok(())
}

#[test]
fn a_tag_that_fits_into_no_piece_is_named() -> Tried {
    let text = SMALL.replacen(
        "name='A'",
        &format!("name='{}'", "A".repeat(limits::TEXT + 1)),
        1,
    );
    let refused = refused(&text)?;
    assert!(matches!(&refused.why, Why::TooLong(fault) if fault.cause == Unread::TooLong));
    let place = refused.place.ok_or("it has a place")?;
    assert_eq!((place.line, place.column), (4, 3));
    Ok(())
}

#[test]
fn what_is_no_text_has_its_cause() -> Tried {
    let long = " ".repeat(limits::TEXT);
    let tried: [(Vec<u8>, Unread, usize); 7] = [
        (b"<\0a\0/\0>\0".to_vec(), Unread::Encoding, 1),
        (
            format!("<?xml version='1.0' encoding='latin1'?>{long}<a/>").into(),
            Unread::Encoding,
            31,
        ),
        // The library would take it, as UTF-8.
        (
            "<?xml version='1.0' encoding='latin1'?><é/>".into(),
            Unread::Encoding,
            31,
        ),
        (b"<a>\xE9</a>".to_vec(), Unread::NotUtf8, 4),
        (b"<!DOCTYPE a><a/>".to_vec(), Unread::DocumentType, 1),
        (
            format!("<!--{long}--><!DOCTYPE a><a/>").into(),
            Unread::DocumentType,
            long.len() + 8,
        ),
        (
            format!("<a>{long}").into(),
            Unread::Malformed,
            long.len() + 4,
        ),
    ];
    for (bytes, cause, column) in tried {
        let refused = Schema::of_bytes(bytes, ReadAs::Standard).err();
        let refused = refused.ok_or("it is refused")?;
        let Why::Document(no_document) = &refused.why else {
            return Err(format!("{refused}").into());
        };
        assert_eq!(no_document.cause, cause, "{refused}");
        let place = refused.place.ok_or("it has a place")?;
        assert_eq!((place.line, place.column), (1, column), "{refused}");
    }
    Ok(())
}
