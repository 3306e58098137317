//! The two ways to read a text: by the library, and by quick-xml where the library writes no tape. They give the same.

mod common;

use std::ffi::OsStr;
use std::fs;

use common::{
    cases, lubiksan, marked, schemas, schemas_with_document_type, side_by_side, Folder, Ran, Random,
};
use compare::texts::specimens::LINES;
use lubiksan_tool::document::{Document, NoDocument, Way};
use lubiksan_tool::xml::{line_and_column, Event, EventKind, Lines};

/// Runs a command on a file `a.xsd` with this text; its folder is cut from what is printed and said.
fn run(text: impl AsRef<[u8]>, args: &[&str]) -> Ran {
    let folder = Folder::new();
    let file = folder.put("a.xsd", text);
    let (command, more) = args.split_first().unwrap();
    let args = [OsStr::new(command), file.as_os_str()].into_iter();
    let mut ran = lubiksan(args.chain(more.iter().map(OsStr::new)));
    for text in [&mut ran.out, &mut ran.err] {
        *text = text.replace(&format!("{}/", folder.0.display()), "");
    }
    ran
}

/// UTF-8 without characters above U+017F.
fn is_taken(text: &[u8]) -> bool {
    std::str::from_utf8(text).is_ok_and(|text| text.chars().all(|c| c <= '\u{17F}'))
}

fn said_of(text: impl AsRef<[u8]>) -> String {
    let ran = run(text, &["graph", "--verbose"]);
    assert_eq!(ran.status, Some(0), "{}", ran.err);
    ran.err
}

#[test]
fn verbose_says_who_reads() {
    let library = "a.xsd: read by the library from its text, 2 events in 6 marks\n";
    assert_eq!(said_of("<schema></schema>"), library);
    let long = |length: usize| format!("<schema>{}</schema>", " ".repeat(length - 17));
    assert_eq!(said_of(long(65_536)), library);
    let quick = |why: &str| format!("a.xsd: read by quick-xml, since {why}\n");
    let too_long = quick("it is longer than 65536 bytes");
    assert_eq!(said_of(long(65_537)), too_long);
    let high = quick("it has a character above U+017F");
    assert_eq!(said_of("<schema><!-- \u{2019} --></schema>"), high);
    assert_eq!(said_of("<schema><!-- \u{180} --></schema>"), high);
    assert_eq!(said_of("<schema><!-- \u{17f} --></schema>"), library);
    let marks = library.replace("6 marks", "10 marks");
    assert_eq!(said_of("<schema \u{e9}='\u{df}'></schema>"), marks);
    // The last character begins at the last byte that is taken, or before it.
    let accented = |letters: &str| {
        let room = 65_536 - 17 - letters.len();
        format!("<schema>{}{letters}</schema>", " ".repeat(room))
    };
    assert_eq!(said_of(accented("\u{e9}\u{e9}")), library);
    assert_eq!(said_of(accented("\u{e9}\u{e9}") + "\n"), too_long);
    assert_eq!(said_of(marked("<schema/>")), high);
    let tags = |count: usize| format!("<schema>{}</schema>", "<a/>".repeat(count));
    assert_eq!(
        said_of(tags(4_095)),
        quick("its tags take over 16384 marks")
    );
    let most = "a.xsd: read by the library from its text, 4096 events in 16382 marks\n";
    assert_eq!(said_of(tags(4_094)), most);
}

#[test]
fn without_verbose_nothing_is_said() {
    for text in [
        "<schema/>",
        "<schema><!-- \u{e9} --></schema>",
        "<schema><!-- \u{2019} --></schema>",
    ] {
        let ran = run(text, &["graph"]);
        assert_eq!((ran.status, ran.err.as_str()), (Some(0), ""));
    }
    assert_eq!(
        run("<schema/>", &["graph", "--verbose", "--quiet"]).status,
        Some(2)
    );
}

#[test]
fn every_command_says_who_reads() {
    let folder = Folder::new();
    let file = folder.put("a.xsd", "<schema/>");
    let file = file.to_str().unwrap();
    let (sheet, out) = (folder.path("a.sheet"), folder.path("out"));
    let (sheet, out) = (sheet.to_str().unwrap(), out.to_str().unwrap());
    let runs: [&[&str]; 4] = [
        &["names", file, "--verbose"],
        &["read", file, "--sheet", sheet, "--verbose"],
        &["tape", file, "--output", out, "--verbose"],
        &["--verbose", "shelf", out, file],
    ];
    for args in runs {
        let _ = fs::remove_file(out);
        let ran = lubiksan(args);
        assert!(
            ran.err.contains("read by the library"),
            "{args:?}: {}",
            ran.err
        );
    }
}

#[test]
fn both_ways_give_the_same() {
    let files: Vec<Vec<u8>> = schemas()
        .iter()
        .map(|file| fs::read(file).unwrap())
        .collect();
    let commands: [&[&str]; 5] = [
        &["graph"],
        &["graph", "--format", "rows"],
        &["graph", "--format", "rust"],
        &["graph", "--strict"],
        &["names"],
    ];
    for text in files.iter().filter(|text| is_taken(text)) {
        for args in commands {
            let (one, other) = (run(text, args), run(marked(text), args));
            assert_eq!((one.status, &one.err), (other.status, &other.err));
            assert!(one.out == other.out, "{args:?}");
        }
    }
}

#[test]
fn a_document_type_is_refused_both_ways() {
    for file in schemas_with_document_type() {
        let text = fs::read(&file).unwrap();
        let words = ": a document type is not read (refused with 18)\n";
        for text in [
            text.clone(),
            marked(&text),
            [text, vec![b' '; 65_536]].concat(),
        ] {
            let ran = run(text, &["graph"]);
            assert_eq!(ran.status, Some(1), "{}", file.display());
            assert!(ran.err.ends_with(words), "{}", ran.err);
        }
    }
}

/// A text with everything that may stand between tags, and closes in it that are none.
const AROUND: &str = "<?xml version='1.0'?><!-- </a> --><?p </a> ?>\n<a k = '>' \t>x<!-- </a>--><?p </a>?><![CDATA[</a>]]]]>\
    \n<b></b ><c:d e='' f=\"/>'\"/>&lt;</a\n><!-- <b> --> <?p?>\n";

#[test]
fn closes_are_found_in_their_place() {
    let document = Document::of(AROUND.into()).unwrap();
    assert!(matches!(document.way(), Way::Library(_)));
    let found: Vec<(EventKind, &str)> = document
        .events()
        .iter()
        .map(|event| (event.kind, &AROUND[event.at..event.name.end]))
        .collect();
    let expected = [
        (EventKind::Start, "<a"),
        (EventKind::Start, "<b"),
        (EventKind::Close, "</b"),
        (EventKind::Empty, "<c:d"),
        (EventKind::Close, "</a"),
    ];
    assert_eq!(found, expected);
    assert_eq!(
        document.events().last().unwrap().at,
        AROUND.find("</a\n").unwrap()
    );
    same_both_ways(AROUND.as_bytes());
}

#[test]
fn pieces_are_parts_of_the_tape() {
    let document = Document::of(AROUND.into()).unwrap();
    let whole = document.piece(0, usize::MAX).unwrap();
    assert_eq!((whole.events, &whole.text[..]), (5, AROUND.as_bytes()));
    let mut marks: Vec<u32> = Vec::new();
    for first in 0..5 {
        let piece = document.piece(first, 1).unwrap();
        assert_eq!((piece.events, &piece.text[..]), (1, AROUND.as_bytes()));
        marks.extend(piece.marks.iter());
    }
    assert_eq!(marks, whole.marks.to_vec());
    assert_eq!(document.piece(5, 1).unwrap().events, 0);
    assert_eq!(document.piece(3, 9).unwrap().events, 2);
}

#[test]
fn the_readings_of_order_1_have_their_numbers_and_places() {
    let tried = |number: u32| LINES.iter().filter(move |line| line.number == number);
    let texts = |number: u32| tried(number).flat_map(|line| line.texts);
    for text in texts(0) {
        let document = Document::of(text.to_vec()).unwrap();
        assert!(matches!(document.way(), Way::Library(_)), "{document:?}");
    }
    for text in texts(5) {
        let taken = Document::of(text.to_vec()).map_err(|refused| refused.words);
        let said = taken.map(|document| assert!(matches!(document.way(), Way::QuickXml(_))));
        assert!(!said.is_err_and(|words| words.contains("refused with")));
    }
    for number in [17, 18] {
        for text in texts(number) {
            let refused = Document::of(text.to_vec()).unwrap_err();
            let said = format!(" (refused with {number})");
            assert!(refused.words.ends_with(&said), "{refused:?}");
            assert!(refused.place.is_some(), "{refused:?}");
        }
    }
}

/// What a document says: its events with their attributes, or why there is none.
type Said = Result<Vec<(Event, Vec<(String, String, usize)>)>, NoDocument>;

fn said(document: Result<Document, NoDocument>) -> Said {
    let document = document?;
    let event = |event: &Event| {
        let attributes = document
            .attributes(event)
            .map(|(key, value, at)| (key.to_owned(), value.to_owned(), at));
        (event.clone(), attributes.collect())
    };
    Ok(document.events().iter().map(event).collect())
}

/// The library and quick-xml find the same events, or both none: for the same reason, but for the number 17. The library
/// does not look up the name of an encoding.
fn same_both_ways(text: &[u8]) {
    let shown = String::from_utf8_lossy(text);
    let other = said(Document::of(marked(text)));
    if matches!(&other, Err(refused) if refused.words.starts_with("the encoding")) {
        return;
    }
    match said(Document::of(text.to_vec())) {
        Err(refused) if refused.words.ends_with(" (refused with 18)") => {
            assert_eq!(other, Err(refused), "{shown}");
        }
        Err(refused) => {
            let words = refused.words.replace(" (refused with 17)", "");
            assert_eq!(other, Err(NoDocument { words, ..refused }), "{shown}");
        }
        found => assert_eq!(found, other, "{shown}"),
    }
}

#[test]
fn lines_and_columns_are_those_counted_from_the_start() {
    let text = "a\nbé\r\nc\rd\n\n\u{1F600}e\r";
    let lines = Lines::of(text);
    for (at, _) in text.char_indices() {
        let counted = line_and_column(text, at);
        assert_eq!(lines.line_and_column(text, at), counted, "{at}");
    }
}

/// Parts of small texts, cut and put together anew.
const PARTS: [&str; 49] = [
    "<a>",
    "</a>",
    "<a/>",
    "<b c='d'>",
    "</b>",
    "<b c='d' e=\"f\"/>",
    "x",
    " ",
    "\n",
    "<!-- y -->",
    "<?p q?>",
    "<![CDATA[z]]>",
    "]]>",
    "&lt;",
    "&#65;",
    "&#x41;",
    "&x;",
    "&",
    "<",
    ">",
    "/",
    "'",
    "\"",
    "=",
    "--",
    "-->",
    "<!--",
    "<?",
    "?>",
    "<![CDATA[",
    "<?xml version='1.0'?>",
    "<?xml version=\"1.0\" encoding=\"UTF-8\"?>",
    "<!DOCTYPE a>",
    "a",
    ":",
    "1",
    "<a b='1' b='2'>",
    "<a b='<'>",
    "\u{1}",
    "<?XML ?>",
    "é",
    "<é>",
    "</é>",
    "<ß ÿ='ı'/>",
    "<a·/>",
    "·",
    "×",
    "<?ſ é?>",
    "’",
];

#[test]
fn random_texts_are_read_alike() {
    let seeds: Vec<u64> = (1..=cases(40) as u64).collect();
    side_by_side(&seeds, |&seed| {
        let mut random = Random(seed * 15_485_863);
        for _ in 0..2_500 {
            let count = 1 + random.below(9);
            let parts = (0..count).map(|_| PARTS[random.below(PARTS.len())]);
            let inside: String = parts.collect();
            match random.below(3) {
                0 => same_both_ways(inside.as_bytes()),
                1 => same_both_ways(format!("<a>{inside}</a>").as_bytes()),
                _ => same_both_ways(format!("{inside}<a/>").as_bytes()),
            }
        }
    });
}

#[test]
fn damaged_schemas_are_read_alike() {
    let files: Vec<Vec<u8>> = schemas()
        .iter()
        .map(|file| fs::read(file).unwrap())
        .collect();
    let files: Vec<Vec<u8>> = files
        .into_iter()
        .filter(|text| is_taken(text) && text.len() <= 65_536)
        .collect();
    let seeds: Vec<u64> = (1..=cases(2_000) as u64).collect();
    side_by_side(&seeds, |&seed| {
        let mut random = Random(seed * 32_452_843);
        let mut text = files[random.below(files.len())].clone();
        for _ in 0..=random.below(3) {
            let at = random.below(text.len());
            match random.below(3) {
                0 => text[at] = b"<>/&\"'= \x02!?-];:x"[random.below(16)],
                1 => drop(text.remove(at)),
                _ => text.insert(at, b"<>/&\"'= !?-];x"[random.below(14)]),
            }
        }
        same_both_ways(&text);
    });
}
