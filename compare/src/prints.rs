//! The printing program of paper 01: what it prints by the model, and inputs to try.

use std::path::Path;
use std::{fs, io};

use crate::cases::schemas_under;
use crate::events::{events_of_xml, pieces};
use crate::paper::label::label;
use crate::paper::lowering::lowering;
use crate::paper::reading::{clear, read};
use crate::paper::sheet::Sheet;
use crate::paper::Answer;
use crate::random::Random;
use crate::tape::{events, Tape};
use crate::tapes::{document, messed, written};

const SEED: u64 = 0x6c75_6269_6b40;

/// How many random documents are tried.
const DOCUMENTS: usize = 300;

/// An input and what it shows.
pub struct Input {
    pub shows: String,
    pub bytes: Vec<u8>,
}

/// What the program prints for `input`.
pub fn printed(input: &[u8]) -> Vec<u8> {
    let length = |at: usize| input.get(at..at + 4).map(number);
    if length(0).is_some_and(|n| n > 65_536) || length(4).is_some_and(|n| n > 16_384) {
        return b"read 1 0\n".to_vec();
    }
    match length(0).zip(length(4)).and_then(|both| tape(input, both)) {
        None => b"short\n".to_vec(),
        Some(tape) => printed_tape(&tape),
    }
}

/// The number of four bytes, the first of them the lowest.
fn number(bytes: &[u8]) -> u32 {
    let number = |sum, &byte| sum << 8 | u32::from(byte);
    bytes.iter().rev().fold(0, number)
}

/// The tape behind the header; none where there are too few bytes.
fn tape(input: &[u8], (text, marks): (u32, u32)) -> Option<Tape> {
    let (text, rest) = input[8..].split_at_checked(text as usize)?;
    let marks = rest.get(..4 * marks as usize)?;
    Some(Tape {
        text: text.to_vec(),
        marks: marks.chunks(4).map(number).collect(),
    })
}

/// "It clears, reads and lowers with 16,000 numbers and 65,536 bytes for each sheet and 4,096 of scratch." Order 3: "The printing program clears with 0."
fn printed_tape(tape: &Tape) -> Vec<u8> {
    let lent = Sheet {
        rows: vec![7; 16_000],
        names: vec![7; 65_536],
    };
    let (answer, sheet) = read(&clear(&lent, 0).1, tape);
    let mut lines = line("read", answer);
    if answer.number == 0 {
        let lowered = lowering(&sheet, &lent, &[7; 4_096]);
        lines.extend(line("lower", lowered.answer));
        if lowered.answer.number == 0 {
            lines.extend(sheet_lines(&lowered.graph));
        }
    }
    lines
}

fn line(word: &str, answer: Answer) -> Vec<u8> {
    format!("{word} {} {}\n", answer.number, answer.place).into_bytes()
}

/// "the graph's used rows, its used names and a newline"
fn sheet_lines(graph: &Sheet) -> Vec<u8> {
    let (rows, names) = (graph.rows[1] as usize, graph.rows[2] as usize);
    let mut lines = Vec::new();
    for row in graph.rows.chunks(10).take(rows) {
        let numbers: Vec<String> = row.iter().map(u32::to_string).collect();
        lines.extend(format!("{}\n", numbers.join(" ")).into_bytes());
    }
    lines.extend(&graph.names[..names]);
    lines.push(b'\n');
    lines
}

/// The input of a tape.
pub fn input_of(tape: &Tape) -> Vec<u8> {
    let header = [tape.text.len() as u32, tape.marks.len() as u32];
    let four = |numbers: &[u32]| {
        numbers
            .iter()
            .flat_map(|n| n.to_le_bytes())
            .collect::<Vec<_>>()
    };
    [four(&header), tape.text.clone(), four(&tape.marks)].concat()
}

/// The input of the tape of `lines`.
pub fn input_of_lines(lines: &str) -> Vec<u8> {
    input_of(&Tape::of(&events(lines)))
}

/// The tape that the paper prints.
pub const SPECIMEN: &str = "<schema><element name=D type=T/></>";

/// All inputs but those of the schemas.
pub fn inputs() -> Vec<Input> {
    [headers(), cuts(), refusals(), largest(), documents()]
        .into_iter()
        .flatten()
        .collect()
}

fn input(shows: impl Into<String>, bytes: Vec<u8>) -> Input {
    Input {
        shows: shows.into(),
        bytes,
    }
}

/// Headers at the limits, whole and cut.
fn headers() -> Vec<Input> {
    let mut all = Vec::new();
    for (text, marks) in [
        (0, 0),
        (0, 16_384),
        (0, 16_385),
        (65_536, 0),
        (65_537, 0),
        (65_537, 16_385),
        (u32::MAX, u32::MAX),
        (0, u32::MAX),
    ] {
        let header = [text.to_le_bytes(), marks.to_le_bytes()].concat();
        for length in 0..=8 {
            all.push(input(
                format!("{length} bytes of the header {text} {marks}"),
                header[..length].to_vec(),
            ));
        }
        all.push(input(
            format!("the header {text} {marks} and eight bytes"),
            [header, vec![0; 8]].concat(),
        ));
    }
    all
}

/// The specimen, all its beginnings, and bytes behind it.
fn cuts() -> Vec<Input> {
    let whole = input_of_lines(SPECIMEN);
    let part = |length| {
        input(
            format!("{length} bytes of the specimen"),
            whole[..length].to_vec(),
        )
    };
    let mut all: Vec<Input> = (0..=whole.len()).map(part).collect();
    all.push(input(
        "the specimen and bytes behind it",
        [&whole[..], b"\x01\0\0\0more"].concat(),
    ));
    all
}

/// Refusals of reading and lowering, one behind the other.
fn refusals() -> Vec<Input> {
    let lists = [
        ("lower 12", "<x></>"),
        (
            "lower 13",
            "<schema><simpleType name=A><restriction base=QName/></></>",
        ),
        (
            "lower 13 in front of an accepted type",
            "<schema><simpleType name=A></><complexType name=A></></>",
        ),
        (
            "lower 20",
            "<schema><complexType name=AB></><simpleType name=a_b><restriction base=string/></></>",
        ),
        ("read 6", "<schema></></>"),
        (
            "read 9 where lowering would refuse too",
            "<schema><simpleType name=A></><simpleType>",
        ),
        ("read 10", "<schema><simpleType name=A><minLength value=x/>"),
        (
            "an open type",
            "<schema><complexType name=A><sequence><element name=B type=C/>",
        ),
        (
            "control bytes in names",
            "<schema><element name='\x01\n\x7f' type='a\tb'/></>",
        ),
    ];
    let mut all: Vec<Input> = lists
        .iter()
        .map(|(shows, lines)| input(*shows, input_of_lines(lines)))
        .collect();
    let tape = |text: &[u8], marks: &[u32]| {
        input_of(&Tape {
            text: text.to_vec(),
            marks: marks.to_vec(),
        })
    };
    all.push(input("read 3", tape(b"", &[1, 0, 0, 0, 4])));
    all.push(input("read 4", tape(b"abc", &[1, 0, 2, 2])));
    all.push(input("read 5", tape(b"ab\x80", &[1, 0, 0, 3])));
    all.push(input("read 7", tape(b"x", &[1, 0, 0, 1].repeat(256))));
    all
}

/// A simple type with `count` enumerations that share their text, of `value`, closed.
fn enumerations(count: usize, value: &str) -> Tape {
    let mut list = events("<schema><simpleType name=A>");
    let facet = events(&format!("<enumeration value='{value}'/>"));
    list.extend(facet.iter().cycle().take(count).cloned());
    list.extend(events("</></>"));
    Tape::shared(&list)
}

/// A choice with `count` variants that share their texts.
fn variants(count: usize, name: &str) -> Tape {
    let mut list = events("<schema><complexType name=A><choice>");
    let variant = events(&format!("<element name='{name}' type=T/>"));
    list.extend(variant.iter().cycle().take(count).cloned());
    list.extend(events("</></></>"));
    Tape::shared(&list)
}

/// Sheets with all rows used and one too many, names used up in the schema sheet and in the graph, the longest tapes.
fn largest() -> Vec<Input> {
    let tapes = [
        ("1,596 enumerations", enumerations(1_596, "Ab")),
        ("1,597 enumerations: all rows", enumerations(1_597, "Ab")),
        ("read 11: one row too many", enumerations(1_598, "Ab")),
        ("65,535 bytes of names", enumerations(257, &"v".repeat(254))),
        ("read 11: names", enumerations(66, &"v".repeat(1_000))),
        (
            "lower 15: codes are written twice",
            enumerations(40, &"v".repeat(1_000)),
        ),
        (
            "the graph's names nearly used up",
            variants(32, &"v".repeat(1_022)),
        ),
        (
            "lower 15: variants are written twice",
            variants(33, &"v".repeat(1_000)),
        ),
        (
            "the longest text and marks",
            Tape {
                text: vec![b'x'; 65_536],
                marks: [1, 0, 65_535, 1, 3, 0].repeat(2_730),
            },
        ),
        (
            "all marks",
            Tape {
                text: Vec::new(),
                marks: [2, 0, 0, 0].repeat(4_096),
            },
        ),
    ];
    tapes
        .map(|(shows, tape)| input(shows, input_of(&tape)))
        .into()
}

/// The written lists of events and random documents.
fn documents() -> Vec<Input> {
    let mut random = Random::new(SEED);
    let list = written()
        .into_iter()
        .map(|list| input(list.shows, input_of(&Tape::of(&list.events))));
    let mut all: Vec<Input> = list.collect();
    for index in 0..DOCUMENTS {
        let events = match index % 2 {
            0 => document(&mut random),
            _ => messed(&mut random),
        };
        all.push(input(
            format!("random document {index}"),
            input_of(&Tape::shared(&events)),
        ));
    }
    all
}

/// The inputs of crates/replay that are bytes, and what they show.
const BYTES: [(&str, &[u8]); 11] = [
    ("no bytes", &[]),
    ("three bytes", &[1, 0, 1]),
    ("the longest text, its length alone", &[0, 0, 1, 0]),
    ("a text too long, its length alone", &[1, 0, 1, 0]),
    ("a text too long, seven bytes", &[1, 0, 1, 0, 0, 0, 0]),
    (
        "the longest marks and none of them",
        &[0, 0, 0, 0, 0, 64, 0, 0],
    ),
    ("marks too long", &[0, 0, 0, 0, 1, 64, 0, 0]),
    ("both too long", &[255, 255, 255, 255, 255, 255, 255, 255]),
    ("the empty tape", &[0, 0, 0, 0, 0, 0, 0, 0]),
    (
        "bytes behind the empty tape",
        &[0, 0, 0, 0, 0, 0, 0, 0, 9, 9],
    ),
    (
        "one byte of marks missing",
        &[0, 0, 0, 0, 1, 0, 0, 0, 3, 0, 0],
    ),
];

/// A type of each kind, with every cardinality but the plain one.
const EACH_KIND: &str = "<schema targetNamespace=u><element name=R type=a_b/><simpleType name=K><enumeration value=TEST-VALUE/></><simpleType name=N><restriction base=my:date/><maxLength value=4294967296/></><complexType name=a_b><sequence><element name=FooBar type=K minOccurs=0/><element name=B type=xs:int minOccurs=5 maxOccurs=unbounded/><element name=C type=N maxOccurs=7/></></><complexType name=H><choice><element name=V type=_x/></></><complexType name=W><simpleContent><extension base=decimal><attribute name=Ccy type=K use=required/></></></><complexType name=O></></>";

/// The cardinalities of paper 01's specimens: min 0, max 0; min 0, max 1; min 5, unbounded; min 0, max 2.
const CARDINALITIES: &str = "<schema><complexType name=A><sequence><element name=R type=T minOccurs=0 maxOccurs=0/><element name=O type=T minOccurs=0 maxOccurs=1/><element name=V type=T minOccurs=5 maxOccurs=unbounded/><element name=B type=T minOccurs=0 maxOccurs=2/></></></>";

/// The tapes of crates/replay, and what they show.
fn table_tapes() -> Vec<(&'static str, Tape)> {
    let of = |lines: &str| Tape::of(&events(lines));
    let tape = |text: &[u8], marks: &[u32]| Tape {
        text: text.to_vec(),
        marks: marks.to_vec(),
    };
    vec![
        ("the paper's specimen", of(SPECIMEN)),
        ("lower 12", of("<x></>")),
        ("lower 13", of("<schema><element name=D type=T/><simpleType name=A><restriction base=QName/></></>")),
        ("lower 13 where 20 would follow", of("<schema><simpleType name=A></><complexType name=A></></>")),
        ("lower 20", of("<schema><complexType name=a_b></><complexType name=AB></></>")),
        ("lower 15", variants(33, &"v".repeat(1_000))),
        ("read 3", tape(b"", &[1, 0, 0, 0, 4])),
        ("read 4", tape(b"abc", &[1, 0, 2, 2])),
        ("read 6", of("<schema></></>")),
        ("read 7", tape(b"x", &[1, 0, 0, 1].repeat(256))),
        ("read 9 where lowering would give 13", of("<schema><simpleType name=A></><simpleType>")),
        ("read 6 where lowering would give 12", of("</>")),
        ("read 10", of("<schema><simpleType name=A><minLength value=x/>")),
        ("read 11", enumerations(1_598, "B")),
        ("all rows", enumerations(1_597, "B")),
        ("a type of each kind", of(EACH_KIND)),
        ("the paper's cardinalities", of(CARDINALITIES)),
    ]
}

/// The part `print` of the file stdin of crates/replay: a letter, a label, a text and numbers on each line.
pub fn table() -> String {
    let list = |numbers: Vec<String>| numbers.join(" ");
    let mut lines = String::new();
    for (shows, bytes) in BYTES {
        let numbers = list(bytes.iter().map(u8::to_string).collect());
        lines.push_str(&format!("i;{shows};;{numbers}\n"));
    }
    for (shows, tape) in table_tapes() {
        let text = String::from_utf8(tape.text).expect("the texts are ASCII");
        let numbers = list(tape.marks.iter().map(u32::to_string).collect());
        lines.push_str(&format!("t;{shows};{text};{numbers}\n"));
    }
    lines + &labels().0
}

/// The part `print` of the file stdout of crates/replay: each label and what the model prints.
pub fn table_answers() -> Vec<u8> {
    let tapes = table_tapes();
    let bytes = BYTES.map(|(shows, bytes)| (shows, bytes.to_vec()));
    let inputs = tapes.iter().map(|(shows, tape)| (*shows, input_of(tape)));
    let mut lines = Vec::new();
    for (shows, input) in bytes.into_iter().chain(inputs) {
        lines.extend(format!("{shows}:\n").into_bytes());
        lines.extend(printed(&input));
    }
    lines.extend(labels().1);
    lines
}

/// The tapes whose graphs' labels crates/replay prints: references by name and by each word, fields, variants, attributes, values and newtypes; a refused lowering.
fn label_tapes() -> Vec<(&'static str, Tape)> {
    let of = |lines: &str| Tape::of(&events(lines));
    vec![
        ("labels of the paper's specimen", of(SPECIMEN)),
        ("labels of a type of each kind", of(EACH_KIND)),
        ("labels of references to each word", of(EACH_WORD)),
        ("labels where lowering gives 12", of("<x></>")),
    ]
}

/// References to a type of each word, and to one of the schema's own, in every kind of row that has one.
const EACH_WORD: &str = "<schema><complexType name=A><sequence><element name=S type=string/><element name=O type=boolean/><element name=D type=decimal/><element name=E type=date/><element name=T type=dateTime/><element name=X type=x_y/></></><complexType name=B><choice><element name=V type=xs:boolean/><element name=W type=A/></></><complexType name=C><simpleContent><extension base=dateTime><attribute name=K type=string/><attribute name=L type=N/></></></><complexType name=F><simpleContent><extension base=N></></></><simpleType name=N><restriction base=date/></></>";

/// The word list of the paper's built-in types.
const WORDS: &[u8] = b"String\nBool\nDecimal\nDate\nDateTime\n";

/// The labels of the used rows of a tape's graph, of the row behind them and of the one behind the sheet.
fn label_lines(tape: &Tape) -> Vec<u8> {
    let lent = Sheet {
        rows: vec![0; 16_000],
        names: vec![0; 65_536],
    };
    let (_, sheet) = read(&clear(&lent, 0).1, tape);
    let graph = lowering(&sheet, &lent, &[0; 4_096]).graph;
    let mut lines = Vec::new();
    for row in (0..=graph.rows[1] as usize).chain([1_600]) {
        let label = label(&graph.rows, &graph.names, WORDS, row);
        lines.extend(format!("{row} {} `", label.number).into_bytes());
        lines.extend(label.text);
        lines.extend(b"`\n");
    }
    lines
}

/// The lines about labels of the part `print` of the files stdin and stdout of crates/replay.
fn labels() -> (String, Vec<u8>) {
    let mut lines = String::new();
    let mut answers = Vec::new();
    for (shows, tape) in label_tapes() {
        let numbers: Vec<String> = tape.marks.iter().map(u32::to_string).collect();
        let text = String::from_utf8(tape.text.clone()).expect("the texts are ASCII");
        lines.push_str(&format!("g;{shows};{text};{}\n", numbers.join(" ")));
        answers.extend(format!("{shows}:\n").into_bytes());
        answers.extend(label_lines(&tape));
    }
    (lines, answers)
}

/// The schemas of a folder, each piece of a schema as an input.
///
/// # Errors
///
/// Returns the error where a file or folder cannot be read.
pub fn schemas(folder: &Path) -> io::Result<Vec<Input>> {
    let mut all = Vec::new();
    for file in schemas_under(folder)? {
        let Ok(text) = fs::read_to_string(&file) else {
            continue;
        };
        let events = events_of_xml(&text).map_err(io::Error::other)?;
        let piece = |tape: &Tape| input(file.display().to_string(), input_of(tape));
        all.extend(pieces(&events).iter().map(piece));
    }
    Ok(all)
}
