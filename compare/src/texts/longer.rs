//! Random documents, the schemas, and changes of both.

use std::fs;
use std::io;
use std::path::Path;

use super::check::{Checks, Counted};
use super::Extent;
use crate::cases::schemas_under;
use crate::random::Random;

const SEED: u64 = 0x6c75_6269_6b31;

/// How many random documents there are, each with two changes of it.
const DOCUMENTS: usize = 150_000;

/// How many changes of a schema there are at most, and how many bytes they have in all at most.
const fn changes_of_each(extent: Extent) -> (usize, usize) {
    match extent {
        Extent::Gate => (800, 2_400_000),
        Extent::All => (8_000, 24_000_000),
    }
}

/// How many of them have accented letters in names.
const ACCENTED_DOCUMENTS: usize = 50_000;

/// Random documents, each also changed.
pub fn documents(_: Extent) -> Counted {
    let mut checks = Checks::new("random documents, and two changes of each");
    let mut random = Random::new(SEED);
    for _ in 0..DOCUMENTS {
        let text = document(&mut random, &NAMES).into_bytes();
        checks.text(&text);
        checks.text(&changed(&text, PIECES, &mut random));
        checks.text(&changed(&text, PIECES, &mut random));
    }
    checks.counted()
}

/// Random documents with accented letters in names, each also changed: most changes of a byte cut a character.
pub fn accented(_: Extent) -> Counted {
    let mut checks = Checks::new("random documents with accented names, and two changes of each");
    let mut random = Random::new(SEED + 2);
    for _ in 0..ACCENTED_DOCUMENTS {
        let text = document(&mut random, &ACCENTED).into_bytes();
        checks.text(&text);
        checks.text(&changed(&text, PIECES, &mut random));
        checks.text(&changed(&text, ACCENTED_PIECES, &mut random));
    }
    checks.counted()
}

/// The schemas in `folder` that are short enough, and changes of them.
///
/// # Errors
///
/// Returns the error where a file or folder cannot be read.
pub fn schemas(folder: &Path, extent: Extent) -> io::Result<Counted> {
    let mut checks = Checks::new("the schemas up to 65,536 bytes, and changes of them");
    let mut random = Random::new(SEED + 1);
    for file in schemas_under(folder)? {
        let text = fs::read(file)?;
        if text.len() <= 65_536 {
            checks.text(&text);
            let ascii: Vec<u8> = text.into_iter().filter(u8::is_ascii).collect();
            changes(&mut checks, &ascii, extent, &mut random);
        }
    }
    Ok(checks.counted())
}

/// An ASCII text and changes of it.
fn changes(checks: &mut Checks, text: &[u8], extent: Extent, random: &mut Random) {
    checks.text(text);
    let (most, bytes) = changes_of_each(extent);
    for _ in 0..most.min(bytes / text.len().max(1)) {
        let changed = changed(text, PIECES, random);
        checks.text(&changed);
    }
}

/// What is put into a text.
const PIECES: &[&str] = &[
    "<",
    ">",
    "/",
    "&",
    ";",
    "\"",
    "'",
    "=",
    " ",
    "\n",
    "-",
    "--",
    "]]>",
    "]]",
    "<!--",
    "-->",
    "<?p",
    "?>",
    "<?xml",
    "<a>",
    "</a>",
    "<a/>",
    "&lt;",
    "&amp;",
    "&#32;",
    "&#0;",
    "&x;",
    "<![CDATA[",
    "<!DOCTYPE",
    "\u{1}",
    "\u{7f}",
    "é",
    "1",
    ":",
    "_",
    ".",
    "x=''",
    " name=''",
    "/>",
    "xml",
];

/// What is put into a text with accented letters.
const ACCENTED_PIECES: &[&str] = &[
    "é",
    "ÿ",
    "ĳ",
    "\u{B7}",
    "×",
    "÷",
    "\u{80}",
    "\u{A0}",
    "ª",
    "\u{17F}",
    "\u{180}",
    "\u{2BC}",
    "\u{301}",
    "<é>",
    "</é>",
    "<ß/>",
    " ŉ=''",
    " é=\"ĸ\"",
    "<?ſ?>",
    "&é;",
    "<!--é-->",
];

/// The text with one to three edits, at most 65,536 bytes long.
fn changed(text: &[u8], pieces: &[&str], random: &mut Random) -> Vec<u8> {
    let mut text = text.to_vec();
    for _ in 0..1 + random.below(3) {
        edit(&mut text, pieces, random);
    }
    text.truncate(65_536);
    text
}

fn edit(text: &mut Vec<u8>, pieces: &[&str], random: &mut Random) {
    let from = random.below(text.len() + 1);
    let to = text.len().min(from + random.below(5));
    let piece = pieces[random.below(pieces.len())].bytes();
    match random.below(8) {
        0 | 1 => drop(text.splice(from..from, piece)),
        2 | 3 => drop(text.splice(from..to, piece)),
        4 => drop(text.drain(from..to)),
        5 => {
            let part = part(text, random);
            drop(text.splice(from..from, part));
        }
        6 if from < text.len() => text[from] = random.below(128) as u8,
        6 => text.truncate(from),
        _ if from + 1 < text.len() => text.swap(from, from + 1),
        _ => text.push(b' '),
    }
}

/// Some bytes of the text.
fn part(text: &[u8], random: &mut Random) -> Vec<u8> {
    let from = random.below(text.len() + 1);
    let to = text.len().min(from + random.below(40));
    text[from..to].to_vec()
}

fn one_of<'a>(random: &mut Random, words: &[&'a str]) -> &'a str {
    words[random.below(words.len())]
}

const NAMES: [&str; 12] = [
    "a",
    "b",
    "xs:element",
    "xs:a",
    "_",
    ":",
    "A",
    "a-b",
    "a.1",
    "xml",
    "name",
    "xs:name",
];

/// Names with letters of two bytes, one of each kind that matters.
const ACCENTED: [&str; 12] = [
    "é",
    "ß",
    "xs:élément",
    "ĳ:a",
    "_",
    "ÿ\u{B7}",
    "É",
    "à-ŉ",
    "ø.1",
    "xmlé",
    "ſ",
    "xs:ı",
];

/// A random well-formed document with these names.
fn document(random: &mut Random, names: &[&str]) -> String {
    let declaration = one_of(
        random,
        &[
            "",
            "",
            "<?xml version='1.0'?>",
            "<?xml version=\"1.0\" encoding=\"UTF-8\"?>",
            "<?xml\tversion = '1.23' encoding='x.y' standalone='no' ?>",
        ],
    );
    let before = misc(random);
    let root = element(random, names, 0);
    let behind = misc(random);
    format!("{declaration}{before}{root}{behind}")
}

fn misc(random: &mut Random) -> String {
    (0..random.below(3)).map(|_| passed(random)).collect()
}

/// A comment, an instruction or white space.
fn passed(random: &mut Random) -> &'static str {
    one_of(
        random,
        &[
            " ",
            "\r\n",
            "<!---->",
            "<!-- - <a> & ]]> -->",
            "<!--<!DOCTYPE a>-->",
            "<?p?>",
            "<?xml-a b='c'?>",
            "<?p ?<a>&-->?>",
        ],
    )
}

fn element(random: &mut Random, names: &[&str], depth: usize) -> String {
    let name = one_of(random, names);
    let tag = format!(
        "<{name}{}{}",
        attributes(random, names),
        one_of(random, &["", "", " ", "\n"])
    );
    if depth > 4 || random.below(3) == 0 {
        return format!("{tag}/>");
    }
    let inside: String = (0..random.below(5))
        .map(|_| content(random, names, depth))
        .collect();
    format!("{tag}>{inside}</{name}{}>", one_of(random, &["", "", " "]))
}

fn content(random: &mut Random, names: &[&str], depth: usize) -> String {
    match random.below(4) {
        0 | 1 => element(random, names, depth + 1),
        2 => passed(random).to_owned(),
        _ => one_of(
            random,
            &[
                "x",
                "]",
                ">",
                "\"'",
                "&lt;",
                "&#65;",
                "&#xe9;",
                "<![CDATA[]]>",
                "<![CDATA[<&]]]]>",
                "]]&gt;",
                "%p;",
                "--",
                "\u{7f}",
            ],
        )
        .to_owned(),
    }
}

/// Attributes with different keys.
fn attributes(random: &mut Random, names: &[&str]) -> String {
    let count = match random.below(12) {
        0 => names.len(),
        some => some % 4,
    };
    let start = random.below(names.len());
    let keys = (0..count).map(|index| names[(start + index) % names.len()]);
    let written = keys.map(|key| {
        let space = one_of(random, &[" ", " ", "\n\t"]);
        let eq = one_of(random, &["=", "=", " = ", "=\r\n"]);
        let value = one_of(
            random,
            &[
                "''",
                "\"\"",
                "'x'",
                "\"Max35Text\"",
                "'\"'",
                "\"'>]]>--\"",
                "'&lt;&#9; '",
                "\"\n\"",
            ],
        );
        format!("{space}{key}{eq}{value}")
    });
    written.collect()
}
