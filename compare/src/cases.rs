//! The texts on which the static library is compared with the Rust.

use std::collections::BTreeSet;
use std::fs;
use std::io;
use std::ops::RangeInclusive;
use std::path::{Path, PathBuf};

use crate::names::{
    changes_of_one_place, near_misses, prefixed, BUILTIN_NAMES, OTHER_BUILTIN_NAMES,
};
use crate::paper::text::is_text;
use crate::random::Random;

/// The limits of the letters and digits, the bytes beside them, the separators, and both ends of ASCII.
const EVERY_CLASS: &[u8] = b"AZaz09@[`{/:_-+ \0\x7f";
const FEWER_CLASSES: &[u8] = b"AZaz0_-:+ ";
const NUMBER_BYTES: &[u8] = b"+-0 9:/";
/// White space, its neighbours and the bytes that other trims take, signs and digits and their neighbours.
const SPELLING_BYTES: &[u8] = b"\0\x08\t\n\x0b\x0c\r\x0e\x1c\x1d\x1e\x1f !+,-./019:\x7f";
const LONGEST_SPELLING: usize = 5;
const FEW_NAME_BYTES: &[u8] = b"aA_b:";

/// ASCII letters of both cases, digits and separators; letters up to U+017F, at least one of each kind of case and each lead byte, and
/// characters that are no letters.
const ACCENTED: [char; 40] = [
    'a', 'b', 'z', 'A', 'B', 'Z', '0', '9', '_', '-', '.', ':', ' ', 'é', 'É', 'ß', 'ŉ', 'İ', 'ı',
    'µ', 'ÿ', 'Ÿ', 'ſ', 'Ā', 'ā', 'ª', 'º', '×', '÷', '·', 'ĸ', '\u{80}', '\u{A0}', '\u{AD}', 'À',
    'Ż', 'ż', 'Ĳ', 'ĳ', 'ŀ',
];
const LONGEST_ACCENTED: usize = 3;
/// With the characters that case brings into a graph.
const OF_GRAPHS: [char; 8] = ['a', 'S', '_', ':', 'ŉ', '\u{2BC}', '\u{307}', '\u{39C}'];
const LONGEST_OF_GRAPHS: usize = 4;
const RANDOM_ACCENTED: usize = 60_000;

const SEED: u64 = 52;
const RANDOM_NUMBERS: usize = 20_000;
const RANDOM_TEXTS: usize = 210_000;
const LONGEST_RANDOM: usize = 300;

/// All texts over `alphabet` with a length in `lengths`, shorter ones first.
pub fn texts_over(alphabet: &[u8], lengths: RangeInclusive<usize>) -> Vec<String> {
    let mut level = vec![String::new()];
    let mut texts = Vec::new();
    for length in 0..=*lengths.end() {
        if length > 0 {
            level = one_byte_longer(&level, alphabet);
        }
        if lengths.contains(&length) {
            texts.extend_from_slice(&level);
        }
    }
    texts
}

fn one_byte_longer(texts: &[String], alphabet: &[u8]) -> Vec<String> {
    texts
        .iter()
        .flat_map(|text| {
            alphabet
                .iter()
                .map(move |&b| format!("{text}{}", char::from(b)))
        })
        .collect()
}

/// All texts of up to `most` of the characters, shorter ones first.
fn texts_of(characters: &[char], most: usize) -> Vec<String> {
    let mut texts = vec![String::new()];
    let mut from = 0;
    for _ in 0..most {
        let to = texts.len();
        for index in from..to {
            let longer: Vec<String> = characters
                .iter()
                .map(|c| format!("{}{c}", texts[index]))
                .collect();
            texts.extend(longer);
        }
        from = to;
    }
    texts
}

/// All short texts with accented letters.
pub fn accented_texts() -> Vec<String> {
    texts_of(&ACCENTED, LONGEST_ACCENTED)
}

/// All short texts of a graph, with the three characters that no schema sheet has.
pub fn graph_texts() -> Vec<String> {
    texts_of(&OF_GRAPHS, LONGEST_OF_GRAPHS)
}

/// Longer texts with accented letters, over five choices of characters.
pub fn random_accented() -> Vec<String> {
    let all: Vec<char> = ('\u{80}'..='\u{17F}').collect();
    let mixed: Vec<char> = ('\0'..='\u{17F}').collect();
    let choices: [&[char]; 5] = [
        &ACCENTED,
        &all,
        &mixed,
        &['é', 'É', 'a', 'A'],
        &['İ', 'ŉ', '_', '-', 'ß'],
    ];
    let mut random = Random::new(SEED + 2);
    (0..RANDOM_ACCENTED)
        .map(|i| {
            let choice = choices[i % choices.len()];
            let length = random.below(LONGEST_RANDOM / 2 + 1);
            (0..length)
                .map(|_| choice[random.below(choice.len())])
                .collect()
        })
        .collect()
}

/// All short texts.
pub fn short_texts() -> Vec<String> {
    let mut texts = texts_over(EVERY_CLASS, 0..=4);
    texts.extend(texts_over(FEWER_CLASSES, 5..=5));
    texts
}

/// Each short text of the bytes that matter in the spelling of a number.
pub fn each_spelling(visit: &mut dyn FnMut(&str)) {
    each_longer(&mut String::new(), visit);
}

fn each_longer(text: &mut String, visit: &mut dyn FnMut(&str)) {
    visit(text);
    if text.len() == LONGEST_SPELLING {
        return;
    }
    for &byte in SPELLING_BYTES {
        text.push(char::from(byte));
        each_longer(text, visit);
        text.pop();
    }
}

/// Short names for all pairs.
pub fn short_names() -> Vec<String> {
    texts_over(FEW_NAME_BYTES, 0..=3)
}

/// Short names with letters whose upper form is longer, shorter or another's, for all pairs.
pub fn short_accented_names() -> Vec<String> {
    texts_of(&['_', 'S', 's', 'ß', 'ſ', 'ı', 'i', 'é', 'É', 'ŉ', 'N'], 3)
}

/// Number texts, each once.
pub fn numbers() -> Vec<String> {
    let mut texts = texts_over(NUMBER_BYTES, 0..=3);
    for value in values_at_limits() {
        for zeros in 0..=40 {
            let digits = format!("{}{value}", "0".repeat(zeros));
            texts.extend(["", "+", "-"].map(|sign| format!("{sign}{digits}")));
        }
    }
    texts.extend(random_digits());
    each_once(texts)
}

fn each_once(mut texts: Vec<String>) -> Vec<String> {
    texts.sort();
    texts.dedup();
    texts
}

/// Values around the limits of 32 and 64 bits, around ten times them, and around the powers of ten.
fn values_at_limits() -> Vec<u128> {
    let limits = [1 << 32, 1 << 64]
        .into_iter()
        .flat_map(|v: u128| [v, 10 * v]);
    let powers = (0..=30).map(|k| 10_u128.pow(k));
    let values = limits
        .chain(powers)
        .flat_map(|v| v.saturating_sub(3)..=(v + 3));
    values.collect::<BTreeSet<_>>().into_iter().collect()
}

fn random_digits() -> Vec<String> {
    let mut random = Random::new(SEED);
    (0..RANDOM_NUMBERS)
        .map(|_| {
            let length = 1 + random.below(40);
            random.text(b"0123456789", length)
        })
        .collect()
}

/// The built-in names, changed in every place, behind prefixes, and joined two by two, each once.
pub fn builtin_names() -> Vec<String> {
    let names = BUILTIN_NAMES.iter().chain(&OTHER_BUILTIN_NAMES);
    let mut texts: Vec<String> = names.flat_map(|name| forms_of(name)).collect();
    for first in BUILTIN_NAMES {
        for second in BUILTIN_NAMES {
            texts.extend([format!("{first}:{second}"), format!("{first}{second}")]);
        }
    }
    each_once(texts)
}

fn forms_of(name: &str) -> Vec<String> {
    let changed = [
        vec![name.to_owned()],
        near_misses(name),
        changes_of_one_place(name),
    ]
    .concat();
    let behind_prefixes: Vec<String> = changed.iter().flat_map(|text| prefixed(text)).collect();
    [changed, behind_prefixes].concat()
}

/// Longer texts over several alphabets.
pub fn random_texts() -> Vec<String> {
    let every_byte: Vec<u8> = (0..128).collect();
    let alphabets: [&[u8]; 7] = [
        b"aZ",
        b"abcxyzABCXYZ",
        b"abAB_",
        b"ABCabc-",
        b"aB_-:+09",
        EVERY_CLASS,
        &every_byte,
    ];
    let mut random = Random::new(SEED + 1);
    (0..RANDOM_TEXTS)
        .map(|i| {
            let length = random.below(LONGEST_RANDOM + 1);
            random.text(alphabets[i % alphabets.len()], length)
        })
        .collect()
}

/// The name-like tokens and the attribute values of the schemas under `folder`, each once, without
/// those that have a character above U+017F.
///
/// # Errors
///
/// Returns the error where a file or folder cannot be read.
pub fn schema_texts(folder: &Path) -> io::Result<Vec<String>> {
    let mut texts = BTreeSet::new();
    for file in schemas_under(folder)? {
        let bytes = fs::read(file)?;
        texts.extend(
            tokens(&bytes)
                .chain(attribute_values(&bytes))
                .filter_map(taken),
        );
    }
    Ok(texts.into_iter().collect())
}

/// The schema files in `folder` and below, in order.
///
/// # Errors
///
/// Returns the error where a folder cannot be read.
pub fn schemas_under(folder: &Path) -> io::Result<Vec<PathBuf>> {
    let mut files = Vec::new();
    for entry in fs::read_dir(folder)? {
        let path = entry?.path();
        if path.is_dir() {
            files.extend(schemas_under(&path)?);
        } else if path.extension().is_some_and(|e| e == "xsd") {
            files.push(path);
        }
    }
    files.sort();
    Ok(files)
}

fn tokens(bytes: &[u8]) -> impl Iterator<Item = &[u8]> {
    bytes
        .split(|b| !(b.is_ascii_alphanumeric() || b"_-.:+".contains(b)))
        .filter(|token| !token.is_empty())
}

fn attribute_values(bytes: &[u8]) -> impl Iterator<Item = &[u8]> {
    let openings = bytes.windows(2).enumerate();
    openings.filter_map(|(at, pair)| match pair {
        b"=\"" | b"='" => value_from(&bytes[at + 2..], pair[1]),
        _ => None,
    })
}

fn value_from(rest: &[u8], quote: u8) -> Option<&[u8]> {
    let end = rest.iter().position(|&b| b == quote)?;
    Some(&rest[..end])
}

fn taken(bytes: &[u8]) -> Option<String> {
    is_text(bytes).then(|| String::from_utf8_lossy(bytes).into_owned())
}
