//! Where expat and libxml2 differ by intention. A difference is explained by a change of the text that takes away
//! what the parser judges otherwise: behind it the model and the parser agree that the text is well formed.

use crate::paper::xml::{judged, Judged};

/// A reason: the parser, what it judges otherwise, and the text without it.
struct Reason {
    parser: &'static str,
    name: &'static str,
    without: fn(&[u8]) -> Option<Vec<u8>>,
}

/// Why a text passes that is not well formed.
const LETS_PASS: &[Reason] = &[
    Reason {
        parser: "expat",
        name: "a version that is not `1.` and digits",
        without: with_version,
    },
    Reason {
        parser: "libxml2",
        name: "the version `1.`",
        without: with_longer_version,
    },
    Reason {
        parser: "libxml2",
        name: "no white space before `standalone`, as the encoding is told",
        without: with_space,
    },
    Reason {
        parser: "libxml2",
        name: "a zero byte behind the root, taken for the end",
        without: up_to_zero,
    },
    Reason {
        parser: "libxml2",
        name: "a key `xmlns:..` twice, its value no name of a namespace",
        without: without_empty_namespaces,
    },
];

/// Why a text is refused that is well formed.
const REFUSES: &[Reason] = &[
    Reason {
        parser: "libxml2",
        name: "a name whose colons make no qualified name",
        without: without_colons,
    },
    Reason {
        parser: "expat",
        name: "a letter in a name that is one since the Fifth Edition",
        without: without_new_letters,
    },
];

/// Why `parser` lets a text pass that is not well formed, if it is one of the known reasons.
pub fn lets_pass(parser: &str, text: &[u8]) -> Option<&'static str> {
    let is_good = |text: &[u8]| judged(text) != Judged::Malformed;
    found(LETS_PASS, parser, text, is_good)
}

/// Why `parser`, which `accepts` or not, refuses a text that is well formed, if it is one of the known reasons.
pub fn refuses(
    parser: &str,
    text: &[u8],
    accepts: impl FnMut(&[u8]) -> bool,
) -> Option<&'static str> {
    found(REFUSES, parser, text, accepts)
}

fn found(
    reasons: &[Reason],
    parser: &str,
    text: &[u8],
    mut is_good: impl FnMut(&[u8]) -> bool,
) -> Option<&'static str> {
    let mut own = reasons.iter().filter(|reason| reason.parser == parser);
    let holds = |reason: &&Reason| (reason.without)(text).is_some_and(|text| is_good(&text));
    own.find(holds).map(|reason| reason.name)
}

fn find(text: &[u8], word: &[u8]) -> Option<usize> {
    text.windows(word.len()).position(|bytes| bytes == word)
}

/// The declaration's version made `1.0`, if it is `1.`.
fn with_longer_version(text: &[u8]) -> Option<Vec<u8>> {
    let changed = with_version(text)?;
    (changed.len() == text.len() + 1 && find(text, b"1.").is_some()).then_some(changed)
}

/// The declaration's version made `1.0`.
fn with_version(text: &[u8]) -> Option<Vec<u8>> {
    let (declaration, _) = text.split_at(find(text, b"?>")?);
    let from = find(declaration, b"version")?;
    let is_quote = |byte: &u8| b"\"'".contains(byte);
    let open = from + declaration[from..].iter().position(is_quote)?;
    let quote = declaration[open];
    let length = declaration[open + 1..].iter().position(|&b| b == quote)?;
    Some([&text[..=open], b"1.0", &text[open + 1 + length..]].concat())
}

/// White space put before the declaration's `standalone`.
fn with_space(text: &[u8]) -> Option<Vec<u8>> {
    let (declaration, _) = text.split_at(find(text, b"?>")?);
    let at = find(declaration, b"standalone")?;
    Some([&text[..at], b" ", &text[at..]].concat())
}

/// The text before its first zero byte.
fn up_to_zero(text: &[u8]) -> Option<Vec<u8>> {
    find(text, b"\0").map(|at| text[..at].to_vec())
}

/// Each ` xmlns:b=""` taken away.
fn without_empty_namespaces(text: &[u8]) -> Option<Vec<u8>> {
    const EMPTY: &[u8] = b" xmlns:b=\"\"";
    let mut text = text.to_vec();
    while let Some(at) = find(&text, EMPTY) {
        text.drain(at..at + EMPTY.len());
    }
    Some(text)
}

/// Letters of names in the Fifth Edition of XML 1.0 and not in the Fourth, up to U+017F, and others in their place.
const NEW_LETTERS: [(char, char); 6] = [
    ('\u{132}', '\u{101}'),
    ('\u{133}', '\u{103}'),
    ('\u{13F}', '\u{105}'),
    ('\u{140}', '\u{107}'),
    ('\u{149}', '\u{109}'),
    ('\u{17F}', '\u{10B}'),
];

/// Another letter for each new one.
fn without_new_letters(text: &[u8]) -> Option<Vec<u8>> {
    let text = std::str::from_utf8(text).ok()?;
    let other = |c: char| NEW_LETTERS.iter().find(|(new, _)| *new == c);
    let changed: String = text
        .chars()
        .map(|c| other(c).map_or(c, |pair| pair.1))
        .collect();
    (changed != text).then(|| changed.into_bytes())
}

/// `_` for each colon.
fn without_colons(text: &[u8]) -> Option<Vec<u8>> {
    let other = |&byte: &u8| if byte == b':' { b'_' } else { byte };
    Some(text.iter().map(other).collect())
}
