//! Order 1: the tape of an XML text. Each function is a production of XML 1.0 (Fifth Edition), its number in
//! the comment, with the constraints that a text without a DOCTYPE can meet: it takes the bytes that are left
//! and gives those left behind it, or none.
//!
//! Elements are nested as in [39] and [43], so a deep text needs a deep stack: about 10 MB for the deepest.

use std::collections::HashSet;
use std::str;

use super::text::is_text;
use super::{answer, Answer};

/// What a text of at most 65,536 bytes is.
#[derive(Clone, Debug, PartialEq, Eq)]
pub enum Judged {
    /// It has a byte above 127 that is of no character up to U+017F.
    Byte,
    /// The bytes `<!DOCTYPE` stand in it with only a well-formed prolog, or nothing, before them.
    Doctype,
    /// It is not well formed.
    Malformed,
    /// It is well formed, and this is its tape.
    Tape(Vec<u32>),
}

/// The call: the answer and the marks afterwards.
pub fn tape_of(text: &[u8], lent: &[u32]) -> (Answer, Vec<u32>) {
    if text.len() > 65_536 || lent.len() > 16_384 {
        return (answer(1, 0), lent.to_vec());
    }
    answered(&judged(text), lent.len())
}

/// The answer and the marks afterwards, with `lent` numbers lent, at most 16,384.
pub fn answered(judged: &Judged, lent: usize) -> (Answer, Vec<u32>) {
    let mut marks = vec![0; lent];
    let number = match judged {
        Judged::Byte => 5,
        Judged::Doctype => 18,
        Judged::Malformed => 17,
        Judged::Tape(tape) if tape.len() > lent => 19,
        Judged::Tape(tape) => {
            marks[..tape.len()].copy_from_slice(tape);
            return (answer(0, tape.len() as u32), marks);
        }
    };
    (answer(number, 0), marks)
}

/// What `text` is.
pub fn judged(text: &[u8]) -> Judged {
    if !is_text(text) {
        return Judged::Byte;
    }
    if has_doctype(text) {
        return Judged::Doctype;
    }
    document(text).map_or(Judged::Malformed, Judged::Tape)
}

/// "the bytes `<!DOCTYPE` with only a well-formed prolog, or nothing, before them"
fn has_doctype(text: &[u8]) -> bool {
    const DOCTYPE: &[u8] = b"<!DOCTYPE";
    let is_prolog = |before: &[u8]| all_chars(before) && prolog(before).is_empty();
    let places = text.windows(DOCTYPE.len()).enumerate();
    places
        .filter(|(_, bytes)| *bytes == DOCTYPE)
        .any(|(at, _)| is_prolog(&text[..at]))
}

/// [2] Char
fn is_char(point: u32) -> bool {
    matches!(point, 0x9 | 0xA | 0xD | 0x20..=0xD7FF | 0xE000..=0xFFFD | 0x1_0000..=0x10_FFFF)
}

fn all_chars(text: &[u8]) -> bool {
    str::from_utf8(text).is_ok_and(|text| text.chars().all(|c| is_char(c.into())))
}

/// [3] S
fn is_space(byte: &u8) -> bool {
    matches!(byte, 0x20 | 0x9 | 0xD | 0xA)
}

/// S?
fn spaces(left: &[u8]) -> &[u8] {
    let count = left.iter().take_while(|byte| is_space(byte)).count();
    &left[count..]
}

/// S
fn space(left: &[u8]) -> Option<&[u8]> {
    left.first().filter(|byte| is_space(byte))?;
    Some(spaces(left))
}

/// The first character of a text, of one byte or two.
fn first(left: &[u8]) -> Option<char> {
    let of = |length| str::from_utf8(left.get(..length)?).ok();
    of(1).or_else(|| of(2))?.chars().next()
}

/// [4] NameStartChar, as far as texts have characters
fn starts_name(c: char) -> bool {
    let letters = matches!(c, '\u{C0}'..='\u{D6}' | '\u{D8}'..='\u{F6}' | '\u{F8}'..='\u{2FF}');
    letters || matches!(c, ':' | 'A'..='Z' | '_' | 'a'..='z')
}

/// [4a] NameChar, as far as texts have characters
fn is_in_name(c: char) -> bool {
    starts_name(c) || matches!(c, '-' | '.' | '0'..='9' | '\u{B7}')
}

/// [5] Name, and what is left
fn name(left: &[u8]) -> Option<(&[u8], &[u8])> {
    first(left).filter(|&c| starts_name(c))?;
    let mut end = 0;
    while let Some(c) = first(&left[end..]).filter(|&c| is_in_name(c)) {
        end += c.len_utf8();
    }
    Some(left.split_at(end))
}

/// What stands before the first `end`, and what is left behind it.
fn cut<'a>(left: &'a [u8], end: &[u8]) -> Option<(&'a [u8], &'a [u8])> {
    let at = left.windows(end.len()).position(|bytes| bytes == end)?;
    Some((&left[..at], &left[at + end.len()..]))
}

/// [1] document; its tape
fn document(text: &[u8]) -> Option<Vec<u32>> {
    let mut tape = Tape {
        text,
        marks: Vec::new(),
    };
    let left = tape.element(prolog(text))?;
    let whole = all_chars(text) && misc(left).is_empty();
    whole.then_some(tape.marks)
}

/// [22] prolog without its doctypedecl: XMLDecl? Misc*
fn prolog(text: &[u8]) -> &[u8] {
    misc(declaration(text).unwrap_or(text))
}

/// [27] Misc*
fn misc(mut left: &[u8]) -> &[u8] {
    while let Some(behind) = comment(left)
        .or_else(|| instruction(left))
        .or_else(|| space(left))
    {
        left = behind;
    }
    left
}

/// [15] Comment: neither `--` inside it nor `-` at its end
fn comment(left: &[u8]) -> Option<&[u8]> {
    let (inside, left) = cut(left.strip_prefix(b"<!--")?, b"-->")?;
    let good = cut(inside, b"--").is_none() && !inside.ends_with(b"-");
    good.then_some(left)
}

/// [16] PI, [17] PITarget: a Name other than `xml` in any case, then nothing, or S and anything
fn instruction(left: &[u8]) -> Option<&[u8]> {
    let (inside, left) = cut(left.strip_prefix(b"<?")?, b"?>")?;
    let (target, rest) = name(inside)?;
    let good = !target.eq_ignore_ascii_case(b"xml") && rest.first().is_none_or(is_space);
    good.then_some(left)
}

/// [18] CDSect
fn section(left: &[u8]) -> Option<&[u8]> {
    let (_, left) = cut(left.strip_prefix(b"<![CDATA[")?, b"]]>")?;
    Some(left)
}

/// [23] XMLDecl
fn declaration(left: &[u8]) -> Option<&[u8]> {
    let left = declared(left.strip_prefix(b"<?xml")?, b"version", is_version)?;
    let left = declared(left, b"encoding", is_encoding).unwrap_or(left);
    let left = declared(left, b"standalone", is_standalone).unwrap_or(left);
    spaces(left).strip_prefix(b"?>")
}

/// [24] VersionInfo, [80] EncodingDecl, [32] SDDecl
fn declared<'a>(left: &'a [u8], word: &[u8], good: fn(&[u8]) -> bool) -> Option<&'a [u8]> {
    let (value, left) = quoted(eq(space(left)?.strip_prefix(word)?)?)?;
    good(value).then_some(left)
}

/// [26] VersionNum
fn is_version(value: &[u8]) -> bool {
    let digits = value.strip_prefix(b"1.").unwrap_or_default();
    !digits.is_empty() && digits.iter().all(u8::is_ascii_digit)
}

/// [81] EncName
fn is_encoding(value: &[u8]) -> bool {
    let is_later = |&byte: &u8| byte.is_ascii_alphanumeric() || b"._-".contains(&byte);
    value.first().is_some_and(u8::is_ascii_alphabetic) && value.iter().all(is_later)
}

fn is_standalone(value: &[u8]) -> bool {
    [&b"yes"[..], b"no"].contains(&value)
}

/// [25] Eq
fn eq(left: &[u8]) -> Option<&[u8]> {
    spaces(left).strip_prefix(b"=").map(spaces)
}

/// What stands between two equal quotes, and what is left.
fn quoted(left: &[u8]) -> Option<(&[u8], &[u8])> {
    let (quote, inside) = left.split_first()?;
    b"\"'".contains(quote).then(|| cut(inside, &[*quote]))?
}

/// [66] CharRef, [67] Reference, with Legal Character and Entity Declared; `name` stands between `&` and `;`
fn is_reference(name: &[u8]) -> bool {
    let point = match name {
        [b'#', b'x', digits @ ..] => number(digits, 16),
        [b'#', digits @ ..] => number(digits, 10),
        _ => return [&b"amp"[..], b"lt", b"gt", b"apos", b"quot"].contains(&name),
    };
    point.is_some_and(is_char)
}

/// The number of `digits`, if it has at most 32 bits and is not 0.
fn number(digits: &[u8], radix: u32) -> Option<u32> {
    let text = str::from_utf8(digits).ok()?;
    let are_digits = text.chars().all(|c| c.is_digit(radix));
    are_digits.then(|| u32::from_str_radix(text.trim_start_matches('0'), radix).ok())?
}

/// Each `&` begins a reference.
fn has_good_references(text: &[u8]) -> bool {
    let behind = text.split(|&byte| byte == b'&').skip(1);
    behind
        .map(|part| cut(part, b";"))
        .all(|part| part.is_some_and(|(name, _)| is_reference(name)))
}

/// [10] AttValue, with No < in Attribute Values
fn is_value(value: &[u8]) -> bool {
    !value.contains(&b'<') && has_good_references(value)
}

/// Some [10] AttValue has this between its quotes: one of the two quotes does not stand in it, and all of it are Chars.
pub fn can_stand_in_quotes(value: &[u8]) -> bool {
    let free = [b'"', b'\''].iter().any(|quote| !value.contains(quote));
    free && all_chars(value) && is_value(value)
}

/// [14] CharData and references, up to the next `<` or the end
fn char_data(left: &[u8]) -> Option<&[u8]> {
    let end = left.iter().position(|&byte| byte == b'<');
    let (text, left) = left.split_at(end.unwrap_or(left.len()));
    let good = cut(text, b"]]>").is_none() && has_good_references(text);
    good.then_some(left)
}

/// A key and its value.
type Attribute<'a> = (&'a [u8], &'a [u8]);

/// S and [41] Attribute, and what is left
fn attribute(left: &[u8]) -> Option<(Attribute<'_>, &[u8])> {
    let (key, left) = name(space(left)?)?;
    let (value, left) = quoted(eq(left)?)?;
    is_value(value).then_some(((key, value), left))
}

/// Unique Att Spec
fn are_unique(attributes: &[Attribute<'_>]) -> bool {
    let mut keys = HashSet::new();
    attributes.iter().all(|(key, _)| keys.insert(*key))
}

/// The marks of the tags so far.
struct Tape<'a> {
    text: &'a [u8],
    marks: Vec<u32>,
}

impl<'a> Tape<'a> {
    /// [39] element, with Element Type Match
    fn element(&mut self, left: &'a [u8]) -> Option<&'a [u8]> {
        let (kind, name, left) = self.tag(left)?;
        if kind == 2 {
            return Some(left);
        }
        let left = self.content(left)?;
        self.marks.extend([3, 0]);
        // [42] ETag
        spaces(left.strip_prefix(b"</")?.strip_prefix(name)?).strip_prefix(b">")
    }

    /// [43] content
    fn content(&mut self, left: &'a [u8]) -> Option<&'a [u8]> {
        let mut left = char_data(left)?;
        while !left.is_empty() && !left.starts_with(b"</") {
            let behind = comment(left)
                .or_else(|| instruction(left))
                .or_else(|| section(left))
                .or_else(|| self.element(left))?;
            left = char_data(behind)?;
        }
        Some(left)
    }

    /// [40] STag, kind 1, or [44] EmptyElemTag, kind 2; its name, and what is left
    fn tag(&mut self, left: &'a [u8]) -> Option<(u32, &'a [u8], &'a [u8])> {
        let (name, mut left) = name(left.strip_prefix(b"<")?)?;
        let mut attributes = Vec::new();
        while let Some((one, behind)) = attribute(left) {
            attributes.push(one);
            left = behind;
        }
        let left = spaces(left);
        let (kind, left) = match left.strip_prefix(b"/>") {
            Some(left) => (2, left),
            None => (1, left.strip_prefix(b">")?),
        };
        self.marks.extend([kind, attributes.len() as u32]);
        self.pair(name);
        for (key, value) in &attributes {
            self.pair(key);
            self.pair(value);
        }
        are_unique(&attributes).then_some((kind, name, left))
    }

    /// The pair of a part of the text.
    fn pair(&mut self, part: &[u8]) {
        let offset = part.as_ptr() as usize - self.text.as_ptr() as usize;
        self.marks.extend([offset as u32, part.len() as u32]);
    }
}
