//! What the types of all schemas share: reading and writing, faults with their paths, and the check of facets.

use std::borrow::Cow;
use std::cmp::Ordering;
use std::error::Error;
use std::fmt;
use std::str::FromStr;
use std::sync::OnceLock;

use quick_xml::events::{BytesStart, Event};
use quick_xml::name::ResolveResult;
use quick_xml::{DeError, NsReader, Reader, SeError};
use regex::Regex;
use serde::de::{self, DeserializeOwned, Deserializer, MapAccess, Visitor};
use serde::ser::{SerializeMap, Serializer};
use serde::{Deserialize, Serialize};

mod place;
mod reader;

pub use place::{fill_choice, fill_struct, inside, put, read, Fields, Place, Variants};

/// A root element.
#[derive(Clone, Copy, Debug, PartialEq, Eq)]
pub struct Root {
    /// Its name.
    pub name: &'static str,
    /// The namespace; empty where there is none.
    pub namespace: &'static str,
    /// The elements inside are of the namespace too.
    pub qualified: bool,
}

/// Why a message was not read.
#[derive(Debug)]
#[non_exhaustive]
pub enum ReadError {
    /// The root element is another one.
    Root(String),
    /// It is not well formed, something required is not there, or a code or truth value is none.
    Xml(DeError),
    /// It was read, and the check found these faults.
    Faults(Faults),
}

impl fmt::Display for ReadError {
    fn fmt(&self, f: &mut fmt::Formatter<'_>) -> fmt::Result {
        match self {
            ReadError::Root(words) => f.write_str(words),
            ReadError::Xml(error) => error.fmt(f),
            ReadError::Faults(faults) => faults.fmt(f),
        }
    }
}

impl Error for ReadError {
    fn source(&self) -> Option<&(dyn Error + 'static)> {
        match self {
            ReadError::Root(_) => None,
            ReadError::Xml(error) => Some(error),
            ReadError::Faults(faults) => Some(faults),
        }
    }
}

/// Why a message was not written.
pub type WriteError = SeError;

impl Root {
    /// Reads a message; what is inside is not checked.
    ///
    /// # Errors
    ///
    /// [`ReadError::Root`] or [`ReadError::Xml`].
    pub fn read<T: DeserializeOwned>(&self, text: &str) -> Result<T, ReadError> {
        self.is_root_of(text)?;
        reader::read(text).map_err(ReadError::Xml)
    }

    /// Reads a message and checks it: every value, how often each element is there, and that nothing else is there.
    ///
    /// # Errors
    ///
    /// [`ReadError`].
    pub fn read_checked<T>(&self, text: &str) -> Result<T, ReadError>
    where
        T: DeserializeOwned + Serialize + Check,
    {
        let value: T = self.read(text)?;
        let mut faults = faults_of(&value);
        let written = self.write(&value).map_err(|error| {
            let words = error.to_string();
            ReadError::Xml(DeError::Custom(words))
        })?;
        faults.0.extend(other_tags(text, &written));
        match faults.0.is_empty() {
            true => Ok(value),
            false => Err(ReadError::Faults(faults)),
        }
    }

    /// Writes a message.
    ///
    /// # Errors
    ///
    /// [`WriteError`]; none is known of these types.
    pub fn write<T: Serialize>(&self, value: &T) -> Result<String, WriteError> {
        let prefix = match self.namespace.is_empty() || self.qualified {
            true => "",
            false => "n:",
        };
        let name = format!("{prefix}{}", self.name);
        let mut text = quick_xml::se::to_string_with_root(&name, value)?;
        if text.contains('\r') {
            // A reader would take it for the end of a line.
            text = text.replace('\r', "&#13;");
        }
        if !self.namespace.is_empty() {
            let space = self.namespace.replace('&', "&amp;").replace('"', "&quot;");
            let key = if prefix.is_empty() { "xmlns" } else { "xmlns:n" };
            text.insert_str(1 + name.len(), &format!(" {key}=\"{space}\""));
        }
        Ok(text)
    }

    /// The first tag of the text is this root.
    fn is_root_of(&self, text: &str) -> Result<(), ReadError> {
        let mut reader = NsReader::from_str(text);
        loop {
            let (space, event) = match reader.read_resolved_event() {
                Ok(found) => found,
                Err(error) => return Err(ReadError::Xml(DeError::InvalidXml(error))),
            };
            let (Event::Start(tag) | Event::Empty(tag)) = event else {
                if matches!(event, Event::Eof) {
                    return Err(ReadError::Root("there is no root element".to_owned()));
                }
                continue;
            };
            let space = match space {
                ResolveResult::Bound(space) => String::from_utf8_lossy(space.0).into_owned(),
                _ => String::new(),
            };
            let name = String::from_utf8_lossy(tag.local_name().into_inner()).into_owned();
            return match name == self.name && space == self.namespace {
                true => Ok(()),
                false => Err(ReadError::Root(format!(
                    "the root element is {name:?} of the namespace {space:?}, not {:?} of {:?}",
                    self.name, self.namespace
                ))),
            };
        }
    }
}

/// A fault of a message: where it is, by the names of the elements, and what it is.
#[derive(Clone, Debug, PartialEq, Eq)]
pub struct Fault {
    /// `PmtInf[0].CdtTrfTxInf[2].Amt.InstdAmt`; empty for the value itself.
    pub path: String,
    /// What is wrong.
    pub words: String,
}

impl fmt::Display for Fault {
    fn fmt(&self, f: &mut fmt::Formatter<'_>) -> fmt::Result {
        match self.path.is_empty() {
            true => f.write_str(&self.words),
            false => write!(f, "{}: {}", self.path, self.words),
        }
    }
}

impl Error for Fault {}

/// The faults of a message in its order.
#[derive(Clone, Debug, Default, PartialEq, Eq)]
pub struct Faults(pub Vec<Fault>);

impl fmt::Display for Faults {
    fn fmt(&self, f: &mut fmt::Formatter<'_>) -> fmt::Result {
        for (index, fault) in self.0.iter().enumerate() {
            let end = if index == 0 { "" } else { "\n" };
            write!(f, "{end}{fault}")?;
        }
        Ok(())
    }
}

impl Error for Faults {}

/// The way from the value that is checked to a part of it.
#[derive(Clone, Copy, Debug)]
pub struct Path<'p> {
    before: Option<&'p Path<'p>>,
    step: Step,
}

#[derive(Clone, Copy, Debug)]
enum Step {
    Start,
    Name(&'static str),
    Index(usize),
}

impl<'p> Path<'p> {
    /// The value itself.
    pub fn start() -> Path<'static> {
        Path {
            before: None,
            step: Step::Start,
        }
    }

    /// The element or attribute of this name inside.
    pub fn then(&'p self, name: &'static str) -> Path<'p> {
        Path {
            before: Some(self),
            step: Step::Name(name),
        }
    }

    fn at(&'p self, index: usize) -> Path<'p> {
        Path {
            before: Some(self),
            step: Step::Index(index),
        }
    }

    fn fault(&self, words: String) -> Fault {
        let path = self.to_string();
        Fault { path, words }
    }
}

impl fmt::Display for Path<'_> {
    fn fmt(&self, f: &mut fmt::Formatter<'_>) -> fmt::Result {
        if let Some(before) = self.before {
            before.fmt(f)?;
            let dot = matches!(self.step, Step::Name(_)) && !matches!(before.step, Step::Start);
            f.write_str(if dot { "." } else { "" })?;
        }
        match self.step {
            Step::Start => Ok(()),
            Step::Name(name) => f.write_str(name),
            Step::Index(index) => write!(f, "[{index}]"),
        }
    }
}

/// What can be checked.
pub trait Check {
    /// Adds the faults of the value, which stands at this path.
    fn check(&self, path: &Path<'_>, faults: &mut Vec<Fault>);
}

/// The faults of a value.
pub fn faults_of<T: Check + ?Sized>(value: &T) -> Faults {
    let mut faults = Vec::new();
    value.check(&Path::start(), &mut faults);
    Faults(faults)
}

/// The value has no fault.
///
/// # Errors
///
/// Its [`Faults`].
pub fn validated<T: Check + ?Sized>(value: &T) -> Result<(), Faults> {
    let faults = faults_of(value);
    match faults.0.is_empty() {
        true => Ok(()),
        false => Err(faults),
    }
}

impl Check for String {
    fn check(&self, _: &Path<'_>, _: &mut Vec<Fault>) {}
}

impl<T: Check> Check for Option<T> {
    fn check(&self, path: &Path<'_>, faults: &mut Vec<Fault>) {
        if let Some(inside) = self {
            inside.check(path, faults);
        }
    }
}

impl<T: Check> Check for Box<T> {
    fn check(&self, path: &Path<'_>, faults: &mut Vec<Fault>) {
        T::check(self, path, faults);
    }
}

impl<T: Check> Check for Vec<T> {
    fn check(&self, path: &Path<'_>, faults: &mut Vec<Fault>) {
        for (index, item) in self.iter().enumerate() {
            item.check(&path.at(index), faults);
        }
    }
}

/// What stands in a type: elements by their number, sequences and choices, each so often.
#[derive(Clone, Copy, Debug)]
pub enum Content {
    /// An element: its name, how often at least and at most.
    Element(&'static str, usize, usize),
    /// One behind the other; `false` where all may be missing.
    Sequence(bool, &'static [Content]),
    /// One of them; `false` where none may be there.
    Choice(bool, &'static [Content]),
}

impl Content {
    /// Adds the faults of elements that are there so often, in the order of the content.
    pub fn check(&self, counts: &[usize], path: &Path<'_>, faults: &mut Vec<Fault>) {
        match *self {
            Content::Element(name, least, most) => {
                let count = counts.first().copied().unwrap_or(0);
                if let Some(words) = count_fault(name, count, least, most) {
                    faults.push(path.fault(words));
                }
            }
            Content::Sequence(required, parts) => {
                if required || counts.iter().any(|&count| count > 0) {
                    for (part, counts) in split(parts, counts) {
                        part.check(counts, path, faults);
                    }
                }
            }
            Content::Choice(required, parts) => choice(required, parts, counts, path, faults),
        }
    }

    fn elements(&self) -> usize {
        match self {
            Content::Element(..) => 1,
            Content::Sequence(_, parts) | Content::Choice(_, parts) => {
                parts.iter().map(Content::elements).sum()
            }
        }
    }

    /// Nothing at all may stand there.
    fn may_be_empty(&self) -> bool {
        match self {
            Content::Element(_, least, _) => *least == 0,
            Content::Sequence(required, parts) => {
                !required || parts.iter().all(Content::may_be_empty)
            }
            Content::Choice(required, parts) => {
                !required || parts.iter().any(Content::may_be_empty)
            }
        }
    }

    fn names(&self) -> String {
        match self {
            Content::Element(name, ..) => (*name).to_owned(),
            Content::Sequence(_, parts) | Content::Choice(_, parts) => {
                let names: Vec<String> = parts.iter().map(Content::names).collect();
                names.join(if matches!(self, Content::Sequence(..)) {
                    " with "
                } else {
                    ", "
                })
            }
        }
    }
}

/// Each part with the counts of its elements.
fn split<'c>(parts: &'static [Content], counts: &'c [usize]) -> Vec<(&'static Content, &'c [usize])> {
    let mut rest = counts;
    let mut found = Vec::with_capacity(parts.len());
    for part in parts {
        let (here, behind) = rest.split_at(part.elements().min(rest.len()));
        found.push((part, here));
        rest = behind;
    }
    found
}

fn choice(
    required: bool,
    parts: &'static [Content],
    counts: &[usize],
    path: &Path<'_>,
    faults: &mut Vec<Fault>,
) {
    let mut there = split(parts, counts);
    there.retain(|(_, counts)| counts.iter().any(|&count| count > 0));
    let all = || parts.iter().map(Content::names).collect::<Vec<_>>().join(", ");
    match there.as_slice() {
        [] if required && !parts.iter().any(Content::may_be_empty) => {
            faults.push(path.fault(format!("one of {} is required", all())));
        }
        [] => {}
        [(part, counts)] => part.check(counts, path, faults),
        several => {
            let names: Vec<String> = several.iter().map(|(part, _)| part.names()).collect();
            let words = format!("{} stand together, only one of them may", names.join(" and "));
            faults.push(path.fault(words));
        }
    }
}

fn count_fault(name: &str, count: usize, least: usize, most: usize) -> Option<String> {
    if count < least {
        return Some(match (count, least) {
            (0, 1) => format!("{name} is required"),
            _ => format!("{count} of {name}, at least {least}"),
        });
    }
    (count > most).then(|| format!("{count} of {name}, at most {most}"))
}

/// How white space of a text is taken.
#[derive(Clone, Copy, Debug, PartialEq, Eq)]
pub enum Space {
    /// As it stands.
    Preserve,
    /// Each character of it is a space.
    Replace,
    /// The same, runs are one space, none at the ends.
    Collapse,
}

/// What a text must look like before its facets are tried.
#[derive(Clone, Copy, Debug, PartialEq, Eq)]
pub enum Lexical {
    /// Anything.
    Any,
    /// A decimal number.
    Decimal,
    /// A whole number.
    Integer,
    /// A date.
    Date,
    /// A date with a time.
    DateTime,
    /// A time.
    Time,
    /// A year.
    Year,
    /// A year with a month.
    YearMonth,
    /// Bytes in base 64; lengths are those of the bytes.
    Base64,
    /// Bytes in hexadecimal digits; lengths are those of the bytes.
    Hex,
}

/// What is asked of a text.
#[derive(Debug)]
pub struct Rules {
    /// How its white space is taken.
    pub space: Space,
    /// What it must look like.
    pub lexical: Lexical,
    /// Its facets.
    pub facets: &'static [Facet],
}

/// A facet.
#[derive(Debug)]
pub enum Facet {
    /// At least so many characters.
    MinLength(u64),
    /// At most so many characters.
    MaxLength(u64),
    /// Exactly so many characters.
    Length(u64),
    /// One of several patterns, as one regular expression.
    Pattern(&'static Pattern),
    /// One of these texts.
    OneOf(&'static [&'static str]),
    /// The least number.
    MinInclusive(&'static str),
    /// The greatest number.
    MaxInclusive(&'static str),
    /// More than this number.
    MinExclusive(&'static str),
    /// Less than this number.
    MaxExclusive(&'static str),
    /// At most so many digits.
    TotalDigits(usize),
    /// At most so many digits behind the point.
    FractionDigits(usize),
}

/// A pattern, compiled when it is first needed.
#[derive(Debug)]
pub struct Pattern {
    regex: &'static str,
    shown: &'static str,
    compiled: OnceLock<Option<Regex>>,
}

impl Pattern {
    /// A regular expression, and the pattern of the schema that it stands for.
    pub const fn new(regex: &'static str, shown: &'static str) -> Pattern {
        Pattern {
            regex,
            shown,
            compiled: OnceLock::new(),
        }
    }

    fn matches(&self, text: &str) -> bool {
        let compiled = self.compiled.get_or_init(|| Regex::new(self.regex).ok());
        compiled.as_ref().is_none_or(|regex| regex.is_match(text))
    }
}

impl Rules {
    /// Adds the faults of a text.
    pub fn check(&self, text: &str, path: &Path<'_>, faults: &mut Vec<Fault>) {
        let text = spaced(self.space, text);
        let fault = match self.lexical.fault(&text) {
            Some(words) => Some(words),
            None => self.facets.iter().find_map(|facet| facet.fault(&text, self.lexical)),
        };
        faults.extend(fault.map(|words| path.fault(words)));
    }

    /// The text has no fault.
    ///
    /// # Errors
    ///
    /// Its first [`Fault`].
    pub fn checked(&self, text: &str) -> Result<(), Fault> {
        let mut faults = Vec::new();
        self.check(text, &Path::start(), &mut faults);
        faults.into_iter().next().map_or(Ok(()), Err)
    }
}

fn is_space(c: char) -> bool {
    matches!(c, ' ' | '\t' | '\n' | '\r')
}

fn spaced(space: Space, text: &str) -> Cow<'_, str> {
    match space {
        Space::Replace if text.contains(is_space) => Cow::Owned(text.replace(is_space, " ")),
        Space::Collapse if text.contains(is_space) => {
            let parts: Vec<&str> = text.split(is_space).filter(|part| !part.is_empty()).collect();
            Cow::Owned(parts.join(" "))
        }
        _ => Cow::Borrowed(text),
    }
}

impl Lexical {
    fn fault(self, text: &str) -> Option<String> {
        let (good, what) = match self {
            Lexical::Any => (true, ""),
            Lexical::Decimal => (Number::of(text).is_some(), "decimal number"),
            Lexical::Integer => {
                let whole = !text.contains('.') && Number::of(text).is_some();
                (whole, "whole number")
            }
            Lexical::Date => (zoned(text).is_some_and(is_date), "date"),
            Lexical::DateTime => {
                let parts = zoned(text).and_then(|text| text.split_once('T'));
                let good = parts.is_some_and(|(date, time)| is_date(date) && is_time(time));
                (good, "date with a time")
            }
            Lexical::Time => (zoned(text).is_some_and(is_time), "time"),
            Lexical::Year => (zoned(text).is_some_and(is_year), "year"),
            Lexical::YearMonth => {
                let parts = zoned(text).and_then(|text| text.rsplit_once('-'));
                let good = parts.is_some_and(|(year, month)| {
                    is_year(year) && two(month, 1, 12).is_some()
                });
                (good, "year with a month")
            }
            Lexical::Base64 => (base64_bytes(text).is_some(), "base 64"),
            Lexical::Hex => {
                let digits = text.bytes().all(|c| c.is_ascii_hexdigit());
                (digits && text.len() % 2 == 0, "row of hexadecimal bytes")
            }
        };
        (!good).then(|| format!("{text:?} is no {what}"))
    }

    /// The length of a text, by which lengths are counted.
    fn length(self, text: &str) -> (u64, &'static str) {
        match self {
            Lexical::Base64 => (base64_bytes(text).unwrap_or(0), "byte"),
            Lexical::Hex => ((text.len() / 2) as u64, "byte"),
            _ => (text.chars().count() as u64, "character"),
        }
    }
}

impl Facet {
    fn fault(&self, text: &str, lexical: Lexical) -> Option<String> {
        match self {
            Facet::MinLength(least) => {
                let (length, what) = lexical.length(text);
                (length < *least).then(|| format!("{}, at least {least}", counted(length, what)))
            }
            Facet::MaxLength(most) => {
                let (length, what) = lexical.length(text);
                (length > *most).then(|| format!("{}, at most {most}", counted(length, what)))
            }
            Facet::Length(exact) => {
                let (length, what) = lexical.length(text);
                (length != *exact).then(|| format!("{}, exactly {exact}", counted(length, what)))
            }
            Facet::Pattern(pattern) => (!pattern.matches(text))
                .then(|| format!("{text:?} does not match the pattern {}", pattern.shown)),
            Facet::OneOf(texts) => (!texts.contains(&text))
                .then(|| format!("{text:?} is none of {}", texts.join(", "))),
            _ => self.number_fault(text),
        }
    }

    fn number_fault(&self, text: &str) -> Option<String> {
        let number = Number::of(text)?;
        let compared = |bound: &str| Number::of(bound).map(|bound| number.compared(&bound));
        match self {
            Facet::MinInclusive(bound) => (compared(bound)? == Ordering::Less)
                .then(|| format!("{text} is less than {bound}")),
            Facet::MaxInclusive(bound) => (compared(bound)? == Ordering::Greater)
                .then(|| format!("{text} is more than {bound}")),
            Facet::MinExclusive(bound) => (compared(bound)? != Ordering::Greater)
                .then(|| format!("{text} is not more than {bound}")),
            Facet::MaxExclusive(bound) => (compared(bound)? != Ordering::Less)
                .then(|| format!("{text} is not less than {bound}")),
            Facet::TotalDigits(most) => {
                let digits = number.digits();
                (digits > *most).then(|| format!("{}, at most {most}", counted(digits as u64, "digit")))
            }
            Facet::FractionDigits(most) => {
                let digits = number.fraction.len();
                let told = counted(digits as u64, "fraction digit");
                (digits > *most).then(|| format!("{told}, at most {most}"))
            }
            _ => None,
        }
    }
}

fn counted(count: u64, what: &str) -> String {
    let end = if count == 1 { "" } else { "s" };
    format!("{count} {what}{end}")
}

/// A decimal number, as its digits: no zeros before the first and behind the last one.
struct Number<'t> {
    negative: bool,
    whole: &'t str,
    fraction: &'t str,
}

impl<'t> Number<'t> {
    fn of(text: &'t str) -> Option<Number<'t>> {
        let (negative, rest) = match text.strip_prefix('-') {
            Some(rest) => (true, rest),
            None => (false, text.strip_prefix('+').unwrap_or(text)),
        };
        let (whole, fraction) = rest.split_once('.').unwrap_or((rest, ""));
        let digits = |text: &str| text.bytes().all(|c| c.is_ascii_digit());
        if !digits(whole) || !digits(fraction) || whole.len() + fraction.len() == 0 {
            return None;
        }
        let (whole, fraction) = (whole.trim_start_matches('0'), fraction.trim_end_matches('0'));
        let zero = whole.is_empty() && fraction.is_empty();
        Some(Number {
            negative: negative && !zero,
            whole,
            fraction,
        })
    }

    fn digits(&self) -> usize {
        match self.whole.is_empty() {
            true => self.fraction.trim_start_matches('0').len(),
            false => self.whole.len() + self.fraction.len(),
        }
    }

    /// Without loss: digit by digit.
    fn compared(&self, other: &Number<'_>) -> Ordering {
        let size = || {
            let whole = self.whole.len().cmp(&other.whole.len());
            let digits = || (self.whole, self.fraction).cmp(&(other.whole, other.fraction));
            whole.then_with(digits)
        };
        match (self.negative, other.negative) {
            (false, false) => size(),
            (true, true) => size().reverse(),
            (true, false) => Ordering::Less,
            (false, true) => Ordering::Greater,
        }
    }
}

/// A number of two digits within bounds.
fn two(text: &str, least: u32, most: u32) -> Option<u32> {
    let digits = text.len() == 2 && text.bytes().all(|c| c.is_ascii_digit());
    let number = digits.then(|| text.parse().ok())??;
    (least..=most).contains(&number).then_some(number)
}

/// The text without its time zone; none where that is wrong.
fn zoned(text: &str) -> Option<&str> {
    if let Some(rest) = text.strip_suffix('Z') {
        return Some(rest);
    }
    let Some(at) = text.len().checked_sub(6).filter(|&at| text.is_char_boundary(at)) else {
        return Some(text);
    };
    let (before, zone) = text.split_at(at);
    let Some(zone) = zone.strip_prefix(['+', '-']).filter(|zone| zone.as_bytes()[2] == b':') else {
        return Some(text);
    };
    let (hours, minutes) = zone.split_once(':')?;
    let (hours, minutes) = (two(hours, 0, 14)?, two(minutes, 0, 59)?);
    (hours < 14 || minutes == 0).then_some(before)
}

fn is_year(text: &str) -> bool {
    let digits = text.strip_prefix('-').unwrap_or(text);
    digits.len() >= 4
        && digits.bytes().all(|c| c.is_ascii_digit())
        && (digits.len() == 4 || !digits.starts_with('0'))
        && digits.bytes().any(|c| c != b'0')
}

fn is_date(text: &str) -> bool {
    let parts = text.rsplit_once('-').and_then(|(before, day)| {
        let (year, month) = before.rsplit_once('-')?;
        Some((year, two(month, 1, 12)?, day))
    });
    parts.is_some_and(|(year, month, day)| {
        is_year(year) && two(day, 1, days_of(year, month)).is_some()
    })
}

fn days_of(year: &str, month: u32) -> u32 {
    // The last four digits decide.
    let last: u32 = year.get(year.len().saturating_sub(4)..).map_or(0, |year| year.parse().unwrap_or(0));
    let leap = last % 4 == 0 && (last % 100 != 0 || last % 400 == 0);
    match month {
        2 if leap => 29,
        2 => 28,
        4 | 6 | 9 | 11 => 30,
        _ => 31,
    }
}

fn is_time(text: &str) -> bool {
    let parts: Vec<&str> = text.splitn(3, ':').collect();
    let [hours, minutes, seconds] = parts.as_slice() else {
        return false;
    };
    let (seconds, fraction) = match seconds.split_once('.') {
        Some((seconds, fraction)) => (seconds, Some(fraction)),
        None => (*seconds, None),
    };
    let digits = |text: &str| !text.is_empty() && text.bytes().all(|c| c.is_ascii_digit());
    let midnight = *hours == "24" && *minutes == "00" && seconds == "00";
    let midnight = midnight && fraction.is_none_or(|text| text.bytes().all(|c| c == b'0'));
    let hour = two(hours, 0, 23).is_some() || midnight;
    hour && two(minutes, 0, 59).is_some() && two(seconds, 0, 59).is_some() && fraction.is_none_or(digits)
}

/// How many bytes a text in base 64 stands for.
fn base64_bytes(text: &str) -> Option<u64> {
    let plain: String = text.chars().filter(|&c| !is_space(c)).collect();
    let digits = plain.trim_end_matches('=');
    let padding = plain.len() - digits.len();
    let good = digits.bytes().all(|c| c.is_ascii_alphanumeric() || matches!(c, b'+' | b'/'));
    let last_zero = match (padding, digits.bytes().last()) {
        (1, Some(last)) => b"AEIMQUYcgkosw048".contains(&last),
        (2, Some(last)) => b"AQgw".contains(&last),
        _ => true,
    };
    let whole = good && last_zero && padding <= 2 && plain.len() % 4 == 0;
    (whole && (padding == 0 || !digits.is_empty())).then(|| (digits.len() * 3 / 4) as u64)
}

/// Reads a value from its text.
///
/// # Errors
///
/// The error of the reader, or that of the text.
pub fn parsed<'de, D, T>(from: D) -> Result<T, D::Error>
where
    D: Deserializer<'de>,
    T: FromStr,
    T::Err: fmt::Display,
{
    struct OfText<T>(std::marker::PhantomData<T>);
    impl<T: FromStr> Visitor<'_> for OfText<T>
    where
        T::Err: fmt::Display,
    {
        type Value = T;

        fn expecting(&self, f: &mut fmt::Formatter<'_>) -> fmt::Result {
            f.write_str("a text")
        }

        fn visit_str<E: de::Error>(self, text: &str) -> Result<T, E> {
            text.parse().map_err(E::custom)
        }
    }
    from.deserialize_str(OfText(std::marker::PhantomData))
}

/// A text that is no code of its list.
#[derive(Clone, Debug, PartialEq, Eq)]
pub struct NoCode {
    /// The name of the list.
    pub list: &'static str,
    /// The text.
    pub text: String,
}

impl fmt::Display for NoCode {
    fn fmt(&self, f: &mut fmt::Formatter<'_>) -> fmt::Result {
        write!(f, "{:?} is no code of {}", self.text, self.list)
    }
}

impl Error for NoCode {}

/// A text that is no truth value.
#[derive(Clone, Debug, PartialEq, Eq)]
pub struct NoBoolean(pub String);

impl fmt::Display for NoBoolean {
    fn fmt(&self, f: &mut fmt::Formatter<'_>) -> fmt::Result {
        write!(f, "{:?} is neither true nor false", self.0)
    }
}

impl Error for NoBoolean {}

/// The truth value of a text: `true`, `1`, `false` or `0`, with white space around it.
///
/// # Errors
///
/// [`NoBoolean`].
pub fn boolean(text: &str) -> Result<bool, NoBoolean> {
    match text.trim_matches(is_space) {
        "true" | "1" => Ok(true),
        "false" | "0" => Ok(false),
        _ => Err(NoBoolean(text.to_owned())),
    }
}

/// Any content, as far as it is kept: local names, attributes and texts in their order. Prefixes are not kept.
#[derive(Clone, Debug, Default, PartialEq)]
pub struct AnyContent {
    /// Attributes (`@` before the name), texts (`$text`) and elements.
    pub parts: Vec<(String, AnyPart)>,
}

/// A part of any content.
#[derive(Clone, Debug, PartialEq)]
pub enum AnyPart {
    /// The value of an attribute, or a text.
    Text(String),
    /// An element.
    Element(AnyContent),
}

impl Check for AnyContent {
    fn check(&self, _: &Path<'_>, _: &mut Vec<Fault>) {}
}

impl Place for AnyContent {
    fn start() -> AnyContent {
        AnyContent::default()
    }

    fn fill<'de, D: Deserializer<'de>>(&mut self, from: D) -> Result<(), D::Error> {
        *self = AnyContent::deserialize(from)?;
        Ok(())
    }
}

impl<'de> Deserialize<'de> for AnyContent {
    fn deserialize<D: Deserializer<'de>>(from: D) -> Result<AnyContent, D::Error> {
        struct Parts;
        impl<'de> Visitor<'de> for Parts {
            type Value = AnyContent;

            fn expecting(&self, f: &mut fmt::Formatter<'_>) -> fmt::Result {
                f.write_str("any content")
            }

            fn visit_map<A: MapAccess<'de>>(self, mut map: A) -> Result<AnyContent, A::Error> {
                let mut parts = Vec::new();
                while let Some(key) = map.next_key::<String>()? {
                    let part = match key.starts_with('@') || key == "$text" {
                        true => AnyPart::Text(map.next_value()?),
                        false => AnyPart::Element(map.next_value()?),
                    };
                    parts.push((key, part));
                }
                Ok(AnyContent { parts })
            }
        }
        from.deserialize_map(Parts)
    }
}

impl Serialize for AnyContent {
    fn serialize<S: Serializer>(&self, to: S) -> Result<S::Ok, S::Error> {
        let mut map = to.serialize_map(None)?;
        for (key, part) in &self.parts {
            match part {
                AnyPart::Text(text) => map.serialize_entry(key, text)?,
                AnyPart::Element(inside) => map.serialize_entry(key, inside)?,
            }
        }
        map.end()
    }
}

/// The first tag or text of a message that is not there when the message is written again: something that the schema does not have, or in another order.
fn other_tags(read: &str, written: &str) -> Option<Fault> {
    let (mut read, mut written) = (Tags::of(read), Tags::of(written));
    let mut open: Vec<String> = Vec::new();
    loop {
        let (found, expected) = (read.next(), written.next());
        let path = || open.iter().skip(1).cloned().collect::<Vec<_>>().join(".");
        let fault = |words: String| Some(Fault { path: path(), words });
        match (found, expected) {
            (None, None) => return None,
            (Some(found), expected) if Some(&found) == expected.as_ref() => match found {
                Tag::Start(name, _) => open.push(name),
                Tag::End => drop(open.pop()),
                Tag::Text => {}
            },
            (Some(Tag::Text), _) => return fault("a text is not expected here".to_owned()),
            (Some(Tag::Start(name, keys)), Some(Tag::Start(other, _))) if name == other => {
                return fault(format!("{name} has other attributes: {}", keys.join(", ")));
            }
            (Some(Tag::Start(name, _)), _) => return fault(format!("{name} is not expected here")),
            (_, Some(Tag::Start(name, _))) => return fault(format!("{name} is expected here")),
            _ => return fault("the tags are other ones when it is written again".to_owned()),
        }
    }
}

#[derive(PartialEq)]
enum Tag {
    /// The local name and the names of the attributes, but those of namespaces.
    Start(String, Vec<String>),
    End,
    /// Any text but white space.
    Text,
}

/// The tags of a message, and where there is text between them.
struct Tags<'t> {
    reader: Reader<&'t [u8]>,
    /// The text up to the next tag was told.
    told: bool,
}

impl Tags<'_> {
    fn of(text: &str) -> Tags<'_> {
        let mut reader = Reader::from_str(text);
        reader.config_mut().expand_empty_elements = true;
        Tags { reader, told: false }
    }

    /// The next tag, or the text before it.
    fn next(&mut self) -> Option<Tag> {
        loop {
            let is_text = match self.reader.read_event().ok()? {
                Event::Start(tag) => {
                    self.told = false;
                    return Some(Tag::Start(local(tag.local_name().into_inner()), keys(&tag)));
                }
                Event::End(_) => {
                    self.told = false;
                    return Some(Tag::End);
                }
                Event::Eof => return None,
                Event::Text(text) => !text.iter().all(u8::is_ascii_whitespace),
                Event::CData(text) => !text.iter().all(u8::is_ascii_whitespace),
                Event::GeneralRef(name) => !matches!(name.resolve_char_ref(), Ok(Some(c)) if is_space(c)),
                _ => false,
            };
            if is_text && !self.told {
                self.told = true;
                return Some(Tag::Text);
            }
        }
    }
}

fn local(name: &[u8]) -> String {
    String::from_utf8_lossy(name).into_owned()
}

/// The names of the attributes, but those of namespaces.
fn keys(tag: &BytesStart<'_>) -> Vec<String> {
    let attributes = tag.attributes().flatten();
    let mut keys: Vec<String> = attributes.map(|attribute| local(attribute.key.into_inner())).collect();
    keys.retain(|key| !key.starts_with("xmlns") && !key.starts_with("xsi:"));
    keys.sort();
    keys
}
