//! The patterns that are compared: every one gets its number from the library and from the model.

use std::fs;
use std::io;
use std::path::Path;

use super::{descent, earley::Earley, number};
use crate::cases::schemas_under;
use crate::events::events_of_xml;
use crate::paper::answer;
use crate::random::Random;
use crate::reader;
use crate::tally::Tally;
use crate::tape::Event;

const SEED: u64 = 0x7061_7474_6572;

/// How many random patterns are tried; each hundredth by the Earley parser too.
const RANDOM: usize = 200_000;

/// The sixteen bytes that matter: all lists of up to five of them are tried.
const ALPHABET: &[u8; 16] = b"ap2,{}()|[]^-\\*.";

/// Patterns that are derived, to be altered.
const SHORT: [&str; 16] = [
    "",
    "a",
    "a|b",
    "a{2}",
    "a{2,}*",
    "(a)?",
    "((a|b)+c)",
    "[a-z]",
    "[^a]",
    "[^]",
    "[\\d\\-]+",
    "\\.",
    ".*",
    "[A-Z]{6,6}[A-Z2-9]",
    "a||(|)",
    "\\^{",
];

/// The comparison of one group.
struct Compared {
    descents: Tally,
    parsers: Tally,
    earley: Earley,
}

impl Compared {
    fn new(descents: &'static str, parsers: &'static str) -> Compared {
        Compared {
            descents: Tally::new(descents),
            parsers: Tally::new(parsers),
            earley: Earley::default(),
        }
    }

    /// A pattern by the descent, and by the Earley parser where `both`.
    fn pattern(&mut self, pattern: &[u8], both: bool) {
        let ours = reader::pattern(pattern);
        self.descents.given(ours.number);
        let shown = || String::from_utf8_lossy(pattern).into_owned();
        let expected = answer(number(pattern, descent::derives), 0);
        self.descents
            .compare("lubiksan_pattern", &shown(), expected, ours);
        if both {
            let expected = answer(number(pattern, |text| self.earley.derives(text)), 0);
            self.parsers
                .compare("lubiksan_pattern", &shown(), expected, ours);
        }
    }

    fn tallies(self) -> Vec<Tally> {
        vec![self.descents, self.parsers]
    }
}

/// Every list of up to five of sixteen bytes.
pub fn small() -> Vec<Tally> {
    let mut compared = Compared::new(
        "patterns of up to 5 of 16 bytes with the descent",
        "the same with the Earley parser",
    );
    for length in 0..=5 {
        for k in 0..16_usize.pow(length) {
            let byte = |i: u32| ALPHABET[k / 16_usize.pow(i) % 16];
            let pattern: Vec<u8> = (0..length).map(byte).collect();
            compared.pattern(&pattern, true);
        }
    }
    compared.tallies()
}

/// Every byte in every place of short patterns, put there or in the place of what stands there.
pub fn altered() -> Vec<Tally> {
    let mut compared = Compared::new(
        "short patterns with every byte in every place with the descent",
        "the same with the Earley parser",
    );
    for short in SHORT {
        for at in 0..=short.len() {
            for b in 0..=255 {
                let mut inserted = short.as_bytes().to_vec();
                inserted.insert(at, b);
                compared.pattern(&inserted, true);
                let mut replaced = short.as_bytes().to_vec();
                if let Some(old) = replaced.get_mut(at) {
                    *old = b;
                    compared.pattern(&replaced, true);
                }
            }
        }
    }
    compared.tallies()
}

/// Random patterns of 6 to 200 bytes: of the bytes that matter, of derived parts, and those with a byte altered.
pub fn random() -> Vec<Tally> {
    let mut compared = Compared::new(
        "random patterns with the descent",
        "some of them with the Earley parser",
    );
    let mut random = Random::new(SEED);
    for index in 0..RANDOM {
        let mut pattern = match index % 4 {
            0 => {
                let length = 6 + random.below(20);
                random.text(ALPHABET, length).into_bytes()
            }
            1 => {
                let length = 6 + random.below(195);
                random.text(b"abcd012,{}()|.\\n", length).into_bytes()
            }
            _ => derived(&mut random, 4).into_bytes(),
        };
        pattern.truncate(1_000);
        if index % 4 == 3 && !pattern.is_empty() {
            let at = random.below(pattern.len());
            pattern[at] = ALPHABET[random.below(16)];
        }
        compared.pattern(&pattern, index % 100 < 4);
    }
    compared.tallies()
}

/// A pattern made by the productions, at most so many parentheses deep.
fn derived(random: &mut Random, deep: usize) -> String {
    let pieces = random.below(6);
    let mut made = String::new();
    for _ in 0..pieces {
        match random.below(if deep == 0 { 4 } else { 6 }) {
            0 => made.push_str(&random.text(b"abz09,-^{}", 1)),
            1 => made.push('.'),
            2 => {
                made.push('\\');
                made.push_str(&random.text(b"nrt\\|.?*+(){}-[]^sSiIcCdDwW", 1));
            }
            3 => {
                let length = 1 + random.below(4);
                made.push('[');
                made.push_str(&random.text(b"abz09^-.(*", length));
                made.push(']');
            }
            4 => {
                made.push('|');
                continue;
            }
            _ => {
                made.push('(');
                made.push_str(&derived(random, deep - 1));
                made.push(')');
            }
        }
        let marks = ["", "", "", "?", "*", "+", "{2}", "{0,1}", "{3,}"];
        made.push_str(marks[random.below(marks.len())]);
    }
    made
}

/// 31 to 34 opening parentheses, in one another, one behind the other, escaped and in classes; lengths beside 1,024; high bytes.
pub fn limits() -> Vec<Tally> {
    let mut compared = Compared::new(
        "patterns at the limits with the descent",
        "the same with the Earley parser",
    );
    for opens in 30..=35 {
        let inside = "(".repeat(opens) + "a" + &")".repeat(opens);
        for pattern in [
            inside.clone(),
            "()".repeat(opens),
            "\\(".repeat(opens),
            format!("[{}]", "(".repeat(opens)),
            format!("{inside}*"),
            format!("{inside})"),
            "(".repeat(opens),
            format!("{}\\(", "()".repeat(opens - 1)),
        ] {
            compared.pattern(pattern.as_bytes(), true);
        }
    }
    for length in [0, 1, 1_000, 1_022, 1_023, 1_024, 1_025, 1_026, 2_000] {
        for unit in [
            "a", "a*", "[a-z]", "\\d", "|", "a{2}", "*", "]", "\u{1}", "\\p", "\u{e9}",
        ] {
            let mut pattern = unit.repeat(length / unit.len() + 1).into_bytes();
            pattern.truncate(length);
            compared.pattern(&pattern, true);
            for last in [b'a', b')', b'\\', 128, 255] {
                if let Some(end) = pattern.last_mut() {
                    *end = last;
                }
                compared.pattern(&pattern, true);
            }
        }
    }
    compared.tallies()
}

/// The patterns of the schemas in a folder, each value once; the numbers given are those of all.
///
/// # Errors
///
/// A file that can't be read.
pub fn schemas(folder: &Path) -> io::Result<Vec<Tally>> {
    let mut compared = Compared::new(
        "patterns of the schemas with the descent",
        "the same with the Earley parser",
    );
    for path in schemas_under(folder)? {
        let text = fs::read_to_string(path)?;
        let Ok(events) = events_of_xml(&text) else {
            continue;
        };
        for event in events {
            let (Event::Start(tag) | Event::Empty(tag)) = event else {
                continue;
            };
            if tag.name.rsplit(':').next() != Some("pattern") {
                continue;
            }
            let values = tag.attributes.iter().filter(|(key, _)| key == "value");
            values.for_each(|(_, value)| compared.pattern(value.as_bytes(), true));
        }
    }
    Ok(compared.tallies())
}
