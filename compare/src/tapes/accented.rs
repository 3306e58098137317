//! Order 12: other words in the place of names and values, with letters of two bytes.

use crate::names::BUILTIN_NAMES;
use crate::paper::sheet::Row;
use crate::random::Random;
use crate::tape::{Event, Tag};

/// Words in the place of others: letters of each kind of case, names that meet by case, characters that are no letters.
const WORDS: [&str; 26] = [
    "é",
    "É",
    "é_à",
    "ß",
    "ß_a",
    "SS_a",
    "SSA",
    "ı_a",
    "I_a",
    "i_a",
    "İ",
    "aİ",
    "ŉ",
    "ŉ_ŉ",
    "µ_a",
    "ÿ",
    "_ÿ",
    "Ÿ",
    "ſ_t",
    "ªB",
    "éA",
    "ÉÈé",
    "Größe-ÄÖÜ",
    "a\u{B7}",
    "\u{A0}×",
    "\u{80}",
];
/// Those of graphs, which have three characters more.
const OF_GRAPHS: [&str; 8] = [
    "\u{2BC}N", "ŉ", "_ŉ", "\u{39C}A", "µ_a", "i\u{307}", "SSA", "ß_a",
];

/// The keys whose values are words.
const KEYS: [&str; 6] = [
    "name",
    "type",
    "base",
    "value",
    "namespace",
    "targetNamespace",
];

/// Other words for words. One word gets one other, and two may get the same.
pub struct Accents {
    salt: usize,
    words: &'static [&'static str],
}

impl Accents {
    /// Those of one schema.
    pub fn new(random: &mut Random) -> Accents {
        let (salt, words) = (random.below(1_000), &WORDS[..]);
        Accents { salt, words }
    }

    /// Those of one graph.
    pub fn of_graph(random: &mut Random) -> Accents {
        let (salt, words) = (random.below(1_000), &OF_GRAPHS[..]);
        Accents { salt, words }
    }

    /// The word behind the last colon is another one, two times out of three; digits and built-in names stay.
    fn word(&self, word: &str) -> String {
        let at = word.rfind(':').map_or(0, |colon| colon + 1);
        let (prefix, local) = word.split_at(at);
        let sum: usize = local.bytes().map(usize::from).sum::<usize>() + self.salt;
        let digits = local.bytes().all(|b| b.is_ascii_digit());
        if digits || BUILTIN_NAMES.contains(&local) || sum.is_multiple_of(3) {
            return word.to_owned();
        }
        format!("{prefix}{}", self.words[sum % self.words.len()])
    }

    fn tag(&self, tag: &Tag) -> Tag {
        let attribute = |(key, value): &(String, String)| {
            let is_word = KEYS.iter().any(|word| key.ends_with(word));
            let value = if is_word {
                self.word(value)
            } else {
                value.clone()
            };
            (key.replace("x:", "ß:"), value)
        };
        Tag {
            name: tag.name.replace("a:b:", "é:"),
            attributes: tag.attributes.iter().map(attribute).collect(),
        }
    }

    /// The events with other words.
    pub fn events(&self, events: &[Event]) -> Vec<Event> {
        let event = |event: &Event| match event {
            Event::Start(tag) => Event::Start(self.tag(tag)),
            Event::Empty(tag) => Event::Empty(self.tag(tag)),
            Event::Close => Event::Close,
        };
        events.iter().map(event).collect()
    }

    /// The rows with other words.
    pub fn rows(&self, rows: &[Row]) -> Vec<Row> {
        let row = |row: &Row| Row {
            texts: row.texts.iter().map(|text| self.word(text)).collect(),
            ..row.clone()
        };
        rows.iter().map(row).collect()
    }
}

/// The end of one pair, and with it the start of the next, one byte earlier: where a character ends there, both share it. `packed` are
/// the numbers of a sheet with these rows behind row 0.
pub fn move_boundary(packed: &mut [u32], rows: &[Row], random: &mut Random) {
    let of_row = |(index, row): (usize, &Row)| {
        (0..row.texts.len()).map(move |text| 10 * (index + 1) + 1 + 2 * text)
    };
    let pairs: Vec<usize> = rows.iter().enumerate().flat_map(of_row).collect();
    if pairs.len() < 2 {
        return;
    }
    let at = random.below(pairs.len() - 1);
    let (pair, next) = (pairs[at], pairs[at + 1]);
    if packed[pair + 1] > 0 {
        packed[pair + 1] -= 1;
        packed[next] -= 1;
        packed[next + 1] += 1;
    }
}
