//! Names beside the 38 built-in ones, on which the leaf is compared with `map_builtin` of the Rust.

use std::collections::BTreeSet;

use crate::leaves;
use crate::names::{prefixed, BUILTIN_NAMES};
use crate::ours;
use crate::tally::Tally;

/// Every letter of a built-in name.
fn letters() -> Vec<char> {
    let letters: BTreeSet<char> = BUILTIN_NAMES.iter().flat_map(|name| name.chars()).collect();
    letters.into_iter().collect()
}

/// Every word of up to three of these letters.
fn short_words() -> Vec<String> {
    let letters = letters();
    let mut words = vec![String::new()];
    let mut last = words.clone();
    for _ in 0..3 {
        let longer = |word: &String| {
            let word = word.clone();
            letters.iter().map(move |letter| format!("{word}{letter}"))
        };
        last = last.iter().flat_map(longer).collect();
        words.extend(last.iter().cloned());
    }
    words
}

/// The name with each byte dropped, changed to each of the first 128, and each of them added at each place.
fn beside(name: &str) -> Vec<String> {
    let ascii = || (0..128u8).map(char::from);
    let places = 0..=name.len();
    let at = |place: usize| {
        let (before, behind) = name.split_at(place);
        let rest = behind.get(1..);
        let added = ascii().map(move |byte| format!("{before}{byte}{behind}"));
        let changed = ascii().filter_map(move |byte| Some(format!("{before}{byte}{}", rest?)));
        let dropped = rest.map(|rest| format!("{before}{rest}"));
        added.chain(changed).chain(dropped)
    };
    places.flat_map(at).collect()
}

/// The comparison: each word alone, and what stands beside a name behind prefixes too.
pub fn compared() -> Tally {
    let mut tally =
        Tally::new("built-in names, words of their letters and names with one byte changed");
    let mut compare = |word: &str| {
        let expected = leaves::builtin_number(leaves::map_builtin(word));
        tally.compare("map_builtin", &word, expected, ours::map_builtin(word));
    };
    short_words().iter().for_each(|word| compare(word));
    for name in BUILTIN_NAMES {
        for word in beside(name).into_iter().chain([name.to_owned()]) {
            compare(&word);
            prefixed(&word).iter().for_each(|word| compare(word));
        }
    }
    tally
}
