//! The specimens, lengths, depths and counts around the limits, and each byte in each place.

use super::check::{untouched, Checks, Counted};
use super::specimens::{lent, LINES, TAPES};
use super::Extent;
use crate::paper::xml::tape_of;

/// The specimens of the readings.
pub fn specimens(_: Extent) -> Counted {
    let mut checks = Checks::new("the readings of order 1: their texts, tapes and worked example");
    for line in LINES {
        for text in line.texts {
            checks.specimen(text, 100, line.number, &[]);
            checks.text(text);
        }
    }
    for (text, tape) in TAPES {
        checks.specimen(text, 100, 0, tape);
        checks.specimen(text, tape.len(), 0, tape);
        checks.specimen(text, tape.len() - 1, 19, &[]);
        checks.text(text);
    }
    for (text, marks, number) in lent() {
        checks.specimen(&text, marks, number, &[]);
    }
    checks.counted()
}

/// Lengths, depths and counts.
pub fn limits(_: Extent) -> Counted {
    let mut checks = Checks::new(
        "lengths, depths and counts around the limits, each byte and character in each place",
    );
    lengths(&mut checks);
    depths(&mut checks);
    counts(&mut checks);
    every_byte(&mut checks);
    every_character(&mut checks);
    references(&mut checks);
    checks.counted()
}

/// `first`, then `filler` as often as the length allows, then `last`.
fn filled(first: &str, filler: &str, last: &str, length: usize) -> Vec<u8> {
    let room = length - first.len() - last.len();
    let middle = filler.bytes().cycle().take(room);
    let text = first.bytes().chain(middle).chain(last.bytes());
    text.collect()
}

/// Texts and marks of the largest lengths and one more.
fn lengths(checks: &mut Checks) {
    for length in [65_535, 65_536, 65_537] {
        let texts = [
            filled("<a>", "x", "</a>", length),
            filled("<a>", "<b/>", "</a>", length),
            filled("<!--", "x", "--><a/>", length),
            filled("<a/>", " ", "\u{1}", length),
            filled("<a/>", " ", "", length),
            filled("<a b='", "&#32;", "'/>", length),
            filled("<a>&#", "0", "65;</a>", length),
            filled("<", "a", "/>", length),
            filled("<!DOCTYPE", "<", "", length),
            vec![0xFF; length],
            filled("<a>", "é", "</a>", length),
            filled("<a b='x", "é", "'/>", length),
            filled("<!--é", "x", "é--><a/>", length),
            filled("<a/><!---->", "é", "", length),
        ];
        for text in texts {
            if length <= 65_536 {
                checks.text(&text);
            }
            for marks in [0, 6, 16_383, 16_384, 16_385] {
                one(checks, &text, marks);
            }
        }
    }
}

/// The call with so many marks.
fn one(checks: &mut Checks, text: &[u8], marks: usize) {
    let model = if text.len() > 65_536 || marks > 16_384 {
        untouched(marks)
    } else {
        tape_of(text, &vec![0; marks])
    };
    checks.call(text, marks, &model);
}

/// Nested tags: what fills the largest marks, one more, and as deep as a text can be, closed and unclosed.
fn depths(checks: &mut Checks) {
    for depth in [1, 254, 255, 256, 2_729, 2_730, 2_731, 9_361, 9_362] {
        let closed = ["<a>".repeat(depth), "</a>".repeat(depth)].concat();
        let unclosed = &closed[..closed.len() - 1];
        let other = [
            "<a>".repeat(depth),
            "</a>".repeat(depth - 1),
            "</b>".to_owned(),
        ]
        .concat();
        let more = format!("{closed}</a>");
        for text in [&closed, unclosed, &other, &more] {
            if text.len() <= 65_536 {
                checks.text(text.as_bytes());
            }
        }
    }
    for depth in [21_844, 21_845] {
        checks.text("<a>".repeat(depth).as_bytes());
        checks.text(format!("{}<", "<a>".repeat(depth)).as_bytes());
    }
}

/// The text of a tag with `count` keys, all different, and one with the last key again.
pub fn keys(count: usize) -> [String; 2] {
    let name = |index: usize| -> String {
        const FIRST: &[u8] = b"abcdefghijklmnopqrstuvwxyzABCDEFGHIJKLMNOPQRSTUVWXYZ_:";
        const LATER: &[u8] = b"abcdefghijklmnopqrstuvwxyzABCDEFGHIJKLMNOPQRSTUVWXYZ_:0123456789-.";
        let mut name = String::from(char::from(FIRST[index % FIRST.len()]));
        let mut left = index / FIRST.len();
        while left > 0 {
            left -= 1;
            name.push(char::from(LATER[left % LATER.len()]));
            left /= LATER.len();
        }
        name
    };
    let all: String = (0..count)
        .map(|index| format!(" {}=''", name(index)))
        .collect();
    let again = format!("{} {}=''", all, name(0));
    [format!("<a{all}/>"), format!("<a{again}/>")]
}

/// Attributes and tags: about 32, what fills the largest marks, one more, and as many as a text can hold.
fn counts(checks: &mut Checks) {
    for count in [1, 31, 32, 33, 34, 255, 4_094, 4_095, 4_096, 9_880] {
        for text in keys(count) {
            checks.text(text.as_bytes());
        }
    }
    for count in [4_093, 4_094, 4_095, 4_096, 10_000] {
        checks.text(format!("<a>{}</a>", "<b/>".repeat(count)).as_bytes());
    }
}

/// Each byte in each place.
fn every_byte(checks: &mut Checks) {
    let places = [
        ["", "<a/>"],
        ["<", "/>"],
        ["<a", "/>"],
        ["<a", "=''/>"],
        ["<a ", "=''/>"],
        ["<a b", "=''/>"],
        ["<a b", "''/>"],
        ["<a b=", "x'/>"],
        ["<a b='", "'/>"],
        ["<a b=\"x", "y\"/>"],
        ["<a b='' ", "/>"],
        ["<a/", ">"],
        ["<a>", "</a>"],
        ["<a>x", "y</a>"],
        ["<a></", "a>"],
        ["<a></a", ">"],
        ["<a></a ", ">"],
        ["<a>&", "lt;</a>"],
        ["<a>&l", "t;</a>"],
        ["<a>&lt", "</a>"],
        ["<a>&#", "1;</a>"],
        ["<a>&#x", ";</a>"],
        ["<a>&#x4", ";</a>"],
        ["<a>&#6", ";</a>"],
        ["<!-", "--><a/>"],
        ["<!--", "--><a/>"],
        ["<!---", "--><a/>"],
        ["<!----", "><a/>"],
        ["<?", "?><a/>"],
        ["<?p", "?><a/>"],
        ["<?p x", "?><a/>"],
        ["<?p ?", "><a/>"],
        ["<?xml", "?><a/>"],
        ["<?xml", " version='1.0'?><a/>"],
        ["<?xml version", "'1.0'?><a/>"],
        ["<?xml version='1.0'", "?><a/>"],
        ["<?xml version='1.", "'?><a/>"],
        ["<?xml version='", ".0'?><a/>"],
        ["<?xml version='1.0' encoding='", "'?><a/>"],
        ["<?xml version='1.0' encoding='a", "'?><a/>"],
        ["<?xml version='1.0' standalone='yes", "'?><a/>"],
        ["<a><![CDATA[", "]]></a>"],
        ["<a><![CDATA[]]", "></a>"],
        ["<a><![CDATA", "]]></a>"],
        ["<a>]]", "</a>"],
        ["<a/>", ""],
        ["<a/><!--", "-->"],
        ["<a/><?p ", "?>"],
        ["<!DOCTYPE", "><a/>"],
        ["<!--", "--><!DOCTYPE"],
        ["", "<!DOCTYPE"],
    ];
    for [before, behind] in places {
        for byte in 0..=255 {
            let text = [before.as_bytes(), &[byte], behind.as_bytes()].concat();
            checks.text(&text);
        }
    }
}

/// Each two bytes that begin as a character of two bytes, or nearly, in each place where names and characters stand.
fn every_character(checks: &mut Checks) {
    let places = [
        ["<", "/>"],
        ["<a", "/>"],
        ["<a ", "=''/>"],
        ["<a b", "=''/>"],
        ["<a b='", "'/>"],
        ["<a>", "</a>"],
        ["<a></", ">"],
        ["<a></a", ">"],
        ["<a>&", ";</a>"],
        ["<a>&#", "1;</a>"],
        ["<!--", "--><a/>"],
        ["<?", "?><a/>"],
        ["<?p", "?><a/>"],
        ["<?p ", "?><a/>"],
        ["<?xml version='1.0'", "?><a/>"],
        ["<?xml version='1.0' encoding='a", "'?><a/>"],
        ["<a><![CDATA[", "]]></a>"],
        ["<a/>", ""],
        ["", "<a/>"],
        ["<!--", "--><!DOCTYPE"],
    ];
    let leads = (0xBF..=0xC7).chain([0xCA, 0xCC, 0xCE, 0xDF, 0xE2, 0xF0]);
    for lead in leads {
        for tail in 0x7F..=0xC0 {
            for [before, behind] in places {
                let text = [before.as_bytes(), &[lead, tail], behind.as_bytes()].concat();
                checks.text(&text);
            }
        }
    }
}

/// Character references about each limit of Char, in text and in values.
fn references(checks: &mut Checks) {
    let limits: [u64; 12] = [
        0,
        9,
        0xD,
        0x20,
        0x80,
        0xD800,
        0xE000,
        0xFFFE,
        0x1_0000,
        0x11_0000,
        1 << 32,
        1 << 40,
    ];
    for limit in limits {
        for number in limit.saturating_sub(2)..limit + 70 {
            for zeros in ["", "0", "000000000000000"] {
                for written in [
                    format!("&#{zeros}{number};"),
                    format!("&#x{zeros}{number:x};"),
                    format!("&#x{zeros}{number:X};"),
                ] {
                    checks.text(format!("<a>{written}</a>").as_bytes());
                    checks.text(format!("<a b='{written}'/>").as_bytes());
                }
            }
        }
    }
}
