//! Every short text over bytes and words that matter, in each place of a document.

use super::check::{Checks, Counted};
use super::Extent;

/// All texts of up to `most` of `pieces`, between `before` and `behind`.
#[derive(Clone, Copy)]
struct Place {
    before: &'static str,
    behind: &'static str,
    most: usize,
    pieces: &'static [&'static str],
}

impl Place {
    fn each(&self, run: &mut impl FnMut(&[u8])) {
        for count in 0..=self.most {
            self.each_of(count, run);
        }
    }

    /// The texts of `count` pieces: the numbers of the pieces are counted up like digits.
    fn each_of(&self, count: usize, run: &mut impl FnMut(&[u8])) {
        let mut digits = vec![0; count];
        let mut text = Vec::new();
        loop {
            text.clear();
            text.extend(self.before.bytes());
            for &digit in &digits {
                let piece: &str = self.pieces[digit];
                text.extend(piece.bytes());
            }
            text.extend(self.behind.bytes());
            run(&text);
            let Some(at) = digits.iter().rposition(|&d| d + 1 < self.pieces.len()) else {
                return;
            };
            digits[at] += 1;
            digits[at + 1..].fill(0);
        }
    }
}

const WHOLE: Place = Place {
    before: "",
    behind: "",
    most: 6,
    pieces: &["<", ">", "/", "a", "!", "-", "?", " ", "=", "\"", "&", ";"],
};

/// The bytes that matter where they stand.
const BYTES: &[Place] = &[
    // in the root
    Place {
        before: "<a>",
        behind: "</a>",
        most: 5,
        pieces: &["<", ">", "/", "a", "!", "-", "?", "[", "]", "&", ";", " "],
    },
    // in a tag
    Place {
        before: "<a",
        behind: ">",
        most: 5,
        pieces: &[" ", "\n", "/", "a", ":", "=", "\"", "'", "<", ">", "1", "&"],
    },
    // in a value
    Place {
        before: "<a b=\"",
        behind: "\"/>",
        most: 5,
        pieces: &["&", "#", "x", "0", "9", "A", ";", "<", ">", "\"", "'", "]"],
    },
    // in a comment
    Place {
        before: "<!--",
        behind: "--><a/>",
        most: 6,
        pieces: &["-", ">", "<", "!", "a", "?", "\u{1}"],
    },
    // in an instruction
    Place {
        before: "<?",
        behind: "?><a/>",
        most: 5,
        pieces: &["x", "m", "l", "L", ":", "-", "1", " ", "?", ">", "<"],
    },
    // in a section
    Place {
        before: "<a><![CDATA[",
        behind: "]]></a>",
        most: 6,
        pieces: &["]", ">", "[", "<", "&", "a"],
    },
    // behind the root
    Place {
        before: "<a/>",
        behind: "",
        most: 5,
        pieces: &["<", "!", "-", ">", "?", "a", "/", " ", "&", "\t", "\u{b}"],
    },
    // an end tag
    Place {
        before: "<ab></",
        behind: ">",
        most: 5,
        pieces: &["a", "b", "A", ":", " ", "\n", "/", ">", "<", "="],
    },
];

/// The words that matter where they stand.
const WORDS: &[Place] = &[
    // tags
    Place {
        before: "",
        behind: "",
        most: 5,
        pieces: &[
            "<a>",
            "</a>",
            "<b>",
            "</b>",
            "<a/>",
            "<a:b>",
            "</a:b>",
            "x",
            "]]",
            ">",
            "<![CDATA[",
            "]]>",
        ],
    },
    // attributes
    Place {
        before: "<a",
        behind: "/>",
        most: 5,
        pieces: &[
            " b=\"1\"",
            " B='2'",
            " x:b=\"3\"",
            "b=\"4\"",
            " xmlns:b=\"\"",
            "\n",
            " c = '5'",
            "/",
            ">",
            " b",
            " a.b=''",
        ],
    },
    // the declaration
    Place {
        before: "<?xml",
        behind: "?><a/>",
        most: 5,
        pieces: &[
            " ",
            "version=\"1.0\"",
            " version = '1.1'",
            " encoding='UTF-8'",
            " standalone=\"yes\"",
            " standalone='no'",
            "=",
            "'",
            " version=\"2.0\"",
            " encoding=\"8\"",
            "\n",
            " x='y'",
        ],
    },
    // a DOCTYPE
    Place {
        before: "",
        behind: "",
        most: 5,
        pieces: &[
            "<!DOCTYPE",
            "<!--",
            "-->",
            "<?p ",
            "?>",
            " ",
            "<a/>",
            "x",
            "<?xml version='1.0'?>",
            "\u{1}",
            "<a>",
            "</a>",
        ],
    },
    // references in the root
    Place {
        before: "<a>",
        behind: ";</a>",
        most: 5,
        pieces: &[
            "&", "#", "x", "0", "9", "D7FF", "110000", "FFF", "E", ";", "amp", "l", "t",
        ],
    },
    // marked parts in the root
    Place {
        before: "<a>",
        behind: "</a>",
        most: 5,
        pieces: &[
            "<!--",
            "-->",
            "--",
            "<?p",
            " ",
            "?>",
            "<![CDATA[",
            "]]>",
            "<b>",
            "</b>",
            "&lt;",
            "]",
        ],
    },
];

/// Letters that begin names, characters that stand behind the first and such that stand in none, in names.
const ACCENTED: &[Place] = &[
    // a tag
    Place {
        before: "<",
        behind: "/>",
        most: 4,
        pieces: &[
            "é", "ÿ", "ſ", "ĳ", "\u{B7}", "×", "÷", "\u{80}", "ª", "a", "1", " ", ":",
        ],
    },
    // a key
    Place {
        before: "<a ",
        behind: "=''/>",
        most: 4,
        pieces: &[
            "À", "Ö", "Ø", "ö", "ø", "ŉ", "\u{B7}", "×", "\u{BF}", "a", "-", "='' ", "\u{A0}",
        ],
    },
    // an end tag
    Place {
        before: "<éß></",
        behind: ">",
        most: 4,
        pieces: &["é", "ß", "É", "e", "\u{B7}", "\u{A0}", " ", "/", ">", "<éß"],
    },
    // an instruction
    Place {
        before: "<?",
        behind: "?><a/>",
        most: 4,
        pieces: &["é", "ı", "Ŀ", "\u{B7}", "÷", "\u{9F}", "x", "?", ">", " "],
    },
];

fn compare(group: &'static str, places: &[Place]) -> Counted {
    let mut checks = Checks::new(group);
    for place in places {
        place.each(&mut |text| checks.text(text));
    }
    checks.counted()
}

/// The places with texts of one piece less.
fn shorter(places: &[Place]) -> Vec<Place> {
    let less = |place: &Place| Place {
        most: place.most - 1,
        ..*place
    };
    places.iter().map(less).collect()
}

/// All texts up to 6 bytes over 12 bytes; for the gate, over the first 8 of them.
pub fn whole(extent: Extent) -> Counted {
    let pieces = &WHOLE.pieces[..8];
    match extent {
        Extent::Gate => compare(
            "all texts up to 6 bytes over 8 bytes",
            &[Place { pieces, ..WHOLE }],
        ),
        Extent::All => compare("all texts up to 6 bytes over 12 bytes", &[WHOLE]),
    }
}

/// All texts up to 5 or 6 bytes in the eight places of a document; for the gate, one byte less.
pub fn bytes(extent: Extent) -> Counted {
    match extent {
        Extent::Gate => compare(
            "all texts up to 4 or 5 bytes in eight places of a document",
            &shorter(BYTES),
        ),
        Extent::All => compare(
            "all texts up to 5 or 6 bytes in eight places of a document",
            BYTES,
        ),
    }
}

/// All lists of up to 5 words in the six places of a document; for the gate, up to 4.
pub fn words(extent: Extent) -> Counted {
    match extent {
        Extent::Gate => compare(
            "all lists of up to 4 words in six places of a document",
            &shorter(WORDS),
        ),
        Extent::All => compare(
            "all lists of up to 5 words in six places of a document",
            WORDS,
        ),
    }
}

/// All lists of up to 4 characters in the names of tags, keys, end tags and instructions; for the gate, up to 3.
pub fn accented(extent: Extent) -> Counted {
    match extent {
        Extent::Gate => compare(
            "all lists of up to 3 characters with accented letters in four names",
            &shorter(ACCENTED),
        ),
        Extent::All => compare(
            "all lists of up to 4 characters with accented letters in four names",
            ACCENTED,
        ),
    }
}
