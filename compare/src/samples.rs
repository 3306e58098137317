//! The fixed sample: the texts whose answers are kept in crates/replay.

use crate::leaves::normalize_type_name;
use crate::names::{near_misses, BUILTIN_NAMES, ISO_NAMES, OTHER_BUILTIN_NAMES};
use crate::random::Random;

/// The longest text of the sample.
pub const LONGEST: usize = 200;

const SEED: u64 = 20022;

/// All texts of the sample, in order.
pub fn texts() -> Vec<String> {
    [
        specimens(),
        builtin_names(),
        numbers(),
        separators(),
        ISO_NAMES.split_whitespace().map(str::to_owned).collect(),
        every_byte(),
        equal_neighbours(),
        random_texts(),
        spellings(),
    ]
    .concat()
}

fn owned(texts: &[&str]) -> Vec<String> {
    texts.iter().map(|&t| t.to_owned()).collect()
}

/// The texts that paper 01 names under Specimens.
fn specimens() -> Vec<String> {
    owned(&[
        "FIToFICstmrCdtTrf",
        "BICFI",
        "Dt2Nm",
        "TEST-VALUE",
        "TestValue",
        "Amount_SimpleType",
        "AmountSimpleType",
        "a_b",
        "AB",
        "ab",
        "_",
        "",
        "my:date",
        "QName",
        "+7",
        "007",
        "",
        "+",
        "-0",
        " 7",
        "4294967295",
        "4294967296",
    ])
}

fn builtin_names() -> Vec<String> {
    let mut texts = owned(&OTHER_BUILTIN_NAMES);
    for name in BUILTIN_NAMES {
        texts.push(name.to_owned());
        texts.extend(["xs:", "xsd:", "a:b:", ":"].map(|prefix| format!("{prefix}{name}")));
        texts.extend(near_misses(name));
    }
    texts
}

fn numbers() -> Vec<String> {
    let mut texts = not_numbers();
    for value in values() {
        texts.extend(
            ["", "+", "-", &"0".repeat(12), &zeros_with_plus()].map(|p| format!("{p}{value}")),
        );
    }
    texts.extend([1, 12, 24, 36, LONGEST].map(|n| "0".repeat(n)));
    texts
}

fn zeros_with_plus() -> String {
    format!("+{}", "0".repeat(36))
}

/// Texts that paper 01 refuses as numbers, and some that only look so; order 2 takes a few of them.
fn not_numbers() -> Vec<String> {
    owned(&[
        "",
        "+",
        "-",
        "++1",
        "+-1",
        "-+1",
        "--1",
        "-0",
        "-1",
        "+0",
        "+00",
        "1+",
        "1-",
        " 7",
        "7 ",
        "\t7",
        "7\r",
        "1_0",
        "_1",
        "1_",
        "0x1",
        "0b1",
        "0o7",
        "1e3",
        "1.0",
        ".5",
        "1,000",
        "1:2",
        ":1",
        "1/2",
        "/1",
        "0/",
        "0:",
        "a",
        "1a",
        "a1",
        "+a",
        "+ 1",
        "12345 ",
        "unbounded",
        "\0",
        "1\0",
        "\x7f1",
    ])
}

/// Values at the limits of 32 and 64 bits and of the number of digits.
fn values() -> Vec<String> {
    let two_to_32: u128 = 1 << 32;
    let two_to_64: u128 = 1 << 64;
    let limits = [
        two_to_32,
        two_to_64,
        10 * two_to_32,
        10 * two_to_64,
        two_to_32 / 2,
        two_to_64 / 2,
    ];
    let around = limits.iter().flat_map(|&v| (v - 2)..=(v + 2));
    let digits = [2, 9, 10, 11, 19, 20, 21, 30].map(|n| 10_u128.pow(n));
    let powers = digits.iter().flat_map(|&v| [v - 1, v]);
    let small = [0, 1, 7, 255];
    small
        .into_iter()
        .chain(around)
        .chain(powers)
        .map(|v| v.to_string())
        .collect()
}

/// Underscores, hyphens and colons at the start, at the end, doubled, and mixed.
fn separators() -> Vec<String> {
    let mut texts = Vec::new();
    for s in ["_", "-", ":"] {
        texts.extend([
            format!("{s}ab"),
            format!("ab{s}"),
            format!("a{s}b"),
            format!("A{s}B"),
            format!("{s}{s}"),
            format!("{s}{s}{s}"),
            format!("{s}{s}ab"),
            format!("ab{s}{s}"),
            format!("ab{s}{s}cd"),
            format!("AB{s}{s}CD{s}"),
            format!("{s}Ab{s}cD{s}eF{s}"),
            format!("1{s}2{s}x"),
            format!("@{s}[{s}`{s}{{"),
        ]);
    }
    texts.extend(owned(&[
        "_-:",
        ":-_",
        "a_b-c:d",
        "a:b-c_d",
        "-_a",
        "_-a",
        ":_a",
        "_:a",
        "a-:_B",
        "XMLa_BIC-fi:LEI",
    ]));
    texts
}

/// Each byte but the line end, alone, between letters, and behind a separator.
fn every_byte() -> Vec<String> {
    (0_u8..128)
        .filter(|&b| b != b'\n')
        .map(char::from)
        .flat_map(|c| [c.to_string(), format!("aB{c}Cd_{c}-{c}E")])
        .collect()
}

/// Neighbours that normalise to the same text, and some that nearly do.
fn equal_neighbours() -> Vec<String> {
    let mut texts = owned(&[
        "a_b", "AB", "A_b", "a__b", "_a_b_", "aB", "Ab", "ab", "a_", "A", "_a", "a", "_", "", "__",
        "_ _", " ", "my:a_b", "My:aB", "my:aB", "x_y_z", "XYZ", "xY_Z", "1_2", "12", "a_1", "A1",
        "a1", "a_-b", "A-b", "a-b",
    ]);
    let mut random = Random::new(SEED);
    for _ in 0..20 {
        let length = 1 + random.below(12);
        let name = random.text(b"abXY_1", length);
        let normal = normalize_type_name(&name);
        texts.extend([
            format!("_{name}"),
            normal.clone(),
            format!("{normal}_"),
            format!("{normal}x"),
            name,
        ]);
    }
    texts
}

/// Texts over several alphabets; most of them short.
fn random_texts() -> Vec<String> {
    let alphabets: [&[u8]; 6] = [
        b"aZ",
        b"abyzABYZ",
        b"aB_-:",
        b"0123456789+",
        b"AZaz09_-:+ @[`{/",
        b"aA_-:+0\0\x01\t\r\x1f \x7e\x7f",
    ];
    let mut random = Random::new(SEED + 1);
    let mut texts = Vec::new();
    for round in 0..36 {
        let most = if round < 30 { 24 } else { LONGEST };
        for alphabet in alphabets {
            let length = random.below(most + 1);
            texts.push(random.text(alphabet, length));
        }
    }
    texts
}

/// White space, bytes that only look so, and signs around numbers and `unbounded` (order 2).
fn spellings() -> Vec<String> {
    let mut texts = owned(&[
        " 35 ",
        " \t\r 35 \r\t",
        "-000",
        " -0 ",
        "- 0",
        "-00 0",
        "--0",
        "+-0",
        "-+0",
        "-01",
        "-0x",
        " + ",
        " - ",
        "+ 7",
        "7 7",
        " unbounded ",
        "un bounded",
        "&#32;7",
    ]);
    for value in [
        "0",
        "+7",
        "-0",
        "4294967295",
        "4294967296",
        "18446744073709551615",
        "18446744073709551616",
    ] {
        for byte in [
            '\t', '\x0b', '\x0c', '\r', '\x1c', '\x1d', '\x1e', '\x1f', ' ', '\0',
        ] {
            texts.extend([
                format!("{byte}{value}"),
                format!("{value}{byte}"),
                format!("{byte}{value}{byte}"),
            ]);
        }
    }
    texts
}
