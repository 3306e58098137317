//! Rust identifiers of the names in a graph.

/// Words that stand only as raw identifiers, in any edition.
const KEYWORDS: [&str; 49] = [
    "abstract", "as", "async", "await", "become", "box", "break", "const", "continue", "do", "dyn",
    "else", "enum", "extern", "false", "final", "fn", "for", "gen", "if", "impl", "in", "let",
    "loop", "macro", "match", "mod", "move", "mut", "override", "priv", "pub", "ref", "return",
    "static", "struct", "trait", "true", "try", "type", "typeof", "unsafe", "unsized", "use",
    "virtual", "where", "while", "yield", "union",
];

/// Letters that rustc warns of, as uncommon or as looking like others, and what stands for them.
const LOOK_ALIKE: [(char, &str); 23] = [
    ('\u{AA}', "a"),
    ('\u{B5}', "u"),
    ('\u{BA}', "o"),
    ('Æ', "AE"),
    ('æ', "ae"),
    ('Ð', "D"),
    ('ð', "d"),
    ('Ĕ', "E"),
    ('ĕ', "e"),
    ('Ĭ', "I"),
    ('ĭ', "i"),
    ('ı', "i"),
    ('Ĳ', "IJ"),
    ('ĳ', "ij"),
    ('Ĺ', "L"),
    ('ĺ', "l"),
    ('Ŀ', "L"),
    ('ŀ', "l"),
    ('ŉ', "n"),
    ('Œ', "OE"),
    ('œ', "oe"),
    ('ſ', "s"),
    ('\u{39C}', "M"),
];

/// The identifier of a name: letters up to U+017F stay, but for those that rustc warns of, characters that no identifier may hold become
/// `_`, a leading digit gets one before it, and `self`, `Self`, `super`, `crate` and what would be no identifier at all get one behind.
pub fn identifier(name: &str) -> String {
    let mut word = String::with_capacity(name.len());
    for c in name.chars() {
        match LOOK_ALIKE.iter().find(|(other, _)| *other == c) {
            Some((_, letters)) => word.push_str(letters),
            // The dot that the lower form of `İ` has.
            None if c == '\u{307}' => {}
            None if c.is_ascii_alphanumeric() => word.push(c),
            None if c.is_alphabetic() && c <= '\u{17F}' => word.push(c),
            None => word.push('_'),
        }
    }
    if word.starts_with(|c: char| c.is_ascii_digit()) {
        word.insert(0, '_');
    }
    if word.is_empty() {
        word.push('_');
    }
    if matches!(word.as_str(), "self" | "Self" | "super" | "crate" | "_") {
        word.push('_');
    }
    word
}

/// The identifier as it is written in source: keywords as raw identifiers.
pub fn spelled(name: &str) -> String {
    let word = identifier(name);
    match KEYWORDS.contains(&word.as_str()) {
        true => format!("r#{word}"),
        false => word,
    }
}
