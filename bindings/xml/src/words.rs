//! Texts of a schema in words for people.

/// A text of the schema in quotes, on one line whatever it holds, and not too long.
pub fn quoted(text: &str) -> String {
    const LONGEST: usize = 80;
    let shown: String = text.chars().take(LONGEST).collect();
    let dots = if shown.len() < text.len() { ".." } else { "" };
    format!("\"{}{dots}\"", escaped(&shown))
}

/// A text without line breaks, other control characters and what changes the direction of writing.
pub fn escaped(text: &str) -> String {
    escaped_but(text, |_| false)
}

/// The same but for the characters of `left`.
pub fn escaped_but(text: &str, left: impl Fn(char) -> bool) -> String {
    let unseen = |c: char| {
        c.is_control()
            || matches!(c, '\u{200B}'..='\u{200F}' | '\u{2028}'..='\u{202E}')
            || matches!(c, '\u{2060}'..='\u{2069}' | '\u{FEFF}')
    };
    let mut out = String::with_capacity(text.len());
    for c in text.chars() {
        if unseen(c) && !left(c) {
            out.extend(c.escape_default());
        } else {
            out.push(c);
        }
    }
    out
}
