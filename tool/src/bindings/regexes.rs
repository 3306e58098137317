//! Patterns of XML Schema as regular expressions of the crate `regex`.

use lubiksan::Pattern;
use regex::Regex;

/// The letters that may begin a name, inside brackets.
const NAME_START: &str = concat!(
    r":A-Z_a-z\u{C0}-\u{D6}\u{D8}-\u{F6}\u{F8}-\u{2FF}",
    r"\u{370}-\u{37D}\u{37F}-\u{1FFF}\u{200C}-\u{200D}\u{2070}-\u{218F}",
    r"\u{2C00}-\u{2FEF}\u{3001}-\u{D7FF}\u{F900}-\u{FDCF}\u{FDF0}-\u{FFFD}\u{10000}-\u{EFFFF}",
);
/// What else a name may hold.
const NAME_MORE: &str = r"\-.0-9\u{B7}\u{300}-\u{36F}\u{203F}-\u{2040}";

/// The patterns of one type, of which a text must match one, as one regular expression; none where one of them is not accepted by the library, or is too large.
pub fn translated(patterns: &[String]) -> Option<String> {
    let judged = |pattern: &String| Pattern::judged(pattern) == Ok(Pattern::Derived);
    if patterns.is_empty() || !patterns.iter().all(judged) {
        return None;
    }
    let parts: Option<Vec<String>> = patterns.iter().map(|pattern| one(pattern)).collect();
    let whole = format!(r"\A(?:{})\z", parts?.join("|"));
    Regex::new(&whole).is_ok().then_some(whole)
}

/// One pattern that has a derivation.
fn one(pattern: &str) -> Option<String> {
    let chars: Vec<char> = pattern.chars().collect();
    let mut writer = Writer {
        chars: &chars,
        at: 0,
        out: String::new(),
    };
    while let Some(c) = writer.next() {
        writer.outside(c)?;
    }
    Some(writer.out)
}

struct Writer<'p> {
    chars: &'p [char],
    at: usize,
    out: String,
}

impl Writer<'_> {
    fn next(&mut self) -> Option<char> {
        let c = self.chars.get(self.at).copied();
        self.at += 1;
        c
    }

    fn peek(&self) -> Option<char> {
        self.chars.get(self.at).copied()
    }

    fn outside(&mut self, c: char) -> Option<()> {
        match c {
            '.' => self.out.push_str(r"[^\n\r]"),
            '\\' => {
                let escaped = self.next()?;
                self.escape(escaped)?;
            }
            '[' => self.class()?,
            '(' => self.out.push_str("(?:"),
            '{' => self.count(),
            '|' | ')' | '?' | '*' | '+' => self.out.push(c),
            _ => self.literal(c),
        }
        Some(())
    }

    /// `{2,5}` is a count; any other brace stands for itself.
    fn count(&mut self) {
        let rest: String = self.chars.iter().skip(self.at).collect();
        let inside = rest.split_once('}').map(|(inside, _)| inside);
        let is_count = |text: &&str| {
            let (least, most) = text.split_once(',').unwrap_or((text, ""));
            let digits = |text: &str| text.chars().all(|c| c.is_ascii_digit());
            !least.is_empty() && digits(least) && digits(most)
        };
        match inside.filter(is_count) {
            Some(inside) => {
                self.at += inside.len() + 1;
                self.out.push_str(&format!("{{{inside}}}"));
            }
            None => self.literal('{'),
        }
    }

    /// A character that stands for itself, inside brackets too.
    fn literal(&mut self, c: char) {
        self.out.push_str(&regex::escape(&c.to_string()));
    }

    /// What stands behind a backslash.
    fn escape(&mut self, c: char) -> Option<()> {
        let (set, negated) = match c {
            'n' | 'r' | 't' => {
                self.out.push('\\');
                self.out.push(c);
                return Some(());
            }
            'd' | 'D' => (r"\p{Nd}".to_owned(), c == 'D'),
            's' | 'S' => (r" \t\n\r".to_owned(), c == 'S'),
            'w' | 'W' => (r"\p{P}\p{Z}\p{C}".to_owned(), c == 'w'),
            'i' | 'I' => (NAME_START.to_owned(), c == 'I'),
            'c' | 'C' => (format!("{NAME_START}{NAME_MORE}"), c == 'C'),
            c if c.is_ascii_alphanumeric() => return None,
            c => {
                self.literal(c);
                return Some(());
            }
        };
        let not = if negated { "^" } else { "" };
        self.out.push_str(&format!("[{not}{set}]"));
        Some(())
    }

    /// What stands between brackets; there is no subtraction, which the library does not judge.
    fn class(&mut self) -> Option<()> {
        self.out.push('[');
        if self.peek() == Some('^') {
            self.at += 1;
            self.out.push('^');
        }
        let mut first = true;
        loop {
            match self.next()? {
                ']' => break,
                '\\' => {
                    let escaped = self.next()?;
                    self.escape(escaped)?;
                }
                // Between two characters it is a range; at the ends it stands for itself.
                '-' if !first && self.peek() != Some(']') => self.out.push('-'),
                c => self.literal(c),
            }
            first = false;
        }
        self.out.push(']');
        Some(())
    }
}

#[cfg(test)]
mod tests {
    use super::*;

    fn matches(pattern: &str, text: &str) -> bool {
        let whole = translated(&[pattern.to_owned()]).unwrap_or_default();
        Regex::new(&whole).is_ok_and(|regex| regex.is_match(text))
    }

    #[test]
    fn patterns_keep_their_meaning() {
        assert!(matches("[A-Z]{3,3}", "EUR"));
        assert!(!matches("[A-Z]{3,3}", "EURO"));
        assert!(matches("a|b", "b"));
        assert!(!matches("a|b", "ab"));
        assert!(matches(r"\+[0-9]{1,3}-[0-9()+\-]{1,30}", "+49-(0)3-1"));
        assert!(matches("^$", "^$"));
        assert!(!matches("a.b", "a\nb"));
        assert!(matches(r"\d+\s\S", "12 x"));
        assert!(matches(r"[\i\-][\c]*", "-a.1"));
        assert!(matches(r"[&~-]+", "&~-"));
        assert!(matches(r"[\+|\?|/|\-|:|\(|\)|\.|,|'| ]{2}", "'/"));
        assert!(!matches("[^a]", "a"));
        assert!(matches("[^a]", "^"));
    }

    #[test]
    fn what_is_not_accepted_is_not_translated() {
        assert_eq!(translated(&["[A-Z".to_owned()]), None);
        assert_eq!(translated(&[r"\p{L}".to_owned()]), None);
        assert_eq!(translated(&["(a{1000}){1000}".to_owned()]), None);
    }
}
