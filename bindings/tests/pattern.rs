//! Patterns through the bindings: what each is was worked out by hand from the productions and the order's sentences.

use lubiksan::{Cause, Pattern, Unjudged};

#[test]
fn a_derivation_exists() {
    for pattern in [
        "",
        "|",
        "a||b",
        "()",
        "(|)",
        "()*",
        "{",
        "}",
        "a{",
        "a{,3}",
        "{2}",
        "a{2}{3}",
        "a{2}*",
        "a{2,1}",
        "^$",
        "\\^\\-",
        "[^]",
        "[-]",
        "[a-]",
        "[a-b-c]",
        "[z-a]",
        "[a-\\d]",
        "[.*(]",
        "\u{7f}",
        "[0-9]{1,3}",
        "(a|[^b])+",
    ] {
        assert_eq!(Pattern::judged(pattern), Ok(Pattern::Derived), "{pattern}");
    }
}

#[test]
fn no_derivation_exists() {
    for pattern in [
        "a**", "a*?", "a{2}**", "*", "|*", "(*)", "(?:a)", "[]", "[[a]]", "[a", "[\\]", "a)", "(a",
        "\\", "\\$", "\\/", "\\0", "]", "\u{1}", "[\u{1}]", "\\\u{1}",
    ] {
        assert_eq!(
            Pattern::judged(pattern),
            Ok(Pattern::NotDerived),
            "{pattern}"
        );
    }
}

#[test]
fn what_is_not_judged() {
    for pattern in ["\\p{L}", "\\P", "\\\\p", "\\-[", "[a-z-[b]]", "[-[]", "*-["] {
        assert_eq!(Pattern::judged(pattern), Err(Unjudged::Aside), "{pattern}");
    }
    assert_eq!(Pattern::judged(&"\\(".repeat(33)), Err(Unjudged::Aside));
    assert_eq!(Pattern::judged(&"\\(".repeat(32)), Ok(Pattern::Derived));
    assert_eq!(Pattern::judged("\u{e9}\\p"), Err(Unjudged::NotAscii));
    assert_eq!(Pattern::judged(&"\u{e9}".repeat(513)), Err(Unjudged::Long));
    assert_eq!(Pattern::judged(&"a".repeat(1024)), Ok(Pattern::Derived));
    assert_eq!(Pattern::judged(&"a".repeat(1025)), Err(Unjudged::Long));
}

#[test]
fn the_words_are_those_of_the_table() {
    assert_eq!(
        (Cause::NoPattern.number(), Cause::PatternAside.number()),
        (24, 25)
    );
    assert_eq!(
        Pattern::NotDerived.to_string(),
        "not a regular expression of XML Schema"
    );
    assert_eq!(Unjudged::Aside.to_string(), "has a form that is not judged");
    assert_eq!(Unjudged::Long.number(), 1);
}
