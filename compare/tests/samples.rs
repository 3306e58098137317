//! The fixed sample has the form that the program `vectors` takes.

use compare::samples::{texts, LONGEST};

#[test]
fn texts_are_short_ascii_without_line_ends() {
    for text in texts() {
        assert!(
            text.is_ascii() && !text.contains('\n') && text.len() <= LONGEST,
            "{text:?}"
        );
    }
}

#[test]
fn sample_is_the_same_each_time() {
    assert_eq!(texts(), texts());
}
