//! Numbers: paper 01, "optional `+`, then one or more digits", with white space and minus zeros as order 2
//! admits them. Written from the papers, without the leaves of the Rust.

/// XML's white space. `str::trim` takes more.
const WHITE_SPACE: [char; 4] = ['\t', '\n', '\r', ' '];

/// The text without white space at both ends.
fn core(text: &str) -> &str {
    text.trim_matches(WHITE_SPACE)
}

/// The value that the text stands for, where it is at most `largest`.
fn value(text: &str, largest: u64) -> Option<u64> {
    let text = core(text);
    if let Some(behind) = text.strip_prefix('-') {
        let zeros = !behind.is_empty() && behind.bytes().all(|b| b == b'0');
        return zeros.then_some(0);
    }
    let digits = text.strip_prefix('+').unwrap_or(text);
    if digits.is_empty() || !digits.bytes().all(|b| b.is_ascii_digit()) {
        return None;
    }
    let significant = digits.trim_start_matches('0');
    if significant.len() > 20 {
        return None;
    }
    let step = |v: u128, b: u8| 10 * v + u128::from(b - b'0');
    let value = u64::try_from(significant.bytes().fold(0, step)).ok()?;
    (value <= largest).then_some(value)
}

/// The number that the text stands for, where it is one of 32 bits.
pub fn number_u32(text: &str) -> Option<u32> {
    value(text, u32::MAX.into()).map(|v| v as u32)
}

/// The number that the text stands for, where it is one of 64 bits.
pub fn number_u64(text: &str) -> Option<u64> {
    value(text, u64::MAX)
}

/// "`unbounded` may have white space around it too"
pub fn is_unbounded(text: &str) -> bool {
    core(text) == "unbounded"
}

/// White space at an end, or a minus: what paper 01 alone refuses.
fn has_new_form(text: &str) -> bool {
    core(text) != text || text.starts_with('-')
}

/// Order 2 gives this text a number of 32 bits, and paper 01 alone gives 10.
pub fn is_new_u32(text: &str) -> bool {
    has_new_form(text) && number_u32(text).is_some()
}

/// Order 2 gives this text a number of 64 bits, and paper 01 alone gives 10.
pub fn is_new_u64(text: &str) -> bool {
    has_new_form(text) && number_u64(text).is_some()
}

/// Order 2 takes this text as a max, and paper 01 alone gives 10.
pub fn is_new_max(text: &str) -> bool {
    is_new_u32(text) || (is_unbounded(text) && text != "unbounded")
}
