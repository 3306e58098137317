//! The pattern call of order 13, compared with a model written apart: an Earley parser over the productions of XML Schema Part 2
//! (Second Edition), Appendix F, and a descent that keeps every place where a part can end.
//!
//! | module | holds |
//! |---|---|
//! | `productions` | the productions, one line each |
//! | `earley` | whether a derivation exists, by the productions alone |
//! | `descent` | the same by a function for each production |
//! | `groups` | the patterns that are compared |

pub mod descent;
pub mod earley;
#[cfg(feature = "ours")]
pub mod groups;
pub mod productions;

/// The number of a pattern, where `derives` says whether a derivation exists: "order 1 for length, 5 for a byte above 127, 25,
/// 24".
pub fn number(pattern: &[u8], derives: impl Fn(&[u8]) -> bool) -> u32 {
    if pattern.len() > 1024 {
        return 1;
    }
    if pattern.iter().any(|&b| b > 127) {
        return 5;
    }
    if is_aside(pattern) {
        return 25;
    }
    if derives(pattern) {
        0
    } else {
        24
    }
}

/// "the bytes `\p`, `\P` or `-[` anywhere or more than 32 bytes `(`, escaped ones too"
fn is_aside(pattern: &[u8]) -> bool {
    let pairs: [&[u8]; 3] = [b"\\p", b"\\P", b"-["];
    let opens = pattern.iter().filter(|&&b| b == b'(').count();
    opens > 32 || pattern.windows(2).any(|pair| pairs.contains(&pair))
}
