//! Whether a text has a derivation, by a function for each production that gives every place where it can end.

use std::collections::BTreeSet;

type Ends = BTreeSet<usize>;

/// The whole text has a derivation.
pub fn derives(text: &[u8]) -> bool {
    expression(text, 0).contains(&text.len())
}

/// From a place on, as often as `part` goes on, each end once.
fn repeated(text: &[u8], first: Ends, part: impl Fn(&[u8], usize) -> Ends) -> Ends {
    let mut ends = first.clone();
    let mut open = first;
    while let Some(at) = open.pop_first() {
        for end in part(text, at) {
            if ends.insert(end) {
                open.insert(end);
            }
        }
    }
    ends
}

fn each(ends: Ends, part: impl Fn(usize) -> Ends) -> Ends {
    ends.into_iter().flat_map(part).collect()
}

/// The end behind a byte that passes the test.
fn byte(text: &[u8], at: usize, test: impl Fn(u8) -> bool) -> Ends {
    let here = text.get(at).copied();
    here.filter(|&b| test(b))
        .map(|_| at + 1)
        .into_iter()
        .collect()
}

fn is(text: &[u8], at: usize, c: u8) -> Ends {
    byte(text, at, |b| b == c)
}

// [1]
fn expression(text: &[u8], at: usize) -> Ends {
    repeated(text, branch(text, at), |text, at| {
        each(is(text, at, b'|'), |at| branch(text, at))
    })
}

// [2]
fn branch(text: &[u8], at: usize) -> Ends {
    repeated(text, Ends::from([at]), piece)
}

// [3]
fn piece(text: &[u8], at: usize) -> Ends {
    let atoms = atom(text, at);
    let marked = each(atoms.clone(), |at| quantifier(text, at));
    &atoms | &marked
}

// [4] to [8]
fn quantifier(text: &[u8], at: usize) -> Ends {
    let digits = |at| {
        let one = |text: &[u8], at| byte(text, at, |b| b.is_ascii_digit());
        repeated(text, one(text, at), one)
    };
    let counted = each(is(text, at, b'{'), |at| {
        let exact = digits(at);
        let least = each(exact.clone(), |at| is(text, at, b','));
        let range = each(least.clone(), digits);
        &(&exact | &least) | &range
    });
    let closed = each(counted, |at| is(text, at, b'}'));
    &byte(text, at, |b| b"?*+".contains(&b)) | &closed
}

fn is_xml(b: u8) -> bool {
    b >= 32 || b"\t\n\r".contains(&b)
}

// [9], [10], [11], [37a]
fn atom(text: &[u8], at: usize) -> Ends {
    let char = byte(text, at, |b| is_xml(b) && !b"\\?*+()|[]".contains(&b));
    let group = each(is(text, at, b'('), |at| {
        each(expression(text, at), |at| is(text, at, b')'))
    });
    &(&char | &escape(text, at, b"sSiIcCdDwW")) | &(&class(text, at) | &group)
}

// [23], [24], [37]; `more` is empty for [24] alone
fn escape(text: &[u8], at: usize, more: &[u8]) -> Ends {
    each(is(text, at, b'\\'), |at| {
        byte(text, at, |b| {
            b"nrt\\|.?*+(){}-[]^".contains(&b) || more.contains(&b)
        })
    })
}

// [12] to [15]
fn class(text: &[u8], at: usize) -> Ends {
    let items = |at| repeated(text, item(text, at), item);
    each(is(text, at, b'['), |at| {
        let positive = items(at);
        let negative = each(is(text, at, b'^'), items);
        each(&positive | &negative, |at| is(text, at, b']'))
    })
}

// [17], [18], [20] to [22]
fn item(text: &[u8], at: usize) -> Ends {
    let single = byte(text, at, |b| is_xml(b) && !b"\\[]".contains(&b));
    let end = |at| {
        let char = byte(text, at, |b| is_xml(b) && !b"\\-[]".contains(&b));
        &char | &escape(text, at, b"")
    };
    let range = each(end(at), |at| each(is(text, at, b'-'), end));
    &(&single | &range) | &escape(text, at, b"sSiIcCdDwW")
}
