//! Names that all stand in one bucket of the index of names, however many buckets it has up to 16,384: their hash, `(h + byte) * 2654435761` in 32 bits over
//! their bytes, is below 2^32 / 16,384. An index that gets 17 of them puts its entries in order.

/// So many names of `N`, an upper letter and five lower ones.
#[must_use]
pub fn crowded(count: usize) -> Vec<String> {
    (0..)
        .map(name)
        .filter(|name| hash(name) >> 18 == 0)
        .take(count)
        .collect()
}

/// The name spelled with an underscore: it normalises to the name.
#[must_use]
pub fn parted(name: &str) -> String {
    let (first, rest) = name.split_at(1);
    let mut rest = rest.to_owned();
    rest[..1].make_ascii_lowercase();
    format!("{first}_{rest}")
}

/// The name of a number.
fn name(number: usize) -> String {
    let letter = |place: u32, first: u8| {
        char::from(first + (number / 26_usize.pow(place) % 26) as u8).to_string()
    };
    let lower = (1..6).map(|place| letter(place, b'a'));
    ["N".to_owned(), letter(0, b'A')]
        .into_iter()
        .chain(lower)
        .collect()
}

fn hash(name: &str) -> u32 {
    name.bytes().fold(0, |h: u32, byte| {
        h.wrapping_add(u32::from(byte)).wrapping_mul(2_654_435_761)
    })
}

#[test]
fn names_differ_and_their_parted_forms_are_theirs() {
    let names = crowded(40);
    assert!(names.iter().all(|name| hash(name) < 1 << 18));
    assert!(names
        .iter()
        .all(|name| crate::leaves::normalize_type_name(&parted(name)) == *name));
    let mut sorted = names.clone();
    sorted.sort();
    sorted.dedup();
    assert_eq!(sorted.len(), names.len());
}
