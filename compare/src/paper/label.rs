//! The label call.

/// The number, whether the label is a part of the word list, where it starts there or in the names, and its bytes.
#[derive(Clone, Debug, PartialEq, Eq)]
pub struct Label {
    pub number: u32,
    pub in_words: bool,
    pub at: usize,
    pub text: Vec<u8>,
}

/// The label of row `row`: 0, or 16 with the empty part at the start of the names.
pub fn label(rows: &[u32], names: &[u8], words: &[u8], row: usize) -> Label {
    found(rows, names, words, row).unwrap_or(Label {
        number: 16,
        in_words: false,
        at: 0,
        text: Vec::new(),
    })
}

fn found(rows: &[u32], names: &[u8], words: &[u8], row: usize) -> Option<Label> {
    if !rows.len().is_multiple_of(10) {
        return None;
    }
    let ten = rows.chunks(10).nth(row)?;
    let pair = reference_pair(ten)?;
    match ten[7] {
        0 if ten[0] == 5 => None,
        0 => Some(part(false, names, under(names, pair)?)),
        a @ 1..=5 => Some(part(true, words, word(words, a)?)),
        _ => None,
    }
}

/// A label that is the part `text` of `buffer`.
fn part(in_words: bool, buffer: &[u8], text: &[u8]) -> Label {
    Label {
        number: 0,
        in_words,
        at: text.as_ptr() as usize - buffer.as_ptr() as usize,
        text: text.to_vec(),
    }
}

/// The reference's pair: the second of 7, the third of 9, 10 and 19; 5 has none.
fn reference_pair(ten: &[u32]) -> Option<(u32, u32)> {
    match ten[0] {
        5 => Some((0, 0)),
        7 => Some((ten[3], ten[4])),
        9 | 10 | 19 => Some((ten[5], ten[6])),
        _ => None,
    }
}

fn under(names: &[u8], (offset, length): (u32, u32)) -> Option<&[u8]> {
    names.get(offset as usize..)?.get(..length as usize)
}

/// Word `a`, from 1, of five words each ended by a newline byte, and nothing after.
fn word(words: &[u8], a: u32) -> Option<&[u8]> {
    let newlines = words.iter().filter(|&&byte| byte == b'\n').count();
    if newlines != 5 || words.last() != Some(&b'\n') {
        return None;
    }
    words.split(|&byte| byte == b'\n').nth(a as usize - 1)
}
