//! What a schema sheet says, and when it is good.

use super::sheet::{good_lengths, names_used, rows_used, Lent, Row, Sheet};
use super::text::is_text;

/// The state of a run: row 0 and the other rows. `rows[0]` is row 1, its a 0: the count of order 7 is made for a sheet.
#[derive(Clone, Debug, PartialEq, Eq)]
pub struct State {
    pub rows: Vec<Row>,
    pub context: u32,
    pub nesting: u32,
    pub root_seen: bool,
    pub events: u32,
    pub open_tags: u32,
    pub extension: bool,
    /// Order 3: the schema ends at its own tag.
    pub by_standard: bool,
}

impl State {
    /// The state of a sheet cleared with the choice 0.
    pub fn cleared() -> State {
        State::cleared_by(false)
    }

    /// The state of a sheet cleared with the choice 1, `by_standard`, or 0.
    pub fn cleared_by(by_standard: bool) -> State {
        State {
            rows: vec![Row::new(1, &[""])],
            context: 0,
            nesting: 0,
            root_seen: false,
            events: 0,
            open_tags: 0,
            extension: false,
            by_standard,
        }
    }

    /// The sheet of the state.
    pub fn sheet(&self, lent: Lent) -> Sheet {
        let row0 = [
            0,
            rows_used(&self.rows) as u32,
            names_used(&self.rows) as u32,
            self.context,
            self.nesting,
            u32::from(self.root_seen),
            self.events,
            self.open_tags,
            u32::from(self.extension),
            u32::from(self.by_standard),
        ];
        let mut rows = self.rows.clone();
        rows[0].a = self.refused_types();
        Sheet::packed(row0, &rows, lent)
    }

    /// The state that a sheet holds, if the sheet is good. Its lengths are good. Order 7: "a sheet is good only if" its count is right.
    pub fn of(sheet: &Sheet) -> Option<State> {
        let (state, count) = State::with_count(sheet)?;
        (count == state.refused_types()).then_some(state)
    }

    /// The state and the count that a sheet holds, if it is good but for its count.
    pub fn with_count(sheet: &Sheet) -> Option<(State, u32)> {
        let row0 = &sheet.rows[..10];
        let (rows, names) = used_parts(sheet)?;
        let mut rows = unpacked(rows, names)?;
        let count = std::mem::take(&mut rows[0].a);
        let state = State {
            rows,
            context: row0[3],
            nesting: row0[4],
            root_seen: flag(row0[5])?,
            events: row0[6],
            open_tags: row0[7],
            extension: flag(row0[8])?,
            by_standard: flag(row0[9])?,
        };
        (row0[0] == 0 && state.is_good()).then_some((state, count))
    }

    /// The same, none also where the lengths are not good.
    pub fn of_lent(sheet: &Sheet) -> Option<State> {
        good_lengths(sheet.lent())
            .then(|| State::of(sheet))
            .flatten()
    }

    fn is_good(&self) -> bool {
        self.events <= 1_000_000
            && self.open_tags <= 255
            && self.last_head().is_some_and(|last| self.fits_context(last))
            && self.fits_root()
            && self.rows.iter().all(|row| self.fits_events(row))
    }

    /// Order 5: a head's c is "zero .. in a good sheet any other c is below events done"; c of other rows is 0.
    fn fits_events(&self, row: &Row) -> bool {
        row.c == 0 || (row.is_head() && row.c < self.events)
    }

    /// "context above 0 has root seen; no root seen means two rows and no names"
    fn fits_root(&self) -> bool {
        let untouched = self.rows.len() == 1 && names_used(&self.rows) == 0;
        self.root_seen || (self.context == 0 && untouched)
    }

    /// The conditions on the context, the tag of the last head being `last`.
    fn fits_context(&self, last: u32) -> bool {
        let (nesting, open_tags) = (u64::from(self.nesting), u64::from(self.open_tags));
        let fits = match self.context {
            0 => nesting == 0 && last != 16,
            1 if self.by_standard => last != 16 && open_tags > nesting,
            1 => nesting == 0 && last != 16 && open_tags >= 1,
            2 => last == 3 && open_tags >= nesting + 2,
            3 => (12..=16).contains(&last) && open_tags >= nesting + 2,
            _ => false,
        };
        fits && (!self.extension || (self.context == 3 && last == 14))
    }

    /// The tag of the last head (or element, or row 1), where every row stands where it may.
    fn last_head(&self) -> Option<u32> {
        let mut last = 0;
        for row in &self.rows {
            match head_of(row.tag) {
                None if last == 16 => return None,
                None if (row.tag == 1) != (last == 0) => return None,
                None => last = row.tag,
                Some(head) if head == last => {}
                Some(_) => return None,
            }
        }
        Some(last)
    }
}

/// The tag of the head that a child row stands behind.
fn head_of(tag: u32) -> Option<u32> {
    match tag {
        4..=11 => Some(3),
        17 | 18 => Some(12),
        19 => Some(13),
        20 => Some(14),
        _ => None,
    }
}

/// The numbers behind row 0 and the names that row 0 says are used; all past them is zero.
fn used_parts(sheet: &Sheet) -> Option<(&[u32], &[u8])> {
    let (rows, names) = (sheet.rows[1] as usize, sheet.rows[2] as usize);
    let inside = rows >= 2 && 10 * rows <= sheet.rows.len() && names <= sheet.names.len();
    if !inside {
        return None;
    }
    let (numbers, numbers_past) = sheet.rows.split_at(10 * rows);
    let (names, names_past) = sheet.names.split_at(names);
    let zero = numbers_past.iter().all(|&n| n == 0) && names_past.iter().all(|&n| n == 0);
    zero.then_some((&numbers[10..], names))
}

/// The rows with their texts, if each has the form of its tag and the pairs cover the names.
fn unpacked(numbers: &[u32], names: &[u8]) -> Option<Vec<Row>> {
    let mut end = 0;
    let rows: Option<Vec<Row>> = numbers
        .chunks(10)
        .map(|ten| unpacked_row(ten, names, &mut end))
        .collect();
    rows.filter(|_| end == names.len())
}

fn unpacked_row(ten: &[u32], names: &[u8], end: &mut usize) -> Option<Row> {
    let used = pairs_used(ten)?;
    let mut texts = Vec::new();
    for pair in ten[1..7].chunks(2).take(used) {
        texts.push(text_under(pair, names, end)?);
    }
    let unused = ten[1 + 2 * used..7].iter().all(|&n| n == 0);
    let row = Row {
        tag: ten[0],
        texts,
        a: ten[7],
        b: ten[8],
        c: ten[9],
    };
    unused.then_some(row)
}

/// The text of a pair that starts at `end` and lies inside the names; `end` moves on.
fn text_under(pair: &[u32], names: &[u8], end: &mut usize) -> Option<String> {
    let bytes = names.get(*end..)?.get(..pair[1] as usize)?;
    if pair[0] as usize != *end || !is_text(bytes) {
        return None;
    }
    *end += bytes.len();
    String::from_utf8(bytes.to_vec()).ok()
}

/// How many pairs a row uses, if its tag is one and its a and b may be what they are.
fn pairs_used(ten: &[u32]) -> Option<usize> {
    let (a, b) = (ten[7], ten[8]);
    let (pairs, numbers_ok) = match ten[0] {
        1 => (1, b == 0),
        12 | 13 | 16 => (1, a == 0 && b == 0),
        2 | 3 | 14 | 19 => (2, a == 0 && b == 0),
        4 | 5 | 8 | 9 => (1, a == 0 && b == 0),
        6 | 7 => (0, true),
        10 | 11 => (0, b == 0),
        15 => (1 + a as usize, a <= 1 && b == 0),
        17 => (2, true),
        18 => (2, b == 0),
        20 => (2, a <= 1 && b == 0),
        _ => (0, false),
    };
    numbers_ok.then_some(pairs)
}

fn flag(number: u32) -> Option<bool> {
    (number <= 1).then_some(number == 1)
}
