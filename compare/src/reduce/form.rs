//! Has a sheet the form of a graph sheet (paper 01, "Graph sheet")? What names say, c of heads and the number of children are not judged.

use crate::paper::sheet::{good_lengths, Sheet};
use crate::paper::text::is_graph_text;

/// How many numbers a row has.
const ROW: usize = 10;

/// The sheet has good lengths and the form.
pub fn is_form(sheet: &Sheet) -> bool {
    good_lengths(sheet.lent())
        && used(sheet).is_some_and(|(rows, names)| is_formed(sheet, rows, names))
}

/// Rows and names used, where row 0 has its form and they lie inside.
fn used(sheet: &Sheet) -> Option<(usize, usize)> {
    let &[first, rows, names, _, _, ref zeros @ ..] = sheet.rows.get(..ROW)? else {
        return None;
    };
    let (rows, names) = (rows as usize, names as usize);
    let inside = rows >= 2 && ROW * rows <= sheet.rows.len() && names <= sheet.names.len();
    let zero = first == 0 && zeros.iter().all(|&n| n == 0);
    (inside && zero).then_some((rows, names))
}

/// All but row 0's own zeros and lengths.
fn is_formed(sheet: &Sheet, rows: usize, names: usize) -> bool {
    let mut form = Form {
        names: &sheet.names[..names],
        end: 0,
        head: 0,
        roots: 0,
        types: 0,
    };
    let mut tens = sheet.rows.chunks_exact(ROW).take(rows).enumerate().skip(1);
    tens.all(|(index, ten)| form.takes(index, ten))
        && form.end == names
        && sheet.rows[3..5] == [form.roots, form.types]
        && sheet.rows[ROW * rows..].iter().all(|&n| n == 0)
        && sheet.names[names..].iter().all(|&b| b == 0)
}

/// What the rows so far were.
struct Form<'n> {
    names: &'n [u8],
    /// Where the next pair starts.
    end: usize,
    /// The tag of the last head.
    head: u32,
    roots: u32,
    types: u32,
}

impl Form<'_> {
    /// The next row may stand here and has its numbers and pairs.
    fn takes(&mut self, index: usize, ten: &[u32]) -> bool {
        let stands = self.stands(index, ten[0]);
        let Some(pairs) = pairs_of(ten) else {
            return false;
        };
        let used = ten[1..7].chunks_exact(2).take(pairs);
        let covers = used.fold(true, |covers, pair| covers & self.covers(pair[0], pair[1]));
        stands && covers && ten[1 + 2 * pairs..7].iter().all(|&n| n == 0)
    }

    /// Row 1 first, roots, then types with their children.
    fn stands(&mut self, index: usize, tag: u32) -> bool {
        let may = match tag {
            1 => index == 1,
            2 => index > 1 && self.head <= 2,
            3..=8 => index > 1,
            _ => head_of(tag) == Some(self.head),
        };
        self.roots += u32::from(tag == 2);
        self.types += u32::from((3..=8).contains(&tag));
        if tag <= 8 {
            self.head = tag;
        }
        may
    }

    /// A used pair starts at the end of the one before and holds a graph's text.
    fn covers(&mut self, offset: u32, length: u32) -> bool {
        let (from, to) = (self.end, self.end + length as usize);
        self.end = to;
        let text = self.names.get(from..to);
        offset as usize == from && text.is_some_and(is_graph_text)
    }
}

/// The head that a child row stands behind.
fn head_of(tag: u32) -> Option<u32> {
    match tag {
        9 => Some(3),
        10 => Some(4),
        11..=17 => Some(5),
        18 => Some(6),
        19 => Some(7),
        _ => None,
    }
}

/// How many pairs a row uses, where a, b and c may be what they are.
pub fn pairs_of(ten: &[u32]) -> Option<usize> {
    let (tag, a, b, c) = (ten[0], ten[7], ten[8], ten[9]);
    let named = usize::from(a == 0);
    let (pairs, may) = match tag {
        1 | 11 | 14 | 15 => (1, a == 0 && b == 0 && c == 0),
        2 => (2, a == 0 && b == 0),
        3 | 4 | 6 => (1, a == 0 && b == 0),
        5 => (1, (1..=5).contains(&a) && b == 0),
        7 => (1 + named, a <= 5 && b == 0),
        8 => (1 + usize::from(a == 1), a <= 1 && b == 0),
        9 if b == 3 => (2 + named, a <= 5 && c > 1),
        9 => (2 + named, a <= 5 && b < 3 && c == 0),
        10 => (2 + named, a <= 5 && b == 0 && c == 0),
        12 | 13 => (0, c == 0),
        16 | 17 => (0, b == 0 && c == 0),
        18 => (2, a == 0 && b == 0 && c == 0),
        19 => (2 + named, a <= 5 && b <= 1 && c == 0),
        _ => return None,
    };
    may.then_some(pairs)
}
