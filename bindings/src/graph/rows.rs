//! Rows of ten numbers with a names buffer. Every look is tested: what is not there reads as 0 or empty text.

use lubiksan_sys as sys;

use crate::limits::ROW;

pub(crate) const FIRST: usize = sys::LUBIKSAN_FIRST_AT;
pub(crate) const SECOND: usize = sys::LUBIKSAN_SECOND_AT;
pub(crate) const THIRD: usize = sys::LUBIKSAN_THIRD_AT;

/// Some rows.
#[derive(Clone, Copy, Debug)]
pub(crate) struct Rows<'g> {
    rows: &'g [u32],
    names: &'g [u8],
}

/// One row.
#[derive(Clone, Copy, Debug)]
pub(crate) struct Row<'g> {
    ten: &'g [u32],
    names: &'g [u8],
}

impl<'g> Rows<'g> {
    pub fn new(rows: &'g [u32], names: &'g [u8]) -> Rows<'g> {
        Rows { rows, names }
    }

    /// Without the first `count` rows.
    pub fn skip(self, count: usize) -> Rows<'g> {
        let rows = self.rows.get(ROW * count..).unwrap_or_default();
        Rows { rows, ..self }
    }

    /// The first `count` rows.
    pub fn take(self, count: usize) -> Rows<'g> {
        let rows = self.rows.get(..ROW * count).unwrap_or(self.rows);
        Rows { rows, ..self }
    }

    /// The first row.
    pub fn next_row(self) -> Option<Row<'g>> {
        self.iter().next()
    }

    /// The rows in order.
    pub fn iter(self) -> impl Iterator<Item = Row<'g>> {
        let names = self.names;
        self.rows
            .chunks_exact(ROW)
            .map(move |ten| Row { ten, names })
    }
}

impl<'g> Row<'g> {
    pub fn number(self, column: usize) -> u32 {
        self.ten.get(column).copied().unwrap_or(0)
    }

    pub fn tag(self) -> u32 {
        self.number(sys::LUBIKSAN_TAG_AT)
    }

    pub fn a(self) -> u32 {
        self.number(sys::LUBIKSAN_A_AT)
    }

    pub fn b(self) -> u32 {
        self.number(sys::LUBIKSAN_B_AT)
    }

    pub fn c(self) -> u32 {
        self.number(sys::LUBIKSAN_C_AT)
    }

    /// The number of the event that gave a head its name; none where it is not known.
    pub fn event(self) -> Option<u32> {
        Some(self.c()).filter(|&event| event > 0)
    }

    /// The text of the pair whose offset stands in the column.
    pub fn text(self, column: usize) -> &'g str {
        let (offset, length) = (self.number(column), self.number(column + 1));
        let behind = self.names.get(offset as usize..).unwrap_or_default();
        let bytes = behind.get(..length as usize).unwrap_or_default();
        std::str::from_utf8(bytes).unwrap_or_default()
    }
}
