//! Sheets: rows of ten numbers and names.

/// The buffers of a sheet.
#[derive(Clone, Debug, PartialEq, Eq)]
pub struct Sheet {
    pub rows: Vec<u32>,
    pub names: Vec<u8>,
}

/// The lengths of a sheet's buffers.
#[derive(Clone, Copy, Debug, PartialEq, Eq)]
pub struct Lent {
    pub rows: usize,
    pub names: usize,
}

/// A row: tag, the texts of its used pairs, a, b, c.
#[derive(Clone, Debug, Default, PartialEq, Eq)]
pub struct Row {
    pub tag: u32,
    pub texts: Vec<String>,
    pub a: u32,
    pub b: u32,
    pub c: u32,
}

impl Row {
    /// A row with these texts, the other numbers zero.
    pub fn new(tag: u32, texts: &[&str]) -> Row {
        Row {
            tag,
            texts: texts.iter().map(|&text| text.to_owned()).collect(),
            ..Row::default()
        }
    }

    /// The row with other numbers a and b.
    pub fn with(self, a: u32, b: u32) -> Row {
        Row { a, b, ..self }
    }

    /// The row of a schema sheet with the number of the event that gave it its name.
    pub fn named_by(self, event: u32) -> Row {
        Row { c: event, ..self }
    }

    /// The row is a head of a schema sheet: an element or a type.
    pub fn is_head(&self) -> bool {
        matches!(self.tag, 2 | 3 | 12..=16)
    }

    /// The row stands behind a head of its own.
    pub fn is_child(&self) -> bool {
        matches!(self.tag, 4..=11 | 17..=20)
    }

    /// The ten numbers of the row, its first pair starting at `end`; `end` moves on.
    fn packed(&self, end: &mut u32) -> [u32; 10] {
        let mut ten = [0; 10];
        ten[0] = self.tag;
        for (i, text) in self.texts.iter().enumerate() {
            ten[1 + 2 * i] = *end;
            ten[2 + 2 * i] = text.len() as u32;
            *end += text.len() as u32;
        }
        ten[7..].copy_from_slice(&[self.a, self.b, self.c]);
        ten
    }
}

impl Sheet {
    /// The lengths of the buffers.
    pub fn lent(&self) -> Lent {
        Lent {
            rows: self.rows.len(),
            names: self.names.len(),
        }
    }

    /// Row 0 and then `rows`, packed and filled with zeros.
    pub fn packed(row0: [u32; 10], rows: &[Row], lent: Lent) -> Sheet {
        let mut end = 0;
        let mut numbers = row0.to_vec();
        for row in rows {
            numbers.extend(row.packed(&mut end));
        }
        let mut names: Vec<u8> = rows
            .iter()
            .flat_map(|row| row.texts.concat().into_bytes())
            .collect();
        numbers.resize(lent.rows, 0);
        names.resize(lent.names, 0);
        Sheet {
            rows: numbers,
            names,
        }
    }
}

/// How many rows these are with row 0.
pub fn rows_used(rows: &[Row]) -> usize {
    1 + rows.len()
}

/// How many bytes of names these rows need.
pub fn names_used(rows: &[Row]) -> usize {
    rows.iter()
        .flat_map(|row| &row.texts)
        .map(String::len)
        .sum()
}

/// Row 0 and `rows` have room.
pub fn fits(rows: &[Row], lent: Lent) -> bool {
    10 * rows_used(rows) <= lent.rows && names_used(rows) <= lent.names
}

/// The lengths of a sheet that 1 does not refuse.
pub fn good_lengths(lent: Lent) -> bool {
    lent.rows.is_multiple_of(10) && (20..=40_960).contains(&lent.rows) && lent.names <= 65_536
}
