//! The rows of a graph by column, which packs better: ten columns, one after the other, each number below the first of its
//! column as its difference from the number above, modulo 2^32. Each function undoes the other for all numbers.

use crate::calls::{self, Answer};
use crate::refusal::Refusal;

/// Turns rows of ten numbers into columns.
///
/// ```
/// use lubiksan::columns::{to_columns, to_rows};
///
/// let rows = [[5, 0, 0, 1, 0, 0, 0, 0, 0, 9], [7, 0, 0, 0, 0, 0, 0, 0, 0, 9]].concat();
/// let mut columns = vec![0; 20];
/// to_columns(&rows, &mut columns)?;
/// assert_eq!(columns[..2], [5, 2]);
/// assert_eq!(columns[6..8], [1, u32::MAX]);
/// let mut again = vec![0; 20];
/// to_rows(&columns, &mut again)?;
/// assert_eq!(again, rows);
/// assert!(to_columns(&rows, &mut [0; 30]).is_err());
/// # Ok::<(), lubiksan::Refusal>(())
/// ```
///
/// # Errors
///
/// [`Refusal::Lengths`], with `columns` as they were: the lengths differ, or are no multiple of 10 from 20 to 40,960.
pub fn to_columns(rows: &[u32], columns: &mut [u32]) -> Result<(), Refusal> {
    turned(calls::columns(rows, columns))
}

/// Turns columns into the rows again.
///
/// # Errors
///
/// As [`to_columns`].
pub fn to_rows(columns: &[u32], rows: &mut [u32]) -> Result<(), Refusal> {
    turned(calls::rows(columns, rows))
}

fn turned(answer: Answer) -> Result<(), Refusal> {
    match answer.number {
        0 => Ok(()),
        _ => Err(Refusal::of(answer, 0)),
    }
}
