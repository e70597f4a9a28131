//! What random tables must show of holes between calls, so that judging by less than the definitions would be noticed.

use crate::exact;
use crate::record::{stretch, Matrix, CELLS, HOLE};
use crate::rules::MOST_DEPTH;

/// The lowest column with over 8 calls. Rule 12 counts stretches, so its column is this one or a lower one.
pub fn deep_by_calls(matrix: &Matrix) -> Option<usize> {
    (0..matrix.n).find(|&c| matrix.calls(c) > MOST_DEPTH)
}

/// Are the fragments on every two columns by themselves error-free, though all columns together may not be?
pub fn error_free_by_pairs(matrix: &Matrix) -> bool {
    exact::every_two_columns_error_free(matrix)
}

/// Does a stretch cover a column that no fragment calls?
pub fn covers_uncalled(matrix: &Matrix) -> bool {
    (0..matrix.n).any(|c| matrix.calls(c) == 0 && matrix.depth(c) > 0)
}

/// Has a fragment two calls alone, as far apart as a record allows?
pub fn farthest_mates(matrix: &Matrix) -> bool {
    let two_calls = |row: &[u8]| row.iter().filter(|&&code| code != HOLE).count() == 2;
    matrix.rows.iter().any(|row| stretch(row).len() == CELLS && two_calls(row))
}
