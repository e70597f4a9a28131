//! How many columns two fragments conflict on, by looking at each column of every two; and what random tables must show
//! of conflicts and blocks.

use crate::answer::Answer;
use crate::brute::conflict_on;
use crate::record::{Matrix, HOLE};

/// The counts of all pairs, row by row.
pub fn conflict_counts(matrix: &Matrix) -> Vec<u8> {
    let pairs = (0..matrix.m()).flat_map(|i| (0..matrix.m()).map(move |j| (i, j)));
    pairs.map(|(i, j)| conflicts(&matrix.rows[i], &matrix.rows[j]).count() as u8).collect()
}

/// The columns on which two rows conflict.
pub fn conflicts<'a>(one: &'a [u8], other: &'a [u8]) -> impl Iterator<Item = usize> + 'a {
    (0..one.len()).filter(|&c| conflict_on(one, other, c))
}

/// Do two fragments conflict on more columns than a 64-bit word has bits?
pub fn over_64(matrix: &Matrix) -> bool {
    some_two(matrix, |one, other| conflicts(one, other).count() > 64)
}

/// Do two fragments conflict on columns below 64 and on columns from 64 on?
pub fn across_64(matrix: &Matrix) -> bool {
    some_two(matrix, |one, other| conflicts(one, other).any(|c| c < 64) && conflicts(one, other).any(|c| c >= 64))
}

fn some_two(matrix: &Matrix, holds: impl Fn(&[u8], &[u8]) -> bool) -> bool {
    (0..matrix.m()).any(|j| (0..j).any(|i| holds(&matrix.rows[i], &matrix.rows[j])))
}

/// Are two kept fragments, which both call a kept column, in two blocks of an answer?
pub fn sharing_apart(matrix: &Matrix, answer: &Answer) -> bool {
    let called = |one: &[u8], other: &[u8], c: usize| answer.keep[c] && one[c] != HOLE && other[c] != HOLE;
    some_apart(matrix, answer, |one, other| (0..matrix.n).any(|c| called(one, other, c)))
}

/// Are two kept fragments, which conflict in this matrix on some column, in two blocks of an answer?
pub fn conflicting_apart(matrix: &Matrix, answer: &Answer) -> bool {
    some_apart(matrix, answer, |one, other| conflicts(one, other).next().is_some())
}

fn some_apart(matrix: &Matrix, answer: &Answer, holds: impl Fn(&[u8], &[u8]) -> bool) -> bool {
    let apart =
        |i: usize, j: usize| matches!((answer.blocks[i], answer.blocks[j]), (Some(one), Some(other)) if one != other);
    (0..matrix.m()).any(|j| (0..j).any(|i| apart(i, j) && holds(&matrix.rows[i], &matrix.rows[j])))
}
