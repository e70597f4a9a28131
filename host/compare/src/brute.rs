//! Paper 01 by trying every choice. Nothing here is clever: the choices are listed in the paper's order, and the first
//! least one is taken.
//!
//! A choice over k things is a number below 2^k. Thing 0 is its highest bit, so that the order of the numbers is the
//! paper's order: at the first thing where two choices differ, bit 0 (kept, or side 1) comes first.

use crate::answer::{haplotypes, Answer, REMOVED_FRAGMENT};
use crate::record::{Matrix, A, B, HOLE};

/// Above this many columns or fragments the choices are too many.
pub const MOST_THINGS: usize = 12;

/// The table's first lawful side list, if it has one.
pub fn check(matrix: &Matrix) -> Option<Answer> {
    let keep = vec![true; matrix.n];
    let kept = vec![true; matrix.m()];
    first_sides(matrix, &keep, &kept).map(|sides| phased(matrix, 0, keep, sides))
}

pub fn least_snp_removal(matrix: &Matrix) -> Answer {
    let kept = vec![true; matrix.m()];
    let (count, keep, sides) = first_least(matrix.n, |keep| first_sides(matrix, keep, &kept));
    phased(matrix, count, keep, sides)
}

pub fn least_fragment_removal(matrix: &Matrix) -> Answer {
    let keep = vec![true; matrix.n];
    let (count, _, sides) = first_least(matrix.m(), |kept| first_sides(matrix, &keep, kept));
    phased(matrix, count, keep, sides)
}

/// The first side list of least cost, the cost being the sum over columns and sides of the smaller of the weights of A and B.
pub fn least_corrections(matrix: &Matrix) -> Answer {
    let kept = vec![true; matrix.m()];
    let mut best: Option<(usize, Vec<u8>)> = None;
    for choice in 0..1u64 << matrix.m() {
        let sides = side_list(choice, &kept);
        let cost = cost(matrix, &sides);
        if best.as_ref().is_none_or(|(least, _)| cost < *least) {
            best = Some((cost, sides));
        }
    }
    let (least, sides) = best.expect("there is a side list");
    let answer = with_sides(matrix, sides);
    assert_eq!(answer.count, least, "the cost of the sides is the total of the changed calls");
    answer
}

/// C's answer with these sides: its number is the total of the weights over the changed calls.
pub fn with_sides(matrix: &Matrix, sides: Vec<u8>) -> Answer {
    let corrected = corrected(matrix, &sides);
    let changed = (0..matrix.m()).map(|f| matrix.weights[f] * differences(&matrix.rows[f], &corrected.rows[f]));
    let total = changed.sum();
    phased(&corrected, total, vec![true; matrix.n], sides)
}

/// The first of the choices over k things that remove the fewest, among those that have a side list.
fn first_least(k: usize, sides_of: impl Fn(&[bool]) -> Option<Vec<u8>>) -> (usize, Vec<bool>, Vec<u8>) {
    let mut best: Option<(usize, Vec<bool>, Vec<u8>)> = None;
    for choice in 0..1u64 << k {
        let removed = choice.count_ones() as usize;
        if best.as_ref().is_some_and(|(least, _, _)| removed >= *least) {
            continue; // a later choice is taken only if it removes fewer
        }
        let keep: Vec<bool> = (0..k).map(|i| !bit(choice, k, i)).collect();
        if let Some(sides) = sides_of(&keep) {
            best = Some((removed, keep, sides));
        }
    }
    best.expect("removing everything leaves an error-free rest")
}

/// The first side list of the kept fragments with no conflict inside a side on a kept column.
fn first_sides(matrix: &Matrix, keep: &[bool], kept: &[bool]) -> Option<Vec<u8>> {
    let conflicts = conflict_pairs(matrix, keep, kept);
    let kept_count = kept.iter().filter(|&&kept| kept).count();
    (0..1u64 << kept_count)
        .find(|&choice| conflicts.iter().all(|&(i, j)| bit(choice, kept_count, i) != bit(choice, kept_count, j)))
        .map(|choice| side_list(choice, kept))
}

/// The pairs of kept fragments that conflict on a kept column, counted among the kept ones.
fn conflict_pairs(matrix: &Matrix, keep: &[bool], kept: &[bool]) -> Vec<(usize, usize)> {
    let rows: Vec<&Vec<u8>> = (0..matrix.m()).filter(|&f| kept[f]).map(|f| &matrix.rows[f]).collect();
    let conflict = |i: usize, j: usize| (0..matrix.n).any(|c| keep[c] && conflict_on(rows[i], rows[j], c));
    let pairs = (0..rows.len()).flat_map(|j| (0..j).map(move |i| (i, j)));
    pairs.filter(|&(i, j)| conflict(i, j)).collect()
}

pub fn conflict_on(one: &[u8], other: &[u8], c: usize) -> bool {
    matches!((one[c], other[c]), (A, B) | (B, A))
}

/// The sides of a choice over the kept fragments; the removed ones have none.
fn side_list(choice: u64, kept: &[bool]) -> Vec<u8> {
    let kept_count = kept.iter().filter(|&&kept| kept).count();
    let mut next = 0;
    let side = |&kept: &bool| {
        if !kept {
            return REMOVED_FRAGMENT;
        }
        next += 1;
        1 + bit(choice, kept_count, next - 1) as u8
    };
    kept.iter().map(side).collect()
}

fn bit(choice: u64, k: usize, i: usize) -> bool {
    choice >> (k - 1 - i) & 1 == 1
}

fn cost(matrix: &Matrix, sides: &[u8]) -> usize {
    let price = |c: usize, side: u8| weight(matrix, sides, side, c, A).min(weight(matrix, sides, side, c, B));
    (0..matrix.n).map(|c| price(c, 1) + price(c, 2)).sum()
}

/// The weight of a letter on a side at a column: the sum of the weights of the side's fragments that have it.
pub fn weight(matrix: &Matrix, sides: &[u8], side: u8, c: usize, letter: u8) -> usize {
    let having = (0..matrix.m()).filter(|&f| sides[f] == side && matrix.rows[f][c] == letter);
    having.map(|f| matrix.weights[f]).sum()
}

/// The matrix with the letter of smaller weight of each column and side changed; on equal weights the Bs become A.
pub fn corrected(matrix: &Matrix, sides: &[u8]) -> Matrix {
    let mut corrected = matrix.clone();
    for (f, row) in corrected.rows.iter_mut().enumerate() {
        for (c, cell) in row.iter_mut().enumerate().filter(|(_, cell)| **cell != HOLE) {
            let weight = |letter| weight(matrix, sides, sides[f], c, letter);
            *cell = if weight(A) < weight(B) { B } else { A };
        }
    }
    corrected
}

pub fn differences(one: &[u8], other: &[u8]) -> usize {
    one.iter().zip(other).filter(|(x, y)| x != y).count()
}

fn phased(matrix: &Matrix, count: usize, keep: Vec<bool>, sides: Vec<u8>) -> Answer {
    let haplotypes = haplotypes(matrix, &keep, &sides);
    let blocks = blocks(matrix, &keep, &sides);
    Answer { count, keep, haplotypes, sides, blocks }
}

/// The lowest record position that a chain of kept fragments reaches, each in conflict with the next on a kept column, by
/// lengthening the chains until nothing changes.
fn blocks(matrix: &Matrix, keep: &[bool], sides: &[u8]) -> Vec<Option<usize>> {
    let m = matrix.m();
    let kept = |f: usize| sides[f] != REMOVED_FRAGMENT;
    let rows = &matrix.rows;
    let neighbours = |f: usize, g: usize| (0..matrix.n).any(|c| keep[c] && conflict_on(&rows[f], &rows[g], c));
    let mut lowest: Vec<Option<usize>> = (0..m).map(|f| kept(f).then_some(f)).collect();
    let mut changed = true;
    while changed {
        changed = false;
        for f in (0..m).filter(|&f| kept(f)) {
            for g in (0..m).filter(|&g| kept(g)) {
                if lowest[g] < lowest[f] && neighbours(f, g) {
                    lowest[f] = lowest[g];
                    changed = true;
                }
            }
        }
    }
    lowest
}
