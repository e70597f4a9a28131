//! Exact methods of another kind than trying every choice. Branching goes on odd cycles (S and F) and on sides (C), with the
//! number of removals or the total of corrections as the limit. Every part is branched by itself, since parts share neither columns nor
//! fragments: the least counts add up, and the first choice of the whole is the first choice of each part. S has a second
//! method by pairs of columns, F one by pairs of haplotypes, and C one by the sides of open fragments. None settles a table
//! whose search passes its limit of work. Pairs of columns need a gapless table; C's methods do not.

mod column_pairs;
mod corrections;
mod fragments;
mod haplotype_pairs;
mod letters;
mod odd_walk;
mod open_fragments;
mod snps;

use crate::answer::{haplotypes, Answer, REMOVED_FRAGMENT};
use crate::record::Matrix;
use letters::{members, Letters};

/// The search passed its limit of work.
#[derive(Debug)]
pub struct PastLimit;

/// A node of S or F compares all pairs of the part's fragments; a node of C only adds one fragment. So S and F are
/// limited by the pairs, to a fraction of a second for a medium part as for a full one.
const MOST_PAIRS: u64 = 10_000_000;
const MOST_SIDE_NODES: u64 = 1_000_000;
const MOST_COLUMN_NODES: u64 = 1_000_000;

/// The work that a search may still do.
struct Work {
    left: u64,
}

impl Work {
    fn new(limit: u64) -> Work {
        Work { left: limit }
    }

    fn spend(&mut self, work: u64) -> Result<(), PastLimit> {
        self.left = self.left.checked_sub(work).ok_or(PastLimit)?;
        Ok(())
    }

    fn spend_pairs(&mut self, fragments: usize) -> Result<(), PastLimit> {
        self.spend((fragments * fragments) as u64)
    }
}

pub fn check(matrix: &Matrix) -> Option<Answer> {
    let letters = Letters::new(matrix);
    let columns = letters.all_columns();
    let fragments = letters.all_fragments();
    letters.first_sides(columns, fragments).map(|sides| phased(matrix, &letters, 0, columns, sides))
}

pub fn snps_by_branching(matrix: &Matrix) -> Option<Answer> {
    let letters = Letters::new(matrix);
    let work = &mut Work::new(MOST_PAIRS);
    let mut kept = letters.all_columns();
    for part in letters.parts() {
        kept &= !snps::first_least_removal(&letters, part, work).ok()?;
    }
    Some(with_columns(matrix, &letters, kept))
}

pub fn snps_by_column_pairs(matrix: &Matrix) -> Option<Answer> {
    let letters = Letters::new(matrix);
    let kept = column_pairs::first_most_kept(&letters, &mut Work::new(MOST_COLUMN_NODES)).ok()??;
    Some(with_columns(matrix, &letters, kept))
}

fn with_columns(matrix: &Matrix, letters: &Letters, kept: u128) -> Answer {
    let sides = letters.first_sides(kept, letters.all_fragments()).expect("the rest is error-free");
    phased(matrix, letters, matrix.n - kept.count_ones() as usize, kept, sides)
}

pub fn fragments_by_branching(matrix: &Matrix) -> Option<Answer> {
    let letters = Letters::new(matrix);
    let work = &mut Work::new(MOST_PAIRS);
    let mut removed = 0;
    for part in letters.parts() {
        removed |= fragments::first_least_removal(&letters, part, work).ok()?;
    }
    Some(without_fragments(matrix, &letters, removed))
}

pub fn fragments_by_haplotype_pairs(matrix: &Matrix) -> Option<Answer> {
    let letters = Letters::new(matrix);
    Some(without_fragments(matrix, &letters, haplotype_pairs::first_least_removal(&letters)))
}

fn without_fragments(matrix: &Matrix, letters: &Letters, removed: u128) -> Answer {
    let columns = letters.all_columns();
    let sides = letters.first_sides(columns, letters.all_fragments() & !removed).expect("the rest is error-free");
    phased(matrix, letters, removed.count_ones() as usize, columns, sides)
}

pub fn corrections_by_branching(matrix: &Matrix) -> Option<Answer> {
    let letters = Letters::new(matrix);
    let sides = corrections::first_least_sides(&letters, &mut Work::new(MOST_SIDE_NODES)).ok()?;
    Some(corrections::answer(&letters, sides))
}

pub fn corrections_by_open_fragments(matrix: &Matrix) -> Option<Answer> {
    Some(corrections::answer(&Letters::new(matrix), sides_by_open_fragments(matrix)))
}

/// The first side list of least cost.
pub fn sides_by_open_fragments(matrix: &Matrix) -> Vec<u8> {
    let side_2 = open_fragments::first_least_sides(&Letters::new(matrix));
    (0..matrix.m()).map(|f| 1 + (side_2 >> f & 1) as u8).collect()
}

/// Is the table error-free on every two of its columns by themselves?
pub fn every_two_columns_error_free(matrix: &Matrix) -> bool {
    column_pairs::none_at_odds(&Letters::new(matrix))
}

fn phased(matrix: &Matrix, letters: &Letters, count: usize, columns: u128, sides: Vec<u8>) -> Answer {
    let keep: Vec<bool> = (0..matrix.n).map(|c| columns >> c & 1 == 1).collect();
    let haplotypes = haplotypes(matrix, &keep, &sides);
    let blocks = block_numbers(letters, columns, &sides);
    Answer { count, keep, haplotypes, sides, blocks }
}

fn block_numbers(letters: &Letters, columns: u128, sides: &[u8]) -> Vec<Option<usize>> {
    let kept = (0..sides.len()).filter(|&f| sides[f] != REMOVED_FRAGMENT).fold(0, |set, f| set | 1 << f);
    let mut numbers = vec![None; sides.len()];
    for block in letters.blocks(columns, kept) {
        for f in members(block) {
            numbers[f] = Some(block.trailing_zeros() as usize);
        }
    }
    numbers
}
