//! What check, S, F and C answer, and the bytes of it.

use crate::record::{Matrix, HOLE, REMOVED};
use crate::rules::Refusal;

pub const REMOVED_FRAGMENT: u8 = 0;
const NO_BLOCK: u8 = 255;

/// The count is C's total, and check's is 0. Sides are 1 and 2, 0 for a removed fragment; a removed fragment has no block.
#[derive(Clone, PartialEq, Eq, Debug)]
pub struct Answer {
    pub count: usize,
    pub keep: Vec<bool>,
    pub haplotypes: [Vec<u8>; 2],
    pub sides: Vec<u8>,
    pub blocks: Vec<Option<usize>>,
}

/// Check has no answer where the table is not error-free; S and F refuse gapped fragments, and C deep columns.
#[derive(Clone, PartialEq, Eq, Debug)]
pub struct Answers {
    pub check: Option<Answer>,
    pub snps: Result<Answer, Refusal>,
    pub fragments: Result<Answer, Refusal>,
    pub corrections: Result<Answer, Refusal>,
}

impl Answer {
    /// The answer where the table comes with more columns: they have no calls, so that each is kept, and a hole in both
    /// haplotypes.
    pub fn widened(&self, n: usize) -> Answer {
        let mut wide = self.clone();
        wide.keep.resize(n, true);
        wide.haplotypes.iter_mut().for_each(|haplotype| haplotype.resize(n, HOLE));
        wide
    }

    pub fn bytes(&self) -> Vec<u8> {
        let mut bytes: Vec<u8> = self.keep.iter().map(|&kept| kept as u8).collect();
        bytes.extend(&self.haplotypes[0]);
        bytes.extend(&self.haplotypes[1]);
        bytes.extend(&self.sides);
        bytes.extend(self.blocks.iter().map(|block| block.map_or(NO_BLOCK, |lowest| lowest as u8)));
        bytes
    }
}

/// The two haplotypes of a matrix (corrected, for C) in which no two fragments of a side conflict on a kept column.
pub fn haplotypes(matrix: &Matrix, keep: &[bool], sides: &[u8]) -> [Vec<u8>; 2] {
    [1, 2].map(|side| {
        (0..matrix.n).map(|c| if keep[c] { call_of_side(matrix, sides, side, c) } else { REMOVED }).collect()
    })
}

fn call_of_side(matrix: &Matrix, sides: &[u8], side: u8, c: usize) -> u8 {
    let calls = (0..matrix.m()).filter(|&f| sides[f] == side).map(|f| matrix.rows[f][c]);
    calls.fold(HOLE, |found, code| {
        assert!(found == HOLE || code == HOLE || found == code, "two calls on one side of a kept column");
        found.max(code)
    })
}
