//! Fragments before they have bytes, without tags and with them, and the shapes that the kinds of tables share.

use super::grades::grades;
use crate::record::{graded, record, stretch, A, B, HOLE};
use crate::rng::Rng;
use std::collections::HashSet;

/// A fragment's first column and its cells from there to its last call.
pub type Row = (usize, Vec<u8>);

/// The fragment of a row of cells.
pub fn trimmed(cells: &[u8]) -> Row {
    (stretch(cells).start, cells[stretch(cells)].to_vec())
}

/// A fragment with its tag and grade. Fragments compare by start and then by tag, as records stand in order.
#[derive(Clone, PartialEq, Eq, PartialOrd, Ord)]
pub struct Fragment {
    pub start: usize,
    pub tag: u32,
    pub cells: Vec<u8>,
    pub grade: u8,
}

/// The bytes of a table with these fragments in order.
pub fn table(rng: &mut Rng, rows: Vec<Row>) -> Vec<u8> {
    records(&tagged(rng, rows))
}

pub fn records(fragments: &[Fragment]) -> Vec<u8> {
    let bytes = |Fragment { start, tag, cells, grade }: &Fragment| graded(record(*tag, *start, cells), *grade);
    fragments.iter().flat_map(bytes).collect()
}

/// The fragments with tags and grades, in order.
pub fn tagged(rng: &mut Rng, rows: Vec<Row>) -> Vec<Fragment> {
    let grades = grades(rng, rows.len());
    graded_as(rng, rows.into_iter().zip(grades).collect())
}

/// The fragments with these grades and with tags, in order. At one start they stand in any order, or where tags are counted at
/// times in the order given.
pub fn graded_as(rng: &mut Rng, mut rows: Vec<(Row, u8)>) -> Vec<Fragment> {
    if rng.chance(75) {
        rng.shuffle(&mut rows);
    }
    let tags = tags(rng, rows.len());
    let fragment = |(((start, cells), grade), tag): ((Row, u8), u32)| Fragment { start, tag, cells, grade };
    let mut fragments: Vec<Fragment> = rows.into_iter().zip(tags).map(fragment).collect();
    fragments.sort();
    fragments
}

/// Different tags: counted, random, different in one byte only, or rising by a higher byte while the lowest falls.
fn tags(rng: &mut Rng, count: usize) -> Vec<u32> {
    let base = rng.next() as u32;
    let style = rng.below(9);
    let mut used = HashSet::new();
    let mut tags = Vec::new();
    while tags.len() < count {
        let i = tags.len() as u32;
        let tag = match style {
            0 => i,
            1 => rng.next() as u32,
            2..=5 => base.wrapping_add(i << (8 * (style - 2))),
            _ => i << (8 * (style - 5)) | (255 - i),
        };
        if used.insert(tag) {
            tags.push(tag);
        }
    }
    tags
}

pub fn letter(rng: &mut Rng) -> u8 {
    rng.pick(&[A, B])
}

pub fn letters(rng: &mut Rng, count: usize) -> Vec<u8> {
    (0..count).map(|_| letter(rng)).collect()
}

pub fn other(code: u8) -> u8 {
    A + B - code
}

/// A first column and a span of at least 1 within n columns.
pub fn place(rng: &mut Rng, n: usize, longest: usize) -> (usize, usize) {
    let span = rng.between(1, longest.min(n));
    (rng.between(0, n - span), span)
}

/// Two haplotypes, different at most columns.
pub fn haplotypes(rng: &mut Rng, n: usize, different: usize) -> [Vec<u8>; 2] {
    let one = letters(rng, n);
    let second = one.iter().map(|&code| if rng.chance(different) { other(code) } else { code }).collect();
    [one, second]
}

/// A copy of a part of one of the two haplotypes, each call wrong in `noise` of 1,000 cases.
pub fn copy(rng: &mut Rng, haplotypes: &[Vec<u8>; 2], (start, span): (usize, usize), noise: usize) -> Row {
    let from = &haplotypes[rng.below(2)][start..start + span];
    (start, from.iter().map(|&code| if rng.below(1000) < noise { other(code) } else { code }).collect())
}

/// Holes between the first of some cells and the last, which are three at least: one between two mates, several, or nothing
/// but holes.
pub fn punch(rng: &mut Rng, cells: &mut [u8]) {
    let last = cells.len() - 1;
    let from = rng.between(1, last - 1);
    match rng.below(4) {
        0 => cells[1..last].fill(HOLE),
        1 => {
            cells[from] = HOLE;
            cells[1..last].iter_mut().filter(|_| rng.chance(35)).for_each(|cell| *cell = HOLE);
        }
        _ => cells[from..rng.between(from + 1, last)].fill(HOLE),
    }
}
