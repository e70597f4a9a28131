//! Small tables, for which every choice can be tried.

use super::rows::{copy, haplotypes, letters, place, table, Row};
use crate::rng::Rng;

pub const SMALL: usize = 9;

pub fn uniform(rng: &mut Rng) -> Vec<u8> {
    let rows = uniform_rows(rng, SMALL, SMALL);
    table(rng, rows)
}

pub fn uniform_rows(rng: &mut Rng, most_fragments: usize, most_columns: usize) -> Vec<Row> {
    let m = larger(rng, 0, most_fragments);
    let n = rng.between(1, most_columns);
    let longest = larger(rng, 1, n);
    let mut row = || {
        let (start, span) = place(rng, n, longest);
        (start, letters(rng, span))
    };
    (0..m).map(|_| row()).collect()
}

/// The larger of two numbers from `low` to `high`: smaller tables are mostly error-free.
pub fn larger(rng: &mut Rng, low: usize, high: usize) -> usize {
    rng.between(low, high).max(rng.between(low, high))
}

pub fn noisy(rng: &mut Rng) -> Vec<u8> {
    let rows = noisy_rows(rng, SMALL, SMALL);
    table(rng, rows)
}

pub fn noisy_rows(rng: &mut Rng, most_fragments: usize, most_columns: usize) -> Vec<Row> {
    let m = larger(rng, 2, most_fragments);
    let n = larger(rng, 2, most_columns);
    let haplotypes = haplotypes(rng, n, 85);
    let noise = rng.pick(&[0, 80, 160, 300]);
    let longest = larger(rng, 2, n);
    (0..m)
        .map(|_| {
            let place = place(rng, n, longest);
            copy(rng, &haplotypes, place, noise)
        })
        .collect()
}

/// Long fragments first, and then short ones inside them.
pub fn nested(rng: &mut Rng) -> Vec<u8> {
    let n = rng.between(4, SMALL);
    let m = rng.between(3, SMALL);
    let haplotypes = haplotypes(rng, n, 90);
    let noise = rng.pick(&[0, 100, 250]);
    let mut places = vec![(0, n)];
    while places.len() < m {
        let (start, span) = rng.pick(&places);
        let (inside, shorter) = place(rng, span, span);
        places.push((start + inside, shorter));
    }
    let rows = places.into_iter().map(|place| copy(rng, &haplotypes, place, noise)).collect();
    table(rng, rows)
}

/// Mostly fragments of one call or none.
pub fn singles(rng: &mut Rng) -> Vec<u8> {
    let n = rng.between(1, SMALL);
    let m = rng.between(1, SMALL);
    let mut row = || {
        let span = rng.pick(&[0, 1, 1, 1, 2, 3]).min(n);
        let start = if span == 0 { 0 } else { rng.between(0, n - span) };
        (start, letters(rng, span))
    };
    let rows = (0..m).map(|_| row()).collect();
    table(rng, rows)
}

/// Few different fragments, each several times.
pub fn identical(rng: &mut Rng) -> Vec<u8> {
    let different = uniform_rows(rng, 3, SMALL);
    if different.is_empty() {
        return Vec::new();
    }
    let m = rng.between(2, SMALL);
    let rows = (0..m).map(|_| different[rng.below(different.len())].clone()).collect();
    table(rng, rows)
}

/// Fragments without calls only, so that the table has no column.
pub fn uncalled(rng: &mut Rng) -> Vec<u8> {
    let m = rng.between(1, SMALL);
    table(rng, vec![(0, Vec::new()); m])
}

/// Around 8 calls in a column.
pub fn deep(rng: &mut Rng) -> Vec<u8> {
    let n = rng.between(1, 6);
    let rows = deep_rows(rng, n);
    table(rng, rows)
}

pub fn deep_rows(rng: &mut Rng, n: usize) -> Vec<Row> {
    let m = rng.between(8, 12);
    let haplotypes = haplotypes(rng, n, 80);
    let mut row = || {
        let span = rng.between(1 + n / 2, n);
        let start = rng.between(0, n - span);
        copy(rng, &haplotypes, (start, span), 100)
    };
    (0..m).map(|_| row()).collect()
}

pub fn twelve(rng: &mut Rng) -> Vec<u8> {
    let rows = twelve_rows(rng);
    table(rng, rows)
}

pub fn twelve_rows(rng: &mut Rng) -> Vec<Row> {
    let mut rows = if rng.chance(30) { uniform_rows(rng, 12, 12) } else { noisy_rows(rng, 12, 12) };
    if rows.len() < 12 && rng.chance(50) {
        rows.push((0, letters(rng, 12)));
    }
    rows
}
