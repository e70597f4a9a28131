//! Medium and full tables, for the exact methods. Noise is mostly such that branching stays small.

use super::rows::{copy, haplotypes, letter, letters, other, place, table, Row};
use super::small::{noisy_rows, uniform_rows};
use crate::record::CELLS;
use crate::rng::Rng;
use crate::rules::{MOST_COLUMNS, MOST_DEPTH, MOST_FRAGMENTS};

/// A small table far to the right, or several of them side by side.
pub fn shifted(rng: &mut Rng) -> Vec<u8> {
    let mut rows: Vec<Row> = Vec::new();
    for _ in 0..rng.between(1, 3) {
        let part = if rng.chance(50) { uniform_rows(rng, 9, 9) } else { noisy_rows(rng, 9, 9) };
        let shift = rng.between(0, MOST_COLUMNS - 9);
        rows.extend(part.into_iter().map(|(start, calls)| (start + shift, calls)));
    }
    table(rng, rows)
}

/// Few fragments with hundreds of conflicts: S removes many columns.
pub fn few_long(rng: &mut Rng) -> Vec<u8> {
    let m = rng.between(3, 8);
    let n = rng.between(40, MOST_COLUMNS);
    let different = rng.pick(&[30, 100]);
    let haplotypes = haplotypes(rng, n, different);
    let noise = rng.pick(&[50, 200, 500]);
    let mut row = || {
        let place = place(rng, n, CELLS);
        copy(rng, &haplotypes, place, noise)
    };
    let rows = (0..m).map(|_| row()).collect();
    table(rng, rows)
}

/// Many fragments on few columns, mostly noise: F removes many fragments.
pub fn many_short(rng: &mut Rng) -> Vec<u8> {
    let m = rng.between(40, MOST_FRAGMENTS);
    let n = rng.between(2, 10);
    let noise = rng.pick(&[50, 200, 500]);
    let haplotypes = haplotypes(rng, n, 90);
    let longest = rng.between(2, n);
    let mut row = || {
        let place = place(rng, n, longest);
        copy(rng, &haplotypes, place, noise)
    };
    let rows = (0..m).map(|_| row()).collect();
    table(rng, rows)
}

pub fn medium(rng: &mut Rng) -> Vec<u8> {
    let m = rng.between(15, 30);
    let n = rng.between(10, 30);
    let longest = rng.between(4, 12);
    let noise = rng.pick(&[30, 60, 100, 150]);
    let haplotypes = haplotypes(rng, n, 85);
    let mut row = || {
        let place = place(rng, n, longest);
        copy(rng, &haplotypes, place, noise)
    };
    let rows = (0..m).map(|_| row()).collect();
    table(rng, rows)
}

pub fn medium_shallow(rng: &mut Rng) -> Vec<u8> {
    let m = rng.between(15, 30);
    let n = rng.between(15, 40);
    let noise = rng.pick(&[20, 60, 120, 200]);
    let rows = shallow_rows(rng, m, n, 12, noise);
    table(rng, rows)
}

pub fn shallow_rows(rng: &mut Rng, m: usize, n: usize, longest: usize, noise: usize) -> Vec<Row> {
    let haplotypes = haplotypes(rng, n, 90);
    let places = (0..4 * m).map(|_| place(rng, n, longest)).collect();
    let mut rows = fitting(rng, m, &haplotypes, places, noise);
    rows.sort();
    rows
}

/// A first column and a span.
type Place = (usize, usize);

/// Copies at the first m places that leave at most 8 fragments over each column.
pub fn fitting(rng: &mut Rng, m: usize, haplotypes: &[Vec<u8>; 2], places: Vec<Place>, noise: usize) -> Vec<Row> {
    let mut depth = vec![0; haplotypes[0].len()];
    let mut rows = Vec::new();
    for (start, span) in places {
        let columns = &mut depth[start..start + span];
        if rows.len() < m && columns.iter().all(|&fragments| fragments < MOST_DEPTH) {
            columns.iter_mut().for_each(|fragments| *fragments += 1);
            rows.push(copy(rng, haplotypes, (start, span), noise));
        }
    }
    rows
}

/// 128 fragments on 128 columns; the first and last reach the ends.
pub fn full_rows(rng: &mut Rng) -> Vec<Row> {
    let haplotypes = haplotypes(rng, MOST_COLUMNS, 80);
    let shortest = rng.pick(&[1, 8, 40]);
    let mut places = vec![(0, CELLS), (MOST_COLUMNS - CELLS, CELLS)];
    while places.len() < MOST_FRAGMENTS {
        let span = rng.between(shortest, CELLS);
        places.push((rng.between(0, MOST_COLUMNS - span), span));
    }
    places.into_iter().map(|place| copy(rng, &haplotypes, place, 0)).collect()
}

pub fn full_error_free(rng: &mut Rng) -> Vec<u8> {
    let rows = full_rows(rng);
    table(rng, rows)
}

/// A few wrong calls anywhere.
pub fn full_noisy(rng: &mut Rng) -> Vec<u8> {
    let rows = full_rows(rng);
    let rows = with_errors(rng, rows);
    table(rng, rows)
}

pub fn with_errors(rng: &mut Rng, mut rows: Vec<Row>) -> Vec<Row> {
    for _ in 0..rng.between(1, 20) {
        let f = rng.below(rows.len());
        let calls = &mut rows[f].1;
        let at = rng.below(calls.len());
        calls[at] = other(calls[at]);
    }
    rows
}

/// Every fragment but the longest lies inside another one.
pub fn full_nested(rng: &mut Rng) -> Vec<u8> {
    let haplotypes = haplotypes(rng, MOST_COLUMNS, 90);
    let mut places = vec![(0, CELLS), (MOST_COLUMNS - CELLS, CELLS)];
    while places.len() < MOST_FRAGMENTS {
        let (start, span) = rng.pick(&places);
        let (inside, shorter) = place(rng, span, span);
        places.push((start + inside, shorter));
    }
    let rows = places.into_iter().map(|place| copy(rng, &haplotypes, place, 0)).collect();
    let rows = with_errors(rng, rows);
    table(rng, rows)
}

pub fn full_shallow(rng: &mut Rng) -> Vec<u8> {
    let noise = rng.pick(&[0, 5, 10, 15]);
    let longest = rng.pick(&[10, 14, 24]);
    let rows = shallow_rows(rng, MOST_FRAGMENTS, MOST_COLUMNS, longest, noise);
    table(rng, rows)
}

/// Blocks side by side, with heavier noise in each.
pub fn full_blocks(rng: &mut Rng) -> Vec<u8> {
    let width = rng.pick(&[8, 16]);
    let noise = rng.pick(&[20, 60, 100]);
    let blocks = MOST_COLUMNS / width;
    let mut rows = Vec::new();
    for block in 0..blocks {
        let part = shallow_rows(rng, MOST_FRAGMENTS / blocks, width, width, noise);
        rows.extend(part.into_iter().map(|(start, calls)| (start + block * width, calls)));
    }
    table(rng, rows)
}

/// Any noise, up to letters at random: S and F remove many. Too deep for C.
pub fn full_heavy_noise(rng: &mut Rng) -> Vec<u8> {
    let haplotypes = haplotypes(rng, MOST_COLUMNS, 80);
    let noise = rng.pick(&[20, 50, 200, 500]);
    let longest = rng.pick(&[24, CELLS]);
    let mut places = vec![(0, CELLS), (MOST_COLUMNS - CELLS, CELLS)];
    places.extend((2..MOST_FRAGMENTS).map(|_| place(rng, MOST_COLUMNS, longest)));
    let rows = places.into_iter().map(|place| copy(rng, &haplotypes, place, noise)).collect();
    table(rng, rows)
}

/// Exactly 8 calls in each column, and in half of the tables 9 in one.
pub fn full_at_depth(rng: &mut Rng) -> Vec<u8> {
    let width = MOST_DEPTH;
    let mut rows: Vec<Row> = Vec::new();
    for block in 0..MOST_COLUMNS / width {
        let haplotypes = haplotypes(rng, width, 100);
        let part = (0..width).map(|_| copy(rng, &haplotypes, (0, width), 30));
        rows.extend(part.map(|(start, calls)| (start + block * width, calls)));
    }
    if rng.chance(50) {
        let f = rng.below(rows.len());
        let column = rng.below(MOST_COLUMNS);
        rows[f] = (column, vec![letter(rng)]);
        if rng.chance(50) {
            rows[f] = (column.min(MOST_COLUMNS - 3), letters(rng, 3));
        }
    }
    table(rng, rows)
}
