//! Tables of mate pairs, of every size: fragments with holes between their calls.

use super::large::{fitting, full_rows, shallow_rows, with_errors};
use super::rows::{copy, haplotypes, letters, other, place, punch, table, trimmed, Row};
use super::small::{deep_rows, larger, noisy_rows, twelve_rows, uniform_rows, SMALL};
use crate::record::{CELLS, HOLE};
use crate::rng::Rng;
use crate::rules::{MOST_COLUMNS, MOST_DEPTH, MOST_FRAGMENTS};

/// Fragments of which at least one has a hole: they are drawn until one has room for it.
pub fn gapped_rows(rng: &mut Rng, draw: impl Fn(&mut Rng) -> Vec<Row>) -> Vec<Row> {
    let share = rng.pick(&[40, 70, 100]);
    loop {
        let mut rows = draw(rng);
        punch_some(rng, &mut rows, share);
        if rows.iter().any(|(_, cells)| cells.contains(&HOLE)) {
            return rows;
        }
    }
}

/// Holes in `share` of 100 fragments that have room for one.
fn punch_some(rng: &mut Rng, rows: &mut [Row], share: usize) {
    for (_, cells) in rows.iter_mut().filter(|(_, cells)| cells.len() > 2) {
        if rng.chance(share) {
            punch(rng, cells);
        }
    }
}

fn gapped_table(rng: &mut Rng, draw: impl Fn(&mut Rng) -> Vec<Row>) -> Vec<u8> {
    let rows = gapped_rows(rng, draw);
    table(rng, rows)
}

pub fn uniform(rng: &mut Rng) -> Vec<u8> {
    gapped_table(rng, |rng| uniform_rows(rng, SMALL, SMALL))
}

pub fn noisy(rng: &mut Rng) -> Vec<u8> {
    gapped_table(rng, |rng| noisy_rows(rng, SMALL, SMALL))
}

/// Around 8 stretches over a column, which fewer fragments call.
pub fn deep(rng: &mut Rng) -> Vec<u8> {
    let n = rng.between(3, SMALL);
    gapped_table(rng, |rng| deep_rows(rng, n))
}

pub fn twelve(rng: &mut Rng) -> Vec<u8> {
    gapped_table(rng, twelve_rows)
}

/// A fragment for each of the columns in their order, in conflict with the next fragment on one column, and the last with
/// the first. So an odd number is not error-free, though it is on every two columns by themselves.
fn cycle(rng: &mut Rng, columns: &[usize]) -> Vec<Row> {
    let codes = letters(rng, columns.len());
    let fragment = |i: usize| {
        let next = (i + 1) % columns.len();
        let mut cells = vec![HOLE; MOST_COLUMNS];
        cells[columns[i]] = codes[i];
        cells[columns[next]] = other(codes[next]);
        trimmed(&cells)
    };
    (0..columns.len()).map(fragment).collect()
}

/// A cycle on columns in any order, in some tables with other fragments beside it.
pub fn cycles(rng: &mut Rng) -> Vec<u8> {
    let length = rng.pick(&[3, 3, 4, 5, 5, 6, 7]);
    let mut columns: Vec<usize> = (0..larger(rng, length, SMALL)).collect();
    rng.shuffle(&mut columns);
    let mut rows = cycle(rng, &columns[..length]);
    if rng.chance(40) {
        rows.extend(gapped_rows(rng, |rng| uniform_rows(rng, 2, SMALL)));
    }
    table(rng, rows)
}

/// At most 8 stretches over a column, and any noise.
pub fn medium(rng: &mut Rng) -> Vec<u8> {
    let (m, n) = (rng.between(15, 30), rng.between(15, 40));
    let longest = rng.between(4, 20);
    let noise = rng.pick(&[0, 20, 60, 120, 500]);
    gapped_table(rng, |rng| shallow_rows(rng, m, n, longest, noise))
}

/// 128 fragments on 128 columns, error-free or with a few wrong calls. Too deep for C.
pub fn full(rng: &mut Rng) -> Vec<u8> {
    let erring = rng.chance(60);
    gapped_table(rng, |rng| {
        let rows = full_rows(rng);
        if erring {
            with_errors(rng, rows)
        } else {
            rows
        }
    })
}

/// At most 8 stretches over a column: some of up to 96 columns, and short ones beside them.
pub fn full_shallow(rng: &mut Rng) -> Vec<u8> {
    let noise = rng.pick(&[0, 5, 15, 60, 300]);
    let (long, longest) = (rng.between(0, 5), rng.pick(&[6, 10, 24]));
    gapped_table(rng, |rng| {
        let haplotypes = haplotypes(rng, MOST_COLUMNS, 90);
        let mut places: Vec<_> = (0..long).map(|_| place(rng, MOST_COLUMNS, CELLS)).collect();
        places.extend((0..4 * MOST_FRAGMENTS).map(|_| place(rng, MOST_COLUMNS, longest)));
        fitting(rng, MOST_FRAGMENTS, &haplotypes, places, noise)
    })
}

/// Exactly 8 stretches over each column, some columns a hole for all of them; in half of the tables one more stretch.
pub fn full_at_depth(rng: &mut Rng) -> Vec<u8> {
    let widths = rng.pick(&[&[8; 16][..], &[16; 8], &[32; 4], &[64; 2], &[CELLS, 32]]);
    let (noise, share) = (rng.pick(&[0, 10, 50, 300]), rng.pick(&[30, 70, 100]));
    let mut rows = Vec::new();
    let mut start = 0;
    for &width in widths {
        let mut part = block(rng, width, noise);
        punch_some(rng, &mut part, share);
        if rng.chance(30) {
            let uncalled = rng.between(1, width - 2);
            part.iter_mut().for_each(|(_, cells)| cells[uncalled] = HOLE);
        }
        rows.extend(part.into_iter().map(|(_, cells)| (start, cells)));
        start += width;
    }
    if rng.chance(50) {
        let (start, span) = place(rng, MOST_COLUMNS - 2, CELLS - 2);
        let mut cells = letters(rng, span + 2);
        punch(rng, &mut cells);
        rows.truncate(MOST_FRAGMENTS - 1); // room for it
        rows.push((start, cells));
    }
    table(rng, rows)
}

/// 8 copies over the same columns.
fn block(rng: &mut Rng, width: usize, noise: usize) -> Vec<Row> {
    let haplotypes = haplotypes(rng, width, 100);
    (0..MOST_DEPTH).map(|_| copy(rng, &haplotypes, (0, width), noise)).collect()
}

/// Mates at the two ends of 96 columns, 9 of them in some tables, and shorter stretches where 8 do not cover a column yet.
pub fn full_far(rng: &mut Rng) -> Vec<u8> {
    let haplotypes = haplotypes(rng, MOST_COLUMNS, 90);
    let noise = rng.pick(&[0, 20, 200]);
    let far = rng.between(3, MOST_DEPTH + 1);
    let last_start = rng.pick(&[0, 4, MOST_COLUMNS - CELLS]);
    let mut places: Vec<_> = (0..far.min(MOST_DEPTH)).map(|_| (rng.between(0, last_start), CELLS)).collect();
    places.extend((0..2 * MOST_FRAGMENTS).map(|_| place(rng, MOST_COLUMNS, 12)));
    let mut rows = fitting(rng, MOST_FRAGMENTS - 1, &haplotypes, places, noise);
    if far > MOST_DEPTH {
        rows.push(copy(rng, &haplotypes, (last_start, CELLS), noise));
    }
    for (_, cells) in rows.iter_mut().filter(|(_, cells)| cells.len() == CELLS) {
        cells[1..CELLS - 1].fill(HOLE);
    }
    punch_some(rng, &mut rows, 50);
    table(rng, rows)
}

/// Cycles side by side, in some tables even ones alone. Where a cycle goes up its even columns and down its odd ones, few
/// stretches cover a column; where it goes in any order, many do, though each column has two calls.
pub fn full_cycles(rng: &mut Rng) -> Vec<u8> {
    let widest = rng.pick(&[7, 20, CELLS, MOST_COLUMNS]);
    let all_even = rng.chance(40);
    let mut rows = Vec::new();
    let mut start = 0;
    while MOST_COLUMNS - start > 3 {
        let width = rng.between(4, widest.min(MOST_COLUMNS - start));
        let columns = 0..if all_even { width / 2 * 2 } else { width };
        let (up, down) = (columns.clone().step_by(2), columns.skip(1).step_by(2).rev());
        let mut columns: Vec<usize> = up.chain(down).collect();
        if width <= CELLS && rng.chance(50) {
            rng.shuffle(&mut columns);
        }
        rows.extend(cycle(rng, &columns).into_iter().map(|(first, cells)| (start + first, cells)));
        start += width;
    }
    table(rng, rows)
}
