//! The 32-byte record: its fields, its cells, and the order and the matrix of a table.

use crate::grades::weight;
use std::ops::Range;

pub const RECORD: usize = 32;
pub const CELLS: usize = 96;

pub const HOLE: u8 = 0;
pub const A: u8 = 1;
pub const B: u8 = 2;
pub const REMOVED: u8 = 3;

pub fn tag(record: &[u8]) -> u32 {
    u32::from_le_bytes([record[0], record[1], record[2], record[3]])
}

pub fn start(record: &[u8]) -> usize {
    u16::from_le_bytes([record[4], record[5]]) as usize
}

pub fn span(record: &[u8]) -> usize {
    record[6] as usize
}

pub fn grade(record: &[u8]) -> u8 {
    record[7]
}

/// What records stand in order by: the start, and at one start the tag.
pub fn order(record: &[u8]) -> (usize, u32) {
    (start(record), tag(record))
}

pub fn cell(record: &[u8], i: usize) -> u8 {
    record[8 + i / 4] >> (2 * (i % 4)) & 3
}

pub fn set_cell(record: &mut [u8], i: usize, code: u8) {
    let byte = &mut record[8 + i / 4];
    let shift = 2 * (i % 4);
    *byte = *byte & !(3 << shift) | code << shift;
}

pub fn set_tag(record: &mut [u8], tag: u32) {
    record[..4].copy_from_slice(&tag.to_le_bytes());
}

pub fn set_start(record: &mut [u8], start: u16) {
    record[4..6].copy_from_slice(&start.to_le_bytes());
}

/// The record of a fragment with these cells from column `start` on, of grade 0.
pub fn record(tag: u32, start: usize, cells: &[u8]) -> [u8; RECORD] {
    let mut record = [0; RECORD];
    set_tag(&mut record, tag);
    set_start(&mut record, start as u16);
    record[6] = cells.len() as u8;
    for (i, &code) in cells.iter().enumerate() {
        set_cell(&mut record, i, code);
    }
    record
}

pub fn graded(mut record: [u8; RECORD], grade: u8) -> [u8; RECORD] {
    record[7] = grade;
    record
}

/// The columns from a row's first call to its last.
pub fn stretch(row: &[u8]) -> Range<usize> {
    let first = row.iter().position(|&code| code != HOLE).unwrap_or(0);
    let end = row.iter().rposition(|&code| code != HOLE).map_or(0, |last| last + 1);
    first..end
}

pub fn has_call(row: &[u8]) -> bool {
    row.iter().any(|code| [A, B].contains(code))
}

/// Has a row a hole between two calls?
pub fn is_gapped(row: &[u8]) -> bool {
    row[stretch(row)].contains(&HOLE)
}

pub fn whole_records(table: &[u8]) -> impl Iterator<Item = &[u8]> {
    table.chunks_exact(RECORD)
}

/// The table with its whole records in order; a part of a record stays at the end.
pub fn in_order(table: &[u8]) -> Vec<u8> {
    let mut records: Vec<&[u8]> = whole_records(table).collect();
    records.sort_by_key(|record| order(record));
    [&records.concat(), table.chunks_exact(RECORD).remainder()].concat()
}

/// The table of these rows.
pub fn packed(rows: &[Vec<u8>], tags: &[u32], grades: &[u8]) -> Vec<u8> {
    let bare = rows.iter().zip(tags).map(|(row, &tag)| record(tag, stretch(row).start, &row[stretch(row)]));
    bare.zip(grades).flat_map(|(record, &grade)| graded(record, grade)).collect()
}

/// The position of the first whole record without calls.
pub fn first_without_calls(table: &[u8]) -> Option<usize> {
    whole_records(table).position(|record| span(record) == 0)
}

/// The positions of the whole records with a tag.
pub fn places_of(wanted: u32, table: &[u8]) -> impl Iterator<Item = usize> + '_ {
    (0..).zip(whole_records(table)).filter(move |(_, record)| tag(record) == wanted).map(|(place, _)| place)
}

/// The largest start + span of the whole records, 0 if there are none.
pub fn column_count(table: &[u8]) -> usize {
    whole_records(table).map(|r| start(r) + span(r)).max().unwrap_or(0)
}

/// The cells of an accepted table, by fragment and then column.
#[derive(Clone)]
pub struct Matrix {
    pub n: usize,
    pub rows: Vec<Vec<u8>>,
    /// what a correction in each fragment costs
    pub weights: Vec<usize>,
}

impl Matrix {
    pub fn read(table: &[u8], n: usize) -> Matrix {
        let rows = whole_records(table).map(|r| row(r, n)).collect();
        Matrix { n, rows, weights: whole_records(table).map(|r| weight(grade(r))).collect() }
    }

    /// The rows of fragments of grade 0.
    pub fn ungraded(n: usize, rows: Vec<Vec<u8>>) -> Matrix {
        let weights = vec![weight(0); rows.len()];
        Matrix { n, rows, weights }
    }

    /// The rows of m × n cells; pack has no use for weights.
    pub fn of_cells(n: usize, m: usize, cells: &[u8]) -> Matrix {
        Matrix::ungraded(n, (0..m).map(|f| cells[n * f..n * (f + 1)].to_vec()).collect())
    }

    pub fn m(&self) -> usize {
        self.rows.len()
    }

    pub fn is_gapped(&self) -> bool {
        self.rows.iter().any(|row| is_gapped(row))
    }

    /// The number of fragments that call column c.
    pub fn calls(&self, c: usize) -> usize {
        self.rows.iter().filter(|row| row[c] != HOLE).count()
    }

    /// The number of fragments whose stretch covers column c: a call stands at or before it, and one at or after it.
    pub fn depth(&self, c: usize) -> usize {
        self.rows.iter().filter(|row| has_call(&row[..=c]) && has_call(&row[c..])).count()
    }
}

fn row(record: &[u8], n: usize) -> Vec<u8> {
    let mut row = vec![HOLE; n];
    for i in 0..span(record) {
        row[start(record) + i] = cell(record, i);
    }
    row
}
