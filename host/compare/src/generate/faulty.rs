//! Tables with the faults that rules 1 to 9 refuse, one at a time and several at once, their records in order. A hole between
//! two calls is a fault to S and F alone.

use super::grades::{any, over};
use super::mates::gapped_rows;
use super::rows::{table, Row};
use super::small::{noisy_rows, uniform_rows};
use crate::grades::MOST_GRADE;
use crate::record::{graded, in_order, record, set_cell, set_start, set_tag, span, tag, CELLS, HOLE, RECORD};
use crate::rng::Rng;
use crate::rules::MOST_FRAGMENTS;

/// Faults of the table as a whole, or made by a record more or less.
const TABLE_FAULTS: [fn(&mut Rng, &mut Vec<u8>); 3] = [ragged, too_many_fragments, without_span];

/// Faults of one record. A tag can be found twice only beside another record, so that fault is made apart.
const RECORD_FAULTS: [fn(&mut Rng, &mut [u8]); 9] =
    [too_many_columns, last_column, span_over_cells, over_grade, stray_cell, unknown_call, open_end, gap, gap];

pub fn one(rng: &mut Rng) -> Vec<u8> {
    let mut bytes = base(rng);
    fault(rng, &mut bytes, 25);
    in_order(&bytes)
}

pub fn several(rng: &mut Rng) -> Vec<u8> {
    let mut bytes = base(rng);
    for _ in 0..rng.between(2, 5) {
        fault(rng, &mut bytes, 10);
    }
    in_order(&bytes)
}

/// One fault, or several, beside holes between calls: S and F refuse the first record that has either.
pub fn of_mates(rng: &mut Rng) -> Vec<u8> {
    let rows = gapped_rows(rng, base_rows);
    let mut bytes = table(rng, rows);
    for _ in 0..rng.between(1, 3) {
        fault(rng, &mut bytes, 5);
    }
    in_order(&bytes)
}

/// A grade over 15, alone and beside other faults, mostly of the same record: its cells, or the tag of another.
pub fn over_graded(rng: &mut Rng) -> Vec<u8> {
    let rows = if rng.chance(50) { base_rows(rng) } else { gapped_rows(rng, base_rows) };
    let mut bytes = table(rng, rows);
    let places: Vec<usize> = (0..bytes.len()).step_by(RECORD).collect();
    let place = rng.pick(&places);
    for _ in 0..rng.below(3) {
        match rng.below(10) {
            0..=4 => fault_of_record(rng, &mut bytes[place..place + RECORD]),
            5..=6 => {
                let other = tag(&bytes[rng.pick(&places)..]);
                set_tag(&mut bytes[place..], other);
            }
            _ => fault(rng, &mut bytes, 0),
        }
    }
    over_grade(rng, &mut bytes[place..]);
    in_order(&bytes)
}

/// One fault, of the table as a whole in `whole` of 100 cases. It may put records out of order.
pub fn fault(rng: &mut Rng, bytes: &mut Vec<u8>, whole: usize) {
    let records = bytes.len() / RECORD;
    if records == 0 || rng.chance(whole) {
        rng.pick(&TABLE_FAULTS)(rng, bytes);
    } else if rng.chance(12) {
        tag_twice(rng, bytes);
    } else {
        let place = RECORD * rng.below(records);
        fault_of_record(rng, &mut bytes[place..place + RECORD]);
    }
}

pub fn fault_of_record(rng: &mut Rng, record: &mut [u8]) {
    rng.pick(&RECORD_FAULTS)(rng, record);
}

/// Lengths around 128 and 129 records and around the bytes that the listing reads. Some records past them would change
/// the column count, if they were read. Up to 128 records are in order.
pub fn long(rng: &mut Rng) -> Vec<u8> {
    let length = match rng.below(4) {
        0 => rng.pick(&[4064, 4095, 4096, 4097, 4127, 4128, 4129, 4159, 4160, 4161]),
        1 => rng.between(4000, 9000),
        2 => RECORD * rng.between(127, 140),
        _ => rng.between(0, 200),
    };
    let mut bytes = Vec::new();
    let widest = rng.pick(&[1, 1, 3]);
    while bytes.len() < length {
        let span = rng.between(0, widest);
        bytes.extend(graded(record(bytes.len() as u32, 0, &vec![1; span]), any(rng)));
    }
    bytes.truncate(length);
    if length >= RECORD && rng.chance(40) {
        let any = rng.below(length / RECORD);
        let last = length / RECORD - 1;
        let place = rng.pick(&[any, last, last.min(127), last.min(128), last.min(129)]);
        set_start(&mut bytes[RECORD * place..], rng.pick(&[100, 127, 128, 600, u16::MAX]));
    }
    if length <= RECORD * MOST_FRAGMENTS {
        in_order(&bytes)
    } else {
        bytes
    }
}

/// Records whose fields are near the lawful ones, with random cells.
pub fn random_fields(rng: &mut Rng) -> Vec<u8> {
    let mut bytes = Vec::new();
    for i in 0..rng.between(1, 5) {
        let span = rng.pick(&[0, 1, 2, 3, 4, 5, 8]);
        let mut fields = record(i as u32, 0, &vec![1; span]);
        for c in 0..span {
            let code = rng.pick(&[1, 1, 1, 1, 2, 2, 2, 2, 2, 0, 3]);
            set_cell(&mut fields, c, code);
        }
        if rng.chance(60) {
            set_start(&mut fields, rng.pick(&[0, 1, 2, 5, 30, 32, 127, 255, 256]));
        }
        if rng.chance(30) {
            fields[7] = rng.below(18) as u8;
        }
        if rng.chance(5) {
            fields[rng.below(RECORD)] ^= 1 << rng.below(8);
        }
        bytes.extend(fields);
    }
    in_order(&bytes)
}

/// A lawful table with at least one record.
fn base(rng: &mut Rng) -> Vec<u8> {
    let rows = base_rows(rng);
    table(rng, rows)
}

pub fn base_rows(rng: &mut Rng) -> Vec<Row> {
    let mut rows = if rng.chance(50) { uniform_rows(rng, 8, 8) } else { noisy_rows(rng, 8, 8) };
    if rng.chance(25) {
        rows.push((0, Vec::new()));
    }
    if rows.is_empty() || rng.chance(10) {
        rows.push((rng.below(3), vec![2; rng.between(1, 9)]));
    }
    rows
}

fn ragged(rng: &mut Rng, bytes: &mut Vec<u8>) {
    if rng.chance(50) {
        let more = rng.between(1, 31);
        bytes.extend((0..more).map(|_| rng.next() as u8));
    } else {
        bytes.truncate(bytes.len().saturating_sub(rng.between(1, 31)));
    }
}

fn too_many_fragments(rng: &mut Rng, bytes: &mut Vec<u8>) {
    let count = rng.pick(&[128, 129, 130, 160]);
    while bytes.len() < RECORD * count {
        bytes.extend(record(rng.next() as u32, 0, &[1]));
    }
}

fn without_span(rng: &mut Rng, bytes: &mut Vec<u8>) {
    let tag = rng.next() as u32;
    let start = rng.pick(&[1, 1, 2, 100, 128, 129]);
    insert(rng, bytes, &record(tag, start, &[]));
}

fn tag_twice(rng: &mut Rng, bytes: &mut Vec<u8>) {
    let place = RECORD * rng.below(bytes.len() / RECORD);
    let copied = tag(&bytes[place..]);
    insert(rng, bytes, &record(copied, 0, &[1]));
}

fn insert(rng: &mut Rng, bytes: &mut Vec<u8>, record: &[u8]) {
    let place = RECORD * rng.below(bytes.len() / RECORD + 1);
    bytes.splice(place..place, record.iter().copied());
}

fn too_many_columns(rng: &mut Rng, record: &mut [u8]) {
    let first_over = 129 - span(record).min(CELLS) as u16;
    set_start(record, rng.pick(&[first_over, 200, 256, 300, u16::MAX]));
}

/// The last column that is lawful: no fault by itself, but close to one.
fn last_column(_: &mut Rng, record: &mut [u8]) {
    set_start(record, 128 - span(record).min(CELLS) as u16);
}

fn span_over_cells(rng: &mut Rng, record: &mut [u8]) {
    record[6] = rng.pick(&[96, 97, 98, 127, 128, 255]);
    if rng.chance(50) {
        record[8..].fill(0x55); // calls in every cell, so that a span of 96 is lawful
        set_start(record, 0);
    }
}

/// In some cases a grade, which is no fault by itself.
fn over_grade(rng: &mut Rng, record: &mut [u8]) {
    let lawful = any(rng);
    record[7] = if rng.chance(85) { over(rng) } else { rng.pick(&[MOST_GRADE, lawful]) };
}

fn stray_cell(rng: &mut Rng, record: &mut [u8]) {
    let after = span(record);
    if after < CELLS {
        let last = if rng.chance(50) { (after + 5).min(CELLS - 1) } else { CELLS - 1 };
        set_cell(record, rng.between(after, last), rng.pick(&[1, 2, 3]));
    }
}

fn unknown_call(rng: &mut Rng, record: &mut [u8]) {
    let span = span(record).min(CELLS);
    if span > 0 {
        set_cell(record, rng.below(span), 3);
    }
}

fn open_end(rng: &mut Rng, record: &mut [u8]) {
    let span = span(record).min(CELLS);
    if span > 0 {
        set_cell(record, rng.pick(&[0, span - 1]), HOLE);
    }
}

fn gap(rng: &mut Rng, record: &mut [u8]) {
    let span = span(record).min(CELLS);
    if span > 2 {
        set_cell(record, rng.between(1, span - 2), HOLE);
    }
}
