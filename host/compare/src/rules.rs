//! The refusals of paper 01, with the mate pairs of paper 02's T-01, the order of records of its T-02, its fragments without
//! calls and its grades, straight from the bytes and in the order in which they are tested.

use crate::grades::MOST_GRADE;
use crate::record::{
    cell, grade, has_call, is_gapped, order, span, start, stretch, tag, whole_records, Matrix, A, B, CELLS, HOLE,
    RECORD,
};
use crate::service::{Buffer, Service};

pub const MOST_FRAGMENTS: usize = 128;
pub const MOST_COLUMNS: usize = 128;
/// The most fragments whose stretches cover one column.
pub const MOST_DEPTH: usize = 8;
pub const LEAST_WORK: usize = 32768;

/// The numbers of all refusals.
pub const REFUSALS: [usize; 14] = [1, 2, 3, 4, 5, 6, 7, 8, 9, 10, 11, 12, 13, 17];

/// The rules of a record, and of pack's fragments.
pub const RULES_OF_RECORDS: [usize; 8] = [4, 5, 6, 7, 8, 9, 13, 17];

#[derive(Clone, Copy, PartialEq, Eq, Debug)]
pub struct Refusal {
    pub number: usize,
    pub place: usize,
}

/// The first fault that the listing prints for the whole table, which is check's.
pub fn table_fault(n: usize, table: &[u8]) -> Option<Refusal> {
    call_fault(Service::Check, n, table, &[])
}

/// The first fault of a call on a table, but for C's own: 3, 1, 2, and then the records by 4 to 7, 9 and 13, for S and F by 8
/// before 9. What it lends, each buffer with its length, is tested between the sizes and the records.
pub fn call_fault(service: Service, n: usize, table: &[u8], lent: &[(Buffer, usize)]) -> Option<Refusal> {
    let m = table.len() / RECORD;
    size_fault(n, table).or_else(|| lent_fault(n, m, lent)).or_else(|| records_fault(service, n, table))
}

/// The fragments that pack is given: m × n cells, by fragment and then column, m tags and m grades.
#[derive(Clone, Copy)]
pub struct Given<'a> {
    pub n: usize,
    pub cells: &'a [u8],
    pub tags: &'a [u32],
    pub grades: &'a [u8],
}

/// The first fault of a call of pack: 3, 1, 2, 11, and then the fragments by 5, 6, 17, 4, 9, 13.
pub fn pack_fault(given: Given, table_length: usize) -> Option<Refusal> {
    let Given { n, cells, tags, grades } = given;
    let m = tags.len();
    first_broken(&[(3, n > MOST_COLUMNS)])
        .or_else(|| first_broken(&[(1, cells.len() != m * n || grades.len() != m), (2, m > MOST_FRAGMENTS)]))
        .or_else(|| lent_fault(n, m, &[(Buffer::Table, table_length)]))
        .or_else(|| fragments_fault(given, |_| true))
}

/// The first fault of a table's records by the rules but 13: what a service would say if their order were free.
pub fn fault_in_any_order(service: Service, n: usize, table: &[u8]) -> Option<Refusal> {
    let records: Vec<&[u8]> = whole_records(table).collect();
    first_of_places(records.len(), |place| record_fault(service, n, &records, place))
}

/// The first fault of a table's records if any byte were a grade.
pub fn fault_of_any_grade(service: Service, n: usize, table: &[u8]) -> Option<Refusal> {
    let mut ungraded = table.to_vec();
    ungraded.chunks_exact_mut(RECORD).for_each(|record| record[7] = 0);
    records_fault(service, n, &ungraded)
}

/// The first fault of pack's fragments by the rules but one: what pack would say without it.
pub fn pack_fault_without(rule: usize, given: Given) -> Option<Refusal> {
    fragments_fault(given, |number| number != rule)
}

/// S's and F's own fault in a table that check takes: the first fragment with a hole between two calls.
pub fn gapped(matrix: &Matrix) -> Option<Refusal> {
    matrix.rows.iter().position(|row| is_gapped(row)).map(|place| Refusal { number: 8, place })
}

/// C's own fault: the stretches of over 8 fragments cover a column, the lowest such column.
pub fn too_deep(matrix: &Matrix) -> Option<Refusal> {
    (0..matrix.n).find(|&c| matrix.depth(c) > MOST_DEPTH).map(|place| Refusal { number: 12, place })
}

fn size_fault(n: usize, table: &[u8]) -> Option<Refusal> {
    let (ragged, m) = (!table.len().is_multiple_of(RECORD), table.len() / RECORD);
    first_broken(&[(3, n > MOST_COLUMNS), (1, ragged), (2, m > MOST_FRAGMENTS)])
}

/// Of what a call lends, work can be short (10), and every other length is exact (11).
fn lent_fault(n: usize, m: usize, lent: &[(Buffer, usize)]) -> Option<Refusal> {
    let (work, outputs): (Vec<_>, Vec<_>) = lent.iter().partition(|(buffer, _)| *buffer == Buffer::Work);
    let short = work.iter().any(|&&(_, length)| length < LEAST_WORK);
    let inexact = outputs.iter().any(|&&(buffer, length)| length != buffer.length(n, m));
    first_broken(&[(10, short), (11, inexact)])
}

/// The first rule of a table or a call as a whole, which has place 0.
fn first_broken(rules: &[(usize, bool)]) -> Option<Refusal> {
    rules.iter().find(|rule| rule.1).map(|rule| Refusal { number: rule.0, place: 0 })
}

/// The first fault of pack's fragments by the rules that are tested.
fn fragments_fault(given: Given, is_tested: impl Fn(usize) -> bool) -> Option<Refusal> {
    let rows = Matrix::of_cells(given.n, given.tags.len(), given.cells).rows;
    first_of_places(rows.len(), |place| fragment_faults(given, &rows, place).find(|&number| is_tested(number)))
}

/// The rules that a fragment given to pack breaks, in the order in which they are tested.
fn fragment_faults(given: Given, rows: &[Vec<u8>], place: usize) -> impl Iterator<Item = usize> {
    let (row, tags) = (&rows[place], given.tags);
    let order = |place: usize| (stretch(&rows[place]).start, tags[place]);
    let rules = [
        (5, given.grades[place] > MOST_GRADE),
        (6, row.iter().any(|&code| code > B)),
        (17, !has_call(row)),
        (4, stretch(row).len() > CELLS),
        (9, tags[..place].contains(&tags[place])),
    ];
    rules.into_iter().filter(|rule| rule.1).map(|rule| rule.0).chain(order_fault(place, order))
}

fn records_fault(service: Service, n: usize, table: &[u8]) -> Option<Refusal> {
    let records: Vec<&[u8]> = whole_records(table).collect();
    let order = |place: usize| order(records[place]);
    first_of_places(records.len(), |place| record_fault(service, n, &records, place).or(order_fault(place, order)))
}

/// The first record or fragment with a fault, which is given by its number.
fn first_of_places(m: usize, fault: impl Fn(usize) -> Option<usize>) -> Option<Refusal> {
    (0..m).find_map(|place| fault(place).map(|number| Refusal { number, place }))
}

/// 13, of what comes before its predecessor in the order of records.
fn order_fault(place: usize, order: impl Fn(usize) -> (usize, u32)) -> Option<usize> {
    (place > 0 && order(place) < order(place - 1)).then_some(13)
}

fn record_fault(service: Service, n: usize, records: &[&[u8]], place: usize) -> Option<usize> {
    let record = records[place];
    if out_of_frame(n, record) {
        Some(4)
    } else if stray_bits(record) {
        Some(5)
    } else if (0..span(record)).any(|i| cell(record, i) == 3) {
        Some(6)
    } else if open_end(record) {
        Some(7)
    } else if !service.takes_holes() && hole_between_calls(record) {
        Some(8)
    } else if records[..place].iter().any(|earlier| tag(earlier) == tag(record)) {
        Some(9)
    } else {
        None
    }
}

fn out_of_frame(n: usize, record: &[u8]) -> bool {
    span(record) > CELLS || start(record) + span(record) > n || span(record) == 0 && start(record) != 0
}

fn stray_bits(record: &[u8]) -> bool {
    grade(record) > MOST_GRADE || (span(record)..CELLS).any(|i| cell(record, i) != 0)
}

fn open_end(record: &[u8]) -> bool {
    let span = span(record);
    span > 0 && (cell(record, 0) == HOLE || cell(record, span - 1) == HOLE)
}

fn hole_between_calls(record: &[u8]) -> bool {
    let is_call = |i: &usize| matches!(cell(record, *i), A | B);
    let calls: Vec<usize> = (0..span(record)).filter(is_call).collect();
    match (calls.first(), calls.last()) {
        (Some(&first), Some(&last)) => (first..last).any(|i| cell(record, i) == HOLE),
        _ => false,
    }
}
