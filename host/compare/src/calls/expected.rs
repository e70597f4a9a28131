//! What a call must return and leave in its buffers, by the rules, the definitions and the methods.

use crate::answer::Answer;
use crate::brute;
use crate::counts::conflict_counts;
use crate::expected::{Accepted, Outcome as TableOutcome};
use crate::library::{Buffers, Call, Returned};
use crate::record::{self, grade, places_of, set_cell, span, start, tag, whole_records, Matrix, RECORD};
use crate::rules::{call_fault, pack_fault, Refusal};
use crate::service::{Buffer, Service};
use haplotypes::Outcome;
use std::ops::Range;

pub struct Expected {
    pub returned: Returned,
    pub after: Buffers,
}

/// Of a service on a table, `table` being what the methods make of it.
pub fn of_call(call: &Call, table: &TableOutcome) -> Expected {
    let lent = call.service.buffers().into_iter().filter(|&buffer| buffer != Buffer::Table);
    let lengths: Vec<(Buffer, usize)> = lent.map(|buffer| (buffer, call.lent.length(buffer))).collect();
    if let Some(refusal) = call_fault(call.service, call.number, call.lent.table.lent(), &lengths) {
        return refused(call, refusal);
    }
    let TableOutcome::Accepted(table) = table else {
        unreachable!("a fault for its own column count is one for every other");
    };
    let n = call.number;
    match call.service {
        Service::Snps => answered(call, &table.answers.snps, |_, _| ()),
        Service::Fragments => answered(call, &table.answers.fragments, |_, _| ()),
        Service::Corrections => answered(call, &table.answers.corrections, |answer, after| {
            after.corrected.put(&corrected_table(call.lent.table.lent(), table, answer));
        }),
        Service::Check => accepted(call, |after| checked(n, &table.answers.check, after)),
        Service::ConflictCounts => accepted(call, |after| counted(n, after)),
        _ => accepted(call, |after| unpacked(n, after)),
    }
}

/// Of S, F or C: its own refusal, or the answer and what it fills besides.
fn answered(call: &Call, answer: &Result<Answer, Refusal>, fill: impl FnOnce(&Answer, &mut Buffers)) -> Expected {
    match answer {
        Err(refusal) => refused(call, *refusal),
        Ok(answer) => accepted(call, |after| {
            fill(answer, after);
            least(call.number, answer, after)
        }),
    }
}

pub fn of_pack(call: &Call) -> Expected {
    match pack_fault(call.given(), call.lent.length(Buffer::Table)) {
        Some(refusal) => refused(call, refusal),
        None => accepted(call, |after| packed(call.number, after)),
    }
}

pub fn of_find(call: &Call) -> Expected {
    let part = first_with(call.number as u32, call.lent.table.lent());
    Expected { returned: Returned::Part(part), after: call.lent.clone() }
}

/// A refusal writes nothing.
fn refused(call: &Call, refusal: Refusal) -> Expected {
    let outcome = Outcome::Refused(refusal.number as u8, refusal.place);
    Expected { returned: Returned::Outcome(outcome), after: call.lent.clone() }
}

/// `fill` writes what the call must, and gives the count.
fn accepted(call: &Call, fill: impl FnOnce(&mut Buffers) -> usize) -> Expected {
    let mut after = call.lent.clone();
    let count = fill(&mut after);
    Expected { returned: Returned::Outcome(Outcome::Accepted(count)), after }
}

fn unpacked(n: usize, after: &mut Buffers) -> usize {
    let Buffers { table, cells, tags, grades, .. } = after;
    cells.put(&Matrix::read(table.lent(), n).rows.concat());
    tags.put(&whole_records(table.lent()).map(tag).collect::<Vec<_>>());
    grades.put(&whole_records(table.lent()).map(grade).collect::<Vec<_>>());
    tags.lent().len()
}

fn counted(n: usize, after: &mut Buffers) -> usize {
    let matrix = Matrix::read(after.table.lent(), n);
    after.counts.put(&conflict_counts(&matrix));
    matrix.m()
}

fn packed(n: usize, after: &mut Buffers) -> usize {
    let rows = Matrix::of_cells(n, after.tags.lent().len(), after.cells.lent()).rows;
    let table = record::packed(&rows, after.tags.lent(), after.grades.lent());
    after.table.put(&table);
    rows.len()
}

/// The first whole record with the tag; the empty part at the table's end where none has it.
fn first_with(wanted: u32, table: &[u8]) -> Range<usize> {
    match places_of(wanted, table).next() {
        Some(place) => RECORD * place..RECORD * (place + 1),
        None => table.len()..table.len(),
    }
}

/// A no leaves the answer untouched.
fn checked(n: usize, answer: &Option<Answer>, after: &mut Buffers) -> usize {
    if let Some(answer) = answer {
        after.answer.put(&answer.widened(n).bytes());
    }
    answer.is_none() as usize
}

/// S, F and C fill the answer and leave the work all zero, however long it is.
fn least(n: usize, answer: &Answer, after: &mut Buffers) -> usize {
    after.answer.put(&answer.widened(n).bytes());
    after.work.lent_mut().fill(0);
    answer.count
}

/// The table with the corrected calls in their cells, and every other bit as it was.
fn corrected_table(table: &[u8], accepted: &Accepted, answer: &Answer) -> Vec<u8> {
    let corrected = brute::corrected(&accepted.matrix, &answer.sides);
    let mut bytes = table.to_vec();
    for (record, row) in bytes.chunks_exact_mut(RECORD).zip(&corrected.rows) {
        (0..span(record)).for_each(|i| set_cell(record, i, row[start(record) + i]));
    }
    bytes
}
