//! Libraries that are wrong about holes between calls: a service that refuses them, or one that takes them and must not;
//! a far mate left out; columns judged two at a time; rule 12 by calls; rule 8 after all other rules.

use super::gapped_triangle;
use super::wrong_libraries::{is_refusal, Wrong};
use crate::answer::Answer;
use crate::counts::conflict_counts;
use crate::library::Call;
use crate::record::{packed, record, stretch, Matrix, A, B, HOLE};
use crate::rules::{gapped, table_fault};
use crate::service::{Buffer, Service};
use crate::{brute, gaps};
use haplotypes::Outcome::{Accepted, Refused};

/// The gapped triangle, a far mate that tells two fragments apart, both ways in which stretches over a column and its calls
/// differ, and a gapped record before one with its tag.
pub fn tables() -> [Vec<u8>; 5] {
    [
        gapped_triangle(),
        [record(1, 0, &[A, HOLE, A]), record(2, 0, &[A, HOLE, B])].concat(),
        nine_over_column_1(&[A, HOLE, A], &[A, HOLE, A]),
        nine_over_column_1(&[A, HOLE, A], &[A, A]),
        [record(1, 0, &[A, HOLE, A]), record(1, 0, &[B])].concat(),
    ]
}

/// Five fragments from column 0 on and four from column 1 on. Their stretches cover column 1, which only the four call.
fn nine_over_column_1(from_0: &[u8], from_1: &[u8]) -> Vec<u8> {
    let five = (0..5).map(|tag| record(tag, 0, from_0));
    let four = (5..9).map(|tag| record(tag, 1, from_1));
    five.chain(four).flatten().collect()
}

pub fn all() -> Vec<Wrong> {
    let taking = Service::ALL.into_iter().filter(|&service| service.takes_holes() && service != Service::Find);
    let mut all: Vec<Wrong> = taking.map(refusing_holes).collect();
    all.extend([Service::Snps, Service::Fragments].map(late_rule_8));
    all.push(taking_holes(Service::Snps, brute::least_snp_removal));
    all.push(taking_holes(Service::Fragments, brute::least_fragment_removal));
    all.extend([near_cells(), near_records(), near_check(), near_counts(), near_corrections()]);
    all.extend([check_by_pairs(), deep_by_calls_alone(), deep_at_calls()]);
    all
}

/// As before mate pairs: rule 8 for every service.
fn refusing_holes(service: Service) -> Wrong {
    Wrong::outcome(service, |call, outcome, before| {
        let Accepted(_) = outcome else {
            return;
        };
        if let Some(refusal) = gapped(&call.matrix()) {
            *outcome = Refused(8, refusal.place);
            call.lent = before;
        }
    })
}

/// Rule 8 only where check accepts, as if it came after all records.
fn late_rule_8(service: Service) -> Wrong {
    Wrong::outcome(service, |call, outcome, _| {
        if let (Refused(8, _), Some(fault)) = (*outcome, table_fault(call.number, call.lent.table.lent())) {
            *outcome = Refused(fault.number as u8, fault.place);
        }
    })
}

/// The least removal by the definition, which has an answer for gapped tables as well.
fn taking_holes(service: Service, least: fn(&Matrix) -> Answer) -> Wrong {
    Wrong::outcome(service, move |call, outcome, _| {
        if let (Refused(8, _), None) = (*outcome, table_fault(call.number, call.lent.table.lent())) {
            let answer = least(&call.matrix());
            call.lent.answer.put(&answer.bytes());
            call.lent.work.lent_mut().fill(0);
            *outcome = Accepted(answer.count);
        }
    })
}

/// The calls before a row's first hole between calls: its near mate.
fn near_mate(row: &[u8]) -> Vec<u8> {
    let stretch = stretch(row);
    let end = stretch.clone().find(|&c| row[c] == HOLE).unwrap_or(stretch.end);
    (0..row.len()).map(|c| if c < end { row[c] } else { HOLE }).collect()
}

fn near_mates(matrix: &Matrix) -> Matrix {
    Matrix { rows: matrix.rows.iter().map(|row| near_mate(row)).collect(), ..matrix.clone() }
}

/// Writes what a service leaves of a table of which it takes the near mates alone.
fn of_near_mates(service: Service, buffer: Buffer, fill: impl Fn(&mut Call, Matrix) + Sync + 'static) -> Wrong {
    let wrong = Wrong::new(service, move |call, returned, _| {
        if !is_refusal(returned) {
            let near = near_mates(&call.matrix());
            fill(call, near);
        }
    });
    wrong.in_buffer(buffer)
}

pub fn near_cells() -> Wrong {
    of_near_mates(Service::Unpack, Buffer::Cells, |call, near| call.lent.cells.put(&near.rows.concat()))
}

pub fn near_records() -> Wrong {
    of_near_mates(Service::Pack, Buffer::Table, |call, near| {
        let table = packed(&near.rows, call.lent.tags.lent(), call.lent.grades.lent());
        call.lent.table.put(&table);
    })
}

fn near_counts() -> Wrong {
    of_near_mates(Service::ConflictCounts, Buffer::Counts, |call, near| call.lent.counts.put(&conflict_counts(&near)))
}

fn near_check() -> Wrong {
    Wrong::outcome(Service::Check, |call, outcome, before| {
        if let Accepted(count) = outcome {
            let answer = brute::check(&near_mates(&call.matrix()));
            *count = answer.is_none() as usize;
            call.lent = before;
            answer.iter().for_each(|answer| call.lent.answer.put(&answer.bytes()));
        }
    })
}

fn near_corrections() -> Wrong {
    Wrong::outcome(Service::Corrections, |call, outcome, _| {
        if let Accepted(count) = outcome {
            let answer = brute::least_corrections(&near_mates(&call.matrix()));
            call.lent.answer.put(&answer.bytes());
            *count = answer.count;
        }
    })
}

/// Paper 01: document 001 "judges fragments with holes by pairs of columns", and document 000 has what defeats it.
fn check_by_pairs() -> Wrong {
    Wrong::outcome(Service::Check, |call, outcome, _| {
        if *outcome == Accepted(1) && gaps::error_free_by_pairs(&call.matrix()) {
            *outcome = Accepted(0);
        }
    })
}

/// Rule 12 by the calls of a column, where no column has over 8.
fn deep_by_calls_alone() -> Wrong {
    Wrong::outcome(Service::Corrections, |call, outcome, _| {
        let taken = matches!(outcome, Refused(12, _)) && gaps::deep_by_calls(&call.matrix()).is_none();
        if taken {
            let answer = brute::least_corrections(&call.matrix());
            call.lent.answer.put(&answer.bytes());
            *outcome = Accepted(answer.count);
        }
    })
}

/// Rule 12 at the first column with over 8 calls.
fn deep_at_calls() -> Wrong {
    Wrong::outcome(Service::Corrections, |call, outcome, _| {
        if let Refused(12, place) = outcome {
            *place = gaps::deep_by_calls(&call.matrix()).unwrap_or(*place);
        }
    })
}
