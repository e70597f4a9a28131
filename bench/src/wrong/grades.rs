//! Implementations that are wrong about grades.

use super::{each_is_noticed, request};
use crate::agree::{agree, requests, Left, ALL};
use crate::buffers::Buffers;
use crate::request::{Form, Request};
use crate::services::{Call, Service};
use crate::tables::{Kind, A, B, MOST};
use haplotypes::{Outcome, RECORD};
use std::sync::OnceLock;

/// As paper 02 states them.
const WEIGHTS: [usize; 16] = [1, 1, 2, 3, 4, 6, 8, 10, 13, 16, 20, 25, 31, 38, 46, 60];

fn weight(grade: u8) -> usize {
    WEIGHTS[grade as usize]
}

/// The code of a record at a column, a hole outside its span.
fn code(record: &[u8], column: usize) -> u8 {
    let (start, span) = (record[4] as usize, record[6] as usize);
    match column.checked_sub(start) {
        Some(i) if i < span => record[8 + i / 4] >> (2 * (i % 4)) & 3,
        _ => 0,
    }
}

/// Turns an A into B or a B into A.
fn turn(record: &mut [u8], column: usize) {
    let i = column - record[4] as usize;
    record[8 + i / 4] ^= (A ^ B) << (2 * (i % 4));
}

/// What decides which calls of a column and side stay: the letter, from the weights of the As and of the Bs.
type Letter = fn(usize, usize) -> u8;

fn heavier(a: usize, b: usize) -> u8 {
    if a < b {
        B
    } else {
        A
    }
}

/// Corrects the table that was given by the sides of the answer. The total of the calls that are turned.
fn correct(buffers: &mut Buffers, weight: fn(u8) -> usize, letter: Letter) -> usize {
    let table = buffers.table.lent();
    let sides = &buffers.answer.lent()[3 * MOST..4 * MOST];
    let corrected = buffers.corrected.lent();
    corrected.copy_from_slice(table);
    let mut total = 0;
    for column in 0..MOST {
        for side in [1, 2] {
            let fragments = || table.chunks(RECORD).enumerate().filter(|&(i, _)| sides[i] == side);
            let of = |letter| {
                let having = fragments().filter(|(_, record)| code(record, column) == letter);
                having.map(|(_, record)| weight(record[7])).sum::<usize>()
            };
            let kept = letter(of(A), of(B));
            for (i, record) in fragments() {
                if code(record, column) == A + B - kept {
                    turn(&mut corrected[RECORD * i..RECORD * (i + 1)], column);
                    total += weight(record[7]);
                }
            }
        }
    }
    total
}

/// C on the tables with grades that `--check` asks, and what all leave of it.
fn graded() -> &'static [(Request, Left)] {
    static GRADED: OnceLock<Vec<(Request, Left)>> = OnceLock::new();
    GRADED.get_or_init(|| {
        let asked = |request: &Request| {
            (request.service, request.form) == (Service::C, Form::Sound) && request.kind.is_graded()
        };
        let left = |request| agree(request, &ALL).unwrap_or_else(|message| panic!("{message}"));
        requests().filter(asked).map(|request| (request, left(request))).collect()
    })
}

#[test]
fn the_total_and_the_letters_are_those_of_the_sides() {
    for (request, left) in graded() {
        let mut buffers = left.buffers.clone();
        let total = correct(&mut buffers, weight, heavier);
        assert_eq!(left.outcome, Outcome::Accepted(total), "{request}");
        assert_eq!(buffers.difference(&left.buffers, &[]), None, "{request}");
    }
}

/// A wrong C, which is noticed on the first of the tables with grades that tells it.
fn is_noticed(name: &str, wrong: impl Fn(&Call, &mut Buffers) -> Outcome) {
    let leaves = |request: &Request| {
        let (call, mut buffers) = request.call();
        Left { outcome: wrong(&call, &mut buffers), buffers }
    };
    let told = graded().iter().find(|(request, left)| leaves(request).difference(left).is_some());
    let (request, _) = told.unwrap_or_else(|| panic!("unnoticed: {name}"));
    each_is_noticed(*request, |before, buffers, _| {
        buffers.copy_from(before);
        wrong(&request.call().0, buffers)
    });
}

/// C as it should be.
fn sound(call: &Call, buffers: &mut Buffers) -> Outcome {
    (ALL[0].call)(call, buffers)
}

/// The same with other grades, and the true ones in the tables afterwards.
fn regraded(call: &Call, buffers: &mut Buffers, other: impl Fn(u8) -> u8) -> Outcome {
    let grades: Vec<u8> = buffers.table.lent().chunks(RECORD).map(|record| record[7]).collect();
    buffers.table.lent().chunks_mut(RECORD).for_each(|record| record[7] = other(record[7]));
    let outcome = sound(call, buffers);
    for table in [&mut buffers.table, &mut buffers.corrected] {
        table.lent().chunks_mut(RECORD).zip(&grades).for_each(|(record, grade)| record[7] = *grade);
    }
    outcome
}

#[test]
fn wrong_weights() {
    is_noticed("every weight 1", |call, buffers| regraded(call, buffers, |_| 0));
    for grade in 0..16 {
        let other = if grade < 2 { 2 } else { grade - 1 };
        let name = format!("the weight of grade {other} for grade {grade}");
        is_noticed(&name, |call, buffers| regraded(call, buffers, |found| if found == grade { other } else { found }));
    }
}

#[test]
fn sides_by_counts() {
    is_noticed("sides of the fewest corrections", |call, buffers| {
        regraded(call, buffers, |_| 0);
        Outcome::Accepted(correct(buffers, weight, heavier))
    });
}

#[test]
fn wrong_letters() {
    let wrong: [(&str, fn(u8) -> usize, Letter); 4] = [
        ("equal weights turn A to B", weight, |a, b| if a <= b { B } else { A }),
        ("the heavier letter changes", weight, |a, b| heavier(b, a)),
        ("the rarer letter changes", |_| 1, heavier),
        ("weights added in a byte", weight, |a, b| heavier(a % 256, b % 256)),
    ];
    for (name, weight, letter) in wrong {
        is_noticed(name, |call, buffers| {
            let outcome = sound(call, buffers);
            correct(buffers, weight, letter);
            outcome
        });
    }
}

#[test]
fn the_number_of_corrections() {
    is_noticed("the number of corrections", |call, buffers| {
        sound(call, buffers);
        // both bits of a call that is turned
        let bits = |(one, other): (&mut u8, &mut u8)| (*one ^ *other).count_ones() as usize;
        let bits: usize = buffers.table.lent().iter_mut().zip(buffers.corrected.lent()).map(bits).sum();
        Outcome::Accepted(bits / 2)
    });
}

#[test]
fn grades_lost() {
    let wrong: [(Service, fn(&mut Buffers)); 4] = [
        (Service::Pack, |buffers| buffers.table.lent().chunks_mut(RECORD).for_each(|record| record[7] = 0)),
        (Service::Pack, |buffers| buffers.table.lent().chunks_mut(RECORD).for_each(|record| record[7] &= 7)),
        (Service::Unpack, |buffers| buffers.grades.lent().fill(0)),
        (Service::C, |buffers| buffers.corrected.lent().chunks_mut(RECORD).for_each(|record| record[7] = 0)),
    ];
    for (service, lose) in wrong {
        each_is_noticed(request(service, Kind::Graded, Form::Sound), |_, buffers, outcome| {
            lose(buffers);
            outcome
        });
    }
}
