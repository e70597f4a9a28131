//! Libraries that are wrong about grades: by another limit, at another turn among the rules or at another place, about the length
//! of grades, with grades that get lost; a C by other weights, letters or numbers; and other services that look at grades.

use super::graded_table;
use super::wrong_libraries::{
    both, flipping, fragments, is_refusal, of_records, refused_by, written, Record, Wrong, FIRST,
};
use crate::answer::{Answer, REMOVED_FRAGMENT};
use crate::brute::weight;
use crate::counts::conflict_counts;
use crate::generate::Cells;
use crate::grades::{
    corrected_by, corrected_calls, grades_of, other_fault, weights_but, wrong_number_of_grades, MOST_GRADE, OTHERS,
};
use crate::library::{Call, Returned};
use crate::record::{grade, graded, record, set_cell, whole_records, Matrix, A, B, HOLE, RECORD};
use crate::rules::{Refusal, MOST_FRAGMENTS};
use crate::service::{Buffer, Service};
use haplotypes::Outcome::{self, Accepted, Refused};

const OVER: u8 = MOST_GRADE + 1;

/// Of grade 0 and without a B: no weight matters, not even 0.
pub fn plain_tables() -> Vec<(Vec<u8>, Cells)> {
    vec![both(&[record(1, 0, &[A, A]), record(2, 0, &[A, A])])]
}

pub fn tables() -> Vec<(Vec<u8>, Cells)> {
    let mut all = vec![(graded_table(), graded_cells())];
    all.extend(over().iter().chain(&beside_other_faults()).map(|records| both(records)));
    all.extend(of_pack_alone().map(|cells| (graded_table(), cells)));
    all.extend([[A, B], [B, A]].map(|letters| both(&balanced(letters))));
    all.push(both(&fewer_calls_among_equals()));
    all
}

pub fn graded_cells() -> Cells {
    fragments(&graded_table())
}

/// Grades over 15, of the second record and of both; and a cell after the span of a record with a grade.
fn over() -> Vec<Vec<Record>> {
    let at = |tag: u32, grade: u8| graded(record(tag, 0, &[A]), grade);
    let mut stray = at(2, MOST_GRADE);
    set_cell(&mut stray, 1, A);
    vec![vec![at(1, 0), at(2, OVER)], vec![at(1, u8::MAX), at(2, OVER)], vec![at(1, 0), stray]]
}

/// Another rule that is broken by the record with a grade over 15, by an earlier one, and by a later one.
fn beside_other_faults() -> Vec<Vec<Record>> {
    let (first, second) = (record(1, 0, &[B, B, B]), |cells: &[u8]| graded(record(2, 0, cells), OVER));
    vec![
        vec![first, graded(record(2, 1, &[]), OVER)],
        vec![first, second(&[A, 3, A])],
        vec![first, second(&[A, HOLE])],
        vec![first, second(&[A, HOLE, A])],
        vec![first, graded(record(1, 0, &[A]), OVER)],
        vec![record(1, 1, &[A]), second(&[A])],
        vec![record(1, 0, &[3]), second(&[A])],
        vec![graded(first, OVER), record(2, 0, &[3])],
    ]
}

/// A fragment over 97 columns with a grade over 15, and one of too many.
fn of_pack_alone() -> [Cells; 2] {
    let far = [&[A][..], &[HOLE; 95], &[A]].concat();
    let mut many = Cells::ungraded(1, vec![A; MOST_FRAGMENTS + 1], (0..=MOST_FRAGMENTS as u32).collect());
    many.grades[0] = OVER;
    [Cells::ungraded(far.len(), far, vec![1]).with_grades(vec![OVER]), many]
}

/// For each grade other ones that weigh as much together.
const COUNTERWEIGHTS: [&[u8]; 16] = [
    &[1],
    &[0],
    &[0, 1],
    &[0, 2],
    &[0, 3],
    &[2, 4],
    &[2, 5],
    &[2, 6],
    &[3, 7],
    &[3, 8],
    &[4, 9],
    &[0, 4, 10],
    &[5, 11],
    &[0, 5, 12],
    &[6, 13],
    &[0, 8, 14],
];

/// For each grade a fragment like AAA, its counterweight like BAA and -BB against them, side by side; or with the letters of the
/// first columns exchanged. On each first column A and B weigh the same.
fn balanced([one, others]: [u8; 2]) -> Vec<Record> {
    let mut records: Vec<Record> = Vec::new();
    for (grade, counterweight) in (0..).zip(COUNTERWEIGHTS) {
        let start = 3 * grade as usize;
        let heads = [(one, grade)].into_iter().chain(counterweight.iter().map(|&grade| (others, grade)));
        let group = heads.map(|(head, grade)| (start, vec![head, A, A], grade));
        for (start, cells, grade) in group.chain([(start + 1, vec![B, B], MOST_GRADE)]) {
            records.push(graded(record(records.len() as u32, start, &cells), grade));
        }
    }
    records
}

/// AAA---, BBAAAA, --BBBB: sides 112 change two calls of weight 1, and sides 121 one of weight 2.
fn fewer_calls_among_equals() -> Vec<Record> {
    let records = [record(1, 0, &[A; 3]), record(2, 0, &[B, B, A, A, A, A]), record(3, 2, &[B; 4])];
    records.into_iter().zip([2, 0, MOST_GRADE]).map(|(record, grade)| graded(record, grade)).collect()
}

pub fn all() -> Vec<Wrong> {
    let testing = || Service::ALL.into_iter().filter(|&service| service != Service::Find);
    let mut all: Vec<Wrong> =
        testing().flat_map(|service| [1, MOST_GRADE].map(|from| refusing(service, from))).collect();
    all.extend(testing().flat_map(|service| TAKEN.map(|taken| taking(service, taken))));
    all.extend(Service::ON_TABLES.into_iter().flat_map(|service| [taking_cells(service), before_frame(service)]));
    all.extend(testing().flat_map(|service| rules_after_5(service).map(move |rule| after_rule(service, rule))));
    all.extend(
        testing().flat_map(|service| [after_all(service), before_all(service), at_0(service), at_last(service)]),
    );
    all.extend(testing().flat_map(|service| rules_of_sizes(service).map(move |rule| before_size(service, rule))));
    all.extend(testing().flat_map(writing));
    all.extend(OTHER_GRADES.into_iter().flat_map(|other| [unpacked(other), packed(other), corrected(other)]));
    all.extend(wrong_corrections());
    all.extend([length_after_2(), fragments_by_weight(), counts_by_weight(), find_below(1), find_below(OVER)]);
    all
}

/// Those that tables of grade 0 show too: grades left as they were, and any number of grades.
pub fn of_any_table() -> Vec<Wrong> {
    let lengths = [Service::Unpack, Service::Pack].into_iter().flat_map(wrong_lengths);
    [grades_left()].into_iter().chain(lengths).collect()
}

/// Grades that get lost on the way there or back, or become those of another record.
pub fn of_round_trip() -> Vec<Wrong> {
    let lost = OTHER_GRADES.into_iter().flat_map(|other| [unpacked(other), packed(other)]);
    [grades_left()].into_iter().chain(lost).collect()
}

/// The place of the first grade from one on.
fn first_from(call: &Call, from: u8) -> Option<usize> {
    grades_of(call).iter().position(|&grade| grade >= from)
}

/// A service that takes no grade from one on, as none but 0 before there were grades.
fn refusing(service: Service, from: u8) -> Wrong {
    of_records(service, move |call, outcome| match outcome {
        Accepted(_) => first_from(call, from).map(|place| Refused(5, place)),
        _ => None,
    })
}

/// Every byte, the lowest over 15, and those that are negative with a sign.
const TAKEN: [fn(u8) -> bool; 3] = [|_| true, |grade| grade == OVER, |grade| grade > i8::MAX as u8];

/// A service that takes some grades over 15. Its count does not matter, as the rules refuse.
fn taking(service: Service, taken: fn(u8) -> bool) -> Wrong {
    of_over(service, move |call, place| {
        taken(grades_of(call)[place]).then(|| other_fault(call).map_or(Accepted(0), refused_by))
    })
}

/// A library that changes a refusal 5 of a record with a grade over 15.
fn of_over(service: Service, change: impl Fn(&Call, usize) -> Option<Outcome> + Sync + 'static) -> Wrong {
    of_records(service, move |call, outcome| match outcome {
        Refused(5, place) if first_from(call, OVER) == Some(place) => change(call, place),
        _ => None,
    })
}

/// Cells after the span that only a record of grade 0 may not have.
fn taking_cells(service: Service) -> Wrong {
    of_records(service, |call, outcome| match outcome {
        Refused(5, place) => matches!(grades_of(call)[place], 1..=MOST_GRADE).then_some(Accepted(0)),
        _ => None,
    })
}

/// The grade before 4 of the record.
fn before_frame(service: Service) -> Wrong {
    of_records(service, |call, outcome| match outcome {
        Refused(4, place) if first_from(call, OVER) == Some(place) => Some(Refused(5, place)),
        _ => None,
    })
}

/// The rules that a record, or a fragment given to pack, can break beside the grade, and that come after it.
fn rules_after_5(service: Service) -> impl Iterator<Item = usize> {
    let rules: &[usize] = match service {
        Service::Pack => &[6, 17, 4, 9, 13],
        Service::Snps | Service::Fragments => &[6, 7, 8, 9, 13],
        _ => &[6, 7, 9, 13],
    };
    rules.iter().copied()
}

/// The grade after another rule of the record.
fn after_rule(service: Service, rule: usize) -> Wrong {
    of_over(service, move |call, place| {
        other_fault(call).filter(|&fault| fault == Refusal { number: rule, place }).map(refused_by)
    })
}

/// The grades after the other rules of all records.
fn after_all(service: Service) -> Wrong {
    of_over(service, |call, _| other_fault(call).map(refused_by))
}

/// The grades before the other rules of all records.
fn before_all(service: Service) -> Wrong {
    of_records(service, |call, outcome| match outcome {
        Refused(_, place) => first_from(call, OVER).filter(|&over| over > place).map(|over| Refused(5, over)),
        _ => None,
    })
}

fn at_0(service: Service) -> Wrong {
    of_over(service, |_, _| Some(Refused(5, 0)))
}

/// The last of several grades over 15.
fn at_last(service: Service) -> Wrong {
    of_over(service, |call, _| grades_of(call).iter().rposition(|&grade| grade >= OVER).map(|over| Refused(5, over)))
}

/// Rules of the call as a whole that such tables break.
fn rules_of_sizes(service: Service) -> impl Iterator<Item = u8> {
    let rules: &[u8] = match service {
        Service::Pack => &[1, 2, 11],
        _ if service.borrows_work() => &[10, 11],
        _ => &[11],
    };
    rules.iter().copied()
}

/// The grades before a rule of the call as a whole.
fn before_size(service: Service, rule: u8) -> Wrong {
    Wrong::outcome(service, move |call, outcome, _| match *outcome {
        Refused(number, _) if number == rule => {
            first_from(call, OVER).into_iter().for_each(|over| *outcome = Refused(5, over))
        }
        _ => {}
    })
}

/// What a service fills or borrows, written before 5 is found.
fn writing(service: Service) -> Vec<Wrong> {
    let stray = |returned: &Returned| matches!(returned, Returned::Outcome(Refused(5, _)));
    written(service).map(|buffer| flipping(service, buffer, FIRST, stray)).collect()
}

/// Too many grades that are taken, too few that are, and another number for both.
fn wrong_lengths(service: Service) -> [Wrong; 3] {
    let number = if service == Service::Pack { 11 } else { 1 };
    [
        of_length(service, |m, grades| (grades > m).then_some(Accepted(m))),
        of_length(service, |m, grades| (grades < m).then_some(Accepted(m))),
        of_length(service, move |_, _| Some(Refused(number, 0))),
    ]
}

/// Pack with the number of grades after 2.
fn length_after_2() -> Wrong {
    of_length(Service::Pack, |m, _| (m > MOST_FRAGMENTS).then_some(Refused(2, 0)))
}

/// A library that changes a refusal for the number of grades alone, given m and that number.
fn of_length(service: Service, change: impl Fn(usize, usize) -> Option<Outcome> + Sync + 'static) -> Wrong {
    Wrong::outcome(service, move |call, outcome, _| {
        if let Refused(1 | 11, _) = outcome {
            let other = wrong_number_of_grades(call).and_then(|(m, grades)| change(m, grades));
            other.into_iter().for_each(|other| *outcome = other);
        }
    })
}

/// Grades in the place of those of a table: none, and for each record that of the next.
type OtherGrades = fn(&mut [u8]);
const OTHER_GRADES: [OtherGrades; 2] = [|grades| grades.fill(0), |grades| grades.rotate_left(1)];

fn grades_left() -> Wrong {
    let wrong = Wrong::new(Service::Unpack, |call, returned, before| {
        if !is_refusal(returned) {
            call.lent.grades = before.grades;
        }
    });
    wrong.in_buffer(Buffer::Grades)
}

fn unpacked(other: OtherGrades) -> Wrong {
    let wrong = Wrong::new(Service::Unpack, move |call, returned, _| {
        if !is_refusal(returned) {
            other(call.lent.grades.lent_mut());
        }
    });
    wrong.in_buffer(Buffer::Grades)
}

fn packed(other: OtherGrades) -> Wrong {
    let wrong = Wrong::new(Service::Pack, move |call, returned, _| {
        if !is_refusal(returned) {
            put_grades(call.lent.table.lent_mut(), other);
        }
    });
    wrong.in_buffer(Buffer::Table)
}

fn corrected(other: OtherGrades) -> Wrong {
    let wrong = Wrong::new(Service::Corrections, move |call, returned, _| {
        if !is_refusal(returned) {
            put_grades(call.lent.corrected.lent_mut(), other);
        }
    });
    wrong.in_buffer(Buffer::Corrected)
}

fn put_grades(table: &mut [u8], other: OtherGrades) {
    let mut grades: Vec<u8> = whole_records(table).map(grade).collect();
    other(&mut grades);
    table.chunks_exact_mut(RECORD).zip(grades).for_each(|(record, grade)| record[7] = grade);
}

/// Each weight off by 1, in what is corrected and in the number; other weights; other letters; a number of calls, or of one byte.
fn wrong_corrections() -> Vec<Wrong> {
    let off = || (0..=MOST_GRADE).flat_map(|one| [-1, 1].map(|more| (one, more)));
    let mut all: Vec<Wrong> = off().map(|(one, more)| weighed(move |grades| weights_but(grades, one, more))).collect();
    all.extend(off().map(|(one, more)| counted(move |grades| weights_but(grades, one, more))));
    all.extend(OTHERS.iter().map(|other| weighed(|grades| other.weights(grades))));
    all.extend(OTHER_LETTERS.map(lettered));
    all.push(counted(|grades| vec![1; grades.len()]));
    all.push(corrections(|_, _, answer| Answer { count: answer.count % 256, ..answer }));
    all
}

/// C with another answer, made of the grades, the matrix and the right one.
fn corrections(other: impl Fn(&[u8], &Matrix, Answer) -> Answer + Sync + 'static) -> Wrong {
    Wrong::outcome(Service::Corrections, move |call, outcome, _| {
        if let Accepted(count) = outcome {
            let matrix = call.matrix();
            let right = corrected_by(&matrix, matrix.weights.clone());
            let answer = other(&grades_of(call), &matrix, right);
            call.lent.answer.put(&answer.bytes());
            *count = answer.count;
        }
    })
}

/// C that corrects by other weights, with the right number.
fn weighed(weights: impl Fn(&[u8]) -> Vec<usize> + Sync + 'static) -> Wrong {
    let wrong = corrections(move |grades, matrix, answer| Answer {
        count: answer.count,
        ..corrected_by(matrix, weights(grades))
    });
    wrong.in_buffer(Buffer::Answer)
}

/// C that corrects what it must, with the number that this has by other weights.
fn counted(weights: impl Fn(&[u8]) -> Vec<usize> + Sync + 'static) -> Wrong {
    corrections(move |grades, matrix, answer| {
        let calls = corrected_calls(matrix, &answer).into_iter().zip(weights(grades));
        Answer { count: calls.map(|(calls, weight)| calls * weight).sum(), ..answer }
    })
}

/// The letter that stays on a side at a column, by the weights of A and B, which both are over 0.
type Letter = fn([usize; 2]) -> u8;

/// The lighter one, and on equal weights B.
const OTHER_LETTERS: [Letter; 2] = [|[a, b]| if a > b { B } else { A }, |[a, b]| if a > b { A } else { B }];

/// C with its sides and its number, and with other letters.
fn lettered(letter: Letter) -> Wrong {
    let wrong = corrections(move |_, matrix, mut answer| {
        for (side, haplotype) in (1..).zip(&mut answer.haplotypes) {
            for (c, code) in haplotype.iter_mut().enumerate() {
                let weights = [A, B].map(|letter| weight(matrix, &answer.sides, side, c, letter));
                if !weights.contains(&0) {
                    *code = letter(weights);
                }
            }
        }
        answer
    });
    wrong.in_buffer(Buffer::Answer)
}

/// F whose number is the weight of what it removes.
fn fragments_by_weight() -> Wrong {
    Wrong::outcome(Service::Fragments, |call, outcome, _| {
        if let Accepted(count) = outcome {
            let matrix = call.matrix();
            let sides = &call.lent.answer.lent()[3 * matrix.n..][..matrix.m()];
            *count = (0..matrix.m()).filter(|&f| sides[f] == REMOVED_FRAGMENT).map(|f| matrix.weights[f]).sum();
        }
    })
}

/// Conflict_counts with the lesser weight of two fragments for each conflict.
fn counts_by_weight() -> Wrong {
    let wrong = Wrong::new(Service::ConflictCounts, |call, returned, _| {
        if !is_refusal(returned) {
            let (matrix, m) = (call.matrix(), call.matrix().m());
            let weight = |at: usize| matrix.weights[at / m].min(matrix.weights[at % m]) as u8;
            let counts = conflict_counts(&matrix).into_iter().enumerate();
            let weighed: Vec<u8> = counts.map(|(at, count)| count.wrapping_mul(weight(at))).collect();
            call.lent.counts.put(&weighed);
        }
    });
    wrong.in_buffer(Buffer::Counts)
}

/// Find with nothing where the record has a grade from one on.
fn find_below(from: u8) -> Wrong {
    Wrong::new(Service::Find, move |call, returned, _| {
        let table = call.lent.table.lent();
        if let Returned::Part(part) = returned {
            let record = &table[part.clone()];
            if !record.is_empty() && grade(record) >= from {
                *part = table.len()..table.len();
            }
        }
    })
}
