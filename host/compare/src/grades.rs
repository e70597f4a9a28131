//! The weights of grades, and what random tables must show of them, so that C by other weights or by none would be noticed.

use crate::answer::Answer;
use crate::library::Call;
use crate::record::{grade, whole_records, Matrix, A, B};
use crate::rules::{fault_of_any_grade, pack_fault_without, Refusal};
use crate::service::{Buffer, Service};
use crate::{brute, exact};

pub const MOST_GRADE: u8 = 15;

/// The weights of grades 0 to 15, as paper 02's T-07 has them.
pub const WEIGHTS: [usize; MOST_GRADE as usize + 1] = [1, 1, 2, 3, 4, 6, 8, 10, 13, 16, 20, 25, 31, 38, 46, 60];

/// What a correction costs in a fragment of this grade. A higher one is refused, and has no weight.
pub fn weight(grade: u8) -> usize {
    WEIGHTS.get(grade as usize).copied().unwrap_or(0)
}

/// No total is larger: half of 8 calls of the highest grade in each of 128 columns.
pub const LARGEST_TOTAL: usize = 30_720;

/// The weights of some grades where one grade weighs more, or less.
pub fn weights_but(grades: &[u8], one: u8, more: isize) -> Vec<usize> {
    let weight = |&grade: &u8| weight(grade).saturating_add_signed(if grade == one { more } else { 0 });
    grades.iter().map(weight).collect()
}

/// Weights that are not those of the grades, though some library could take them for that.
pub struct Other {
    pub name: &'static str,
    /// of a fragment, given all grades and its position
    weight: fn(&[u8], usize) -> usize,
}

impl Other {
    pub fn weights(&self, grades: &[u8]) -> Vec<usize> {
        (0..grades.len()).map(|f| (self.weight)(grades, f)).collect()
    }
}

pub static OTHERS: [Other; 7] = [
    other("1 for each grade", |_, _| 1),
    other("0 for grade 0", |grades, f| if grades[f] == 0 { 0 } else { weight(grades[f]) }),
    other("the grade", |grades, f| grades[f] as usize),
    other("the grade and 1", |grades, f| grades[f] as usize + 1),
    other("the fewest calls among equals", |grades, f| 1000 * weight(grades[f]) + 1),
    other("of the record before", |grades, f| weight(grades[f.saturating_sub(1)])),
    other("from the last record on", |grades, f| weight(grades[grades.len() - 1 - f])),
];

const fn other(name: &'static str, weight: fn(&[u8], usize) -> usize) -> Other {
    Other { name, weight }
}

/// C's answer by other weights.
pub fn corrected_by(matrix: &Matrix, weights: Vec<usize>) -> Answer {
    let other = Matrix { weights, ..matrix.clone() };
    brute::with_sides(&other, exact::sides_by_open_fragments(&other))
}

/// Does C correct something else by other weights than in its answer?
pub fn corrected_otherwise(matrix: &Matrix, weights: Vec<usize>, answer: &Answer) -> bool {
    let other = corrected_by(matrix, weights);
    (&other.sides, &other.haplotypes) != (&answer.sides, &answer.haplotypes)
}

/// The fewest calls to correct, whatever they weigh.
pub fn fewest_corrections(matrix: &Matrix) -> Answer {
    corrected_by(matrix, vec![1; matrix.m()])
}

/// The number of calls that C's answer corrects in each fragment.
pub fn corrected_calls(matrix: &Matrix, answer: &Answer) -> Vec<usize> {
    let corrected = brute::corrected(matrix, &answer.sides);
    (0..matrix.m()).map(|f| brute::differences(&matrix.rows[f], &corrected.rows[f])).collect()
}

/// The grades of the fragments of each side that call A in a column and of those that call B, lowest first, where both weigh the
/// same and there are some.
pub fn ties(matrix: &Matrix, grades: &[u8], sides: &[u8]) -> Vec<[Vec<u8>; 2]> {
    let columns = (0..matrix.n).flat_map(|c| [(c, 1), (c, 2)]);
    let grades_of = |(c, side): (usize, u8)| {
        [A, B].map(|letter| {
            let having = (0..matrix.m()).filter(|&f| sides[f] == side && matrix.rows[f][c] == letter);
            let mut grades: Vec<u8> = having.map(|f| grades[f]).collect();
            grades.sort();
            grades
        })
    };
    let weighs = |grades: &[u8]| grades.iter().map(|&grade| weight(grade)).sum::<usize>();
    columns.map(grades_of).filter(|[a, b]| !a.is_empty() && weighs(a) == weighs(b)).collect()
}

/// The first fault of a call's records or fragments, if any byte were a grade.
pub fn other_fault(call: &Call) -> Option<Refusal> {
    match call.service {
        Service::Pack => pack_fault_without(5, call.given()),
        service => fault_of_any_grade(service, call.number, call.lent.table.lent()),
    }
}

/// The grades of a call's records, or of pack's fragments.
pub fn grades_of(call: &Call) -> Vec<u8> {
    match call.service {
        Service::Pack => call.lent.grades.lent().to_vec(),
        _ => whole_records(call.lent.table.lent()).map(grade).collect(),
    }
}

/// m, and the number of grades of a call of unpack or pack, where this is wrong and no other number of what goes with a table.
pub fn wrong_number_of_grades(call: &Call) -> Option<(usize, usize)> {
    let m = match call.service {
        Service::Pack => call.lent.length(Buffer::Tags),
        Service::Unpack => whole_records(call.lent.table.lent()).count(),
        _ => return None,
    };
    let is_right = |buffer: &Buffer| call.lent.length(*buffer) == buffer.length(call.number, m);
    let others_right = [Buffer::Table, Buffer::Cells, Buffer::Tags].iter().all(is_right);
    (others_right && !is_right(&Buffer::Grades)).then(|| (m, call.lent.length(Buffer::Grades)))
}
