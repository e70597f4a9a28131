//! Grades of fragments.

use crate::grades::{weight, MOST_GRADE};
use crate::rng::Rng;

/// Lawful grades of fragments, in over a third of cases 0 throughout. Grades 0 and 1 weigh the same, and two of them as much as
/// grade 2.
pub fn grades(rng: &mut Rng, count: usize) -> Vec<u8> {
    let one = any(rng);
    match rng.below(16) {
        0..=5 => vec![0; count],
        6 => vec![MOST_GRADE; count],
        7 => vec![one; count],
        8 => of(rng, &[0, 1], count),
        9 => of(rng, &[0, 1, 2], count),
        10 => of(rng, &[0, MOST_GRADE], count),
        11..=13 => balanced(rng, count),
        _ => (0..count).map(|_| any(rng)).collect(),
    }
}

pub fn any(rng: &mut Rng) -> u8 {
    rng.below(MOST_GRADE as usize + 1) as u8
}

/// What no grade is, often the lowest such byte, or one with the low bits of a grade.
pub fn over(rng: &mut Rng) -> u8 {
    match rng.below(4) {
        0 => MOST_GRADE + 1,
        1 => any(rng) | 1 << rng.between(4, 7),
        2 => u8::MAX,
        _ => rng.between(MOST_GRADE as usize + 1, u8::MAX as usize) as u8,
    }
}

fn of(rng: &mut Rng, grades: &[u8], count: usize) -> Vec<u8> {
    (0..count).map(|_| rng.pick(grades)).collect()
}

/// Grades and others that weigh as much together, or nearly, in any order.
fn balanced(rng: &mut Rng, count: usize) -> Vec<u8> {
    let mut grades = Vec::new();
    while grades.len() < count {
        let one = any(rng);
        grades.push(one);
        grades.extend(counterweight(rng, one));
    }
    grades.truncate(count);
    rng.shuffle(&mut grades);
    grades
}

/// Other grades that weigh as much as one, or 1 less or more: mostly few.
pub fn counterweight(rng: &mut Rng, one: u8) -> Vec<u8> {
    let mut left = weight(one) + 1 - rng.pick(&[0, 1, 1, 2]);
    let mut grades = Vec::new();
    while left > 0 {
        let fitting: Vec<u8> = (0..=MOST_GRADE).filter(|&grade| grade != one && weight(grade) <= left).collect();
        let heaviest = fitting[fitting.len() - 1];
        let grade = if rng.chance(70) { heaviest } else { rng.pick(&fitting) };
        grades.push(grade);
        left -= weight(grade);
    }
    grades
}
