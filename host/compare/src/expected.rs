//! What the methods and the rules make of a table.

use crate::answer::Answers;
use crate::listing::{self, MOST_BYTES};
use crate::methods;
use crate::record::{column_count, grade, whole_records, Matrix};
use crate::rules::{table_fault, Refusal};

pub enum Outcome {
    Refused(Refusal),
    Accepted(Box<Accepted>),
}

pub struct Accepted {
    pub matrix: Matrix,
    pub grades: Vec<u8>,
    pub answers: Answers,
    /// the methods that gave the answers
    pub by: Vec<&'static str>,
}

impl Accepted {
    /// Has a fragment a grade over 0?
    pub fn is_graded(&self) -> bool {
        self.grades.iter().any(|&grade| grade > 0)
    }
}

/// The outcome for the bytes that the listing reads of a table. Fails if two methods differ, or if none settles it.
pub fn outcome(table: &[u8]) -> Result<Outcome, String> {
    let input = &table[..table.len().min(MOST_BYTES)];
    let n = column_count(input);
    if let Some(refusal) = table_fault(n, input) {
        return Ok(Outcome::Refused(refusal));
    }
    let matrix = Matrix::read(input, n);
    let (answers, by) = methods::answers(&matrix)?;
    let grades = whole_records(input).map(grade).collect();
    Ok(Outcome::Accepted(Box::new(Accepted { matrix, grades, answers, by })))
}

/// The listing of an outcome.
pub fn text(outcome: &Outcome) -> String {
    match outcome {
        Outcome::Refused(refusal) => listing::refused(*refusal),
        Outcome::Accepted(table) => listing::accepted(&table.matrix, &table.answers),
    }
}

/// The methods behind an outcome.
pub fn methods(outcome: &Outcome) -> String {
    match outcome {
        Outcome::Refused(_) => "the rules of a table".to_string(),
        Outcome::Accepted(table) => table.by.join(", "),
    }
}
