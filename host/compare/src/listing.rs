//! The listing's text, and tables and bytes as a reader sees them.

use crate::answer::{Answer, Answers};
use crate::record::{Matrix, A, B, HOLE};
use crate::rules::Refusal;

/// The listing program reads no byte beyond these.
pub const MOST_BYTES: usize = 4128;

/// The one line of a table that is refused as a whole.
pub fn refused(refusal: Refusal) -> String {
    refusal_fields(&refusal) + "\n"
}

pub fn accepted(matrix: &Matrix, answers: &Answers) -> String {
    let verdict = if answers.check.is_some() { "yes" } else { "no" };
    let least = |answer: &Result<Answer, Refusal>| answer.as_ref().map_or_else(refusal_fields, answer_fields);
    format!(
        "fragments {} snps {}\nerror-free {}\nS {}\nF {}\nC {}\n",
        matrix.m(),
        matrix.n,
        verdict,
        least(&answers.snps),
        least(&answers.fragments),
        least(&answers.corrections)
    )
}

fn refusal_fields(refusal: &Refusal) -> String {
    format!("refused {} at {}", refusal.number, refusal.place)
}

fn answer_fields(answer: &Answer) -> String {
    let marks: String = answer.keep.iter().map(|&kept| if kept { '1' } else { '0' }).collect();
    let sides: String = answer.sides.iter().map(|side| side.to_string()).collect();
    let block = |block: &Option<usize>| block.map_or("-".to_string(), |lowest| lowest.to_string());
    let blocks = answer.blocks.iter().map(block).collect::<Vec<_>>().join(",");
    let texts = [marks, letters(&answer.haplotypes[0]), letters(&answer.haplotypes[1]), sides, blocks];
    let shown = texts.map(|text| if text.is_empty() { ".".to_string() } else { text });
    format!("{} {}", answer.count, shown.join(" "))
}

fn letters(codes: &[u8]) -> String {
    codes.iter().map(|&code| letter(code)).collect()
}

fn letter(code: u8) -> char {
    match code {
        HOLE => '-',
        A => 'A',
        B => 'B',
        _ => '#',
    }
}

/// A matrix as letters, a line for each fragment.
pub fn rows(matrix: &Matrix) -> String {
    matrix.rows.iter().map(|row| letters(row) + "\n").collect()
}

/// Bytes in hexadecimal, a line for each record.
pub fn hexadecimal(table: &[u8]) -> String {
    let line = |record: &[u8]| record.iter().map(|byte| format!("{byte:02x}")).collect::<String>() + "\n";
    table.chunks(crate::record::RECORD).map(line).collect()
}
