//! What a call that went as expected shows of grades.

use crate::grades::{grades_of, other_fault, wrong_number_of_grades, MOST_GRADE};
use crate::library::Call;
use crate::seen::{Counts, Seen};
use haplotypes::Outcome;

pub fn count(call: &Call, outcome: Outcome, counts: &mut Counts) {
    let service = call.service;
    match outcome {
        Outcome::Accepted(_) => {
            let highest = grades_of(call).into_iter().max().unwrap_or(0);
            counts.add(Seen::GradeTaken(service), (highest > 0) as usize);
            counts.add(Seen::HighestTaken(service), (highest == MOST_GRADE) as usize);
        }
        Outcome::Refused(number @ (4..=9 | 13 | 17), place) => count_refused(call, number as usize, place, counts),
        Outcome::Refused(1 | 11, _) => count_length(call, counts),
        Outcome::Refused(..) => {}
    }
}

/// Of a refusal by a rule of a record or of pack's fragments.
fn count_refused(call: &Call, number: usize, place: usize, counts: &mut Counts) {
    let (service, grades) = (call.service, grades_of(call));
    match grades.iter().position(|&grade| grade > MOST_GRADE) {
        Some(first) if first == place => {
            counts.add(Seen::LowestRefused(service), (grades[place] == MOST_GRADE + 1) as usize);
            let seen = match other_fault(call) {
                None => Seen::OverAlone(service),
                Some(fault) if fault.place == place => Seen::OverBeside(service, fault.number),
                Some(fault) => Seen::OverBeforeLater(service, fault.number),
            };
            counts.add(seen, 1);
        }
        Some(_) => counts.add(Seen::BeforeOver(service, number), 1),
        None => counts.add(Seen::StrayCellGraded(service), (number == 5 && grades[place] > 0) as usize),
    }
}

/// Of a refusal of lengths, where that of the grades alone is wrong.
fn count_length(call: &Call, counts: &mut Counts) {
    if let Some((m, grades)) = wrong_number_of_grades(call) {
        counts.add(if grades > m { Seen::GradesLong(call.service) } else { Seen::GradesShort(call.service) }, 1);
    }
}
