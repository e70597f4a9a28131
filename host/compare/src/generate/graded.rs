//! Tables whose grades settle what C corrects.

use super::grades::{any, counterweight, grades};
use super::rows::{graded_as, letter, letters, other, records, trimmed, Row};
use crate::grades::MOST_GRADE;
use crate::record::HOLE;
use crate::rng::Rng;
use crate::rules::{MOST_COLUMNS, MOST_DEPTH};

/// One group of fragments, or two side by side. Some columns hold a group together, and on another one fragment of it is against
/// all others, which weigh as much or nearly: the weights settle which letter changes.
pub fn held_together(rng: &mut Rng) -> Vec<u8> {
    let mut rows = Vec::new();
    for _ in 0..rng.between(1, 2) {
        let start = rows.iter().map(|((start, cells), _): &(Row, u8)| start + cells.len()).max().unwrap_or(0);
        let group = group(rng);
        rows.extend(group.into_iter().map(|((first, cells), grade)| ((start + first, cells), grade)));
    }
    records(&graded_as(rng, rows))
}

/// The last fragment is on the other side, against all that holds the group together.
fn group(rng: &mut Rng) -> Vec<(Row, u8)> {
    let held = rng.between(1, 3);
    let (holding, code) = (letters(rng, held), letter(rng));
    let any_place = rng.between(0, held);
    let place = rng.pick(&[0, held, any_place]);
    let row = |holding: &[u8], code: u8| trimmed(&[&holding[..place], &[code], &holding[place..]].concat());
    let one = any(rng);
    let mut others = counterweight(rng, one);
    others.truncate(4); // for every choice
    let against: Vec<u8> = holding.iter().map(|&code| other(code)).collect();
    let against = (row(&against, HOLE), rng.pick(&[MOST_GRADE, MOST_GRADE, one]));
    let same = others.into_iter().map(|grade| (row(&holding, other(code)), grade));
    [(row(&holding, code), one)].into_iter().chain(same).chain([against]).collect()
}

/// 8 fragments over each column with letters at random, mostly of the highest grade: totals are about as large as they can be.
pub fn full(rng: &mut Rng) -> Vec<u8> {
    let width = rng.pick(&[32, 64]);
    let starts = (0..MOST_COLUMNS).step_by(width).flat_map(|start| [start; MOST_DEPTH]);
    let rows: Vec<Row> = starts.map(|start| (start, letters(rng, width))).collect();
    let grades = if rng.chance(75) { vec![MOST_GRADE; rows.len()] } else { grades(rng, rows.len()) };
    records(&graded_as(rng, rows.into_iter().zip(grades).collect()))
}
