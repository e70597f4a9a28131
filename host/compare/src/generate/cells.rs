//! Random fragments for pack, with holes between calls and without: most keep its rules, the others are out of order, have
//! fragments without calls, grades over 15, or another fault or several.

use super::grades::over;
use super::rows::{letter, letters, place, punch, tagged, trimmed, Fragment, Row};
use super::unordered::disorder;
use crate::record::{Matrix, CELLS, HOLE, RECORD};
use crate::rng::Rng;
use crate::rules::{pack_fault, Given, Refusal, MOST_COLUMNS, MOST_FRAGMENTS};

/// What pack is given: m × n cells, by fragment and then column, m tags and m grades.
#[derive(Clone)]
pub struct Cells {
    pub n: usize,
    pub cells: Vec<u8>,
    pub tags: Vec<u32>,
    pub grades: Vec<u8>,
}

impl Cells {
    /// Fragments of grade 0.
    pub fn ungraded(n: usize, cells: Vec<u8>, tags: Vec<u32>) -> Cells {
        let grades = vec![0; tags.len()];
        Cells { n, cells, tags, grades }
    }

    pub fn given(&self) -> Given<'_> {
        Given { n: self.n, cells: &self.cells, tags: &self.tags, grades: &self.grades }
    }

    pub fn with_cells(&self, cells: Vec<u8>) -> Cells {
        Cells { cells, ..self.clone() }
    }

    pub fn with_grades(&self, grades: Vec<u8>) -> Cells {
        Cells { grades, ..self.clone() }
    }

    pub fn matrix(&self) -> Matrix {
        Matrix::of_cells(self.n, self.tags.len(), &self.cells)
    }

    /// A line for each fragment: its tag, its grade and its cells.
    pub fn shown(&self) -> String {
        let fragments = self.tags.iter().zip(&self.grades).zip(self.matrix().rows);
        fragments.map(|((tag, grade), row)| format!("tag {tag}, grade {grade}, cells {row:?}\n")).collect()
    }
}

/// Changes of one fragment. A row may bear one and still keep the rules.
const ROW_CHANGES: [fn(&mut Rng, &mut [u8]); 4] = [hole, unknown_call, another_call, wide];

pub fn cells(rng: &mut Rng) -> Cells {
    let (m, n) = (size(rng, MOST_FRAGMENTS), columns(rng));
    let rows = rows(rng, m, n);
    let mut fragments = tagged(rng, rows);
    if m > 0 && rng.chance(50) {
        for _ in 0..rng.between(1, 3) {
            let any = rng.below(m);
            change(rng, n, &mut fragments, any);
        }
        fragments.sort();
    }
    if m > 0 && rng.chance(15) {
        without_calls(rng, n, &mut fragments);
    }
    if m > 0 && rng.chance(20) {
        disorder(rng, &mut fragments);
        let first = first_out_of_order(&fragments);
        first.filter(|_| rng.chance(50)).into_iter().for_each(|place| change(rng, n, &mut fragments, place));
    }
    if m > 0 && rng.chance(15) {
        over_graded(rng, n, &mut fragments);
    }
    of_fragments(n, &fragments)
}

fn of_fragments(n: usize, fragments: &[Fragment]) -> Cells {
    let cells = fragments.iter().flat_map(|fragment| widened(fragment, n)).collect();
    let tags = fragments.iter().map(|fragment| fragment.tag).collect();
    Cells { n, cells, tags, grades: fragments.iter().map(|fragment| fragment.grade).collect() }
}

/// Grades over 15 at some places, mostly where another fault is or around it.
fn over_graded(rng: &mut Rng, n: usize, fragments: &mut [Fragment]) {
    let last = fragments.len() - 1;
    let places = match pack_fault(of_fragments(n, fragments).given(), RECORD * fragments.len()) {
        Some(fault) if rng.chance(75) => {
            let Refusal { place, .. } = fault;
            let around = [place, place, place, rng.between(0, place), rng.between(place, last)];
            vec![rng.pick(&around)]
        }
        _ => some_places(rng, fragments.len()),
    };
    places.into_iter().for_each(|place| fragments[place].grade = over(rng));
}

fn first_out_of_order(fragments: &[Fragment]) -> Option<usize> {
    (1..fragments.len()).find(|&place| fragments[place] < fragments[place - 1])
}

/// The cells of a fragment in all columns.
fn widened(fragment: &Fragment, n: usize) -> Vec<u8> {
    let mut row = vec![HOLE; n];
    row[fragment.start..fragment.start + fragment.cells.len()].copy_from_slice(&fragment.cells);
    row
}

/// Mostly small, at times around the most that is lawful.
fn size(rng: &mut Rng, most: usize) -> usize {
    match rng.below(20) {
        0..=1 => rng.pick(&[most - 1, most, most, most + 1]),
        2..=7 => rng.below(most + 1),
        _ => rng.below(10),
    }
}

/// Mostly one at least, as on no columns every fragment is without calls.
fn columns(rng: &mut Rng) -> usize {
    match size(rng, MOST_COLUMNS) {
        0 if rng.chance(65) => 1,
        n => n,
    }
}

/// In some cases all start at column 0: a fragment that loses its calls is then in order wherever it stands.
fn rows(rng: &mut Rng, m: usize, n: usize) -> Vec<Row> {
    let gapped = rng.pick(&[0, 50, 100]);
    let last_start = if rng.chance(20) { 0 } else { n };
    let mut started = || {
        let (start, cells) = row(rng, n, gapped);
        (start.min(last_start), cells)
    };
    (0..m).map(|_| started()).collect()
}

/// A row with one stretch of calls, where there is a column; with holes between the calls in `gapped` of 100 cases.
fn row(rng: &mut Rng, n: usize, gapped: usize) -> Row {
    if n == 0 {
        return (0, Vec::new());
    }
    let longest = rng.pick(&[4, CELLS, CELLS]);
    let (start, span) = place(rng, n, longest);
    let mut cells = letters(rng, span);
    if span > 2 && rng.chance(gapped) {
        punch(rng, &mut cells);
    }
    (start, cells)
}

/// Takes the calls of some fragments. One of these may be changed: it has another fault beside, or calls again. In some cases all
/// are then put in order.
fn without_calls(rng: &mut Rng, n: usize, fragments: &mut [Fragment]) {
    let places = some_places(rng, fragments.len());
    for &place in &places {
        fragments[place] = Fragment { start: 0, cells: Vec::new(), ..fragments[place] };
    }
    if rng.chance(40) {
        let one = rng.pick(&places);
        change(rng, n, fragments, one);
    }
    if rng.chance(40) {
        fragments.sort();
    }
}

/// Mostly one of m places: the first, the last or any. Otherwise all of them, or some.
fn some_places(rng: &mut Rng, m: usize) -> Vec<usize> {
    let any = rng.below(m);
    match rng.below(10) {
        0 => (0..m).collect(),
        1..=2 => (0..m).filter(|&place| place == any || rng.chance(20)).collect(),
        _ => vec![rng.pick(&[0, any, any, m - 1, m - 1])],
    }
}

/// A tag that another fragment has, or another row.
fn change(rng: &mut Rng, n: usize, fragments: &mut [Fragment], place: usize) {
    if rng.chance(20) {
        fragments[place].tag = fragments[rng.below(fragments.len())].tag;
    } else if n > 0 {
        let mut row = widened(&fragments[place], n);
        rng.pick(&ROW_CHANGES)(rng, &mut row);
        let (start, cells) = trimmed(&row);
        fragments[place] = Fragment { start, cells, ..fragments[place] };
    }
}

fn hole(rng: &mut Rng, row: &mut [u8]) {
    row[rng.below(row.len())] = HOLE;
}

fn unknown_call(rng: &mut Rng, row: &mut [u8]) {
    row[rng.below(row.len())] = rng.pick(&[3, 4, 5, 128, 129, 130, 255]);
}

/// A call beside the stretch, near it or over 96 columns away.
fn another_call(rng: &mut Rng, row: &mut [u8]) {
    row[rng.below(row.len())] = letter(rng);
}

/// A stretch of about 96 calls, or of all columns.
fn wide(rng: &mut Rng, row: &mut [u8]) {
    let span = rng.pick(&[CELLS, CELLS + 1, row.len()]).min(row.len());
    let start = rng.between(0, row.len() - span);
    row.fill(HOLE);
    row[start..start + span].copy_from_slice(&letters(rng, span));
}
