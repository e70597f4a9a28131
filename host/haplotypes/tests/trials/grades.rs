//! Grades, which byte 7 carries: 0 to 15, and else refused by 5. Unpack and pack restore them, C's table keeps them, and
//! no service but C looks at them further. `weights` tries what C makes of them, `order` rule 5 among the others, `sizes`
//! the lengths, and `records` the bytes of more kinds of records.

use crate::answers;
use crate::calls::Service::{Pack, Unpack, C};
use crate::calls::{Trials, SERVICES};
use crate::expected::{Each, Expected};
use crate::fixtures::{lone, padded, Fixture};
use crate::mates;

/// Three fragments that call A, but the one at the place has these letters and the grade.
fn three(letters: &str, place: usize, grade: u8) -> Fixture {
    let mut fragments = ["A"; 3];
    fragments[place] = letters;
    let mut grades = [3, 9, 6];
    grades[place] = grade;
    Fixture::of(&fragments).graded(&grades)
}

/// Up to grade 15 every service takes the table, but for pack where a fragment has no call. Over it each refuses the
/// record, or fragment, at the place.
fn run_grade(trials: &mut Trials, letters: &str, place: usize, grade: u8) {
    let given = three(letters, place, grade);
    let name = format!("grade {grade} of {letters} at {place}");
    if grade <= 15 {
        trials.run_each(&name, &given, &Each::of_as_alone(&given));
    } else {
        for service in SERVICES {
            trials.run(&name, service, &given, &Expected::refused(5, place));
        }
    }
}

#[test]
fn every_value_of_byte_7() {
    let mut trials = Trials::default();
    for value in 0..=255 {
        run_grade(&mut trials, "A", usize::from(value) % 3, value);
    }
    for place in 0..3 {
        for value in [0, 1, 14, 15, 16, 17, 31, 32, 127, 128, 240, 255] {
            run_grade(&mut trials, "A", place, value);
            run_grade(&mut trials, "-", place, value);
        }
    }
}

/// 128 fragments, each on a column of its own.
fn diagonal(grades: &[u8]) -> Fixture {
    let fragments: Vec<String> = (0..grades.len()).map(|i| lone('A', i, 128)).collect();
    Fixture::of(&fragments).graded(grades)
}

#[test]
fn each_place() {
    let mut trials = Trials::default();
    let alone = (0..128).map(|place| (place, place));
    let with_later = [0, 1, 63, 64, 126].map(|place| (place, 127));
    for (place, last) in alone.chain(with_later) {
        let mut grades = [15; 128];
        grades[place..=last].fill(16);
        let given = diagonal(&grades);
        for service in SERVICES {
            trials.run(&format!("grades {place} to {last}"), service, &given, &Expected::refused(5, place));
        }
    }
}

#[test]
fn every_two_grades_both_ways() {
    let mut trials = Trials::default();
    for (first, second) in (0..16).flat_map(|first| (0..16).map(move |second| (first, second))) {
        let given = Fixture::of(&["AB", "-A"]).graded(&[first, second]);
        let name = format!("grades {first} and {second}");
        trials.run(&name, Unpack, &given, &Expected::unpacked(&given));
        trials.run(&name, Pack, &given, &Expected::packed(&given));
    }
}

/// Each grade at every place of 128.
#[test]
fn full_tables_both_ways() {
    let mut trials = Trials::default();
    for first in 0..16 {
        let grades: Vec<u8> = (0..128).map(|i| (first + i % 16) % 16).collect();
        let given = diagonal(&grades);
        trials.run(&format!("from grade {first} on"), Unpack, &given, &Expected::unpacked(&given));
        trials.run(&format!("from grade {first} on"), Pack, &given, &Expected::packed(&given));
    }
}

/// Grades by the places of fragments.
const GRADES: [fn(usize) -> u8; 4] =
    [|_| 15, |i| [0, 15][i % 2], |i| [15, 0][i % 2], |i| [3, 8, 13, 2, 7, 12, 1][i % 7]];

fn graded(fragments: &[&str], grade: fn(usize) -> u8) -> Fixture {
    Fixture::of(fragments).graded(&(0..fragments.len()).map(grade).collect::<Vec<u8>>())
}

/// There is nothing to correct in an error-free table: C's table is the one that was given, with its grades.
#[test]
fn error_free_tables() {
    let mut trials = Trials::default();
    for (k, grade) in GRADES.into_iter().enumerate() {
        for (name, fragments, conflict_counts, fields) in answers::ERROR_FREE {
            let given = graded(fragments, grade);
            let each = Each::of_error_free(&given, Expected::counted(conflict_counts), fields);
            trials.run_each(&format!("{name}, grades {k}"), &given, &each);
        }
        for (name, fragments, place, conflict_counts, fields) in mates::ERROR_FREE {
            let given = graded(fragments, grade);
            let each = Each::of_error_free(&given, Expected::counted(conflict_counts), fields).gapped(place);
            trials.run_each(&format!("{name}, grades {k}"), &given, &each);
        }
    }
}

/// Of every service but C, whose answer depends on the grades.
fn run_all_but_c(trials: &mut Trials, name: &str, given: &Fixture, each: &Each) {
    for service in SERVICES.into_iter().filter(|&service| service != C) {
        trials.run(name, service, given, each.of(service));
    }
}

#[test]
fn services_that_do_not_look_at_grades() {
    let mut trials = Trials::default();
    for (k, grade) in GRADES.into_iter().enumerate() {
        for row in &answers::ERRORS {
            let given = graded(row.fragments, grade);
            let each = row.each(&given, Expected::listed(row.c));
            run_all_but_c(&mut trials, &format!("{}, grades {k}", row.name), &given, &each);
        }
        for row in &mates::ERRORS {
            let given = graded(row.fragments, grade);
            let each = row.each(&given, Expected::listed(row.c));
            run_all_but_c(&mut trials, &format!("{}, grades {k}", row.name), &given, &each);
        }
    }
}

/// Find takes any byte 7, and looks for no tag there.
#[test]
fn find_takes_any_byte_7() {
    let mut trials = Trials::default();
    for value in 0..=255 {
        let table = Fixture::tagged(&["A", "B", "A"], &[300, 301, 302]).graded(&[value, 255 - value, value]).table;
        for (i, tag) in [300, 301, 302].into_iter().enumerate() {
            trials.find(&format!("tag {tag}, byte 7 of {value}"), tag, &table, Some(i));
        }
        trials.find(&format!("no tag {value}"), u32::from(value), &table, None);
    }
}

/// Rule 12 is by fragments, and not by their weights.
#[test]
fn grades_and_depths() {
    let mut trials = Trials::default();
    for grade in [0, 1, 15] {
        let (shallow, deep) = (Fixture::of(&["AA"; 8]), Fixture::of(&["AA"; 9]));
        let (shallow, deep) = (shallow.graded(&[grade; 8]), deep.graded(&[grade; 9]));
        trials.run_each(&format!("depth 8, grade {grade}"), &shallow, &Each::of_as_alone(&shallow));
        trials.run_each(&format!("depth 9, grade {grade}"), &deep, &Each::of_as_alone(&deep).too_deep(0));
    }
}

/// Pack refuses a fragment without calls, whatever its grade; the others take its record.
#[test]
fn grades_without_calls() {
    let mut trials = Trials::default();
    for n in [0, 1, 128] {
        for m in [1, 128] {
            let given = Fixture::of(&vec![padded("", n); m]);
            let grades: Vec<u8> = (0..m).map(|i| (15 - i % 16) as u8).collect();
            let given = given.graded(&grades);
            trials.run_each(&format!("{m} fragments, {n} columns"), &given, &Each::of_as_alone(&given));
        }
    }
}
