//! The trials of paper 02's T-07, for every method.

use super::{fragment_record, refusal};
use crate::answer::{Answer, Answers};
use crate::coverage::demands;
use crate::grades::{
    corrected_by, corrected_calls, corrected_otherwise, fewest_corrections, ties, weights_but, MOST_GRADE, OTHERS,
};
use crate::record::{column_count, grade, graded, packed, record, set_cell, whole_records, Matrix, A, B, HOLE, RECORD};
use crate::rng::Rng;
use crate::rules::{call_fault, fault_of_any_grade, pack_fault, table_fault, too_deep, Given, Refusal};
use crate::seen::Seen;
use crate::self_test::{graded_table, plain_table, GRADED_LISTING, PLAIN_LISTING};
use crate::service::Buffer::{Cells, Grades, Tags};
use crate::service::Service::{self, Check, Snps, Unpack};
use crate::{brute, exact, expected, generate, methods};

/// A table of fragments as the paper writes them, each with its grade.
fn table(fragments: &[(&str, u8)]) -> Vec<u8> {
    let records = (0..).zip(fragments).map(|(tag, &(fragment, grade))| graded(fragment_record(tag, fragment), grade));
    records.flatten().collect()
}

fn answers(bytes: &[u8]) -> (Matrix, Answers) {
    let n = column_count(bytes);
    assert_eq!(table_fault(n, bytes), None);
    let matrix = Matrix::read(bytes, n);
    let (answers, _) = methods::answers(&matrix).expect("the methods agree");
    (matrix, answers)
}

/// C's answer, and the letters that it leaves, a word for each fragment.
fn corrected(fragments: &[(&str, u8)]) -> (usize, Vec<u8>, String) {
    let (matrix, answers) = answers(&table(fragments));
    let Answer { count, sides, .. } = answers.corrections.expect("shallow");
    let letter = |code: &u8| ['-', 'A', 'B'][*code as usize];
    let rows = brute::corrected(&matrix, &sides).rows;
    let words: Vec<String> = rows.iter().map(|row| row.iter().map(letter).collect()).collect();
    (count, sides, words.join(" "))
}

#[test]
fn the_graded_table() {
    let fragments = |grades: [u8; 4]| ["AAA", "BAA", "BAA", "-BB"].into_iter().zip(grades).collect::<Vec<_>>();
    let text = |bytes: &[u8]| expected::text(&expected::outcome(bytes).expect("settled"));
    assert_eq!(corrected(&fragments([15, 0, 0, 15])), (2, vec![1, 1, 1, 2], "AAA AAA AAA -BB".to_string()));
    assert_eq!(corrected(&fragments([0; 4])), (1, vec![1, 1, 1, 2], "BAA BAA BAA -BB".to_string()));
    assert_eq!(text(&graded_table()), GRADED_LISTING);
    assert_eq!(text(&plain_table()), PLAIN_LISTING);
    assert_eq!(graded_table()[..9], [1, 0, 0, 0, 0, 0, 3, 15, 0x15]);
}

/// The second fragment conflicts with either of two heavy ones, so one of its calls changes, or as much weight.
#[test]
fn the_weight_of_each_grade() {
    let total = |grade: u8| corrected(&[("AA", 15), ("BA", grade), ("-B", 15)]).0;
    let totals: Vec<usize> = (0..=15).map(total).collect();
    assert_eq!(totals, [1, 1, 2, 3, 4, 6, 8, 10, 13, 16, 20, 25, 31, 38, 46, 60]);
}

#[test]
fn equal_weights_turn_b_to_a() {
    let sides = |m: usize| [vec![1; m], vec![2]].concat();
    let found = |group: &[(&'static str, u8)]| corrected(&[group, &[("-BB", 15)]].concat());
    let expected = |total: usize, m: usize| (total, sides(m), "AAA ".repeat(m) + "-BB");
    assert_eq!(found(&[("AAA", 0), ("BAA", 1)]), expected(1, 2));
    assert_eq!(found(&[("BAA", 0), ("AAA", 1)]), expected(1, 2));
    assert_eq!(found(&[("AAA", 2), ("BAA", 0), ("BAA", 1)]), expected(2, 3));
    assert_eq!(found(&[("BAA", 2), ("AAA", 0), ("AAA", 1)]), expected(2, 3));
    assert_eq!(found(&[("BAA", 15), ("AAA", 14), ("AAA", 8), ("AAA", 0)]), expected(60, 4));
    // the lighter letter, by 1
    assert_eq!(found(&[("BAA", 3), ("AAA", 0), ("AAA", 1)]).0, 2);
    assert_eq!(found(&[("BAA", 3), ("AAA", 0), ("AAA", 1)]).2, "BAA BAA BAA -BB");
    assert_eq!(found(&[("BAA", 15), ("AAA", 14), ("AAA", 8)]).2, "BAA BAA BAA -BB");
}

/// Sides 112 change two calls of weight 1, sides 121 one of weight 2: the first side list counts, not the fewest calls.
#[test]
fn the_first_side_list_of_equal_totals() {
    let fragments = [("AAA---", 2), ("BBAAAA", 0), ("--BBBB", 15)];
    assert_eq!(corrected(&fragments), (2, vec![1, 1, 2], "AAA--- AAAAAA --BBBB".to_string()));
}

fn random_tables(kind: &str, count: usize) -> impl Iterator<Item = Vec<u8>> {
    let kind = generate::kinds().into_iter().find(|known| known.name == kind).expect("a kind");
    (0..count).map(move |index| kind.table(&mut Rng::for_table(1, index)))
}

/// C's definition has no sides: of all sets of calls whose correction makes the table error-free, none weighs less.
#[test]
fn every_set_of_calls() {
    let mut corrected = 0;
    for kind in ["uniform", "noisy copies", "mates, uniform", "held together"] {
        for bytes in random_tables(kind, 200) {
            let matrix = Matrix::read(&bytes, column_count(&bytes));
            let cells = (0..matrix.m()).flat_map(|f| (0..matrix.n).map(move |c| (f, c)));
            let calls: Vec<(usize, usize)> = cells.filter(|&(f, c)| matrix.rows[f][c] != HOLE).collect();
            if calls.len() > 10 || too_deep(&matrix).is_some() {
                continue;
            }
            let least = (0..1 << calls.len()).filter_map(|set| total_of_set(&matrix, &calls, set)).min();
            let found = answers(&bytes).1.corrections.expect("shallow").count;
            assert_eq!(Some(found), least);
            corrected += (found > 0 && bytes.chunks(RECORD).any(|record| grade(record) > 1)) as usize;
        }
    }
    assert!(corrected > 20, "{corrected} graded tables with corrections");
}

/// The weights of a set of calls, given by its bits, if its correction makes the table error-free.
fn total_of_set(matrix: &Matrix, calls: &[(usize, usize)], set: usize) -> Option<usize> {
    let mut changed = matrix.clone();
    let mut total = 0;
    for (_, &(f, c)) in calls.iter().enumerate().filter(|(at, _)| set >> at & 1 == 1) {
        changed.rows[f][c] = A + B - changed.rows[f][c];
        total += matrix.weights[f];
    }
    exact::check(&changed).map(|_| total)
}

/// With one grade throughout C corrects what it does with grade 0, at as many times its weight. Full tables of grade 15 have the
/// largest totals.
#[test]
fn one_grade_throughout() {
    for (kind, count) in [("noisy copies", 50), ("mates, uniform", 50), ("full, graded", 10)] {
        for mut bytes in random_tables(kind, count) {
            let mut of_grade = |grade: u8| {
                bytes.chunks_exact_mut(RECORD).for_each(|record| record[7] = grade);
                answers(&bytes).1.corrections
            };
            let (plain, light, heavy) = (of_grade(0), of_grade(1), of_grade(15));
            assert_eq!(light, plain);
            assert_eq!(heavy, plain.map(|answer| Answer { count: 60 * answer.count, ..answer }));
        }
    }
}

/// S, F and check do not look at grades.
#[test]
fn answers_without_grades() {
    for kind in ["uniform", "noisy copies", "held together", "mates, cycles"] {
        for bytes in random_tables(kind, 50) {
            let plain: Vec<u8> = whole_records(&bytes).flat_map(|r| [&r[..7], &[0], &r[8..]].concat()).collect();
            let (graded, plain) = (answers(&bytes).1, answers(&plain).1);
            assert_eq!(graded.check, plain.check);
            assert_eq!(graded.snps, plain.snps);
            assert_eq!(graded.fragments, plain.fragments);
        }
    }
}

/// The one outcome of all services that test the records of a table.
fn fault(n: usize, records: &[[u8; RECORD]]) -> Option<Refusal> {
    let bytes = records.concat();
    let faults = Service::ON_TABLES.map(|service| call_fault(service, n, &bytes, &[]));
    assert_eq!(faults, [faults[0]; 6]);
    faults[0]
}

#[test]
fn grades_of_records() {
    let at = |tag: u32, grade: u8| graded(record(tag, 0, &[A]), grade);
    let taken = (0..=255).filter(|&grade| fault(1, &[at(1, grade)]).is_none());
    assert_eq!(taken.collect::<Vec<_>>(), (0..=15).collect::<Vec<_>>());
    assert_eq!(fault(1, &[at(1, 15), at(2, 0), at(3, 16)]), refusal(5, 2));
    assert_eq!(fault(1, &[at(1, 15), at(2, 16), at(3, 255)]), refusal(5, 1));
    assert_eq!(fault(0, &[graded(record(1, 0, &[]), 15)]), None);
    assert_eq!(fault(0, &[graded(record(1, 0, &[]), 16)]), refusal(5, 0));
    for grade in [0, 1, 15, 16] {
        let mut stray = at(1, grade);
        set_cell(&mut stray, 95, B);
        assert_eq!(fault(1, &[stray]), refusal(5, 0));
    }
}

/// A grade over 15 comes between 4 and 6 of its record.
#[test]
fn grades_among_other_faults() {
    let (first, over) = (record(1, 0, &[B; 3]), |record: [u8; RECORD]| graded(record, 16));
    assert_eq!(fault(3, &[first, over(record(2, 1, &[]))]), refusal(4, 1));
    assert_eq!(fault(3, &[first, over(record(2, 2, &[A, A]))]), refusal(4, 1));
    assert_eq!(fault(3, &[first, over(record(2, 0, &[A, 3, A]))]), refusal(5, 1));
    assert_eq!(fault(3, &[first, over(record(2, 0, &[A, HOLE]))]), refusal(5, 1));
    assert_eq!(fault(3, &[first, over(record(2, 0, &[A, HOLE, A]))]), refusal(5, 1));
    assert_eq!(fault(3, &[first, over(record(1, 0, &[A]))]), refusal(5, 1));
    assert_eq!(fault(3, &[record(1, 1, &[A]), over(record(2, 0, &[A]))]), refusal(5, 1));
    assert_eq!(fault(3, &[record(1, 0, &[3]), over(record(2, 0, &[A]))]), refusal(6, 0));
    assert_eq!(fault(3, &[over(first), record(2, 0, &[3])]), refusal(5, 0));
    let any_grade =
        |records: &[[u8; RECORD]]| [Check, Snps].map(|service| fault_of_any_grade(service, 3, &records.concat()));
    assert_eq!(any_grade(&[over(first), record(2, 0, &[3])]), [refusal(6, 1); 2]);
    assert_eq!(any_grade(&[over(first), over(record(2, 0, &[A, HOLE, A]))]), [None, refusal(8, 1)]);
}

/// The lengths of what unpack fills are tested together, before the records.
#[test]
fn length_of_unpacked_grades() {
    let bytes = table(&[("AB", 16), ("AA", 0)]);
    let fault = |n: usize, lengths: [usize; 3]| {
        let lent: Vec<_> = [Cells, Tags, Grades].into_iter().zip(lengths).collect();
        call_fault(Unpack, n, &bytes, &lent)
    };
    assert_eq!(fault(2, [4, 2, 2]), refusal(5, 0));
    assert_eq!([0, 1, 3, 64].map(|grades| fault(2, [4, 2, grades])), [refusal(11, 0); 4]);
    assert_eq!(fault(2, [3, 2, 2]), refusal(11, 0));
    assert_eq!(fault(129, [4, 2, 1]), refusal(3, 0));
}

#[test]
fn grades_given_to_pack() {
    let fault = |rows: &[&[u8]], tags: &[u32], grades: &[u8], table: usize| {
        let (n, cells) = (rows[0].len(), rows.concat());
        pack_fault(Given { n, cells: &cells, tags, grades }, table)
    };
    let of_two = |rows: [&[u8]; 2], tags: [u32; 2], grades: [u8; 2]| fault(&rows, &tags, &grades, 64);
    let called: &[u8] = &[A, B];
    assert_eq!(of_two([called; 2], [1, 2], [15, 0]), None);
    assert_eq!(of_two([called; 2], [1, 2], [15, 16]), refusal(5, 1));
    assert_eq!(of_two([called; 2], [1, 2], [255, 16]), refusal(5, 0));
    // 5 is the first of a fragment
    assert_eq!(of_two([called, &[A, 3]], [1, 2], [0, 16]), refusal(5, 1));
    assert_eq!(of_two([called, &[HOLE; 2]], [1, 2], [0, 16]), refusal(5, 1));
    assert_eq!(of_two([called, called], [1, 1], [0, 16]), refusal(5, 1));
    assert_eq!(of_two([&[HOLE, A], called], [1, 2], [0, 16]), refusal(5, 1));
    assert_eq!(of_two([&[A; 96], &[A; 96]], [1, 2], [0, 16]), refusal(5, 1));
    assert_eq!(of_two([&[A; 97], &[A; 97]], [1, 2], [16, 0]), refusal(5, 0));
    assert_eq!(of_two([&[A, 3], called], [1, 2], [0, 16]), refusal(6, 0));
    assert_eq!(of_two([called, &[A, 3]], [1, 2], [16, 0]), refusal(5, 0));
    // the number of grades goes with that of the cells
    let of_grades = |grades: &[u8], table: usize| fault(&[called; 2], &[1, 2], grades, table);
    assert_eq!([&[0][..], &[], &[0; 3], &[16; 4]].map(|grades| of_grades(grades, 63)), [refusal(1, 0); 4]);
    assert_eq!(of_grades(&[16, 0], 63), refusal(11, 0));
    let tags: Vec<u32> = (0..129).collect();
    let of_many = |grades: usize| fault(&[&[A][..]; 129], &tags, &vec![16; grades], 129 * RECORD);
    assert_eq!([128, 129, 130].map(of_many), [refusal(1, 0), refusal(2, 0), refusal(1, 0)]);
}

#[test]
fn packed_grades() {
    let bytes = packed(&[vec![A, HOLE], vec![HOLE, B]], &[1, 2], &[15, 3]);
    assert_eq!(bytes, [graded(record(1, 0, &[A]), 15), graded(record(2, 1, &[B]), 3)].concat());
    assert_eq!(bytes[32..41], [2, 0, 0, 0, 1, 0, 1, 3, 2]);
}

/// What a run must have seen of grades: calls of equal weight, and what is corrected by other weights.
#[test]
fn equal_and_other_weights() {
    let bytes = table(&[("BAA", 2), ("AAA", 0), ("AAA", 1), ("-BB", 15)]);
    let (matrix, answers) = answers(&bytes);
    let (grades, answer) = ([2, 0, 1, 15], answers.corrections.expect("shallow"));
    assert_eq!(ties(&matrix, &grades, &answer.sides), [[vec![0, 1], vec![2]]]);
    assert_eq!(corrected_calls(&matrix, &answer), [1, 0, 0, 0]);
    assert_eq!(fewest_corrections(&matrix).count, 1);
    assert_eq!(weights_but(&grades, 2, 1), [3, 1, 1, 60]);
    assert_eq!(weights_but(&grades, 0, -1), [2, 0, 1, 60]);
    assert_eq!(corrected_by(&matrix, vec![3, 1, 1, 60]).count, 2);
    let otherwise = |grade: u8, more: isize| corrected_otherwise(&matrix, weights_but(&grades, grade, more), &answer);
    assert_eq!([-1, 1].map(|more| otherwise(2, more)), [false, true]);
    assert_eq!([-1, 1].map(|more| otherwise(1, more)), [true, false]);
    assert_eq!([-1, 1].map(|more| otherwise(15, more)), [false, false]);
}

#[test]
fn demands_of_grades() {
    let demanded: Vec<Seen> = demands(false).into_iter().map(|demand| demand.seen).collect();
    let grades = (0..=MOST_GRADE).flat_map(|grade| [Seen::CorrectedGrade(grade), Seen::DependsOn(grade)]);
    let all = grades.chain(OTHERS.iter().map(|other| Seen::NotBy(other.name)));
    assert_eq!(all.filter(|seen| !demanded.contains(seen)).collect::<Vec<_>>(), []);
}
