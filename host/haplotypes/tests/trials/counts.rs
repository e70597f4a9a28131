//! Conflict_counts by itself: each column, columns below 64 and from 64 on, rows and columns of the counts, and their
//! length. The other modules try it beside the other services.

use std::ops::Range;

use crate::calls::Service::ConflictCounts;
use crate::calls::{Sizes, Trials};
use crate::expected::Expected;
use crate::fixtures::{lone, mates, Fixture};

/// A name, the fragments, and their counts.
type Row = (&'static str, &'static [&'static str], &'static str);

const SMALL: [Row; 18] = [
    ("AA and BB", &["AA", "BB"], "02 20"),
    ("AB and BA", &["AB", "BA"], "02 20"),
    ("AB and BB", &["AB", "BB"], "01 10"),
    ("other letters on other columns", &["A-", "-B"], "00 00"),
    ("a conflict where they meet", &["AAB-", "--AB"], "01 10"),
    ("none where they meet", &["AAB-", "--BB"], "00 00"),
    ("one inside another", &["AABBA", "-BAA-"], "03 30"),
    ("three numbers", &["AAAA", "AAAB", "BBBB"], "014 103 430"),
    ("a fragment without calls first", &["---", "AAB", "BBA"], "000 003 030"),
    ("a fragment without calls between", &["AAB", "---", "BBA"], "003 000 300"),
    ("a fragment without calls last", &["AAB", "BBA", "---"], "030 300 000"),
    ("a fragment without calls and one with", &["--", "AB"], "00 00"),
    ("on both mates", &["AA--BA", "BB--AA"], "03 30"),
    ("on the near mates alone", &["AA--BA", "BB--BA"], "02 20"),
    ("on the far mates alone", &["AA--BA", "AA--AB"], "02 20"),
    ("a fragment in the hole between mates", &["A--B", "-BA-"], "00 00"),
    ("calls over a hole, and on one mate", &["A--B", "ABAA"], "01 10"),
    ("a far mate against a near one", &["AB---", "-A--B", "----A"], "010 101 010"),
];

#[test]
fn small_tables() {
    let mut trials = Trials::default();
    for (name, fragments, counts) in SMALL {
        trials.run(name, ConflictCounts, &Fixture::of(fragments), &Expected::counted(counts));
    }
}

/// Nobody conflicts on a column that nobody calls.
#[test]
fn columns_after_the_last_call() {
    let mut trials = Trials::default();
    for n in [3, 4, 63, 64, 65, 127, 128] {
        let given = Fixture::of(&["AA-", "BAA", "-BB"]).in_columns(n);
        trials.run(&format!("printed, {n} columns"), ConflictCounts, &given, &Expected::counted("011 102 120"));
    }
}

#[test]
fn each_column_by_itself() {
    let mut trials = Trials::default();
    for c in 0..127 {
        let fragments = [('A', c), ('B', c), ('A', c), ('B', c + 1), ('A', c + 1)];
        let given = Fixture::of(&fragments.map(|(letter, column)| lone(letter, column, 128)));
        let expected = Expected::counted("01000 10100 01000 00001 00010");
        trials.run(&format!("columns {c} and {}", c + 1), ConflictCounts, &given, &expected);
    }
}

/// Both mates count, also where one lies below column 64 and the other does not.
#[test]
fn each_column_with_the_one_64_further() {
    let mut trials = Trials::default();
    for c in 0..64 {
        let fragments = [['A', 'A'], ['B', 'B'], ['A', 'B']].map(|[near, far]| mates([(near, c), (far, c + 64)], 128));
        let expected = Expected::counted("021 201 110");
        trials.run(&format!("columns {c} and {}", c + 64), ConflictCounts, &Fixture::of(&fragments), &expected);
    }
}

/// The columns of the Bs of five fragments, which have As on the others of columns 32 to 127.
const BS: [Range<usize>; 5] = [0..0, 32..64, 64..128, 32..128, 63..65];

/// Two conflict where one has a B and the other does not. With Bs on columns 32 to 63 and on columns 63 and 64 that is
/// on 32 to 62 and 64, 32 in all; with Bs on columns 64 to 127 and on 63 and 64, on 63 and 65 to 127, 64 in all.
const COUNTS_OF_BS: [[usize; 5]; 5] =
    [[0, 32, 64, 96, 2], [32, 0, 96, 64, 32], [64, 96, 0, 32, 64], [96, 64, 32, 0, 94], [2, 32, 64, 94, 0]];

#[test]
fn conflicts_below_column_64_and_from_it_on() {
    let mut trials = Trials::default();
    let fragment = |bs: Range<usize>| {
        let letter = |c| if bs.contains(&c) { "B" } else { "A" };
        "-".repeat(32) + &(32..128).map(letter).collect::<String>()
    };
    let given = Fixture::of(&BS.map(fragment));
    trials.run("five of 96 calls", ConflictCounts, &given, &Expected::counted_by(5, |i, j| COUNTS_OF_BS[i][j]));
}

/// 128 fragments of 96 calls, As and Bs by turns: those of other letters conflict on all 96 columns.
#[test]
fn long_fragments_by_turns() {
    let mut trials = Trials::default();
    for (start, n) in [(0, 96), (0, 128), (16, 112), (32, 128)] {
        let fragment = |i: usize| "-".repeat(start) + &["A", "B"][i % 2].repeat(96) + &"-".repeat(n - start - 96);
        let given = Fixture::of(&(0..128).map(fragment).collect::<Vec<String>>());
        let expected = Expected::counted_by(128, |i, j| if i % 2 == j % 2 { 0 } else { 96 });
        trials.run(&format!("from column {start} of {n}"), ConflictCounts, &given, &expected);
    }
}

/// Fragment i calls one letter from column i on, 96 times or up to the last column; the letter changes after every
/// second fragment. Two of other letters conflict on the columns that both call.
#[test]
fn fragments_from_each_column_on() {
    let mut trials = Trials::default();
    let (letter, end) = (|i: usize| ["A", "B"][i / 2 % 2], |i: usize| (i + 96).min(128));
    let fragment = |i: usize| "-".repeat(i) + &letter(i).repeat(end(i) - i) + &"-".repeat(128 - end(i));
    let given = Fixture::of(&(0..128).map(fragment).collect::<Vec<String>>());
    let shared = |i: usize, j: usize| end(i.min(j)).saturating_sub(i.max(j));
    let expected = Expected::counted_by(128, |i, j| if letter(i) == letter(j) { 0 } else { shared(i, j) });
    trials.run("128 starts", ConflictCounts, &given, &expected);
}

/// Lengths that are right for another buffer, for other numbers, or for one count of each two fragments.
#[test]
fn lengths_of_something_else() {
    let mut trials = Trials::default();
    for (m, n) in [(1, 3), (2, 5), (5, 2), (8, 9), (128, 96), (96, 128)] {
        let given = Fixture::of(&vec![lone('A', 0, n); m]);
        let exact = Sizes::of(&given);
        let (near, halves) = ([m * m - 1, m * m + 1], [m * (m - 1) / 2, m * (m + 1) / 2]);
        let rows = [m, n, m * n, n * n, m * (m + 1), m * (m - 1)];
        let lengths = [&near[..], &halves, &rows, &[exact.answer, exact.table]].concat();
        for counts in lengths.into_iter().filter(|&length| length != m * m) {
            let name = format!("{m} fragments, {n} columns, {counts} counts");
            trials.run_sized(&name, ConflictCounts, &given, Sizes { counts, ..exact }, &Expected::refused(11, 0));
        }
        trials.run(&format!("{m} x {m} counts"), ConflictCounts, &given, &Expected::counted_by(m, |_, _| 0));
    }
}
