//! How many fragments may cover a column, each from its first to its last call: 8 for C, any number for the other
//! services.

use crate::calls::{Service, Trials};
use crate::expected::{Each, Expected};
use crate::fixtures::{by_start, is_gapped, lone, mates, Fixture};

/// A name, and how many fragments have which letters: As alone, so all are on side 1.
type Depths = (&'static str, &'static [(usize, &'static str)]);

fn fragments(groups: &[(usize, &str)]) -> Vec<String> {
    groups.iter().flat_map(|&(count, letters)| vec![letters.to_owned(); count]).collect()
}

/// What all services make of As alone; S and F refuse the first fragment with a hole between two calls.
fn each(given: &Fixture, fragments: &[String]) -> Each {
    let each = Each::of_as_alone(given);
    match fragments.iter().position(|letters| is_gapped(letters)) {
        Some(place) => each.gapped(place),
        None => each,
    }
}

const SHALLOW: [Depths; 12] = [
    ("depth 7", &[(7, "A")]),
    ("depth 8", &[(8, "A")]),
    ("depth 8, and fragments without calls", &[(8, "A"), (3, "-")]),
    ("depth 8 on two columns, of nine fragments", &[(7, "AA"), (1, "A-"), (1, "-A")]),
    ("depths 8, 7 and 8, of nine fragments", &[(7, "AAA"), (1, "A--"), (1, "--A")]),
    ("8 stretches over a column that no one calls", &[(8, "A-A")]),
    ("8 stretches over a column that half of them call", &[(4, "A-A"), (4, "AAA")]),
    ("7 stretches over a hole, and a fragment in it", &[(7, "A--A"), (1, "-A--")]),
    ("8 stretches, and a fragment on each side of them", &[(1, "A----"), (8, "-A-A-"), (1, "----A")]),
    ("8 stretches after 8 others", &[(8, "A-A---"), (8, "---A-A")]),
    ("8 stretches that end as others start", &[(4, "A--A----"), (4, "A------A"), (4, "----A--A")]),
    ("a column that no one calls or covers", &[(8, "A-A----"), (8, "----A-A")]),
];

#[test]
fn up_to_8_fragments_over_a_column() {
    let mut trials = Trials::default();
    for (name, groups) in SHALLOW {
        let fragments = fragments(groups);
        let given = Fixture::of(&fragments);
        trials.run_each(name, &given, &each(&given, &fragments));
    }
}

/// The place is the lowest column with over 8. It is called, since depths rise only where a fragment starts; but one call
/// will do.
const DEEP: [(Depths, usize); 14] = [
    (("depth 9", &[(9, "A")]), 0),
    (("depth 10", &[(10, "A")]), 0),
    (("depth 128", &[(128, "A")]), 0),
    (("depths 8, 9 and 10", &[(8, "AAA"), (1, "-AA"), (1, "--A")]), 1),
    (("depths 8, 8 and 9", &[(8, "AAA"), (1, "--A")]), 2),
    (("depths 9, 8 and 9", &[(8, "AAA"), (1, "A--"), (1, "--A")]), 0),
    (("9 stretches from the first column on", &[(9, "A-A")]), 0),
    (("9 stretches over a column that one calls", &[(8, "A-A"), (1, "-A-")]), 1),
    (("9 stretches over a column that 8 call", &[(1, "A-A"), (7, "AAA"), (1, "-AA")]), 1),
    (("9 stretches, before a column of 9 calls", &[(8, "A--A"), (1, "-AAA")]), 1),
    (("two columns in a hole", &[(8, "A----A"), (1, "--A---"), (1, "---A--")]), 2),
    (("mates that start one after another", &[(4, "A---A--"), (4, "-A---A-"), (1, "--A---A")]), 2),
    (("9 stretches where 8 others have ended", &[(8, "A-A---"), (9, "---A-A")]), 3),
    (("9 stretches where none of 8 has ended", &[(8, "A-A--"), (1, "--A-A")]), 2),
];

#[test]
fn over_8_fragments_over_a_column() {
    let mut trials = Trials::default();
    for ((name, groups), column) in DEEP {
        let fragments = fragments(groups);
        let given = Fixture::of(&fragments);
        trials.run_each(name, &given, &each(&given, &fragments).too_deep(column));
    }
}

#[test]
fn the_last_column_is_too_deep() {
    let mut trials = Trials::default();
    let fragments = vec![lone('A', 127, 128); 9];
    let given = Fixture::of(&fragments);
    trials.run_each("9 calls in column 127", &given, &each(&given, &fragments).too_deep(127));
}

/// Eight mates at both ends of 96 columns, and a ninth fragment of one call: on those columns it is too deep, and on the
/// others not.
#[test]
fn a_call_under_8_stretches_of_96_columns() {
    let mut trials = Trials::default();
    for start in [0, 16, 32] {
        for column in [0, 15, 16, 31, 32, 33, 63, 64, 95, 96, 111, 112, 127] {
            let mut fragments = vec![mates([('A', start), ('A', start + 95)], 128); 8];
            fragments.push(lone('A', column, 128));
            let fragments = by_start(fragments);
            let given = Fixture::of(&fragments);
            let each = each(&given, &fragments);
            let covered = (start..start + 96).contains(&column);
            let expected = if covered { each.too_deep(column) } else { each };
            trials.run_each(&format!("column {column}, mates from {start} on"), &given, &expected);
        }
    }
}

/// A refused record comes before rule 12, even one that calls nothing in the deep column. A hole refuses none.
#[test]
fn records_come_before_depths() {
    let mut trials = Trials::default();
    let deep = fragments(&[(8, "AAA"), (1, "-AA"), (1, "--A")]);
    let last = fragments(&[(9, "A----"), (1, "--A-A")]);
    let level = fragments(&[(9, "AAA"), (1, "A--")]);
    let rows = [
        ("the first record is out of frame", Fixture::of(&deep).in_columns(2), Expected::refused(4, 0)),
        ("the last record has stray bits", Fixture::of(&deep).edited(9, &[(7, 16)]), Expected::refused(5, 9)),
        ("the last record has the first one's tag", Fixture::of(&last).edited(9, &[(0, 10)]), Expected::refused(9, 9)),
        ("the last record is out of order", Fixture::of(&level).edited(9, &[(0, 9)]), Expected::refused(13, 9)),
        ("the last record has a hole", Fixture::of(&last), Expected::refused(12, 0)),
        ("no record is refused", Fixture::of(&deep), Expected::refused(12, 1)),
    ];
    for (name, given, expected) in &rows {
        trials.run(name, Service::C, given, expected);
    }
}

/// What C refuses, the others take, whatever the letters.
#[test]
fn mixed_columns_over_8_calls() {
    let mut trials = Trials::default();
    let given = Fixture::of(&["A", "B", "A", "B", "A", "B", "A", "B", "A"]);
    let counted = Expected::counted_by(9, |i, j| (i + j) % 2);
    let expected = Each::of_error_free(&given, counted, "1 A B 121212121 0,0,0,0,0,0,0,0,0").too_deep(0);
    trials.run_each("A and B by turns", &given, &expected);
}
