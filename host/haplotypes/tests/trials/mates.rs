//! Mates: fragments with a hole between two calls. S and F refuse the first of them; the other services take them, with
//! the calls of both mates. `depths` tries rule 12 over holes, `order` rule 8 among the others, `records` the bytes.

use crate::calls::Service::Check;
use crate::calls::Trials;
use crate::expected::{Each, Expected};
use crate::fixtures::{mates, Fixture};

/// An error-free table: its name, its fragments, the first with a hole, the numbers of conflict_counts, and the one
/// answer of check and C.
type ErrorFree = (&'static str, &'static [&'static str], usize, &'static str, &'static str);

pub const ERROR_FREE: [ErrorFree; 14] = [
    ("one fragment", &["A-B"], 0, "0", "111 A-B --- 1 0"),
    ("equal mates", &["A-B", "A-B"], 0, "00 00", "111 A-B --- 11 0,1"),
    ("opposite mates", &["A-B", "B-A"], 0, "02 20", "111 A-B B-A 12 0,0"),
    ("a conflict on the near mates", &["A-B", "B-B"], 0, "01 10", "111 A-B B-B 12 0,0"),
    ("a conflict on the far mates", &["A-B", "A-A"], 0, "01 10", "111 A-B A-A 12 0,0"),
    ("a fragment in the hole", &["A--A", "-BB-"], 0, "00 00", "1111 ABBA ---- 11 0,1"),
    ("a hole against calls", &["B--B", "BAAB"], 0, "00 00", "1111 BAAB ---- 11 0,1"),
    ("three runs of calls", &["A-B-A", "B---B"], 0, "02 20", "11111 A-B-A B---B 12 0,0"),
    ("a hole in the last fragment alone", &["AAA", "---", "B-A"], 2, "001 000 100", "111 AAA B-A 112 0,1,0"),
    ("columns that no one calls on all sides", &["--A-B-", "--B-A-"], 0, "02 20", "111111 --A-B- --B-A- 12 0,0"),
    ("mates that agree with two fragments", &["A---", "A--B", "---B"], 1, "000 000 000", "1111 A--B ---- 111 0,1,2"),
    (
        "two blocks, by turns",
        &["A---A", "-B-B-", "--A-B", "---A-"],
        0,
        "0010 0001 1000 0100",
        "11111 AB-BA --AAB 1122 0,1,0,1",
    ),
    // Without the mates the other four are two blocks, and their sides 1212.
    (
        "mates that join two blocks",
        &["AA---", "BB---", "-B-A-", "---AB", "---BA"],
        2,
        "02100 20000 10001 00002 00120",
        "11111 AA-BA BB-AB 12221 0,0,0,0,0",
    ),
    (
        "mates in the holes of mates",
        &["A--B", "B--A", "A-A-", "-BA-", "-AB-", "-B-B"],
        0,
        "020000 201001 010010 000020 001201 010010",
        "1111 ABAB BABA 121121 0,0,0,0,0,0",
    ),
];

#[test]
fn error_free_tables() {
    let mut trials = Trials::default();
    for (name, fragments, place, conflict_counts, fields) in ERROR_FREE {
        let given = Fixture::of(fragments);
        let each = Each::of_error_free(&given, Expected::counted(conflict_counts), fields);
        trials.run_each(name, &given, &each.gapped(place));
    }
}

/// A table that is not: the first fragment with a hole, the numbers of conflict_counts, C's line, and the fragments of
/// its table.
pub struct Errors {
    pub name: &'static str,
    pub fragments: &'static [&'static str],
    gapped: usize,
    conflict_counts: &'static str,
    pub c: &'static str,
    pub corrected: &'static [&'static str],
}

impl Errors {
    /// What is expected of the same fragments with any grades, and this of C.
    pub fn each(&self, given: &Fixture, c: Expected) -> Each {
        Each::of_gapped_errors(given, self.gapped, Expected::counted(self.conflict_counts), c)
    }
}

pub const ERRORS: [Errors; 8] = [
    Errors {
        name: "papers: the gapped triangle",
        fragments: &["AB-", "B-A", "-AB"],
        gapped: 1,
        conflict_counts: "011 101 110",
        c: "1 111 ABA -AB 112 0,0,0",
        corrected: &["AB-", "A-A", "-AB"],
    },
    Errors {
        name: "the triangle, B-A first",
        fragments: &["B-A", "AB-", "-AB"],
        gapped: 0,
        conflict_counts: "011 101 110",
        c: "1 111 ABA -AB 112 0,0,0",
        corrected: &["A-A", "AB-", "-AB"],
    },
    // Without the far mates: A, A, B, which is error-free.
    Errors {
        name: "an error on a far mate",
        fragments: &["A--A", "A--B", "B---"],
        gapped: 0,
        conflict_counts: "011 101 110",
        c: "1 1111 A--A B--- 112 0,0,0",
        corrected: &["A--A", "A--A", "B---"],
    },
    // Without the near mates: A, A, B.
    Errors {
        name: "an error on a near mate",
        fragments: &["A--A", "B--A", "---B"],
        gapped: 0,
        conflict_counts: "011 101 110",
        c: "1 1111 A--A ---B 112 0,0,0",
        corrected: &["A--A", "A--A", "---B"],
    },
    // Without the far mates: AA, AB, BA, of which paper 01 has sides 112 and turns the B of the second.
    Errors {
        name: "far mates that change the sides",
        fragments: &["AA--A", "AB--B", "BA--A"],
        gapped: 0,
        conflict_counts: "021 203 130",
        c: "1 11111 AA--A AB--B 121 0,0,0",
        corrected: &["AA--A", "AB--B", "AA--A"],
    },
    // The last costs 1 on either side. Without the far mates it costs 0 on side 2.
    Errors {
        name: "a fragment with a mate of each side",
        fragments: &["A-B", "A-B", "B-A", "B-A", "B-B"],
        gapped: 0,
        conflict_counts: "00221 00221 22001 22001 11110",
        c: "1 111 A-B B-A 11221 0,0,0,0,0",
        corrected: &["A-B", "A-B", "B-A", "B-A", "A-B"],
    },
    // One B among As on column 1, and one on column 5.
    Errors {
        name: "an error on a near and one on a far mate",
        fragments: &["AA--BB", "AB--BB", "BB--AA", "BB--AB"],
        gapped: 0,
        conflict_counts: "0143 1032 4301 3210",
        c: "2 111111 AA--BB BB--AA 1122 0,0,0,0",
        corrected: &["AA--BB", "AA--BB", "BB--AA", "BB--AA"],
    },
    // In the hole lie three more, which conflict on column 2 where the last has its B; no mate meets them.
    Errors {
        name: "an error in the hole of others",
        fragments: &["A---A", "A---A", "B---B", "-AAA-", "-BBB-", "-ABA-"],
        gapped: 0,
        conflict_counts: "002000 002000 220000 000031 000302 000120",
        c: "1 11111 AAAAA BBBBB 112121 0,0,0,3,3,3",
        corrected: &["A---A", "A---A", "B---B", "-AAA-", "-BBB-", "-AAA-"],
    },
];

#[test]
fn tables_with_errors() {
    let mut trials = Trials::default();
    for row in ERRORS {
        let given = Fixture::of(row.fragments);
        let c = Expected::corrected(row.c, row.corrected);
        trials.run_each(row.name, &given, &row.each(&given, c));
    }
}

/// The triangle fails by all three columns together: any two of them are error-free.
#[test]
fn two_columns_of_the_triangle() {
    let mut trials = Trials::default();
    let rows = [
        ("columns 0 and 1", ["AB-", "B--", "-A-"], "0 111 AB- BA- 122 0,0,0"),
        ("columns 0 and 2", ["A--", "B-A", "--B"], "0 111 A-B B-A 121 0,0,0"),
        ("columns 1 and 2", ["-B-", "-AB", "--A"], "0 111 -BA -AB 121 0,0,0"),
    ];
    for (name, fragments, line) in rows {
        trials.run(name, Check, &Fixture::of(&fragments), &Expected::listed(line));
    }
}

/// Three letters on three columns of 128, and holes on the others.
fn spread(letters: &str, columns: [usize; 3]) -> String {
    let at = |c: usize| columns.iter().position(|&column| column == c);
    (0..128).map(|c| at(c).map_or('-', |k| letters.as_bytes()[k] as char)).collect()
}

/// The triangle on columns that lie apart, below column 64 and from it on, and up to 96 columns wide.
#[test]
fn triangles_with_wide_holes() {
    let mut trials = Trials::default();
    for at in [[0, 1, 95], [0, 94, 95], [0, 63, 64], [1, 64, 65], [5, 62, 64], [32, 33, 127], [40, 80, 120]] {
        let given = Fixture::of(&["AB-", "B-A", "-AB"].map(|letters| spread(letters, at)));
        let line = format!("1 {} {} {} 112 0,0,0", "1".repeat(128), spread("ABA", at), spread("-AB", at));
        let c = Expected::corrected(&line, &["AB-", "A-A", "-AB"].map(|letters| spread(letters, at)));
        let gapped = usize::from(at[0] + 1 == at[1]);
        let expected = Each::of_gapped_errors(&given, gapped, Expected::counted("011 101 110"), c);
        trials.run_each(&format!("columns {at:?}"), &given, &expected);
    }
}

/// Fragment i of k has B on column i and A on the one before, and fragment 0 has its A on the last column: each two
/// neighbours of the ring conflict on a column, and no others. Fragment 0 alone has a hole.
fn ring(k: usize) -> Vec<String> {
    (0..k).map(|i| mates([('B', i), ('A', (i + k - 1) % k)], k)).collect()
}

/// One where the two are neighbours of the ring, else 0.
fn ring_counts(k: usize) -> Expected {
    Expected::counted_by(k, |i, j| usize::from((i + 1) % k == j || (j + 1) % k == i))
}

/// Neighbours are on two sides.
#[test]
fn even_rings() {
    let mut trials = Trials::default();
    for k in [4, 6, 64, 66, 96] {
        let given = Fixture::of(&ring(k));
        let [one, two, sides] = ["BA", "AB", "12"].map(|turn| turn.repeat(k / 2));
        let fields = format!("{} {one} {two} {sides} {}", "1".repeat(k), vec!["0"; k].join(","));
        let expected = Each::of_error_free(&given, ring_counts(k), &fields).gapped(0);
        trials.run_each(&format!("{k} fragments"), &given, &expected);
    }
}

/// Two neighbours must be on one side, at the cost of 1: the first two come first, on side 1, and of the two calls on
/// their column the B turns to A. The others still conflict with their neighbours.
#[test]
fn odd_rings() {
    let mut trials = Trials::default();
    for k in [3, 5, 63, 65, 95] {
        let fragments = ring(k);
        let given = Fixture::of(&fragments);
        let [turns, sides] = ["AB", "12"].map(|turn| turn.repeat(k / 2));
        let line = format!("1 {} {turns}A -{turns} 1{sides} {}", "1".repeat(k), vec!["0"; k].join(","));
        let corrected = [&[mates([('A', 0), ('A', k - 1)], k)], &fragments[1..]].concat();
        let c = Expected::corrected(&line, &corrected);
        let expected = Each::of_gapped_errors(&given, 0, ring_counts(k), c);
        trials.run_each(&format!("{k} fragments"), &given, &expected);
    }
}
