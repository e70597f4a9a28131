//! Small tables with the whole answer of every service, also with the records of one start in other orders.

use crate::calls::Trials;
use crate::expected::{Each, Expected};
use crate::fixtures::Fixture;

/// An error-free table: its name, its fragments, the numbers of conflict_counts, and the one answer of check, S, F and
/// C.
type ErrorFree = (&'static str, &'static [&'static str], &'static str, &'static str);

pub const ERROR_FREE: [ErrorFree; 18] = [
    ("paper: no records, no columns", &[], ".", ". . . . ."),
    ("paper: A and B on one column", &["A", "B"], "01 10", "1 A B 12 0,0"),
    ("paper, with T-04: AA and AA", &["AA", "AA"], "00 00", "11 AA -- 11 0,1"),
    ("paper: a column no one calls", &["A--", "--B"], "00 00", "111 A-B --- 11 0,1"),
    (
        "a column no one calls, between two that are mixed",
        &["A--", "B--", "--B", "--A"],
        "0100 1000 0001 0010",
        "111 A-B B-A 1212 0,0,2,2",
    ),
    ("one B", &["B"], "0", "1 B - 1 0"),
    ("equal fragments", &["AA", "AA", "AA"], "000 000 000", "11 AA -- 111 0,1,2"),
    ("BB in the middle", &["AA", "BB", "AA"], "020 202 020", "11 AA BB 121 0,0,0"),
    ("BB first", &["BB", "AA", "AA"], "022 200 200", "11 BB AA 122 0,0,0"),
    (
        "a fragment without calls before the last",
        &["AA", "BB", "--", "BB"],
        "0202 2000 0000 2000",
        "11 AA BB 1212 0,0,2,0",
    ),
    ("one fragment without calls", &["--"], "0", "11 -- -- 1 0"),
    ("only fragments without calls", &["--", "--", "--"], "000 000 000", "11 -- -- 111 0,1,2"),
    ("fragments, and no columns", &["", ""], "00 00", ". . . 11 0,1"),
    (
        "two blocks, the sides of each from 1 on",
        &["AA--", "BB--", "--BB", "--AA"],
        "0200 2000 0002 0020",
        "1111 AABB BBAA 1212 0,0,2,2",
    ),
    ("a block around a fragment that only agrees", &["AAA", "-A-", "-AB"], "001 000 100", "111 AAA -AB 112 0,1,0"),
    ("a chain", &["AB--", "-AB-", "--AB"], "010 101 010", "1111 ABAB -AB- 121 0,0,0"),
    (
        "a chain that the last fragment joins, and a fragment that agrees with it",
        &["AAA-", "-AAA", "--AA", "--AB"],
        "0000 0001 0001 0110",
        "1111 AAAA --AB 1112 0,1,1,1",
    ),
    (
        "a chain through a long fragment, and a fragment that agrees with it",
        &["A---", "AABB", "-B--", "---A"],
        "0000 0011 0100 0100",
        "1111 AABB -B-A 1122 0,1,1,1",
    ),
];

#[test]
fn error_free_tables() {
    let mut trials = Trials::default();
    for (name, fragments, conflict_counts, fields) in ERROR_FREE {
        let given = Fixture::of(fragments);
        trials.run_each(name, &given, &Each::of_error_free(&given, Expected::counted(conflict_counts), fields));
    }
}

/// A table that is not: the numbers of conflict_counts, the lines of S, F and C, and the fragments of C's table.
pub struct Errors {
    pub name: &'static str,
    pub fragments: &'static [&'static str],
    conflict_counts: &'static str,
    s: &'static str,
    f: &'static str,
    pub c: &'static str,
    pub corrected: &'static [&'static str],
}

impl Errors {
    /// What is expected of the same fragments with any grades, and this of C.
    pub fn each(&self, given: &Fixture, c: Expected) -> Each {
        let (s, f) = (Expected::listed(self.s), Expected::listed(self.f));
        Each::of_errors(given, Expected::counted(self.conflict_counts), [s, f, c])
    }
}

pub const ERRORS: [Errors; 16] = [
    Errors {
        name: "paper: printed",
        fragments: &["AA-", "BAA", "-BB"],
        conflict_counts: "011 102 120",
        s: "1 101 A#B B#A 121 0,0,0",
        f: "1 111 AA- BAA 120 0,0,-",
        c: "1 111 AAA -BB 112 0,0,0",
        corrected: &["AA-", "AAA", "-BB"],
    },
    Errors {
        name: "paper: AA, AB, BA",
        fragments: &["AA", "AB", "BA"],
        conflict_counts: "011 102 120",
        s: "1 10 A# B# 112 0,0,0",
        f: "1 11 AA AB 120 0,0,-",
        c: "1 11 AA BA 112 0,0,0",
        corrected: &["AA", "AA", "BA"],
    },
    Errors {
        name: "paper: AA, AB, BA, BB",
        fragments: &["AA", "AB", "BA", "BB"],
        conflict_counts: "0112 1021 1201 2110",
        s: "1 10 A# B# 1122 0,0,0,0",
        f: "2 11 AA AB 1200 0,0,-,-",
        c: "2 11 AA BB 1112 0,0,0,0",
        corrected: &["AA", "AA", "AA", "BB"],
    },
    // The rarer letter is A here, and there is no tie.
    Errors {
        name: "BB, BA, AB, AA",
        fragments: &["BB", "BA", "AB", "AA"],
        conflict_counts: "0112 1021 1201 2110",
        s: "1 10 B# A# 1122 0,0,0,0",
        f: "2 11 BB BA 1200 0,0,-,-",
        c: "2 11 BB AA 1112 0,0,0,0",
        corrected: &["BB", "BB", "BB", "AA"],
    },
    Errors {
        name: "printed, BAA first",
        fragments: &["BAA", "AA-", "-BB"],
        conflict_counts: "012 101 210",
        s: "1 101 B#A A#B 122 0,0,0",
        f: "1 111 BAA AA- 120 0,0,-",
        c: "1 111 AAA -BB 112 0,0,0",
        corrected: &["AAA", "AA-", "-BB"],
    },
    // Column 0 cannot go alone now: all three still conflict.
    Errors {
        name: "printed, the columns turned round",
        fragments: &["BB-", "AAB", "-AA"],
        conflict_counts: "021 201 110",
        s: "1 110 BB# AA# 122 0,0,0",
        f: "1 111 BB- AAB 120 0,0,-",
        c: "1 111 BAA AAB 121 0,0,0",
        corrected: &["BA-", "AAB", "-AA"],
    },
    Errors {
        name: "printed, the columns turned round, AAB first",
        fragments: &["AAB", "BB-", "-AA"],
        conflict_counts: "021 201 110",
        s: "1 110 AA# BB# 121 0,0,0",
        f: "1 111 AAB BB- 120 0,0,-",
        c: "1 111 AAA BB- 121 0,0,0",
        corrected: &["AAA", "BB-", "-AA"],
    },
    Errors {
        name: "AA, BA, AB: one B among As in column 1",
        fragments: &["AA", "BA", "AB"],
        conflict_counts: "011 102 120",
        s: "1 10 A# B# 121 0,0,0",
        f: "1 11 AA BA 120 0,0,-",
        c: "1 11 AA AB 112 0,0,0",
        corrected: &["AA", "AA", "AB"],
    },
    // Column 1 is not mixed: to remove it would not help.
    Errors {
        name: "an unmixed column between",
        fragments: &["AAA", "AAB", "BAA"],
        conflict_counts: "011 102 120",
        s: "1 110 AA# BA# 112 0,0,0",
        f: "1 111 AAA AAB 120 0,0,-",
        c: "1 111 AAA BAA 112 0,0,0",
        corrected: &["AAA", "AAA", "BAA"],
    },
    Errors {
        name: "a column no one calls",
        fragments: &["AA-", "AB-", "BA-"],
        conflict_counts: "011 102 120",
        s: "1 101 A#- B#- 112 0,0,0",
        f: "1 111 AA- AB- 120 0,0,-",
        c: "1 111 AA- BA- 112 0,0,0",
        corrected: &["AA-", "AA-", "BA-"],
    },
    Errors {
        name: "a fragment without calls",
        fragments: &["AA", "AB", "BA", "--"],
        conflict_counts: "0110 1020 1200 0000",
        s: "1 10 A# B# 1121 0,0,0,3",
        f: "1 11 AA AB 1201 0,0,-,3",
        c: "1 11 AA BA 1121 0,0,0,3",
        corrected: &["AA", "AA", "BA", "--"],
    },
    // The conflicts are 0-1 and 1-2 on column 1, 0-2 and 0-3 on column 2. Without column 2, fragment 3 has no call.
    // C's earlier side lists, 1111, 1112 and 1121, cost 2. Once its only call is corrected, fragment 1 conflicts with none.
    Errors {
        name: "short fragments inside a long one",
        fragments: &["AAAA", "-B--", "-AB-", "--B-"],
        conflict_counts: "0111 1010 1100 1000",
        s: "1 1101 AA#A -B#- 1211 0,0,0,3",
        f: "1 1111 AAAA -BB- 1202 0,0,-,0",
        c: "1 1111 AAAA -AB- 1122 0,1,0,0",
        corrected: &["AAAA", "-A--", "-AB-", "--B-"],
    },
    // The only conflict of fragment 3 is with fragment 1 on column 1: S removes the column, C corrects fragment 1 there,
    // and F keeps both. C's earlier side lists, 1111 and 1112, cost 2.
    Errors {
        name: "a conflict that S removes and C corrects",
        fragments: &["AA-", "AB-", "BAA", "-AA"],
        conflict_counts: "0110 1021 1200 0100",
        s: "1 101 A#A B#A 1121 0,0,0,3",
        f: "1 111 AAA AB- 1201 0,0,-,0",
        c: "1 111 AAA BAA 1121 0,0,0,3",
        corrected: &["AA-", "AA-", "BAA", "-AA"],
    },
    // All A on both sides costs 1 in column 1; opposite letters would cost 2 or 3.
    Errors {
        name: "a column that costs less as all A",
        fragments: &["AA", "AA", "AB", "BA", "BA"],
        conflict_counts: "00111 00111 11022 11200 11200",
        s: "1 10 A# B# 11122 0,0,0,0,0",
        f: "1 11 AA BA 11022 0,0,-,0,0",
        c: "1 11 AA BA 11122 0,0,0,0,0",
        corrected: &["AA", "AA", "AA", "BA", "BA"],
    },
    // Three in conflict on columns 0 and 1, and three on columns 2 and 3, with the long fragment among both. F removes
    // it, and with it what joins the blocks. C's earlier side lists cost 3 or more: those with 11 at the start, and
    // 12111.
    Errors {
        name: "two blocks that one fragment joins",
        fragments: &["AB--", "BA--", "AAAA", "--AB", "--BA"],
        conflict_counts: "02100 20100 11011 00102 00120",
        s: "2 1010 A#A# B#B# 12112 0,0,0,0,0",
        f: "1 1111 ABAB BABA 12012 0,0,-,3,3",
        c: "2 1111 AAAA BABA 12112 0,0,0,0,0",
        corrected: &["AA--", "BA--", "AAAA", "--AA", "--BA"],
    },
    // The same three twice, apart: the sides, the ties and the numbers of the second block are those of the first.
    Errors {
        name: "two blocks with an error each",
        fragments: &["AA--", "AB--", "BA--", "--AA", "--AB", "--BA"],
        conflict_counts: "011000 102000 120000 000011 000102 000120",
        s: "2 1010 A#A# B#B# 112112 0,0,0,3,3,3",
        f: "2 1111 AAAA ABAB 120120 0,0,-,3,3,-",
        c: "2 1111 AAAA BABA 112112 0,0,0,3,3,3",
        corrected: &["AA--", "AA--", "BA--", "--AA", "--AA", "--BA"],
    },
];

#[test]
fn tables_with_errors() {
    let mut trials = Trials::default();
    for row in ERRORS {
        let given = Fixture::of(row.fragments);
        let c = Expected::corrected(row.c, row.corrected);
        trials.run_each(row.name, &given, &row.each(&given, c));
    }
}
