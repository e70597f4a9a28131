//! How many fragments, columns, bytes and numbers a call may have: every service that has the boundary.

use crate::calls::Service::{self, *};
use crate::calls::{Sizes, Trials, OF_TABLES, SERVICES, WITH_WORK};
use crate::expected::{Each, Expected};
use crate::fixtures::{lone, Fixture};

const PRINTED: [&str; 3] = ["AA-", "BAA", "-BB"];

/// Fragment i calls A on column i alone, and from the last column on again on column 0, ..
fn diagonal(m: usize, n: usize) -> Fixture {
    let fragments: Vec<String> = (0..m).map(|i| lone('A', i % n, n)).collect();
    Fixture::of(&fragments)
}

/// No two fragments of a diagonal share a column: all on side 1, each a block by itself.
fn diagonal_fields(m: usize, n: usize) -> String {
    let blocks: Vec<String> = (0..m).map(|i| i.to_string()).collect();
    let haplotype = format!("{}{}", "A".repeat(m), "-".repeat(n - m));
    format!("{} {haplotype} {} {} {}", "1".repeat(n), "-".repeat(n), "1".repeat(m), blocks.join(","))
}

#[test]
fn up_to_128_fragments_and_columns() {
    let mut trials = Trials::default();
    for (m, n) in [(1, 1), (1, 128), (127, 127), (127, 128), (128, 128)] {
        let given = diagonal(m, n);
        let expected = Each::of_conflict_free(&given, &diagonal_fields(m, n));
        trials.run_each(&format!("{m} fragments, {n} columns"), &given, &expected);
    }
}

#[test]
fn no_fragments() {
    let mut trials = Trials::default();
    for n in [1, 3, 128] {
        let given = Fixture::of(&[""; 0]).in_columns(n);
        let fields = format!("{} {} {} . .", "1".repeat(n), "-".repeat(n), "-".repeat(n));
        trials.run_each(&format!("no fragments, {n} columns"), &given, &Each::of_conflict_free(&given, &fields));
    }
}

#[test]
fn too_many_fragments_or_columns() {
    let mut trials = Trials::default();
    let rows = [
        ("129 fragments", diagonal(129, 128), 2),
        ("130 fragments", diagonal(130, 128), 2),
        ("256 fragments", diagonal(256, 1), 2),
        ("129 columns", diagonal(128, 129), 3),
        ("130 columns", diagonal(1, 130), 3),
        ("129 fragments and columns", diagonal(129, 129), 3),
        ("129 columns, no fragments", Fixture::of(&[""; 0]).in_columns(129), 3),
    ];
    for (name, given, number) in rows {
        for service in SERVICES {
            trials.run(name, service, &given, &Expected::refused(number, 0));
        }
    }
}

/// Numbers of columns that are 0 or 1 when they are cut to 8, 16 or 32 bits, or whose multiples are when they overflow.
#[test]
fn far_too_many_columns() {
    let mut trials = Trials::default();
    let one = Fixture::of(&["A"]);
    let half = usize::MAX / 2;
    for n in [256, 257, 65_536, 65_537, 1 << 32, (1 << 32) + 1, half, half + 1, half + 2, usize::MAX / 3, usize::MAX] {
        for service in SERVICES {
            let given = one.clone().in_columns(n);
            let sizes = Sizes::of(&one);
            trials.run_sized(&format!("{n} columns"), service, &given, sizes, &Expected::refused(3, 0));
        }
    }
}

#[test]
fn ragged_tables() {
    let mut trials = Trials::default();
    let whole = diagonal(129, 1).table;
    for bytes in [1, 7, 31, 33, 63, 65, 4095, 4097, 4127] {
        let mut given = Fixture::of(&[""; 0]).in_columns(1);
        given.table = whole[..bytes].to_vec();
        for service in OF_TABLES {
            let sizes = Sizes::exact(1, bytes / 32);
            trials.run_sized(&format!("{bytes} bytes"), service, &given, sizes, &Expected::refused(1, 0));
        }
    }
}

/// Pack's rule 1.
#[test]
fn cells_that_are_not_m_times_n() {
    let mut trials = Trials::default();
    let rows = [
        ("a cell too many", 2, 2, 5),
        ("a cell too few", 2, 2, 3),
        ("a row too many", 2, 2, 6),
        ("a row too few", 2, 2, 2),
        ("no cells", 2, 2, 0),
        ("a cell with no columns", 0, 2, 1),
        ("a cell with no fragments", 2, 0, 1),
        ("a cell with nothing", 0, 0, 1),
        ("a cell too many for 128 x 128", 128, 128, 16_385),
        ("a cell too few for 128 x 128", 128, 128, 16_383),
    ];
    for (name, n, m, cells) in rows {
        let mut given = diagonal(m, 1).in_columns(n);
        given.cells = vec![1; cells];
        trials.run(name, Pack, &given, &Expected::refused(1, 0));
    }
}

/// Pack's rule 1 too. Its m is the number of tags.
#[test]
fn grades_that_are_not_m() {
    let mut trials = Trials::default();
    for (m, n) in [(0, 0), (0, 3), (1, 1), (3, 3), (127, 128), (128, 128)] {
        let whole = diagonal(m, n.max(1)).in_columns(n);
        trials.run(&format!("{m} fragments, {n} columns"), Pack, &whole, &Expected::packed(&whole));
        let lengths = [0, m.saturating_sub(1), m + 1, 2 * m, m + 256, m * n, 32 * m];
        for grades in lengths.into_iter().filter(|&grades| grades != m) {
            let given = Fixture { grades: vec![0; grades], ..whole.clone() };
            let name = format!("{m} fragments, {n} columns, {grades} grades");
            trials.run(&name, Pack, &given, &Expected::refused(1, 0));
        }
    }
}

/// Beside the other lengths that pack tests, some of them right for the number of grades.
#[test]
fn grades_and_other_lengths_of_pack() {
    let mut trials = Trials::default();
    // The columns, the lengths of tags, cells, grades and the table, and the number.
    let rows = [
        ("129 columns", 129, 2, 258, 3, 64, 3),
        ("a cell too few, a grade too many", 2, 2, 3, 3, 64, 1),
        ("a cell too many, a grade too few", 2, 2, 5, 1, 64, 1),
        ("cells as of the grades", 2, 2, 6, 3, 64, 1),
        ("cells and table as of the grades", 2, 2, 6, 3, 96, 1),
        ("table as of the grades", 2, 2, 4, 3, 96, 1),
        ("129 tags, 128 grades", 1, 129, 129, 128, 4128, 1),
        ("129 tags, 128 grades, cells and table as of these", 1, 129, 128, 128, 4096, 1),
        ("128 tags, 129 grades", 1, 128, 128, 129, 4096, 1),
        ("129 tags and grades", 1, 129, 129, 129, 4128, 2),
        ("a grade too few and no table", 2, 2, 4, 1, 0, 1),
        ("as many grades as tags, and no table", 2, 2, 4, 2, 0, 11),
    ];
    for (name, n, tags, cells, grades, table, number) in rows {
        let tags = (0..tags).collect();
        let given = Fixture { n, table: vec![], cells: vec![1; cells], tags, grades: vec![0; grades] };
        let sizes = Sizes { table, ..Sizes::of(&given) };
        trials.run_sized(name, Pack, &given, sizes, &Expected::refused(number, 0));
    }
}

/// The outputs, each with the service that fills it.
type Output = (Service, &'static str, fn(&mut Sizes) -> &mut usize);

const OUTPUTS: [Output; 10] = [
    (Unpack, "cells", |sizes| &mut sizes.cells),
    (Unpack, "tags", |sizes| &mut sizes.tags),
    (Unpack, "grades", |sizes| &mut sizes.grades),
    (Pack, "table", |sizes| &mut sizes.table),
    (Check, "answer", |sizes| &mut sizes.answer),
    (ConflictCounts, "counts", |sizes| &mut sizes.counts),
    (S, "answer", |sizes| &mut sizes.answer),
    (F, "answer", |sizes| &mut sizes.answer),
    (C, "answer", |sizes| &mut sizes.answer),
    (C, "table", |sizes| &mut sizes.table),
];

#[test]
fn outputs_of_another_length() {
    let mut trials = Trials::default();
    let tables = [("printed", Fixture::of(&PRINTED)), ("A", Fixture::of(&["A"])), ("full", diagonal(128, 128))];
    for (table, given) in &tables {
        for (service, output, length) in OUTPUTS {
            let exact = *length(&mut Sizes::of(given));
            for wrong in [0, exact - 1, exact + 1, 2 * exact, exact + 256] {
                let mut sizes = Sizes::of(given);
                *length(&mut sizes) = wrong;
                let name = format!("{table}, {output} of {wrong} and not {exact}");
                trials.run_sized(&name, service, given, sizes, &Expected::refused(11, 0));
            }
        }
    }
}

#[test]
fn an_output_for_nothing() {
    let mut trials = Trials::default();
    let nothing = Fixture::of(&[""; 0]);
    for (service, output, length) in OUTPUTS {
        let mut sizes = Sizes::of(&nothing);
        *length(&mut sizes) = 1;
        trials.run_sized(&format!("1 of {output}"), service, &nothing, sizes, &Expected::refused(11, 0));
    }
}

/// One output is short by what another has too much.
#[test]
fn outputs_that_make_up_for_each_other() {
    let mut trials = Trials::default();
    let given = Fixture::of(&PRINTED);
    let exact = Sizes::of(&given);
    let (more, fewer) = (exact.tags + 1, exact.tags - 1);
    let rows = [
        (Unpack, Sizes { cells: exact.cells - 1, tags: more, ..exact }),
        (Unpack, Sizes { cells: exact.cells + 1, tags: fewer, ..exact }),
        (Unpack, Sizes { cells: exact.cells - 1, grades: more, ..exact }),
        (Unpack, Sizes { cells: exact.cells + 1, grades: fewer, ..exact }),
        (Unpack, Sizes { tags: fewer, grades: more, ..exact }),
        (Unpack, Sizes { tags: more, grades: fewer, ..exact }),
        (C, Sizes { answer: exact.answer - 1, table: exact.table + 1, ..exact }),
        (C, Sizes { answer: exact.answer + 1, table: exact.table - 1, ..exact }),
    ];
    for (service, sizes) in rows {
        trials.run_sized("two outputs wrong", service, &given, sizes, &Expected::refused(11, 0));
    }
}

#[test]
fn short_work() {
    let mut trials = Trials::default();
    for (table, given) in [("printed", Fixture::of(&PRINTED)), ("full", diagonal(128, 128))] {
        for work in [0, 1, 16_384, 32_767] {
            for service in WITH_WORK {
                let sizes = Sizes { work, ..Sizes::of(&given) };
                let name = format!("{table}, work of {work}");
                trials.run_sized(&name, service, &given, sizes, &Expected::refused(10, 0));
            }
        }
    }
}

/// Work may be longer, and is all zero afterwards, whatever stood in it.
#[test]
fn enough_work() {
    let mut trials = Trials::default();
    let printed = Fixture::of(&PRINTED);
    let answers = [
        Expected::listed("1 101 A#B B#A 121 0,0,0"),
        Expected::listed("1 111 AA- BAA 120 0,0,-"),
        Expected::corrected("1 111 AAA -BB 112 0,0,0", &["AA-", "AAA", "-BB"]),
    ];
    let expected = Each::of_errors(&printed, Expected::counted("011 102 120"), answers);
    let full = diagonal(128, 128);
    let expected_of_full = Each::of_conflict_free(&full, &diagonal_fields(128, 128));
    let nothing = Fixture::of(&[""; 0]);
    let expected_of_nothing = Each::of_conflict_free(&nothing, ". . . . .");
    let tables =
        [("printed", printed, expected), ("full", full, expected_of_full), ("nothing", nothing, expected_of_nothing)];
    for (table, given, expected) in &tables {
        for work in [32_768, 32_769, 32_800, 40_000, 65_536, 65_537] {
            for service in WITH_WORK {
                let sizes = Sizes { work, ..Sizes::of(given) };
                trials.run_sized(&format!("{table}, work of {work}"), service, given, sizes, expected.of(service));
            }
        }
    }
}
