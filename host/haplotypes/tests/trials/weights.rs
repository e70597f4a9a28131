//! What C makes of grades: the least total of weights, the first sides of that total, and on each column and side the
//! letter of smaller weight changed, or the Bs where both weigh the same.

use crate::answers;
use crate::calls::Service::C;
use crate::calls::Trials;
use crate::expected::{Each, Expected};
use crate::fixtures::{padded, Fixture};
use crate::mates;

/// Of the grades 0 to 15, as paper 02 has them.
pub const WEIGHTS: [usize; 16] = [1, 1, 2, 3, 4, 6, 8, 10, 13, 16, 20, 25, 31, 38, 46, 60];

fn weight(grades: &[u8]) -> usize {
    grades.iter().map(|&grade| WEIGHTS[usize::from(grade)]).sum()
}

/// The least total and the fewest corrections differ: those of grades 0 are one A, and those of the others two Bs. With
/// weights of 60, 1, 1 and 60 the sides 1112 cost 2, on column 0; 1122 and 1212 cost 1 there and 2 on the others, 1222
/// costs 4 on these, and where the last is with the first they cost 60 or more on each.
#[test]
fn the_papers_four_fragments() {
    let mut trials = Trials::default();
    let fragments = ["AAA", "BAA", "BAA", "-BB"];
    let rows = [
        ([0, 0, 0, 0], "1 111 BAA -BB 1112 0,0,0,0", ["BAA", "BAA", "BAA", "-BB"]),
        ([15, 0, 0, 15], "2 111 AAA -BB 1112 0,0,0,0", ["AAA", "AAA", "AAA", "-BB"]),
    ];
    for (grades, line, corrected) in rows {
        let given = Fixture::of(&fragments).graded(&grades);
        let (s, f) = (Expected::listed("1 011 #AA #BB 1112 0,0,0,0"), Expected::listed("1 111 AAA BAA 1220 0,0,0,-"));
        let c = Expected::corrected_to(line, &Fixture::of(&corrected).graded(&grades));
        let each = Each::of_errors(&given, Expected::counted("0112 1002 1002 2220"), [s, f, c]);
        trials.run_each(&format!("grades {grades:?}"), &given, &each);
    }
}

/// A name, fragments, their grades, C's line, and the fragments of its table.
type Small = (&'static str, &'static [&'static str], &'static [u8], &'static str, &'static [&'static str]);

/// AA, AB, BA cost the lesser weight of the first two where these are together (112), that of the first and the last on
/// 121, twice that of the last two on 122, and on 111 as much as on 112 and another column. So do AA-, BAA, -BB. Of the
/// triangle each two cost their lesser weight, and three together more.
const SMALL: [Small; 21] = [
    ("the third is light", &["AA", "AB", "BA"], &[15, 15, 0], "1 11 AA AB 121 0,0,0", &["AA", "AB", "AA"]),
    ("the second is light", &["AA", "AB", "BA"], &[15, 0, 15], "1 11 AA BA 112 0,0,0", &["AA", "AA", "BA"]),
    ("the first is light", &["AA", "AB", "BA"], &[0, 15, 15], "1 11 AB BA 112 0,0,0", &["AB", "AB", "BA"]),
    ("2, 16 and 16", &["AA", "AB", "BA"], &[2, 9, 9], "2 11 AB BA 112 0,0,0", &["AB", "AB", "BA"]),
    ("60, 10 and 8", &["AA", "AB", "BA"], &[15, 7, 6], "8 11 AA AB 121 0,0,0", &["AA", "AB", "AA"]),
    ("60, 8 and 10", &["AA", "AB", "BA"], &[15, 6, 7], "8 11 AA BA 112 0,0,0", &["AA", "AA", "BA"]),
    ("60, and 1 of two grades", &["AA", "AB", "BA"], &[15, 1, 0], "1 11 AA BA 112 0,0,0", &["AA", "AA", "BA"]),
    (
        "printed: the third is light",
        &["AA-", "BAA", "-BB"],
        &[15, 15, 0],
        "1 111 AAB BAA 121 0,0,0",
        &["AA-", "BAA", "-AB"],
    ),
    ("printed: 60, 16 and 3", &["AA-", "BAA", "-BB"], &[15, 9, 3], "3 111 AAB BAA 121 0,0,0", &["AA-", "BAA", "-AB"]),
    ("printed: 60, 2 and 60", &["AA-", "BAA", "-BB"], &[15, 2, 15], "2 111 AAA -BB 112 0,0,0", &["AA-", "AAA", "-BB"]),
    // 1112 costs 60 on each column, and of the lists that cost 1 on each 1121 is the first.
    (
        "AA, AB, BA, BB: AA and BB are light",
        &["AA", "AB", "BA", "BB"],
        &[0, 15, 15, 0],
        "2 11 AB BA 1121 0,0,0,0",
        &["AB", "AB", "BA", "AB"],
    ),
    (
        "AA, AB, BA, BB: AB and BA are light",
        &["AA", "AB", "BA", "BB"],
        &[15, 0, 0, 15],
        "2 11 AA BB 1112 0,0,0,0",
        &["AA", "AA", "AA", "BB"],
    ),
    // As grades 0 would have it one B of column 1 turns to A. It weighs 60, and the two As turn to B.
    (
        "AA, AA, AB, BA, BA",
        &["AA", "AA", "AB", "BA", "BA"],
        &[0, 0, 15, 0, 0],
        "2 11 AB BA 11122 0,0,0,0,0",
        &["AB", "AB", "AB", "BA", "BA"],
    ),
    (
        "triangle: the last is light",
        &["AB-", "B-A", "-AB"],
        &[15, 15, 0],
        "1 111 ABB B-A 121 0,0,0",
        &["AB-", "B-A", "-BB"],
    ),
    (
        "triangle: the second is light",
        &["AB-", "B-A", "-AB"],
        &[15, 0, 15],
        "1 111 ABA -AB 112 0,0,0",
        &["AB-", "A-A", "-AB"],
    ),
    (
        "triangle: the first is light",
        &["AB-", "B-A", "-AB"],
        &[0, 15, 15],
        "1 111 BBA -AB 112 0,0,0",
        &["BB-", "B-A", "-AB"],
    ),
    ("triangle: 16, 13 and 13", &["AB-", "B-A", "-AB"], &[9, 8, 8], "13 111 ABA -AB 112 0,0,0", &["AB-", "A-A", "-AB"]),
    ("triangle: 16, 16 and 13", &["AB-", "B-A", "-AB"], &[9, 9, 8], "13 111 ABB B-A 121 0,0,0", &["AB-", "B-A", "-BB"]),
    ("triangle: 60 throughout", &["AB-", "B-A", "-AB"], &[15; 3], "60 111 ABA -AB 112 0,0,0", &["AB-", "A-A", "-AB"]),
    // With the five the last costs its own 60, since they weigh 300; with the other two 46 or, for side 1 to come first, 60.
    (
        "five that weigh 300, and 46",
        &["AAB-", "AAB-", "AAB-", "AAB-", "AAB-", "BB--", "BB-B", "--AA"],
        &[15, 15, 15, 15, 15, 15, 14, 15],
        "46 1111 AAB- BBAA 11111222 0,0,0,0,0,0,0,0",
        &["AAB-", "AAB-", "AAB-", "AAB-", "AAB-", "BB--", "BB-A", "--AA"],
    ),
    (
        "five that weigh 300, and 60",
        &["AAB-", "AAB-", "AAB-", "AAB-", "AAB-", "BB--", "BB-B", "--AA"],
        &[15; 8],
        "60 1111 AABA BB-B 11111221 0,0,0,0,0,0,0,0",
        &["AAB-", "AAB-", "AAB-", "AAB-", "AAB-", "BB--", "BB-B", "--BA"],
    ),
];

#[test]
fn small_tables() {
    let mut trials = Trials::default();
    for (name, fragments, grades, line, corrected) in SMALL {
        let corrected = Fixture::of(corrected).graded(grades);
        let given = Fixture::of(fragments).graded(grades);
        trials.run(name, C, &given, &Expected::corrected_to(line, &corrected));
    }
}

/// Where all corrections cost the same, C's total is that times their number, and all else is as of grade 0. So it is of
/// the grades 0 and 1 together, which weigh the same.
#[test]
fn grades_of_one_weight() {
    let mut trials = Trials::default();
    let of_answers = answers::ERRORS.map(|row| (row.name, row.fragments, row.c, row.corrected));
    let of_mates = mates::ERRORS.map(|row| (row.name, row.fragments, row.c, row.corrected));
    for (name, fragments, line, corrected) in of_answers.into_iter().chain(of_mates) {
        let mut run = |each: &str, weight: usize, grades: &[u8]| {
            let given = Fixture::of(fragments).graded(grades);
            let expected = Expected::corrected_to(line, &Fixture::of(corrected).graded(grades)).times(weight);
            trials.run(&format!("{name}, {each}"), C, &given, &expected);
        };
        for grade in 0..16 {
            run(&format!("grade {grade}"), weight(&[grade]), &vec![grade; fragments.len()]);
        }
        for first in 0..2 {
            let grades: Vec<u8> = (0..fragments.len()).map(|i| ((first + i) % 2) as u8).collect();
            run(&format!("grades {grades:?}"), 1, &grades);
        }
    }
}

/// A table in one block, and what C makes of it.
struct Table {
    fragments: Vec<String>,
    grades: Vec<u8>,
    total: usize,
    haplotypes: [String; 2],
    sides: String,
    corrected: Vec<String>,
}

/// Tables side by side, on columns of their own: the totals add up, and the sides and letters of each are its own.
fn run_beside(trials: &mut Trials, name: &str, tables: &[Table]) {
    let widths: Vec<usize> = tables.iter().map(|table| table.haplotypes[0].len()).collect();
    let n: usize = widths.iter().sum();
    let placed = |fragments: fn(&Table) -> &[String]| -> Vec<String> {
        let mut rows = vec![];
        for (k, table) in tables.iter().enumerate() {
            let before: usize = widths[..k].iter().sum();
            let after = n - before - widths[k];
            rows.extend(fragments(table).iter().map(|row| "-".repeat(before) + row + &"-".repeat(after)));
        }
        rows
    };
    let grades: Vec<u8> = tables.iter().flat_map(|table| table.grades.clone()).collect();
    let total: usize = tables.iter().map(|table| table.total).sum();
    let joined = |field: fn(&Table) -> &str| tables.iter().map(field).collect::<String>();
    let (one, two) = (joined(|table| &table.haplotypes[0]), joined(|table| &table.haplotypes[1]));
    let mut blocks: Vec<String> = vec![];
    for table in tables {
        blocks.extend(vec![blocks.len().to_string(); table.sides.len()]);
    }
    let sides = joined(|table| &table.sides);
    let line = format!("{total} {} {one} {two} {sides} {}", "1".repeat(n), blocks.join(","));
    let given = Fixture::of(&placed(|table| &table.fragments)).graded(&grades);
    let corrected = Fixture::of(&placed(|table| &table.corrected)).graded(&grades);
    trials.run(name, C, &given, &Expected::corrected_to(&line, &corrected));
}

/// Up to seven fragments, each with a word on some columns and As on three times as many and one more, and a last one of
/// weight 60 with Bs on these. C has the seven together, and on each column of the words the letter of smaller weight
/// changes: to put fragments of a weight t beside the last costs t on each of the latter columns, or 60 where t is over
/// 60, and saves on each of the words' at most t, and at most 180, which is the most that the lesser of seven can weigh.
fn together(words: &[String], grades: &[u8]) -> Table {
    assert!((1..=7).contains(&words.len()), "at most 8 fragments to a column");
    let columns = words[0].len();
    let held = 3 * columns + 1;
    let weight_of = |c: usize, letter: u8| -> usize {
        let grades = words.iter().zip(grades).filter(|(word, _)| word.as_bytes()[c] == letter);
        grades.map(|(_, &grade)| weight(&[grade])).sum()
    };
    let weights: Vec<[usize; 2]> = (0..columns).map(|c| [weight_of(c, b'A'), weight_of(c, b'B')]).collect();
    let right: String = weights.iter().map(|[a, b]| if a < b { 'B' } else { 'A' }).collect();
    let (last, haplotype) = ("-".repeat(columns) + &"B".repeat(held), right + &"A".repeat(held));
    let fragments = words.iter().map(|word| word.clone() + &"A".repeat(held)).chain([last.clone()]).collect();
    let corrected = words.iter().map(|_| haplotype.clone()).chain([last.clone()]).collect();
    Table {
        fragments,
        grades: [grades, &[15]].concat(),
        total: weights.iter().map(|[a, b]| a.min(b)).sum(),
        haplotypes: [haplotype, last],
        sides: "1".repeat(words.len()) + "2",
        corrected,
    }
}

/// The same of one column, with a letter to each fragment.
fn column(letters: &str, grades: &[u8]) -> Table {
    together(&letters.chars().map(String::from).collect::<Vec<String>>(), grades)
}

/// For each grade, others that weigh one less together, the same, and one more.
const SUMS: [[&[u8]; 3]; 16] = [
    [&[], &[1], &[2]],                    // 1 against 0, 1, 2
    [&[], &[0], &[2]],                    // the same
    [&[0], &[0, 1], &[3]],                // 2 against 1, 1 + 1, 3
    [&[2], &[0, 2], &[4]],                // 3 against 2, 1 + 2, 4
    [&[3], &[1, 3], &[2, 3]],             // 4 against 3, 1 + 3, 2 + 3
    [&[2, 3], &[2, 4], &[3, 4]],          // 6 against 2 + 3, 2 + 4, 3 + 4
    [&[3, 4], &[2, 5], &[3, 5]],          // 8 against 3 + 4, 2 + 6, 3 + 6
    [&[3, 5], &[4, 5], &[3, 6]],          // 10 against 3 + 6, 4 + 6, 3 + 8
    [&[2, 7], &[3, 7], &[4, 7]],          // 13 against 2 + 10, 3 + 10, 4 + 10
    [&[2, 8], &[3, 8], &[4, 8]],          // 16 against 2 + 13, 3 + 13, 4 + 13
    [&[3, 9], &[4, 9], &[6, 8]],          // 20 against 3 + 16, 4 + 16, 8 + 13
    [&[4, 10], &[2, 7, 8], &[5, 10]],     // 25 against 4 + 20, 2 + 10 + 13, 6 + 20
    [&[7, 10], &[5, 11], &[5, 7, 9]],     // 31 against 10 + 20, 6 + 25, 6 + 10 + 16
    [&[5, 12], &[8, 11], &[6, 12]],       // 38 against 6 + 31, 13 + 25, 8 + 31
    [&[10, 11], &[6, 13], &[9, 12]],      // 46 against 20 + 25, 8 + 38, 16 + 31
    [&[8, 14], &[0, 8, 14], &[2, 8, 14]], // 60 against 13 + 46, 1 + 13 + 46, 2 + 13 + 46
];

#[test]
fn sums_around_each_weight() {
    for (weight_of_grade, others) in WEIGHTS.into_iter().zip(SUMS) {
        assert_eq!(others.map(weight), [weight_of_grade - 1, weight_of_grade, weight_of_grade + 1]);
    }
}

/// One fragment against the others on a column, with either letter, and first or last.
#[test]
fn each_weight_decides_a_letter() {
    let mut trials = Trials::default();
    for (grade, sums) in (0..).zip(SUMS) {
        for others in sums {
            for [one, rest] in [["A", "B"], ["B", "A"]] {
                let (first, last) = (one.to_owned() + &rest.repeat(others.len()), rest.repeat(others.len()) + one);
                let name = format!("{one} of grade {grade} against {rest} of {others:?}");
                run_beside(&mut trials, &name, &[column(&first, &[&[grade], others].concat())]);
                run_beside(&mut trials, &name, &[column(&last, &[others, &[grade]].concat())]);
            }
        }
    }
}

#[test]
fn every_two_grades_on_a_column() {
    let mut trials = Trials::default();
    for (a, b) in (0..16).flat_map(|a| (0..16).map(move |b| (a, b))) {
        run_beside(&mut trials, &format!("A of grade {a}, B of {b}"), &[column("AB", &[a, b])]);
    }
}

/// AA, BB, AAB, then BB-B, BB--B, .. for the others, and --AAA.. at the end, of the weights 60, 60, that of the grade, those
/// of the others, and 60. The last conflicts with the third on column 2, and with each of the others on a column of its
/// own. So on side 1 it costs the weight of the grade and on side 2 that of the others, and on equal weights side 1 comes
/// first. Either way Bs become A: none weighs more than the last. To move the second costs 120 on columns 0 and 1, and to
/// move others twice their weight there, or 120.
fn last_fragment(grade: u8, others: &[u8]) -> Table {
    let (k, n) = (others.len(), 3 + others.len());
    let [more_as, more_bs] = ["A", "B"].map(|letter| letter.repeat(k));
    let table = |third: &str, rest: &str| -> Vec<String> {
        let of_others = (0..k).map(|i| format!("BB-{}{rest}", "-".repeat(i)));
        let rows = ["AA", "BB", third].map(String::from).into_iter().chain(of_others).chain([format!("--A{more_as}")]);
        rows.map(|row| padded(&row, n)).collect()
    };
    let (of_grade, of_others) = (weight(&[grade]), weight(others));
    let (corrected, haplotypes, side) = if of_grade <= of_others {
        (table("AAA", "B"), [format!("AAA{more_as}"), format!("BB-{more_bs}")], 1)
    } else {
        (table("AAB", "A"), [padded("AAB", n), format!("BBA{more_as}")], 2)
    };
    Table {
        fragments: table("AAB", "B"),
        grades: [&[15, 15, grade], others, &[15]].concat(),
        total: of_grade.min(of_others),
        haplotypes,
        sides: format!("121{}{side}", "2".repeat(k)),
        corrected,
    }
}

#[test]
fn each_weight_decides_a_side() {
    let mut trials = Trials::default();
    for (grade, sums) in (0..).zip(SUMS) {
        for others in sums {
            run_beside(&mut trials, &format!("{grade} against {others:?}"), &[last_fragment(grade, others)]);
        }
    }
}

/// Every way to have As and Bs on a column of seven fragments, 23 columns to a table.
#[test]
fn every_column_of_seven() {
    let mut trials = Trials::default();
    let letter = |column: usize, fragment: usize| if column >> fragment & 1 == 1 { 'B' } else { 'A' };
    let all: Vec<usize> = (0..128).collect();
    let mixed = (0..16).map(|first| [0, 5, 10, 15, 20, 25, 30].map(|more| (first + more) % 16));
    for grades in mixed.chain([[14; 7], [15; 7]]) {
        for columns in all.chunks(23) {
            let word = |fragment: usize| columns.iter().map(|&column| letter(column, fragment)).collect::<String>();
            let table = together(&(0..7).map(word).collect::<Vec<String>>(), &grades);
            run_beside(&mut trials, &format!("columns from {} on, grades {grades:?}", columns[0]), &[table]);
        }
    }
}

/// One letter has a weight that is 0 when it is cut to so many bits, up to 256 in 8. Against the other letter the table
/// is error-free, and all on one side would cost nothing only if it were 0.
#[test]
fn letters_that_weigh_a_power_of_2() {
    let mut trials = Trials::default();
    let rows: [(usize, &[u8]); 8] = [
        (2, &[2]),
        (4, &[0, 3]),
        (8, &[2, 5]),
        (16, &[3, 8]),
        (32, &[9, 9]),
        (64, &[4, 15]),
        (128, &[6, 15, 15]),
        (256, &[9, 15, 15, 15, 15]),
    ];
    for (power, grades) in rows {
        assert_eq!(weight(grades), power);
        let (m, blocks) = (grades.len(), vec!["0"; grades.len() + 1].join(","));
        for [many, one] in [["A", "B"], ["B", "A"]] {
            let last = Fixture::of(&[vec![many; m], vec![one]].concat()).graded(&[grades, &[15]].concat());
            let line = format!("0 1 {many} {one} {}2 {blocks}", "1".repeat(m));
            trials.run(&format!("{one} after {power} of {many}"), C, &last, &Expected::corrected_to(&line, &last));
            let first = Fixture::of(&[vec![one], vec![many; m]].concat()).graded(&[&[15], grades].concat());
            let line = format!("0 1 {one} {many} 1{} {blocks}", "2".repeat(m));
            trials.run(&format!("{one} before {power} of {many}"), C, &first, &Expected::corrected_to(&line, &first));
        }
    }
}

/// 128 fragments on 128 columns: twelve tables of 9 columns and four of 5, with eight fragments each.
#[test]
fn full_tables() {
    let mut trials = Trials::default();
    for first in 0..16 {
        let table = |k: usize| {
            let columns = if k < 12 { 2 } else { 1 };
            let letter =
                |fragment: usize, c: usize| if (first + k + 3 * c) >> (fragment % 4) & 1 == 1 { 'B' } else { 'A' };
            let word = |fragment: usize| (0..columns).map(|c| letter(fragment, c)).collect::<String>();
            let grades: Vec<u8> = (0..7).map(|i| ((first + 3 * k + 5 * i) % 16) as u8).collect();
            together(&(0..7).map(word).collect::<Vec<String>>(), &grades)
        };
        run_beside(&mut trials, &format!("full table {first}"), &(0..16).map(table).collect::<Vec<Table>>());
    }
}

/// Each weight against the sums around it, all beside each other.
#[test]
fn all_weights_in_a_table() {
    let mut trials = Trials::default();
    for k in 0..3 {
        let others = (0..).zip(SUMS.map(|sums| sums[k]));
        let letters = |others: &[u8]| format!("B{}", "A".repeat(others.len()));
        let columns = others.clone().map(|(grade, others)| column(&letters(others), &[&[grade], others].concat()));
        run_beside(&mut trials, &format!("letters, sum {k}"), &columns.collect::<Vec<Table>>());
        let sides = others.map(|(grade, others)| last_fragment(grade, others));
        run_beside(&mut trials, &format!("sides, sum {k}"), &sides.collect::<Vec<Table>>());
    }
}
