//! Full tables, whose answers follow from how they are made.

use std::ops::Range;

use crate::calls::{Service, Trials};
use crate::expected::{Each, Expected};
use crate::fixtures::Fixture;
use crate::weights::WEIGHTS;

/// The numbers of blocks, or `-`, as a field.
fn joined(m: usize, block: impl Fn(usize) -> Option<usize>) -> String {
    let blocks: Vec<String> = (0..m).map(|i| block(i).map_or("-".to_owned(), |number| number.to_string())).collect();
    blocks.join(",")
}

/// 16 steps of 8 columns, each called by 8 fragments: four of As, the second of which may be another, and four of Bs.
fn steps(second: &str) -> Vec<String> {
    let step = ["AAAAAAAA", second, "AAAAAAAA", "AAAAAAAA", "BBBBBBBB", "BBBBBBBB", "BBBBBBBB", "BBBBBBBB"];
    (0..128).map(|i| "-".repeat(i / 8 * 8) + step[i % 8] + &"-".repeat(120 - i / 8 * 8)).collect()
}

/// The counts from how many Bs each fragment of a step has. The Bs of one lie among those of any with more, so two
/// conflict on as many columns as these numbers differ by.
fn counted_in_steps(bs: [usize; 8]) -> Expected {
    Expected::counted_by(128, |i, j| if i / 8 == j / 8 { bs[i % 8].abs_diff(bs[j % 8]) } else { 0 })
}

/// In each step a fragment has no B, one on the third column, or 8 of them. So fragments 0, 1 and 4 conflict with each
/// other, and each step needs a change. S: without another column than the third they still do. F: any fragment but 1
/// has an equal one, which would still do. C: a side with some of the first four and some of the last costs 7 or more,
/// 1 on each column but the third; apart, they cost 1, on the third.
#[test]
fn steps_of_depth_8() {
    let mut trials = Trials::default();
    let given = Fixture::of(&steps("AABAAAAA"));
    let (kept, sides) = ("1".repeat(128), "11112222".repeat(16));
    let (a, b) = ("A".repeat(128), "B".repeat(128));
    let blocks = joined(128, |i| Some(i / 8 * 8));
    let s =
        format!("16 {} {} {} {sides} {blocks}", "11011111".repeat(16), "AA#AAAAA".repeat(16), "BB#BBBBB".repeat(16));
    let left = joined(128, |i| (i % 8 != 1).then_some(i / 8 * 8));
    let f = format!("16 {kept} {a} {b} {} {left}", "10112222".repeat(16));
    let c = format!("16 {kept} {a} {b} {sides} {blocks}");
    let c = Expected::corrected(&c, &steps("AAAAAAAA"));
    let answers = [Expected::listed(&s), Expected::listed(&f), c];
    let expected = Each::of_errors(&given, counted_in_steps([0, 1, 0, 0, 8, 8, 8, 8]), answers);
    trials.run_each("16 steps with an error each", &given, &expected);
    let right = Fixture::of(&steps("AAAAAAAA"));
    let fields = format!("{kept} {a} {b} {sides} {blocks}");
    let expected = Each::of_error_free(&right, counted_in_steps([0, 0, 0, 0, 8, 8, 8, 8]), &fields);
    trials.run_each("16 steps without errors", &right, &expected);
}

/// Holes on the fourth to sixth column of every step.
fn with_holes(letters: &str) -> String {
    letters.char_indices().map(|(c, letter)| if (3..6).contains(&(c % 8)) { '-' } else { letter }).collect()
}

/// The steps as mates of three and two columns, over three that no one calls: a fragment has no B, one on the third
/// column, or 5 of them. C: a side with some of the first four and some of the last costs 4 or more, and apart they
/// cost 1.
#[test]
fn steps_of_mates() {
    let mut trials = Trials::default();
    let holed = |second: &str| -> Vec<String> { steps(second).iter().map(|letters| with_holes(letters)).collect() };
    let haplotypes = ["A", "B"].map(|letter| with_holes(&letter.repeat(128))).join(" ");
    let fields =
        format!("{} {haplotypes} {} {}", "1".repeat(128), "11112222".repeat(16), joined(128, |i| Some(i / 8 * 8)));
    let given = Fixture::of(&holed("AABAAAAA"));
    let c = Expected::corrected(&format!("16 {fields}"), &holed("AAAAAAAA"));
    let expected = Each::of_gapped_errors(&given, 0, counted_in_steps([0, 1, 0, 0, 5, 5, 5, 5]), c);
    trials.run_each("16 steps of mates with an error each", &given, &expected);
    let right = Fixture::of(&holed("AAAAAAAA"));
    let expected = Each::of_error_free(&right, counted_in_steps([0, 0, 0, 0, 5, 5, 5, 5]), &fields).gapped(0);
    trials.run_each("16 steps of mates without errors", &right, &expected);
}

/// Fragment i spells the bits of i, B for 1, lowest first: two fragments conflict where their bits differ. Every two
/// do, so F keeps the first two.
/// On every two columns there are AA, AB, BA and BB, so S keeps the first column.
#[test]
fn every_word_of_7_letters() {
    let mut trials = Trials::default();
    let word = |i: usize| (0..7).map(|c| if i >> c & 1 == 1 { 'B' } else { 'A' }).collect::<String>();
    let words: Vec<String> = (0..128).map(word).collect();
    let given = Fixture::of(&words);
    let s = format!("6 1000000 A###### B###### {} {}", "12".repeat(64), joined(128, |_| Some(0)));
    let left = joined(128, |i| (i < 2).then_some(0));
    let f = format!("126 1111111 AAAAAAA BAAAAAA 12{} {left}", "0".repeat(126));
    let c = Expected::refused(12, 0);
    let counted = Expected::counted_by(128, |i, j| (i ^ j).count_ones() as usize);
    let expected = Each::of_errors(&given, counted, [Expected::listed(&s), Expected::listed(&f), c]);
    trials.run_each("128 words", &given, &expected);
}

/// A pattern of 8 rows: B throughout in row 0, and in row b > 0 where bit b - 1 of the column is 1.
fn pattern(row: usize, column: usize) -> char {
    if row == 0 || column >> (row - 1) & 1 == 1 {
        'B'
    } else {
        'A'
    }
}

/// The pattern over columns 0 to 95, and again over columns 32 to 127. Where all 8 rows call two mixed columns, both
/// can stay only if they part the rows alike; row 0 is B in both, so they would be equal, and no two are. So one mixed
/// column of 0 to 95 can stay, and one of 32 to 126: at most two, the first of which are 0 and 96. Column 127 is all B.
#[test]
fn snps_of_which_125_must_go() {
    let mut trials = Trials::default();
    let fragment = |i: usize| {
        let called = i / 8 * 32..i / 8 * 32 + 96;
        (0..128).map(|c| if called.contains(&c) { pattern(i % 8, c) } else { '-' }).collect::<String>()
    };
    let fragments: Vec<String> = (0..16).map(fragment).collect();
    let (first, rest) = ("0".repeat(95), "0".repeat(30));
    let (removed, removed_rest) = ("#".repeat(95), "#".repeat(30));
    // Column 0 is B in row 0 alone; column 96, which is 32 + 64, in rows 0, 6 and 7.
    let sides = format!("1{}1{}11", "2".repeat(7), "2".repeat(5));
    let s = format!(
        "125 1{first}1{rest}1 B{removed}B{removed_rest}B A{removed}A{removed_rest}B {sides} {}",
        joined(16, |i| Some(i / 8 * 8))
    );
    trials.run("127 mixed columns", Service::S, &Fixture::of(&fragments), &Expected::listed(&s));
}

/// 64 fragments of 96 columns from 0 on and 64 from 32 on, all A and all B by turns; but fragment 5, of Bs, has an A on
/// column 60, which every fragment calls. So it conflicts with the Bs on column 60 and with the As elsewhere, and these with
/// each other: one column will do only if it is 60, and one fragment only if it is 5. Fragments of one start share 96
/// columns, the others 64.
#[test]
fn long_fragments_with_one_error() {
    let mut trials = Trials::default();
    let fragment = |i: usize| {
        let start = i / 64 * 32;
        let letter = |c| if i % 2 == 1 && (i, c) != (5, 60) { 'B' } else { 'A' };
        (0..128).map(|c| if (start..start + 96).contains(&c) { letter(c) } else { '-' }).collect::<String>()
    };
    let fragments: Vec<String> = (0..128).map(fragment).collect();
    let given = Fixture::of(&fragments);
    let without_60 = |letter: &str, gap: &str| letter.repeat(60) + gap + &letter.repeat(67);
    let (kept, a, b) = (without_60("1", "0"), without_60("A", "#"), without_60("B", "#"));
    let s = format!("1 {kept} {a} {b} {} {}", "12".repeat(64), joined(128, |_| Some(0)));
    let sides = format!("121210{}", "12".repeat(61));
    let left = joined(128, |i| (i != 5).then_some(0));
    let f = format!("1 {} {} {} {sides} {left}", "1".repeat(128), "A".repeat(128), "B".repeat(128));
    let c = Expected::refused(12, 0);
    let shared = |i: usize, j: usize| if i / 64 == j / 64 { 96 } else { 64 };
    let counted = Expected::counted_by(128, |i, j| match (i % 2 == j % 2, (i == 5) == (j == 5)) {
        (true, true) => 0,
        (true, false) => 1,
        (false, true) => shared(i, j),
        (false, false) => shared(i, j) - 1,
    });
    let expected = Each::of_errors(&given, counted, [Expected::listed(&s), Expected::listed(&f), c]);
    trials.run_each("one error", &given, &expected);
}

#[test]
fn equal_long_fragments() {
    let mut trials = Trials::default();
    for letter in ["A", "B"] {
        let letters = letter.repeat(96);
        let given = Fixture::of(&vec![letters.clone(); 128]);
        let blocks = joined(128, Some);
        let fields = format!("{} {letters} {} {} {blocks}", "1".repeat(96), "-".repeat(96), "1".repeat(128));
        let name = format!("128 fragments of 96 {letter}s");
        trials.run_each(&name, &given, &Each::of_conflict_free(&given, &fields).too_deep(0));
    }
}

/// Eight words. Each column has four As and four Bs, any two words differ on four columns, and any three agree on one.
///
/// What the columns cost, by how many of eight fragments with these words are on one side and the rest on the other:
/// none, 4 on each column, so 28; one, 3 on each, 21; two, 2 on the three columns on which they agree and 4 on the others,
/// 22; three, 1 on the column on which they agree and 3 on the others, 19; four that agree on a column, 0 there and 4 on
/// the others, 24; any other four, 2 on the four columns on which three of them agree and 4 on the others, 20. So any
/// three against the rest cost least, and 11111222 is the first such list. The last three agree on the first column.
const WORDS: [&str; 8] = ["AAAAAAA", "ABABBAB", "AABBABB", "ABBABBA", "BBBBAAA", "BABABAB", "BBAAABB", "BAABBBA"];

/// The words after correction on the sides 11111222.
const CORRECTED_WORDS: [&str; 8] =
    ["ABBBAAA", "ABBBAAA", "ABBBAAA", "ABBBAAA", "ABBBAAA", "BAAABBB", "BAAABBB", "BAAABBB"];

#[test]
fn three_words_agree_on_one_column() {
    let letter = |word: usize, c: usize| WORDS[word].as_bytes()[c];
    let columns =
        |words: &[usize]| (0..7).filter(|&c| words.iter().all(|&i| letter(i, c) == letter(words[0], c))).count();
    for (i, j) in (0..8).flat_map(|j| (0..j).map(move |i| (i, j))) {
        assert_eq!(columns(&[i, j]), 3, "words {i} and {j}");
        assert!((0..i).all(|h| columns(&[h, i, j]) == 1), "words {i}, {j} and an earlier one");
    }
    assert!((0..7).all(|c| (0..8).filter(|&i| letter(i, c) == b'A').count() == 4));
}

/// A word on columns 0 to 6, 7 to 13, .. as far as these are in the range, and holes elsewhere.
fn repeated(word: &str, columns: &Range<usize>) -> String {
    let letter = |c: usize| if columns.contains(&c) { word.as_bytes()[c % 7] as char } else { '-' };
    (0..128).map(letter).collect()
}

/// Eight fragments with the words on each range.
fn spelled(words: [&str; 8], ranges: &[Range<usize>]) -> Vec<String> {
    ranges.iter().flat_map(|columns| words.map(|word| repeated(word, columns))).collect()
}

/// C's line where the sides are 11111222 on each range.
fn line_of_words(total: usize, ranges: usize) -> String {
    let [one, two] = [CORRECTED_WORDS[0], CORRECTED_WORDS[7]].map(|word| repeated(word, &(0..128)));
    let blocks = joined(8 * ranges, |i| Some(i / 8 * 8));
    format!("{total} {} {one} {two} {} {blocks}", "1".repeat(128), "11111222".repeat(ranges))
}

/// 128 fragments: 15 ranges of seven columns and one of 23, three times seven and the first two again, on which three
/// that agree on one of these cost 3 × 19 + 1 + 3, and four 60 and at least 4 more. So C changes 15 × 19 + 61 calls, 346.
/// No two columns of seven part the words alike, so S keeps the first, and those like it. All eight conflict, so F keeps
/// two.
///
/// All on one side would cost 30,720 by the weight 60, but no table has that as its least total: by the eight fragments
/// of a column, three on a side cost 1 in 8 of the 56 ways and else 3 if there are four As and four Bs, 19 / 7 in the
/// mean, and less if not. So by a slot below 8 for each fragment some three slots cost at most 128 × 19 / 7, and no table
/// has over 347 calls changed at the least cost where all weigh the same.
#[test]
fn short_words_of_each_grade() {
    let mut trials = Trials::default();
    let ranges: Vec<Range<usize>> = (0..16).map(|k| 7 * k..if k < 15 { 7 * k + 7 } else { 128 }).collect();
    let all = |word| repeated(word, &(0..128));
    let (every, first_two) = (joined(128, |i| Some(i / 8 * 8)), joined(128, |i| (i % 8 < 2).then_some(i / 8 * 8)));
    let s = format!("109 {} {} {} {} {every}", all("1000000"), all("A######"), all("B######"), "11112222".repeat(16));
    let f = format!("96 {} {} {} {} {first_two}", "1".repeat(128), all(WORDS[0]), all(WORDS[1]), "12000000".repeat(16));
    let letter = |i: usize, c: usize| WORDS[i % 8].as_bytes()[c % 7];
    let counted = Expected::counted_by(128, |i, j| {
        ranges[i / 8].clone().filter(|&c| i / 8 == j / 8 && letter(i, c) != letter(j, c)).count()
    });
    let given = |grades: &[u8]| Fixture::of(&spelled(WORDS, &ranges)).graded(grades);
    let corrected = |total: usize, grades: &[u8]| {
        let after = Fixture::of(&spelled(CORRECTED_WORDS, &ranges)).graded(grades);
        Expected::corrected_to(&line_of_words(total, 16), &after)
    };
    for (grade, total) in [(0, 346), (15, 20_760)] {
        let (given, c) = (given(&[grade; 128]), corrected(total, &[grade; 128]));
        let each = Each::of_errors(&given, counted.clone(), [Expected::listed(&s), Expected::listed(&f), c]);
        trials.run_each(&format!("grade {grade}"), &given, &each);
    }
    for (grade, weight) in (0..).zip(WEIGHTS) {
        let grades = [grade; 128];
        trials.run(&format!("grade {grade}"), Service::C, &given(&grades), &corrected(346 * weight, &grades));
    }
    // The weights of the grades 0 to 14 are 224 together: 19 × 224 + 61 × 60.
    let grades: Vec<u8> = (0..128).map(|i| i / 8).collect();
    trials.run("a grade to each range", Service::C, &given(&grades), &corrected(7_916, &grades));
}

/// 16 fragments: columns 0 to 95 are 13 times seven and the first five again, on which three that agree on one of these
/// cost 13 × 19 + 1 + 4 × 3, and four 260 and at least 10 more; the others are four times seven and four more columns, on
/// which three cost 4 × 19 + 1 + 3 × 3, and four 80 and at least 8 more. That is 260 + 86.
#[test]
fn long_words_of_each_grade() {
    let mut trials = Trials::default();
    let ranges = [0..96, 96..128];
    for (grade, weight) in (0..).zip(WEIGHTS) {
        let [given, after] =
            [WORDS, CORRECTED_WORDS].map(|words| Fixture::of(&spelled(words, &ranges)).graded(&[grade; 16]));
        let c = Expected::corrected_to(&line_of_words(346 * weight, 2), &after);
        trials.run(&format!("grade {grade}"), Service::C, &given, &c);
    }
}
