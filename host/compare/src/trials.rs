//! Paper 01's trials, for every method, with the mate pairs of paper 02's T-01, the order of records of its T-02, its fragments
//! without calls, its grades (`grades`), and the counts of conflicts.

mod grades;

use crate::answer::Answers;
use crate::counts::{across_64, conflict_counts, conflicting_apart, over_64, sharing_apart};
use crate::coverage::{demands, OtherOrder, OTHER_ORDERS};
use crate::order::{falls, keys_of_cells, keys_of_table, Other, OTHERS};
use crate::record::{
    column_count, first_without_calls, graded, has_call, in_order, places_of, record, stretch, Matrix, RECORD,
};
use crate::rng::Rng;
use crate::rules::{call_fault, fault_in_any_order, gapped, table_fault, too_deep, Given, Refusal, MOST_FRAGMENTS};
use crate::seen::Seen;
use crate::self_test::{
    gapped_triangle, printed_table, stored_table, unordered_triangle, PRINTED_LISTING, STORED_LISTING,
    TRIANGLE_LISTING, UNORDERED_LISTING,
};
use crate::service::Buffer::{Answer, Corrected, Counts, Work};
use crate::service::Service::{self, Check, ConflictCounts, Corrections, Fragments, Pack, Snps, Unpack};
use crate::uncalled::{self, Uncalled};
use crate::{brute, expected, gaps, generate, listing, methods, rules};

/// A table of fragments as the paper writes them, one letter to a column.
fn table(fragments: &[&str]) -> Vec<u8> {
    fragments.iter().enumerate().flat_map(|(tag, fragment)| fragment_record(tag as u32, fragment)).collect()
}

fn fragment_record(tag: u32, fragment: &str) -> [u8; RECORD] {
    let start = fragment.find(['A', 'B']).unwrap_or(0);
    let code = |letter| ['-', 'A', 'B'].iter().position(|&known| known == letter).expect("a letter") as u8;
    let calls: Vec<u8> = fragment[start..].trim_end_matches('-').chars().map(code).collect();
    record(tag, start, &calls)
}

fn matrix(fragments: &[&str]) -> Matrix {
    let bytes = table(fragments);
    let n = fragments.first().map_or(0, |fragment| fragment.len());
    assert_eq!(table_fault(n, &bytes), None);
    Matrix::read(&bytes, n)
}

/// The answers of every method, which must agree; none of S or F has one for a gapped table.
fn answers(fragments: &[&str]) -> (Matrix, Answers) {
    let matrix = matrix(fragments);
    let (answers, by) = methods::answers(&matrix).expect("the methods agree");
    let mut names = methods::names();
    names.retain(|name| !matrix.is_gapped() || !name.starts_with(['S', 'F']));
    assert_eq!(by, names, "each settles a small table");
    (matrix, answers)
}

fn text(fragments: &[&str]) -> String {
    let (matrix, answers) = answers(fragments);
    listing::accepted(&matrix, &answers)
}

const TAKING_HOLES: [Service; 4] = [Unpack, Check, ConflictCounts, Corrections];

fn refusal(number: usize, place: usize) -> Option<Refusal> {
    Some(Refusal { number, place })
}

/// The fault of fragments of grade 0 given to pack.
fn pack_fault(n: usize, cells: &[u8], tags: &[u32], table_length: usize) -> Option<Refusal> {
    rules::pack_fault(Given { n, cells, tags, grades: &vec![0; tags.len()] }, table_length)
}

fn pack_fault_without(rule: usize, n: usize, cells: &[u8], tags: &[u32]) -> Option<Refusal> {
    rules::pack_fault_without(rule, Given { n, cells, tags, grades: &vec![0; tags.len()] })
}

#[test]
fn the_printed_table() {
    let bytes = printed_table();
    assert_eq!(bytes[..9], [10, 0, 0, 0, 0, 0, 2, 0, 5]);
    assert_eq!(bytes[32..41], [11, 0, 0, 0, 0, 0, 3, 0, 0x16]);
    assert_eq!(bytes[64..73], [12, 0, 0, 0, 1, 0, 2, 0, 0x0a]);
    assert_eq!(text(&["AA-", "BAA", "-BB"]), PRINTED_LISTING);
}

#[test]
fn no_records() {
    let expected = "fragments 0 snps 0\nerror-free yes\nS 0 . . . . .\nF 0 . . . . .\nC 0 . . . . .\n";
    assert_eq!(text(&[]), expected);
}

#[test]
fn a_and_b_on_one_column() {
    let answer = answers(&["A", "B"]).1.check.expect("a yes");
    assert_eq!(answer.bytes(), [1, 1, 2, 1, 2, 0, 0]);
}

#[test]
fn aa_and_aa() {
    let answer = answers(&["AA", "AA"]).1.check.expect("a yes");
    assert_eq!(answer.bytes(), [1, 1, 1, 1, 0, 0, 1, 1, 0, 1]);
}

#[test]
fn aa_ab_ba() {
    let (_, answers) = answers(&["AA", "AB", "BA"]);
    assert_eq!(answers.check, None);
    let snps = answers.snps.expect("gapless");
    assert_eq!((snps.count, snps.keep), (1, vec![true, false]));
    assert_eq!(snps.sides, [1, 1, 2]);
    assert_eq!(answers.corrections.expect("shallow").count, 1);
}

#[test]
fn aa_ab_ba_bb() {
    let (matrix, answers) = answers(&["AA", "AB", "BA", "BB"]);
    let fragments = answers.fragments.expect("gapless");
    assert_eq!(answers.snps.expect("gapless").count, 1);
    assert_eq!((fragments.count, fragments.sides), (2, vec![1, 2, 0, 0]));
    let corrections = answers.corrections.expect("shallow");
    assert_eq!((corrections.count, &corrections.sides), (2, &vec![1, 1, 1, 2]));
    assert_eq!(corrections.haplotypes, [[1, 1], [2, 2]]);
    assert_eq!(brute::corrected(&matrix, &corrections.sides).rows, [[1, 1], [1, 1], [1, 1], [2, 2]]);
}

#[test]
fn conflicts_that_are_removed_or_corrected_join_no_blocks() {
    let (_, answers) = answers(&["AA-", "AB-", "BAA", "-AA"]);
    assert_eq!(answers.snps.expect("gapless").blocks, [Some(0), Some(0), Some(0), Some(3)]);
    assert_eq!(answers.fragments.expect("gapless").blocks, [Some(0), Some(0), None, Some(0)]);
    assert_eq!(answers.corrections.expect("shallow").blocks, [Some(0), Some(0), Some(0), Some(3)]);
}

/// What a run must have seen of blocks: two that agree, one conflict that S removes and one that C corrects.
#[test]
fn fragments_in_two_blocks() {
    let found = |rows: &[&str]| {
        let (matrix, answers) = answers(rows);
        let (snps, corrections) = (answers.snps.expect("gapless"), answers.corrections.expect("shallow"));
        let [removed, corrected] = [&snps, &corrections].map(|answer| conflicting_apart(&matrix, answer));
        (sharing_apart(&matrix, &snps), removed, corrected)
    };
    assert_eq!(found(&["AA-", "AB-", "BAA", "-AA"]), (true, true, true));
    assert_eq!(found(&["AA", "AA"]), (true, false, false));
    assert_eq!(found(&["A-", "-A"]), (false, false, false));
    assert_eq!(found(&["AA", "AB", "BA"]), (false, false, false));
}

#[test]
fn the_gapped_triangle() {
    let bytes = gapped_triangle();
    assert_eq!(bytes[32..41], [11, 0, 0, 0, 0, 0, 3, 0, 0x12]);
    assert_eq!(TAKING_HOLES.map(|service| call_fault(service, 3, &bytes, &[])), [None; 4]);
    assert_eq!([Snps, Fragments].map(|service| call_fault(service, 3, &bytes, &[])), [refusal(8, 1); 2]);
    let (matrix, answers) = answers(&["AB-", "B-A", "-AB"]);
    assert_eq!(matrix.rows, Matrix::read(&bytes, 3).rows);
    assert_eq!(listing::accepted(&matrix, &answers), TRIANGLE_LISTING);
    let corrected = brute::corrected(&matrix, &answers.corrections.expect("shallow").sides);
    assert_eq!(corrected.rows, [[1, 2, 0], [1, 0, 1], [0, 1, 2]]);
}

/// The triangle as it stood before the order of records: 8 comes before 13 where there is an 8.
#[test]
fn the_gapped_triangle_out_of_order() {
    let bytes = unordered_triangle();
    assert_eq!(TAKING_HOLES.map(|service| call_fault(service, 3, &bytes, &[])), [refusal(13, 2); 4]);
    assert_eq!([Snps, Fragments].map(|service| call_fault(service, 3, &bytes, &[])), [refusal(8, 2); 2]);
    assert_eq!(pack_fault(3, &[1, 2, 0, 0, 1, 2, 2, 0, 1], &[10, 11, 12], 96), refusal(13, 2));
    assert_eq!(expected::text(&expected::outcome(&bytes).expect("settled")), UNORDERED_LISTING);
    assert_eq!(in_order(&bytes), [record(10, 0, &[1, 2]), record(12, 0, &[2, 0, 1]), record(11, 1, &[1, 2])].concat());
}

/// The one outcome of every service that tests the records of a table, and that of pack from its cells, for gapless fragments
/// that keep every rule but 9, 13 and 17.
fn stored_and_packed(fragments: &[(u32, &str)]) -> [Option<Refusal>; 2] {
    let bytes: Vec<u8> = fragments.iter().flat_map(|&(tag, fragment)| fragment_record(tag, fragment)).collect();
    let n = fragments[0].1.len();
    let tags: Vec<u32> = fragments.iter().map(|&(tag, _)| tag).collect();
    let cells = Matrix::read(&bytes, n).rows.concat();
    let stored = table_fault(n, &bytes);
    assert_eq!(Service::ON_TABLES.map(|service| call_fault(service, n, &bytes, &[])), [stored; 6]);
    [stored, pack_fault(n, &cells, &tags, bytes.len())]
}

/// The one outcome of both, for fragments with calls.
fn of_every_service(fragments: &[(u32, &str)]) -> Option<Refusal> {
    let [stored, packed] = stored_and_packed(fragments);
    assert_eq!(stored, packed);
    stored
}

#[test]
fn records_in_order() {
    assert_eq!(of_every_service(&[(1, "A"), (2, "A"), (9, "B")]), None);
    assert_eq!(of_every_service(&[(2, "A-"), (1, "-A")]), None);
    assert_eq!(of_every_service(&[(9, "AA-"), (1, "-A-"), (5, "-AA"), (0, "--A")]), None);
    assert_eq!(
        of_every_service(&[(255, "A"), (256, "A"), (0x7fff_ffff, "A"), (0x8000_0000, "A"), (u32::MAX, "A")]),
        None
    );
}

/// In a table, fragments without calls stand by tag among those that start at column 0. Pack takes none of them.
#[test]
fn fragments_without_calls_in_order() {
    let in_order = [(1, "--"), (2, "A-"), (3, "--"), (4, "AA"), (0, "-A")];
    assert_eq!(stored_and_packed(&in_order), [None, refusal(17, 0)]);
    assert_eq!(stored_and_packed(&in_order[1..]), [None, refusal(17, 1)]);
    assert_eq!(stored_and_packed(&[(2, "A-"), (1, "--")]), [refusal(13, 1), refusal(17, 1)]);
    assert_eq!(stored_and_packed(&[(2, "--"), (1, "A-")]), [refusal(13, 1), refusal(17, 0)]);
    assert_eq!(stored_and_packed(&[(2, "--"), (1, "--")]), [refusal(13, 1), refusal(17, 0)]);
    assert_eq!(stored_and_packed(&[(1, "-A"), (2, "--")]), [refusal(13, 1), refusal(17, 1)]);
}

/// Pack refuses the first fragment without calls. Of an earlier fragment every rule comes first, of the same one 6 alone.
#[test]
fn fragments_without_calls_among_other_faults() {
    let packed = |fragments: &[(u32, &str)]| stored_and_packed(fragments)[1];
    assert_eq!(packed(&[(1, "A-"), (2, "AB"), (3, "--"), (4, "-A")]), refusal(17, 2));
    assert_eq!(packed(&[(1, "A-"), (2, "--"), (3, "--")]), refusal(17, 1));
    assert_eq!(packed(&[(1, "A-"), (1, "--")]), refusal(17, 1));
    assert_eq!(packed(&[(1, "A-"), (1, "A-"), (2, "--")]), refusal(9, 1));
    assert_eq!(packed(&[(1, "-A"), (2, "A-"), (3, "--")]), refusal(13, 1));
    assert_eq!(packed(&[(1, "--"), (2, "-A"), (3, "A-"), (2, "-A")]), refusal(17, 0));
    let fault = |rows: &[[u8; 2]]| pack_fault(2, &rows.concat(), &[1, 2], 64);
    assert_eq!(fault(&[[0, 3], [1, 0]]), refusal(6, 0));
    assert_eq!(fault(&[[1, 0], [0, 255]]), refusal(6, 1));
    assert_eq!(fault(&[[1, 3], [0, 0]]), refusal(6, 0));
    assert_eq!(fault(&[[0, 0], [1, 3]]), refusal(17, 0));
    assert_eq!(fault(&[[1, 0], [0, 1]]), None);
    assert_eq!(fault(&[[2, 0], [0, 2]]), None);
    let wide_and_uncalled = [[1; 97], [0; 97]];
    assert_eq!(pack_fault(97, &wide_and_uncalled.concat(), &[1, 2], 64), refusal(4, 0));
    assert_eq!(pack_fault(97, &[wide_and_uncalled[1], wide_and_uncalled[0]].concat(), &[1, 2], 64), refusal(17, 0));
}

/// A stored table with a fragment without calls is listed as ever.
#[test]
fn a_stored_fragment_without_calls() {
    assert_eq!(text(&["AB", "--", "--", "-A"]), STORED_LISTING);
    assert_eq!(first_without_calls(&stored_table()), Some(1));
    assert_eq!(first_without_calls(&table(&["AB", "-A"])), None);
}

#[test]
fn calls_of_a_row() {
    assert_eq!([&[0, 0, 1][..], &[2, 0, 0]].map(has_call), [true; 2]);
    assert_eq!([&[0, 0, 0][..], &[0, 3], &[255], &[]].map(has_call), [false; 4]);
}

#[test]
fn records_out_of_order() {
    assert_eq!(of_every_service(&[(2, "A"), (1, "B")]), refusal(13, 1));
    assert_eq!(of_every_service(&[(1, "-A"), (2, "A-")]), refusal(13, 1));
    assert_eq!(of_every_service(&[(2, "-A"), (1, "A-")]), refusal(13, 1));
    assert_eq!(of_every_service(&[(256, "A"), (255, "A")]), refusal(13, 1));
    assert_eq!(of_every_service(&[(0x8000_0000, "A"), (0x7fff_ffff, "A")]), refusal(13, 1));
    // after record 0, but not after the one before
    assert_eq!(of_every_service(&[(1, "A--"), (2, "--A"), (3, "-A-")]), refusal(13, 2));
    assert_eq!(of_every_service(&[(1, "A"), (3, "A"), (2, "A")]), refusal(13, 2));
    // several: the first
    assert_eq!(of_every_service(&[(1, "A--"), (4, "--A"), (3, "-A-"), (2, "A--")]), refusal(13, 2));
}

/// The tag of an earlier record is 9, in order or not.
#[test]
fn a_tag_twice_before_the_order() {
    assert_eq!(of_every_service(&[(1, "A"), (1, "A")]), refusal(9, 1));
    assert_eq!(of_every_service(&[(1, "-A"), (1, "A-")]), refusal(9, 1));
    assert_eq!(of_every_service(&[(1, "A"), (3, "A"), (1, "A")]), refusal(9, 2));
    assert_eq!(of_every_service(&[(3, "A"), (1, "A"), (1, "A")]), refusal(13, 1));
    assert_eq!(of_every_service(&[(1, "A"), (1, "A"), (0, "A")]), refusal(9, 1));
}

/// Rule 13 is the last of a record, and comes before every rule of the next. For pack it is the last of a fragment.
#[test]
fn the_order_among_other_faults() {
    let fault = |n: usize, records: &[[u8; RECORD]]| {
        let [check, snps] = [Check, Snps].map(|service| call_fault(service, n, &records.concat(), &[]));
        (check, snps)
    };
    let (first, second) = (record(1, 2, &[1]), record(2, 0, &[1]));
    let stray = graded(second, 16);
    let unknown = record(3, 0, &[3]);
    assert_eq!(fault(3, &[first, record(2, 1, &[])]), (refusal(4, 1), refusal(4, 1)));
    assert_eq!(fault(3, &[first, stray]), (refusal(5, 1), refusal(5, 1)));
    assert_eq!(fault(3, &[first, unknown]), (refusal(6, 1), refusal(6, 1)));
    assert_eq!(fault(3, &[first, record(2, 0, &[1, 0])]), (refusal(7, 1), refusal(7, 1)));
    assert_eq!(fault(3, &[first, record(2, 0, &[1, 0, 1])]), (refusal(13, 1), refusal(8, 1)));
    assert_eq!(fault(3, &[first, record(1, 0, &[1, 0, 1])]), (refusal(9, 1), refusal(8, 1)));
    assert_eq!(fault(3, &[first, second, unknown]), (refusal(13, 1), refusal(13, 1)));
    assert_eq!(fault(3, &[unknown, first, second]), (refusal(6, 0), refusal(6, 0)));
    assert_eq!(fault(2, &[first, second]), (refusal(4, 0), refusal(4, 0)));
    assert_eq!(fault(129, &[first, second]), (refusal(3, 0), refusal(3, 0)));
    let answered = |length: usize| call_fault(Check, 3, &[first, second].concat(), &[(Answer, length)]);
    assert_eq!((answered(13), answered(12)), (refusal(13, 1), refusal(11, 0)));
    assert_eq!(fault_in_any_order(Check, 3, &[first, second].concat()), None);
    assert_eq!(fault_in_any_order(Check, 3, &[first, second, unknown].concat()), refusal(6, 2));
}

/// By hand: a far mate parts two fragments, joins two blocks, and is corrected.
#[test]
fn far_mates() {
    let head = |m: usize| format!("fragments {m} snps 3\nerror-free yes\nS refused 8 at 0\nF refused 8 at 0\n");
    assert_eq!(text(&["A-A", "A-B"]), head(2) + "C 0 111 A-A A-B 12 0,0\n");
    assert_eq!(text(&["A-A", "B--", "--B"]), head(3) + "C 0 111 A-A B-B 122 0,0,0\n");
    let (matrix, answers) = answers(&["A-A", "AAA", "A-B", "BBA", "BBB"]);
    assert_eq!(answers.check, None);
    let corrections = answers.corrections.expect("shallow");
    assert_eq!((corrections.count, &corrections.sides), (2, &vec![1, 1, 1, 2, 2]));
    let corrected = brute::corrected(&matrix, &corrections.sides);
    assert_eq!(corrected.rows, [[1, 0, 1], [1, 1, 1], [1, 0, 1], [2, 2, 1], [2, 2, 1]]);
}

/// Rule 8 stands between 7 and 9 in the lists of S and F, and in no other list.
#[test]
fn a_gap_among_other_faults() {
    let fault = |n: usize, records: &[[u8; RECORD]]| {
        let [check, snps] = [Check, Snps].map(|service| call_fault(service, n, &records.concat(), &[]));
        (check, snps)
    };
    let (gapped, far) = (record(1, 0, &[1, 0, 2]), record(2, 2, &[1, 1]));
    assert_eq!(fault(3, &[gapped, far]), (refusal(4, 1), refusal(8, 0)));
    assert_eq!(fault(3, &[far, gapped]), (refusal(4, 0), refusal(4, 0)));
    assert_eq!(fault(2, &[gapped]), (refusal(4, 0), refusal(4, 0)));
    assert_eq!(fault(3, &[record(1, 0, &[1]), gapped]), (refusal(9, 1), refusal(8, 1)));
    assert_eq!(fault(3, &[record(1, 0, &[1, 0, 0, 2, 0])]), (refusal(4, 0), refusal(4, 0)));
    assert_eq!(fault(5, &[record(1, 0, &[1, 0, 0, 2, 0])]), (refusal(7, 0), refusal(7, 0)));
    assert_eq!(fault(5, &[record(1, 0, &[1, 0, 3, 2])]), (refusal(6, 0), refusal(6, 0)));
}

#[test]
fn judged_by_pairs_of_columns() {
    let judged = |fragments: &[&str]| {
        let matrix = matrix(fragments);
        (gaps::error_free_by_pairs(&matrix), brute::check(&matrix).is_some())
    };
    assert_eq!(judged(&["AB-", "B-A", "-AB"]), (true, false));
    assert_eq!(judged(&["AB--", "B--A", "-AB-", "--AB"]), (true, true));
    assert_eq!(judged(&["AA-", "BAA", "-BB"]), (false, false));
    assert_eq!(judged(&["A-A", "A-B", "B-A"]), (false, false));
}

/// What a run must have seen of holes.
#[test]
fn columns_that_no_one_calls_and_the_farthest_mates() {
    let found = |fragments: &[&str]| {
        let matrix = matrix(fragments);
        (gaps::covers_uncalled(&matrix), gaps::farthest_mates(&matrix))
    };
    assert_eq!(found(&["A-A", "B-B"]), (true, false));
    assert_eq!(found(&["A-A", "-B-"]), (false, false));
    assert_eq!(found(&["A--", "--A"]), (false, false));
    let mates = |between: &str, holes: usize| format!("A{between}{}B", "-".repeat(holes));
    assert_eq!(found(&[&mates("", 94)]), (true, true));
    assert_eq!(found(&[&mates("", 93)]), (true, false));
    assert_eq!(found(&[&mates("A", 93)]), (true, false));
}

#[test]
fn a_column_that_no_one_calls() {
    let expected =
        "fragments 2 snps 3\nerror-free yes\nS 0 111 A-A --- 11 0,1\nF 0 111 A-A --- 11 0,1\nC 0 111 A-A --- 11 0,1\n";
    assert_eq!(text(&["A--", "--A"]), expected);
}

#[test]
fn start_and_span_within_the_columns() {
    let bytes = table(&["-AB"]);
    let answered = |n: usize, length: usize| call_fault(Check, n, &bytes, &[(Answer, length)]);
    assert_eq!(answered(3, 11), None);
    assert_eq!(answered(2, 8), refusal(4, 0));
    assert_eq!(answered(3, 10), refusal(11, 0));
}

#[test]
fn boundaries_of_the_sizes() {
    let records = |count: usize| (0..count as u32).flat_map(|tag| record(tag, 0, &[1])).collect::<Vec<u8>>();
    assert_eq!(table_fault(1, &records(128)), None);
    assert_eq!(table_fault(1, &records(129)), refusal(2, 0));
    assert_eq!(table_fault(128, &records(1)), None);
    assert_eq!(table_fault(129, &records(129)), refusal(3, 0));
    assert_eq!(table_fault(1, &records(129)[1..]), refusal(1, 0));
    let mut wide = record(0, 0, &[1; 96]);
    assert_eq!(table_fault(128, &wide), None);
    wide[6] = 97;
    assert_eq!(table_fault(128, &wide), refusal(4, 0));
}

#[test]
fn eight_calls_of_a_column_and_nine() {
    let rows = |count: usize| Matrix::ungraded(2, vec![vec![0, 1]; count]);
    assert_eq!(too_deep(&rows(8)), None);
    assert_eq!(too_deep(&rows(9)), refusal(12, 1));
    assert_eq!(gaps::deep_by_calls(&rows(8)), None);
    assert_eq!(gaps::deep_by_calls(&rows(9)), Some(1));
}

#[test]
fn eight_stretches_over_a_column_and_nine() {
    let found = |counts: &[(usize, &str)]| {
        let fragments: Vec<&str> = counts.iter().flat_map(|&(count, fragment)| vec![fragment; count]).collect();
        let matrix = matrix(&fragments);
        (too_deep(&matrix), gaps::deep_by_calls(&matrix))
    };
    assert_eq!(found(&[(5, "A-A-"), (3, "-A-A")]), (None, None));
    assert_eq!(found(&[(5, "A-A-"), (4, "-A-A")]), (refusal(12, 1), None));
    assert_eq!(found(&[(5, "A-A"), (4, "-AA")]), (refusal(12, 1), Some(2)));
    assert_eq!(found(&[(8, "A-A"), (9, "---")]), (None, None));
    assert_eq!(found(&[(8, "A-A"), (1, "-A-")]), (refusal(12, 1), None));
    assert_eq!(found(&[(5, "AA--"), (4, "--AA")]), (None, None));
}

#[test]
fn lengths_of_what_is_lent() {
    let bytes = table(&["AB"]);
    let fault = |lent| call_fault(Corrections, 2, &bytes, lent);
    assert_eq!(fault(&[(Work, 32768), (Answer, 8), (Corrected, 32)]), None);
    assert_eq!(fault(&[(Work, 40000), (Answer, 8), (Corrected, 32)]), None);
    assert_eq!(fault(&[(Work, 32767), (Answer, 9), (Corrected, 32)]), refusal(10, 0));
    assert_eq!(fault(&[(Work, 32768), (Answer, 9), (Corrected, 32)]), refusal(11, 0));
    assert_eq!(fault(&[(Work, 32768), (Answer, 8), (Corrected, 31)]), refusal(11, 0));
    assert_eq!(call_fault(Snps, usize::MAX, &bytes, &[(Work, 0), (Answer, 8)]), refusal(3, 0));
    assert_eq!(call_fault(Snps, 1, &bytes, &[(Work, 32768), (Answer, 5)]), refusal(4, 0));
}

#[test]
fn length_of_counts() {
    let bytes = table(&["ABA", "AAA"]);
    let fault = |n: usize, length: usize| call_fault(ConflictCounts, n, &bytes, &[(Counts, length)]);
    assert_eq!(fault(3, 4), None);
    assert_eq!(fault(128, 4), None);
    assert_eq!(fault(3, 3), refusal(11, 0));
    assert_eq!(fault(3, 6), refusal(11, 0));
    assert_eq!(fault(2, 5), refusal(11, 0));
    assert_eq!(fault(2, 4), refusal(4, 0));
    assert_eq!(fault(129, 4), refusal(3, 0));
}

#[test]
fn conflicts_of_every_two() {
    let counts = |fragments: &[&str]| conflict_counts(&answers(fragments).0);
    assert_eq!(counts(&["AA-", "BAA", "-BB"]), [0, 1, 1, 1, 0, 2, 1, 2, 0]);
    assert_eq!(counts(&["AA", "BB"]), [0, 2, 2, 0]);
    assert_eq!(counts(&["AA", "AA"]), [0; 4]);
    assert_eq!(counts(&["A-", "-B"]), [0; 4]);
    assert_eq!(counts(&["AB", "--", "BB"]), [0, 0, 1, 0, 0, 0, 1, 0, 0]);
    assert_eq!(counts(&["A-A", "BBB"]), [0, 2, 2, 0]);
    assert_eq!(counts(&["A-A", "-B-"]), [0; 4]);
    assert_eq!(counts(&[]), []);
}

#[test]
fn conflicts_around_column_64() {
    let bs_on = |bs: std::ops::Range<usize>| {
        let row = (0..128).map(|c| 1 + bs.contains(&c) as u8).collect();
        Matrix::ungraded(128, vec![vec![1; 128], row])
    };
    let found = |matrix: Matrix| (conflict_counts(&matrix)[1], over_64(&matrix), across_64(&matrix));
    assert_eq!(found(bs_on(0..64)), (64, false, false));
    assert_eq!(found(bs_on(64..128)), (64, false, false));
    assert_eq!(found(bs_on(63..65)), (2, false, true));
    assert_eq!(found(bs_on(32..96)), (64, false, true));
    assert_eq!(found(bs_on(32..97)), (65, true, true));
}

/// The sizes come first. Without columns a fragment has no call, and no fragments are taken on any number of columns.
#[test]
fn sizes_of_cells() {
    let fault_of =
        |n: usize, cells: &[u8], tags: u32, table: usize| pack_fault(n, cells, &(0..tags).collect::<Vec<u32>>(), table);
    let one_call = [&[1][..], &[0; 127]].concat();
    assert_eq!(fault_of(128, &one_call.repeat(128), 128, 4096), None);
    let fault = |n: usize, cells: usize, tags: u32, table: usize| fault_of(n, &vec![0; cells], tags, table);
    assert_eq!(fault(128, 128 * 128, 128, 4096), refusal(17, 0));
    assert_eq!(fault(0, 0, 2, 64), refusal(17, 0));
    assert_eq!([0, 2, 128].map(|n| fault(n, 0, 0, 0)), [None; 3]);
    assert_eq!(fault(129, 0, 129, 0), refusal(3, 0));
    assert_eq!(fault(2, 3, 129, 0), refusal(1, 0));
    assert_eq!(fault(2, 258, 129, 0), refusal(2, 0));
    assert_eq!(fault(0, 0, 129, 129 * 32), refusal(2, 0));
    assert_eq!(fault(2, 2, 1, 33), refusal(11, 0));
    assert_eq!(fault(0, 0, 2, 63), refusal(11, 0));
}

#[test]
fn faults_of_cells() {
    let fault = |cells: &[u8], tags: &[u32]| pack_fault(cells.len() / tags.len(), cells, tags, RECORD * tags.len());
    assert_eq!(fault(&[1, 0, 2, 0, 1, 2], &[7, 8]), None);
    assert_eq!(fault(&[0, 1, 2, 1, 0, 2], &[7, 8]), refusal(13, 1));
    assert_eq!(fault(&[0, 1, 2, 1, 0, 3], &[7, 8]), refusal(6, 1));
    assert_eq!(fault(&[0, 1, 2, 1, 0, 2], &[7, 7]), refusal(9, 1));
    assert_eq!(fault(&[0, 1, 2, 1, 1, 2], &[7, 7]), refusal(9, 1));
    assert_eq!(fault(&[0, 1, 1, 0, 0, 3], &[7, 8, 9]), refusal(13, 1));
    assert_eq!(pack_fault_without(13, 2, &[0, 1, 1, 0, 0, 3], &[7, 8, 9]), refusal(6, 2));
    assert_eq!(pack_fault_without(17, 2, &[0, 0, 0, 1], &[7, 8]), None);
    assert_eq!(pack_fault_without(17, 2, &[0, 1, 0, 0], &[7, 8]), refusal(13, 1));
    let wide = |calls: usize| [vec![0; 9], vec![1; calls], vec![0; 9]].concat();
    assert_eq!(fault(&wide(96), &[7]), None);
    assert_eq!(fault(&wide(97), &[7]), refusal(4, 0));
    let far = |between: usize| [vec![1], vec![0; between], vec![1]].concat();
    assert_eq!(fault(&far(94), &[7]), None);
    assert_eq!(fault(&far(95), &[7]), refusal(4, 0));
    assert_eq!(fault(&[&[0, 1][..], &[0; 95], &far(95)].concat(), &[7, 8]), refusal(4, 1));
}

#[test]
fn the_stretch_of_a_row() {
    assert_eq!(stretch(&[0, 1, 2, 0]), 1..3);
    assert_eq!(stretch(&[1, 0, 2]), 0..3);
    assert_eq!(stretch(&[0, 0]), 0..0);
    assert_eq!(stretch(&[]), 0..0);
}

#[test]
fn the_first_gapped_fragment() {
    assert_eq!(gapped(&matrix(&["AB-", "B-A", "-AB"])), refusal(8, 1));
    assert_eq!(gapped(&matrix(&["A-B", "A-A"])), refusal(8, 0));
    assert_eq!(gapped(&matrix(&["---", "AB-", "-A-"])), None);
}

#[test]
fn places_of_a_tag() {
    let bytes = [record(5, 0, &[1]), record(6, 0, &[1]), record(5, 0, &[1])].concat();
    let places = |wanted: u32, length: usize| places_of(wanted, &bytes[..length]).collect::<Vec<_>>();
    assert_eq!(places(5, 96), [0, 2]);
    assert_eq!(places(5, 95), [0]);
    assert_eq!(places(7, 96), []);
    assert_eq!(places(5, 31), []);
}

/// What a run must have seen of records out of order: the places, and the same of pack's fragments.
#[test]
fn places_out_of_order() {
    let found = |fragments: &[(u32, &str)]| {
        let bytes: Vec<u8> = fragments.iter().flat_map(|&(tag, fragment)| fragment_record(tag, fragment)).collect();
        let (n, tags) = (fragments[0].1.len(), fragments.iter().map(|&(tag, _)| tag).collect::<Vec<u32>>());
        let of_cells = keys_of_cells(n, &Matrix::read(&bytes, n).rows.concat(), &tags);
        let places = falls(&keys_of_table(&bytes)).collect::<Vec<_>>();
        assert_eq!(falls(&of_cells).collect::<Vec<_>>(), places);
        places
    };
    assert_eq!(found(&[(1, "A-"), (2, "A-"), (0, "-A")]), []);
    assert_eq!(found(&[(1, "A-"), (1, "A-")]), []);
    assert_eq!(found(&[(3, "-A"), (2, "--"), (1, "A-"), (4, "A-"), (3, "A-")]), [1, 2, 4]);
}

/// What a run must have seen goes with what each comparison can do, of tables and of pack.
#[test]
fn demands_of_other_orders() {
    let can = |service| OTHERS.each_ref().map(|other| (other.name, [other.misses(service), other.makes_up(service)]));
    let demanded = |of: fn(&OtherOrder) -> [usize; 2]| {
        OTHER_ORDERS.each_ref().map(|other| (other.name, of(other).map(|least| least > 0)))
    };
    Service::ON_TABLES.iter().for_each(|&service| assert_eq!(demanded(|other| other.of_tables), can(service)));
    assert_eq!(demanded(|other| other.of_pack), can(Pack));
}

/// What a run must have seen of fragments without calls: which they are, and fragments with calls that lack something else.
#[test]
fn fragments_given_without_calls() {
    let rows = |fragments: &[&str]| Matrix::read(&table(fragments), fragments[0].len()).rows;
    assert_eq!(Uncalled::of(&rows(&["--", "A-", "A-"])), Uncalled::First);
    assert_eq!(Uncalled::of(&rows(&["A-", "--", "A-"])), Uncalled::Between);
    assert_eq!(Uncalled::of(&rows(&["A-", "A-", "--"])), Uncalled::Last);
    assert_eq!(Uncalled::of(&rows(&["A-", "--", "--"])), Uncalled::Several);
    assert_eq!(Uncalled::of(&rows(&["--"])), Uncalled::All);
    assert_eq!(Uncalled::of(&rows(&["", ""])), Uncalled::NoColumns);
    let lacking = |row: &str| {
        let others = uncalled::OTHERS.iter().filter(|other| other.first_without(&rows(&[row])).is_some());
        others.map(|other| other.name).collect::<Vec<_>>().join(", ")
    };
    assert_eq!(lacking("AB"), "");
    assert_eq!(lacking("-A-"), "two calls, a B");
    assert_eq!(lacking("B--"), "two calls, an A, a call after the first column");
    assert_eq!(lacking("--A"), "two calls, a B, a call before the last column");
    assert_eq!(lacking(&format!("{}ABA", "-".repeat(64))), "a call below column 64");
    assert_eq!(lacking(&format!("{}ABA", "-".repeat(63))), "");
}

#[test]
fn demands_of_fragments_without_calls() {
    let demanded: Vec<Seen> = demands(false).into_iter().map(|demand| demand.seen).collect();
    let which = Uncalled::ALL.map(Seen::Uncalled).into_iter();
    let all = which.chain(uncalled::OTHERS.iter().map(|other| Seen::PackedWithout(other.name)));
    assert_eq!(all.filter(|seen| !demanded.contains(seen)).collect::<Vec<_>>(), []);
}

/// The comparisons that are not the order of records, as those that refuse a table and those that do not.
fn judged_by_others(records: &[[u8; RECORD]]) -> [Vec<&'static str>; 2] {
    let keys = keys_of_table(&records.concat());
    let (refusing, taking): (Vec<&Other>, Vec<&Other>) = OTHERS.iter().partition(|other| other.first(&keys).is_some());
    [refusing, taking].map(|others| others.iter().map(|other| other.name).collect())
}

#[test]
fn tables_that_other_orders_refuse() {
    let refusing = |records: &[[u8; RECORD]]| judged_by_others(records)[0].join(", ");
    let at = |start: usize, tag: u32| record(tag, start, &[1]);
    let uncalled = |tag: u32| record(tag, 0, &[]);
    assert_eq!(refusing(&[at(0, 1), at(1, 2)]), "");
    assert_eq!(refusing(&[at(0, 2), at(1, 1)]), "by start or tag, by tag alone");
    assert_eq!(refusing(&[at(0, 1), at(0, 2)]), "by starts that differ");
    let by_byte = "by starts that differ, by the lowest byte of tags, by the bytes of tags in turn";
    assert_eq!(refusing(&[at(0, 255), at(0, 256)]), by_byte);
    assert_eq!(refusing(&[at(0, 1), at(0, 0x8000_0002)]), "by starts that differ, by tags with a sign");
    assert_eq!(refusing(&[uncalled(1), at(0, 2)]), "by starts that differ, without calls last");
    let of_uncalled = "by start or tag, by tag alone, without calls last, without calls by tag alone";
    assert_eq!(refusing(&[uncalled(2), at(1, 1)]), of_uncalled);
}

#[test]
fn tables_out_of_order_that_others_take() {
    let taking = |records: &[[u8; RECORD]]| judged_by_others(records)[1].join(", ");
    let at = |start: usize, tag: u32| record(tag, start, &[1]);
    let uncalled = |tag: u32| record(tag, 0, &[]);
    assert_eq!(taking(&[at(1, 2), at(0, 1)]), "none");
    assert_eq!(taking(&[at(1, 1), at(0, 2)]), "none, by start and tag, both, by tag alone");
    let by_tag = "none, by start alone, by start and tag, both";
    assert_eq!(taking(&[at(0, 2), at(0, 1)]), format!("{by_tag}, by the highest byte of tags"));
    let by_byte = "by the highest byte of tags, by the lowest byte of tags, by the bytes of tags in turn";
    assert_eq!(taking(&[at(0, 256), at(0, 255)]), format!("{by_tag}, {by_byte}"));
    assert_eq!(taking(&[at(0, 0x8000_0002), at(0, 1)]), format!("{by_tag}, by tags with a sign"));
    assert_eq!(taking(&[at(0, 1), at(2, 3), at(1, 2)]), "none, with record 0");
    let uncalled_by_start = "of fragments with calls, without calls by start alone, without calls last";
    assert_eq!(taking(&[at(0, 2), uncalled(1)]), format!("{by_tag}, by the highest byte of tags, {uncalled_by_start}"));
    let uncalled_by_tag = "by tag alone, without calls last, without calls by tag alone";
    let both = "none, by start and tag, both, of fragments with calls";
    assert_eq!(taking(&[at(1, 1), uncalled(2)]), format!("{both}, {uncalled_by_tag}"));
}

/// Every kind that is not named for it makes its tables in order, but for those that have too many records.
#[test]
fn kinds_in_order() {
    for kind in generate::kinds() {
        let tables = (0..kind.tables).map(|index| kind.table(&mut Rng::for_table(1, index)));
        let few = tables.filter(|table| table.len() <= RECORD * MOST_FRAGMENTS);
        let out_of_order = few.filter(|table| falls(&keys_of_table(table)).next().is_some()).count();
        assert_eq!(out_of_order > 0, kind.name.starts_with("out of order"), "{}", kind.name);
    }
}

/// Columns without calls change no answer but by holes at the end, whichever method gives it.
#[test]
fn wider_tables() {
    let names = ["uniform", "noisy copies", "nested", "single calls", "identical", "mates, uniform", "mates, cycles"];
    for index in 0..200 {
        let rng = &mut Rng::for_table(1, index);
        let name = names[index % names.len()];
        let kinds = generate::kinds();
        let bytes = kinds.iter().find(|kind| kind.name == name).expect("a kind").table(rng);
        let (n, wide) = (column_count(&bytes), column_count(&bytes) + 3);
        let (narrow, _) = methods::answers(&Matrix::read(&bytes, n)).expect("the methods agree");
        let (found, _) = methods::answers(&Matrix::read(&bytes, wide)).expect("the methods agree");
        assert_eq!(found.check, narrow.check.map(|answer| answer.widened(wide)));
        assert_eq!(found.snps, narrow.snps.map(|answer| answer.widened(wide)));
        assert_eq!(found.fragments, narrow.fragments.map(|answer| answer.widened(wide)));
        assert_eq!(found.corrections, narrow.corrections.map(|answer| answer.widened(wide)));
    }
}
