//! The rules of a record, 4 to 9: each of them alone, at the first record and at later ones. Rule 8 is of S and F alone.
//! `out_of_order` tries rule 13, and `no_calls` rule 17.

use crate::calls::Service::{F, S};
use crate::calls::{Trials, OF_TABLES, SERVICES};
use crate::expected::{Each, Expected};
use crate::fixtures::{lone, mates, padded, start, Fixture};

/// A record that is refused in n columns: its letters, the bytes of it that are then changed, and the rule's number.
pub type Fault<'a> = (&'a str, usize, &'a str, &'a [(usize, u8)], u8);

/// Three records of one start before the edits, so that they are in order. The one at a place has the fault, and the
/// others call A on their first column alone.
pub fn with_fault(fault: Fault, place: usize) -> Fixture {
    let (_, n, letters, edits, _) = fault;
    let mut fragments = vec![lone('A', start(letters), n); 3];
    fragments[place] = padded(letters, n);
    Fixture::of(&fragments).edited(place, edits)
}

/// Faults that every service refuses that is given a table.
pub fn run_faults(faults: &[Fault]) {
    let mut trials = Trials::default();
    for &fault in faults {
        for place in 0..3 {
            for service in OF_TABLES {
                let name = format!("{} at record {place}", fault.0);
                trials.run(&name, service, &with_fault(fault, place), &Expected::refused(fault.4, place));
            }
        }
    }
}

/// Start stands in bytes 4 and 5, span in byte 6. 65,535 + 1 and 65,440 + 96 are 0 in 16 bits, 192 + 64 is 0 in 8.
#[test]
fn out_of_frame() {
    run_faults(&[
        ("span 97", 128, "A", &[(6, 97)], 4),
        ("span 97 of 97 columns", 97, "A", &[(6, 97)], 4),
        ("span 128", 128, "A", &[(6, 128)], 4),
        ("span 255", 128, "A", &[(6, 255)], 4),
        ("start + span = n + 1", 3, "-AA", &[(4, 2)], 4),
        ("start = n", 3, "A", &[(4, 3)], 4),
        ("start 256 by its high byte", 128, "A", &[(5, 1)], 4),
        ("start far over n", 128, "A", &[(5, 255)], 4),
        ("start 65,535", 128, "A", &[(4, 255), (5, 255)], 4),
        ("start 65,440 and span 96", 128, "A", &[(4, 0xA0), (5, 0xFF), (6, 96)], 4),
        ("start 192 and span 64", 128, "A", &[(4, 192), (6, 64)], 4),
        ("no calls and start 1", 3, "---", &[(4, 1)], 4),
        ("no calls and start = n", 3, "---", &[(4, 3)], 4),
        ("no calls and start 256", 128, "---", &[(5, 1)], 4),
    ]);
}

/// Byte 8 + i / 4 has cell i. A code 3 after the span is a stray bit, and no unknown call.
#[test]
fn stray_bits() {
    let (a95, a93) = ("A".repeat(95), "A".repeat(93));
    run_faults(&[
        ("byte 7 is 16", 3, "A", &[(7, 16)], 5),
        ("byte 7 is 128", 3, "A", &[(7, 128)], 5),
        ("an A after the span", 3, "A", &[(8, 0b01_01)], 5),
        ("a B after the span", 3, "A", &[(8, 0b10_01)], 5),
        ("a code 3 after the span", 3, "A", &[(8, 0b11_01)], 5),
        ("an A past the columns", 3, "AAA", &[(8, 0b01_01_01_01)], 5),
        ("an A in the byte after the span's", 8, "AAAA", &[(9, 1)], 5),
        ("the low bit of the last cell", 3, "A", &[(31, 64)], 5),
        ("the high bit of the last cell", 3, "A", &[(31, 128)], 5),
        ("span 95 and the last cell", 128, &a95, &[(31, 0b01_01_01_01)], 5),
        ("span 93 and the last cell", 128, &a93, &[(31, 0b01_00_00_01)], 5),
        ("no calls and a cell left", 3, "---", &[(8, 1)], 5),
        ("no calls and the last cell left", 3, "---", &[(31, 64)], 5),
        ("no calls and byte 7", 3, "---", &[(7, 16)], 5),
    ]);
}

#[test]
fn unknown_calls() {
    let (first, last) = (format!("?{}", "A".repeat(95)), format!("{}?", "A".repeat(95)));
    run_faults(&[
        ("a code 3 alone", 3, "?", &[], 6),
        ("a code 3 first", 3, "?AA", &[], 6),
        ("a code 3 between", 3, "A?A", &[], 6),
        ("a code 3 last", 3, "AB?", &[], 6),
        ("a code 3 from column 1", 3, "-?A", &[], 6),
        ("a code 3 in cell 0 of 96", 128, &first, &[], 6),
        ("a code 3 in cell 95 of 96", 128, &last, &[], 6),
    ]);
}

#[test]
fn open_ends() {
    let a96 = "A".repeat(96);
    run_faults(&[
        ("the one cell a hole", 3, "A", &[(8, 0)], 7),
        ("the first cell a hole", 3, "AA", &[(8, 0b01_00)], 7),
        ("the last cell a hole", 3, "AA", &[(8, 0b00_01)], 7),
        ("both ends holes", 3, "AAA", &[(8, 0b00_10_00)], 7),
        ("all holes", 3, "AAA", &[(8, 0)], 7),
        ("cell 0 of 96 a hole", 128, &a96, &[(8, 0b01_01_01_00)], 7),
        ("cell 95 of 96 a hole", 128, &a96, &[(31, 0b00_01_01_01)], 7),
    ]);
}

/// The records beside the gapped one call A on its first column, and so does this one: no two conflict, and those that
/// take it have its letters in haplotype 1.
#[test]
fn gaps() {
    let mut trials = Trials::default();
    let (early, late) = (format!("A-{}", "A".repeat(94)), format!("{}-A", "A".repeat(94)));
    let ends = mates([('A', 0), ('A', 95)], 96);
    let rows = [
        ("A-A", 3, "A-A"),
        ("A-B from column 1", 4, "-A-B"),
        ("A--B", 4, "A--B"),
        ("two gaps", 5, "A-B-A"),
        ("calls at the ends of 96 columns", 96, &ends),
        ("cell 1 of 96 a hole", 128, &early),
        ("cell 94 of 96 a hole", 128, &late),
    ];
    for (name, n, letters) in rows {
        let fields = format!("{} {} {} 111 0,1,2", "1".repeat(n), padded(letters, n), "-".repeat(n));
        for place in 0..3 {
            let given = with_fault((name, n, letters, &[], 8), place);
            let expected = Each::of_conflict_free(&given, &fields).gapped(place);
            trials.run_each(&format!("{name} at record {place}"), &given, &expected);
        }
    }
}

/// The faults that letters have, for pack too.
#[test]
fn letters_that_every_service_refuses() {
    let mut trials = Trials::default();
    let rows: [(&str, [&str; 3], Expected); 4] = [
        ("a code 3 at 0, in mates", ["A-?", "AAA", "AAA"], Expected::refused(6, 0)),
        ("a code 3 at 0", ["A?A", "AAA", "AAA"], Expected::refused(6, 0)),
        ("a code 3 at 1", ["AAA", "--?", "AAA"], Expected::refused(6, 1)),
        ("a code 3 at 2", ["AAA", "AAA", "?--"], Expected::refused(6, 2)),
    ];
    for (name, fragments, expected) in &rows {
        for service in SERVICES {
            trials.run(name, service, &Fixture::of(fragments), expected);
        }
    }
}

#[test]
fn tags_twice() {
    let mut trials = Trials::default();
    let rows = [
        ("that of record 0", [10, 10, 12], 1),
        ("that of record 0, later", [10, 11, 10], 2),
        ("that of record 1", [10, 11, 11], 2),
        ("that of both", [10, 10, 10], 1),
        ("tag 0", [0, 1, 0], 2),
        ("the last tag", [u32::MAX, u32::MAX, 0], 1),
    ];
    for (name, tags, place) in rows {
        for service in SERVICES {
            trials.run(name, service, &Fixture::tagged(&["A", "A", "B"], &tags), &Expected::refused(9, place));
        }
        for service in OF_TABLES {
            trials.run(name, service, &Fixture::tagged(&["A", "-", "B"], &tags), &Expected::refused(9, place));
        }
    }
    let rising = Fixture::tagged(&["A--", "-A-", "--A"], &[10, 11, 10]);
    for service in SERVICES {
        trials.run("that of record 0, at a later start", service, &rising, &Expected::refused(9, 2));
    }
}

/// Each pair differs in one byte of the tag.
#[test]
fn tags_that_are_almost_equal() {
    let mut trials = Trials::default();
    let tags = [0, 1, 1 << 8, 1 << 16, 1 << 24, 1 << 31, u32::MAX];
    let given = Fixture::tagged(&["A"; 7], &tags);
    trials.run_each("seven tags", &given, &Each::of_conflict_free(&given, "1 A - 1111111 0,1,2,3,4,5,6"));
}

/// The last of 128 records has the fault, the tag of the first, or a hole.
#[test]
fn faults_of_the_last_record() {
    let mut trials = Trials::default();
    let fragments: Vec<String> = (0..128).map(|i| lone('A', i, 128)).collect();
    let whole = Fixture::of(&fragments);
    let mut twice = whole.clone().edited(127, &[(0, 10)]);
    twice.tags[127] = 10;
    for service in SERVICES {
        trials.run("the tag of record 0 at 127", service, &twice, &Expected::refused(9, 127));
    }
    for service in OF_TABLES {
        let stray = whole.clone().edited(127, &[(7, 16)]);
        trials.run("byte 7 of record 127", service, &stray, &Expected::refused(5, 127));
    }
    let mut gapped: Vec<String> = (0..127).map(|i| lone('A', i.min(125), 128)).collect();
    gapped.push(mates([('A', 125), ('A', 127)], 128));
    for service in [S, F] {
        trials.run("a hole in record 127", service, &Fixture::of(&gapped), &Expected::refused(8, 127));
    }
}
