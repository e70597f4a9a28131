//! Unpack and pack: the bytes of records, both ways. A call of unpack must leave a row's cells, tags and grades, and a
//! call of pack that is given these must leave its bytes, so each row is also a round trip from either side; but where a
//! fragment has no call pack must refuse them.

use crate::calls::Service::{Pack, Unpack};
use crate::calls::Trials;
use crate::expected::{Each, Expected};
use crate::fixtures::{by_start, is_gapped, lone, mates, padded, Fixture};

/// A fragment in letters, its tag, its grade, and the bytes of its record up to where the rest are 0.
type Record = (&'static str, u32, u8, &'static [u8]);

const RECORDS: [Record; 20] = [
    ("", 0, 0, &[]),
    ("---", 7, 0, &[7]),
    ("A", 1, 0, &[1, 0, 0, 0, 0, 0, 1, 0, 0b01]),
    ("B", 2, 0, &[2, 0, 0, 0, 0, 0, 1, 0, 0b10]),
    ("-A-", 3, 0, &[3, 0, 0, 0, 1, 0, 1, 0, 0b01]),
    ("--B", 4, 0, &[4, 0, 0, 0, 2, 0, 1, 0, 0b10]),
    ("AABB", 0x0400_0000, 0, &[0, 0, 0, 4, 0, 0, 4, 0, 0b10_10_01_01]),
    ("-ABBAB-", 0x0403_0201, 0, &[1, 2, 3, 4, 1, 0, 5, 0, 0b01_10_10_01, 0b10]),
    ("---BBBBAAAA", 0xFFFF_FFFF, 0, &[255, 255, 255, 255, 3, 0, 8, 0, 0b10_10_10_10, 0b01_01_01_01]),
    ("------------------------------A", 0x8000_0000, 0, &[0, 0, 0, 128, 30, 0, 1, 0, 0b01]),
    ("A-A", 5, 0, &[5, 0, 0, 0, 0, 0, 3, 0, 0b01_00_01]),
    ("-B--A-", 6, 0, &[6, 0, 0, 0, 1, 0, 4, 0, 0b01_00_00_10]),
    ("AB------BBA", 8, 0, &[8, 0, 0, 0, 0, 0, 11, 0, 0b10_01, 0, 0b01_10_10]),
    ("--A-B-A----B", 9, 0, &[9, 0, 0, 0, 2, 0, 10, 0, 0b00_10_00_01, 0b01, 0b10_00]),
    ("", 0, 1, &[0, 0, 0, 0, 0, 0, 0, 1]),
    ("---", 7, 15, &[7, 0, 0, 0, 0, 0, 0, 15]),
    ("A", 1, 2, &[1, 0, 0, 0, 0, 0, 1, 2, 0b01]),
    ("-ABBAB-", 0x0403_0201, 5, &[1, 2, 3, 4, 1, 0, 5, 5, 0b01_10_10_01, 0b10]),
    ("AABB", 0xFFFF_FFFF, 15, &[255, 255, 255, 255, 0, 0, 4, 15, 0b10_10_01_01]),
    ("--A-B-A----B", 9, 8, &[9, 0, 0, 0, 2, 0, 10, 8, 0b00_10_00_01, 0b01, 0b10_00]),
];

#[test]
fn records_in_bytes() {
    let mut trials = Trials::default();
    for (letters, tag, grade, bytes) in RECORDS {
        let mut given = Fixture::tagged(&[letters], &[tag]).graded(&[grade]);
        given.table = [bytes, &vec![0; 32 - bytes.len()]].concat();
        let sides = format!("{} {} {} 1 0", "1".repeat(given.n), letters, "-".repeat(given.n));
        let fields = if given.n == 0 { ". . . 1 0".to_owned() } else { sides };
        let each = Each::of_conflict_free(&given, &fields);
        let expected = if is_gapped(letters) { each.gapped(0) } else { each };
        trials.run_each(&format!("{letters} of grade {grade} alone"), &given, &expected);
    }
}

/// 90 to 96 calls.
fn long(i: usize) -> String {
    let (start, span) = (i % 33, 96 - i % 7);
    let letter = |c: usize| if (start..start + span).contains(&c) { ['A', 'B', 'B'][(c * c + i) % 3] } else { '-' };
    (0..128).map(letter).collect()
}

fn one_call(i: usize) -> String {
    lone('B', 127 - i, 128)
}

/// One call, or none.
fn short(i: usize) -> String {
    if i % 2 == 1 {
        padded("", 128)
    } else {
        one_call(i)
    }
}

/// Calls at the long fragment's ends alone.
fn two_calls(i: usize) -> String {
    mates([('A', i % 33), ('B', i % 33 + 95 - i % 7)], 128)
}

/// The long fragment with holes on every fourth column and on 40 to 69, but at its ends.
fn holed(i: usize) -> String {
    let (start, last) = (i % 33, i % 33 + 95 - i % 7);
    let hole = |c: usize| c != start && c != last && (c % 4 == 1 || (40..70).contains(&c));
    long(i).char_indices().map(|(c, letter)| if hole(c) { '-' } else { letter }).collect()
}

/// Tables of many fragments, put in order, some of them with calls at the last column. Neighbours have other grades, and
/// so have fragments that are 8 or 16 apart.
#[test]
fn tables_both_ways() {
    let mut trials = Trials::default();
    let tables: [(&str, fn(usize) -> String); 5] = [
        ("128 long fragments", long),
        ("128 fragments of one call", one_call),
        ("128 short fragments, half of them without calls", short),
        ("128 fragments of two calls", two_calls),
        ("128 long fragments with holes", holed),
    ];
    for (name, fragment) in tables {
        let grades: Vec<u8> = (0..128).map(|i: usize| ((7 * i + i / 16) % 16) as u8).collect();
        let given = Fixture::of(&by_start((0..128).map(fragment).collect())).graded(&grades);
        trials.run(name, Unpack, &given, &Expected::unpacked(&given));
        trials.run(name, Pack, &given, &Expected::packed(&given));
    }
}

/// Pack's rule 6: 4 has the two bits of a hole, 5 and 129 those of A, 254 those of B.
#[test]
fn cells_over_2() {
    let mut trials = Trials::default();
    for value in [3, 4, 5, 128, 129, 254, 255] {
        for at in 0..6 {
            let mut given = Fixture::of(&["AAA", "AAA"]);
            given.cells[at] = value;
            let name = format!("{value} in cell {} of fragment {}", at % 3, at / 3);
            trials.run(&name, Pack, &given, &Expected::refused(6, at / 3));
        }
        let mut gapped = Fixture::of(&["AAA", "A-A"]);
        gapped.cells[5] = value;
        trials.run(&format!("{value} after a gap"), Pack, &gapped, &Expected::refused(6, 1));
        for at in 3..6 {
            let mut alone = Fixture::of(&["AAA", "---", "---"]);
            alone.cells[at] = value;
            let name = format!("{value} in cell {} of a fragment without calls", at % 3);
            trials.run(&name, Pack, &alone, &Expected::refused(6, 1));
        }
    }
}
