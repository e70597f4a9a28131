//! Find: the first whole record with a tag, wherever the bytes come from.

use crate::calls::Trials;
use crate::fixtures::Fixture;

/// So many records that call A on column 0, with tags 0, 1, 2, ..
fn counted(m: u32) -> Vec<u8> {
    let tags: Vec<u32> = (0..m).collect();
    Fixture::tagged(&vec!["A"; tags.len()], &tags).table
}

/// Records that differ beyond their tags, so that the bytes handed back tell them apart.
fn tagged(tags: &[u32]) -> Vec<u8> {
    let letters: Vec<String> = (0..tags.len()).map(|i| "B".repeat(i + 1) + &"-".repeat(tags.len() - i)).collect();
    Fixture::tagged(&letters, tags).table
}

#[test]
fn tags_in_records() {
    let mut trials = Trials::default();
    let table = tagged(&[0, 1, 1, 7, 0]);
    let rows = [
        ("the first record", 0, Some(0)),
        ("the first of equal tags", 1, Some(1)),
        ("a record between", 7, Some(3)),
        ("a tag that none has", 2, None),
        ("the last tag that none has", u32::MAX, None),
        ("the tag's low byte alone", 256, None),
        ("the tag's high byte alone", 7 << 24, None),
    ];
    for (name, tag, position) in rows {
        trials.find(name, tag, &table, position);
    }
}

/// Every byte of a tag counts, and the first is the lowest.
#[test]
fn tags_that_are_almost_equal() {
    let mut trials = Trials::default();
    let tags = [0x0403_0201, 0x0403_0202, 0x0403_0301, 0x0404_0201, 0x0503_0201, 0x0102_0304, u32::MAX, 0];
    let table = tagged(&tags);
    for (i, tag) in tags.into_iter().enumerate() {
        trials.find(&format!("tag {tag:#x}"), tag, &table, Some(i));
        trials.find(&format!("tag {tag:#x}, alone"), tag, &tagged(&[tag]), Some(0));
        trials.find(&format!("tag {:#x}, alone", tag ^ 1), tag ^ 1, &tagged(&[tag]), None);
    }
}

/// The bytes after the last whole record are none, also where they go on to spell a record behind the table.
#[test]
fn ragged_rests() {
    let mut trials = Trials::default();
    let table = tagged(&[0, 1, u32::MAX]);
    let rows = [
        ("no bytes", 0, 0, None),
        ("a byte", 0, 1, None),
        ("31 bytes", 0, 31, None),
        ("32 bytes", 0, 32, Some(0)),
        ("33 bytes", 0, 33, Some(0)),
        ("a tag in the ragged rest", 1, 63, None),
        ("a tag at the ragged rest's start", 1, 36, None),
        ("a tag before a ragged rest", 0, 63, Some(0)),
        ("a tag before a longer one", 1, 95, Some(1)),
        ("the last tag in the ragged rest", u32::MAX, 68, None),
        ("the last tag, whole", u32::MAX, 96, Some(2)),
        ("the last tag behind the table", u32::MAX, 64, None),
        ("another tag behind the table", 0x0101_0101, 64, None),
    ];
    for (name, tag, bytes, position) in rows {
        trials.find(name, tag, &table[..bytes], position);
    }
}

/// Tables that the other services refuse.
#[test]
fn tables_that_no_other_service_takes() {
    let mut trials = Trials::default();
    let (many, more) = (counted(130), counted(3000));
    let rows = [
        ("the last of 130 records", 129, &many, Some(129)),
        ("the 129th of 130 records", 128, &many, Some(128)),
        ("none of 130 records", 130, &many, None),
        ("the last of 3,000 records", 2999, &more, Some(2999)),
        ("none of 3,000 records", 3000, &more, None),
    ];
    for (name, tag, table, position) in rows {
        trials.find(name, tag, table, position);
    }
    trials.find("the last of 3,000 records, ragged", 2999, &more[..96_000 - 1], None);
    let faulty = Fixture::tagged(&["A?A", "A-A", "AAA"], &[5, 6, 7]).edited(2, &[(6, 255), (7, 255)]);
    trials.find("a code 3", 5, &faulty.table, Some(0));
    trials.find("a gapped record", 6, &faulty.table, Some(1));
    trials.find("a record out of frame, with stray bits", 7, &faulty.table, Some(2));
    trials.find("records of ones", u32::MAX, &[255; 96], Some(0));
}

#[test]
fn records_without_calls() {
    let mut trials = Trials::default();
    let table = Fixture::tagged(&["--", "A-", "--"], &[5, 6, 7]).table;
    for (i, tag) in [5, 6, 7].into_iter().enumerate() {
        trials.find(&format!("tag {tag} of 5, 6 and 7"), tag, &table, Some(i));
    }
    trials.find("no tag 0, though all other bytes of two records are 0", 0, &table, None);
}

/// Rule 13 is none of find's.
#[test]
fn records_out_of_order() {
    let mut trials = Trials::default();
    let tags = [9, 3, 7, 1];
    let (falling_tags, falling_starts) =
        (tagged(&tags), Fixture::tagged(&["---A", "--A-", "-A--", "A---"], &tags).table);
    for (i, tag) in tags.into_iter().enumerate() {
        trials.find(&format!("tag {tag}, tags that fall"), tag, &falling_tags, Some(i));
        trials.find(&format!("tag {tag}, starts that fall"), tag, &falling_starts, Some(i));
    }
    for tag in [0, 2, 8, 10] {
        trials.find(&format!("no tag {tag}, tags that fall"), tag, &falling_tags, None);
    }
}

/// The tag's bytes stand elsewhere in records.
#[test]
fn tags_that_stand_elsewhere() {
    let mut trials = Trials::default();
    let spelled = [0x21, 0x43, 0x65, 0x87];
    for at in [1, 4, 8, 28] {
        let mut table = tagged(&[1, 2]);
        table[at..at + 4].copy_from_slice(&spelled);
        trials.find(&format!("at byte {at}"), 0x8765_4321, &table, None);
    }
    let mut table = tagged(&[1, 2]);
    table[30..34].copy_from_slice(&spelled);
    trials.find("at byte 30, over two records", 0x8765_4321, &table, None);
}
