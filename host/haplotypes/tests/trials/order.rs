//! Of several faults, the one that is refused: 3, 1, 2, 10, 11; then records from 0, each by 4 to 7, 9 and 13, for S and F
//! by 4 to 9 and 13; then 12, which `depths` tries. Pack: 3, 1, 2, 11; then fragments from 0, each by 5, 6, 17, 4, 9, 13.

use crate::calls::{Service, Sizes, Trials, OF_TABLES, SERVICES, WITH_WORK};
use crate::expected::{Each, Expected};
use crate::faults::{run_faults, Fault};
use crate::fixtures::{mates, padded, Fixture};

/// Name, columns, fragments, whether the bytes (for pack, the cells) are one too many, the length of the work, what
/// every output has too much, and the number: of a service that borrows work, and of one that does not.
type Faults = (&'static str, usize, usize, bool, usize, usize, u8, u8);

/// Each row has the faults of the next one too. The fragments have a hole and an unknown call, are too many for C in
/// column 0, and out of order.
const SIZES: [Faults; 6] = [
    ("129 columns", 129, 129, true, 32_767, 1, 3, 3),
    ("ragged", 3, 129, true, 32_767, 1, 1, 1),
    ("129 fragments", 3, 129, false, 32_767, 1, 2, 2),
    ("short work", 3, 9, false, 32_767, 1, 10, 11),
    ("wrong outputs", 3, 9, false, 32_768, 1, 11, 11),
    ("unknown calls", 3, 9, false, 32_768, 0, 6, 6),
];

#[test]
fn sizes_come_before_records() {
    let mut trials = Trials::default();
    for (name, n, m, ragged, work, more, number, number_without_work) in SIZES {
        let tags: Vec<u32> = (0..m as u32).rev().collect();
        let mut given = Fixture::tagged(&vec![padded("A-?", n); m], &tags);
        given.table.extend(ragged.then_some(0));
        given.cells.extend(ragged.then_some(0));
        let exact = Sizes::of(&given);
        let (cells, tags, grades) = (exact.cells + more, exact.tags + more, exact.grades + more);
        let (answer, table, counts) = (exact.answer + more, exact.table + more, exact.counts + more);
        let sizes = Sizes { cells, tags, grades, work, answer, table, counts };
        for service in SERVICES {
            let number = if WITH_WORK.contains(&service) { number } else { number_without_work };
            trials.run_sized(name, service, &given, sizes, &Expected::refused(number, 0));
        }
    }
}

/// The same of nine mates, whose records no service refuses but S and F, by 8; C refuses column 0.
#[test]
fn sizes_come_before_holes_and_depths() {
    let mut trials = Trials::default();
    let given = Fixture::of(&["A-A"; 9]);
    let exact = Sizes::of(&given);
    let (short, wrong) = (Sizes { work: 32_767, ..exact }, Sizes { answer: exact.answer + 1, ..exact });
    for service in WITH_WORK {
        trials.run_sized("short work", service, &given, short, &Expected::refused(10, 0));
        trials.run_sized("a wrong answer", service, &given, wrong, &Expected::refused(11, 0));
        let number = if service.refuses_holes() { 8 } else { 12 };
        trials.run("right sizes", service, &given, &Expected::refused(number, 0));
    }
}

/// Each fault of the sizes beside records of a grade, or 129 of them, that are refused by themselves.
fn run_sizes(services: &[Service], fragments: [&str; 2], grade: u8, many: &Fixture, by_themselves: &Expected) {
    let mut trials = Trials::default();
    let given = Fixture::of(&fragments).graded(&[grade; 2]);
    let wide = Fixture::of(&fragments.map(|letters| padded(letters, 129))).graded(&[grade; 2]);
    let mut ragged = given.clone();
    ragged.table.push(0);
    ragged.cells.push(0);
    let mut ungraded = given.clone();
    ungraded.grades.pop();
    let exact = Sizes::of(&given);
    let wrong = Sizes { cells: 0, tags: 0, grades: 0, answer: 0, table: 0, counts: 0, ..exact };
    for &service in services {
        trials.run("129 columns", service, &wide, &Expected::refused(3, 0));
        trials.run_sized("ragged", service, &ragged, exact, &Expected::refused(1, 0));
        trials.run("129 fragments", service, many, &Expected::refused(2, 0));
        trials.run_sized("wrong outputs", service, &given, wrong, &Expected::refused(11, 0));
        trials.run("right sizes", service, &given, by_themselves);
        if WITH_WORK.contains(&service) {
            let short = Sizes { work: 32_767, ..wrong };
            trials.run_sized("short work", service, &given, short, &Expected::refused(10, 0));
        }
        if service == Service::Pack {
            trials.run("a grade too few", service, &ungraded, &Expected::refused(1, 0));
        }
    }
}

#[test]
fn sizes_come_before_records_out_of_order() {
    let many = Fixture::tagged(&["A"; 129], &(0..129).rev().collect::<Vec<u32>>());
    run_sizes(&SERVICES, ["-A", "A-"], 0, &many, &Expected::refused(13, 1));
}

#[test]
fn sizes_come_before_grades() {
    for grade in [16, 255] {
        let many = Fixture::of(&["A"; 129]).graded(&[grade; 129]);
        run_sizes(&SERVICES, ["A-", "A-"], grade, &many, &Expected::refused(5, 0));
    }
}

#[test]
fn sizes_come_before_fragments_without_calls() {
    for letters in ["", "-", "--"] {
        run_sizes(&[Service::Pack], [letters; 2], 0, &Fixture::of(&[letters; 129]), &Expected::refused(17, 0));
    }
}

/// Sizes by pairs, with lengths 0 in the place of one too many.
#[test]
fn sizes_by_pairs() {
    let mut trials = Trials::default();
    let empty = Sizes { cells: 0, tags: 0, grades: 0, work: 0, answer: 0, table: 0, counts: 0 };
    let given = Fixture::of(&["AA-", "BAA", "-BB"]);
    let mut ragged = given.clone().in_columns(129);
    ragged.table.truncate(31);
    ragged.cells.truncate(8);
    for service in SERVICES {
        let number = if WITH_WORK.contains(&service) { 10 } else { 11 };
        trials.run_sized("all lengths 0", service, &given, empty, &Expected::refused(number, 0));
        let wide = given.clone().in_columns(129);
        trials.run_sized("129 columns, all lengths 0", service, &wide, empty, &Expected::refused(3, 0));
        trials.run_sized("129 columns and ragged", service, &ragged, empty, &Expected::refused(3, 0));
        let all = ragged.clone().in_columns(usize::MAX);
        trials.run_sized("columns without end and ragged", service, &all, empty, &Expected::refused(3, 0));
    }
}

/// A refused record, and an output that is wrong.
#[test]
fn outputs_come_before_records() {
    let mut trials = Trials::default();
    let given = Fixture::of(&["AA-", "BAA", "-BB"]).in_columns(2);
    let exact = Sizes::of(&given);
    for service in OF_TABLES {
        trials.run("record 1 out of frame", service, &given, &Expected::refused(4, 1));
        let sizes = Sizes { cells: 0, answer: exact.answer - 1, counts: exact.counts - 1, ..exact };
        trials.run_sized("and a wrong output", service, &given, sizes, &Expected::refused(11, 0));
    }
    let sizes = Sizes { table: 95, ..exact };
    trials.run_sized("and a wrong table", Service::C, &given, sizes, &Expected::refused(11, 0));
    for (name, sizes) in [("tags", Sizes { tags: 2, ..exact }), ("grades", Sizes { grades: 2, ..exact })] {
        let name = format!("and wrong {name}");
        trials.run_sized(&name, Service::Unpack, &given, sizes, &Expected::refused(11, 0));
    }
}

/// Each row has the faults of the next one too, and the last a hole. Byte 8 has four of the five cells, and byte 9 the
/// last.
const OF_A_RECORD: [Fault; 4] = [
    ("4 to 8", 5, "AAAAA", &[(4, 1), (7, 16), (8, 0b01_00_01_00), (9, 0b11)], 4),
    ("5 to 8", 5, "AAAAA", &[(7, 16), (8, 0b01_00_01_00), (9, 0b11)], 5),
    ("6 to 8", 5, "AAAAA", &[(8, 0b01_00_01_00), (9, 0b11)], 6),
    ("7 and 8", 5, "AAAAA", &[(8, 0b01_00_01_00)], 7),
];

#[test]
fn rules_of_a_record() {
    run_faults(&OF_A_RECORD);
    run_faults(&[
        ("4 by a start without calls, and 5", 3, "---", &[(4, 1), (8, 1)], 4),
        ("5 by a cell after the span, and 6", 3, "?", &[(8, 0b01_11)], 5),
        ("5 by a cell after the span, and 7", 3, "AA", &[(8, 0b01_00_01)], 5),
        ("6 first and 7 last", 3, "AA", &[(8, 0b00_11)], 6),
        ("7 first and 6 last", 3, "AA", &[(8, 0b11_00)], 6),
        ("6 after a gap", 3, "A-?", &[], 6),
        ("4 by a span of 97, and 5 by a grade", 128, "A", &[(6, 97), (7, 16)], 4),
        ("4 past the columns, and 5 by a grade", 3, "-AA", &[(4, 2), (7, 16)], 4),
        ("4 by a start without calls, and 5 by a grade", 3, "---", &[(4, 1), (7, 16)], 4),
        ("5 by a grade and by a cell after the span", 3, "A", &[(7, 16), (8, 0b01_01)], 5),
        ("5 by a grade, and 6", 3, "A?A", &[(7, 16)], 5),
        ("5 by a grade, and 7", 3, "AA", &[(7, 16), (8, 0b01_00)], 5),
        ("5 by a grade, and 8", 3, "A-A", &[(7, 16)], 5),
        ("grade 15, and 4", 3, "-AA", &[(4, 2), (7, 15)], 4),
        ("grade 15, and 5 by a cell after the span", 3, "A", &[(7, 15), (8, 0b01_01)], 5),
        ("grade 15, and 6", 3, "A?A", &[(7, 15)], 6),
        ("grade 15, and 7", 3, "AA", &[(7, 15), (8, 0b01_00)], 7),
    ]);
}

/// The same with the tag of an earlier record, or out of order, or both. Between 7 and 9 only S and F see the hole.
#[test]
fn rules_of_a_record_before_9_and_13() {
    let mut trials = Trials::default();
    // The name, the record before it, the tags, and the number. An edit for rule 4 makes the start 1, which is below 2.
    let rows = [
        ("9", "A----", [10, 10, 12], 9),
        ("13 by start", "--A--", [10, 11, 12], 13),
        ("13 by tag", "A----", [11, 10, 12], 13),
        ("9 and 13", "--A--", [10, 10, 12], 9),
    ];
    for (last, first, tags, number) in rows {
        let faulty = Fixture::tagged(&[first, "AAAAA", "--A--"], &tags);
        let gapped = Fixture::tagged(&[first, "AA-AA", "--A--"], &tags);
        for service in OF_TABLES {
            for (name, _, _, edits, earlier) in OF_A_RECORD {
                let given = faulty.clone().edited(1, edits);
                trials.run(&format!("{name} and {last}"), service, &given, &Expected::refused(earlier, 1));
            }
            let of_gapped = if service.refuses_holes() { 8 } else { number };
            trials.run(&format!("8 and {last}"), service, &gapped, &Expected::refused(of_gapped, 1));
        }
        for service in SERVICES {
            trials.run(last, service, &faulty, &Expected::refused(number, 1));
        }
    }
    let given = Fixture::tagged(&["A----", "AA-AA", "A----"], &[10, 11, 12]);
    trials.run_each("8", &given, &Each::of_conflict_free(&given, "11111 AA-AA ----- 111 0,1,2").gapped(1));
    let given = Fixture::tagged(&["A----", "AAAAA", "A----"], &[10, 11, 12]);
    trials.run_each("none", &given, &Each::of_conflict_free(&given, "11111 AAAAA ----- 111 0,1,2"));
}

/// A refused table, also with the grade 15 throughout, and with a grade over 15 at each place. By that a record, or
/// fragment, is refused unless an earlier one is: rule 5 comes before all others of pack's, and of a record before all but
/// 4.
fn run_with_grades(trials: &mut Trials, name: &str, service: Service, given: &Fixture, refusal: (u8, usize)) {
    let (number, at) = refusal;
    let refused = Expected::refused(number, at);
    trials.run(name, service, given, &refused);
    let graded = given.clone().graded(&vec![15; given.m()]);
    trials.run(&format!("{name}, and grade 15"), service, &graded, &refused);
    for place in 0..given.m() {
        let mut grades = vec![0; given.m()];
        grades[place] = 16;
        let first = at < place || (at == place && number == 4 && service != Service::Pack);
        let expected = if first { refused.clone() } else { Expected::refused(5, place) };
        trials.run(&format!("{name}, and 5 at {place}"), service, &given.clone().graded(&grades), &expected);
    }
}

/// Calls at both ends of 128 columns reach over more than 96. As a record they are out of frame, whatever the codes.
/// No fragment breaks both 17 and 4: without calls it reaches over no column.
/// The fragment before starts at column 1 or 2, so that this one is out of order, or at 0. The numbers are those of pack,
/// of S and F, and of the others.
#[test]
fn rules_of_packs_fragments() {
    let mut trials = Trials::default();
    let (unknown, far) = (mates([('?', 0), ('A', 127)], 128), mates([('A', 0), ('B', 127)], 128));
    let [near, alone, empty, gapped, whole] = ["?AB", "?", "", "A-B", "AAB"].map(|letters| padded(letters, 128));
    let rows = [
        ("6 without calls, 9 and 13", "-A", &alone, [10, 10], [6, 6, 6]),
        ("6 without calls", "A", &alone, [10, 11], [6, 6, 6]),
        ("17, 9 and 13", "-A", &empty, [10, 10], [17, 9, 9]),
        ("17 and 13 by start", "-A", &empty, [10, 11], [17, 13, 13]),
        ("17 and 13 by tag", "A", &empty, [11, 10], [17, 13, 13]),
        ("17 and 9", "A", &empty, [10, 10], [17, 9, 9]),
        ("6, 4, a hole, 9 and 13", "-A", &unknown, [10, 10], [6, 4, 4]),
        ("4, a hole, 9 and 13", "-A", &far, [10, 10], [4, 4, 4]),
        ("a hole, 9 and 13", "-A", &gapped, [10, 10], [9, 8, 9]),
        ("9 and 13", "-A", &whole, [10, 10], [9, 9, 9]),
        ("6, 4, a hole and 13", "-A", &unknown, [10, 11], [6, 4, 4]),
        ("6 and 13", "--A", &near, [10, 11], [6, 6, 6]),
        ("4, a hole and 13", "-A", &far, [10, 11], [4, 4, 4]),
        ("a hole and 13", "-A", &gapped, [10, 11], [13, 8, 13]),
        ("13", "-A", &whole, [10, 11], [13, 13, 13]),
        ("6, 4, a hole and 9", "A", &unknown, [10, 10], [6, 4, 4]),
        ("4, a hole and 9", "A", &far, [10, 10], [4, 4, 4]),
        ("a hole and 9", "A", &gapped, [10, 10], [9, 8, 9]),
        ("9", "A", &whole, [10, 10], [9, 9, 9]),
        ("4 and a hole", "A", &far, [10, 11], [4, 4, 4]),
    ];
    for (name, first, letters, tags, [of_pack, of_gapless, of_mates]) in rows {
        let given = Fixture::tagged(&[&padded(first, 128), letters], &tags);
        run_with_grades(&mut trials, name, Service::Pack, &given, (of_pack, 1));
        for service in OF_TABLES {
            let number = if service.refuses_holes() { of_gapless } else { of_mates };
            run_with_grades(&mut trials, name, service, &given, (number, 1));
        }
    }
}

/// A number and a place by S and F, and by the services that take holes.
type Refusals = [(u8, usize); 2];

fn refusal(service: Service, [of_gapless, of_mates]: Refusals) -> (u8, usize) {
    if service.refuses_holes() {
        of_gapless
    } else {
        of_mates
    }
}

/// A later rule of a lower record comes before an earlier rule of a higher one.
#[test]
fn records_from_0() {
    let mut trials = Trials::default();
    let gapped = Fixture::of(&["A-A", "AAA", "AAA"]);
    let open = Fixture::of(&["AAA", "AAA", "AAA"]).edited(1, &[(8, 0b00_01_01)]).edited(2, &[(7, 16)]);
    let twice = Fixture::tagged(&["AAA", "AAA", "AAA"], &[10, 10, 12]).edited(2, &[(4, 1)]);
    let unordered = Fixture::tagged(&["AAA", "AAA", "AAA"], &[11, 10, 12]);
    let last = Fixture::tagged(&["AAA", "AAA", "AAA"], &[10, 12, 11]);
    let rows: [(&str, Fixture, Refusals); 11] = [
        ("8 at 0, 4 at 1", gapped.clone().edited(1, &[(4, 1)]), [(8, 0), (4, 1)]),
        ("8 at 0, 5 at 1, 4 at 2", gapped.clone().edited(1, &[(7, 16)]).edited(2, &[(4, 1)]), [(8, 0), (5, 1)]),
        ("8 at 0, 7 at 2", gapped.edited(2, &[(8, 0b01_01_00)]), [(8, 0), (7, 2)]),
        ("7 at 1, 5 at 2", open, [(7, 1); 2]),
        ("9 at 1, 4 at 2", twice, [(9, 1); 2]),
        ("13 at 1, 4 at 2", unordered.clone().edited(2, &[(4, 1)]), [(13, 1); 2]),
        ("13 at 1, 5 at 2", unordered.clone().edited(2, &[(7, 16)]), [(13, 1); 2]),
        ("13 at 1, 7 at 2", unordered.edited(2, &[(8, 0b01_01_00)]), [(13, 1); 2]),
        ("4 at 1, 13 at 2", last.clone().edited(1, &[(4, 1)]), [(4, 1); 2]),
        ("5 at 0, 13 at 2", last.clone().edited(0, &[(7, 16)]), [(5, 0); 2]),
        ("7 at 1, 13 at 2", last.edited(1, &[(8, 0b00_01_01)]), [(7, 1); 2]),
    ];
    for (name, given, refusals) in &rows {
        for service in OF_TABLES {
            let (number, place) = refusal(service, *refusals);
            trials.run(name, service, given, &Expected::refused(number, place));
        }
    }
}

/// The same in letters, for pack too.
#[test]
fn fragments_from_0() {
    let mut trials = Trials::default();
    let rows: [(&str, [&str; 3], [u32; 3], Refusals); 14] = [
        ("8 at 0, 6 at 1", ["A-A", "?AA", "AAA"], [10, 11, 12], [(8, 0), (6, 1)]),
        ("8 at 1, 6 at 2", ["AAA", "A-B", "A?A"], [10, 11, 12], [(8, 1), (6, 2)]),
        ("9 at 1, 6 at 2", ["AAA", "AAA", "A?A"], [10, 10, 12], [(9, 1); 2]),
        ("9 at 1, 8 at 2", ["AAA", "AAA", "A-A"], [10, 10, 12], [(9, 1); 2]),
        ("6 at 0, 9 at 1", ["??A", "AAA", "AAA"], [10, 10, 12], [(6, 0); 2]),
        ("8 at 0, 9 at 2", ["A-A", "AAA", "AAA"], [10, 11, 11], [(8, 0), (9, 2)]),
        ("8 at 0, 13 at 1", ["A-A", "AAA", "AAA"], [11, 10, 12], [(8, 0), (13, 1)]),
        ("8 at 1, 13 at 2", ["AAA", "A-A", "AAA"], [10, 12, 11], [(8, 1), (13, 2)]),
        ("6 at 0, 13 at 1", ["-?A", "AAA", "AAA"], [10, 11, 12], [(6, 0); 2]),
        ("9 at 1, 13 at 2", ["-AA", "-AA", "AAA"], [10, 10, 12], [(9, 1); 2]),
        ("13 at 1, 6 at 2", ["-AA", "AAA", "A?A"], [10, 11, 12], [(13, 1); 2]),
        ("13 at 1, 8 at 2", ["-AA", "AAA", "A-A"], [10, 11, 12], [(13, 1); 2]),
        ("13 at 1, 9 at 2", ["-AA", "AAA", "AAA"], [10, 11, 11], [(13, 1); 2]),
        ("13 at 1, 13 at 2", ["--A", "-AA", "AAA"], [10, 11, 12], [(13, 1); 2]),
    ];
    for (name, fragments, tags, refusals) in rows {
        let given = Fixture::tagged(&fragments, &tags);
        for service in SERVICES {
            run_with_grades(&mut trials, name, service, &given, refusal(service, refusals));
        }
    }
}

/// Fragments without calls among those that every service refuses: the refusal by pack, and that by the others.
#[test]
fn fragments_without_calls_from_0() {
    let mut trials = Trials::default();
    let far = mates([('A', 0), ('B', 127)], 128);
    let rows: [(&str, [&str; 3], [u32; 3], [(u8, usize); 2]); 15] = [
        ("6 at 0, 17 at 1", ["A?A", "", "A"], [10, 11, 12], [(6, 0); 2]),
        ("4 at 0, 17 at 1", [&far, "", "A"], [10, 11, 12], [(4, 0); 2]),
        ("6 at 1, 17 at 2", ["A", "?", ""], [10, 11, 12], [(6, 1); 2]),
        ("4 at 1, 17 at 2", ["A", &far, ""], [10, 11, 12], [(4, 1); 2]),
        ("9 at 1, 17 at 2", ["A", "A", ""], [10, 10, 12], [(9, 1); 2]),
        ("13 at 1 by tag, 17 at 2", ["A", "A", ""], [11, 10, 12], [(13, 1); 2]),
        ("13 at 1 by start, 17 at 2", ["-A", "A", ""], [10, 11, 12], [(13, 1); 2]),
        ("17 at 0, 6 at 1", ["", "?", "A"], [10, 11, 12], [(17, 0), (6, 1)]),
        ("17 at 0, 4 at 1", ["", &far, "A"], [10, 11, 12], [(17, 0), (4, 1)]),
        ("17 at 0, 9 at 1", ["", "A", "A"], [10, 10, 12], [(17, 0), (9, 1)]),
        ("17 at 0, 13 at 1", ["", "A", "A"], [11, 10, 12], [(17, 0), (13, 1)]),
        ("17 at 1, 6 at 2", ["A", "", "A?A"], [10, 11, 12], [(17, 1), (6, 2)]),
        ("17 at 1, 4 at 2", ["A", "", &far], [10, 11, 12], [(17, 1), (4, 2)]),
        ("17 at 1, 9 at 2", ["A", "", "A"], [10, 11, 10], [(17, 1), (9, 2)]),
        ("17 at 1, 13 at 2", ["A", "", "A"], [10, 12, 11], [(17, 1), (13, 2)]),
    ];
    for (name, fragments, tags, [of_pack, of_others]) in rows {
        let given = Fixture::tagged(&fragments.map(|letters| padded(letters, 128)), &tags);
        run_with_grades(&mut trials, name, Service::Pack, &given, of_pack);
        for service in OF_TABLES {
            run_with_grades(&mut trials, name, service, &given, of_others);
        }
    }
}
