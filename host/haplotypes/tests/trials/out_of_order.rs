//! Rule 13: records rise by start, and at one start by tag, each against the one directly before. `order` tries the rule
//! among the others, `depths` before 12, `find` what is found in tables that break it. Pack compares no fragment without
//! calls, which it refuses first (17).

use crate::calls::{Service, Trials, OF_TABLES, SERVICES};
use crate::expected::{Each, Expected};
use crate::fixtures::{lone, padded, Fixture};

/// Every service refuses the record at the place, but pack a fragment without calls up to there.
fn run_refused(trials: &mut Trials, name: &str, given: &Fixture, place: usize) {
    let out_of_order = Expected::refused(13, place);
    for service in OF_TABLES {
        trials.run(name, service, given, &out_of_order);
    }
    let without_calls = given.first_without_calls().filter(|&first| first <= place);
    let of_pack = without_calls.map_or(out_of_order, |first| Expected::refused(17, first));
    trials.run(name, Service::Pack, given, &of_pack);
}

/// A name, fragments of As, and their tags.
type InOrder = (&'static str, &'static [&'static str], &'static [u32]);

const IN_ORDER: [InOrder; 15] = [
    ("rising tags at one start", &["A", "A", "A"], &[1, 2, 3]),
    ("rising tags at start 1", &["-A", "-A", "-A"], &[1, 2, 3]),
    ("rising starts and tags", &["A--", "-A-", "--A"], &[1, 2, 3]),
    ("rising starts and falling tags", &["A--", "-A-", "--A"], &[3, 2, 1]),
    ("tags that rise at each start, and fall between", &["A-", "A-", "-A", "-A"], &[8, 9, 1, 2]),
    ("starts with columns between", &["A-----", "---A--", "-----A"], &[2, 1, 0]),
    ("no calls, by rising tags", &["-", "-", "-"], &[0, 7, u32::MAX]),
    ("no columns, by rising tags", &["", ""], &[7, 8]),
    ("no calls before others at start 0", &["--", "--", "A-", "-A"], &[1, 2, 3, 0]),
    ("no calls between others at start 0", &["A-", "--", "A-", "--", "-A"], &[1, 2, 3, 4, 0]),
    ("no calls after others at start 0", &["A-", "A-", "--", "-A"], &[1, 2, 3, 0]),
    ("no calls, and then a start of 1 with a lower tag", &["--", "-A"], &[9, 1]),
    ("a shorter fragment after a longer, by tag", &["AAA", "A--", "AA-"], &[1, 2, 3]),
    ("fragments that end before others do", &["AAAA", "-A--", "-AAA", "--A-"], &[4, 2, 3, 1]),
    ("the least and the largest tag", &["A", "A"], &[0, u32::MAX]),
];

#[test]
fn records_in_order() {
    let mut trials = Trials::default();
    for (name, fragments, tags) in IN_ORDER {
        let given = Fixture::tagged(fragments, tags);
        trials.run_each(name, &given, &Each::of_as_alone(&given));
    }
}

/// Eight fragments at every eighth column; the tags rise at each of these, and fall from one to the next.
#[test]
fn a_full_table_in_order() {
    let mut trials = Trials::default();
    let fragments: Vec<String> = (0..128).map(|i| lone('A', i / 8 * 8, 128)).collect();
    let tags: Vec<u32> = (0..128).map(|i| (15 - i / 8) << 28 | i % 8).collect();
    let given = Fixture::tagged(&fragments, &tags);
    trials.run_each("128 fragments", &given, &Each::of_as_alone(&given));
}

/// A name, the fragments, their tags, and the first record out of order.
type Unordered = (&'static str, &'static [&'static str], &'static [u32], usize);

const OUT_OF_ORDER: [Unordered; 23] = [
    ("falling tags at one start", &["A", "A"], &[2, 1], 1),
    ("falling tags at start 1", &["-A", "-A"], &[2, 1], 1),
    ("the largest tag and the least", &["A", "A"], &[u32::MAX, 0], 1),
    ("a falling start and a rising tag", &["-A", "A-"], &[1, 2], 1),
    ("a falling start and a falling tag", &["-A", "A-"], &[2, 1], 1),
    ("a start that falls by more than one", &["----A", "-A---"], &[1, 2], 1),
    ("no calls and a lower tag after one at start 0", &["A", "-"], &[5, 3], 1),
    ("no calls, by falling tags", &["-", "-"], &[5, 3], 1),
    ("no columns, by falling tags", &["", ""], &[5, 3], 1),
    ("a call at start 0 and a lower tag after no calls", &["-", "A"], &[5, 3], 1),
    ("no calls after a start of 1", &["-A", "--"], &[1, 2], 1),
    ("no calls after a start of 1, and a lower tag", &["-A", "--"], &[2, 1], 1),
    ("no calls between starts of 1", &["-A", "--", "-A"], &[1, 2, 3], 1),
    ("two tags around no calls", &["A", "-", "A"], &[1, 3, 2], 2),
    ("two starts around no calls", &["--", "-A", "A-"], &[1, 2, 3], 2),
    ("a start below the second, above the first", &["A--", "--A", "-A-"], &[1, 2, 3], 2),
    ("a tag below the second, above the first", &["A", "A", "A"], &[1, 3, 2], 2),
    ("a tag below the second at one start, above the first", &["A-", "-A", "-A"], &[1, 9, 5], 2),
    ("a record below the first, after one that is", &["-A", "A-", "A-"], &[1, 2, 3], 1),
    ("starts that fall twice", &["--A", "-A-", "A--"], &[1, 2, 3], 1),
    ("starts that fall, rise and fall", &["-A-", "A--", "--A", "A--"], &[1, 2, 3, 4], 1),
    ("the last of five", &["A--", "A--", "-A-", "--A", "-A-"], &[1, 2, 3, 4, 5], 4),
    ("a conflict", &["-A", "BB"], &[1, 2], 1),
];

#[test]
fn records_out_of_order() {
    let mut trials = Trials::default();
    for (name, fragments, tags, place) in OUT_OF_ORDER {
        run_refused(&mut trials, name, &Fixture::tagged(fragments, tags), place);
    }
}

/// Tags are compared as whole numbers: a bit decides over all below it, whichever way these go.
#[test]
fn each_bit_of_a_tag() {
    let mut trials = Trials::default();
    for bit in 0..32 {
        let power = 1 << bit;
        for (low, high) in [(0, power), (power - 1, power), (power - 1, power | (power - 1)), (!power, u32::MAX)] {
            for fragments in [["A", "A"], ["A", "-"]] {
                let rising = Fixture::tagged(&fragments, &[low, high]);
                trials.run_each(&format!("{fragments:?}, {low} and {high}"), &rising, &Each::of_as_alone(&rising));
                let falling = Fixture::tagged(&fragments, &[high, low]);
                run_refused(&mut trials, &format!("{fragments:?}, {high} and {low}"), &falling, 1);
            }
        }
    }
}

/// Each start against the one before it, and against 0.
#[test]
fn each_start() {
    let mut trials = Trials::default();
    for column in 1..128 {
        for (low, high) in [(column - 1, column), (0, column)] {
            let [near, far] = [low, high].map(|c| lone('A', c, 128));
            let rising = Fixture::tagged(&[&near, &far], &[2, 1]);
            trials.run_each(&format!("starts {low} and {high}"), &rising, &Each::of_as_alone(&rising));
            let falling = Fixture::tagged(&[&far, &near], &[1, 2]);
            run_refused(&mut trials, &format!("starts {high} and {low}"), &falling, 1);
        }
    }
}

/// Of 128 records in order two neighbours are exchanged: at one start, without calls, and at a start each.
#[test]
fn each_place() {
    let mut trials = Trials::default();
    let (all, some): (Vec<usize>, Vec<usize>) = ((1..128).collect(), vec![1, 2, 63, 64, 65, 126, 127]);
    let rows: [(&str, &[usize], fn(usize) -> String); 3] = [
        ("by tag", &all, |_| lone('A', 5, 128)),
        ("by tag, without calls", &some, |_| padded("", 128)),
        ("by start", &some, |i| lone('A', i, 128)),
    ];
    for (name, places, fragment) in rows {
        for &place in places {
            let mut order: Vec<usize> = (0..128).collect();
            order.swap(place - 1, place);
            let fragments: Vec<String> = order.iter().map(|&i| fragment(i)).collect();
            let tags: Vec<u32> = order.iter().map(|&i| i as u32).collect();
            run_refused(&mut trials, &format!("{name}, at {place}"), &Fixture::tagged(&fragments, &tags), place);
        }
    }
}

/// Every order of the numbers below `count`.
fn orders(count: usize) -> Vec<Vec<usize>> {
    if count == 0 {
        return vec![vec![]];
    }
    let put = |order: Vec<usize>, at: usize| [&order[..at], &[count - 1], &order[at..]].concat();
    orders(count - 1).into_iter().flat_map(|order| (0..count).map(move |at| put(order.clone(), at))).collect()
}

/// Five records, of which one order alone is in order, whether or not the second has a call. Any other is refused where a
/// number is first below the one before it.
#[test]
fn every_order_of_five_records() {
    let mut trials = Trials::default();
    let orders = orders(5);
    assert_eq!(orders.len(), 120);
    for second in ["A--", "---"] {
        let records = [("A--", 5), (second, 7), ("AA-", 8), ("-A-", 3), ("--A", 6)];
        for order in &orders {
            let (fragments, tags): (Vec<&str>, Vec<u32>) = order.iter().map(|&i| records[i]).unzip();
            let (name, given) = (format!("order {order:?} with {second}"), Fixture::tagged(&fragments, &tags));
            match (1..5).find(|&i| order[i] < order[i - 1]) {
                None => trials.run_each(&name, &given, &Each::of_as_alone(&given)),
                Some(place) => run_refused(&mut trials, &name, &given, place),
            }
        }
    }
}

/// In the order of the papers, AB-, B-A, -AB, `mates` tries the triangle. S and F refuse the hole of B-A before they look
/// at the order.
#[test]
fn the_gapped_triangle_in_other_orders() {
    let mut trials = Trials::default();
    let rows = [
        (["AB-", "-AB", "B-A"], [10, 11, 12], (8, 2), (13, 2)),
        (["B-A", "-AB", "AB-"], [10, 11, 12], (8, 0), (13, 2)),
        (["-AB", "AB-", "B-A"], [10, 11, 12], (13, 1), (13, 1)),
        (["-AB", "B-A", "AB-"], [10, 11, 12], (8, 1), (13, 1)),
        (["AB-", "B-A", "-AB"], [11, 10, 12], (8, 1), (13, 1)),
        (["B-A", "AB-", "-AB"], [11, 10, 12], (8, 0), (13, 1)),
    ];
    for (fragments, tags, of_gapless, of_mates) in rows {
        let given = Fixture::tagged(&fragments, &tags);
        for service in SERVICES {
            let (number, place) = if service.refuses_holes() { of_gapless } else { of_mates };
            trials.run(&format!("{fragments:?}"), service, &given, &Expected::refused(number, place));
        }
    }
}
