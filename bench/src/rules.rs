//! The rules of fragments as papers 01 and 02 state them, apart from every implementation, and wrong ones.

use crate::request::Request;
use crate::services::Service;
use crate::tables::{CELLS, MOST};
use haplotypes::RECORD;

/// A rule's number, and a fragment's position or a column.
pub type Fault = (u8, usize);

/// The most fragments over a column that C accepts.
const DEPTH: usize = 8;

/// A fragment from its first call to one past its last; 0 for both without calls.
pub struct Fragment {
    start: usize,
    end: usize,
    tag: u32,
    grade: u8,
    /// whether a cell after the span is not 0
    stray: bool,
    /// the rules that it breaks whatever the others are, those of other services among them
    broken: Vec<u8>,
}

fn is_call(code: u8) -> bool {
    code == 1 || code == 2
}

fn is_gapped(codes: &[u8]) -> bool {
    let called = |codes: &[u8]| codes.iter().any(|&code| is_call(code));
    (0..codes.len()).any(|i| codes[i] == 0 && called(&codes[..i]) && called(&codes[i..]))
}

fn numbers(rules: &[(u8, bool)]) -> Vec<u8> {
    rules.iter().filter(|(_, broken)| *broken).map(|&(number, _)| number).collect()
}

fn of_record(record: &[u8]) -> Fragment {
    let tag = u32::from_le_bytes([record[0], record[1], record[2], record[3]]);
    let (start, span) = (u16::from_le_bytes([record[4], record[5]]) as usize, record[6] as usize);
    let cells: Vec<u8> = (0..CELLS).map(|i| record[8 + i / 4] >> (2 * (i % 4)) & 3).collect();
    let (codes, after) = cells.split_at(span.min(CELLS));
    let (grade, stray) = (record[7], after.iter().any(|&code| code != 0));
    let broken = numbers(&[
        (4, span > CELLS || start + span > MOST || span == 0 && start != 0),
        (5, grade > 15 || stray),
        (6, codes.contains(&3)),
        (7, codes.first() == Some(&0) || codes.last() == Some(&0)),
        (8, is_gapped(codes)),
        (17, span == 0),
    ]);
    Fragment { start, end: start + span, tag, grade, stray, broken }
}

fn of_row(cells: &[u8], tag: u32, grade: u8) -> Fragment {
    let called: Vec<usize> = (0..cells.len()).filter(|&column| is_call(cells[column])).collect();
    let (start, end) = (called.first().copied().unwrap_or(0), called.last().map_or(0, |last| last + 1));
    let broken = numbers(&[
        (5, grade > 15),
        (6, cells.iter().any(|&code| code > 2)),
        (17, called.is_empty()),
        (4, end - start > CELLS),
    ]);
    Fragment { start, end, tag, grade, stray: false, broken }
}

/// The fragments that a request gives.
pub fn fragments(request: Request) -> Vec<Fragment> {
    let (_, mut buffers) = request.call();
    match request.service {
        Service::Pack => {
            let rows = buffers.cells.lent().chunks(MOST);
            let rows = rows.zip(buffers.tags.lent()).zip(buffers.grades.lent());
            rows.map(|((row, tag), grade)| of_row(row, *tag, *grade)).collect()
        }
        _ => buffers.table.lent().chunks(RECORD).map(of_record).collect(),
    }
}

/// The rules that a service tests of a fragment, in their order.
fn rules(service: Service) -> &'static [u8] {
    match service {
        Service::Find => &[],
        Service::Pack => &[5, 6, 17, 4, 9, 13],
        Service::S | Service::F => &[4, 5, 6, 7, 8, 9, 13],
        _ => &[4, 5, 6, 7, 9, 13],
    }
}

/// Whether a fragment comes too early, given all of them and its position, which is not the first.
type Early = fn(&[Fragment], usize) -> bool;

fn is_early(fragments: &[Fragment], i: usize) -> bool {
    let (one, other) = (&fragments[i - 1], &fragments[i]);
    other.start < one.start || other.start == one.start && other.tag < one.tag
}

fn is_broken(fragments: &[Fragment], i: usize, rule: u8, early: Early) -> bool {
    match rule {
        9 => fragments[..i].iter().any(|earlier| earlier.tag == fragments[i].tag),
        13 => i > 0 && early(fragments, i),
        _ => fragments[i].broken.contains(&rule),
    }
}

/// Of each fragment that breaks a rule, in order, the first of the rules that it breaks.
fn faults<'a>(fragments: &'a [Fragment], rules: &'a [u8], early: Early) -> impl Iterator<Item = Fault> + 'a {
    let broken = move |i| rules.iter().find(|&&rule| is_broken(fragments, i, rule, early)).map(|&rule| (rule, i));
    (0..fragments.len()).filter_map(broken)
}

/// That of the first such fragment.
fn first(fragments: &[Fragment], rules: &[u8], early: Early) -> Option<Fault> {
    faults(fragments, rules, early).next()
}

/// The lowest column that too many fragments cover, holes included, where the service is C.
fn too_deep(service: Service, fragments: &[Fragment]) -> Option<Fault> {
    let covers = |fragment: &&Fragment, column| (fragment.start..fragment.end).contains(&column);
    let depth = |column| fragments.iter().filter(|fragment| covers(fragment, column)).count();
    (0..MOST).find(|&column| service == Service::C && depth(column) > DEPTH).map(|column| (12, column))
}

/// By what a service refuses a request with these fragments.
pub fn fault(service: Service, fragments: &[Fragment]) -> Option<Fault> {
    first(fragments, rules(service), is_early).or_else(|| too_deep(service, fragments))
}

type Decision = dyn Fn(&[Fragment]) -> Option<Fault>;

/// Rules that are wrong.
pub struct Wrong {
    pub name: String,
    pub fault: Box<Decision>,
}

fn wrong(name: impl ToString, fault: impl Fn(&[Fragment]) -> Option<Fault> + 'static) -> Wrong {
    Wrong { name: name.to_string(), fault: Box::new(fault) }
}

/// Every rule left out, and every two neighbours exchanged but 17 and 4: no fragment breaks both, so nothing tells.
fn wrong_lists(rules: &'static [u8]) -> Vec<Wrong> {
    let without = (0..rules.len()).map(|k| {
        let rest = [&rules[..k], &rules[k + 1..]].concat();
        wrong(format!("no {}", rules[k]), move |fragments| first(fragments, &rest, is_early))
    });
    let exchanged = (1..rules.len()).filter(|&k| rules[k - 1..=k] != [17, 4]).map(|k| {
        let mut other = rules.to_vec();
        other.swap(k - 1, k);
        wrong(format!("{} before {}", rules[k], rules[k - 1]), move |fragments| first(fragments, &other, is_early))
    });
    without.chain(exchanged).collect()
}

/// Rule 13 by another order, or by another fragment than the one before.
const WRONG_ORDERS: [(&str, Early); 9] = [
    ("start alone", |fragments, i| fragments[i].start < fragments[i - 1].start),
    ("tag alone", |fragments, i| fragments[i].tag < fragments[i - 1].tag),
    ("start or tag", |fragments, i| {
        fragments[i].start < fragments[i - 1].start || fragments[i].tag < fragments[i - 1].tag
    }),
    ("start and tag", |fragments, i| {
        fragments[i].start < fragments[i - 1].start && fragments[i].tag < fragments[i - 1].tag
    }),
    ("start, which may not stay", |fragments, i| fragments[i].start <= fragments[i - 1].start),
    ("start and the tag's low byte", |fragments, i| {
        let place = |i: usize| (fragments[i].start, fragments[i].tag as u8);
        place(i) < place(i - 1)
    }),
    ("start and the tag's high bytes", |fragments, i| {
        let place = |i: usize| (fragments[i].start, fragments[i].tag >> 8);
        place(i) < place(i - 1)
    }),
    ("start and a signed tag", |fragments, i| {
        let place = |i: usize| (fragments[i].start, fragments[i].tag as i32);
        place(i) < place(i - 1)
    }),
    ("start and tag of the first fragment", |fragments, i| {
        let place = |i: usize| (fragments[i].start, fragments[i].tag);
        place(i) < place(0)
    }),
];

/// Another way through the fragments and the rules.
fn wrong_ways(rules: &'static [u8]) -> Vec<Wrong> {
    let rule_by_rule = move |fragments: &[Fragment]| {
        let broken = |&rule: &u8| (0..MOST).find(|&i| is_broken(fragments, i, rule, is_early)).map(|i| (rule, i));
        rules.iter().find_map(broken)
    };
    let last = move |fragments: &[Fragment]| {
        let (order, others) = rules.split_last()?;
        first(fragments, others, is_early).or_else(|| first(fragments, &[*order], is_early))
    };
    let predecessor = move |fragments: &[Fragment]| match first(fragments, rules, is_early) {
        Some((13, i)) => Some((13, i - 1)),
        fault => fault,
    };
    vec![
        wrong("one rule after the other", rule_by_rule),
        wrong("13 after all fragments", last),
        wrong("13 at the fragment before", predecessor),
    ]
}

/// Pack's list with 4 or 17 moved to where no exchange of neighbours puts it, as the other of them is its neighbour, or
/// with 4 and 5 as for records.
const WRONG_MOVES: [(&str, [u8; 6]); 4] = [
    ("4 before 6", [5, 4, 6, 17, 9, 13]),
    ("17 after 9", [5, 6, 4, 9, 17, 13]),
    ("17 after 13", [5, 6, 4, 9, 13, 17]),
    ("4 before 5", [4, 5, 6, 17, 9, 13]),
];

/// Whether a fragment breaks a rule.
type Test = fn(&Fragment) -> bool;

/// Rule 5 by something else than that the grade is over 15.
const WRONG_GRADES: [(&str, Test); 6] = [
    ("a grade over 0", |fragment| fragment.grade > 0 || fragment.stray),
    ("a grade over 14", |fragment| fragment.grade > 14 || fragment.stray),
    ("a grade over 16", |fragment| fragment.grade > 16 || fragment.stray),
    ("a grade of 16", |fragment| fragment.grade == 16 || fragment.stray),
    ("bit 4 of the grade", |fragment| fragment.grade & 16 != 0 || fragment.stray),
    ("a signed grade over 15", |fragment| fragment.grade as i8 > 15 || fragment.stray),
];

/// Rule 5 of records by the grade or the cells after the span alone, or by both together.
const WRONG_STRAYS: [(&str, Test); 3] = [
    ("the grade alone", |fragment| fragment.grade > 15),
    ("the cells alone", |fragment| fragment.stray),
    ("the grade and the cells", |fragment| fragment.grade > 15 && fragment.stray),
];

/// Rule 17 by something else than that there is no call.
const WRONG_CALLS: [(&str, Test); 4] = [
    ("a start of 0", |fragment| fragment.start == 0),
    ("a span of at most 1", |fragment| fragment.end - fragment.start <= 1),
    ("no call after column 0", |fragment| fragment.end <= 1),
    ("no call before the last column", |fragment| fragment.end == 0 || fragment.start == MOST - 1),
];

/// Fragments of which another test decides whether they break a rule.
fn broken_by(fragments: &[Fragment], rule: u8, test: Test) -> Vec<Fragment> {
    let other = |fragment: &Fragment| {
        let mut broken = fragment.broken.clone();
        broken.retain(|&number| number != rule);
        broken.extend(test(fragment).then_some(rule));
        Fragment { broken, ..*fragment }
    };
    fragments.iter().map(other).collect()
}

/// A rule by each of some other tests.
fn wrong_tests<'a>(rules: &'static [u8], rule: u8, tests: &'a [(&'a str, Test)]) -> impl Iterator<Item = Wrong> + 'a {
    tests.iter().map(move |&(name, test)| {
        wrong(format!("{rule} by {name}"), move |fragments| first(&broken_by(fragments, rule, test), rules, is_early))
    })
}

/// A fragment that a rule refuses before or after all others, or not at its place.
fn wrong_ways_to(rules: &'static [u8], rule: u8) -> [Wrong; 3] {
    let before = move |fragments: &[Fragment]| {
        faults(fragments, rules, is_early).min_by_key(|&(number, place)| (number != rule, place))
    };
    let after = move |fragments: &[Fragment]| {
        faults(fragments, rules, is_early).min_by_key(|&(number, place)| (number == rule, place))
    };
    let placeless = move |fragments: &[Fragment]| match first(fragments, rules, is_early) {
        Some((number, _)) if number == rule => Some((number, 0)),
        fault => fault,
    };
    [
        wrong(format!("{rule} before an earlier fragment's rules"), before),
        wrong(format!("{rule} after a later fragment's rules"), after),
        wrong(format!("{rule} at place 0"), placeless),
    ]
}

/// Wrong about fragments without calls, which pack alone refuses, and about where 5 stands in its list.
fn wrong_in_pack(rules: &'static [u8]) -> Vec<Wrong> {
    let moves = WRONG_MOVES.map(|(name, list)| wrong(name, move |fragments| first(fragments, &list, is_early)));
    let ways = [5, 17].map(|rule| wrong_ways_to(rules, rule)).into_iter().flatten();
    moves.into_iter().chain(wrong_tests(rules, 17, &WRONG_CALLS)).chain(ways).collect()
}

/// Wrong about fragments without calls, and about stray bits, in a service that reads them. Pack refuses such fragments,
/// and so does not order them, and is given no cells after a span.
fn wrong_in_reading(rules: &'static [u8]) -> Vec<Wrong> {
    let last: Early = |fragments, i| {
        let place = |i: usize| (fragments[i].end == 0, fragments[i].start, fragments[i].tag);
        place(i) < place(i - 1)
    };
    let refusing = [rules, &[17]].concat();
    let of_calls = [
        wrong("13 by start and tag, the fragments without calls last", move |fragments| first(fragments, rules, last)),
        wrong("17 too", move |fragments| first(fragments, &refusing, is_early)),
    ];
    of_calls.into_iter().chain(wrong_tests(rules, 5, &WRONG_STRAYS)).collect()
}

/// Rules of a service that are wrong in one way each.
pub fn wrong_rules(service: Service) -> Vec<Wrong> {
    let rules = rules(service);
    if rules.is_empty() {
        return Vec::new();
    }
    let orders = WRONG_ORDERS
        .map(|(name, early)| wrong(format!("13 by {name}"), move |fragments| first(fragments, rules, early)));
    let own = if service == Service::Pack { wrong_in_pack(rules) } else { wrong_in_reading(rules) };
    let grades = wrong_tests(rules, 5, &WRONG_GRADES);
    let of_fragments = wrong_lists(rules).into_iter().chain(orders).chain(wrong_ways(rules)).chain(grades).chain(own);
    let mut all: Vec<Wrong> = of_fragments
        .map(|Wrong { name, fault }| {
            wrong(name, move |fragments| fault(fragments).or_else(|| too_deep(service, fragments)))
        })
        .collect();
    if service == Service::C {
        all.push(wrong("12 before the fragments' rules", move |fragments| {
            too_deep(service, fragments).or_else(|| first(fragments, rules, is_early))
        }));
    }
    all
}
