//! Libraries that are wrong about the order of records: by another comparison, at another turn among the rules, at another
//! place, with a buffer that is written all the same; and a find that asks for order.

use super::unordered_triangle;
use super::wrong_libraries::{both, flipping, fragments, of_records, refused_by, written, Record, Wrong, FIRST};
use crate::generate::Cells;
use crate::library::{Call, Returned};
use crate::order::{falls, keys, keys_of_table, other_fault, Other, OTHERS};
use crate::record::{graded, record, span, Matrix, A, B, HOLE, RECORD};
use crate::rules::{too_deep, Refusal};
use crate::service::Service;
use haplotypes::Outcome::{self, Accepted, Refused};

/// Starts and tags rise, and by the lowest byte too: every comparison says that this is in order.
pub fn plain_tables() -> Vec<(Vec<u8>, Cells)> {
    vec![both(&[record(1, 0, &[A]), record(2, 1, &[B])])]
}

pub fn tables() -> Vec<(Vec<u8>, Cells)> {
    let mut all = vec![(unordered_triangle(), fragments(&unordered_triangle()))];
    all.extend(in_order().iter().map(|records| (records.concat(), with_calls(records))));
    all.extend(out_of_order().iter().map(|records| both(records)));
    all.extend(with_another_fault().map(|(records, cells)| (records.concat(), cells)));
    all
}

/// The fragments with calls, as pack takes no others.
fn with_calls(records: &[Record]) -> Cells {
    let called: Vec<Record> = records.iter().filter(|record| span(*record) > 0).copied().collect();
    fragments(&called.concat())
}

/// At one start tags rise while their lowest byte falls, and past what has a sign; at the next start a lower tag, after a call
/// and after none. A fragment without calls stands before another that starts at column 0.
fn in_order() -> [Vec<Record>; 2] {
    let rising = [0x0000_00ff, 0x0000_0100, 0x7fff_ffff, 0x8000_0000];
    let [uncalled, at_0 @ ..] = rising.map(|tag| record(tag, 0, if tag == rising[0] { &[] } else { &[A] }));
    let at_1 = record(0x0000_0007, 1, &[B]);
    [[&[uncalled][..], &at_0, &[at_1]].concat(), vec![uncalled, at_1]]
}

/// Nothing but the order is broken, and rule 12 in the last.
fn out_of_order() -> Vec<Vec<Record>> {
    let at = |start: usize, tag: u32| record(tag, start, &[A]);
    let uncalled = |tag: u32| record(tag, 0, &[]);
    let nine = (2..11).map(|tag| at(0, tag));
    vec![
        vec![at(1, 1), at(0, 2)],
        vec![at(0, 2), at(0, 1)],
        vec![at(0, 0x0000_0100), at(0, 0x0000_00ff)],
        vec![at(0, 0x8000_0000), at(0, 0x7fff_ffff)],
        vec![at(0, 1), at(1, 2), at(0, 3)],
        vec![at(2, 3), at(1, 2), at(0, 1)],
        vec![at(0, 2), uncalled(1)],
        vec![at(1, 1), uncalled(2)],
        nine.chain([at(0, 1)]).collect(),
    ]
}

/// One record that is out of order and breaks another rule (8 is the triangle's); a fault before it, and after it.
fn with_another_fault() -> [(Vec<Record>, Cells); 7] {
    let (first, second) = (record(1, 2, &[A]), record(2, 0, &[A]));
    let unknown = record(3, 0, &[A, 3, A]);
    let of_pack = |records: &[Record]| both(records).1;
    let alone = || of_pack(&[first, second]);
    let far = Cells::ungraded(128, far_mates_after_another(), vec![1, 2]);
    [
        (vec![first, record(2, 1, &[])], far),
        (vec![first, graded(second, 16)], alone()),
        (vec![first, unknown], of_pack(&[first, unknown])),
        (vec![first, record(2, 0, &[A, HOLE])], alone()),
        (vec![first, record(1, 0, &[A])], of_pack(&[first, record(1, 0, &[A])])),
        (vec![unknown, first, second], of_pack(&[unknown, first, second])),
        (vec![first, second, unknown], of_pack(&[first, second, unknown])),
    ]
}

/// Two fragments: one that starts at column 1, and one that reaches over 97 columns from column 0 on.
fn far_mates_after_another() -> Vec<u8> {
    let calls = |columns: [usize; 2]| (0..128).map(move |c| if columns.contains(&c) { A } else { HOLE });
    calls([1, 2]).chain(calls([0, 96])).collect()
}

pub fn all() -> Vec<Wrong> {
    let testing = || Service::ALL.into_iter().filter(|&service| service != Service::Find);
    let others = || testing().flat_map(|service| OTHERS.iter().map(move |other| (service, other)));
    let missed = others().filter(|(service, other)| other.misses(*service));
    let made_up = others().filter(|(service, other)| other.makes_up(*service));
    let mut all: Vec<Wrong> = missed.map(|(service, other)| missing(service, other)).collect();
    all.extend(made_up.map(|(service, other)| making_up(service, other)));
    all.extend(testing().flat_map(|service| [after_all(service), before_all(service), before_lengths(service)]));
    all.extend(testing().flat_map(|service| [at_predecessor(service), at_last(service)]));
    all.extend(testing().flat_map(|service| rules_before_13(service).map(move |rule| before_rule(service, rule))));
    all.extend(testing().flat_map(writing));
    all.extend([after_depth(), find_in_order()]);
    all
}

/// The rules of a record, or of pack's fragments, that come before 13, but for 17 (`wrong_uncalled`) and pack's 5 (`wrong_grades`).
fn rules_before_13(service: Service) -> impl Iterator<Item = u8> {
    let of_table = move |rule: &u8| *rule != 8 || !service.takes_holes();
    let of_pack = |rule: &u8| matches!(rule, 4 | 6 | 9);
    (4..=9).filter(move |rule| if service == Service::Pack { of_pack(rule) } else { of_table(rule) })
}

/// Out of order by the rule, and not by another comparison.
fn missing(service: Service, other: &'static Other) -> Wrong {
    of_records(service, |call, outcome| match outcome {
        Refused(13, place) if !other.refuses(&keys(call), place) => Some(judged(call, other)),
        _ => None,
    })
}

/// What a library says that judges by another comparison. Its count does not matter, as the rules refuse.
fn judged(call: &Call, other: &Other) -> Outcome {
    let refused = other.first(&keys(call)).map(|place| Refusal { number: 13, place });
    let first = other_fault(call).into_iter().chain(refused).min_by_key(|refusal| refusal.place);
    first.map_or(Accepted(0), refused_by)
}

/// In order by the rule, and not by another comparison.
fn making_up(service: Service, other: &'static Other) -> Wrong {
    of_records(service, |call, outcome| match outcome {
        Accepted(_) => other.first(&keys(call)).map(|place| Refused(13, place)),
        _ => None,
    })
}

/// Rule 13 before another rule within a record.
fn before_rule(service: Service, rule: u8) -> Wrong {
    of_records(service, move |call, outcome| match outcome {
        Refused(number, place) if number == rule => {
            falls(&keys(call)).find(|&fall| fall == place).map(|fall| Refused(13, fall))
        }
        _ => None,
    })
}

/// Rule 13 after the other rules of all records.
fn after_all(service: Service) -> Wrong {
    of_records(service, |call, outcome| match outcome {
        Refused(13, _) => other_fault(call).map(refused_by),
        _ => None,
    })
}

/// Rule 13 before the other rules of all records.
fn before_all(service: Service) -> Wrong {
    of_records(service, |call, outcome| match outcome {
        Refused(4..=9, place) => falls(&keys(call)).find(|&fall| fall > place).map(|fall| Refused(13, fall)),
        _ => None,
    })
}

/// Rule 13 before 10 and 11.
fn before_lengths(service: Service) -> Wrong {
    Wrong::outcome(service, |call, outcome, _| {
        if let Refused(10 | 11, _) = outcome {
            falls(&keys(call)).next().into_iter().for_each(|fall| *outcome = Refused(13, fall));
        }
    })
}

/// The record that is followed by one out of order.
fn at_predecessor(service: Service) -> Wrong {
    of_records(service, |_, outcome| match outcome {
        Refused(13, place) => Some(Refused(13, place - 1)),
        _ => None,
    })
}

/// The last of several records that are out of order.
fn at_last(service: Service) -> Wrong {
    of_records(service, |call, outcome| match outcome {
        Refused(13, _) => falls(&keys(call)).last().map(|fall| Refused(13, fall)),
        _ => None,
    })
}

/// What a service fills or borrows, written before 13 is found.
fn writing(service: Service) -> Vec<Wrong> {
    let out_of_order = |returned: &Returned| matches!(returned, Returned::Outcome(Refused(13, _)));
    written(service).map(|buffer| flipping(service, buffer, FIRST, out_of_order)).collect()
}

/// Rule 12 before 13.
fn after_depth() -> Wrong {
    of_records(Service::Corrections, |call, outcome| match (outcome, other_fault(call)) {
        (Refused(13, _), None) => too_deep(&Matrix::read(call.lent.table.lent(), call.number)).map(refused_by),
        _ => None,
    })
}

/// Find with nothing from the first record on that is out of order.
fn find_in_order() -> Wrong {
    Wrong::new(Service::Find, |call, returned, _| {
        let table = call.lent.table.lent();
        let fall = falls(&keys_of_table(table)).next();
        if let (Returned::Part(part), Some(fall)) = (returned, fall) {
            if part.start >= RECORD * fall {
                *part = table.len()..table.len();
            }
        }
    })
}
