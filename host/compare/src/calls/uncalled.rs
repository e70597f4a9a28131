//! What a call that went as expected shows of fragments without calls.

use crate::library::Call;
use crate::record::first_without_calls;
use crate::seen::{from_place, Counts, Seen};
use crate::service::Service;
use crate::uncalled::{other_fault, places, Uncalled, OTHERS};
use haplotypes::Outcome;

pub fn count(call: &Call, outcome: Outcome, counts: &mut Counts) {
    match (call.service, outcome) {
        (Service::Pack, Outcome::Accepted(_)) => count_packed(call, counts),
        (Service::Pack, Outcome::Refused(17, place)) => count_refused(call, place, counts),
        (Service::Pack, Outcome::Refused(number @ (4..=6 | 9 | 13), place)) => {
            count_other_fault(call, number as usize, place, counts)
        }
        (service, Outcome::Accepted(_)) => {
            let is_uncalled = first_without_calls(call.lent.table.lent()).is_some();
            counts.add(Seen::UncalledTaken(service), is_uncalled as usize);
        }
        (_, Outcome::Refused(..)) => {}
    }
}

fn count_packed(call: &Call, counts: &mut Counts) {
    let rows = call.matrix().rows;
    for other in OTHERS.iter().filter(|other| other.first_without(&rows).is_some()) {
        counts.add(Seen::PackedWithout(other.name), 1);
    }
}

fn count_refused(call: &Call, place: usize, counts: &mut Counts) {
    counts.add(Seen::Uncalled(Uncalled::of(&call.matrix().rows)), 1);
    if let Some(from) = from_place(place) {
        counts.add(Seen::UncalledFrom(from), 1);
    }
    let seen = match other_fault(call) {
        None => Seen::UncalledAlone,
        Some(fault) if fault.place == place => Seen::UncalledBefore(fault.number),
        Some(fault) => Seen::UncalledBeforeLater(fault.number),
    };
    counts.add(seen, 1);
}

/// Of a refusal by another rule of a fragment. One without calls at its place breaks 6, or 5, which come before 17.
fn count_other_fault(call: &Call, number: usize, place: usize, counts: &mut Counts) {
    match places(&call.matrix().rows).next() {
        Some(first) if first == place => counts.add(Seen::UnknownUncalled, (number == 6) as usize),
        Some(_) => counts.add(Seen::FaultBeforeUncalled(number), 1),
        None => {}
    }
}
