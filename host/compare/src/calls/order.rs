//! What a call that went as expected shows of the order of records.

use crate::library::Call;
use crate::order::{falls, keys, other_fault, OTHERS};
use crate::record::Matrix;
use crate::rules::too_deep;
use crate::seen::{from_place, Counts, Seen};
use crate::service::Service;
use haplotypes::Outcome;

pub fn count(call: &Call, outcome: Outcome, counts: &mut Counts) {
    match outcome {
        Outcome::Accepted(_) => count_accepted(call, counts),
        Outcome::Refused(13, place) => count_refused(call, place, counts),
        Outcome::Refused(number @ 4..=9, place) => count_other_fault(call, number as usize, place, counts),
        Outcome::Refused(..) => {}
    }
}

fn count_accepted(call: &Call, counts: &mut Counts) {
    let keys = keys(call);
    for other in OTHERS.iter().filter(|other| other.first(&keys).is_some()) {
        counts.add(Seen::MadeUp(call.service, other.name), 1);
    }
}

fn count_refused(call: &Call, place: usize, counts: &mut Counts) {
    let (service, keys) = (call.service, keys(call));
    for other in OTHERS.iter().filter(|other| !other.refuses(&keys, place)) {
        counts.add(Seen::Missed(service, other.name), 1);
    }
    if let Some(from) = from_place(place) {
        counts.add(Seen::OutOfOrderFrom(service, from), 1);
    }
    counts.add(Seen::FirstOutOfOrder(service), (falls(&keys).count() > 1) as usize);
    let deep =
        || service == Service::Corrections && too_deep(&Matrix::read(call.lent.table.lent(), call.number)).is_some();
    let seen = match other_fault(call) {
        Some(_) => Seen::OrderBeforeFault(service),
        None if deep() => Seen::OrderBeforeDepth,
        None => Seen::OrderAlone(service),
    };
    counts.add(seen, 1);
}

/// Of a refusal by a rule that comes before 13.
fn count_other_fault(call: &Call, number: usize, place: usize, counts: &mut Counts) {
    match falls(&keys(call)).next() {
        Some(first) if first == place => counts.add(Seen::FaultOutOfOrder(call.service, number), 1),
        Some(_) => counts.add(Seen::FaultBeforeOrder(call.service), 1),
        None => {}
    }
}
