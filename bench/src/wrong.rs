//! Wrong implementations, which what `bench/run` runs must notice. Each prints a line then, for `bench/test` to count.

mod grades;

use crate::agree::{agree, agree_on_all, requests, ALL, LIBRARY};
use crate::buffers::{Buffers, Guarded, GUARD};
use crate::request::{Form, Request};
use crate::rules;
use crate::services::{Call, Implementation, Service};
use crate::tables::{table, Kind};
use crate::timing::{measure, Effort};
use haplotypes::Outcome;
use std::cell::Cell;
use std::ops::BitXorAssign;

fn request(service: Service, kind: Kind, form: Form) -> Request {
    Request { service, kind, seed: 2, form }
}

/// Every service on gapless fragments and on mate pairs.
fn sound() -> impl Iterator<Item = Request> {
    let kinds = [Kind::Graded, Kind::GradedMates].into_iter();
    kinds.flat_map(|kind| Service::ALL.map(|service| request(service, kind, Form::Sound)))
}

/// Every service on a table that it accepts, and on mate pairs if it takes them.
fn accepted() -> impl Iterator<Item = Request> {
    sound().filter(Request::must_be_accepted)
}

/// Every service that refuses, on a tag twice, on fragments out of order, on a grade over 15, and on mate pairs if it
/// does not take them; pack also on a fragment without calls, in order.
fn refused() -> impl Iterator<Item = Request> {
    let forms = [Form::Repeated, Form::Swapped, Form::Overgraded].into_iter();
    let requests = forms.flat_map(|form| Service::ALL.map(|service| request(service, Kind::Shallow, form)));
    let uncalled = request(Service::Pack, Kind::Front, Form::Uncalled);
    requests.chain(sound()).chain([uncalled]).filter(|request| !request.must_be_accepted())
}

fn see(noticed: Result<(), String>, name: &str, request: Request) {
    let message = noticed.err().unwrap_or_else(|| panic!("unnoticed: {name} on {request}"));
    assert!(message.contains(name) && message.contains(&request.to_string()), "{message}");
    println!("noticed: {message}");
}

/// Each implementation in turn is wrong by what `spoil` makes of the buffers before and after the call and the outcome.
fn each_is_noticed(request: Request, spoil: impl Fn(&Buffers, &mut Buffers, Outcome) -> Outcome) {
    for (wrong, sound) in ALL.into_iter().enumerate() {
        let call = |call: &Call, buffers: &mut Buffers| {
            let before = buffers.clone();
            let outcome = (sound.call)(call, buffers);
            spoil(&before, buffers, outcome)
        };
        let mut all = ALL;
        all[wrong].call = &call;
        see(agree(request, &all).map(|_| ()), sound.name, request);
    }
}

fn flip<T: BitXorAssign + From<u8>>(buffer: &mut Guarded<T>, place: usize) {
    let end = buffer.all.len() - GUARD;
    let at = [GUARD, end - 1, GUARD - 1, end][place];
    buffer.all[at] ^= T::from(1);
}

/// One bit in each buffer: of its first number, of its last, of the one before it and of the one after it.
fn each_bit_is_noticed(request: Request) {
    let flips: [fn(&mut Buffers, usize); 8] = [
        |buffers, place| flip(&mut buffers.table, place),
        |buffers, place| flip(&mut buffers.cells, place),
        |buffers, place| flip(&mut buffers.tags, place),
        |buffers, place| flip(&mut buffers.grades, place),
        |buffers, place| flip(&mut buffers.answer, place),
        |buffers, place| flip(&mut buffers.corrected, place),
        |buffers, place| flip(&mut buffers.work, place),
        |buffers, place| flip(&mut buffers.counts, place),
    ];
    for flip in flips {
        for place in 0..4 {
            each_is_noticed(request, |_, buffers, outcome| {
                flip(buffers, place);
                outcome
            });
        }
    }
}

#[test]
fn a_flipped_bit_of_an_acceptance() {
    accepted().for_each(each_bit_is_noticed);
}

#[test]
fn a_flipped_bit_of_a_refusal() {
    refused().for_each(each_bit_is_noticed);
}

#[test]
fn a_wrong_count() {
    for request in accepted() {
        each_is_noticed(request, |_, _, outcome| match outcome {
            Outcome::Accepted(count) => Outcome::Accepted(count + 1),
            other => other,
        });
    }
}

#[test]
fn a_wrong_number_and_a_wrong_place() {
    for request in refused() {
        for (more, further) in [(1, 0), (0, 1)] {
            each_is_noticed(request, |_, _, outcome| match outcome {
                Outcome::Refused(number, place) => Outcome::Refused(number + more, place + further),
                other => other,
            });
        }
    }
}

#[test]
fn a_refusal_for_an_acceptance() {
    for request in accepted() {
        each_is_noticed(request, |before, buffers, _| {
            buffers.copy_from(before);
            Outcome::Refused(8, 0)
        });
    }
}

#[test]
fn an_acceptance_for_a_refusal() {
    refused().for_each(|request| each_is_noticed(request, |_, _, _| Outcome::Accepted(0)));
}

#[test]
fn wrong_rules() {
    for service in Service::ALL {
        let requests = requests().filter(|request| request.service == service);
        let given: Vec<_> = requests.map(|request| (request, rules::fragments(request))).collect();
        for wrong in rules::wrong_rules(service) {
            let differs = |fragments: &[_]| (wrong.fault)(fragments) != rules::fault(service, fragments);
            let told = given.iter().find(|(_, fragments)| differs(fragments));
            let (request, fragments) = told.unwrap_or_else(|| panic!("unnoticed: {} in {service}", wrong.name));
            each_is_noticed(*request, |before, buffers, _| {
                buffers.copy_from(before);
                match (wrong.fault)(fragments) {
                    Some((number, place)) => Outcome::Refused(number, place),
                    None => Outcome::Accepted(0),
                }
            });
        }
    }
}

#[test]
fn depth_by_calls() {
    // C refuses the table for its holes: no column has too many calls
    let request = request(Service::C, Kind::Ends, Form::Sound);
    assert_eq!(table(request.kind, request.seed).first_deep(|cells, column| cells[column] != 0), None);
    each_is_noticed(request, |_, _, _| Outcome::Accepted(0));
}

#[test]
fn nothing_written() {
    // on a table that is error-free, so that check writes too
    let services = Service::ALL.into_iter().filter(|service| !service.written().is_empty());
    for request in services.map(|service| request(service, Kind::Single, Form::Sound)) {
        each_is_noticed(request, |before, buffers, outcome| {
            buffers.copy_from(before);
            outcome
        });
    }
}

#[test]
fn work_left_dirty() {
    for service in [Service::S, Service::F, Service::C] {
        each_is_noticed(request(service, Kind::Shallow, Form::Sound), |before, buffers, outcome| {
            buffers.work.clone_from(&before.work);
            outcome
        });
    }
}

#[test]
fn the_same_refusal_by_all() {
    for request in accepted() {
        let all = ALL.map(|sound| Implementation { name: sound.name, call: &|_, _| Outcome::Refused(4, 0) });
        see(agree(request, &all).map(|_| ()), "refused 4 at 0", request);
    }
}

#[test]
fn the_same_write_by_all() {
    // around the answer where it may be written, and in it too where it may not
    let around = accepted().map(|request| (request, 2..4));
    for (request, places) in around.chain(refused().map(|request| (request, 0..4))) {
        for place in places {
            let call = |call: &Call, buffers: &mut Buffers| {
                let outcome = (ALL[LIBRARY].call)(call, buffers);
                flip(&mut buffers.answer, place);
                outcome
            };
            let all = ALL.map(|sound| Implementation { name: sound.name, call: &call });
            see(agree(request, &all).map(|_| ()), "answer", request);
        }
    }
}

/// The library, wrong from that call on: it counts one too many, or writes after the table.
fn wrong_from(first: usize, calls: &Cell<usize>, count: bool, call: &Call, buffers: &mut Buffers) -> Outcome {
    calls.set(calls.get() + 1);
    let outcome = (ALL[LIBRARY].call)(call, buffers);
    match outcome {
        _ if calls.get() < first => outcome,
        Outcome::Accepted(number) if count => Outcome::Accepted(number + 1),
        Outcome::Refused(number, place) if count => Outcome::Refused(number, place + 1),
        _ => {
            flip(&mut buffers.table, 3);
            outcome
        }
    }
}

#[test]
fn the_first_call_and_the_last() {
    for first in [1, requests().count()] {
        let calls = Cell::new(0);
        let call = |call: &Call, buffers: &mut Buffers| wrong_from(first, &calls, true, call, buffers);
        let mut all = ALL;
        all[LIBRARY].call = &call;
        see(agree_on_all(&all).map(|_| ()), "library", requests().nth(first - 1).unwrap());
    }
}

#[test]
fn a_repeated_call() {
    for count in [false, true] {
        for request in accepted() {
            let calls = Cell::new(0);
            let call = |call: &Call, buffers: &mut Buffers| wrong_from(2, &calls, count, call, buffers);
            let mut all = ALL;
            all[LIBRARY].call = &call;
            let measured = measure(request, &all, Effort { runs: 1, length: 1 });
            see(measured.map(|_| ()), "library differs in repeated calls", request);
        }
    }
}
