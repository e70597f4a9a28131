//! Whether the library and all builds of the implementations in C leave the same outcome and the same bytes.

use crate::buffers::Buffers;
use crate::plain;
use crate::request::{Form, Request};
use crate::services::{self, Call, Implementation, Service};
use crate::tables::Kind;
use haplotypes::Outcome;

/// loops by gcc and by clang, masks by gcc and by clang, library
pub type All<'a> = [Implementation<'a>; 5];

pub const ALL: All<'static> = [
    Implementation { name: "loops gcc", call: &plain::loops_gcc },
    Implementation { name: "loops clang", call: &plain::loops_clang },
    Implementation { name: "masks gcc", call: &plain::masks_gcc },
    Implementation { name: "masks clang", call: &plain::masks_clang },
    Implementation { name: "library", call: &services::library },
];

/// The library's place among all.
#[cfg(test)]
pub const LIBRARY: usize = 4;

const SEEDS: [u64; 3] = [1, 2, 3];

/// What a call leaves.
pub struct Left {
    pub outcome: Outcome,
    pub buffers: Buffers,
}

impl Left {
    pub fn is_accepted(&self) -> bool {
        matches!(self.outcome, Outcome::Accepted(_))
    }

    /// What differs from what another call left.
    pub fn difference(&self, other: &Left) -> Option<String> {
        if self.outcome != other.outcome {
            return Some(format!("the outcome is {}, not {}", self.outcome, other.outcome));
        }
        self.buffers.difference(&other.buffers, &[])
    }
}

/// What all leave of a request, or what is wrong with it.
pub fn agree(request: Request, all: &All) -> Result<Left, String> {
    let [first, others @ ..] = all;
    let given = request.call();
    let expected = left(request, &given, first)?;
    for other in others {
        if let Some(difference) = left(request, &given, other)?.difference(&expected) {
            return Err(format!("{} and {} differ on {request}: {difference}", other.name, first.name));
        }
    }
    if request.must_be_accepted() && !expected.is_accepted() {
        return Err(format!("{}: {request}", expected.outcome));
    }
    Ok(expected)
}

/// What one leaves. No byte is changed but those of the buffers that an accepted call writes.
fn left(request: Request, (call, before): &(Call, Buffers), implementation: &Implementation) -> Result<Left, String> {
    let mut buffers = before.clone();
    let outcome = (implementation.call)(call, &mut buffers);
    let left = Left { outcome, buffers };
    let written = if left.is_accepted() { request.service.written() } else { &[] };
    match left.buffers.difference(before, written) {
        None => Ok(left),
        Some(change) => Err(format!("{} writes where it may not on {request}: {change}", implementation.name)),
    }
}

pub fn requests() -> impl Iterator<Item = Request> {
    Kind::ALL.into_iter().flat_map(|kind| {
        Service::ALL.into_iter().flat_map(move |service| {
            let forms = Form::of(service).iter();
            forms.flat_map(move |&form| SEEDS.map(|seed| Request { service, kind, seed, form }))
        })
    })
}

/// All requests: how many, and how many of them were accepted.
pub fn agree_on_all(all: &All) -> Result<String, String> {
    let (mut calls, mut accepted) = (0, 0);
    for request in requests() {
        accepted += agree(request, all)?.is_accepted() as usize;
        calls += 1;
    }
    let agreed = "bench: the library and the implementations in C agree on";
    Ok(format!("{agreed} {calls} calls, {accepted} of them accepted, in every byte"))
}

#[cfg(test)]
mod tests {
    use super::*;
    use crate::rules;
    use crate::tables::{table, MOST};
    use haplotypes::RECORD;
    use std::collections::BTreeSet;
    use std::sync::OnceLock;

    /// The outcome of all for a request.
    fn outcome(request: Request) -> Outcome {
        agree(request, &ALL).unwrap_or_else(|message| panic!("{message}")).outcome
    }

    /// What `--check` asks, and the outcome of all.
    fn outcomes() -> &'static [(Request, Outcome)] {
        static OUTCOMES: OnceLock<Vec<(Request, Outcome)>> = OnceLock::new();
        OUTCOMES.get_or_init(|| requests().map(|request| (request, outcome(request))).collect())
    }

    /// The numbers by which a service refuses what `--check` asks of it.
    fn refusals(service: Service) -> Vec<u8> {
        let asked = outcomes().iter().filter(|(request, _)| request.service == service);
        let numbers: BTreeSet<u8> =
            asked.filter_map(|(_, outcome)| refusal(*outcome)).map(|(number, _)| number).collect();
        numbers.into_iter().collect()
    }

    fn refusal(outcome: Outcome) -> Option<(u8, usize)> {
        match outcome {
            Outcome::Accepted(_) => None,
            Outcome::Refused(number, place) => Some((number, place)),
        }
    }

    #[test]
    fn every_rule_of_a_record_refuses_some_request() {
        for service in [Service::Unpack, Service::Check, Service::ConflictCounts] {
            assert_eq!(refusals(service), [4, 5, 6, 7, 9, 13]);
        }
        for service in [Service::S, Service::F] {
            assert_eq!(refusals(service), [4, 5, 6, 7, 8, 9, 13]);
        }
        assert_eq!(refusals(Service::C), [4, 5, 6, 7, 9, 12, 13]);
        assert_eq!(refusals(Service::Pack), [4, 5, 6, 9, 13, 17]);
        assert_eq!(refusals(Service::Find), []);
    }

    #[test]
    fn the_rules_decide_every_request() {
        for &(request, outcome) in outcomes() {
            let fault = rules::fault(request.service, &rules::fragments(request));
            assert_eq!(refusal(outcome), fault, "{request}");
        }
    }

    /// A service refuses the requests of a form by one rule, wherever the fragment stands.
    fn refused_everywhere(service: Service, form: Form, rule: u8) {
        const LAST: usize = MOST - 1;
        let of_form = |request: &Request| (request.service, request.form) == (service, form);
        let asked = outcomes().iter().filter(|(request, _)| of_form(request));
        let refused: BTreeSet<_> = asked.map(|(_, outcome)| refusal(*outcome).expect("it is refused")).collect();
        assert!(refused.iter().all(|&(number, _)| number == rule), "{service}: {refused:?}");
        let places: Vec<usize> = refused.into_iter().map(|(_, place)| place).collect();
        assert!(matches!(places[..], [0, _, .., LAST]), "{service}: {places:?}");
    }

    #[test]
    fn pack_refuses_a_fragment_without_calls_wherever_it_stands() {
        refused_everywhere(Service::Pack, Form::Uncalled, 17);
    }

    #[test]
    fn a_grade_over_15_is_refused_wherever_it_stands() {
        // S and F refuse mate pairs at the first of them
        for service in [Service::Unpack, Service::Pack, Service::Check, Service::C, Service::ConflictCounts] {
            refused_everywhere(service, Form::Overgraded, 5);
        }
    }

    /// The outcome of all for a sound table.
    fn sound(service: Service, kind: Kind) -> Outcome {
        outcome(Request { service, kind, seed: 1, form: Form::Sound })
    }

    #[test]
    fn s_and_f_refuse_mate_pairs() {
        for kind in Kind::ALL.into_iter().filter(|kind| kind.is_gapped()) {
            assert_eq!(sound(Service::S, kind), Outcome::Refused(8, 0));
            assert_eq!(sound(Service::F, kind), Outcome::Refused(8, 0));
        }
    }

    #[test]
    fn c_counts_the_fragments_whose_stretch_covers_a_column() {
        let called = |cells: &[u8]| cells.iter().any(|&code| code != 0);
        let covers = |cells: &[u8], column: usize| called(&cells[..=column]) && called(&cells[column..]);
        for kind in [Kind::Mates, Kind::Ends] {
            let deep = table(kind, 1).first_deep(covers).expect("a column is too deep");
            assert_eq!(sound(Service::C, kind), Outcome::Refused(12, deep));
        }
    }

    #[test]
    fn a_weight_that_all_have_multiplies_the_total_alone() {
        let left = |kind| agree(Request { service: Service::C, kind, seed: 1, form: Form::Sound }, &ALL).unwrap();
        let (mut heavy, mut light) = (left(Kind::Heavy), left(Kind::Deep));
        let (Outcome::Accepted(total), Outcome::Accepted(count)) = (heavy.outcome, light.outcome) else { panic!() };
        assert!(count > 0 && total == 60 * count, "{total} and {count}");
        assert!(heavy.buffers.answer.lent() == light.buffers.answer.lent());
        heavy.buffers.corrected.lent().chunks_mut(RECORD).for_each(|record| record[7] -= 15);
        assert!(heavy.buffers.corrected.lent() == light.buffers.corrected.lent());
    }

    /// The outcome of all for a request with other sizes.
    fn resized(service: Service, resize: impl Fn(&mut usize, &mut Buffers)) -> Outcome {
        let request = Request { service, kind: Kind::Shallow, seed: 1, form: Form::Sound };
        let outcomes = ALL.map(|implementation| {
            let (mut call, mut buffers) = request.call();
            resize(&mut call.n, &mut buffers);
            let before = buffers.clone();
            let outcome = (implementation.call)(&call, &mut buffers);
            assert_eq!(buffers.difference(&before, &[]), None);
            outcome
        });
        assert_eq!(outcomes, [outcomes[0]; 5]);
        outcomes[0]
    }

    #[test]
    fn every_rule_of_the_sizes_refuses() {
        for service in Service::ALL.into_iter().filter(|&service| service != Service::Find && service != Service::Pack)
        {
            assert_eq!(resized(service, |n, _| *n = 129), Outcome::Refused(3, 0));
            assert_eq!(resized(service, |_, buffers| buffers.table.resize(4095)), Outcome::Refused(1, 0));
            assert_eq!(resized(service, |_, buffers| buffers.table.resize(129 * 32)), Outcome::Refused(2, 0));
        }
    }

    fn pack(n: usize, cells: usize, tags: usize, grades: usize, table: usize) -> Outcome {
        resized(Service::Pack, |columns, buffers| {
            *columns = n;
            buffers.cells.resize(cells);
            buffers.tags.resize(tags);
            buffers.grades.resize(grades);
            buffers.table.resize(table);
        })
    }

    #[test]
    fn every_rule_of_the_sizes_refuses_in_pack() {
        assert_eq!(pack(129, 0, 129, 0, 0), Outcome::Refused(3, 0));
        assert_eq!(pack(128, 129 * 128 - 1, 129, 129, 0), Outcome::Refused(1, 0));
        assert_eq!(pack(0, 1, 0, 0, 0), Outcome::Refused(1, 0));
        assert_eq!(pack(128, 129 * 128, 129, 128, 0), Outcome::Refused(1, 0));
        assert_eq!(pack(128, 128 * 128, 128, 127, 4096), Outcome::Refused(1, 0));
        assert_eq!(pack(128, 128 * 128, 128, 129, 4095), Outcome::Refused(1, 0));
        assert_eq!(pack(128, 0, 0, 1, 0), Outcome::Refused(1, 0));
        assert_eq!(pack(128, 129 * 128, 129, 129, 0), Outcome::Refused(2, 0));
        assert_eq!(pack(128, 128 * 128, 128, 128, 4095), Outcome::Refused(11, 0));
        assert_eq!(pack(128, 128 * 128, 128, 128, 4097), Outcome::Refused(11, 0));
    }

    #[test]
    fn no_fragment_has_a_call_without_columns() {
        assert_eq!(pack(0, 0, 129, 129, 129 * 32), Outcome::Refused(2, 0));
        assert_eq!(pack(0, 0, 1, 1, 31), Outcome::Refused(11, 0));
        assert_eq!(pack(0, 0, 1, 1, 32), Outcome::Refused(17, 0));
        assert_eq!(pack(0, 0, 128, 128, 4096), Outcome::Refused(17, 0));
        assert_eq!(pack(0, 0, 0, 0, 0), Outcome::Accepted(0));
        assert_eq!(pack(128, 0, 0, 0, 0), Outcome::Accepted(0));
    }
}
