//! The time of a call through each implementation.

use crate::agree::{agree, All, Left};
use crate::buffers::Buffers;
use crate::request::{Form, Request};
use crate::services::{Call, Implementation, Service};
use crate::tables::Kind;
use std::ffi::c_long;
use std::hint::black_box;

extern "C" {
    /// The processor time of this process in microseconds, or -1. Wall time would count what other programs take.
    fn clock() -> c_long;
}

fn clocked() -> Result<i64, String> {
    match unsafe { clock() } {
        time if time >= 0 => Ok(time),
        _ => Err("there is no processor time".to_string()),
    }
}

/// How many runs, the least of which counts, and about how many microseconds one takes.
#[derive(Clone, Copy)]
pub struct Effort {
    pub runs: i64,
    pub length: i64,
}

/// Microseconds of one call, in C by gcc and by clang.
#[derive(Clone, Copy)]
pub struct Times {
    loops: [f64; 2],
    /// none where the service is the same C as by loops
    masks: Option<[f64; 2]>,
    pub library: f64,
}

impl Times {
    /// The library's time to that of the faster build.
    fn ratio(&self, [gcc, clang]: [f64; 2]) -> String {
        format!("{:.2}", self.library / gcc.min(clang))
    }

    /// The times in the order of `ALL`, and the ratios to the loops and to the masks, with a word between them.
    pub fn joined(&self, between: &str) -> String {
        let none = || "-".to_string();
        let masks = self.masks.map_or_else(|| [none(), none()], |times| times.map(shown));
        let ratios = [self.ratio(self.loops), self.masks.map_or_else(none, |times| self.ratio(times))];
        [&self.loops.map(shown)[..], &masks, &[shown(self.library)], &ratios].concat().join(between)
    }
}

fn shown(time: f64) -> String {
    if time < 1.0 {
        format!("{time:.3}")
    } else {
        format!("{time:.1}")
    }
}

/// The least times of the runs, in which the implementations take turns.
pub fn measure(request: Request, all: &All, effort: Effort) -> Result<Times, String> {
    let expected = agree(request, all)?;
    let (call, before) = request.call();
    let left = Left { outcome: expected.outcome, buffers: before.clone() };
    let mut trial = Trial { request, call, before, left, expected };
    let mut times = [0; 5];
    for (times, implementation) in times.iter_mut().zip(all) {
        *times = trial.repetitions(implementation, effort.length)?;
    }
    let mut least = [f64::INFINITY; 5];
    for _ in 0..effort.runs {
        for ((least, times), implementation) in least.iter_mut().zip(times).zip(all) {
            *least = least.min(trial.run(implementation, times)? as f64 / times as f64);
        }
    }
    if least.contains(&0.0) {
        return Err(format!("no times of {request}"));
    }
    let [gcc, clang, masks @ .., library] = least;
    Ok(Times { loops: [gcc, clang], masks: request.service.compares().then_some(masks), library })
}

/// A request that is timed, in the same buffers whoever serves it.
struct Trial {
    request: Request,
    call: Call,
    before: Buffers,
    left: Left,
    expected: Left,
}

impl Trial {
    /// The microseconds of so many calls, which leave what is expected.
    fn run(&mut self, implementation: &Implementation, times: i64) -> Result<i64, String> {
        self.left.buffers.copy_from(&self.before);
        let mut outcome = self.expected.outcome;
        let begin = clocked()?;
        for _ in 0..times {
            let found = (implementation.call)(black_box(&self.call), black_box(&mut self.left.buffers));
            if found != self.expected.outcome {
                outcome = found;
            }
        }
        let took = clocked()? - begin;
        self.left.outcome = outcome;
        match self.left.difference(&self.expected) {
            None => Ok(took),
            Some(what) => Err(format!("{} differs in repeated calls on {}: {what}", implementation.name, self.request)),
        }
    }

    /// So many calls that they take about that long.
    fn repetitions(&mut self, implementation: &Implementation, length: i64) -> Result<i64, String> {
        let mut times = 1;
        while times < 1 << 30 {
            let took = self.run(implementation, times)?;
            if 4 * took >= length {
                return Ok((times * length / took).max(1));
            }
            times *= 2;
        }
        Err(format!("no times of {}", self.request))
    }
}

/// What is timed for the table of `docs/PERFORMANCE.md`.
const ROWS: [(Service, &[Kind]); 8] = {
    use Kind::*;
    [
        (Service::Unpack, &[Typical, Full, Empty, Mates]),
        (Service::Pack, &[Typical, Full, Single, Mates]),
        (Service::Find, &[Typical]),
        (Service::Check, &[Typical, Random, Clean, Uniform, Empty, Single, Mates]),
        (Service::S, &[Typical, Random, Clean, Full, Shallow]),
        (Service::F, &[Typical, Random, Clean, Mixed, Uniform, Single]),
        (Service::C, &[Shallow, Deep, Single, ShallowMates, Graded, Heavy]),
        (Service::ConflictCounts, &[Typical, Random, Clean, Uniform, Empty, Single, Mates]),
    ]
};

/// The rows of the table, in order.
pub fn rows() -> Vec<Request> {
    let mut rows = Vec::new();
    for (service, kinds) in ROWS {
        let forms: &[Form] = if service == Service::Find { &[Form::Sound, Form::Absent] } else { &[Form::Sound] };
        for &kind in kinds {
            rows.extend(forms.iter().map(|&form| Request { service, kind, seed: 1, form }));
        }
    }
    rows
}

/// A row's table, or for find the record that it looks for.
pub fn row_name(row: &Request) -> String {
    match (row.service, row.form) {
        (Service::Find, Form::Sound) => "last".to_string(),
        (Service::Find, _) => "absent".to_string(),
        _ => row.kind.to_string(),
    }
}
