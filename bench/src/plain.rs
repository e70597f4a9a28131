//! The implementations in C, by loops and by masks, as gcc and as clang compile them: `bench/plain/services.c`.

use crate::buffers::Buffers;
use crate::services::{Call, Service};
use haplotypes::Outcome;
use std::ffi::c_uint;
use std::sync::{Mutex, PoisonError};

/// An acceptance has number 0 and a count, a refusal a number and a place.
#[repr(C)]
struct PlainOutcome {
    number: c_uint,
    value: usize,
}

type Unpack = unsafe extern "C" fn(usize, *const u8, usize, *mut u8, *mut u32, *mut u8) -> PlainOutcome;
type Pack =
    unsafe extern "C" fn(usize, *const u8, usize, *const u32, usize, *const u8, usize, *mut u8, usize) -> PlainOutcome;
type Find = unsafe extern "C" fn(u32, *const u8, usize) -> usize;
type Check = unsafe extern "C" fn(usize, *const u8, usize, *mut u8) -> PlainOutcome;
type Removal = unsafe extern "C" fn(usize, *const u8, usize, *mut u16, usize, *mut u8) -> PlainOutcome;
type Corrections = unsafe extern "C" fn(usize, *const u8, usize, *mut u16, usize, *mut u8, *mut u8) -> PlainOutcome;
type Counts = unsafe extern "C" fn(usize, *const u8, usize, *mut u8) -> PlainOutcome;

#[repr(C)]
struct Build {
    unpack: Unpack,
    pack: Pack,
    find: Find,
    check: Check,
    least_snp_removal: Removal,
    least_fragment_removal: Removal,
    least_corrections: Corrections,
    conflict_counts: Counts,
}

mod builds {
    use super::Build;

    extern "C" {
        pub static loops_gcc: Build;
        pub static loops_clang: Build;
        pub static masks_gcc: Build;
        pub static masks_clang: Build;
    }
}

pub fn loops_gcc(call: &Call, buffers: &mut Buffers) -> Outcome {
    plain(unsafe { &builds::loops_gcc }, call, buffers)
}

pub fn loops_clang(call: &Call, buffers: &mut Buffers) -> Outcome {
    plain(unsafe { &builds::loops_clang }, call, buffers)
}

pub fn masks_gcc(call: &Call, buffers: &mut Buffers) -> Outcome {
    plain(unsafe { &builds::masks_gcc }, call, buffers)
}

pub fn masks_clang(call: &Call, buffers: &mut Buffers) -> Outcome {
    plain(unsafe { &builds::masks_clang }, call, buffers)
}

/// F keeps its weights in static arrays, so it serves one thread at a time.
static WEIGHTS: Mutex<()> = Mutex::new(());

fn plain(build: &Build, call: &Call, b: &mut Buffers) -> Outcome {
    let n = call.n;
    let (table, cells, tags, grades) = (b.table.lent(), b.cells.lent(), b.tags.lent(), b.grades.lent());
    let (answer, corrected, work) = (b.answer.lent(), b.corrected.lent(), b.work.lent());
    let (records, length) = (table.as_mut_ptr(), table.len());
    let (numbers, room) = (work.as_mut_ptr(), work.len());
    // Of every call: it writes no more than a table of 128 fragments and 128 columns asks for, and that much is lent.
    let outcome = unsafe {
        match call.service {
            Service::Unpack => {
                let (cells, tags, grades) = (cells.as_mut_ptr(), tags.as_mut_ptr(), grades.as_mut_ptr());
                (build.unpack)(n, records, length, cells, tags, grades)
            }
            Service::Pack => {
                let (codes, m, graded) = (cells.len(), tags.len(), grades.len());
                let (cells, tags, grades) = (cells.as_ptr(), tags.as_ptr(), grades.as_ptr());
                (build.pack)(n, cells, codes, tags, m, grades, graded, records, length)
            }
            Service::Find => PlainOutcome { number: 0, value: (build.find)(call.tag, records, length) },
            Service::Check => (build.check)(n, records, length, answer.as_mut_ptr()),
            Service::S => (build.least_snp_removal)(n, records, length, numbers, room, answer.as_mut_ptr()),
            Service::F => {
                let _alone = WEIGHTS.lock().unwrap_or_else(PoisonError::into_inner);
                (build.least_fragment_removal)(n, records, length, numbers, room, answer.as_mut_ptr())
            }
            Service::C => {
                let (answer, corrected) = (answer.as_mut_ptr(), corrected.as_mut_ptr());
                (build.least_corrections)(n, records, length, numbers, room, answer, corrected)
            }
            Service::ConflictCounts => (build.conflict_counts)(n, records, length, b.counts.lent().as_mut_ptr()),
        }
    };
    read(outcome)
}

fn read(outcome: PlainOutcome) -> Outcome {
    match outcome {
        PlainOutcome { number: 0, value } => Outcome::Accepted(value),
        PlainOutcome { number, value } => Outcome::Refused(number as u8, value),
    }
}
