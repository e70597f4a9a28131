//! The methods by which a table is answered. None shares code with the library. All that settle a table must give the same
//! answer, and at least one must settle it.

use crate::answer::{Answer, Answers};
use crate::record::Matrix;
use crate::rules::{gapped, too_deep, Refusal};
use crate::{agree, brute, exact};
use std::fmt::Debug;

/// A method for one service. It gives no answer to a table that it cannot settle.
pub struct Method<T = Answer> {
    pub name: &'static str,
    pub answer: fn(&Matrix) -> Option<T>,
}

// not derived, as that would ask for answers that can be copied
impl<T> Clone for Method<T> {
    fn clone(&self) -> Method<T> {
        *self
    }
}

impl<T> Copy for Method<T> {}

/// A service's answer, and the names of the methods that gave it.
pub struct Settled<T = Answer> {
    pub answer: T,
    pub by: Vec<&'static str>,
}

/// Check has an answer only where the table is error-free.
pub const CHECK: [Method<Option<Answer>>; 2] = [
    Method { name: "check by every choice", answer: |matrix| few_fragments(matrix).then(|| brute::check(matrix)) },
    Method { name: "check by flooding", answer: |matrix| Some(exact::check(matrix)) },
];

pub const SNPS: [Method; 3] = [
    Method { name: "S by every choice", answer: |matrix| if_small(matrix, brute::least_snp_removal) },
    Method { name: "S by branching", answer: exact::snps_by_branching },
    Method { name: "S by pairs of columns", answer: exact::snps_by_column_pairs },
];

pub const FRAGMENTS: [Method; 3] = [
    Method { name: "F by every choice", answer: |matrix| if_small(matrix, brute::least_fragment_removal) },
    Method { name: "F by branching", answer: exact::fragments_by_branching },
    Method { name: "F by pairs of haplotypes", answer: exact::fragments_by_haplotype_pairs },
];

pub const CORRECTIONS: [Method; 3] = [
    Method { name: "C by every choice", answer: |matrix| if_small(matrix, brute::least_corrections) },
    Method { name: "C by branching", answer: exact::corrections_by_branching },
    Method { name: "C by open fragments", answer: exact::corrections_by_open_fragments },
];

/// The names of all methods, service by service.
pub fn names() -> Vec<&'static str> {
    let least = [SNPS, FRAGMENTS, CORRECTIONS].into_iter().flatten().map(|method| method.name);
    CHECK.iter().map(|method| method.name).chain(least).collect()
}

fn few_fragments(matrix: &Matrix) -> bool {
    matrix.m() <= brute::MOST_THINGS
}

fn if_small(matrix: &Matrix, method: fn(&Matrix) -> Answer) -> Option<Answer> {
    (few_fragments(matrix) && matrix.n <= brute::MOST_THINGS).then(|| method(matrix))
}

/// The answers of a table that keeps the rules, and the names of the methods that gave them. Fails if two methods differ, or
/// if none settles a service.
pub fn answers(matrix: &Matrix) -> Result<(Answers, Vec<&'static str>), String> {
    let Settled { answer: check, mut by } = settled(&CHECK, matrix)?;
    let mut least = |methods: &[Method], refusal: Option<Refusal>| {
        if let Some(refusal) = refusal {
            return Ok(Err(refusal));
        }
        let settled = settled(methods, matrix)?;
        like_check(&check, &settled.answer)?;
        by.extend(settled.by);
        Ok::<_, String>(Ok(settled.answer))
    };
    let snps = least(&SNPS, gapped(matrix))?;
    let fragments = least(&FRAGMENTS, gapped(matrix))?;
    let corrections = least(&CORRECTIONS, too_deep(matrix))?;
    Ok((Answers { check, snps, fragments, corrections }, by))
}

/// Where S, F or C removes or corrects nothing its answer is check's, and else check has none.
pub fn like_check(check: &Option<Answer>, least: &Answer) -> Result<(), String> {
    let unchanged = (least.count == 0).then(|| least.clone());
    agree("check's answer, and one that removes or corrects nothing", check, &unchanged)
}

/// The one answer of the methods that settle a table.
pub fn settled<T: Clone + PartialEq + Debug>(methods: &[Method<T>], matrix: &Matrix) -> Result<Settled<T>, String> {
    let mut settled: Option<Settled<T>> = None;
    for method in methods {
        let Some(answer) = (method.answer)(matrix) else {
            continue;
        };
        let all = settled.get_or_insert_with(|| Settled { answer: answer.clone(), by: Vec::new() });
        agree(&format!("{} and {}", all.by.join(", "), method.name), &all.answer, &answer)?;
        all.by.push(method.name);
    }
    settled.ok_or_else(|| {
        let names: Vec<&str> = methods.iter().map(|method| method.name).collect();
        format!("not settled: {}", names.join(", "))
    })
}
