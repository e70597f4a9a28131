//! Odd closed walks in a graph of conflicts. Fragments can be put in two classes exactly if there is none.

use super::letters::{below, members};

/// A graph on at most 128 vertices, each neighbour either free or paid to step to. What is paid can still be removed; what
/// is free stays.
pub struct Graph {
    pub free: Vec<u128>,
    pub paid: Vec<u128>,
}

struct Found {
    paid_steps: usize,
    walk: Vec<usize>,
}

impl Graph {
    pub fn new(vertices: usize) -> Graph {
        Graph { free: vec![0; vertices], paid: vec![0; vertices] }
    }

    /// The vertices v0, v1, .., v0 of an odd closed walk with few paid steps: the fewest, but a walk with at most `enough`
    /// is taken at once.
    pub fn odd_walk(&self, enough: usize) -> Option<Vec<usize>> {
        if self.has_two_classes() {
            return None;
        }
        let mut best: Option<Found> = None;
        for start in 0..self.free.len() {
            let most = best.as_ref().map_or(usize::MAX, |found| found.paid_steps - 1);
            if let Some(found) = self.odd_walk_from(start, most) {
                let taken = found.paid_steps <= enough.max(1);
                best = Some(found);
                if taken {
                    break;
                }
            }
        }
        best.map(|found| found.walk)
    }

    fn has_two_classes(&self) -> bool {
        let mut classes = [0u128; 2];
        for start in 0..self.free.len() {
            if (classes[0] | classes[1]) >> start & 1 == 1 {
                continue;
            }
            let mut open = vec![(start, 0)];
            classes[0] |= 1 << start;
            while let Some((v, class)) = open.pop() {
                let near = self.free[v] | self.paid[v];
                if near & classes[class] != 0 {
                    return false;
                }
                open.extend(members(near & !classes[1 - class]).map(|w| (w, 1 - class)));
                classes[1 - class] |= near;
            }
        }
        true
    }

    /// A walk from `start` back to it with the fewest paid steps, if these are at most `most`. Layer after layer, each first
    /// closed under free steps. Lower vertices are left out: their own walks have been looked at.
    fn odd_walk_from(&self, start: usize, most: usize) -> Option<Found> {
        let mut reached = Reached::new(start);
        let mut layer = vec![(start as u8, 0)];
        let mut later = Vec::new();
        let mut paid_steps = 0;
        loop {
            let mut next = 0;
            while next < layer.len() {
                let state = layer[next];
                reached.step(&self.free, state, &mut layer);
                next += 1;
            }
            if reached.seen[1] >> start & 1 == 1 {
                return Some(Found { paid_steps, walk: reached.walk(start) });
            }
            for &state in &layer {
                reached.step(&self.paid, state, &mut later);
            }
            paid_steps += 1;
            if later.is_empty() || paid_steps > most {
                return None;
            }
            layer.clear();
            std::mem::swap(&mut layer, &mut later);
        }
    }
}

/// A vertex, and the parity of the steps to it.
type State = (u8, u8);

/// The states seen so far, by parity, and the vertex before each.
struct Reached {
    seen: [u128; 2],
    before: [[u8; 128]; 2],
}

impl Reached {
    fn new(start: usize) -> Reached {
        let lower = below(start);
        Reached { seen: [lower | 1 << start, lower], before: [[0; 128]; 2] }
    }

    /// Adds the states first seen by one step.
    fn step(&mut self, near: &[u128], (v, parity): State, states: &mut Vec<State>) {
        let odd = 1 - parity as usize;
        let fresh = near[v as usize] & !self.seen[odd];
        self.seen[odd] |= fresh;
        for w in members(fresh) {
            self.before[odd][w] = v;
            states.push((w as u8, odd as u8));
        }
    }

    fn walk(&self, start: usize) -> Vec<usize> {
        let mut walk = vec![start];
        let (mut v, mut parity) = (start, 1);
        while walk.len() == 1 || (v, parity) != (start, 0) {
            v = self.before[parity][v] as usize;
            parity = 1 - parity;
            walk.push(v);
        }
        walk
    }
}
