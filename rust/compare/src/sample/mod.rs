//! The sample of distinct indices. What is compared is the answer, the count, the words read, the generator afterwards, and
//! both slices whole, with entries around them that no call may change.

pub mod choice;
pub mod faults;
pub mod fixed;
pub mod port;
pub mod random;

use reference::sampling::{End, Ended, Sampling};

use crate::inputs::{Source, smaller, smaller_states};
use crate::kind::Kind;
use crate::slices::Lent;

/// Calls of `sample`, each from a generator of its own.
pub struct Sample {
    pub fault: Option<End>,
}

/// All that is left of a call.
#[derive(Debug, PartialEq)]
pub struct Answer {
    pub ended: Ended,
    pub indices: Lent,
    pub scratch: Lent,
}

impl Answer {
    /// The answer where `end` ends the call and leaves the slices as they then are.
    pub fn new(call: &Sampling, end: End) -> Self {
        Self::of(call.indices_len, call.scratch_len, |indices, scratch| {
            end(call, indices, scratch)
        })
    }

    /// The same of any call with so many entries of indices and of scratch.
    pub fn of(
        indices_len: usize,
        scratch_len: usize,
        end: impl FnOnce(&mut [u32], &mut [u32]) -> Ended,
    ) -> Self {
        let mut indices = Lent::new(indices_len);
        let mut scratch = Lent::new(scratch_len);
        let ended = end(indices.entries(), scratch.entries());
        Self {
            ended,
            indices,
            scratch,
        }
    }
}

impl Kind for Sample {
    const NAME: &'static str = "sample";
    const FAULTS: &'static [&'static str] = &faults::NAMES;
    const PARTS: usize = 8;
    type Input = Sampling;
    type Answer = Answer;

    fn new(plant: Option<&str>) -> Self {
        Self {
            fault: faults::planted(plant),
        }
    }

    fn fixed(visit: impl FnMut(Sampling)) {
        fixed::calls(visit);
    }

    fn random(source: &mut Source) -> Sampling {
        random::call(source)
    }

    fn smaller(call: &Sampling) -> Vec<Sampling> {
        let mut calls = Vec::new();
        let mut add = |edit: &dyn Fn(&mut Sampling)| {
            let mut less = call.clone();
            edit(&mut less);
            calls.push(less);
        };
        smaller(call.amount).for_each(|amount| add(&|call| call.amount = amount));
        smaller(call.length).for_each(|length| add(&|call| call.length = length));
        smaller(call.budget).for_each(|budget| add(&|call| call.budget = budget));
        smaller(call.indices_len as u64)
            .for_each(|len| add(&|call| call.indices_len = len as usize));
        smaller(call.scratch_len as u64)
            .for_each(|len| add(&|call| call.scratch_len = len as usize));
        smaller_states(call.from).for_each(|from| add(&|call| call.from = from));
        calls
    }

    fn rand(call: &Sampling) -> Answer {
        Answer::new(call, Sampling::end)
    }

    /// The port's, or that of the planted fault where it is not rand's.
    fn port(&self, call: &Sampling) -> Answer {
        if let Some(fault) = self.fault {
            let faulty = Answer::new(call, fault);
            if faulty != Self::rand(call) {
                return faulty;
            }
        }
        Answer::new(call, port::end)
    }
}
