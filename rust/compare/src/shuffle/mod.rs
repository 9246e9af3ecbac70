//! The shuffles. What is compared is the answer, the place n, the parts, the words read, the generator afterwards, and the whole
//! slice, with entries around it that no call may change.

mod faults;
mod fixed;
pub mod port;
mod random;

use reference::sampling::Ended;
use reference::shuffling::{self, Outcome, Parts, Shuffling, Whole, partial_shuffle, shuffle};

use crate::inputs::{Source, smaller, smaller_states};
use crate::kind::Kind;
use crate::slices::Lent;

pub use random::length;

/// Calls of `partial_shuffle`, each from a generator of its own.
pub struct PartialShuffle {
    pub end: shuffling::PartialShuffle,
}

/// Calls of `shuffle`, each from a generator of its own.
pub struct Shuffle {
    pub end: shuffling::Shuffle,
}

/// All that is left of a call.
#[derive(Debug, PartialEq)]
pub struct Answer {
    pub ended: Ended,
    pub parts: Option<Parts>,
    pub items: Lent,
}

impl Answer {
    /// The answer where `end` ends the call of so many items and leaves them as they then are.
    pub fn new(len: usize, end: impl FnOnce(&mut [u32]) -> Outcome) -> Self {
        let mut items = Lent::new(len);
        let (ended, parts) = end(items.entries());
        Self {
            ended,
            parts,
            items,
        }
    }
}

impl Kind for PartialShuffle {
    const NAME: &'static str = "partial_shuffle";
    const FAULTS: &'static [&'static str] = &faults::OF_PARTIAL;
    const PARTS: usize = 2;
    type Input = Shuffling;
    type Answer = Answer;

    fn new(plant: Option<&str>) -> Self {
        Self {
            end: faults::planted(plant).unwrap_or(port::partial_shuffle),
        }
    }

    fn fixed(visit: impl FnMut(Shuffling)) {
        fixed::partial(visit);
    }

    fn random(source: &mut Source) -> Shuffling {
        random::partial(source)
    }

    fn smaller(call: &Shuffling) -> Vec<Shuffling> {
        let lens = smaller(call.len as u64).map(|less| Shuffling {
            len: less as usize,
            ..call.clone()
        });
        let amounts = smaller(call.amount).map(|amount| Shuffling {
            amount,
            ..call.clone()
        });
        let budgets = smaller(call.budget).map(|budget| Shuffling {
            budget,
            ..call.clone()
        });
        let states = smaller_states(call.from).map(|from| Shuffling {
            from,
            ..call.clone()
        });
        lens.chain(amounts).chain(budgets).chain(states).collect()
    }

    fn rand(call: &Shuffling) -> Answer {
        Answer::new(call.len, |items| partial_shuffle(call, items))
    }

    fn port(&self, call: &Shuffling) -> Answer {
        Answer::new(call.len, |items| (self.end)(call, items))
    }
}

impl Kind for Shuffle {
    const NAME: &'static str = "shuffle";
    const FAULTS: &'static [&'static str] = &faults::NAMES;
    type Input = Whole;
    type Answer = Answer;

    fn new(plant: Option<&str>) -> Self {
        Self {
            end: faults::planted_whole(plant).unwrap_or(port::shuffle),
        }
    }

    fn fixed(visit: impl FnMut(Whole)) {
        fixed::whole(visit);
    }

    fn random(source: &mut Source) -> Whole {
        random::whole(source)
    }

    fn smaller(call: &Whole) -> Vec<Whole> {
        let Whole { from, len, budget } = *call;
        let with = |from, len, budget| Whole { from, len, budget };
        let lens = smaller(len as u64).map(|less| with(from, less as usize, budget));
        let budgets = smaller(budget).map(|less| with(from, len, less));
        let states = smaller_states(from).map(|less| with(less, len, budget));
        lens.chain(budgets).chain(states).collect()
    }

    fn rand(call: &Whole) -> Answer {
        Answer::new(call.len, |items| shuffle(call, items))
    }

    fn port(&self, call: &Whole) -> Answer {
        Answer::new(call.len, |items| (self.end)(call, items))
    }
}
