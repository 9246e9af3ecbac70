//! Calls of `sample`, and how they end by rand's draws.

use rand::rngs::Xoshiro256PlusPlus;
use rand::seq::index;

use crate::draws::BUDGET_EXHAUSTED;
use crate::methods::{Method, Sample, arranged, by_rand, due, entries};
use crate::panics::panics;
use crate::{State, advanced, from_state, state};

/// The numbers of the other refusals (SCOPE 2).
pub(crate) const AMOUNT_EXCEEDS_LENGTH: u64 = 1;
pub const SLICE_TOO_SHORT: u64 = 8;
pub(crate) const SCRATCH_TOO_SHORT: u64 = 9;
pub(crate) const TOO_LONG: u64 = 10;
pub const ZERO_STATE: u64 = 12;

/// What `sample` is given, but for the entries of its two slices.
#[derive(Clone, Debug, PartialEq, Eq)]
pub struct Sampling {
    pub from: State,
    pub length: u64,
    pub amount: u64,
    pub budget: u64,
    pub indices_len: usize,
    pub scratch_len: usize,
}

/// How a call ends: the answer, the count of indices written, the words read, and the state afterwards. In place of the count a
/// shuffle has the place n where its tail starts, a fill the count of slots filled, and a pick the index.
#[derive(Clone, Debug, PartialEq, Eq)]
pub struct Ended {
    pub number: u64,
    pub count: u64,
    pub words: u64,
    pub state: State,
}

impl Ended {
    /// A refusal that has read nothing and changed nothing.
    #[must_use]
    pub fn refused(number: u64, from: State) -> Self {
        Self {
            number,
            count: 0,
            words: 0,
            state: from,
        }
    }

    /// A refusal that has read its budget and tells of nothing that was done.
    #[must_use]
    pub fn spent(budget: u64, from: State) -> Self {
        Self {
            number: BUDGET_EXHAUSTED,
            count: 0,
            words: budget,
            state: advanced(from, budget),
        }
    }
}

/// A way to end a call of `sample`, which leaves the two slices as they then are.
pub type End = fn(&Sampling, &mut [u32], &mut [u32]) -> Ended;

/// A way to draw a sample below a length: rand's, or one with a fault in it.
pub type Drawing<'a> = &'a dyn Fn(&mut Xoshiro256PlusPlus, u32, u32) -> Sample;

impl Sampling {
    /// How rand ends it, and what is then in the slices that were lent.
    pub fn end(&self, indices: &mut [u32], scratch: &mut [u32]) -> Ended {
        self.end_by(&by_rand, indices, scratch)
    }

    /// The same, with another way to draw than rand's.
    pub fn end_by(&self, drawing: Drawing<'_>, indices: &mut [u32], scratch: &mut [u32]) -> Ended {
        if let Some(number) = self.refusal() {
            return self.refused(number);
        }
        let (length, amount) = (self.length as u32, self.amount as u32);
        let method = due(length, amount);
        if method == Method::InPlace && (self.scratch_len as u64) < self.length {
            return self.refused(SCRATCH_TOO_SHORT);
        }
        let mut rng = from_state(self.from);
        let sample = drawing(&mut rng, length, amount);
        if sample.words() > self.budget {
            return self.spent(&sample, indices, scratch);
        }
        indices[..sample.indices.len()].copy_from_slice(&sample.indices);
        scratch[..sample.arranged.len()].copy_from_slice(&sample.arranged);
        Ended {
            number: 0,
            count: self.amount,
            words: sample.words(),
            state: state(&rng),
        }
    }

    /// The refusals that need no method to be chosen, in their order. Where the amount is above the length, rand panics.
    fn refusal(&self) -> Option<u64> {
        if self.from == [0; 4] {
            return Some(ZERO_STATE);
        }
        if self.length > u32::MAX.into() {
            return Some(TOO_LONG);
        }
        if self.amount > self.length {
            assert!(self.panics(), "rand takes {self:?}");
            return Some(AMOUNT_EXCEEDS_LENGTH);
        }
        ((self.indices_len as u64) < self.amount).then_some(SLICE_TOO_SHORT)
    }

    /// Whether rand panics.
    fn panics(&self) -> bool {
        let mut rng = from_state(self.from);
        panics(|| {
            drop(index::sample(
                &mut rng,
                self.length as usize,
                self.amount as usize,
            ))
        })
    }

    /// A refusal that has read nothing and changed nothing.
    #[must_use]
    pub fn refused(&self, number: u64) -> Ended {
        Ended::refused(number, self.from)
    }

    /// The end where the budget is used up. rand knows none: the slices are left as the method leaves them with those of its draws that
    /// are finished when so many words are read.
    fn spent(&self, sample: &Sample, indices: &mut [u32], scratch: &mut [u32]) -> Ended {
        let (length, amount) = (self.length as u32, self.amount as u32);
        let finished = sample.finished(self.budget);
        let written = match due(length, amount) {
            Method::Floyd => entries(length - amount, &sample.values[..finished]),
            Method::InPlace => {
                let places = arranged(length, &sample.values[..finished]);
                scratch[..places.len()].copy_from_slice(&places);
                Vec::new()
            }
            Method::Rejection => sample.indices[..finished].to_vec(),
        };
        indices[..written.len()].copy_from_slice(&written);
        Ended {
            count: written.len() as u64,
            ..Ended::spent(self.budget, self.from)
        }
    }
}

#[cfg(test)]
mod tests {
    use super::{Ended, Sampling};
    use crate::advanced;
    use crate::states::{at_last_draw, giving_three};

    const FROM: [u64; 4] = [1, 2, 3, 4];

    /// How a sample ends, and the front of its two slices.
    fn end(call: &Sampling) -> (Ended, Vec<u32>, Vec<u32>) {
        let mut indices = vec![9; call.indices_len];
        let mut scratch = vec![9; call.scratch_len];
        let ended = call.end(&mut indices, &mut scratch);
        (ended, indices, scratch)
    }

    fn call(length: u64, amount: u64, budget: u64) -> Sampling {
        Sampling {
            from: FROM,
            length,
            amount,
            budget,
            indices_len: amount as usize,
            scratch_len: length as usize,
        }
    }

    /// Words of 0 draw 0 each time, and each but the first replaces the entry before.
    #[test]
    fn a_spent_floyd_has_its_replacements() {
        let from = giving_three([0; 3], 1);
        for (budget, left) in [(0, [9; 4]), (1, [0, 9, 9, 9]), (3, [4, 5, 0, 9])] {
            let call = Sampling {
                from,
                ..call(7, 4, budget)
            };
            let (ended, indices, scratch) = end(&call);
            assert_eq!((ended.number, ended.words), (13, budget));
            assert_eq!((ended.count, ended.state), (budget, advanced(from, budget)));
            assert_eq!((&indices[..], &scratch[..]), (&left[..], &[9; 7][..]));
        }
    }

    #[test]
    fn a_spent_in_place_has_its_exchanges_alone() {
        let (_, _, whole) = end(&call(20, 12, 99));
        for budget in 0..12 {
            let (ended, indices, scratch) = end(&call(20, 12, budget));
            assert_eq!((ended.number, ended.count, ended.words), (13, 0, budget));
            assert_eq!(indices, [9; 12]);
            let done = budget as usize;
            assert_eq!(scratch[..done], whole[..done]);
            let mut all = scratch;
            all.sort_unstable();
            assert!(all.into_iter().eq(0..20));
        }
        assert_eq!(end(&call(20, 12, 0)).2[0], 0);
    }

    /// The third draw, below 6, reads three words: a budget that ends among them leaves two draws, and all of it is read.
    #[test]
    fn a_budget_that_ends_within_a_draw_is_read() {
        let from = at_last_draw(&[4, 5, 6], [715_827_882, 2_863_311_530, 0], 1);
        for budget in 2..5 {
            let call = Sampling {
                from,
                ..call(6, 3, budget)
            };
            let (ended, _, _) = end(&call);
            assert_eq!((ended.number, ended.count, ended.words), (13, 2, budget));
            assert_eq!(ended.state, advanced(from, budget));
        }
        let (ended, _, _) = end(&Sampling {
            from,
            ..call(6, 3, 5)
        });
        assert_eq!((ended.number, ended.words), (0, 5));
    }

    #[test]
    fn no_index_needs_no_word() {
        assert_eq!(end(&call(7, 0, 0)).0, Ended::refused(0, FROM));
    }
}
