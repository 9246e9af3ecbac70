//! Calls of `sample_stratified`, and how they end by rand's samples of the parts.

use rand::seq::index;

use crate::methods::scratch;
use crate::sampling::{
    AMOUNT_EXCEEDS_LENGTH, Ended, SCRATCH_TOO_SHORT, SLICE_TOO_SHORT, Sampling, ZERO_STATE,
};
use crate::{Counting, State, counted};

/// The number of the refusal for lists that differ in count and for a whole that is too long (SCOPE 2).
pub const PARTS_MISMATCH: u64 = 17;

/// The length of a part, and its amount.
pub type Part = (u64, u64);

/// What `sample_stratified` is given, but for the entries of its two slices.
#[derive(Clone, Debug, PartialEq, Eq)]
pub struct Stratifying {
    pub from: State,
    pub lengths: Vec<u64>,
    pub amounts: Vec<u64>,
    pub budget: u64,
    pub indices_len: usize,
    pub scratch_len: usize,
}

/// A way to end a call of `sample_stratified`, which leaves the two slices as they then are.
pub type EndParts = fn(&Stratifying, &mut [u32], &mut [u32]) -> Ended;

/// A way to end one part: it is given the part's start, its sample with what is left for it, the entries of indices behind those of the
/// parts before, and the scratch.
pub type EndPart<'a> = &'a dyn Fn(u64, &Sampling, &mut [u32], &mut [u32]) -> Ended;

impl Stratifying {
    /// How rand ends it, and what is then in the slices that were lent. rand has no such call: it samples each part in turn.
    ///
    /// # Panics
    ///
    /// If one generator that is lent to rand for all parts does not give what the parts give one by one.
    pub fn end(&self, indices: &mut [u32], scratch: &mut [u32]) -> Ended {
        let ended = self.end_by(&placed, indices, scratch);
        if ended.number == 0 {
            let (joined, words, state) = counted(self.from, |rng| self.joined(rng));
            assert!(
                joined == indices[..ended.count as usize]
                    && (words, state) == (ended.words, ended.state),
                "rand's loop over the parts gives another whole: {self:?}"
            );
        }
        ended
    }

    /// The same, with another way to end a part than rand's.
    pub fn end_by(&self, end: EndPart<'_>, indices: &mut [u32], scratch: &mut [u32]) -> Ended {
        match self.refusal() {
            Some(number) => self.refused(number),
            None => self.parts_by(end, indices, scratch),
        }
    }

    /// The parts, as far as both lists go.
    pub fn parts(&self) -> impl Iterator<Item = Part> {
        let amounts = self.amounts.iter().copied();
        self.lengths.iter().copied().zip(amounts)
    }

    /// The first refusal that applies to any part, but for that of the budget. Where an amount is above its length, rand panics.
    #[must_use]
    pub fn refusal(&self) -> Option<u64> {
        if self.from == [0; 4] {
            return Some(ZERO_STATE);
        }
        if self.lengths.len() != self.amounts.len() || sum(&self.lengths) > u32::MAX.into() {
            return Some(PARTS_MISMATCH);
        }
        if let Some(sizes) = self.parts().find(|&(length, amount)| amount > length) {
            let part = self.part(sizes, &self.refused(0));
            let ended = part.end(&mut [], &mut []);
            assert_eq!(ended.number, AMOUNT_EXCEEDS_LENGTH, "{part:?}");
            return Some(AMOUNT_EXCEEDS_LENGTH);
        }
        if (self.indices_len as u128) < sum(&self.amounts) {
            return Some(SLICE_TOO_SHORT);
        }
        let mut needed = self.parts().map(|(n, k)| scratch(n as u32, k as u32));
        needed
            .any(|needed| self.scratch_len < needed)
            .then_some(SCRATCH_TOO_SHORT)
    }

    /// The parts in turn, each ended so, to the first that is refused.
    pub fn parts_by(&self, end: EndPart<'_>, indices: &mut [u32], scratch: &mut [u32]) -> Ended {
        let mut all = self.refused(0);
        let mut start = 0;
        for (length, amount) in self.parts() {
            let part = self.part((length, amount), &all);
            let ended = end(start, &part, &mut indices[all.count as usize..], scratch);
            all = Ended {
                count: all.count + ended.count,
                words: all.words + ended.words,
                ..ended
            };
            if all.number != 0 {
                break;
            }
            start += length;
        }
        all
    }

    /// The sample of a part of this length and amount behind parts that ended so.
    fn part(&self, (length, amount): Part, before: &Ended) -> Sampling {
        Sampling {
            from: before.state,
            length,
            amount,
            // A fault can have read more than the budget.
            budget: self.budget.saturating_sub(before.words),
            indices_len: self.indices_len - before.count as usize,
            scratch_len: self.scratch_len,
        }
    }

    /// rand's samples of all parts in turn from one generator, each with its start added.
    fn joined(&self, rng: &mut Counting) -> Vec<u32> {
        let mut joined = Vec::new();
        let mut start = 0;
        for (length, amount) in self.parts() {
            let drawn = index::sample(rng, length as usize, amount as usize);
            joined.extend(drawn.into_iter().map(|index| start + index as u32));
            start += length as u32;
        }
        joined
    }

    /// A refusal that has read nothing and changed nothing.
    #[must_use]
    pub fn refused(&self, number: u64) -> Ended {
        Ended::refused(number, self.from)
    }
}

/// The sum of these numbers, which may be above all of them.
#[must_use]
pub fn sum(numbers: &[u64]) -> u128 {
    numbers.iter().copied().map(u128::from).sum()
}

/// How rand ends a part: its sample, with the start added to what is written.
pub fn placed(start: u64, part: &Sampling, indices: &mut [u32], scratch: &mut [u32]) -> Ended {
    moved(start, part.end(indices, scratch), indices)
}

/// The end of a part, with so much added to what is written.
pub fn moved(start: u64, ended: Ended, indices: &mut [u32]) -> Ended {
    add(start, &mut indices[..ended.count as usize]);
    ended
}

/// Adds so much to these entries, modulo 2^32: a fault can pass that.
pub fn add(start: u64, entries: &mut [u32]) {
    for entry in entries {
        *entry = entry.wrapping_add(start as u32);
    }
}

#[cfg(test)]
mod tests {
    use super::{Stratifying, sum};
    use crate::sampling::{Ended, Sampling};
    use crate::states::giving_three;
    use crate::{State, advanced};

    const FROM: State = [1, 2, 3, 4];

    /// A call with so much scratch, and indices for all that is wanted and three more.
    fn call(lengths: &[u64], amounts: &[u64], budget: u64, scratch_len: usize) -> Stratifying {
        Stratifying {
            from: FROM,
            lengths: lengths.to_vec(),
            amounts: amounts.to_vec(),
            budget,
            indices_len: sum(amounts).min(100) as usize + 3,
            scratch_len,
        }
    }

    /// How a call ends, and its two slices.
    fn end(call: &Stratifying) -> (Ended, Vec<u32>, Vec<u32>) {
        let mut indices = vec![999; call.indices_len];
        let mut scratch = vec![999; call.scratch_len];
        let ended = call.end(&mut indices, &mut scratch);
        (ended, indices, scratch)
    }

    /// Words of 0 draw 0 each time, and each but the first of a part replaces the entry before.
    #[test]
    fn parts_have_their_starts_added() {
        let from = giving_three([0; 3], 1);
        let whole = Stratifying {
            from,
            ..call(&[3, 4, 2], &[2, 0, 1], 9, 0)
        };
        let (ended, indices, _) = end(&whole);
        assert_eq!((ended.number, ended.count, ended.words), (0, 3, 3));
        assert_eq!(indices, [2, 0, 7, 999, 999, 999]);
        assert_eq!(ended.state, advanced(from, 3));
    }

    /// The first part is whole. Of the second by Floyd's method one draw is made, and in place one exchange of an arrangement that starts at 0.
    #[test]
    fn a_spent_part_stands_behind_the_finished_ones() {
        let from = giving_three([0; 3], 1);
        let floyd = Stratifying {
            from,
            ..call(&[5, 7], &[2, 4], 3, 0)
        };
        let (ended, indices, _) = end(&floyd);
        assert_eq!((ended.number, ended.count, ended.words), (13, 3, 3));
        assert_eq!(indices[..4], [4, 0, 5, 999]);
        let in_place = Stratifying {
            from,
            ..call(&[5, 12], &[2, 12], 3, 13)
        };
        let (ended, indices, scratch) = end(&in_place);
        assert_eq!((ended.number, ended.count, ended.words), (13, 2, 3));
        assert_eq!(indices[..3], [4, 0, 999]);
        assert!(scratch.into_iter().eq((0..12).chain([999])));
    }

    #[test]
    fn one_part_is_a_sample_and_none_are_nothing() {
        for (length, amount) in [(20, 5), (20, 12), (44_010, 163)] {
            let one = call(&[length], &[amount], u64::MAX, 20);
            let sample = Sampling {
                from: FROM,
                length,
                amount,
                budget: u64::MAX,
                indices_len: one.indices_len,
                scratch_len: 20,
            };
            let mut indices = vec![999; one.indices_len];
            let mut scratch = vec![999; 20];
            let ended = sample.end(&mut indices, &mut scratch);
            assert_eq!(end(&one), (ended, indices, scratch));
        }
        let (ended, indices, _) = end(&call(&[], &[], 0, 0));
        assert_eq!((ended, indices), (Ended::refused(0, FROM), vec![999; 3]));
    }

    /// Each refusal with all that come after it.
    #[test]
    fn the_first_refusal_is_told() {
        let most = u64::from(u32::MAX);
        for (number, call) in [
            (17, call(&[5, 20], &[6], 0, 0)),
            (17, call(&[most, 1], &[u64::MAX, 12], 0, 0)),
            (17, call(&[u64::MAX, 2], &[0, 0], 0, 0)),
            (1, call(&[3, most - 3], &[4, most - 3], 0, 0)),
            (8, call(&[3, most - 3], &[3, most - 3], 0, 0)),
            (9, call(&[3, 20, 9], &[3, 12, 2], 0, 19)),
            (13, call(&[3, 20, 9], &[3, 12, 2], 0, 20)),
        ] {
            let (ended, indices, scratch) = end(&call);
            assert_eq!(ended, Ended::refused(number, FROM), "{call:?}");
            assert!(indices.iter().chain(&scratch).all(|&entry| entry == 999));
            let from = [0; 4];
            let refused = Stratifying { from, ..call };
            assert_eq!(end(&refused).0, Ended::refused(12, from));
        }
    }
}
