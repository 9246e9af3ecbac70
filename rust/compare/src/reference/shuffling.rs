//! Calls of `partial_shuffle` and `shuffle`, and how they end by rand's.
//!
//! rand knows no budget. Its draws are made again, chunk by chunk, and the exchanges that they make must give rand's slice, words and
//! generator; that tells which of them are done when a budget ends.

use std::ops::Range;

use rand::seq::SliceRandom;

use crate::draws::{Draw, bounded};
use crate::sampling::{Ended, TOO_LONG, ZERO_STATE};
use crate::{State, counted, from_state, state};

/// The most items that a call takes.
pub const MOST_ITEMS: usize = (1 << 32) - 2;

/// What `partial_shuffle` is given, but for the entries of its slice.
#[derive(Clone, Debug, PartialEq, Eq)]
pub struct Shuffling {
    pub from: State,
    pub len: usize,
    pub amount: u64,
    pub budget: u64,
}

/// What `shuffle` is given, but for the entries of its slice.
#[derive(Clone, Debug, PartialEq, Eq)]
pub struct Whole {
    pub from: State,
    pub len: usize,
    pub budget: u64,
}

impl Whole {
    /// The partial shuffle that it is.
    #[must_use]
    pub fn as_partial(&self) -> Shuffling {
        let Self { from, len, budget } = *self;
        Shuffling {
            from,
            len,
            amount: len as u64,
            budget,
        }
    }
}

/// The parts of a slice that a shuffle lends, by the places that they take in it.
#[derive(Clone, Debug, PartialEq, Eq)]
pub struct Parts {
    pub tail: Range<usize>,
    pub head: Range<usize>,
}

impl Parts {
    /// Where the tail and the head lie in the slice that starts at `start`.
    #[must_use]
    pub fn of(start: *const u32, tail: &[u32], head: &[u32]) -> Self {
        let places = |part: &[u32]| {
            let at = (part.as_ptr().addr() - start.addr()) / size_of::<u32>();
            at..at + part.len()
        };
        Self {
            tail: places(tail),
            head: places(head),
        }
    }
}

/// How a shuffle ends, and the parts that it lends where it is not refused.
pub type Outcome = (Ended, Option<Parts>);

/// A way to end a partial shuffle of the items, which are as many as the call says.
pub type PartialShuffle = fn(&Shuffling, &mut [u32]) -> Outcome;

/// A way to end a shuffle of the items.
pub type Shuffle = fn(&Whole, &mut [u32]) -> Outcome;

/// The number with which a shuffle or a fill of so many items is refused before a word is read, if it is. rand has no such generator,
/// and draws in another way from more items.
#[must_use]
pub fn refusal(from: State, items: usize) -> Option<u64> {
    if from == [0; 4] {
        return Some(ZERO_STATE);
    }
    (items > MOST_ITEMS).then_some(TOO_LONG)
}

/// The exchanges of a shuffle and the draws that they come from, written anew from SCOPE 9.
#[derive(Clone, Debug)]
pub struct Exchanges {
    /// The two places of each, in their order.
    pub places: Vec<[usize; 2]>,
    /// Of each draw, how many exchanges come before it, and the words read when it is finished.
    pub draws: Vec<(usize, u64)>,
    /// The state after all.
    pub state: State,
}

impl Exchanges {
    /// Those of a call that no other refusal declines, with bounded draws that are made so.
    #[must_use]
    pub fn new(call: &Shuffling, draw: Draw) -> Self {
        let mut rng = from_state(call.from);
        let n = call.len - usize::try_from(call.amount).map_or(call.len, |all| all.min(call.len));
        let (mut places, mut draws) = (Vec::new(), Vec::new());
        let (mut left, mut value, mut words) = (0, 0, 0);
        for place in n..call.len {
            let m = place as u32 + 1;
            if left == 0 && m > 1 {
                let (bound, factors) = chunk(m);
                let drawn = draw(&mut rng, bound);
                words += drawn.words;
                draws.push((places.len(), words));
                (left, value) = (factors, drawn.value);
            }
            // The last of a chunk is what is left of it. Place 0 has no chunk.
            let index = if left > 1 { value % m } else { value };
            value /= m;
            left = u32::saturating_sub(left, 1);
            places.push([place, index as usize]);
        }
        let state = state(&rng);
        Self {
            places,
            draws,
            state,
        }
    }

    /// The words read in all.
    #[must_use]
    pub fn words(&self) -> u64 {
        self.draws.last().map_or(0, |&(_, words)| words)
    }

    /// How many exchanges are done when so many words are read: all that come before the first draw which is not finished.
    #[must_use]
    pub fn done(&self, words: u64) -> usize {
        let finished = self.draws.partition_point(|&(_, read)| read <= words);
        self.draws
            .get(finished)
            .map_or(self.places.len(), |&(before, _)| before)
    }

    /// What is at the places that are exchanged.
    fn entries(&self, items: &[u32]) -> Vec<u32> {
        self.places
            .as_flattened()
            .iter()
            .map(|&at| items[at])
            .collect()
    }

    /// Puts back what was at these places.
    fn restore(&self, items: &mut [u32], entries: &[u32]) {
        for (&at, &entry) in self.places.as_flattened().iter().zip(entries) {
            items[at] = entry;
        }
    }

    /// Ends a call: makes the exchanges for which its budget suffices.
    #[must_use]
    pub fn end(&self, call: &Shuffling, items: &mut [u32]) -> Outcome {
        for &[place, other] in &self.places[..self.done(call.budget)] {
            items.swap(place, other);
        }
        let words = self.words();
        if words > call.budget {
            return (Ended::spent(call.budget, call.from), None);
        }
        let n = call.len - self.places.len();
        let ended = Ended {
            number: 0,
            count: n as u64,
            words,
            state: self.state,
        };
        let parts = Parts {
            tail: n..call.len,
            head: 0..n,
        };
        (ended, Some(parts))
    }
}

/// How a partial shuffle ends whose bounded draws are made so, without rand.
pub fn end_by(call: &Shuffling, draw: Draw, items: &mut [u32]) -> Outcome {
    if let Some(number) = refusal(call.from, call.len) {
        return (Ended::refused(number, call.from), None);
    }
    Exchanges::new(call, draw).end(call, items)
}

/// How rand ends a call by `rand`, which shuffles the items and answers the parts, or how its draws end with the budget.
///
/// # Panics
///
/// If rand's shuffle is not that of the draws.
fn held(
    call: &Shuffling,
    items: &mut [u32],
    rand: impl FnOnce(&mut crate::Counting, &mut [u32]) -> Parts,
) -> Outcome {
    if let Some(number) = refusal(call.from, call.len) {
        return (Ended::refused(number, call.from), None);
    }
    let exchanges = Exchanges::new(call, bounded);
    let before = exchanges.entries(items);
    let (parts, words, state) = counted(call.from, |rng| rand(rng, items));
    let after = exchanges.entries(items);
    exchanges.restore(items, &before);
    let enough = Shuffling {
        budget: words,
        ..call.clone()
    };
    let (ended, due) = exchanges.end(&enough, items);
    assert!(
        exchanges.entries(items) == after
            && (ended.number, ended.words, ended.state) == (0, words, state)
            && due.as_ref().is_some_and(|due| due.tail == parts.tail),
        "rand's shuffle is not by these draws: {call:?}"
    );
    if words <= call.budget {
        return (ended, Some(parts));
    }
    exchanges.restore(items, &before);
    exchanges.end(call, items)
}

/// How rand ends a partial shuffle. It gives no place n: the tail starts there.
pub fn partial_shuffle(call: &Shuffling, items: &mut [u32]) -> Outcome {
    held(call, items, |rng, items| {
        let start = items.as_ptr();
        let (tail, head) = items.partial_shuffle(rng, call.amount as usize);
        Parts::of(start, tail, head)
    })
}

/// How rand ends a shuffle. It lends nothing: the whole slice is the tail.
pub fn shuffle(call: &Whole, items: &mut [u32]) -> Outcome {
    held(&call.as_partial(), items, |rng, items| {
        items.shuffle(rng);
        Parts {
            tail: 0..items.len(),
            head: 0..0,
        }
    })
}

/// The bound of the chunk that is drawn if the next index is one below m, and its number of factors (SCOPE 9): m, m + 1
/// and so on, as many as keep their product within 2^32 - 1.
#[must_use]
pub fn chunk(m: u32) -> (u32, u32) {
    let mut bound = m;
    let mut factors = 1;
    while let Some(longer) = m
        .checked_add(factors)
        .and_then(|factor| bound.checked_mul(factor))
    {
        bound = longer;
        factors += 1;
    }
    (bound, factors)
}

/// The bounds of the draws that a partial shuffle makes, in their order.
#[must_use]
pub fn bounds(len: usize, amount: u64) -> Vec<u32> {
    let end = len as u32;
    let mut m = end.saturating_sub(u32::try_from(amount).unwrap_or(u32::MAX)) + 1;
    // Place 0 has no draw.
    m += u32::from(m == 1);
    let mut bounds = Vec::new();
    while m <= end {
        let (bound, factors) = chunk(m);
        bounds.push(bound);
        m = m.saturating_add(factors);
    }
    bounds
}

#[cfg(test)]
mod tests {
    use super::{Exchanges, Shuffling, Whole, bounds, chunk, partial_shuffle, shuffle};
    use crate::advanced;
    use crate::draws::bounded;
    use crate::words::giving;

    /// The word 63 is the first that gives chunk 7.
    fn of_chunk_7(len: usize, budget: u64) -> Whole {
        let from = giving(63, 0, 1);
        Whole { from, len, budget }
    }

    #[test]
    fn chunks_have_the_marked_bounds() {
        assert_eq!(chunk(65_535), (4_294_901_760, 2));
        assert_eq!(chunk(65_536), (65_536, 1));
        assert_eq!(chunk(1), (479_001_600, 12));
        assert_eq!(chunk(2), (479_001_600, 11));
    }

    /// The shuffle of SCOPE 18.
    #[test]
    fn a_chunk_of_7_turns_three_items_round() {
        let mut items = [1, 2, 3];
        let (ended, _) = shuffle(&of_chunk_7(3, 1), &mut items);
        assert_eq!((items, ended.words), ([3, 2, 1], 1));
    }

    #[test]
    fn an_amount_above_the_length_is_the_whole() {
        let mut items = [1, 2, 3];
        let call = Shuffling {
            amount: 4,
            ..of_chunk_7(3, 1).as_partial()
        };
        let (ended, parts) = partial_shuffle(&call, &mut items);
        assert_eq!((items, ended.count), ([3, 2, 1], 0));
        assert_eq!(parts.map(|parts| parts.tail), Some(0..3));
    }

    /// The first draw serves places 1 to 11, and the second is not finished.
    #[test]
    fn a_spent_shuffle_has_the_exchanges_of_its_finished_draws() {
        let call = of_chunk_7(30, 1);
        let mut items: Vec<u32> = (0..30).collect();
        let (ended, parts) = shuffle(&call, &mut items);
        assert_eq!((ended.number, ended.count, ended.words), (13, 0, 1));
        assert_eq!((ended.state, parts), (advanced(call.from, 1), None));
        assert!(items[12..].iter().copied().eq(12..30));
        let exchanges = Exchanges::new(&call.as_partial(), bounded);
        assert_eq!((exchanges.done(0), exchanges.done(1)), (1, 12));
        let mut front: Vec<u32> = (0..12).collect();
        let _ = shuffle(&of_chunk_7(12, 1), &mut front);
        assert_eq!(items[..12], front);
    }

    #[test]
    fn one_item_or_none_needs_no_word() {
        for len in [0, 1] {
            let (ended, _) = shuffle(&of_chunk_7(len, 0), &mut vec![5; len]);
            assert_eq!((ended.number, ended.words), (0, 0));
        }
        let none = Shuffling {
            amount: 0,
            ..of_chunk_7(9, 0).as_partial()
        };
        let (ended, _) = partial_shuffle(&none, &mut [5; 9]);
        assert_eq!((ended.number, ended.count), (0, 9));
    }

    #[test]
    fn bounds_are_those_of_the_draws() {
        for len in 0..200 {
            for amount in 0..=len as u64 + 1 {
                let call = Shuffling {
                    from: [1, 2, 3, 4],
                    len,
                    amount,
                    budget: 0,
                };
                let draws = Exchanges::new(&call, bounded).draws.len();
                assert_eq!(bounds(len, amount).len(), draws, "{amount} of {len}");
            }
        }
        assert_eq!(bounds(3, 3), [479_001_600]);
        assert_eq!(bounds(65_536, 1), [65_536]);
    }
}
