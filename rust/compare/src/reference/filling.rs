//! Calls of `sample_fill`, and how they end by rand's.
//!
//! rand knows no budget. Its draws are made again, item by item, and must give rand's buffer, words and generator; that tells which
//! items have replaced others when a budget ends.

use rand::seq::IteratorRandom;

use crate::draws::{Draw, bounded};
use crate::sampling::Ended;
use crate::shuffling::refusal;
use crate::{State, counted, from_state, state};

/// What `sample_fill` is given, but for the items and what is in its buffer.
#[derive(Clone, Debug, PartialEq, Eq)]
pub struct Filling {
    pub from: State,
    pub items_len: usize,
    pub buf_len: usize,
    pub budget: u64,
}

/// A way to end a fill from items, which are as many as the call says, and which leaves the buffer as it then is.
pub type Fill = fn(&Filling, &[u32], &mut [u32]) -> Ended;

/// The slots that the items past the buffer draw, one for each, and the words read when each is drawn. Written anew from SCOPE 10.
#[derive(Clone, Debug)]
pub struct Slots {
    pub slots: Vec<u32>,
    pub words: Vec<u64>,
    /// The state after all.
    pub state: State,
}

impl Slots {
    /// Those of a call that no other refusal declines, with bounded draws that are made so.
    #[must_use]
    pub fn new(call: &Filling, draw: Draw) -> Self {
        let mut rng = from_state(call.from);
        let (mut slots, mut words, mut read) = (Vec::new(), Vec::new(), 0);
        for place in call.buf_len..call.items_len {
            let drawn = draw(&mut rng, place as u32 + 1);
            read += drawn.words;
            slots.push(drawn.value);
            words.push(read);
        }
        let state = state(&rng);
        Self {
            slots,
            words,
            state,
        }
    }

    /// The words read in all.
    #[must_use]
    pub fn words(&self) -> u64 {
        self.words.last().copied().unwrap_or(0)
    }

    /// Ends a call: takes the first items, and makes the replacements for which its budget suffices.
    #[must_use]
    pub fn end(&self, call: &Filling, items: &[u32], buf: &mut [u32]) -> Ended {
        let count = items.len().min(buf.len());
        buf[..count].copy_from_slice(&items[..count]);
        let finished = self.words.partition_point(|&words| words <= call.budget);
        let later = items.iter().skip(call.buf_len);
        for (&slot, &item) in self.slots[..finished].iter().zip(later) {
            if let Some(entry) = buf.get_mut(slot as usize) {
                *entry = item;
            }
        }
        if finished < self.slots.len() {
            return Ended::spent(call.budget, call.from);
        }
        Ended {
            number: 0,
            count: count as u64,
            words: self.words(),
            state: self.state,
        }
    }
}

/// How a fill ends whose bounded draws are made so, without rand.
pub fn end_by(call: &Filling, draw: Draw, items: &[u32], buf: &mut [u32]) -> Ended {
    if let Some(number) = refusal(call.from, items.len()) {
        return Ended::refused(number, call.from);
    }
    Slots::new(call, draw).end(call, items, buf)
}

/// How rand ends a fill, or how its draws end with the budget.
///
/// # Panics
///
/// If rand's fill is not that of the draws.
pub fn sample_fill(call: &Filling, items: &[u32], buf: &mut [u32]) -> Ended {
    if let Some(number) = refusal(call.from, items.len()) {
        return Ended::refused(number, call.from);
    }
    let slots = Slots::new(call, bounded);
    let (count, words, state) =
        counted(call.from, |rng| items.iter().copied().sample_fill(rng, buf));
    let by_rand = buf[..count].to_vec();
    let enough = Filling {
        budget: words,
        ..call.clone()
    };
    let ended = slots.end(&enough, items, buf);
    let rands = Ended {
        number: 0,
        count: count as u64,
        words,
        state,
    };
    assert!(
        ended == rands && buf[..count] == by_rand,
        "rand's fill is not by these draws: {call:?}"
    );
    match words <= call.budget {
        true => ended,
        false => slots.end(call, items, buf),
    }
}

/// The bounds of the draws that a fill makes, in their order.
#[must_use]
pub fn bounds(items_len: usize, buf_len: usize) -> Vec<u32> {
    let later = buf_len..items_len;
    later.map(|place| place as u32 + 1).collect()
}

#[cfg(test)]
mod tests {
    use super::{Filling, sample_fill};
    use crate::advanced;
    use crate::states::giving_three;

    /// Words of 0 draw slot 0 each time.
    #[test]
    fn a_spent_fill_has_the_replacements_of_its_finished_draws() {
        let from = giving_three([0; 3], 1);
        let items = [10, 11, 12, 13, 14];
        for (budget, left) in [(0, [10, 11]), (1, [12, 11]), (2, [13, 11])] {
            let call = Filling {
                from,
                items_len: 5,
                buf_len: 2,
                budget,
            };
            let mut buf = [7; 2];
            let ended = sample_fill(&call, &items, &mut buf);
            assert_eq!((ended.number, ended.count, ended.words), (13, 0, budget));
            assert_eq!((buf, ended.state), (left, advanced(from, budget)));
        }
    }

    #[test]
    fn no_more_items_than_slots_need_no_word() {
        for (items, buf_len) in [(&[][..], 0), (&[1, 2], 2), (&[1, 2], 5)] {
            let call = Filling {
                from: [1, 2, 3, 4],
                items_len: items.len(),
                buf_len,
                budget: 0,
            };
            let ended = sample_fill(&call, items, &mut vec![7; buf_len]);
            assert_eq!((ended.number, ended.words), (0, 0));
        }
    }
}
