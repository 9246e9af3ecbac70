//! The lines that ask for a shuffle, a part of a slice or a fill, and what they answer. The items are 0, 1 and so on.

use crate::State;
use crate::answer::Answer;
use crate::filling::{Fill, Filling};
use crate::sample_line::CANARY;
use crate::shuffling::Outcome;

/// So many items.
#[must_use]
pub fn items(len: usize) -> Vec<u32> {
    (0..).take(len).collect()
}

/// The answer to a shuffle that `end` ends: the tail, which a refusal does not show, and the digest of the items.
pub fn shuffled(len: usize, end: impl FnOnce(&mut [u32]) -> Outcome) -> Answer {
    let mut items = items(len);
    let (ended, parts) = end(&mut items);
    let tail = parts.map_or(0..0, |parts| parts.tail);
    Answer::new(&ended, &[&items], &items[tail])
}

/// A part of the items at a place: `tail G LENGTH N`, `head G LENGTH N`.
#[derive(Clone, Debug, PartialEq, Eq)]
pub struct Part {
    pub from: State,
    pub len: usize,
    pub at: u64,
}

/// The part of a slice from a place on or the one before it.
pub type Parting = fn(&[u32], u64) -> &[u32];

/// The place in so many items. One past them is their end.
fn place(len: usize, at: u64) -> usize {
    usize::try_from(at).map_or(len, |at| at.min(len))
}

/// The part from a place on.
#[must_use]
pub fn tail(items: &[u32], at: u64) -> &[u32] {
    &items[place(items.len(), at)..]
}

/// The part before a place.
#[must_use]
pub fn head(items: &[u32], at: u64) -> &[u32] {
    &items[..place(items.len(), at)]
}

impl Part {
    /// The answer where this is the part: its entries, and the digest of it.
    #[must_use]
    pub fn answer(&self, part: Parting) -> Answer {
        Answer::shown(self.from, part(&items(self.len), self.at))
    }
}

/// The answer to a fill that `fill` ends: the slots filled, none where it is refused, and the digest of the buffer.
#[must_use]
pub fn filled(call: &Filling, fill: Fill) -> Answer {
    let mut buf = vec![CANARY; call.buf_len];
    let ended = fill(call, &items(call.items_len), &mut buf);
    Answer::new(&ended, &[&buf], &buf[..ended.count as usize])
}

#[cfg(test)]
mod tests {
    use super::{Part, filled, head, shuffled, tail};
    use crate::answer::digest;
    use crate::filling::{Filling, sample_fill};
    use crate::shuffling::{Shuffling, Whole, partial_shuffle, shuffle};
    use crate::words::giving;

    #[test]
    fn parts_end_with_the_items() {
        let part = |at| {
            let part = Part {
                from: [0; 4],
                len: 3,
                at,
            };
            [part.answer(tail), part.answer(head)].map(|answer| {
                assert_eq!(answer.digest, digest(&[&answer.values]));
                answer.values
            })
        };
        assert_eq!(part(0), [vec![0, 1, 2], vec![]]);
        assert_eq!(part(2), [vec![2], vec![0, 1]]);
        assert_eq!(part(3), [vec![], vec![0, 1, 2]]);
        assert_eq!(part(u64::MAX), part(3));
    }

    /// The word 63 gives chunk 7, which turns three items round.
    #[test]
    fn a_shuffle_shows_its_tail() {
        let call = |from, budget| Whole {
            from,
            len: 3,
            budget,
        };
        let from = giving(63, 0, 1);
        let whole = shuffled(3, |items| shuffle(&call(from, 1), items));
        assert_eq!((whole.values.as_slice(), whole.words), (&[2, 1, 0][..], 1));
        assert_eq!(whole.digest, digest(&[&[2, 1, 0]]));
        let none = Shuffling {
            amount: 0,
            ..call(from, 0).as_partial()
        };
        let none = shuffled(3, |items| partial_shuffle(&none, items));
        assert_eq!((none.values.as_slice(), none.words), (&[][..], 0));
        assert_eq!(none.digest, digest(&[&[0, 1, 2]]));
        for (from, number) in [([0; 4], 12), (from, 13)] {
            let refused = shuffled(3, |items| shuffle(&call(from, 0), items));
            assert_eq!((refused.number, refused.values.len()), (number, 0));
            assert_eq!(refused.digest, none.digest);
        }
    }

    #[test]
    fn a_fill_shows_the_slots_that_are_filled() {
        let call = Filling {
            from: [1, 2, 3, 4],
            items_len: 2,
            buf_len: 3,
            budget: 0,
        };
        let answer = filled(&call, sample_fill);
        assert_eq!((answer.values.as_slice(), answer.words), (&[0, 1][..], 0));
        assert_eq!(answer.digest, digest(&[&[0, 1, u32::MAX]]));
        let spent = filled(
            &Filling {
                items_len: 5,
                ..call
            },
            sample_fill,
        );
        assert_eq!((spent.number, spent.values.len()), (13, 0));
        assert_eq!(spent.digest, digest(&[&[0, 1, 2]]));
    }
}
