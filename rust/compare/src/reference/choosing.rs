//! Calls of `choose` and `choose_stable`, and how they end by rand's.

use rand::seq::IteratorRandom;

use crate::coins::Coins;
use crate::draws::BUDGET_EXHAUSTED;
use crate::sampling::Ended;
use crate::shuffling;
use crate::{Counting, State, advanced, counted};

/// The number of the refusal for hints that are false (SCOPE 2).
pub const INVALID_HINTS: u64 = 11;

/// The entry that says that there is no upper hint.
pub const NO_UPPER: u32 = u32::MAX;

/// The three lists that a chooser is lent.
#[derive(Clone, Copy, Debug, PartialEq, Eq)]
pub struct Lists<'a> {
    pub items: &'a [u32],
    pub lower: &'a [u32],
    pub upper: &'a [u32],
}

/// How a choice ends: the answer, the item if there is one, the words read, and the state afterwards.
#[derive(Clone, Debug, PartialEq, Eq)]
pub struct Chosen {
    pub number: u64,
    pub item: Option<u32>,
    pub words: u64,
    pub state: State,
}

impl Chosen {
    /// The same with a count in place of the item: one more than the item, and 0 for none.
    #[must_use]
    pub fn ended(&self) -> Ended {
        Ended {
            number: self.number,
            count: self.item.map_or(0, |item| u64::from(item) + 1),
            words: self.words,
            state: self.state,
        }
    }
}

/// A way to end a choice from a generator, with these lists and this budget: rand's, the port's, or one with a fault in it.
pub type Choose = fn(State, Lists<'_>, u64) -> Chosen;

/// The items as an iterator whose hints are those of the lists, which must hold: rand asks for them at any place, the one behind the
/// last item too.
#[derive(Clone, Debug)]
pub struct Feed<'a> {
    lists: Lists<'a>,
    place: usize,
}

impl Iterator for Feed<'_> {
    type Item = u32;

    fn next(&mut self) -> Option<u32> {
        let item = self.lists.items.get(self.place)?;
        self.place += 1;
        Some(*item)
    }

    /// The same as so many calls of `next` and one more, without a step for each.
    fn nth(&mut self, n: usize) -> Option<u32> {
        self.place = self.place.saturating_add(n).min(self.lists.items.len());
        self.next()
    }

    fn size_hint(&self) -> (usize, Option<usize>) {
        let [lower, upper] = [self.lists.lower, self.lists.upper].map(|list| list[self.place]);
        (
            lower as usize,
            (upper != NO_UPPER).then_some(upper as usize),
        )
    }
}

impl<'a> Lists<'a> {
    /// The items from the first on.
    #[must_use]
    pub fn feed(self) -> Feed<'a> {
        Feed {
            lists: self,
            place: 0,
        }
    }

    /// Whether both lists of hints have an entry for each place and hold there.
    #[must_use]
    pub fn are_hints_good(self) -> bool {
        let places = self.items.len() + 1;
        let remaining = (0..places as u64).rev();
        let hints = self.lower.iter().zip(self.upper);
        self.lower.len() == places
            && self.upper.len() == places
            && hints.zip(remaining).all(|((&lower, &upper), remaining)| {
                (u64::from(lower)..=u64::from(upper)).contains(&remaining)
            })
    }

    /// The number with which a choice is refused before a word is read, if it is.
    fn refusal(self, from: State) -> Option<u64> {
        let number = shuffling::refusal(from, self.items.len());
        number.or_else(|| (!self.are_hints_good()).then_some(INVALID_HINTS))
    }
}

/// How a choice ends that is made so. rand knows no budget: where the choice reads more words, it is refused, and the budget is
/// read from the generator as it was before.
pub fn end_by(
    from: State,
    lists: Lists<'_>,
    budget: u64,
    choose: impl FnOnce(&mut Counting) -> Option<u32>,
) -> Chosen {
    let refused = |number, words, state| Chosen {
        number,
        item: None,
        words,
        state,
    };
    if let Some(number) = lists.refusal(from) {
        return refused(number, 0, from);
    }
    let (item, words, after) = counted(from, choose);
    if words > budget {
        return refused(BUDGET_EXHAUSTED, budget, advanced(from, budget));
    }
    Chosen {
        number: 0,
        item,
        words,
        state: after,
    }
}

/// How rand ends a choice.
#[must_use]
pub fn choose(from: State, lists: Lists<'_>, budget: u64) -> Chosen {
    end_by(from, lists, budget, |rng| lists.feed().choose(rng))
}

/// How rand ends a stable choice.
///
/// # Panics
///
/// If it is not the choice of SCOPE 12, made coin by coin.
#[must_use]
pub fn choose_stable(from: State, lists: Lists<'_>, budget: u64) -> Chosen {
    end_by(from, lists, budget, |rng| {
        let mut again = rng.clone();
        let item = lists.feed().choose_stable(rng);
        let plain = one_by_one(&mut again, lists.items);
        assert!(
            item == plain && *rng == again,
            "rand chooses {item:?}, and {plain:?} is due: {from:?} {lists:?}"
        );
        item
    })
}

/// The stable choice without hints: the item at place p takes the place of the one before with a chance of one over p + 1.
fn one_by_one(rng: &mut Counting, items: &[u32]) -> Option<u32> {
    let mut coins = Coins::default();
    let taken = (1..)
        .zip(items)
        .filter(|(d, _)| coins.one_over(rng, *d))
        .last();
    taken.map(|(_, item)| *item)
}

#[cfg(test)]
mod tests {
    use rand::Rng;

    use super::{Lists, NO_UPPER, choose, choose_stable};
    use crate::{State, counted};

    const FROM: State = [1, 2, 3, 4];

    #[test]
    fn a_feed_goes_on_as_an_iterator_does() {
        let items: Vec<u32> = (10..20).collect();
        let lists = Lists {
            items: &items,
            lower: &[0; 11],
            upper: &[NO_UPPER; 11],
        };
        for first in 0..13 {
            for second in 0..13 {
                let (mut feed, mut plain) = (lists.feed(), items.iter().copied());
                assert_eq!(feed.nth(first), plain.nth(first));
                assert_eq!(feed.nth(second), plain.nth(second));
                assert!(feed.eq(plain));
            }
        }
    }

    /// Two coins, a draw of one word below 4, and a coin more, which is left of the first word.
    #[test]
    fn coins_are_kept_over_a_draw() {
        let lists = Lists {
            items: &[10, 20, 30, 40, 50],
            lower: &[0, 0, 2, 0, 0, 0],
            upper: &[NO_UPPER; 6],
        };
        assert_eq!(choose(FROM, lists, 2).words, 2);
        let spent = choose(FROM, lists, 1);
        assert_eq!((spent.number, spent.item, spent.words), (13, None, 1));
        let (_, words, after) = counted(FROM, |rng| rng.next_u32());
        assert_eq!((words, after), (1, spent.state));
    }

    #[test]
    fn hints_must_hold_at_every_place() {
        let holds = |lower: &[u32], upper: &[u32]| {
            let items = &[5, 6];
            let lists = Lists {
                items,
                lower,
                upper,
            };
            let numbers = [choose, choose_stable].map(|end| end(FROM, lists, 9).number);
            assert_eq!(numbers[0], numbers[1]);
            numbers[0] == 0
        };
        assert!(holds(&[2, 1, 0], &[2, 1, 0]));
        assert!(holds(&[0, 0, 0], &[NO_UPPER; 3]));
        assert!(!holds(&[0, 0, 1], &[NO_UPPER; 3]));
        assert!(!holds(&[3, 0, 0], &[NO_UPPER; 3]));
        assert!(!holds(&[0, 0, 0], &[2, 0, 0]));
        assert!(!holds(&[0, 0], &[NO_UPPER; 3]));
        assert!(!holds(&[0; 3], &[NO_UPPER; 4]));
    }
}
