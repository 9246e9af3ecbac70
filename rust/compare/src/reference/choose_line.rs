//! The lines that ask for a choice, and what they answer; and patterns of hints, for lists and for calls.

use crate::State;
use crate::answer::Answer;
use crate::choosing::{Choose, Lists, NO_UPPER};
use crate::number::{entries, length, numbers};
use crate::sampling::Ended;
use crate::shuffle_line::items;

/// How many patterns there are.
pub const PATTERNS: u64 = 8;

/// Those whose hints hold.
pub const TRUE_PATTERNS: [u64; 6] = [0, 1, 2, 3, 4, 7];

/// The hints of a line, by the number that says which.
#[derive(Clone, Debug, PartialEq, Eq)]
pub enum Hints {
    /// 0: lower 0 and no upper at each place.
    None,
    /// 1: both are what remains.
    Exact,
    /// 2: they stand in the line, the lower ones first, behind their count.
    Given(Vec<u32>, Vec<u32>),
}

impl Hints {
    /// The two lists for so many items.
    #[must_use]
    pub fn lists(&self, items_len: usize) -> (Vec<u32>, Vec<u32>) {
        match self {
            Self::None => hints(0, items_len),
            Self::Exact => hints(1, items_len),
            Self::Given(lower, upper) => (lower.clone(), upper.clone()),
        }
    }

    /// Their numbers.
    fn numbers(&self) -> Vec<u64> {
        match self {
            Self::None => vec![0],
            Self::Exact => vec![1],
            Self::Given(lower, upper) => {
                let count = [2, lower.len() as u64].into_iter();
                count.chain(numbers(lower)).chain(numbers(upper)).collect()
            }
        }
    }

    /// The hints with these numbers, if they are those of any for so many items.
    fn read(numbers: &[u64], items_len: usize, room: usize) -> Option<Self> {
        let made = |hints| (items_len < room).then_some(hints);
        match *numbers {
            [0] => made(Self::None),
            [1] => made(Self::Exact),
            [2, lowers, ref given @ ..] => {
                let (lower, upper) = given.split_at_checked(length(lowers, room)?)?;
                length(upper.len() as u64, room)?;
                Some(Self::Given(entries(lower)?, entries(upper)?))
            }
            _ => None,
        }
    }
}

/// A choice from the items 0, 1 and so on: `NAME G LENGTH BUDGET HINTS ..`. Lists of hints that are made have an entry more than there
/// are items, and want room for it.
#[derive(Clone, Debug, PartialEq, Eq)]
pub struct Choosing {
    pub from: State,
    pub items_len: usize,
    pub budget: u64,
    pub hints: Hints,
}

impl Choosing {
    /// The numbers of the line.
    #[must_use]
    pub fn numbers(&self) -> Vec<u64> {
        [
            &[self.items_len as u64, self.budget],
            &self.hints.numbers()[..],
        ]
        .concat()
    }

    /// The call with these numbers, if it is one.
    #[must_use]
    pub fn read(from: State, numbers: &[u64], room: usize) -> Option<Self> {
        let (&[items_len, budget], hints) = numbers.split_first_chunk()?;
        let items_len = length(items_len, room)?;
        Some(Self {
            from,
            items_len,
            budget,
            hints: Hints::read(hints, items_len, room)?,
        })
    }

    /// The answer where the choice is made so: the item, if there is one.
    #[must_use]
    pub fn answer(&self, choose: Choose) -> Answer {
        let items = items(self.items_len);
        let (lower, upper) = self.hints.lists(self.items_len);
        let lists = Lists {
            items: &items,
            lower: &lower,
            upper: &upper,
        };
        let chosen = choose(self.from, lists, self.budget);
        let ended: Ended = chosen.ended();
        Answer::new(&ended, &[], chosen.item.as_slice())
    }
}

/// The two lists of a pattern for so many items N, at each place from 0 to N (all divisions round down, and "no upper" is the entry
/// 2^32 - 1):
///
/// - 0: lower 0, no upper;
/// - 1: lower and upper N - place;
/// - 2: lower (N - place) / 2, no upper;
/// - 3: lower 0, upper N - place + 1;
/// - 4: by the place modulo 3. 0: lower and upper N - place. 1: lower 0, no upper. 2: lower (N - place) / 3, upper N - place + 7, or
///   no upper where that is above 2^32 - 1;
/// - 5: as 0, but at the place N / 2 the lower is N - N / 2 + 1, which is one too high: false hints;
/// - 6: as 0, but both lists lack their last entry and have N: false hints;
/// - 7: as 0, but at the place 2 the lower is 2 where N is at least 4.
///
/// # Panics
///
/// If there is no such pattern, or there are more items than a choice takes.
#[must_use]
pub fn hints(pattern: u64, items_len: usize) -> (Vec<u32>, Vec<u32>) {
    let n = u32::try_from(items_len).expect("no more items than a choice takes");
    let places = if pattern == 6 { 0..n } else { 0..n + 1 };
    places.map(|place| hint(pattern, n, place)).unzip()
}

/// The lower and the upper hint at a place.
fn hint(pattern: u64, n: u32, place: u32) -> (u32, u32) {
    let remain = n - place;
    match (pattern, place % 3) {
        (0 | 6, _) => (0, NO_UPPER),
        (1, _) => (remain, remain),
        (2, _) => (remain / 2, NO_UPPER),
        (3, _) => (0, remain + 1),
        (4, 0) => (remain, remain),
        (4, 1) => (0, NO_UPPER),
        (4, _) => (remain / 3, remain.saturating_add(7)),
        (5, _) if place == n / 2 => (remain + 1, NO_UPPER),
        (7, _) if place == 2 && n >= 4 => (2, NO_UPPER),
        (5 | 7, _) => (0, NO_UPPER),
        _ => panic!("no pattern is numbered {pattern}"),
    }
}

#[cfg(test)]
mod tests {
    use super::{Choosing, Hints, PATTERNS, TRUE_PATTERNS, hints};
    use crate::choosing::{Lists, NO_UPPER, choose};

    const FROM: [u64; 4] = [1, 2, 3, 4];

    #[test]
    fn hints_are_made_or_given() {
        let read = |numbers: &[u64]| Choosing::read(FROM, numbers, 9).map(|call| call.hints);
        assert_eq!(read(&[8, 5, 0]), Some(Hints::None));
        assert_eq!(read(&[8, 5, 1]), Some(Hints::Exact));
        assert_eq!(read(&[9, 5, 1]), None);
        let given = Hints::Given(vec![4, 5], vec![6]);
        assert_eq!(read(&[9, 5, 2, 2, 4, 5, 6]), Some(given));
        assert_eq!(read(&[9, 5, 2, 0]), Some(Hints::Given(vec![], vec![])));
        let wrong: [&[u64]; 6] = [
            &[1],
            &[1, 5],
            &[1, 5, 3],
            &[1, 5, 0, 0],
            &[1, 5, 2],
            &[1, 5, 2, 2, 0],
        ];
        assert!(wrong.into_iter().all(|numbers| read(numbers).is_none()));
    }

    #[test]
    fn a_choice_is_an_item_or_none() {
        let answer = |items_len, hints| {
            let call = Choosing {
                from: FROM,
                items_len,
                budget: 9,
                hints,
            };
            let answer = call.answer(choose);
            assert_eq!(Choosing::read(FROM, &call.numbers(), 9), Some(call));
            (answer.number, answer.values)
        };
        assert_eq!(answer(0, Hints::None), (0, vec![]));
        assert_eq!(answer(1, Hints::Exact), (0, vec![0]));
        assert_eq!(answer(1, Hints::Given(vec![0], vec![])), (11, vec![]));
    }

    #[test]
    fn patterns_are_what_the_line_says() {
        let none = vec![NO_UPPER; 6];
        assert_eq!(hints(0, 5), (vec![0; 6], none.clone()));
        assert_eq!(hints(1, 2), (vec![2, 1, 0], vec![2, 1, 0]));
        assert_eq!(hints(2, 5), (vec![2, 2, 1, 1, 0, 0], none.clone()));
        assert_eq!(hints(3, 2), (vec![0; 3], vec![3, 2, 1]));
        let upper = vec![5, NO_UPPER, 10, 2, NO_UPPER, 7];
        assert_eq!(hints(4, 5), (vec![5, 0, 1, 2, 0, 0], upper));
        assert_eq!(hints(5, 5), (vec![0, 0, 4, 0, 0, 0], none.clone()));
        assert_eq!(hints(6, 5), (vec![0; 5], vec![NO_UPPER; 5]));
        assert_eq!(hints(7, 5), (vec![0, 0, 2, 0, 0, 0], none));
        assert_eq!(hints(7, 3).0, [0; 4]);
    }

    #[test]
    fn two_patterns_are_false_for_any_items() {
        let items: Vec<u32> = (0..50).collect();
        for len in 0..=items.len() {
            for pattern in 0..PATTERNS {
                let (lower, upper) = hints(pattern, len);
                let lists = Lists {
                    items: &items[..len],
                    lower: &lower,
                    upper: &upper,
                };
                let is_true = TRUE_PATTERNS.contains(&pattern);
                assert_eq!(lists.are_hints_good(), is_true, "{pattern}: {len}");
            }
        }
    }
}
