//! The smallest inputs at which the port is meant to differ from rand, as docs/DIFFERENCES.md has them.

use rand::seq::IteratorRandom;
use reference::choosing::{Lists, NO_UPPER};
use reference::{State, counted};

use super::port;

const FROM: State = [1, 2, 3, 4];

/// Two items are the fewest that a word is read for.
#[test]
fn a_choice_without_budget_reads_no_word() {
    let (item, words, _) = counted(FROM, |rng| [5, 6].into_iter().choose(rng));
    assert!(item.is_some() && words == 1);
    let lists = Lists {
        items: &[5, 6],
        lower: &[2, 1, 0],
        upper: &[2, 1, 0],
    };
    for choose in [port::choose, port::choose_stable] {
        let chosen = choose(FROM, lists, 0);
        assert_eq!((chosen.number, chosen.item), (13, None));
        assert_eq!((chosen.words, chosen.state), (0, FROM));
    }
}

/// An iterator that says of its two items that there is one.
struct Untrue(u32);

impl Iterator for Untrue {
    type Item = u32;

    fn next(&mut self) -> Option<u32> {
        self.0 = self.0.checked_sub(1)?;
        Some(self.0)
    }

    fn size_hint(&self) -> (usize, Option<usize>) {
        (1, Some(1))
    }
}

/// rand believes its iterator. Here there are no items, and a hint for each place too few; then a hint of one item where none is; and one
/// of at most one where there are two, of which rand never chooses the second.
#[test]
fn false_hints_are_refused() {
    let refused = |items: &[u32], lower: &[u32], upper: &[u32]| {
        let lists = Lists {
            items,
            lower,
            upper,
        };
        let numbers =
            [port::choose, port::choose_stable].map(|choose| choose(FROM, lists, 9).number);
        assert_eq!(numbers, [11, 11]);
    };
    refused(&[], &[], &[]);
    refused(&[], &[1], &[NO_UPPER]);
    refused(&[1, 0], &[1, 1, 0], &[1, 1, 0]);
    let (item, words, _) = counted(FROM, |rng| Untrue(2).choose(rng));
    assert_eq!((item, words), (Some(1), 0));
}
