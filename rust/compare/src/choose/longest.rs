//! As many items as there may be, and one more, in lists that take memory only where they are touched.

use rand::seq::IteratorRandom;
use reference::choosing::{Lists, NO_UPPER};
use reference::shuffling::MOST_ITEMS;
use reference::words::giving;
use reference::{State, counted};

use super::port;
use super::repeated::repeated;
use crate::slices::without_memory;

const FROM: State = [1, 2, 3, 4];

#[test]
fn one_item_more_is_refused() {
    let items: &[u32] = without_memory(MOST_ITEMS + 1);
    let hints: &[u32] = without_memory(MOST_ITEMS + 2);
    for choose in [port::choose, port::choose_stable] {
        // Told before false hints, of which these are some, and before a budget of 0.
        for hints in [hints, &hints[1..], &[]] {
            let lists = Lists {
                items,
                lower: hints,
                upper: hints,
            };
            for budget in [0, u64::MAX] {
                let chosen = choose(FROM, lists, budget);
                assert_eq!((chosen.number, chosen.item), (10, None));
                assert_eq!((chosen.words, chosen.state), (0, FROM));
                assert_eq!(choose([0; 4], lists, budget).number, 12);
            }
        }
    }
}

/// The most items are not too many: with lists that are too short or too long it is these that are told.
#[test]
fn the_most_items_are_looked_at() {
    let items: &[u32] = without_memory(MOST_ITEMS);
    let hints: &[u32] = without_memory(MOST_ITEMS + 2);
    for choose in [port::choose, port::choose_stable] {
        for (lower, upper) in [
            (&hints[..0], &hints[..0]),
            (&hints[2..], &hints[1..]),
            (&hints[1..], &hints[2..]),
            (hints, &hints[1..]),
            // As many as are wanted. The uppers are 0, which holds behind the last item alone.
            (&hints[1..], &hints[1..]),
        ] {
            let lists = Lists {
                items,
                lower,
                upper,
            };
            let chosen = choose(FROM, lists, u64::MAX);
            assert_eq!((chosen.number, chosen.words), (11, 0));
        }
    }
}

/// The places at either end of a long list at which readers count what remains.
const COUNTED: usize = 1000;

/// So many items with the hints of two readers, all of which hold. They are in the same memory, the second reader's one entry further
/// on: where they count, the first's lower hint is exact and the upper one more, and the second's lower is one less and the upper exact.
fn two_readers(items_len: usize) -> [Lists<'static>; 2] {
    let [lower, upper] = [0, NO_UPPER].map(|entry| repeated(entry, items_len + 2));
    for at in (1..COUNTED).chain(items_len - COUNTED..=items_len) {
        let remain = (items_len - at) as u32;
        lower[at] = remain;
        upper[at] = remain + 1;
    }
    let items = without_memory(items_len);
    [0..items_len + 1, 1..items_len + 2].map(|places| Lists {
        items,
        lower: &lower[places.clone()],
        upper: &upper[places],
    })
}

/// Whether hints hold at the places where readers count, and at those next to them. At all others there are none.
fn hold(lists: Lists<'_>) -> bool {
    let len = lists.items.len();
    let mut places = (0..=COUNTED).chain(len - COUNTED - 1..=len);
    places.all(|place| {
        let hints = lists.lower[place] as usize..=lists.upper[place] as usize;
        hints.contains(&(len - place))
    })
}

#[test]
fn one_item_more_is_refused_whichever_hints_hold() {
    let readers = two_readers(MOST_ITEMS + 1);
    assert!(readers.into_iter().all(hold));
    for (from, number) in [(FROM, 10), ([0; 4], 12)] {
        for budget in [0, u64::MAX] {
            let [first, second] = readers.map(|lists| port::choose_stable(from, lists, budget));
            assert_eq!(first, second);
            assert_eq!((first.number, first.item), (number, None));
            assert_eq!((first.words, first.state), (0, from));
        }
    }
}

/// The items for which coins are flipped, each with a chance of about one in 2^32.
const LAST: usize = 2000;

/// The hints tell at the first place that all items but the last remain, and nothing after that. The port looks at all of them.
#[test]
fn a_choice_from_the_most_items_is_rands() {
    let items = without_memory(MOST_ITEMS);
    let lower = without_memory(MOST_ITEMS + 1);
    let known = MOST_ITEMS - LAST;
    lower[0] = known as u32;
    (1..)
        .zip(&mut items[known..])
        .for_each(|(mark, item)| *item = mark);
    let lists = Lists {
        items,
        lower,
        upper: repeated(NO_UPPER, MOST_ITEMS + 1),
    };
    // The second word is that of the first coins, and has 32 heads: these are just enough.
    for (second, due) in [(0, Some(1)), (1, Some(0))] {
        let from = giving(1 << 31, second, 1);
        let (item, words, state) = counted(from, |rng| lists.feed().choose(rng));
        assert_eq!(item, due);
        let chosen = port::choose(from, lists, u64::MAX);
        assert_eq!((chosen.number, chosen.item), (0, item));
        assert_eq!((chosen.words, chosen.state), (words, state));
    }
}
