//! As many items as there may be, and one more, in slices that take memory only where they are touched.

use rand::seq::IndexedRandom;
use reference::methods::by_rand;
use reference::sampling::Sampling;
use reference::shuffling::MOST_ITEMS;
use reference::viewing::{Walk, view};
use reference::{State, counted, from_state};

use super::port;
use crate::slices::without_memory;

const FROM: State = [1, 2, 3, 4];

/// A view of so many items with as many entries for indices, and no scratch.
fn call(from: State, length: usize, amount: usize, budget: u64) -> Sampling {
    Sampling {
        from,
        length: length as u64,
        amount: amount as u64,
        budget,
        indices_len: amount,
        scratch_len: 0,
    }
}

/// By Floyd's method and by rejection. The one in place is due for amounts that take much memory.
#[test]
fn a_view_of_the_most_items_is_rands() {
    for amount in [1, 12, 162, 163, 1000] {
        let items = without_memory(MOST_ITEMS);
        let drawn = by_rand(&mut from_state(FROM), MOST_ITEMS as u32, amount as u32);
        let places = drawn.indices.iter().map(|&index| index as usize);
        (1..).zip(places).for_each(|(mark, at)| items[at] = mark);
        let call = call(FROM, MOST_ITEMS, amount, u64::MAX);
        let [mut rand, mut port] = [(); 2].map(|()| vec![9; amount]);
        let expected = view(&call, items, &mut rand, &mut []);
        assert_eq!(port::view(&call, items, &mut port, &mut []), expected);
        assert_eq!((port, rand), (drawn.indices.clone(), drawn.indices));
        assert!(expected.1.items().into_iter().eq(1..=amount as u32));
    }
}

/// rand draws from one item more.
#[test]
fn one_item_more_is_refused() {
    let items: &[u32] = without_memory(MOST_ITEMS + 1);
    let (walk, words, _) = counted(FROM, |rng| Walk::of(items.sample(rng, 3)));
    assert_eq!(walk.items(), [0; 3]);
    assert!(words >= 3);
    // Told before an indices' slice that is too short, a scratch slice that is, and a budget that is used up.
    for amount in [0, 3, 200, MOST_ITEMS + 1, usize::MAX] {
        for (entries, budget) in [(200, u64::MAX), (2, 0), (0, 9)] {
            let mut indices = vec![9; entries];
            let refused = call(FROM, items.len(), amount, budget);
            let (ended, walk) = port::view(&refused, items, &mut indices, &mut []);
            assert_eq!(ended, refused.refused(10));
            assert_eq!((walk, indices), (Walk::default(), vec![9; entries]));
            // No generator at all is told first.
            let refused = call([0; 4], items.len(), amount, budget);
            let (ended, _) = port::view(&refused, items, &mut [], &mut []);
            assert_eq!(ended, refused.refused(12));
        }
    }
}
