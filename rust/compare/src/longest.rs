//! Slices of about 2^32 items, which take memory only where they are touched.

use reference::draws::bounded;
use reference::filling::{self, Filling};
use reference::shuffling::{self, MOST_ITEMS, Shuffling, Whole};
use reference::stratifying::Stratifying;
use reference::{State, from_state};

use crate::slices::without_memory;
use crate::{fill, shuffle, stratified};

const FROM: State = [1, 2, 3, 4];

/// The amount of a partial shuffle of as many items as there may be.
const AMOUNT: usize = 20;

/// The places that such a shuffle touches: those of its tail and the ones that they are exchanged with. Each index is a chunk of
/// its own, as high as this.
fn touched() -> Vec<usize> {
    let tail = MOST_ITEMS - AMOUNT..MOST_ITEMS;
    let mut rng = from_state(FROM);
    let places = tail.map(|place| [place, bounded(&mut rng, place as u32 + 1).value as usize]);
    places.flatten().collect()
}

/// A partial shuffle of so many items.
fn partial(from: State, len: usize, budget: u64) -> Shuffling {
    Shuffling {
        from,
        len,
        amount: AMOUNT as u64,
        budget,
    }
}

/// A fill of three entries from so many items.
fn fill_of(from: State, items_len: usize) -> Filling {
    Filling {
        from,
        items_len,
        buf_len: 3,
        budget: 0,
    }
}

/// With a budget that ends behind some draws as well.
#[test]
fn a_partial_shuffle_of_the_most_items_is_rands() {
    let [rand, port] = [(); 2].map(|()| without_memory(MOST_ITEMS));
    for slice in [&mut *rand, &mut *port] {
        (1..).zip(touched()).for_each(|(mark, at)| slice[at] = mark);
    }
    let before = touched().into_iter().map(|at| rand[at]);
    let before: Vec<u32> = before.collect();
    let entries = |slice: &[u32]| -> Vec<u32> { touched().iter().map(|&at| slice[at]).collect() };
    for budget in [9, u64::MAX] {
        let call = partial(FROM, MOST_ITEMS, budget);
        let expected = shuffling::partial_shuffle(&call, rand);
        let (ended, parts) = shuffle::port::partial_shuffle(&call, port);
        let n = if budget == 9 { 0 } else { MOST_ITEMS - AMOUNT };
        assert_eq!(ended.count, n as u64);
        assert_eq!((ended, parts), expected);
        assert_eq!(entries(port), entries(rand));
        assert_ne!(entries(port), before);
    }
}

#[test]
fn one_item_more_is_refused() {
    let items = without_memory(MOST_ITEMS + 1);
    let last = items.len() - 1;
    items[0] = 1;
    items[last] = 2;
    let whole = Whole {
        from: FROM,
        len: items.len(),
        budget: 0,
    };
    for outcome in [
        shuffle::port::partial_shuffle(&partial(FROM, last + 1, 0), items),
        shuffle::port::shuffle(&whole, items),
    ] {
        let (ended, parts) = outcome;
        assert_eq!((ended.number, ended.words, ended.state), (10, 0, FROM));
        assert_eq!(parts, None);
    }
    let mut buf = [7; 3];
    let ended = fill::port::sample_fill(&fill_of(FROM, items.len()), items, &mut buf);
    assert_eq!((ended.number, ended.words, ended.state), (10, 0, FROM));
    assert_eq!((buf, items[0], items[last]), ([7; 3], 1, 2));
    // No generator at all is told first.
    let (ended, _) = shuffle::port::partial_shuffle(&partial([0; 4], last + 1, 0), items);
    assert_eq!(ended.number, 12);
    let ended = fill::port::sample_fill(&fill_of([0; 4], items.len()), items, &mut buf);
    assert_eq!(ended.number, 12);
}

#[test]
fn a_buffer_may_have_any_length() {
    let [rand, port] = [(); 2].map(|()| without_memory((1 << 32) + 9));
    let call = Filling {
        buf_len: rand.len(),
        ..fill_of(FROM, 3)
    };
    let expected = filling::sample_fill(&call, &[5, 6, 7], rand);
    assert_eq!(fill::port::sample_fill(&call, &[5, 6, 7], port), expected);
    assert_eq!((expected.count, expected.words), (3, 0));
    assert_eq!(port[..5], [5, 6, 7, 0, 0]);
}

/// Slices of so many entries that a length of 32 bits would be 0, or few. In the first call all is drawn; in the second a part is due in place
/// and is longer than the scratch slice, though all indices that there are have room.
#[test]
fn the_slices_of_a_stratified_sample_may_have_any_length() {
    let most = u64::from(u32::MAX);
    for (lengths, amounts, scratch_len, number) in [
        ([20, most - 20], [12, 3], 1 << 32, 0),
        ([20, most - 20], [12, most - 20], most as usize - 21, 9),
    ] {
        let call = Stratifying {
            from: FROM,
            lengths: lengths.to_vec(),
            amounts: amounts.to_vec(),
            budget: u64::MAX,
            indices_len: (1 << 32) + 1,
            scratch_len,
        };
        let [rand, port] = [(); 2].map(|()| without_memory(call.indices_len));
        let [rand_scratch, port_scratch] = [(); 2].map(|()| without_memory(scratch_len));
        let expected = call.end(rand, rand_scratch);
        assert_eq!(expected.number, number);
        assert_eq!(stratified::port::end(&call, port, port_scratch), expected);
        assert_eq!(port[..20], rand[..20]);
        assert_eq!(port_scratch[..25], rand_scratch[..25]);
    }
}
