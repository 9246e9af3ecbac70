//! The smallest inputs at which a view is meant to differ from rand's, as docs/DIFFERENCES.md has them. One item more than a view takes is
//! in the tests of `longest`.

use std::ops::Index;

use gapyndura::slice::{IndexedSamples, sample};
use gapyndura::{Refusal, Xoshiro256PlusPlus};
use rand::seq::IndexedRandom;
use reference::panics::panics;
use reference::{State, counted, from_state};

const FROM: State = [1, 2, 3, 4];

/// A list that says of its items, of which there are none, that there is one.
struct Untrue([u32; 0]);

impl Index<usize> for Untrue {
    type Output = u32;

    fn index(&self, place: usize) -> &u32 {
        &self.0[place]
    }
}

impl IndexedRandom for Untrue {
    fn len(&self) -> usize {
        1
    }
}

/// With rand only a list of another type than a slice can be in want of the items that it says it has.
#[test]
fn an_index_of_no_item_shows_none() {
    let mut rng = from_state(FROM);
    let mut view = Untrue([]).sample(&mut rng, 1);
    assert_eq!(view.len(), 1);
    assert!(panics(|| {
        view.next();
    }));
    let mut view = IndexedSamples {
        items: &[0_u32; 0],
        indices: &[0],
        place: 0,
    };
    for _ in 0..2 {
        assert_eq!((view.next(), view.len(), view.place), (None, 1, 0));
    }
}

/// rand allocates what it needs and has no budget; it cannot be given a generator of four zeros.
#[test]
fn a_view_is_lent_its_slices_and_has_a_budget() {
    let (len, words, _) = counted(FROM, |rng| [5].sample(rng, 1).len());
    assert_eq!((len, words), (1, 1));
    let refusal = |from, items: &[u32], amount, budget, indices: &mut [u32]| {
        let mut rng = Xoshiro256PlusPlus::from_state(from);
        let mut scratch = [0; 11];
        let error = sample(&mut rng, items, amount, budget, indices, &mut scratch).unwrap_err();
        assert_eq!((error.so_far.words, rng.state()), (0, from));
        error.refusal
    };
    assert_eq!(refusal(FROM, &[5], 1, 0, &mut []), Refusal::SliceTooShort);
    let twelve = refusal(FROM, &[5; 12], 12, 0, &mut [0; 12]);
    assert_eq!(twelve, Refusal::ScratchTooShort);
    let many = refusal(FROM, &[5; 44_010], 163, 0, &mut [0; 163]);
    assert_eq!(many, Refusal::BudgetExhausted);
    assert_eq!(refusal([0; 4], &[], 0, 0, &mut []), Refusal::ZeroState);
    let mut dead = Xoshiro256PlusPlus::from_state([0; 4]);
    assert_eq!(dead.next_u32(), Err(Refusal::ZeroState));
}
