//! Views of drawn items, which are run through. rand's has its indices in a vector of its own; the port is lent the same two slices
//! again and again.

use gapyndura::slice;
use rand::seq::IndexedRandom;
use reference::methods::scratch;

use crate::numbers::{counting, so_many_of};
use crate::sides::{Case, Sides, answer, ours, theirs};

pub fn cases() -> Vec<Case> {
    let case = |(amount, len)| {
        let size = format!("{}, drawn and run through", so_many_of(amount, len));
        Case::new("`IndexedSamples`", size, move || view(amount, len))
    };
    [(10, 1000), (100, 10_000)].map(case).into()
}

fn view(amount: usize, len: usize) -> Sides {
    let indices = vec![0; amount];
    let scratch = vec![0; scratch(len as u32, amount as u32)];
    Sides::new(
        theirs(
            (counting(len), amount),
            |rng, (items, amount)| sum(items.sample(rng, *amount)),
            answer,
        ),
        ours(
            (counting(len), amount as u64, indices, scratch),
            |rng, (items, amount, indices, scratch)| {
                let viewed = slice::sample(rng, items, *amount, u64::MAX, indices, scratch);
                sum(viewed.expect("the slices and the budget suffice").view)
            },
            answer,
        ),
    )
}

/// Looks at every item.
fn sum<'a>(view: impl Iterator<Item = &'a u32>) -> u32 {
    view.fold(0, |sum, item| sum.wrapping_add(*item))
}
