//! Shuffles, and fills from items that are read once. Each side has a slice of its own, which it shuffles or fills again and again.

use std::hint::black_box;

use gapyndura::{iterator, slice};
use rand::seq::{IteratorRandom, SliceRandom};

use crate::numbers::{counting, grouped, so_many_of};
use crate::sides::{Case, Sides, ours, theirs};

/// The port refuses a generator of zeros, too long a slice, and a budget that is used up: this one never is.
const DRAWN: &str = "a generator, a slice and a budget that are good";
const BUDGET: u64 = u64::MAX;

pub fn cases() -> Vec<Case> {
    let mut cases = Vec::new();
    for len in [10, 100, 1000, 100_000, 1_000_000] {
        let size = format!("{} items", grouped(len as u64));
        cases.push(Case::new("`shuffle`", size, move || shuffle(len)));
    }
    for (amount, len) in [(10, 1000), (100, 100_000)] {
        let sides = move || partial_shuffle(amount, len);
        cases.push(Case::new(
            "`partial_shuffle`",
            so_many_of(amount, len),
            sides,
        ));
    }
    for (slots, items) in [(10, 100), (100, 10_000), (100, 100_000)] {
        let sides = move || fill(slots, items);
        cases.push(Case::new("`sample_fill`", so_many_of(slots, items), sides));
    }
    cases
}

fn shuffle(len: usize) -> Sides {
    Sides::new(
        theirs(
            counting(len),
            |rng, items| items.shuffle(rng),
            |items, ()| items.clone(),
        ),
        ours(
            counting(len),
            |rng, items| slice::shuffle(rng, items, BUDGET).expect(DRAWN).words,
            |items, _| items.clone(),
        ),
    )
}

fn partial_shuffle(amount: usize, len: usize) -> Sides {
    Sides::new(
        theirs(
            (counting(len), amount),
            |rng, (items, amount)| {
                black_box(items.partial_shuffle(rng, *amount));
            },
            |(items, _), ()| items.clone(),
        ),
        ours(
            (counting(len), amount as u64),
            |rng, (items, amount)| {
                black_box(slice::partial_shuffle(rng, items, *amount, BUDGET).expect(DRAWN));
            },
            |(items, _), ()| items.clone(),
        ),
    )
}

fn fill(slots: usize, items: usize) -> Sides {
    let lent = (counting(items), vec![0; slots]);
    Sides::new(
        theirs(
            lent.clone(),
            |rng, (items, buf)| items.iter().copied().sample_fill(rng, buf),
            |(_, buf), count| (buf.clone(), count),
        ),
        ours(
            lent,
            |rng, (items, buf)| iterator::sample_fill(rng, items, buf, BUDGET).expect(DRAWN),
            |(_, buf), filled| (buf.clone(), filled.count),
        ),
    )
}
