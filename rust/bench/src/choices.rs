//! Choices of one item. rand is given an iterator that has the hints itself; the port is lent them as lists and looks at every one.

use std::iter;

use gapyndura::Xoshiro256PlusPlus as Port;
use gapyndura::iterator::{ChooseError, Chosen, choose, choose_stable};
use rand::rngs::Xoshiro256PlusPlus as Rand;
use rand::seq::IteratorRandom;
use reference::choose_line::hints;

use crate::numbers::{counting, grouped};
use crate::sides::{Case, Sides, answer, ours, theirs};

/// The pattern of hints that tell nothing.
const NO_HINTS: u64 = 0;

/// The pattern of hints that tell what remains.
const EXACT: u64 = 1;

pub fn cases() -> Vec<Case> {
    type Way = (&'static str, &'static str, fn(usize) -> Sides);
    let one: [Way; 2] = [
        ("`choose`", "no hints", choose_unhinted),
        ("`choose`", "exact hints", choose_exact),
    ];
    let stable: [Way; 2] = [
        ("`choose_stable`", "no hints", stable_unhinted),
        ("`choose_stable`", "exact hints", stable_exact),
    ];
    let mut cases = Vec::new();
    let mut add = |ways: [Way; 2], counts: &[usize]| {
        for (call, hints, sides) in ways {
            for &count in counts {
                let size = format!("{} items, {hints}", grouped(count as u64));
                cases.push(Case::new(call, size, move || sides(count)));
            }
        }
    };
    add(one, &[10, 1000, 100_000]);
    add(stable, &[10, 1000]);
    cases
}

fn choose_unhinted(count: usize) -> Sides {
    sides(
        count,
        NO_HINTS,
        |rng, items| unhinted(items).choose(rng),
        choose,
    )
}

fn choose_exact(count: usize) -> Sides {
    sides(
        count,
        EXACT,
        |rng, items| items.iter().copied().choose(rng),
        choose,
    )
}

fn stable_unhinted(count: usize) -> Sides {
    let rand = |rng: &mut _, items: &[u32]| unhinted(items).choose_stable(rng);
    sides(count, NO_HINTS, rand, choose_stable)
}

fn stable_exact(count: usize) -> Sides {
    let rand = |rng: &mut _, items: &[u32]| items.iter().copied().choose_stable(rng);
    sides(count, EXACT, rand, choose_stable)
}

/// The items behind a closure, which tells nothing of what remains.
fn unhinted(items: &[u32]) -> impl Iterator<Item = u32> {
    let mut items = items.iter().copied();
    iter::from_fn(move || items.next())
}

/// Both sides of a choice from so many items. The pattern of the port's hints must be what rand's iterator tells.
fn sides(
    count: usize,
    pattern: u64,
    rand: impl Fn(&mut Rand, &[u32]) -> Option<u32> + 'static,
    port: impl Fn(&mut Port, &[u32], &[u32], &[u32], u64) -> Result<Chosen, ChooseError> + 'static,
) -> Sides {
    let (lower, upper) = hints(pattern, count);
    Sides::new(
        theirs(counting(count), move |rng, items| rand(rng, items), answer),
        ours(
            (counting(count), lower, upper),
            move |rng, (items, lower, upper)| {
                let chosen = port(rng, items, lower, upper, u64::MAX);
                chosen.expect("the hints hold").item
            },
            answer,
        ),
    )
}
