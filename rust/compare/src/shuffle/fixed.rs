//! The shuffles that every run tries: small ones without gap, and those at the edges of chunks.

use std::iter;

use reference::draws::bounded;
use reference::shuffling::{Exchanges, Shuffling, Whole, bounds, chunk};
use reference::{State, some_state};

use crate::inputs::at_draws;

/// Every amount to two above the length is tried at every length to this one, from so many generators.
const SMALL: usize = 40;
const GENERATORS: u64 = 300;

/// To this length every shuffle is tried that ends at a chunk, or next to its end.
const AT_CHUNKS: u32 = 5000;

/// Lengths around those where a chunk gets one index in place of two, and a great one.
const LONG: [usize; 8] = [
    65_534, 65_535, 65_536, 65_537, 65_538, 65_539, 131_072, 1_000_000,
];

/// Amounts that are tried at every length where a partial shuffle is not tried with all.
const AMOUNTS: [u64; 8] = [0, 1, 2, 3, 12, 100, 1 << 32, u64::MAX];

/// Lengths and amounts of partial shuffles that are given every budget, and of which a draw has words on both sides of its tests: no
/// item and one, one draw, several chunks, and chunks of one index.
const UNDER_BUDGETS: [(usize, u64); 12] = [
    (0, 0),
    (1, 1),
    (9, 0),
    (2, 2),
    (13, 13),
    (30, 11),
    (30, u64::MAX),
    (100, 99),
    (1000, 40),
    (65_537, 5),
    (70_000, 20),
    (100_000, 2),
];

/// Lengths of whole shuffles of which the same is tried.
const WHOLE_UNDER_BUDGETS: [usize; 8] = [0, 1, 2, 12, 13, 20, 100, 1000];

/// A partial shuffle with a budget that suffices.
fn enough(from: State, len: usize, amount: u64) -> Shuffling {
    Shuffling {
        from,
        len,
        amount,
        budget: u64::MAX,
    }
}

/// Hands over the partial shuffles.
pub fn partial(mut visit: impl FnMut(Shuffling)) {
    for (len, amount) in UNDER_BUDGETS {
        under_budgets(len, amount, &mut visit);
    }
    for number in 0..GENERATORS {
        for len in 0..=SMALL {
            for amount in 0..=len as u64 + 2 {
                visit(enough(some_state(number), len, amount));
            }
        }
    }
    for (number, start) in (0..).zip(last_starts()) {
        at_start(number, start, &mut visit);
    }
    for (number, len) in (0..).zip(LONG) {
        let near = [len as u64 - 1, len as u64, len as u64 + 1];
        for amount in AMOUNTS.into_iter().chain(near) {
            visit(enough(some_state(number), len, amount));
        }
    }
    for len in [0, 1, 2, 13, 1000] {
        for amount in AMOUNTS {
            for budget in [0, u64::MAX] {
                visit(Shuffling {
                    budget,
                    ..enough([0; 4], len, amount)
                });
            }
        }
    }
}

/// A partial shuffle with every budget from 0 to more than it needs, and with those around a draw that has words at its tests.
fn under_budgets(len: usize, amount: u64, visit: &mut impl FnMut(Shuffling)) {
    let mut with = |from, budget| {
        visit(Shuffling {
            budget,
            ..enough(from, len, amount)
        });
    };
    for from in (0..5).map(some_state) {
        let needed = Exchanges::new(&enough(from, len, amount), bounded).words();
        (0..=needed + 2).for_each(|budget| with(from, budget));
    }
    at_draws(&bounds(len, amount), with);
}

/// For each number of factors that a chunk can have, the last place n at which it still has them.
fn last_starts() -> Vec<u32> {
    let mut starts = Vec::new();
    // Above this place a chunk has one factor.
    for n in 0..65_536 {
        if chunk(n + 1).1 != chunk(n + 2).1 {
            starts.push(n);
        }
    }
    starts
}

/// Partial shuffles whose tails start at a place or next to it, with all amounts to more than two chunks.
fn at_start(number: u64, start: u32, visit: &mut impl FnMut(Shuffling)) {
    for n in start.saturating_sub(2)..=start + 2 {
        for amount in 0..=2 * u64::from(chunk(n + 1).1) + 2 {
            for generator in 0..5 {
                let from = some_state(number * 5 + generator);
                visit(enough(from, n as usize + amount as usize, amount));
            }
        }
    }
}

/// Hands over the whole shuffles.
pub fn whole(mut visit: impl FnMut(Whole)) {
    let mut with = |from, len, budget| visit(Whole { from, len, budget });
    for number in 0..GENERATORS {
        (0..=SMALL).for_each(|len| with(some_state(number), len, u64::MAX));
    }
    for (number, end) in (0..).zip(chunk_ends()) {
        for len in [end - 1, end, end + 1] {
            with(some_state(number), len, u64::MAX);
        }
    }
    for (number, len) in (0..).zip(LONG) {
        with(some_state(number), len, u64::MAX);
    }
    for len in WHOLE_UNDER_BUDGETS {
        under_budgets(len, len as u64, &mut |call: Shuffling| {
            with(call.from, len, call.budget);
        });
    }
    for len in [0, 1, 2, 13, 1000] {
        with([0; 4], len, 0);
        with([0; 4], len, u64::MAX);
    }
}

/// The lengths at which a whole shuffle has used up a chunk. The first index is no chunk's.
fn chunk_ends() -> impl Iterator<Item = usize> {
    let ends = iter::successors(Some(1), |&end: &u32| Some(end + chunk(end + 1).1));
    ends.take_while(|&end| end < AT_CHUNKS)
        .map(|end| end as usize)
}

#[cfg(test)]
mod tests {
    use super::{chunk_ends, last_starts};

    #[test]
    fn chunks_of_11_and_7_follow_the_first_index() {
        let ends: Vec<usize> = chunk_ends().take(3).collect();
        assert_eq!(ends, [1, 12, 19]);
        assert_eq!(last_starts().last(), Some(&65_534));
    }
}
