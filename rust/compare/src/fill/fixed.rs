//! The fills that every run tries: small ones without gap, and long ones.

use reference::filling::{Filling, bounds};
use reference::{State, some_state};

use crate::inputs::at_draws;

/// Every buffer to two entries more is tried with every number of items to this one, from so many generators.
const SMALL: usize = 40;
const GENERATORS: u64 = 100;

/// Numbers of items, and buffers that are tried with each.
const ITEMS: [usize; 8] = [100, 1000, 10_000, 65_535, 65_536, 65_537, 99_999, 100_000];
const BUFFERS: [usize; 8] = [0, 1, 2, 10, 100, 1000, 65_536, 100_000];

/// Items and buffers of fills that are given every budget, and of which a draw has words on both sides of its tests.
const UNDER_BUDGETS: [(usize, usize); 9] = [
    (0, 0),
    (3, 3),
    (3, 7),
    (1, 0),
    (6, 5),
    (20, 3),
    (40, 0),
    (100, 10),
    (65_540, 65_530),
];

/// A fill with a budget that suffices.
fn enough(from: State, items_len: usize, buf_len: usize) -> Filling {
    Filling {
        from,
        items_len,
        buf_len,
        budget: u64::MAX,
    }
}

/// Hands over all of them.
pub fn calls(mut visit: impl FnMut(Filling)) {
    for (items_len, buf_len) in UNDER_BUDGETS {
        under_budgets(items_len, buf_len, &mut visit);
    }
    for from in (0..GENERATORS).map(some_state) {
        for items_len in 0..=SMALL {
            (0..=SMALL + 2).for_each(|buf_len| visit(enough(from, items_len, buf_len)));
        }
    }
    for (number, items_len) in (0..).zip(ITEMS) {
        let near = [items_len - 1, items_len, items_len + 1];
        let buffers = BUFFERS.into_iter().chain(near);
        buffers.for_each(|buf_len| visit(enough(some_state(number), items_len, buf_len)));
    }
    for (items_len, buf_len) in [(0, 0), (0, 3), (3, 0), (3, 3), (3, 5), (1000, 10)] {
        for budget in [0, u64::MAX] {
            visit(Filling {
                budget,
                ..enough([0; 4], items_len, buf_len)
            });
        }
    }
}

/// A fill with every budget from 0 to more than it needs, and with those around a draw that has words at its tests.
fn under_budgets(items_len: usize, buf_len: usize, visit: &mut impl FnMut(Filling)) {
    let bounds = bounds(items_len, buf_len);
    let mut with = |from, budget| {
        visit(Filling {
            budget,
            ..enough(from, items_len, buf_len)
        });
    };
    for from in (0..5).map(some_state) {
        (0..=bounds.len() as u64 + 2).for_each(|budget| with(from, budget));
    }
    at_draws(&bounds, with);
}
