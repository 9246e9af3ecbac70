//! The views that every run tries: small ones without gap, those at the bounds of the methods, budgets and refusals.

use reference::methods::bounds;
use reference::sampling::Sampling;
use reference::some_state;

use crate::inputs::at_draws;
use crate::sample::fixed::{self, budgets, longer, slices};

/// Every amount to two above the number of items is tried for every such number to this one, from so many generators.
const SMALL: u64 = 40;
const GENERATORS: u64 = 100;

/// Numbers of items and amounts on both sides of the methods' bounds, and two of which all items are drawn.
const AT_BOUNDS: [(u64, u64); 14] = [
    (11, 11),
    (350, 11),
    (350, 12),
    (351, 12),
    (43_610, 162),
    (43_611, 162),
    (44_009, 163),
    (44_010, 163),
    (500_001, 12),
    (500_001, 163),
    (499_999, 2000),
    (500_000, 2000),
    (5000, 5000),
    (100, 4_294_967_295),
];

/// Views that are given every budget, and of which a draw has words on both sides of its tests: by Floyd's method, in place, by rejection.
const UNDER_BUDGETS: [(u64, u64); 9] = [
    (5, 0),
    (1, 1),
    (6, 6),
    (1000, 5),
    (500_001, 40),
    (12, 12),
    (350, 12),
    (200, 163),
    (44_010, 163),
];

/// Amounts above the number of items, by how much.
const ABOVE: [u64; 4] = [1, 2, 1000, 1 << 32];

/// A view with slices that are exactly long enough and a budget that suffices.
fn exact(number: u64, length: u64, amount: u64) -> Sampling {
    let drawn = fixed::exact(some_state(number), length, amount.min(length));
    Sampling { amount, ..drawn }
}

/// Hands over all of them.
pub fn calls(mut visit: impl FnMut(Sampling)) {
    for (length, amount) in UNDER_BUDGETS {
        budgets(&exact(1, length, amount), &mut visit);
        at_draws(&bounds(length as u32, amount as u32), |from, budget| {
            visit(Sampling {
                from,
                budget,
                ..longer(&exact(0, length, amount), 2)
            });
        });
    }
    for (number, longer_by) in (0..GENERATORS).zip([0, 1, 5].into_iter().cycle()) {
        for length in 0..=SMALL {
            for amount in (0..=length + 2).chain([u64::MAX]) {
                visit(longer(&exact(number, length, amount), longer_by));
            }
        }
    }
    for (length, amount) in AT_BOUNDS {
        at_bound(length, amount, &mut visit);
    }
    for length in [1, 11, 12, 162, 163, 2000] {
        for by in ABOVE {
            at_bound(length, length + by, &mut visit);
        }
    }
    for (length, amount) in [(20, 11), (9, 30), (40, 12), (13, u64::MAX), (44_010, 163)] {
        refusals(&exact(length, length, amount), &mut visit);
    }
}

/// A view with slices of several lengths, from three generators.
fn at_bound(length: u64, amount: u64, visit: &mut impl FnMut(Sampling)) {
    for number in 0..3 {
        slices(&exact(number, length, amount), visit);
    }
}

/// Every cause of a refusal that memory allows, alone and with all others: a bit of `causes` for each.
fn refusals(call: &Sampling, visit: &mut impl FnMut(Sampling)) {
    for causes in 0..16 {
        let has = |cause: u32| causes >> cause & 1 == 1;
        let mut refused = call.clone();
        if has(0) {
            refused.from = [0; 4];
        }
        if has(1) {
            refused.indices_len -= 1;
        }
        if has(2) {
            refused.scratch_len = call.scratch_len.saturating_sub(1);
        }
        if has(3) {
            refused.budget = 0;
        }
        visit(refused);
    }
}
