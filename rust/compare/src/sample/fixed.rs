//! The samples that every run tries: small ones without gap, and those at the bounds of the rules.

use reference::methods::{bounds, by_rand, scratch};
use reference::sampling::Sampling;
use reference::words::{HALF_DROPPED, giving, rejecting};
use reference::{State, from_state, some_state};

use crate::inputs::at_draws;

/// Every amount is tried at every length to this one, from so many generators.
const SMALL: u64 = 40;
const GENERATORS: u64 = 300;

/// Amounts on both sides of the rules' bounds, and lengths on both sides of the lines at these amounts.
const AMOUNTS: [u64; 6] = [0, 1, 11, 12, 162, 163];
const LENGTHS: [u64; 17] = [
    349,
    350,
    351,
    352,
    43_609,
    43_610,
    43_611,
    43_612,
    44_008,
    44_009,
    44_010,
    44_011,
    499_999,
    500_000,
    500_001,
    4_294_967_294,
    4_294_967_295,
];

/// Lengths and amounts at the other bounds.
const AT_BOUNDS: [(u64, u64); 6] = [
    (499_998, 2000),
    (499_999, 2000),
    (500_000, 2000),
    (500_001, 2000),
    (500_060, 13_638),
    (500_061, 13_638),
];

/// Lengths that are rounded, with an amount whose line lies between them, and budgets. They take much memory. The second is by rejection, and its
/// budget ends in the second batch.
const ROUNDED: [(u64, u64); 2] = [(16_777_346, 0), (16_777_347, 60_000)];
const ROUNDED_AMOUNT: u64 = 457_564;

/// Samples by rejection at an amount from which the port goes batch by batch, and of two batches and three. The lengths are short for the
/// amounts, so that indices are drawn twice within a batch and across batches.
const IN_BATCHES: [(u64, u64); 3] = [(733_400, 20_001), (1_201_600, 32_769), (2_403_100, 65_537)];

/// The port's batches have so many indices.
const BATCH: u64 = 32_768;

/// Samples that are given every budget. Floyd's: no index and one, entries that are replaced, and draws that read two words as often as
/// not. In place: all places and few of many. By rejection: few and many words dropped, and indices drawn twice.
const UNDER_BUDGETS: [(u64, u64); 15] = [
    (7, 0),
    (1, 1),
    (4_294_967_295, 1),
    (11, 11),
    (351, 12),
    (43_611, 162),
    (4_294_967_295, 100),
    (12, 12),
    (350, 12),
    (200, 163),
    (44_009, 163),
    (44_010, 163),
    (4_294_967_295, 164),
    (HALF_DROPPED as u64, 163),
    (500_000, 2000),
];

/// Samples of which a bounded draw has words on both sides of its tests: small bounds and large ones, by Floyd's method and in place.
const AT_DRAWS: [(u64, u64); 14] = [
    (1, 1),
    (6, 1),
    (3, 2),
    (20, 11),
    (1000, 5),
    (HALF_DROPPED as u64, 3),
    (4_294_967_295, 1),
    (4_294_967_295, 11),
    (500_001, 40),
    (12, 12),
    (20, 15),
    (350, 12),
    (43_610, 162),
    (44_009, 163),
];

/// Samples by rejection whose first two words are on one side or the other of the draw's test: few words dropped, or half of them.
const AT_TESTS: [(u32, u64); 4] = [
    (44_010, 163),
    (44_011, 163),
    (HALF_DROPPED, 163),
    (u32::MAX, 163),
];

/// No slice of a refused call is longer.
const LONGEST: u64 = 60_000;

/// The scratch slice that a sample needs.
pub fn scratch_needed(length: u64, amount: u64) -> usize {
    let sizes = (u32::try_from(length), u32::try_from(amount));
    match sizes {
        (Ok(places), Ok(count)) => scratch(places, count),
        _ => 0,
    }
}

/// A sample with slices that are exactly long enough and a budget that suffices.
pub fn exact(from: State, length: u64, amount: u64) -> Sampling {
    Sampling {
        from,
        length,
        amount,
        budget: u64::MAX,
        indices_len: amount as usize,
        scratch_len: scratch_needed(length, amount),
    }
}

/// The same with slices that are longer by so much.
pub fn longer(call: &Sampling, by: usize) -> Sampling {
    Sampling {
        indices_len: call.indices_len + by,
        scratch_len: call.scratch_len + by,
        ..call.clone()
    }
}

/// Hands over all of them.
pub fn calls(mut visit: impl FnMut(Sampling)) {
    long_draws(&mut visit);
    small(&mut visit);
    for amount in AMOUNTS {
        let equal = [amount, amount + 1];
        let lengths = LENGTHS.into_iter().chain(equal);
        lengths.for_each(|length| at_bound(length, amount, 5, &mut visit));
    }
    for (length, amount) in AT_BOUNDS {
        at_bound(length, amount, 2, &mut visit);
    }
    for (length, budget) in ROUNDED {
        let call = exact(some_state(length), length, ROUNDED_AMOUNT);
        visit(Sampling { budget, ..call });
    }
    for (number, (length, amount)) in (0..).zip(IN_BATCHES) {
        in_batches(&exact(some_state(number), length, amount), &mut visit);
    }
    for same in [41, 100, 164, 500, 5000] {
        at_bound(same, same, 5, &mut visit);
    }
    for amount in [2, 50, 161, 164, 500, 2000] {
        at_bound(u32::MAX.into(), amount, 5, &mut visit);
    }
    for (number, (length, amount)) in (0..).zip(UNDER_BUDGETS) {
        budgets(&exact(some_state(number), length, amount), &mut visit);
    }
    for (length, amount) in AT_TESTS {
        at_tests(length, amount, &mut visit);
    }
    for (length, amount) in [(20, 11), (40, 12), (44_010, 163)] {
        refusals(&exact(some_state(length), length, amount), &mut visit);
    }
}

/// Samples of which a draw has words on both sides of its tests; and one that needs no word and has no budget.
fn long_draws(visit: &mut impl FnMut(Sampling)) {
    visit(Sampling {
        budget: 0,
        ..exact(some_state(1), 7, 0)
    });
    for (length, amount) in AT_DRAWS {
        at_draws(&bounds(length as u32, amount as u32), |from, budget| {
            visit(Sampling {
                budget,
                ..longer(&exact(from, length, amount), 2)
            });
        });
    }
}

/// All small samples, with slices that are long enough and longer.
fn small(visit: &mut impl FnMut(Sampling)) {
    for (number, longer_by) in (0..GENERATORS).zip([0, 1, 5].into_iter().cycle()) {
        let from = some_state(number);
        for length in 0..=SMALL {
            for amount in 0..=length {
                visit(longer(&exact(from, length, amount), longer_by));
            }
        }
    }
}

/// A sample with slices of several lengths, and with an amount above the length.
fn at_bound(length: u64, amount: u64, generators: u64, visit: &mut impl FnMut(Sampling)) {
    for number in 0..generators {
        let call = exact(some_state(number), length, amount);
        slices(&call, visit);
        visit(Sampling {
            amount: length + 1,
            ..call
        });
    }
}

/// A call with slices that are as long as they are here, longer, and one short.
pub fn slices(call: &Sampling, visit: &mut impl FnMut(Sampling)) {
    visit(longer(call, 7));
    for (indices_short, scratch_short) in [(0, 0), (1, 0), (0, 1), (1, 1)] {
        visit(Sampling {
            indices_len: call.indices_len.saturating_sub(indices_short),
            scratch_len: call.scratch_len.saturating_sub(scratch_short),
            ..call.clone()
        });
    }
}

/// A sample with every budget from 0 to more than it needs.
pub fn budgets(call: &Sampling, visit: &mut impl FnMut(Sampling)) {
    let mut rng = from_state(call.from);
    let needed = by_rand(&mut rng, call.length as u32, call.amount as u32).words();
    for budget in 0..=needed + 2 {
        visit(Sampling {
            budget,
            ..longer(call, 2)
        });
    }
}

/// A sample with a budget that ends within a batch, with one word too few, with as many as it needs, and with more.
fn in_batches(call: &Sampling, visit: &mut impl FnMut(Sampling)) {
    let mut rng = from_state(call.from);
    let needed = by_rand(&mut rng, call.length as u32, call.amount as u32).words();
    for budget in [BATCH, needed - 1, needed, u64::MAX] {
        visit(Sampling {
            budget,
            ..longer(call, 2)
        });
    }
}

/// A sample from each such generator, with few words and with enough.
fn at_tests(length: u32, amount: u64, visit: &mut impl FnMut(Sampling)) {
    for (salt, (a, b)) in (1..).zip(rejecting(length)) {
        let call = exact(giving(a, b, salt), length.into(), amount);
        for budget in [0, 1, 2, 3, u64::MAX] {
            visit(Sampling {
                budget,
                ..call.clone()
            });
        }
    }
}

/// Every cause of a refusal alone and with all others: a bit of `causes` for each.
fn refusals(call: &Sampling, visit: &mut impl FnMut(Sampling)) {
    for causes in 0..64 {
        let has = |cause: u32| causes >> cause & 1 == 1;
        let mut refused = call.clone();
        if has(0) {
            refused.from = [0; 4];
        }
        if has(1) {
            refused.length += 1 << 32;
        }
        if has(2) {
            refused.amount = refused.length + 1;
            // Where the length is too long as well, no slice is as long as that.
            refused.indices_len = refused.amount.min(LONGEST) as usize;
        }
        if has(3) {
            refused.indices_len = call.indices_len - 1;
        }
        if has(4) {
            refused.scratch_len = call.scratch_len.saturating_sub(1);
        }
        if has(5) {
            refused.budget = 0;
        }
        visit(refused);
    }
}
