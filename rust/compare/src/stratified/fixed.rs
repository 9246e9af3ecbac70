//! The stratified samples that every run tries: small ones without gap, lists of parts by every method, budgets, generators at the tests of
//! later parts, wholes about as long as they may be, and refusals.

use reference::methods::{Method, bounds, due};
use reference::states::{behind_parts, giving_three};
use reference::stratifying::{Part, Stratifying, sum};
use reference::words::{self, HALF_DROPPED, giving, rejecting};
use reference::{State, some_state};

use crate::sample::fixed::scratch_needed;

/// Every list of up to so many parts is tried whose lengths and amounts are to these.
const SMALL_PARTS: u32 = 3;
const SMALL_LENGTH: u64 = 4;
const SMALL_AMOUNT: u64 = 5;

/// Parts of which every list of as many is tried: without indices, by Floyd's method, in place, and one that has too few.
const KINDS: [Part; 9] = [
    (0, 0),
    (7, 0),
    (1, 1),
    (9, 4),
    (11, 11),
    (12, 12),
    (30, 12),
    (351, 12),
    (13, 14),
];

/// The length of the longest whole.
const MOST: u64 = u32::MAX as u64;

/// Lists that are given every budget: parts by each method at each place, and several by rejection.
const UNDER_BUDGETS: [&[Part]; 8] = [
    &[(3, 2), (5, 3)],
    &[(7, 0), (1, 1), (0, 0), (11, 11), (9, 0)],
    &[(12, 12), (6, 3), (350, 12)],
    &[(351, 12), (40, 20), (9, 0), (MOST - 1000, 4)],
    &[(44_010, 163), (20, 5), (44_011, 163)],
    &[(30, 12), (44_010, 163), (351, 12), (4_000_000_000, 163)],
    &[
        (HALF_DROPPED as u64, 163),
        (9, 3),
        (MOST - HALF_DROPPED as u64 - 9, 163),
    ],
    &[(43_611, 162), (200, 163), (43_610, 162)],
];

/// Lists of which a draw of each part has words on both sides of its tests.
const AT_DRAWS: [&[Part]; 6] = [
    &[(6, 1), (6, 1), (6, 1)],
    &[(3, 2), (7, 0), (20, 11), (1000, 5)],
    &[(12, 12), (20, 15), (9, 4)],
    &[
        (1000, 3),
        (HALF_DROPPED as u64, 3),
        (HALF_DROPPED as u64 - 2000, 2),
    ],
    &[(44_010, 163), (6, 2), (13, 12)],
    &[(6, 2), (44_011, 163), (44_010, 163), (6, 1)],
];

/// Lists that make a whole of the greatest length: by Floyd's method, in place and by rejection, all of the last part among them.
const LONGEST: [&[Part]; 8] = [
    &[(MOST, 5)],
    &[(MOST, 163)],
    &[(MOST - 1, 1), (1, 1)],
    &[(MOST - 10, 5), (10, 10)],
    &[(MOST - 40, 3), (40, 40)],
    &[(1 << 31, 163), ((1 << 31) - 1, 163)],
    &[(MOST - 44_010, 12), (44_010, 163)],
    &[(5, 5), (0, 0), (MOST - 6, 0), (1, 1)],
];

/// Lengths whose sum is too much for 32 bits or for 64.
const TOO_LONG: [&[u64]; 14] = [
    &[MOST + 1],
    &[MOST, 1],
    &[1, MOST],
    &[MOST, 0, 1, 0],
    &[MOST, MOST],
    &[1 << 32, 1 << 32],
    &[1 << 63, 1 << 63],
    &[1 << 63, (1 << 63) - 1, 1, 5],
    &[u64::MAX],
    &[u64::MAX, 1],
    &[u64::MAX, 2],
    &[2, u64::MAX],
    &[5, u64::MAX - 4, 3],
    &[u64::MAX, u64::MAX, 3],
];

/// A call with slices that are exactly long enough and a budget that suffices.
fn exact(from: State, parts: &[Part]) -> Stratifying {
    let (lengths, amounts): (Vec<u64>, Vec<u64>) = parts.iter().copied().unzip();
    let needed = parts.iter().map(|&(n, k)| scratch_needed(n, k)).max();
    Stratifying {
        from,
        indices_len: sum(&amounts) as usize,
        scratch_len: needed.unwrap_or(0),
        lengths,
        amounts,
        budget: u64::MAX,
    }
}

/// The same with slices that are longer by so much.
fn longer(call: &Stratifying, by: usize) -> Stratifying {
    Stratifying {
        indices_len: call.indices_len + by,
        scratch_len: call.scratch_len + by,
        ..call.clone()
    }
}

/// Hands over all of them.
pub fn calls(mut visit: impl FnMut(Stratifying)) {
    too_long(&mut visit);
    unequal(&mut visit);
    for parts in [&KINDS[3..7], &[(30, 12), (44_010, 163), (9, 3)], &[(9, 2)]] {
        refusals(&exact(some_state(7), parts), &mut visit);
    }
    for parts in AT_DRAWS {
        at_draws(parts, &mut visit);
    }
    for (number, parts) in (0..).zip(UNDER_BUDGETS) {
        budgets(&exact(some_state(number), parts), &mut visit);
        for from in (0..5).map(some_state) {
            slices(&exact(from, parts), &mut visit);
        }
    }
    for parts in LONGEST {
        longest(parts, &mut visit);
    }
    every_list(&KINDS, &mut visit);
    let amounts = |length| (0..=SMALL_AMOUNT).map(move |amount| (length, amount));
    let small: Vec<Part> = (0..=SMALL_LENGTH).flat_map(amounts).collect();
    every_list(&small, &mut visit);
    many(&mut visit);
}

/// Every list of up to three of these parts, with slices of several lengths; and with every budget where all of it can be drawn.
fn every_list(kinds: &[Part], visit: &mut impl FnMut(Stratifying)) {
    for count in 0..=SMALL_PARTS {
        for number in 0..kinds.len().pow(count) {
            let kind = |place| kinds[number / kinds.len().pow(place) % kinds.len()];
            let parts: Vec<Part> = (0..count).map(kind).collect();
            let call = exact(some_state(number as u64), &parts);
            slices(&call, visit);
            let is_drawn = parts.iter().all(|&(length, amount)| amount <= length);
            let wanted = sum(&call.amounts) as u64;
            for budget in 0..=if is_drawn { wanted + 1 } else { 0 } {
                visit(Stratifying {
                    budget,
                    ..longer(&call, 1)
                });
            }
        }
    }
}

/// A call with slices that are as long as they are here, longer, and one short.
fn slices(call: &Stratifying, visit: &mut impl FnMut(Stratifying)) {
    visit(longer(call, 5));
    for (indices_short, scratch_short) in [(0, 0), (1, 0), (0, 1), (1, 1)] {
        visit(Stratifying {
            indices_len: call.indices_len.saturating_sub(indices_short),
            scratch_len: call.scratch_len.saturating_sub(scratch_short),
            ..call.clone()
        });
    }
}

/// A call with every budget from 0 to more than it needs.
fn budgets(call: &Stratifying, visit: &mut impl FnMut(Stratifying)) {
    let mut indices = vec![0; call.indices_len];
    let mut scratch = vec![0; call.scratch_len];
    let needed = call.end(&mut indices, &mut scratch).words;
    for budget in 0..=needed + 2 {
        visit(Stratifying {
            budget,
            ..longer(call, 2)
        });
    }
}

/// The call with generators with which the first and the last draw of each part has words on both sides of its tests, each with a budget that
/// ends before that draw, at each of its words and behind it, and enough.
fn at_draws(parts: &[Part], visit: &mut impl FnMut(Stratifying)) {
    for (place, &(length, amount)) in parts.iter().enumerate() {
        let mut at = |state: &dyn Fn(u64) -> State, salt, bounds: &[u32]| {
            let found = behind_parts(state, salt, &parts[..place], bounds);
            let (from, before) = found.expect("a generator for these parts");
            let budgets = before.saturating_sub(1)..=before + 5;
            for budget in budgets.chain([u64::MAX]) {
                visit(Stratifying {
                    budget,
                    ..longer(&exact(from, parts), 2)
                });
            }
        };
        let (length, amount) = (length as u32, amount as u32);
        if due(length, amount) == Method::Rejection {
            for (salt, (a, b)) in (1..).zip(rejecting(length)) {
                at(&|salt| giving(a, b, salt), salt, &[]);
            }
        }
        let bounds = bounds(length, amount);
        for draw in [0, bounds.len().wrapping_sub(1)] {
            let rows = bounds.get(draw).map(|&r| words::bounded(r));
            for (salt, row) in (1..).zip(rows.unwrap_or_default()) {
                at(&|salt| giving_three(row, salt), salt, &bounds[..draw]);
            }
        }
    }
}

/// A list that makes the longest whole; and the same with one index more in the first part, and behind the last.
fn longest(parts: &[Part], visit: &mut impl FnMut(Stratifying)) {
    for from in (0..5).map(some_state) {
        let call = exact(from, parts);
        assert_eq!(sum(&call.lengths), MOST.into());
        slices(&call, visit);
        for budget in [0, 1, sum(&call.amounts) as u64 - 1] {
            visit(Stratifying {
                budget,
                ..call.clone()
            });
        }
        let mut more = call.clone();
        more.lengths[0] += 1;
        visit(more);
        for amount in [0, 1] {
            visit(exact(from, &[parts, &[(1, amount)]].concat()));
            visit(exact(from, &[parts, &[(0, amount)]].concat()));
        }
    }
}

/// Lengths that are too much together, with amounts that are not above them and with some that are.
fn too_long(visit: &mut impl FnMut(Stratifying)) {
    for lengths in TOO_LONG {
        for amount in [0, 1, 12, 163, u64::MAX] {
            for (indices_len, scratch_len) in [(0, 0), (700, 50)] {
                for budget in [0, u64::MAX] {
                    visit(Stratifying {
                        from: some_state(amount),
                        lengths: lengths.to_vec(),
                        amounts: vec![amount; lengths.len()],
                        budget,
                        indices_len,
                        scratch_len,
                    });
                }
            }
        }
    }
}

/// Lists of every two counts to four, with entries that need no slice, that need one, and that are above their lengths.
fn unequal(visit: &mut impl FnMut(Stratifying)) {
    for lengths in 0..=4 {
        for amounts in 0..=4 {
            for (length, amount) in [(0, 0), (5, 0), (5, 2), (30, 12), (5, 6), (MOST, 1)] {
                for (indices_len, scratch_len) in [(0, 0), (60, 30)] {
                    visit(Stratifying {
                        from: some_state(length),
                        lengths: vec![length; lengths],
                        amounts: vec![amount; amounts],
                        budget: 30,
                        indices_len,
                        scratch_len,
                    });
                }
            }
        }
    }
}

/// Many parts: with an index of each, with none of most, and of no length.
fn many(visit: &mut impl FnMut(Stratifying)) {
    for part in [(3, 1), (1, 1), (7, 0), (0, 0), (12, 12)] {
        let parts = [&vec![part; 1000][..], &[(20, 5)]].concat();
        let call = exact(some_state(part.0), &parts);
        slices(&call, visit);
        for budget in [0, 999, 1000, 1003] {
            visit(Stratifying {
                budget,
                ..call.clone()
            });
        }
    }
}

/// A change that makes a call be refused with 17.
type Mismatch = fn(&mut Stratifying);

/// The ways to be refused so: an entry less or more in a list, and a whole that is too long, also by a sum that comes round to a small number.
const MISMATCHES: [Mismatch; 6] = [
    |call| call.amounts.truncate(call.amounts.len() - 1),
    |call| call.lengths.truncate(call.lengths.len() - 1),
    |call| call.amounts.push(0),
    |call| call.lengths.push(0),
    |call| call.lengths[0] += MOST,
    |call| call.lengths[0] = u64::MAX,
];

/// Every cause of a refusal alone and with all others: a bit of `causes` for each. An amount is above its length in the first part or in the
/// last.
fn refusals(call: &Stratifying, visit: &mut impl FnMut(Stratifying)) {
    let places = [0, call.lengths.len() - 1];
    for (mismatch, place) in MISMATCHES
        .iter()
        .flat_map(|m| places.map(|place| (m, place)))
    {
        for causes in 0..64 {
            let has = |cause: u32| causes >> cause & 1 == 1;
            let mut refused = call.clone();
            if has(2) {
                refused.amounts[place] = refused.lengths[place] + 1;
                refused.indices_len += 1000;
            }
            if has(3) {
                refused.indices_len = call.indices_len - 1;
            }
            if has(4) {
                refused.scratch_len = call.scratch_len.saturating_sub(1);
            }
            if has(5) {
                refused.budget = 0;
            }
            if has(1) {
                mismatch(&mut refused);
            }
            if has(0) {
                refused.from = [0; 4];
            }
            visit(refused);
        }
    }
}
