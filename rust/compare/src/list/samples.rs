//! The samples of the list. A slice has at most as many entries as there is room for, so where the method in place is due at a greater
//! length, it is seen by its refusal.

use reference::call::Call;
use reference::line::ROOM;
use reference::methods::{Method, bounds, by_rand, due};
use reference::sampling::Sampling;
use reference::{State, from_state, some_state};

use crate::contents::{Section, at_draws};

/// Lines of samples for each small length and amount.
const LINES: u64 = 3;

/// Small lengths and amounts.
const SMALL: [(u64, u64); 15] = [
    (0, 0),
    (1, 0),
    (1, 1),
    (2, 1),
    (2, 2),
    (3, 2),
    (10, 3),
    (11, 11),
    (12, 11),
    (12, 12),
    (13, 12),
    (20, 10),
    (20, 20),
    (40, 25),
    (100, 100),
];

/// Lengths and amounts at the bounds of the choice.
const AT_BOUNDS: [(u64, u64); 22] = [
    (349, 12),
    (352, 12),
    (350, 11),
    (499_999, 12),
    (500_001, 12),
    (43_610, 162),
    (43_611, 162),
    (44_009, 162),
    (500_000, 162),
    (162, 162),
    (163, 163),
    (44_008, 163),
    (44_011, 163),
    (500_000, 163),
    (44_280, 164),
    (44_279, 164),
    (4_294_967_295, 1),
    (4_294_967_295, 11),
    (4_294_967_295, 12),
    (4_294_967_295, 162),
    (4_294_967_295, 163),
    (2_147_483_649, 200),
];

/// All samples of the list.
pub fn sections() -> Vec<Section> {
    vec![
        marked(),
        marked_by_refusal(),
        small(),
        at_bounds(),
        budgets(44_010, 163),
        budgets(2_147_483_649, 163),
        budgets(8, 5),
        budgets(4_294_967_295, 8),
        budgets(14, 14),
        budgets(350, 12),
        long_draws(),
        slices(),
        refusals(),
    ]
}

/// The scratch slice that a sample needs, as far as there is room.
fn scratch_len(length: u64, amount: u64) -> usize {
    match due(length as u32, amount as u32) {
        Method::InPlace => ROOM.min(length as usize),
        _ => 4,
    }
}

/// A sample with a budget that suffices and slices that are longer than it needs.
fn sampling(from: State, length: u64, amount: u64) -> Sampling {
    Sampling {
        from,
        length,
        amount,
        budget: amount * 10,
        indices_len: amount as usize + 2,
        scratch_len: ROOM.min(scratch_len(length, amount) + 2),
    }
}

/// Samples of these lengths and amounts, so many of each.
fn samples(sizes: &[(u64, u64)], lines: u64) -> Vec<Call> {
    let numbered = (0..).zip(sizes);
    let calls = numbered.flat_map(|(number, &(length, amount))| {
        let lines = (0..lines).map(move |line| 1000 * number + line);
        lines.map(move |number| Call::Sample(sampling(some_state(number), length, amount)))
    });
    calls.collect()
}

/// The answer's number, and whether the scratch slice is other than it was.
fn outcome(call: &Call) -> (u64, bool) {
    let Call::Sample(sampling) = call else {
        panic!("{call:?} is no sample");
    };
    let mut indices = vec![0; sampling.indices_len];
    let mut scratch = vec![0; sampling.scratch_len];
    let ended = sampling.end(&mut indices, &mut scratch);
    (ended.number, scratch.iter().any(|&entry| entry != 0))
}

/// The choices that SCOPE 6 names, each held to what it says: whether it is in place, which alone writes the scratch slice.
fn marked() -> Section {
    let marked = [
        (350, 12, true),
        (351, 12, false),
        (500_000, 12, false),
        (44_009, 163, true),
        (44_010, 163, false),
        (500_000, 2000, false),
    ];
    let mut calls = Vec::new();
    for (length, amount, is_in_place) in marked {
        let call = samples(&[(length, amount)], 1).remove(0);
        assert_eq!(outcome(&call), (0, is_in_place), "{call:?}");
        calls.push(call);
    }
    Section::new("Samples at the lengths that SCOPE 6 names", calls)
}

/// Choices that a refusal shows: 9 with too short a scratch slice, in place; 13 with a budget of 0, rejection, since Floyd's method is due for
/// no such amount.
fn marked_by_refusal() -> Section {
    let marked = [
        (499_999, 2000, 9),
        (500_000, 2000, 13),
        (500_060, 13_638, 9),
        (500_061, 13_638, 13),
    ];
    let mut calls = Vec::new();
    for (length, amount, number) in marked {
        let call = Call::Sample(Sampling {
            budget: 0,
            scratch_len: 4,
            ..sampling(some_state(length), length, amount)
        });
        assert_eq!(outcome(&call).0, number, "{call:?}");
        calls.push(call);
    }
    Section::new("Methods that are due, by their refusals", calls)
}

fn small() -> Section {
    Section::new("Small samples", samples(&SMALL, LINES))
}

fn at_bounds() -> Section {
    Section::new(
        "Samples at the bounds of the choice",
        samples(&AT_BOUNDS, 1),
    )
}

/// A sample with budgets from 0 to more than it needs: all of them where it needs few.
fn budgets(length: u64, amount: u64) -> Section {
    let from = some_state(length);
    let needed = by_rand(&mut from_state(from), length as u32, amount as u32).words();
    let mut budgets: Vec<u64> = match needed {
        ..50 => (0..needed).collect(),
        _ => vec![0, 1, 2, 3, 80, 162, 163, 164, needed - 1],
    };
    budgets.extend([needed, needed + 1, u64::MAX]);
    let calls = budgets.into_iter().map(|budget| {
        Call::Sample(Sampling {
            budget,
            ..sampling(from, length, amount)
        })
    });
    Section::new(
        format!("{amount} of {length} within a budget; {needed} words are needed"),
        calls.collect(),
    )
}

/// Samples by Floyd's method and in place of which a draw reads three words and more.
fn long_draws() -> Section {
    let mut calls = Vec::new();
    for (length, amount) in [(6, 1), (9, 5), (4_294_967_295, 3), (13, 12), (350, 12)] {
        let bounds = bounds(length as u32, amount as u32);
        calls.extend(at_draws(&bounds, |from, budget| {
            Call::Sample(Sampling {
                budget,
                ..sampling(from, length, amount)
            })
        }));
    }
    Section::new("Samples of which a draw reads three words and more", calls)
}

/// Slices that are exactly long enough, one short and longer; and budgets of 0.
fn slices() -> Section {
    let mut calls = Vec::new();
    for (length, amount) in [(30, 11), (30, 12), (200, 163), (44_010, 163)] {
        let exact = Sampling {
            indices_len: amount as usize,
            scratch_len: scratch_len(length, amount),
            ..sampling(some_state(amount), length, amount)
        };
        for (indices_len, scratch_len) in [
            (exact.indices_len, exact.scratch_len),
            (exact.indices_len - 1, exact.scratch_len),
            (exact.indices_len, exact.scratch_len - 1),
            (exact.indices_len + 9, exact.scratch_len + 1000),
            (exact.indices_len, 0),
        ] {
            calls.push(Call::Sample(Sampling {
                indices_len,
                scratch_len,
                ..exact.clone()
            }));
        }
        calls.push(Call::Sample(Sampling { budget: 0, ..exact }));
    }
    Section::new("Samples in slices of every length", calls)
}

/// A change that makes a call be refused.
type Cause = fn(&mut Sampling);

/// The causes of a refusal, in the order in which they are told: 12, 10, 1, 8, 9, 13.
const CAUSES: [Cause; 6] = [
    |call| call.from = [0; 4],
    |call| call.length += 1 << 32,
    |call| call.amount = call.length + 1,
    |call| call.indices_len = 10,
    |call| call.scratch_len = 0,
    |call| call.budget = 0,
];

/// Each cause alone and each two together, at a sample in place; and with one by rejection and one by Floyd's method for the budget.
fn refusals() -> Section {
    let mut calls = Vec::new();
    for (first, one) in CAUSES.iter().enumerate() {
        for other in &CAUSES[first..] {
            let mut call = sampling(some_state(5), 200, 163);
            call.indices_len = 50_000;
            one(&mut call);
            other(&mut call);
            calls.push(Call::Sample(call));
        }
    }
    for (length, amount) in [(44_010, 163), (20, 11)] {
        calls.push(Call::Sample(Sampling {
            budget: 0,
            ..sampling(some_state(5), length, amount)
        }));
    }
    for cause in &CAUSES[..4] {
        let mut call = sampling(some_state(6), 44_010, 163);
        call.budget = 0;
        cause(&mut call);
        calls.push(Call::Sample(call));
    }
    Section::new("Refusals, alone and two together", calls)
}
