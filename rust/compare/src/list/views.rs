//! The views of drawn items of the list. There are at most as many items as there is room for.

use reference::call::Call;
use reference::line::ROOM;
use reference::methods::{bounds, by_rand, scratch};
use reference::sampling::Sampling;
use reference::{State, from_state, some_state};

use crate::contents::{Section, at_draws};

/// Numbers of items and amounts: none, one, few, and on both sides of the methods' bounds.
const VIEWS: [(u64, u64); 20] = [
    (0, 0),
    (1, 0),
    (1, 1),
    (2, 1),
    (3, 3),
    (10, 4),
    (11, 11),
    (12, 12),
    (350, 11),
    (350, 12),
    (351, 12),
    (43_610, 162),
    (43_611, 162),
    (44_009, 163),
    (44_010, 163),
    (49_950, 185),
    (ROOM as u64, 12),
    (ROOM as u64, 240),
    (300, 300),
    (2000, 1999),
];

/// Numbers of items and amounts above them.
const CLIPPED: [(u64, u64); 7] = [
    (0, 1),
    (0, u64::MAX),
    (1, 2),
    (5, 9),
    (12, 13),
    (170, 1 << 32),
    (1000, u64::MAX),
];

/// All views of the list.
pub fn sections() -> Vec<Section> {
    vec![
        views("Views of drawn items", 700, &VIEWS),
        views("Views of as many items as there are", 720, &CLIPPED),
        budgets(44_010, 163),
        long_draws(),
        refusals(),
    ]
}

/// A view with a budget that suffices and slices that are longer than it needs, as far as there is room.
fn viewing(from: State, length: u64, amount: u64) -> Sampling {
    let drawn = amount.min(length);
    let longer = |len: usize| ROOM.min(len + 2);
    Sampling {
        from,
        length,
        amount,
        budget: drawn * 10,
        indices_len: longer(drawn as usize),
        scratch_len: longer(scratch(length as u32, drawn as u32)),
    }
}

/// Views of these sizes, each from a generator of its own.
fn views(title: &str, first: u64, sizes: &[(u64, u64)]) -> Section {
    let numbered = (first..).zip(sizes);
    let calls: Vec<Call> = numbered
        .map(|(number, &(length, amount))| {
            Call::IndexedSamples(viewing(some_state(number), length, amount))
        })
        .collect();
    assert!(calls.iter().all(|call| call.answer().number == 0));
    Section::new(title, calls)
}

/// A view by rejection in which indices are drawn twice, with budgets from 0 to more than it needs.
fn budgets(length: u64, amount: u64) -> Section {
    let words = |from| by_rand(&mut from_state(from), length as u32, amount as u32).words();
    let from = (740..)
        .map(some_state)
        .find(|&from| words(from) > amount + 1);
    let from = from.expect("one of them draws indices twice");
    let needed = words(from);
    let budgets = [0, 1, 80, needed - 1, needed, needed + 1, u64::MAX];
    let calls = budgets.map(|budget| {
        Call::IndexedSamples(Sampling {
            budget,
            ..viewing(from, length, amount)
        })
    });
    Section::new(
        format!("Views of {amount} of {length} items within a budget; {needed} words are needed"),
        calls.into(),
    )
}

/// Views of which a draw reads three words and more, by Floyd's method and in place; and with every budget before that draw.
fn long_draws() -> Section {
    let mut calls = Vec::new();
    for (length, amount) in [(6, 6), (100, 3), (12, 12)] {
        let make = |from, budget| {
            Call::IndexedSamples(Sampling {
                budget,
                ..viewing(from, length, amount)
            })
        };
        let bounds = bounds(length as u32, amount as u32);
        calls.extend(at_draws(&bounds, make));
        calls.extend((0..=amount).map(|budget| make(some_state(760), budget)));
    }
    Section::new("Views of which a draw reads three words and more", calls)
}

/// Each cause of a refusal, alone and with the next, and slices that are just long enough for the items there are.
fn refusals() -> Section {
    let dead = [0; 4];
    let from = some_state(750);
    // The state, the number of items, the amount, the budget, the two lengths, and the number that is due.
    let asked = [
        (dead, 0, 0, 0, 0, 0, 12),
        (dead, 200, 163, 0, 10, 0, 12),
        (from, 5, 3, 9, 2, 0, 8),
        (from, 5, 9, 9, 4, 0, 8),
        (from, 5, 9, 9, 5, 0, 0),
        (from, 20, 12, 9, 11, 0, 8),
        (from, 20, 12, 9, 12, 19, 9),
        (from, 20, u64::MAX, 19, 20, 20, 13),
        (from, 20, u64::MAX, 20, 20, 20, 0),
        (from, 20, 0, 0, 0, 0, 0),
        (from, 200, 163, 0, 200, 199, 9),
        (from, 44_010, 163, 0, 162, 0, 8),
        (from, 44_010, 163, 0, 163, 0, 13),
    ];
    let calls = asked.map(
        |(from, length, amount, budget, indices_len, scratch_len, number)| {
            let call = Call::IndexedSamples(Sampling {
                from,
                length,
                amount,
                budget,
                indices_len,
                scratch_len,
            });
            assert_eq!(call.answer().number, number, "{call:?}");
            call
        },
    );
    Section::new(
        "Views that are refused, and slices of every length",
        calls.into(),
    )
}
