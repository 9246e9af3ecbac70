//! The choices of the list.

use reference::call::Call;
use reference::choose_line::{Choosing, Hints, PATTERNS, hints};
use reference::states::{before, giving_three};
use reference::words::{giving, reading};
use reference::{State, some_state};

use crate::contents::{Section, at_draws};

/// A budget that no choice of the list uses up.
const ENOUGH: u64 = 1000;

/// Numbers of items that are tried with every pattern of hints, the false ones too.
const EVERY_PATTERN: [usize; 2] = [5, 100];

/// Other numbers of items, each with a pattern that holds.
const FEEDS: [(usize, u64); 11] = [
    (0, 0),
    (0, 1),
    (1, 0),
    (2, 0),
    (3, 2),
    (4, 7),
    (33, 3),
    (64, 4),
    (1000, 0),
    (300, 2),
    (300, 4),
];

/// All choices of the list.
pub fn sections() -> Vec<Section> {
    vec![
        patterns(),
        feeds(),
        lists(),
        budgets(),
        long_draws(),
        refusals(),
    ]
}

/// Both choices of such a line.
fn both(line: Choosing) -> [Call; 2] {
    [Call::Choose(line.clone()), Call::ChooseStable(line)]
}

/// A line with a budget that is enough and hints of a pattern. Those of the first two are made, and the others are given.
fn line(from: State, items_len: usize, pattern: u64) -> Choosing {
    Choosing {
        from,
        items_len,
        budget: ENOUGH,
        hints: match pattern {
            0 => Hints::None,
            1 => Hints::Exact,
            _ => given(pattern, items_len),
        },
    }
}

/// Hints of a pattern, given.
fn given(pattern: u64, items_len: usize) -> Hints {
    let (lower, upper) = hints(pattern, items_len);
    Hints::Given(lower, upper)
}

fn patterns() -> Section {
    let feeds = (600..).zip(EVERY_PATTERN);
    let lines = feeds.flat_map(|(number, items_len)| {
        (0..PATTERNS).map(move |pattern| line(some_state(number), items_len, pattern))
    });
    Section::new(
        "Choices with hints of every pattern",
        lines.flat_map(both).collect(),
    )
}

fn feeds() -> Section {
    let lines = (620..)
        .zip(FEEDS)
        .map(|(number, (items_len, pattern))| line(some_state(number), items_len, pattern));
    Section::new(
        "Choices from no items, few and many",
        lines.flat_map(both).collect(),
    )
}

/// Hints that are made, given as well; lists of other lengths than there are places; and hints that are false at one place.
fn lists() -> Section {
    let made = [0, 1].map(|pattern| given(pattern, 5));
    let lists: [(&[u32], &[u32]); 12] = [
        (&[], &[]),
        (&[2, 1, 0], &[]),
        (&[], &[2, 1, 0]),
        (&[2, 1], &[2, 1, 0]),
        (&[2, 1, 0], &[2, 1]),
        (&[2, 1, 0, 0], &[2, 1, 0]),
        (&[2, 1, 0], &[2, 1, 0, 0]),
        (&[3, 1, 0], &[3, 1, 0]),
        (&[2, 1, 1], &[2, 1, 1]),
        (&[0, 0, 0], &[1, 1, 0]),
        (&[0, 0, 0], &[2, 0, 0]),
        (&[0, 1, 0], &[u32::MAX, 2, 7]),
    ];
    let with = |items_len, hints| Choosing {
        hints,
        ..line(some_state(630), items_len, 0)
    };
    let lists = lists.map(|(lower, upper)| Hints::Given(lower.to_vec(), upper.to_vec()));
    let made = made.into_iter().map(|hints| with(5, hints));
    let lines = made.chain(lists.into_iter().map(|hints| with(2, hints)));
    Section::new(
        "Choices with given hints of every length, and with false ones",
        lines.flat_map(both).collect(),
    )
}

/// Budgets that end a choice at each of its words: coins, a draw between coins, and a draw whose second word is read.
fn budgets() -> Section {
    let between_coins = line(some_state(640), 5, 7);
    let coins = line(some_state(641), 20, 0);
    // Of 12 items at least 6 remain: the draw below 6 with two words of SCOPE 18, then one below 9, and coins.
    let draws = line(giving(715827882, 2863311531, 1), 12, 2);
    let mut calls = Vec::new();
    for of in [between_coins, draws] {
        calls.extend((0..5).map(|budget| {
            Call::Choose(Choosing {
                budget,
                ..of.clone()
            })
        }));
    }
    calls.extend((0..4).map(|budget| {
        Call::ChooseStable(Choosing {
            budget,
            ..coins.clone()
        })
    }));
    Section::new("Choices with few words to read", calls)
}

/// Choices of which a draw reads three words and more: one draw with exact hints, and one behind coins for three items.
fn long_draws() -> Section {
    let one = |from, budget| {
        Call::Choose(Choosing {
            budget,
            ..line(from, 6, 1)
        })
    };
    let mut calls = at_draws(&[6], one);
    for (row, salt) in reading(6, 3).into_iter().zip(1..) {
        let from = before(giving_three(row, some_state(salt)[0]), 1);
        calls.extend((0..6).map(|budget| {
            Call::Choose(Choosing {
                budget,
                hints: Hints::Given(vec![0, 0, 0, 3, 0, 0, 0], vec![u32::MAX; 7]),
                ..line(from, 6, 0)
            })
        }));
    }
    Section::new("Choices of which a draw reads three words and more", calls)
}

/// No generator before false hints, and these before a budget of 0. No item and one item need no word.
fn refusals() -> Section {
    let mut lines: Vec<Choosing> = [(3, 0), (3, 5), (0, 6)]
        .map(|(items_len, pattern)| line([0; 4], items_len, pattern))
        .to_vec();
    for (items_len, pattern) in [(0, 5), (0, 6), (7, 5), (7, 6), (0, 0), (1, 3), (2, 1)] {
        lines.push(Choosing {
            budget: 0,
            ..line(some_state(650), items_len, pattern)
        });
    }
    Section::new(
        "Choices that are refused, and choices without budget",
        lines.into_iter().flat_map(both).collect(),
    )
}
