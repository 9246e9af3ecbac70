//! The stratified samples of the list. Few of their parts are long.

use reference::call::Call;
use reference::methods::{bounds, scratch};
use reference::states::{behind_parts, giving_three};
use reference::stratifying::{Part, Stratifying, sum};
use reference::words::{giving, reading, rejecting};
use reference::{State, some_state};

use crate::contents::Section;

/// The length of the longest whole.
const MOST: u64 = u32::MAX as u64;

/// Lists of parts: none, one, of no length, of which none is wanted, and by each method.
const LISTS: [&[Part]; 18] = [
    &[],
    &[(0, 0)],
    &[(7, 0)],
    &[(1, 1)],
    &[(20, 5)],
    &[(1, 1), (1, 1), (1, 1)],
    &[(0, 0), (5, 2), (0, 0), (5, 5)],
    &[(5, 0), (5, 2), (9, 0), (4, 1)],
    &[(5, 2), (9, 0)],
    &[(11, 11), (12, 12), (6, 3)],
    &[(30, 12), (9, 2), (20, 15)],
    &[(20, 15), (30, 12)],
    &[(351, 12), (350, 12), (349, 11)],
    &[(499_999, 12), (500_000, 12)],
    &[(200, 163), (44_010, 163)],
    &[(44_010, 163), (20, 5), (44_011, 163)],
    &[(43_610, 162), (43_611, 162)],
    &[
        (3, 1),
        (3, 2),
        (3, 3),
        (3, 0),
        (3, 1),
        (3, 2),
        (3, 3),
        (3, 0),
        (3, 1),
        (3, 2),
    ],
];

/// Lists that make a whole of the greatest length. All of the last part is drawn.
const LONGEST: [&[Part]; 5] = [
    &[(MOST - 1, 1), (1, 1)],
    &[(MOST - 3, 5), (3, 3)],
    &[(MOST - 12, 3), (12, 12)],
    &[(MOST - 2, 163), (0, 0), (2, 2)],
    &[(1 << 31, 2), ((1 << 31) - 2, 163), (1, 1)],
];

/// Lengths and amounts whose whole is too long, and lists of unequal count.
const MISMATCHED: [(&[u64], &[u64]); 14] = [
    (&[MOST, 1], &[1, 1]),
    (&[1, MOST], &[1, 0]),
    (&[MOST + 1], &[1]),
    (&[1 << 32, 1 << 32], &[0, 0]),
    (&[1 << 63, 1 << 63], &[0, 0]),
    (&[u64::MAX, 2], &[0, 0]),
    (&[u64::MAX, 2], &[1, 3]),
    (&[2, u64::MAX, 5], &[1, 1, 1]),
    (&[5], &[]),
    (&[], &[0]),
    (&[5, 5], &[1]),
    (&[5], &[1, 1]),
    (&[0, 0], &[0]),
    (&[5, 5], &[6, 0, 0]),
];

/// All stratified samples of the list.
pub fn sections() -> Vec<Section> {
    vec![
        lists(),
        budgets(&[(3, 2), (4, 0), (5, 3)]),
        budgets(&[(6, 2), (12, 12), (9, 2)]),
        budgets(&[(MOST - 9, 3), (9, 9)]),
        budgets(&[(44_010, 163), (20, 3), (44_011, 163)]),
        long_draws(),
        longest(),
        mismatched(),
        slices(),
        refusals(),
    ]
}

/// A call with a budget that suffices and slices that are longer than it needs.
fn stratifying(from: State, parts: &[Part]) -> Stratifying {
    let (lengths, amounts): (Vec<u64>, Vec<u64>) = parts.iter().copied().unzip();
    let needed = parts.iter().map(|&(n, k)| scratch(n as u32, k as u32));
    Stratifying {
        from,
        budget: 10 * sum(&amounts) as u64,
        indices_len: sum(&amounts) as usize + 2,
        scratch_len: needed.max().unwrap_or(0) + 2,
        lengths,
        amounts,
    }
}

/// A call that is answered with this number.
fn told(number: u64, call: Stratifying) -> Call {
    let call = Call::SampleStratified(call);
    assert_eq!(call.answer().number, number, "{call:?}");
    call
}

fn lists() -> Section {
    let numbered = (800..).zip(LISTS);
    let calls = numbered.map(|(number, parts)| told(0, stratifying(some_state(number), parts)));
    Section::new("Stratified samples", calls.collect())
}

/// A call with budgets from 0 to more than it needs: all of them where it needs few.
fn budgets(parts: &[Part]) -> Section {
    let enough = stratifying(some_state(820), parts);
    let needed = Call::SampleStratified(enough.clone()).answer().words;
    let mut budgets: Vec<u64> = match needed {
        ..50 => (0..needed).collect(),
        _ => vec![0, 1, 162, 163, 164, 165, 170, needed - 1],
    };
    budgets.extend([needed, needed + 1, u64::MAX]);
    let calls = budgets.into_iter().map(|budget| {
        let call = Stratifying {
            budget,
            ..enough.clone()
        };
        told(if budget < needed { 13 } else { 0 }, call)
    });
    Section::new(
        format!("{parts:?} (length, amount) within a budget; {needed} words are needed"),
        calls.collect(),
    )
}

/// Generators by their salt.
type At = Box<dyn Fn(u64) -> State>;

/// A draw of a part: the bounds of those before it in the part, and generators with which it reads three words and more or, where it is a
/// rejecting draw, drops its first word. A draw below a power of two reads one word, and a part of which none is wanted has no draw.
fn long_draw((length, amount): Part) -> Option<(Vec<u32>, At)> {
    let mut bounds = bounds(length as u32, amount as u32);
    match bounds.iter().rposition(|r| !r.is_power_of_two()) {
        Some(place) => {
            let row = reading(bounds[place], 3)[1];
            bounds.truncate(place);
            Some((bounds, Box::new(move |salt| giving_three(row, salt))))
        }
        None if amount == 0 => None,
        None => {
            let (a, b) = rejecting(length as u32)[0];
            Some((bounds, Box::new(move |salt| giving(a, b, salt))))
        }
    }
}

/// Calls of which such a draw is made in each part, with budgets around it.
fn long_draws() -> Section {
    let mut calls = Vec::new();
    let by_bounds = [(6, 2), (7, 0), (6, 3), (13, 12)];
    for parts in [&by_bounds[..], &[(44_010, 163), (44_011, 163), (9, 1)]] {
        for (place, &part) in parts.iter().enumerate() {
            let Some((bounds, at)) = long_draw(part) else {
                continue;
            };
            let found = behind_parts(at, some_state(place as u64)[0], &parts[..place], &bounds);
            let (from, before) = found.expect("a generator for these parts");
            for budget in (before..before + 4).chain([u64::MAX]) {
                calls.push(Call::SampleStratified(Stratifying {
                    budget,
                    ..stratifying(from, parts)
                }));
            }
        }
    }
    Section::new(
        "Stratified samples of which a draw reads three words and more, or drops its first word",
        calls,
    )
}

/// The last index is the greatest that there is.
fn longest() -> Section {
    let mut calls = Vec::new();
    for (number, parts) in (840..).zip(LONGEST) {
        let call = told(0, stratifying(some_state(number), parts));
        assert!(call.answer().values.contains(&(u32::MAX - 1)));
        calls.push(call);
    }
    Section::new("Stratified samples of a whole of 2^32 - 1", calls)
}

fn mismatched() -> Section {
    let calls = MISMATCHED.map(|(lengths, amounts)| {
        let call = Stratifying {
            from: some_state(850),
            lengths: lengths.to_vec(),
            amounts: amounts.to_vec(),
            budget: 9,
            indices_len: 3,
            scratch_len: 1,
        };
        told(17, call)
    });
    Section::new(
        "Parts that are too long together, and lists of unequal count",
        calls.into(),
    )
}

/// Slices that are exactly long enough, one short and longer. What is needed is 15 entries of indices and 30 of scratch.
fn slices() -> Section {
    let parts = [(9, 2), (30, 12), (5, 0), (4, 1)];
    let asked = [
        (15, 30, 0),
        (14, 30, 8),
        (15, 29, 9),
        (14, 29, 8),
        (0, 0, 8),
        (15, 0, 9),
        (100, 200, 0),
    ];
    let calls = asked.map(|(indices_len, scratch_len, number)| {
        let call = Stratifying {
            indices_len,
            scratch_len,
            ..stratifying(some_state(860), &parts)
        };
        told(number, call)
    });
    Section::new("Stratified samples in slices of every length", calls.into())
}

/// A change that makes a call be refused, and the number.
type Cause = (fn(&mut Stratifying), u64);

/// The causes of a refusal, in the order in which they are told.
const CAUSES: [Cause; 7] = [
    (|call| call.from = [0; 4], 12),
    (|call| call.amounts.push(0), 17),
    (|call| call.lengths.push(MOST), 17),
    (|call| call.amounts[3] = call.lengths[3] + 1, 1),
    (|call| call.indices_len = 3, 8),
    (|call| call.scratch_len = 29, 9),
    (|call| call.budget = 0, 13),
];

/// Each cause alone and each two together.
fn refusals() -> Section {
    let mut calls = Vec::new();
    for (first, (one, number)) in CAUSES.iter().enumerate() {
        for (other, _) in &CAUSES[first..] {
            let mut call = stratifying(some_state(870), &[(9, 2), (30, 12), (5, 0), (4, 1)]);
            one(&mut call);
            other(&mut call);
            calls.push(told(*number, call));
        }
    }
    Section::new(
        "Refusals of stratified samples, alone and two together",
        calls,
    )
}
