//! A long mixed run of the list: one generator for calls of every kind.

use reference::State;
use reference::call::Call;
use reference::choose_line::{Choosing, Hints, hints};
use reference::draw_line::Bounded;
use reference::filling::Filling;
use reference::sampling::Sampling;
use reference::shuffling::{Shuffling, Whole};
use reference::some_state;
use reference::stratifying::Stratifying;
use reference::weights_line::{Changed, Picking};

use crate::contents::{Section, chained};

/// The calls of the run.
const CALLS: u64 = 240;

/// The run.
pub fn section() -> Section {
    let calls = (0..CALLS).map(|number| move |from| call(from, number));
    Section::new(
        "A run of one generator through calls of every kind",
        chained(some_state(17), calls),
    )
}

/// The call at a place of the run. Its sizes go up and down with the place.
fn call(from: State, number: u64) -> Call {
    let length = number * 37 % 61;
    let amount = number * 11 % (length + 1);
    let budget = u64::MAX;
    let len = length as usize;
    match number % 13 {
        0 => Call::Sample(sampling(from, length, amount)),
        1 => Call::IndexedSamples(sampling(from, length, amount)),
        2 => Call::PartialShuffle(shuffling(from, len, amount, number)),
        3 => {
            let budget = few(number);
            Call::Shuffle(Whole { from, len, budget })
        }
        4 => Call::SampleFill(filling(from, len, amount as usize, number)),
        5 => Call::Choose(choosing(from, len, hints(7, len))),
        6 => Call::ChooseStable(choosing(from, len, hints(2, len))),
        7 => Call::Pick(picking(from, number)),
        8 => Call::NextU32(from),
        9 => Call::NextU64(from),
        10 => {
            let r = u32::MAX / (number as u32 + 1);
            Call::RandomRange(Bounded { from, r, budget })
        }
        11 => {
            let r = (1 << 31) + number as u32;
            Call::UniformInt(Bounded { from, r, budget })
        }
        _ => Call::SampleStratified(stratifying(from, length, amount, number)),
    }
}

fn sampling(from: State, length: u64, amount: u64) -> Sampling {
    Sampling {
        from,
        length,
        amount,
        budget: amount * 10 % 97,
        indices_len: amount as usize,
        scratch_len: length as usize,
    }
}

/// Three parts, of the last of which none is wanted where it has no length.
fn stratifying(from: State, length: u64, amount: u64, number: u64) -> Stratifying {
    let last = number % 5;
    Stratifying {
        from,
        lengths: vec![length, 13, last],
        amounts: vec![amount, number % 14, last.min(2)],
        budget: few(number),
        indices_len: amount as usize + 15,
        scratch_len: length.max(13) as usize,
    }
}

/// Some of these use their budget up.
fn shuffling(from: State, len: usize, amount: u64, number: u64) -> Shuffling {
    Shuffling {
        from,
        len,
        amount,
        budget: few(number),
    }
}

fn filling(from: State, items_len: usize, buf_len: usize, number: u64) -> Filling {
    Filling {
        from,
        items_len,
        buf_len,
        budget: few(number),
    }
}

/// A budget that goes up and down with the place.
fn few(number: u64) -> u64 {
    number * 7 % 50
}

fn choosing(from: State, items_len: usize, (lower, upper): (Vec<u32>, Vec<u32>)) -> Choosing {
    Choosing {
        from,
        items_len,
        budget: u64::MAX,
        hints: Hints::Given(lower, upper),
    }
}

fn picking(from: State, number: u64) -> Picking {
    Picking {
        from,
        picks: 3,
        budget: 100,
        table: Changed {
            sums_len: 3,
            places: vec![1],
            changes: vec![number as u32],
            weights: vec![3, 0, 5, 1 << 31],
        },
    }
}
