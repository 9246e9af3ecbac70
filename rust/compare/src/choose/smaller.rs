//! Smaller choices than those at which the sides differ.

use super::Input;
use crate::inputs::{smaller, smaller_states};
use crate::weights::lists;

/// The choices that are one step smaller than this one.
pub fn than(input: &Input) -> Vec<Input> {
    [fewer(input), hints(input), others(input)].concat()
}

/// The same with other hints.
pub fn hints(input: &Input) -> Vec<Input> {
    let lowers = lists(&input.lower).into_iter().map(|lower| Input {
        lower,
        ..input.clone()
    });
    let uppers = lists(&input.upper).into_iter().map(|upper| Input {
        upper,
        ..input.clone()
    });
    lowers.chain(uppers).collect()
}

/// The same with other items, another budget or another generator.
pub fn others(input: &Input) -> Vec<Input> {
    let items = lists(&input.items).into_iter().map(|items| Input {
        items,
        ..input.clone()
    });
    let budgets = smaller(input.budget).map(|budget| Input {
        budget,
        ..input.clone()
    });
    let states = smaller_states(input.from).map(|from| Input {
        from,
        ..input.clone()
    });
    items.chain(budgets).chain(states).collect()
}

/// The same without some items and the hints that go with them. Hints that held still hold: those of the places before are at most what
/// remains there now, and an upper hint that was one stays above that.
pub fn fewer(input: &Input) -> Vec<Input> {
    let len = input.items.len();
    if input.lower.len() < len || input.upper.len() < len {
        return Vec::new();
    }
    let mut inputs = Vec::new();
    let mut part = len.div_ceil(2);
    while part > 0 {
        for start in (0..len).step_by(part) {
            inputs.push(without(input, start, len.min(start + part)));
        }
        part /= 2;
    }
    inputs
}

/// The choice without the items from `start` to before `end`.
fn without(input: &Input, start: usize, end: usize) -> Input {
    let mut less = input.clone();
    for list in [&mut less.items, &mut less.lower, &mut less.upper] {
        list.drain(start..end);
    }
    let remaining = (0..=less.items.len()).rev();
    for (lower, remain) in less.lower[..start].iter_mut().zip(remaining) {
        *lower = (*lower).min(remain as u32);
    }
    less
}
