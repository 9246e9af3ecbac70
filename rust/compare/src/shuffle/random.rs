//! Random shuffles. Most are small.

use reference::shuffling::{Shuffling, Whole, bounds};

use crate::inputs::Source;
use crate::sample::random::budget;

/// A random partial shuffle.
pub fn partial(source: &mut Source) -> Shuffling {
    let len = length(source);
    let amount = match source.below(16) {
        0 => source.u64(),
        1 => (len as u64 + u64::from(source.below(4))).saturating_sub(2),
        2..8 => source.below(40).into(),
        _ => source.below(len as u32 + 2).into(),
    };
    let bounds = bounds(len, amount);
    Shuffling {
        from: source.state_at_draws(&bounds),
        len,
        amount,
        budget: budget(source, bounds.len() as u64),
    }
}

/// A random shuffle.
pub fn whole(source: &mut Source) -> Whole {
    let len = length(source);
    let bounds = bounds(len, len as u64);
    Whole {
        from: source.state_at_draws(&bounds),
        len,
        budget: budget(source, bounds.len() as u64),
    }
}

/// A number of items.
pub fn length(source: &mut Source) -> usize {
    let len = match source.below(512) {
        0 => 65_500 + source.below(100),
        1 => source.below(100_000),
        2..8 => source.below(5000),
        8..64 => source.below(500),
        _ => source.below(64),
    };
    len as usize
}
