//! Random samples.

use reference::State;
use reference::methods::{Method, bounds, due};
use reference::sampling::Sampling;
use reference::words::{giving, rejecting};

use super::fixed::scratch_needed;
use crate::inputs::Source;

/// The slices of a random call are no longer.
pub const LONGEST: u64 = 60_000;

/// No draw of a sample of more indices is looked for.
const MOST_DRAWN: u32 = 1000;

/// A random sample. Most are small.
pub fn call(source: &mut Source) -> Sampling {
    let (length, amount) = sizes(source);
    let needed = scratch_needed(length, amount).min(LONGEST as usize) as u64;
    let indices_len = around(source, amount.min(LONGEST));
    let scratch_len = around(source, needed);
    Sampling {
        from: start(length, amount, source),
        length,
        amount,
        budget: budget(source, amount),
        indices_len,
        scratch_len,
    }
}

/// A generator; where the sample is one by rejection, half the time one whose first two words are on one side or the other of the draw's
/// test, and else now and then one with which a draw of the sample is.
pub fn start(length: u64, amount: u64, source: &mut Source) -> State {
    let sizes = u32::try_from(length).and_then(|length| Ok((length, u32::try_from(amount)?)));
    match sizes {
        Ok((r, amount)) if due(r, amount) == Method::Rejection && source.below(2) == 0 => {
            let (a, b) = source.one_of(&rejecting(r));
            giving(a, b, source.even() | 1)
        }
        Ok((length, amount)) if amount <= length.min(MOST_DRAWN) => {
            source.state_at_draws(&bounds(length, amount))
        }
        _ => source.state_or_zero(),
    }
}

/// A length and an amount.
pub fn sizes(source: &mut Source) -> (u64, u64) {
    let any = |source: &mut Source, end: u64| u64::from(source.below(end as u32));
    match source.below(128) {
        0 => (source.u64() % (1 << 34), any(source, 400)),
        1 => (44_000 + any(source, 3000), 163 + any(source, 12)),
        2 => (source.u64() % (1 << 34), source.u64() % (1 << 34)),
        3 => {
            // Near the line of amounts from 12 to 162.
            let amount = 12 + any(source, 40);
            (
                amount * 10 + amount * amount * 8 / 5 - 2 + any(source, 5),
                amount,
            )
        }
        4..16 => {
            let length = any(source, 2000);
            (length, any(source, length.min(300) + 2))
        }
        _ => {
            let length = any(source, 64);
            (length, any(source, length + 2))
        }
    }
}

/// A number of entries: what is needed, most often, or a few more, or fewer.
pub fn around(source: &mut Source, needed: u64) -> usize {
    let entries = match source.below(16) {
        0 => needed.saturating_sub(1),
        1 => needed / 2,
        2 => 0,
        3..8 => needed + u64::from(source.below(6)),
        _ => needed,
    };
    entries as usize
}

/// A budget: enough, or about what so many indices need, or less.
pub fn budget(source: &mut Source, amount: u64) -> u64 {
    match source.below(4) {
        0 => source.u64(),
        1 => amount
            .saturating_add(source.below(5).into())
            .saturating_sub(2),
        2 => source.u64() % amount.saturating_add(2),
        _ => u64::MAX,
    }
}
