//! Faults that can be put into the port's fills, so that a comparison is seen to fail.

use reference::advanced;
use reference::draws::{BUDGET_EXHAUSTED, bounded};
use reference::filling::{Fill, Filling, Slots, end_by, sample_fill};
use reference::sampling::Ended;
use reference::shuffling::refusal;

use super::port;
use crate::draw_faults::{self, faulty};
use crate::sample::faults::{SPENT_EARLY, SPENT_UNADVANCED, SPENT_UNNEEDED, unneeded};

/// The item at place p draws below p in place of p + 1.
const BOUND: &str = "fill-bound";

/// A fill in which a draw has read a second word, with a figure of one word less.
const WORDS: &str = "fill-words";

/// A spent fill that counts its slots.
const SPENT_COUNTED: &str = "fill-spent-counted";

/// The names of the faults.
pub const NAMES: [&str; 10] = [
    BOUND,
    WORDS,
    SPENT_COUNTED,
    SPENT_EARLY,
    SPENT_UNNEEDED,
    SPENT_UNADVANCED,
    draw_faults::SECOND_WORD,
    draw_faults::FIRST_LOW_KEPT,
    draw_faults::STOPS_AT_LARGEST,
    draw_faults::THIRD_UNTESTED,
];

/// The fills with each fault of the bounded draw.
const WITH_DRAWS: [Fill; draw_faults::NAMES.len()] = [
    |call, items, buf| end_by(call, faulty::<0>, items, buf),
    |call, items, buf| end_by(call, faulty::<1>, items, buf),
    |call, items, buf| end_by(call, faulty::<2>, items, buf),
    |call, items, buf| end_by(call, faulty::<3>, items, buf),
];

/// The fill with this fault in it, where the name is that of one.
pub fn planted(plant: Option<&str>) -> Option<Fill> {
    Some(match plant? {
        BOUND => |call, items, buf| end_by(call, |rng, r| bounded(rng, (r - 1).max(1)), items, buf),
        WORDS => words,
        SPENT_COUNTED => spent_counted,
        SPENT_EARLY => spent_early,
        SPENT_UNNEEDED => |call, items, buf| unneeded(sample_fill(call, items, buf), call.budget),
        SPENT_UNADVANCED => spent_unadvanced,
        _ => return draw_faults::planted(plant, WITH_DRAWS),
    })
}

/// Fault [`WORDS`].
fn words(call: &Filling, items: &[u32], buf: &mut [u32]) -> Ended {
    let mut ended = port::sample_fill(call, items, buf);
    let draws = items.len().saturating_sub(buf.len()) as u64;
    ended.words -= u64::from(ended.number == 0 && ended.words > draws);
    ended
}

/// Fault [`SPENT_COUNTED`].
fn spent_counted(call: &Filling, items: &[u32], buf: &mut [u32]) -> Ended {
    let mut ended = port::sample_fill(call, items, buf);
    if ended.number == BUDGET_EXHAUSTED {
        ended.count = buf.len() as u64;
    }
    ended
}

/// Fault [`SPENT_EARLY`].
fn spent_early(call: &Filling, items: &[u32], buf: &mut [u32]) -> Ended {
    if refusal(call.from, items.len()).is_some() {
        return port::sample_fill(call, items, buf);
    }
    let mut slots = Slots::new(call, bounded);
    let last = slots.words.last_mut();
    if let Some(words) = last.filter(|words| **words == call.budget) {
        *words += 1;
    }
    slots.end(call, items, buf)
}

/// Fault [`SPENT_UNADVANCED`].
fn spent_unadvanced(call: &Filling, items: &[u32], buf: &mut [u32]) -> Ended {
    let mut ended = sample_fill(call, items, buf);
    if ended.number == BUDGET_EXHAUSTED {
        let words = Slots::new(call, bounded).words;
        let finished = words.into_iter().filter(|&words| words <= call.budget);
        ended.state = advanced(call.from, finished.max().unwrap_or(0));
    }
    ended
}
