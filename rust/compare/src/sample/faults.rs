//! Faults that can be put into the port's samples, so that a comparison is seen to fail.

use rand::rngs::Xoshiro256PlusPlus;
use reference::advanced;
use reference::draws::{BUDGET_EXHAUSTED, Draws, RAND, bounded, one_too_low, rejecting};
use reference::methods::{Method, Sample, by_rand, draw, due};
use reference::sampling::{End, Ended, Sampling};

use crate::draw_faults::{self, faulty};

/// Floyd's method that appends j in place of t where t was drawn before: the same set in another order.
const FLOYD_APPENDS_J: &str = "floyd-appends-j";

/// The method in place with a bound that is one too low.
const IN_PLACE_BOUND: &str = "in-place-bound";

/// The method by rejection that keeps an index drawn before.
const REJECTION_DUPLICATE: &str = "rejection-duplicate";

/// The method by rejection with a threshold that is one too low.
const REJECTION_THRESHOLD: &str = "rejection-threshold";

/// A sample that read more words than it has indices, with a figure of one word less.
const WORDS: &str = "sample-words";

/// A scratch slice that is too short, told before an indices' slice that is.
const REFUSAL_ORDER: &str = "refusal-order";

/// A call that needs its budget to the last word, and is refused.
pub const SPENT_EARLY: &str = "spent-early";

/// A call without budget that needs no word, and is refused.
pub const SPENT_UNNEEDED: &str = "spent-unneeded";

/// A spent call that hands back the generator as it was before the unfinished draw.
pub const SPENT_UNADVANCED: &str = "spent-unadvanced";

/// A spent sample by Floyd's method whose last draw has appended its index and replaced none.
const FLOYD_SPENT_UNDONE: &str = "floyd-spent-undone";

/// A spent sample in place with its arrangement copied to the indices.
const IN_PLACE_SPENT_COPIED: &str = "in-place-spent-copied";

/// The names of the faults.
pub const NAMES: [&str; 15] = [
    FLOYD_APPENDS_J,
    IN_PLACE_BOUND,
    REJECTION_DUPLICATE,
    WORDS,
    SPENT_EARLY,
    REFUSAL_ORDER,
    REJECTION_THRESHOLD,
    SPENT_UNNEEDED,
    SPENT_UNADVANCED,
    FLOYD_SPENT_UNDONE,
    IN_PLACE_SPENT_COPIED,
    draw_faults::SECOND_WORD,
    draw_faults::FIRST_LOW_KEPT,
    draw_faults::STOPS_AT_LARGEST,
    draw_faults::THIRD_UNTESTED,
];

/// The samples with each fault of the bounded draw.
pub const WITH_DRAWS: [End; draw_faults::NAMES.len()] = [
    with_draw::<0>,
    with_draw::<1>,
    with_draw::<2>,
    with_draw::<3>,
];

/// The sample with this fault in it, where the name is that of one.
pub fn planted(plant: Option<&str>) -> Option<End> {
    Some(match plant? {
        FLOYD_APPENDS_J => {
            |call, indices, scratch| with(call, Method::Floyd, floyd_appends_j, indices, scratch)
        }
        IN_PLACE_BOUND => {
            |call, indices, scratch| with(call, Method::InPlace, in_place_bound, indices, scratch)
        }
        REJECTION_DUPLICATE => |call, indices, scratch| {
            let faulty = rejection_duplicate;
            with(call, Method::Rejection, faulty, indices, scratch)
        },
        REJECTION_THRESHOLD => |call, indices, scratch| {
            let faulty = rejection_threshold;
            with(call, Method::Rejection, faulty, indices, scratch)
        },
        WORDS => sample_words,
        REFUSAL_ORDER => refusal_order,
        SPENT_EARLY => spent_early,
        SPENT_UNNEEDED => spent_unneeded,
        SPENT_UNADVANCED => spent_unadvanced,
        FLOYD_SPENT_UNDONE => floyd_spent_undone,
        IN_PLACE_SPENT_COPIED => in_place_spent_copied,
        _ => return draw_faults::planted(plant, WITH_DRAWS),
    })
}

/// A call with one of the methods replaced.
fn with(
    call: &Sampling,
    method: Method,
    faulty: fn(&mut Xoshiro256PlusPlus, u32, u32) -> Sample,
    indices: &mut [u32],
    scratch: &mut [u32],
) -> Ended {
    let drawing = |rng: &mut _, length, amount| match due(length, amount) == method {
        true => faulty(rng, length, amount),
        false => by_rand(rng, length, amount),
    };
    call.end_by(&drawing, indices, scratch)
}

/// A call whose draws are made so.
pub fn with_draws(
    draws: &Draws,
    call: &Sampling,
    indices: &mut [u32],
    scratch: &mut [u32],
) -> Ended {
    let drawing = |rng: &mut _, length, amount| {
        let method = due(length, amount);
        draw(method, rng, length, amount, draws)
    };
    call.end_by(&drawing, indices, scratch)
}

/// A call with a fault of the bounded draw.
fn with_draw<const FAULT: usize>(
    call: &Sampling,
    indices: &mut [u32],
    scratch: &mut [u32],
) -> Ended {
    let draws = Draws {
        bounded: faulty::<FAULT>,
        ..RAND
    };
    with_draws(&draws, call, indices, scratch)
}

/// Fault [`FLOYD_APPENDS_J`].
fn floyd_appends_j(rng: &mut Xoshiro256PlusPlus, length: u32, amount: u32) -> Sample {
    let mut sample = Sample::default();
    for j in length - amount..length {
        let t = bounded(rng, j + 1);
        sample.read(t);
        let is_held = sample.indices.contains(&t.value);
        sample.indices.push(if is_held { j } else { t.value });
    }
    sample
}

/// Fault [`IN_PLACE_BOUND`].
fn in_place_bound(rng: &mut Xoshiro256PlusPlus, length: u32, amount: u32) -> Sample {
    let draws = Draws {
        bounded: |rng, r| bounded(rng, r.saturating_sub(1).max(1)),
        ..RAND
    };
    draw(Method::InPlace, rng, length, amount, &draws)
}

/// Fault [`REJECTION_DUPLICATE`].
fn rejection_duplicate(rng: &mut Xoshiro256PlusPlus, length: u32, amount: u32) -> Sample {
    let mut sample = Sample::default();
    for _ in 0..amount {
        let drawn = rejecting(rng, length);
        sample.read(drawn);
        sample.indices.push(drawn.value);
    }
    sample
}

/// Fault [`REJECTION_THRESHOLD`].
fn rejection_threshold(rng: &mut Xoshiro256PlusPlus, length: u32, amount: u32) -> Sample {
    let draws = Draws {
        rejecting: one_too_low,
        ..RAND
    };
    draw(Method::Rejection, rng, length, amount, &draws)
}

/// Fault [`WORDS`].
fn sample_words(call: &Sampling, indices: &mut [u32], scratch: &mut [u32]) -> Ended {
    let mut ended = call.end(indices, scratch);
    ended.words -= u64::from(ended.number == 0 && ended.words > ended.count);
    ended
}

/// Fault [`SPENT_EARLY`].
pub fn spent_early(call: &Sampling, indices: &mut [u32], scratch: &mut [u32]) -> Ended {
    let drawing = |rng: &mut _, length, amount| {
        let mut sample = by_rand(rng, length, amount);
        let last = sample.words.last_mut();
        if let Some(last) = last.filter(|last| **last == call.budget) {
            *last += 1;
        }
        sample
    };
    call.end_by(&drawing, indices, scratch)
}

/// Fault [`SPENT_UNNEEDED`].
pub fn spent_unneeded(call: &Sampling, indices: &mut [u32], scratch: &mut [u32]) -> Ended {
    unneeded(call.end(indices, scratch), call.budget)
}

/// The end with fault [`SPENT_UNNEEDED`] of a call with this budget that ends so.
pub fn unneeded(ended: Ended, budget: u64) -> Ended {
    match (ended.number, ended.words, budget) {
        (0, 0, 0) => Ended::refused(BUDGET_EXHAUSTED, ended.state),
        _ => ended,
    }
}

/// The words of a sample's draws: those finished within the budget of a call that is spent, with the values of bounded draws.
fn finished(call: &Sampling) -> Sample {
    let mut rng = reference::from_state(call.from);
    let mut sample = by_rand(&mut rng, call.length as u32, call.amount as u32);
    let finished = sample.finished(call.budget);
    sample.words.truncate(finished);
    sample.values.truncate(finished);
    sample
}

/// Fault [`SPENT_UNADVANCED`].
pub fn spent_unadvanced(call: &Sampling, indices: &mut [u32], scratch: &mut [u32]) -> Ended {
    let mut ended = call.end(indices, scratch);
    if ended.number == BUDGET_EXHAUSTED {
        ended.state = advanced(call.from, finished(call).words());
    }
    ended
}

/// Fault [`FLOYD_SPENT_UNDONE`].
fn floyd_spent_undone(call: &Sampling, indices: &mut [u32], scratch: &mut [u32]) -> Ended {
    let ended = call.end(indices, scratch);
    let is_floyd = || due(call.length as u32, call.amount as u32) == Method::Floyd;
    if ended.number == BUDGET_EXHAUSTED && is_floyd() {
        let values = finished(call).values;
        if let Some((&t, earlier)) = values.split_last() {
            let j = (call.length - call.amount) as u32 + earlier.len() as u32;
            let replaced = indices[..earlier.len()].iter_mut();
            // j is above all values before it, so that only a replacement can have put it there.
            replaced
                .filter(|index| **index == j)
                .for_each(|index| *index = t);
        }
    }
    ended
}

/// Fault [`IN_PLACE_SPENT_COPIED`].
fn in_place_spent_copied(call: &Sampling, indices: &mut [u32], scratch: &mut [u32]) -> Ended {
    let ended = call.end(indices, scratch);
    let is_in_place = || due(call.length as u32, call.amount as u32) == Method::InPlace;
    if ended.number == BUDGET_EXHAUSTED && is_in_place() {
        let amount = call.amount as usize;
        indices[..amount].copy_from_slice(&scratch[..amount]);
    }
    ended
}

/// Fault [`REFUSAL_ORDER`].
fn refusal_order(call: &Sampling, indices: &mut [u32], scratch: &mut [u32]) -> Ended {
    let ended = call.end(indices, scratch);
    let is_short = (call.scratch_len as u64) < call.length;
    if ended.number == 8
        && is_short
        && due(call.length as u32, call.amount as u32) == Method::InPlace
    {
        return call.refused(9);
    }
    ended
}
