//! The port's calls of `sample_fill`.

use gapyndura::{Xoshiro256PlusPlus, iterator};
use reference::filling::Filling;
use reference::sampling::Ended;

/// How the port ends a fill, and what is then in the buffer.
pub fn sample_fill(call: &Filling, items: &[u32], buf: &mut [u32]) -> Ended {
    let mut rng = Xoshiro256PlusPlus::from_state(call.from);
    let result = iterator::sample_fill(&mut rng, items, buf, call.budget);
    let state = rng.state();
    match result {
        Ok(filled) => Ended {
            number: 0,
            count: filled.count as u64,
            words: filled.words,
            state,
        },
        Err(error) => Ended {
            words: error.words,
            ..Ended::refused(error.refusal.number().into(), state)
        },
    }
}
