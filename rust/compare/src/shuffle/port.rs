//! The port's calls of `partial_shuffle` and `shuffle`.

use gapyndura::Xoshiro256PlusPlus;
use gapyndura::slice::{self, ShuffleError, Shuffled};
use reference::State;
use reference::sampling::Ended;
use reference::shuffling::{Outcome, Parts, Shuffling, Whole};

/// How the port ends a partial shuffle.
pub fn partial_shuffle(call: &Shuffling, items: &mut [u32]) -> Outcome {
    ended(call.from, items, |rng, items| {
        slice::partial_shuffle(rng, items, call.amount, call.budget)
    })
}

/// How the port ends a shuffle.
pub fn shuffle(call: &Whole, items: &mut [u32]) -> Outcome {
    ended(call.from, items, |rng, items| {
        slice::shuffle(rng, items, call.budget)
    })
}

/// How a call on the items ends.
fn ended(
    from: State,
    items: &mut [u32],
    call: impl for<'a> FnOnce(
        &mut Xoshiro256PlusPlus,
        &'a mut [u32],
    ) -> Result<Shuffled<'a>, ShuffleError>,
) -> Outcome {
    let mut rng = Xoshiro256PlusPlus::from_state(from);
    let start = items.as_ptr();
    let result = call(&mut rng, items);
    let state = rng.state();
    match result {
        Ok(shuffled) => {
            let ended = Ended {
                number: 0,
                count: shuffled.n as u64,
                words: shuffled.words,
                state,
            };
            let parts = Parts::of(start, shuffled.tail, shuffled.head);
            (ended, Some(parts))
        }
        Err(error) => {
            let ended = Ended {
                words: error.words,
                ..Ended::refused(error.refusal.number().into(), state)
            };
            (ended, None)
        }
    }
}
