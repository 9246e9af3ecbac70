//! The port's views.

use gapyndura::Xoshiro256PlusPlus;
use gapyndura::index::SampleError;
use gapyndura::slice::{IndexedSamples, sample};
use reference::State;
use reference::sampling::{Ended, Sampling};
use reference::viewing::Walk;

/// How the port ends a view, and what is then in the slices that were lent.
pub fn view(
    call: &Sampling,
    items: &[u32],
    indices: &mut [u32],
    scratch: &mut [u32],
) -> (Ended, Walk) {
    view_by(call, items, indices, scratch, |view| Walk::of(view))
}

/// The same with another way to run through the view.
pub fn view_by(
    call: &Sampling,
    items: &[u32],
    indices: &mut [u32],
    scratch: &mut [u32],
    walk: impl FnOnce(IndexedSamples<'_, '_, u32>) -> Walk,
) -> (Ended, Walk) {
    let mut rng = Xoshiro256PlusPlus::from_state(call.from);
    let result = sample(&mut rng, items, call.amount, call.budget, indices, scratch);
    let state = rng.state();
    match result {
        Ok(viewed) => {
            let ended = Ended {
                number: 0,
                count: viewed.view.indices.len() as u64,
                words: viewed.words,
                state,
            };
            (ended, walk(viewed.view))
        }
        Err(error) => (refused(error, state), Walk::default()),
    }
}

/// A draw that was refused, with what was found before that was seen.
fn refused(error: SampleError, state: State) -> Ended {
    Ended {
        number: error.refusal.number().into(),
        count: error.so_far.count as u64,
        words: error.so_far.words,
        state,
    }
}
