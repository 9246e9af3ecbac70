//! The port's calls of `sample_stratified`.

use gapyndura::Xoshiro256PlusPlus;
use gapyndura::index::sample_stratified;
use reference::sampling::Ended;
use reference::stratifying::Stratifying;

use crate::sample::port::ended;

/// How the port ends a call, and what is then in the slices that were lent.
pub fn end(call: &Stratifying, indices: &mut [u32], scratch: &mut [u32]) -> Ended {
    let mut rng = Xoshiro256PlusPlus::from_state(call.from);
    let result = sample_stratified(
        &mut rng,
        &call.lengths,
        &call.amounts,
        call.budget,
        indices,
        scratch,
    );
    ended(result, &rng)
}
