//! The port's calls of `sample`.

use gapyndura::Xoshiro256PlusPlus;
use gapyndura::index::{SampleError, Sampled, sample};
use reference::sampling::{Ended, Sampling};

/// How the port ends a call, and what is then in the slices that were lent.
pub fn end(call: &Sampling, indices: &mut [u32], scratch: &mut [u32]) -> Ended {
    let mut rng = Xoshiro256PlusPlus::from_state(call.from);
    let result = sample(
        &mut rng,
        call.length,
        call.amount,
        call.budget,
        indices,
        scratch,
    );
    ended(result, &rng)
}

/// How a sample ends that gives this and leaves this generator.
pub fn ended(result: Result<Sampled, SampleError>, rng: &Xoshiro256PlusPlus) -> Ended {
    let (number, sampled) = match result {
        Ok(sampled) => (0, sampled),
        Err(error) => (error.refusal.number(), error.so_far),
    };
    Ended {
        number: number.into(),
        count: sampled.count as u64,
        words: sampled.words,
        state: rng.state(),
    }
}
