//! Generators: their seeding, and one word of one that is lent.

use gapyndura::Xoshiro256PlusPlus as Port;
use rand::rngs::Xoshiro256PlusPlus as Rand;
use rand::{Rng, SeedableRng};

use crate::sides::{Case, Generator, Sides, answer, ours, theirs};

pub fn cases() -> Vec<Case> {
    vec![
        Case::new("`from_seed`", "32 bytes", from_seed),
        Case::new("`seed_from_u64`", "one number", seed_from_u64),
        Case::new("`next_u32`", "one word", next_u32),
    ]
}

fn from_seed() -> Sides {
    let seed = [7; 32];
    Sides::new(
        theirs(
            seed,
            |_, seed| Rand::from_seed(*seed),
            |_, rng| Generator::state(&rng),
        ),
        ours(seed, |_, seed| Port::from_seed(*seed), |_, rng| rng.state()),
    )
}

fn seed_from_u64() -> Sides {
    Sides::new(
        theirs(
            7,
            |_, seed| Rand::seed_from_u64(*seed),
            |_, rng| Generator::state(&rng),
        ),
        ours(
            7,
            |_, seed| Port::seed_from_u64(*seed),
            |_, rng| rng.state(),
        ),
    )
}

fn next_u32() -> Sides {
    Sides::new(
        theirs((), |rng, ()| rng.next_u32(), answer),
        ours(
            (),
            |rng, ()| rng.next_u32().expect("the generator is none of zeros"),
            answer,
        ),
    )
}
