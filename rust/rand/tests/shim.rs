//! The calls that were written anew: which of rand's draws they lead to, and what they refuse.

use rand::distr::uniform::{SampleUniform, UniformSampler};
use rand::rngs::{SmallRng, Xoshiro256PlusPlus};
use rand::{Rng, RngExt, SeedableRng};

#[test]
fn u32_is_a_word_and_u64_an_output() {
    let mut rng = Xoshiro256PlusPlus::seed_from_u64(1);
    let mut same = rng.clone();
    assert_eq!(rng.random::<u32>(), same.next_u32());
    assert_eq!(rng.random::<u64>(), same.next_u64());
    assert_eq!(rng, same);
}

#[test]
fn random_range_is_the_single_sample() {
    let mut rng = SmallRng::seed_from_u64(1);
    let mut same = rng.clone();
    for r in [1, 6, u32::MAX] {
        let single = <u32 as SampleUniform>::Sampler::sample_single(0, r, &mut same);
        assert_eq!(Ok(rng.random_range(..r)), single);
        let single = <u32 as SampleUniform>::Sampler::sample_single_inclusive(0, r, &mut same);
        assert_eq!(Ok(rng.random_range(0..=r)), single);
    }
    assert_eq!(rng, same);
}

#[test]
#[should_panic(expected = "empty range")]
fn random_range_panics_on_an_empty_range() {
    Xoshiro256PlusPlus::seed_from_u64(1).random_range(..0_u32);
}
