//! The two ways to make a generator. What is compared is the state, all four words of it.

use gapyndura::Xoshiro256PlusPlus as Port;
use rand::SeedableRng;
use rand::rngs::Xoshiro256PlusPlus as Rand;
use reference::state;

use crate::inputs::{Source, edges, smaller};
use crate::kind::Kind;

/// Every seed below this is tried.
const SMALL: u64 = 1 << 16;

/// SplitMix64's step.
const PHI: u64 = 0x9e37_79b9_7f4a_7c15;

/// A generator from one number.
pub struct SeedFromU64 {
    /// Fault `seed-wrap`: the first sum's carry past 2^64 is added back in at the bottom.
    carries_round: bool,
}

impl Kind for SeedFromU64 {
    const NAME: &'static str = "seed_from_u64";
    const FAULTS: &'static [&'static str] = &["seed-wrap"];
    type Input = u64;
    type Answer = [u64; 4];

    fn new(plant: Option<&str>) -> Self {
        let carries_round = plant == Some("seed-wrap");
        Self { carries_round }
    }

    fn fixed(visit: impl FnMut(u64)) {
        (0..SMALL).chain(edges()).for_each(visit);
    }

    fn random(source: &mut Source) -> u64 {
        source.u64()
    }

    fn smaller(seed: &u64) -> Vec<u64> {
        smaller(*seed).collect()
    }

    fn rand(seed: &u64) -> [u64; 4] {
        state(&Rand::seed_from_u64(*seed))
    }

    fn port(&self, seed: &u64) -> [u64; 4] {
        let carry = self.carries_round && seed.checked_add(PHI).is_none();
        Port::seed_from_u64(seed.wrapping_add(carry.into())).state()
    }
}

/// A generator from 32 bytes.
pub struct FromSeed {
    /// Fault `zero-bytes`: all-zero bytes give the all-zero state, as other bytes give theirs.
    keeps_zero: bool,
}

impl Kind for FromSeed {
    const NAME: &'static str = "from_seed";
    const FAULTS: &'static [&'static str] = &["zero-bytes"];
    type Input = [u8; 32];
    type Answer = [u64; 4];

    fn new(plant: Option<&str>) -> Self {
        let keeps_zero = plant == Some("zero-bytes");
        Self { keeps_zero }
    }

    fn fixed(mut visit: impl FnMut([u8; 32])) {
        (0..=u8::MAX).for_each(|byte| visit([byte; 32]));
        for place in 0..32 {
            (1..=u8::MAX).for_each(|byte| visit(with_byte([0; 32], place, byte)));
        }
        for place in 0..4 {
            for word in edges() {
                let mut words = [0; 4];
                words[place] = word;
                visit(bytes(words));
            }
        }
        let few = [0, 1, 1 << 63, u64::MAX];
        for choice in 0..few.len().pow(4) {
            visit(bytes([0, 2, 4, 6].map(|shift| few[choice >> shift & 3])));
        }
    }

    fn random(source: &mut Source) -> [u8; 32] {
        bytes([(); 4].map(|()| source.u64()))
    }

    /// A lesser byte in one place: 0, then the half, then one less.
    fn smaller(seed: &[u8; 32]) -> Vec<[u8; 32]> {
        let places = 0..32;
        places
            .filter(|&place| seed[place] > 0)
            .flat_map(|place| {
                let byte = seed[place];
                [0, byte / 2, byte - 1].map(|less| with_byte(*seed, place, less))
            })
            .collect()
    }

    fn rand(seed: &[u8; 32]) -> [u64; 4] {
        state(&Rand::from_seed(*seed))
    }

    fn port(&self, seed: &[u8; 32]) -> [u64; 4] {
        if self.keeps_zero && *seed == [0; 32] {
            return [0; 4];
        }
        Port::from_seed(*seed).state()
    }
}

/// The seed with the byte at `place` replaced.
fn with_byte(mut seed: [u8; 32], place: usize, byte: u8) -> [u8; 32] {
    seed[place] = byte;
    seed
}

/// The 32 bytes of four words, the low byte of each first.
fn bytes(words: [u64; 4]) -> [u8; 32] {
    let mut bytes = [0; 32];
    for (place, word) in bytes.chunks_exact_mut(8).zip(words) {
        place.copy_from_slice(&word.to_le_bytes());
    }
    bytes
}
