//! What the files of crate rand import from crate `rand_core`, written anew, and no more than that.
//!
//! The generator that is compared never fails, so all that matters here is which word a call reads.

#![no_std]

use core::convert::Infallible;

pub mod utils;

/// A generator whose calls may fail.
pub trait TryRng {
    /// Why a call fails.
    type Error: core::error::Error;

    /// The next 32-bit word.
    fn try_next_u32(&mut self) -> Result<u32, Self::Error>;

    /// The next 64-bit output.
    fn try_next_u64(&mut self) -> Result<u64, Self::Error>;

    /// Fills `dst` with bytes of outputs.
    fn try_fill_bytes(&mut self, dst: &mut [u8]) -> Result<(), Self::Error>;
}

/// A generator lent by reference is a generator: rand hands `&mut R` on to the types that draw for it.
impl<R: TryRng + ?Sized> TryRng for &mut R {
    type Error = R::Error;

    #[inline]
    fn try_next_u32(&mut self) -> Result<u32, Self::Error> {
        (**self).try_next_u32()
    }

    #[inline]
    fn try_next_u64(&mut self) -> Result<u64, Self::Error> {
        (**self).try_next_u64()
    }

    #[inline]
    fn try_fill_bytes(&mut self, dst: &mut [u8]) -> Result<(), Self::Error> {
        (**self).try_fill_bytes(dst)
    }
}

/// A generator that never fails.
pub trait Rng: TryRng<Error = Infallible> {
    /// The next 32-bit word.
    fn next_u32(&mut self) -> u32;

    /// The next 64-bit output.
    fn next_u64(&mut self) -> u64;
}

impl<R: TryRng<Error = Infallible> + ?Sized> Rng for R {
    #[inline]
    fn next_u32(&mut self) -> u32 {
        let Ok(word) = self.try_next_u32();
        word
    }

    #[inline]
    fn next_u64(&mut self) -> u64 {
        let Ok(output) = self.try_next_u64();
        output
    }
}

/// A generator that is made from a seed.
pub trait SeedableRng: Sized {
    /// The bytes of a seed.
    type Seed;

    /// The generator of a seed's bytes.
    fn from_seed(seed: Self::Seed) -> Self;

    /// The generator of a seed in one number.
    fn seed_from_u64(state: u64) -> Self;
}
