//! Stands in for a file of rand that was not delivered: integers over the whole of their type.
//!
//! Only `u32` (one word) and `u64` (one output) are compared. rand's integer ranges are written for every width, so the
//! other types must be there for them to compile.

use super::{Distribution, StandardUniform};
use crate::Rng;

/// `StandardUniform` for a type: the method that reads, and the type.
macro_rules! whole {
    ($read:ident: $($ty:ty),+) => {
        $(
            impl Distribution<$ty> for StandardUniform {
                #[inline]
                fn sample<R: Rng + ?Sized>(&self, rng: &mut R) -> $ty {
                    rng.$read() as $ty
                }
            }
        )+
    };
}

whole!(next_u32: u8, u16, u32, i8, i16, i32);
whole!(next_u64: u64, i64);

impl Distribution<u128> for StandardUniform {
    fn sample<R: Rng + ?Sized>(&self, rng: &mut R) -> u128 {
        let low = u128::from(rng.next_u64());
        let high = u128::from(rng.next_u64());
        high << 64 | low
    }
}

impl Distribution<i128> for StandardUniform {
    fn sample<R: Rng + ?Sized>(&self, rng: &mut R) -> i128 {
        let whole: u128 = self.sample(rng);
        whole as i128
    }
}
