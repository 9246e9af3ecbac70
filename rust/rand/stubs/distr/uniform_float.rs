//! Stands in for a file of rand that was not delivered.
//!
//! Sampling by float weights draws from a float range, so the type must be there for that to compile. Float weights are not
//! ported (SCOPE 1): nothing that is compared comes here, and a call that does would say so.

use super::{Error, SampleBorrow, SampleUniform, UniformSampler};
use crate::Rng;

/// A sampler of float ranges that cannot be made.
#[derive(Clone, Copy, Debug, PartialEq, Eq)]
pub enum UniformFloat<X> {
    #[doc(hidden)]
    Never(core::convert::Infallible, core::marker::PhantomData<X>),
}

impl SampleUniform for f64 {
    type Sampler = UniformFloat<f64>;
}

impl UniformSampler for UniformFloat<f64> {
    type X = f64;

    fn new<B1, B2>(_: B1, _: B2) -> Result<Self, Error>
    where
        B1: SampleBorrow<f64> + Sized,
        B2: SampleBorrow<f64> + Sized,
    {
        unimplemented!("rand's file uniform_float.rs was not delivered")
    }

    fn new_inclusive<B1, B2>(low: B1, high: B2) -> Result<Self, Error>
    where
        B1: SampleBorrow<f64> + Sized,
        B2: SampleBorrow<f64> + Sized,
    {
        Self::new(low, high)
    }

    fn sample<R: Rng + ?Sized>(&self, _: &mut R) -> f64 {
        match *self {
            UniformFloat::Never(never, _) => match never {},
        }
    }
}
