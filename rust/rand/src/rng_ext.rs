//! The calls that rand's files make on a generator.

use crate::Rng;
use crate::distr::uniform::{SampleRange, SampleUniform};
use crate::distr::{Distribution, Iter, StandardUniform};

/// The calls on a generator that rand's files use beyond its words. Every [`Rng`] has them.
pub trait RngExt: Rng {
    /// A value over the whole of its type.
    #[inline]
    fn random<T>(&mut self) -> T
    where
        StandardUniform: Distribution<T>,
    {
        StandardUniform.sample(self)
    }

    /// A value within `range`, by the range's own way of making a single sample: for integers the bounded draw,
    /// `sample_single` or `sample_single_inclusive`.
    ///
    /// # Panics
    ///
    /// If the range is empty.
    #[inline]
    #[track_caller]
    fn random_range<T: SampleUniform, S: SampleRange<T>>(&mut self, range: S) -> T {
        assert!(!range.is_empty(), "no value lies in an empty range");
        range
            .sample_single(self)
            .expect("a range that is not empty has a sample")
    }

    /// A value of the distribution.
    #[inline]
    fn sample<T, D: Distribution<T>>(&mut self, distr: D) -> T {
        distr.sample(self)
    }

    /// Values of the distribution without end.
    fn sample_iter<T, D: Distribution<T>>(self, distr: D) -> Iter<D, Self, T>
    where
        Self: Sized,
    {
        distr.sample_iter(self)
    }
}

impl<R: Rng + ?Sized> RngExt for R {}
