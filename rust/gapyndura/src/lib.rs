//! Samples, shuffles, reservoirs, choices and weights of crate rand 0.10.3, proved equal to their definitions.
//!
//! The calls are proved in Rattle and linked as a static library for x86-64 Linux. This crate is the safe side of that
//! boundary and nothing else: each function lends its arguments to one function of `include/gapyndura.h`. It uses no
//! allocator and no `std`: the caller lends every slice.
//!
//! Two things have no function there, are written here and are not proved: a view, [`IndexedSamples`], with the clip of its amount
//! and its steps, and the split of a shuffled slice into its two parts.
//!
//! `docs/SCOPE.md` in the repository says by number all that the calls promise. SCOPE 7 on these pages is its section 7.
//!
//! ```
//! use gapyndura::{Refusal, WeightedIndex, Xoshiro256PlusPlus};
//!
//! fn main() -> Result<(), Refusal> {
//!     let mut rng = Xoshiro256PlusPlus::seed_from_u64(1);
//!     let mut sums = [0; 2];
//!     let mut table = WeightedIndex::new(&[2, 0, 3], &mut sums)?;
//!     table.update_weights(&mut sums, &[1], &[4])?;
//!     let picked = table.sample(&mut rng, &sums, 1000)?;
//!     println!("item {}, {} words read", picked.index, picked.words);
//!     Ok(())
//! }
//! ```
//!
//! The calls are in modules named as rand's; every type is also at the root.
//!
//! # The calls
//!
//! Each draws what rand, built with its feature `unbiased`, draws from the same state, word for word.
//!
//! | Call | In rand | Reads at most | SCOPE |
//! |---|---|---|---|
//! | [`Xoshiro256PlusPlus::from_seed`], [`seed_from_u64`](Xoshiro256PlusPlus::seed_from_u64) | `SeedableRng` for `Xoshiro256PlusPlus`, and for `SmallRng` on a 64-bit target | no word | 4 |
//! | [`Xoshiro256PlusPlus::next_u32`] | `Rng::next_u32` | one word | 15 |
//! | [`index::sample`] | `seq::index::sample` | `budget` words | 7 |
//! | [`index::sample_stratified`] | `seq::index::sample` of each part in turn, its start added to the indices | `budget` words | 8 |
//! | [`slice::partial_shuffle`] | `SliceRandom::partial_shuffle` | `budget` words | 9 |
//! | [`slice::shuffle`] | `SliceRandom::shuffle` | `budget` words | 9 |
//! | [`slice::sample`] | `IndexedRandom::sample` | `budget` words | 15 |
//! | [`iterator::sample_fill`] | `IteratorRandom::sample_fill` | `budget` words | 10 |
//! | [`iterator::choose`] | `IteratorRandom::choose` | `budget` words | 12 |
//! | [`iterator::choose_stable`] | `IteratorRandom::choose_stable` | `budget` words | 12 |
//! | [`WeightedIndex::new`] | `WeightedIndex::new` | no word | 13 |
//! | [`WeightedIndex::update_weights`] | `WeightedIndex::update_weights` | no word | 13 |
//! | [`WeightedIndex::weight`] | `WeightedIndex::weight` | no word | 13 |
//! | [`WeightedIndex::sample`] | `Distribution::sample` for `WeightedIndex` | `budget` words | 14 |
//!
//! # What is declined
//!
//! A call is declined only for a cause in [`Refusal`]; otherwise it draws (SCOPE 2 and 3). A call that is declined reads no word and
//! changes nothing, with one exception, [`BudgetExhausted`](Refusal::BudgetExhausted): then the whole budget is read, and each call
//! says what it leaves. So only the calls that take a budget have an error that says more than the cause: [`SampleError`],
//! [`ShuffleError`], [`FillError`], [`ChooseError`] and [`PickError`]. Each becomes a [`Refusal`] by `?`. If a call needs no word, a
//! budget of 0 is enough.
//!
//! # What of rand was left out
//!
//! | In rand | Call instead |
//! |---|---|
//! | `choose` and `choose_mut` of a slice | [`index::sample`] with amount 1 |
//! | `sample_array` | [`index::sample`]; the same for up to 11 indices |
//! | `choose_iter` of a slice (with replacement) | picks from a table of weights that are all 1 |
//! | `choose_weighted` and its like | [`weighted_index`]: the picked index is the item's place |
//! | `sample` of an iterator | [`iterator::sample_fill`] |
//! | shuffles and choices of items that are no `u32` | the call on places 0, 1 and so on, then the items at them |
//! | `WeightedIndex::weights`, `total_weight` | [`weight`](WeightedIndex::weight) at each place; the field `total_weight` |
//! | weights of 8 or 16 bits | the same as `u32` |
//! | weights of 64 or 128 bits, signed or float ones; `sample_weighted` | nothing |
//! | lengths above 2^32 - 1 | nothing |
//! | other generators, `Rng` as a trait, words of 64 bits, ranges by themselves | nothing |
//!
//! `docs/DIFFERENCES.md` in the repository has the whole list, and the intended differences from the Rust.

#![no_std]
#![warn(missing_docs)]

mod boundary;
pub mod index;
pub mod iterator;
mod refusal;
pub mod slice;
pub mod weighted_index;
mod xoshiro256plusplus;

pub use index::{SampleError, Sampled};
pub use iterator::{ChooseError, Chosen, FillError, Filled};
pub use refusal::Refusal;
pub use slice::{IndexedSamples, ShuffleError, Shuffled, Viewed};
pub use weighted_index::{PickError, Picked, WeightedIndex};
pub use xoshiro256plusplus::Xoshiro256PlusPlus;

/// The version, the same number as `GAPYNDURA_VERSION` of the header: 1 for the base, and one more with each request.
/// `CHANGELOG.md` in the repository says what a caller has to change.
pub const VERSION: u32 = 8;

#[cfg(test)]
mod tests {
    /// The front page's program, which is run as a test of the documentation, is the one that README shows.
    #[test]
    fn the_program_of_the_front_page_is_that_of_the_readme() {
        let run = include_str!("lib.rs")
            .lines()
            .skip_while(|line| *line != "//! ```")
            .skip(1)
            .take_while(|line| *line != "//! ```")
            .filter_map(|line| line.strip_prefix("//! "));
        let shown = include_str!("../../../README.md")
            .lines()
            .skip_while(|line| !line.starts_with("    use gapyndura::"))
            .take_while(|line| line.is_empty() || line.starts_with("    "))
            .filter_map(|line| line.strip_prefix("    "));
        assert!(run.clone().any(|line| line.starts_with("fn main()")));
        assert!(run.eq(shown));
    }
}
