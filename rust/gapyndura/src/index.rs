//! Samples of distinct indices, as in rand's module `index`, and samples of the parts of a whole.

use core::error::Error;
use core::fmt;

use crate::boundary::{gapyndura_sample, gapyndura_sample_stratified};
use crate::{Refusal, Xoshiro256PlusPlus};

/// What a sample took and gave.
#[derive(Clone, Copy, Debug, PartialEq, Eq, Hash)]
pub struct Sampled {
    /// How many indices stand at the front of the slice.
    pub count: usize,
    /// How many words were read from the generator.
    pub words: u64,
}

/// Why there is no sample, and what was done before the call was declined.
///
/// With every refusal but [`BudgetExhausted`](Refusal::BudgetExhausted) nothing was done: no word is read and no slice changed.
#[derive(Clone, Copy, Debug, PartialEq, Eq, Hash)]
pub struct SampleError {
    /// The cause.
    pub refusal: Refusal,
    /// The indices written so far and the words read for them.
    pub so_far: Sampled,
}

impl fmt::Display for SampleError {
    fn fmt(&self, f: &mut fmt::Formatter<'_>) -> fmt::Result {
        self.refusal.fmt(f)?;
        if self.refusal == Refusal::BudgetExhausted {
            let Sampled { count, words } = self.so_far;
            write!(f, ": {count} indices written in {words} words")?;
        }
        Ok(())
    }
}

impl Error for SampleError {}

impl From<SampleError> for Refusal {
    /// The cause alone.
    fn from(error: SampleError) -> Self {
        error.refusal
    }
}

/// Draws `amount` distinct indices below `length`, in random order, to the front of `indices` (SCOPE 7).
///
/// The indices, and the words read for them, are those of rand's `seq::index::sample`. No sample has more or less than its share
/// (SCOPE 16). Entries of `indices` past the amount never change. `budget` is the most words that the call may read.
///
/// rand's rule chooses one of three methods by length and amount (SCOPE 6):
///
/// - Floyd's, for amounts below 12, and for amounts below 163 if the length is large for the amount;
/// - the method in place, if the length is small for the amount. It needs `length` entries of `scratch` and leaves there
///   all indices below `length` as it has arranged them. Entries past the length never change;
/// - rejection, for amounts from 163 on if the length is large for the amount.
///
/// Only the method in place changes `scratch`. A call by rejection uses some 5 KiB of stack for amounts to 1,000, some 65 KiB to
/// 20,000 and some 641 KiB above; the others use less than 1 KiB.
///
/// ```
/// use gapyndura::Xoshiro256PlusPlus;
/// use gapyndura::index::sample;
///
/// let mut rng = Xoshiro256PlusPlus::seed_from_u64(1);
/// let mut indices = [0; 5];
/// let sampled = sample(&mut rng, 1_000_000, 5, u64::MAX, &mut indices, &mut [])?;
/// assert_eq!(sampled.count, 5);
/// assert_eq!(sampled.words, 5);
/// assert!(indices.iter().all(|&index| index < 1_000_000));
/// # Ok::<(), gapyndura::index::SampleError>(())
/// ```
///
/// # Errors
///
/// The first of these that applies:
///
/// - [`ZeroState`](Refusal::ZeroState);
/// - [`TooLong`](Refusal::TooLong), if `length` is above 2^32 - 1;
/// - [`AmountExceedsLength`](Refusal::AmountExceedsLength);
/// - [`SliceTooShort`](Refusal::SliceTooShort), if `indices` has fewer entries than the amount;
/// - [`ScratchTooShort`](Refusal::ScratchTooShort), if the method in place is due and `scratch` is shorter than the length;
/// - [`BudgetExhausted`](Refusal::BudgetExhausted), if `budget` words are read and one more is needed.
///
/// With the last of them exactly `budget` words are read, and what was done by then stays:
///
/// - Floyd's method leaves one index for each finished draw. A later draw could still have replaced one of them: they are not the front
///   of the sample that more words would give;
/// - the method in place leaves `indices` unchanged, with a count of 0, and `scratch` as the finished exchanges have arranged it;
/// - rejection leaves the indices found, in order: the front of the sample that more words would give.
///
/// With the others no word is read and no slice changed.
///
/// ```
/// use gapyndura::{Refusal, Xoshiro256PlusPlus};
/// use gapyndura::index::sample;
///
/// let mut rng = Xoshiro256PlusPlus::seed_from_u64(1);
/// let mut indices = [0; 200];
/// let error = sample(&mut rng, 1_000_000, 200, 7, &mut indices, &mut []).unwrap_err();
/// assert_eq!(error.refusal, Refusal::BudgetExhausted);
/// assert_eq!(error.so_far.words, 7);
/// assert_eq!(error.so_far.count, 7);
/// assert_eq!(indices[7..], [0; 193]);
///
/// // In place: three exchanges are done, and no index is written.
/// let (mut indices, mut scratch) = ([9; 20], [0; 20]);
/// let error = sample(&mut rng, 20, 20, 3, &mut indices, &mut scratch).unwrap_err();
/// assert_eq!((error.refusal, error.so_far.count), (Refusal::BudgetExhausted, 0));
/// assert_eq!(indices, [9; 20]);
/// scratch.sort_unstable();
/// assert!(scratch.into_iter().eq(0..20));
///
/// let error = sample(&mut rng, 20, 20, 0, &mut indices, &mut [0; 19]).unwrap_err();
/// assert_eq!(error.refusal, Refusal::ScratchTooShort);
/// ```
#[inline]
pub fn sample(
    rng: &mut Xoshiro256PlusPlus,
    length: u64,
    amount: u64,
    budget: u64,
    indices: &mut [u32],
    scratch: &mut [u32],
) -> Result<Sampled, SampleError> {
    let mut out = [0; 2];
    // SAFETY: the pointer of a slice is not null, not even if the slice is empty, is aligned, and is good for the slice's
    // length. All that is written is borrowed for that, hence overlaps nothing.
    let number = unsafe {
        gapyndura_sample(
            rng.state_mut(),
            length,
            amount,
            budget,
            indices.as_mut_ptr(),
            indices.len(),
            scratch.as_mut_ptr(),
            scratch.len(),
            &mut out,
        )
    };
    ended(number, out)
}

/// The result of a sample, from what a function of the header has answered.
#[inline]
fn ended(number: u32, out: [u64; 2]) -> Result<Sampled, SampleError> {
    let [words, count] = out;
    let sampled = Sampled {
        // No more than the slice has entries.
        count: count as usize,
        words,
    };
    if number == 0 {
        return Ok(sampled);
    }
    Err(SampleError {
        refusal: Refusal::from_number(number),
        so_far: sampled,
    })
}

/// Draws a stratified sample: from each part of a whole as many distinct indices as are wanted of it (SCOPE 8). The samples of the parts
/// stand one behind the other at the front of `indices`.
///
/// Part i has `lengths[i]` indices. They begin at its start, the sum of the lengths before it. `amounts[i]` of them are wanted. `budget`
/// is the most words that the call may read, for all parts together.
///
/// Each part in turn is drawn by [`sample`] with its own length and amount, and so by the method that these choose, from the generator
/// that the part before has left and with what is left of the budget. Then the part's start is added to its indices. So indices and words
/// are those of rand's `seq::index::sample` in a loop over the parts. A part with amount 0 reads no word, but its length counts for the
/// starts behind it. There may be no parts: then no word is read.
///
/// All parts use the same `scratch`, and no start is added there: each part drawn in place leaves what its sample leaves, over what the
/// parts before have left. Entries of `indices` past the sum of the amounts never change.
///
/// ```
/// use gapyndura::Xoshiro256PlusPlus;
/// use gapyndura::index::sample_stratified;
///
/// let mut rng = Xoshiro256PlusPlus::seed_from_u64(1);
/// let mut indices = [0; 6];
/// // Two of the indices from 0 to 99, none of the fifty behind them, and four of the ten from 150 to 159.
/// let sampled = sample_stratified(&mut rng, &[100, 50, 10], &[2, 0, 4], 1000, &mut indices, &mut [])?;
/// assert_eq!((sampled.count, sampled.words), (6, 6));
/// assert!(indices[..2].iter().all(|index| (0..100).contains(index)));
/// assert!(indices[2..].iter().all(|index| (150..160).contains(index)));
/// # Ok::<(), gapyndura::index::SampleError>(())
/// ```
///
/// # Errors
///
/// The first of these that applies to any part:
///
/// - [`ZeroState`](Refusal::ZeroState);
/// - [`PartsMismatch`](Refusal::PartsMismatch), if the lists differ in count, or the lengths add up to more than 2^32 - 1;
/// - [`AmountExceedsLength`](Refusal::AmountExceedsLength), if an amount is above its length;
/// - [`SliceTooShort`](Refusal::SliceTooShort), if `indices` has fewer entries than the sum of the amounts;
/// - [`ScratchTooShort`](Refusal::ScratchTooShort), if the method in place is due for a part that is longer than `scratch`;
/// - [`BudgetExhausted`](Refusal::BudgetExhausted), if `budget` words are read and one more is needed.
///
/// With the last of them exactly `budget` words are read. `indices` then has the samples of all finished parts, and behind them what
/// [`sample`] leaves of the part that is not finished, its start added. The count takes in both.
///
/// The others are settled for all parts before the first word: no word is read and no slice changed.
///
/// ```
/// use gapyndura::{Refusal, Xoshiro256PlusPlus};
/// use gapyndura::index::sample_stratified;
///
/// let mut rng = Xoshiro256PlusPlus::seed_from_u64(1);
/// let mut indices = [9; 6];
/// let error = sample_stratified(&mut rng, &[100, 10], &[2, 4], 3, &mut indices, &mut []).unwrap_err();
/// assert_eq!((error.refusal, error.so_far.words), (Refusal::BudgetExhausted, 3));
/// // The two of the first part, and one of the second.
/// assert_eq!(error.so_far.count, 3);
/// assert!((100..110).contains(&indices[2]));
/// assert_eq!(indices[3..], [9; 3]);
///
/// let error = sample_stratified(&mut rng, &[100, 10], &[2], 3, &mut indices, &mut []).unwrap_err();
/// assert_eq!((error.refusal, error.so_far.words), (Refusal::PartsMismatch, 0));
/// ```
#[inline]
pub fn sample_stratified(
    rng: &mut Xoshiro256PlusPlus,
    lengths: &[u64],
    amounts: &[u64],
    budget: u64,
    indices: &mut [u32],
    scratch: &mut [u32],
) -> Result<Sampled, SampleError> {
    let mut out = [0; 2];
    // SAFETY: as in `sample`; the two lists are only read.
    let number = unsafe {
        gapyndura_sample_stratified(
            rng.state_mut(),
            lengths.as_ptr(),
            lengths.len(),
            amounts.as_ptr(),
            amounts.len(),
            budget,
            indices.as_mut_ptr(),
            indices.len(),
            scratch.as_mut_ptr(),
            scratch.len(),
            &mut out,
        )
    };
    ended(number, out)
}

#[cfg(test)]
mod tests {
    extern crate std;

    use std::thread;
    use std::vec;

    use super::sample;
    use crate::Xoshiro256PlusPlus;

    const LENGTH: u64 = u32::MAX as u64;

    /// Each amount is drawn in a stack, in KiB, that holds the frame of its range and none of a larger one: if these were one frame, the
    /// process would die.
    #[test]
    fn an_amount_has_the_stack_of_its_range() {
        for (amount, stack) in [(162, 48), (1000, 48), (20_000, 128), (100_000, 768)] {
            let draw = move || {
                let mut rng = Xoshiro256PlusPlus::seed_from_u64(amount);
                let mut indices = vec![0; amount as usize];
                sample(&mut rng, LENGTH, amount, u64::MAX, &mut indices, &mut []).map(|s| s.count)
            };
            let thread = thread::Builder::new().stack_size(stack << 10).spawn(draw);
            let count = thread.expect("a thread starts").join();
            assert_eq!(count.expect("the stack suffices"), Ok(amount as usize));
        }
    }
}
