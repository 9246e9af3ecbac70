//! Samples and choices of items that are read once, in their order, as in rand's module `iterator`.
//!
//! A choice is given the items, and two hints for every place before, between and behind them: at least and at most so many items
//! remain there. In rand the hints are what `Iterator::size_hint` says. So N items have N + 1 hints of each kind: `lower[p]` and
//! `upper[p]` are bounds on N - p. An upper hint of 2^32 - 1 means that there is none, as `None` in rand.

use core::error::Error;
use core::fmt;

use crate::boundary::{self, gapyndura_choose, gapyndura_choose_stable, gapyndura_sample_fill};
use crate::{Refusal, Xoshiro256PlusPlus};

/// What a fill took and gave.
#[derive(Clone, Copy, Debug, PartialEq, Eq, Hash)]
pub struct Filled {
    /// How many items stand at the front of the buffer.
    pub count: usize,
    /// How many words were read from the generator.
    pub words: u64,
}

/// Why a buffer is not filled, and the words read before the call was declined.
#[derive(Clone, Copy, Debug, PartialEq, Eq, Hash)]
pub struct FillError {
    /// The cause.
    pub refusal: Refusal,
    /// The words read: the budget with [`BudgetExhausted`](Refusal::BudgetExhausted), else none.
    pub words: u64,
}

impl fmt::Display for FillError {
    fn fmt(&self, f: &mut fmt::Formatter<'_>) -> fmt::Result {
        self.refusal.fmt(f)?;
        if self.refusal == Refusal::BudgetExhausted {
            write!(f, ": not all items are read in {} words", self.words)?;
        }
        Ok(())
    }
}

impl Error for FillError {}

impl From<FillError> for Refusal {
    /// The cause alone.
    fn from(error: FillError) -> Self {
        error.refusal
    }
}

/// Fills `buf` with a sample of as many items as it has entries, or with all items if they are fewer (SCOPE 10).
///
/// The items, and the words read for them, are those of rand's `IteratorRandom::sample_fill`. No set of items has more or less than its
/// share (SCOPE 16). The order in the buffer is neither that of the items nor random. Entries past the count never change. A draw is made
/// for each item past the buffer's length, also if the buffer is empty. `budget` is the most words that the call may read.
///
/// ```
/// use gapyndura::Xoshiro256PlusPlus;
/// use gapyndura::iterator::sample_fill;
///
/// let mut rng = Xoshiro256PlusPlus::seed_from_u64(1);
/// let items = [10, 20, 30, 40, 50];
/// let mut buf = [0; 2];
/// let filled = sample_fill(&mut rng, &items, &mut buf, u64::MAX)?;
/// assert_eq!((filled.count, filled.words), (2, 3));
/// assert!(buf.iter().all(|item| items.contains(item)));
///
/// let mut buf = [0; 7];
/// let filled = sample_fill(&mut rng, &items, &mut buf, 0)?;
/// assert_eq!((filled.count, filled.words), (5, 0));
/// assert_eq!(buf, [10, 20, 30, 40, 50, 0, 0]);
/// # Ok::<(), gapyndura::iterator::FillError>(())
/// ```
///
/// # Errors
///
/// The first of these that applies:
///
/// - [`ZeroState`](Refusal::ZeroState);
/// - [`TooLong`](Refusal::TooLong), if there are more than 2^32 - 2 items; the buffer may have any length;
/// - [`BudgetExhausted`](Refusal::BudgetExhausted), if `budget` words are read and one more is needed.
///
/// With the last of them exactly `budget` words are read, and the buffer has the first items, but for those that the draws before the
/// unfinished one have replaced by later items. With the others no word is read and the buffer is unchanged.
///
/// ```
/// use gapyndura::{Refusal, Xoshiro256PlusPlus};
/// use gapyndura::iterator::sample_fill;
///
/// let mut rng = Xoshiro256PlusPlus::from_state([0; 4]);
/// let mut buf = [9];
/// let error = sample_fill(&mut rng, &[1, 2, 3], &mut buf, 9).unwrap_err();
/// assert_eq!((error.refusal, error.words), (Refusal::ZeroState, 0));
/// assert_eq!(buf, [9]);
///
/// let mut rng = Xoshiro256PlusPlus::seed_from_u64(1);
/// let error = sample_fill(&mut rng, &[1, 2, 3], &mut buf, 0).unwrap_err();
/// assert_eq!((error.refusal, error.words), (Refusal::BudgetExhausted, 0));
/// assert_eq!(buf, [1]);
/// ```
#[inline]
pub fn sample_fill(
    rng: &mut Xoshiro256PlusPlus,
    items: &[u32],
    buf: &mut [u32],
    budget: u64,
) -> Result<Filled, FillError> {
    let mut out = [0; 2];
    // SAFETY: the pointer of a slice is not null, not even if the slice is empty, is aligned, and is good for the slice's
    // length. All that is written is borrowed for that, hence overlaps nothing.
    let number = unsafe {
        gapyndura_sample_fill(
            rng.state_mut(),
            items.as_ptr(),
            items.len(),
            buf.as_mut_ptr(),
            buf.len(),
            budget,
            &mut out,
        )
    };
    let [words, count] = out;
    if number != 0 {
        return Err(FillError {
            refusal: Refusal::from_number(number),
            words,
        });
    }
    Ok(Filled {
        // No more than the slice has entries.
        count: count as usize,
        words,
    })
}

/// What a choice took and gave.
#[derive(Clone, Copy, Debug, PartialEq, Eq, Hash)]
pub struct Chosen {
    /// The item. It is `None` exactly if there are no items.
    pub item: Option<u32>,
    /// How many words were read from the generator.
    pub words: u64,
}

/// Why nothing is chosen, and the words read before the call was declined.
#[derive(Clone, Copy, Debug, PartialEq, Eq, Hash)]
pub struct ChooseError {
    /// The cause.
    pub refusal: Refusal,
    /// The words read: the budget with [`BudgetExhausted`](Refusal::BudgetExhausted), else none.
    pub words: u64,
}

impl fmt::Display for ChooseError {
    fn fmt(&self, f: &mut fmt::Formatter<'_>) -> fmt::Result {
        self.refusal.fmt(f)?;
        if self.refusal == Refusal::BudgetExhausted {
            write!(f, ": nothing chosen in {} words", self.words)?;
        }
        Ok(())
    }
}

impl Error for ChooseError {}

impl From<ChooseError> for Refusal {
    /// The cause alone.
    fn from(error: ChooseError) -> Self {
        error.refusal
    }
}

/// Chooses one of the items (SCOPE 12).
///
/// The item, and the words read for it, are those of rand's `IteratorRandom::choose` on an iterator with these hints. The
/// better the hints, the fewer words: items that are known to remain are drawn from at once, the others one by one. So the
/// item depends on the hints; with [`choose_stable`] it does not. The call looks at every hint, whatever it draws. `budget` is
/// the most words that it may read.
///
/// ```
/// use gapyndura::Xoshiro256PlusPlus;
/// use gapyndura::iterator::choose;
///
/// let mut rng = Xoshiro256PlusPlus::seed_from_u64(1);
/// let items = [10, 20, 30];
/// // Exact hints: one draw.
/// let exact = [3, 2, 1, 0];
/// let chosen = choose(&mut rng, &items, &exact, &exact, u64::MAX)?;
/// assert!(items.map(Some).contains(&chosen.item));
/// assert_eq!(chosen.words, 1);
///
/// // No hints, and no items.
/// let chosen = choose(&mut rng, &[], &[0], &[u32::MAX], u64::MAX)?;
/// assert_eq!((chosen.item, chosen.words), (None, 0));
/// # Ok::<(), gapyndura::iterator::ChooseError>(())
/// ```
///
/// # Errors
///
/// The first of these that applies:
///
/// - [`ZeroState`](Refusal::ZeroState);
/// - [`TooLong`](Refusal::TooLong), if there are more than 2^32 - 2 items;
/// - [`InvalidHints`](Refusal::InvalidHints), if `lower` or `upper` has not exactly one entry more than there are items, or a hint
///   is false;
/// - [`BudgetExhausted`](Refusal::BudgetExhausted), if `budget` words are read and one more is needed.
///
/// With the last of them the generator is advanced by exactly `budget` words. With the others no word is read and the generator stays.
///
/// ```
/// use gapyndura::{Refusal, Xoshiro256PlusPlus};
/// use gapyndura::iterator::choose;
///
/// let mut rng = Xoshiro256PlusPlus::seed_from_u64(1);
/// let (items, none) = ([10, 20], [u32::MAX; 3]);
/// let mut refusal = |lower: &[u32], upper: &[u32], budget| {
///     choose(&mut rng, &items, lower, upper, budget).map_err(|error| (error.refusal, error.words))
/// };
/// assert_eq!(refusal(&[0, 2, 0], &none, 9), Err((Refusal::InvalidHints, 0)));
/// assert_eq!(refusal(&[0, 0], &none, 9), Err((Refusal::InvalidHints, 0)));
/// assert_eq!(refusal(&[2, 1, 0], &[1, 1, 0], 9), Err((Refusal::InvalidHints, 0)));
/// assert_eq!(refusal(&[2, 1, 0], &none, 0), Err((Refusal::BudgetExhausted, 0)));
/// ```
#[inline]
pub fn choose(
    rng: &mut Xoshiro256PlusPlus,
    items: &[u32],
    lower: &[u32],
    upper: &[u32],
    budget: u64,
) -> Result<Chosen, ChooseError> {
    choose_by(gapyndura_choose, rng, items, lower, upper, budget)
}

/// Chooses one of the items, and the same one whatever the hints are (SCOPE 12).
///
/// The item, and the words read for it, are those of rand's `IteratorRandom::choose_stable`: coins decide for each item in
/// turn whether it takes the place of the one chosen so far. Hints must not be false, but nothing else depends on them: with the same
/// items, generator and budget, any two pairs of `lower` and `upper` that are not false give the same answer, words and generator.
/// `budget` is the most words that the call may read.
///
/// ```
/// use gapyndura::Xoshiro256PlusPlus;
/// use gapyndura::iterator::choose_stable;
///
/// let start = Xoshiro256PlusPlus::seed_from_u64(1);
/// let items = [10, 20, 30];
/// let mut rng = start.clone();
/// let chosen = choose_stable(&mut rng, &items, &[0; 4], &[u32::MAX; 4], u64::MAX)?;
/// assert!(items.map(Some).contains(&chosen.item));
///
/// let mut again = start;
/// let exact = [3, 2, 1, 0];
/// assert_eq!(choose_stable(&mut again, &items, &exact, &exact, u64::MAX)?, chosen);
/// assert_eq!(again, rng);
/// # Ok::<(), gapyndura::iterator::ChooseError>(())
/// ```
///
/// # Errors
///
/// Those of [`choose`], in the same order.
///
/// ```
/// use gapyndura::{Refusal, Xoshiro256PlusPlus};
/// use gapyndura::iterator::choose_stable;
///
/// let mut rng = Xoshiro256PlusPlus::seed_from_u64(1);
/// // One item is chosen without a coin, two are not.
/// assert!(choose_stable(&mut rng, &[7], &[0; 2], &[u32::MAX; 2], 0).is_ok());
/// let error = choose_stable(&mut rng, &[7, 8], &[0; 3], &[u32::MAX; 3], 0).unwrap_err();
/// assert_eq!((error.refusal, error.words), (Refusal::BudgetExhausted, 0));
/// ```
#[inline]
pub fn choose_stable(
    rng: &mut Xoshiro256PlusPlus,
    items: &[u32],
    lower: &[u32],
    upper: &[u32],
    budget: u64,
) -> Result<Chosen, ChooseError> {
    choose_by(gapyndura_choose_stable, rng, items, lower, upper, budget)
}

/// Chooses by one of the header's functions.
fn choose_by(
    function: boundary::Choose,
    rng: &mut Xoshiro256PlusPlus,
    items: &[u32],
    lower: &[u32],
    upper: &[u32],
    budget: u64,
) -> Result<Chosen, ChooseError> {
    let mut out = [0; 3];
    // SAFETY: as in `sample_fill`: both functions ask for the same.
    let number = unsafe {
        function(
            rng.state_mut(),
            items.as_ptr(),
            items.len(),
            lower.as_ptr(),
            lower.len(),
            upper.as_ptr(),
            upper.len(),
            budget,
            &mut out,
        )
    };
    let [words, is_there, item] = out;
    if number == 0 {
        return Ok(Chosen {
            // An item has 32 bits.
            item: (is_there == 1).then_some(item as u32),
            words,
        });
    }
    Err(ChooseError {
        refusal: Refusal::from_number(number),
        words,
    })
}
