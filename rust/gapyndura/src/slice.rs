//! Shuffles of a slice, and a view of items drawn from one, as in rand's module `slice`.

use core::error::Error;
use core::fmt;
use core::iter::FusedIterator;

use crate::boundary::{gapyndura_partial_shuffle, gapyndura_shuffle};
use crate::index::{self, SampleError};
use crate::{Refusal, Xoshiro256PlusPlus};

/// A slice that was shuffled, in its two parts, and the words read for it.
#[derive(Debug, PartialEq, Eq, Hash)]
pub struct Shuffled<'a> {
    /// The items that were shuffled: the slice from `n` on.
    pub tail: &'a mut [u32],
    /// The other items, whose order is not shuffled: the slice before `n`.
    pub head: &'a mut [u32],
    /// Where the tail starts.
    pub n: usize,
    /// How many words were read from the generator.
    pub words: u64,
}

impl<'a> Shuffled<'a> {
    /// The parts of the items, from what a function of the header has written: the words, and where the tail starts.
    fn new(items: &'a mut [u32], out: [u64; 2]) -> Self {
        let [words, n] = out;
        // No more than the slice has entries.
        let n = n as usize;
        let (head, tail) = items.split_at_mut(n);
        Self {
            tail,
            head,
            n,
            words,
        }
    }
}

/// Why a slice is not shuffled, and the words read before the call was declined.
#[derive(Clone, Copy, Debug, PartialEq, Eq, Hash)]
pub struct ShuffleError {
    /// The cause.
    pub refusal: Refusal,
    /// The words read: the budget with [`BudgetExhausted`](Refusal::BudgetExhausted), else none.
    pub words: u64,
}

impl fmt::Display for ShuffleError {
    fn fmt(&self, f: &mut fmt::Formatter<'_>) -> fmt::Result {
        self.refusal.fmt(f)?;
        if self.refusal == Refusal::BudgetExhausted {
            write!(f, ": not all is shuffled in {} words", self.words)?;
        }
        Ok(())
    }
}

impl Error for ShuffleError {}

impl From<ShuffleError> for Refusal {
    /// The cause alone.
    fn from(error: ShuffleError) -> Self {
        error.refusal
    }
}

/// Shuffles `amount` of the items to the end of the slice, and lends the two parts: the tail that is shuffled, and the head (SCOPE 9).
///
/// The items, and the words read for them, are those of rand's `SliceRandom::partial_shuffle`. No tail has more or less than its share
/// (SCOPE 16). The tail starts at `n`, the length less the amount, or 0 if the amount is above the length. `budget` is the most words
/// that the call may read; one draw serves up to 12 items.
///
/// ```
/// use gapyndura::Xoshiro256PlusPlus;
/// use gapyndura::slice::partial_shuffle;
///
/// let mut rng = Xoshiro256PlusPlus::seed_from_u64(1);
/// let mut items = [10, 20, 30, 40, 50];
/// let shuffled = partial_shuffle(&mut rng, &mut items, 2, u64::MAX)?;
/// assert_eq!((shuffled.n, shuffled.words), (3, 1));
/// assert_eq!((shuffled.tail.len(), shuffled.head.len()), (2, 3));
/// shuffled.tail[0] = 60;
/// assert_eq!(items[3], 60);
/// # Ok::<(), gapyndura::slice::ShuffleError>(())
/// ```
///
/// # Errors
///
/// The first of these that applies:
///
/// - [`ZeroState`](Refusal::ZeroState);
/// - [`TooLong`](Refusal::TooLong), if there are more than 2^32 - 2 items;
/// - [`BudgetExhausted`](Refusal::BudgetExhausted), if `budget` words are read and one more is needed.
///
/// With the last of them exactly `budget` words are read, and all exchanges that come before the unfinished draw are done: the slice has
/// the same items in another order. With the others no word is read and the slice is unchanged.
///
/// ```
/// use gapyndura::{Refusal, Xoshiro256PlusPlus};
/// use gapyndura::slice::partial_shuffle;
///
/// let mut rng = Xoshiro256PlusPlus::from_state([0; 4]);
/// let mut items = [1, 2, 3];
/// let error = partial_shuffle(&mut rng, &mut items, 2, 9).unwrap_err();
/// assert_eq!((error.refusal, error.words), (Refusal::ZeroState, 0));
///
/// let mut rng = Xoshiro256PlusPlus::seed_from_u64(1);
/// let error = partial_shuffle(&mut rng, &mut items, 2, 0).unwrap_err();
/// assert_eq!((error.refusal, error.words), (Refusal::BudgetExhausted, 0));
/// assert_eq!(items, [1, 2, 3]);
/// ```
#[inline]
pub fn partial_shuffle<'a>(
    rng: &mut Xoshiro256PlusPlus,
    items: &'a mut [u32],
    amount: u64,
    budget: u64,
) -> Result<Shuffled<'a>, ShuffleError> {
    let mut out = [0; 2];
    // SAFETY: the pointer of a slice is not null, not even if the slice is empty, is aligned, and is good for the slice's
    // length. All that is written is borrowed for that, hence overlaps nothing.
    let number = unsafe {
        gapyndura_partial_shuffle(
            rng.state_mut(),
            items.as_mut_ptr(),
            items.len(),
            amount,
            budget,
            &mut out,
        )
    };
    ended(number, items, out)
}

/// The result of a shuffle of the items, from what a function of the header has answered.
fn ended(number: u32, items: &mut [u32], out: [u64; 2]) -> Result<Shuffled<'_>, ShuffleError> {
    if number == 0 {
        return Ok(Shuffled::new(items, out));
    }
    let [words, _] = out;
    Err(ShuffleError {
        refusal: Refusal::from_number(number),
        words,
    })
}

/// Shuffles the whole slice: the tail is all of it, the head is empty (SCOPE 9).
///
/// The order, and the words read for it, are those of rand's `SliceRandom::shuffle`. No order has more or less than its share
/// (SCOPE 16). Fewer than two items are left as they are, and no word is read for them.
///
/// ```
/// use gapyndura::Xoshiro256PlusPlus;
/// use gapyndura::slice::shuffle;
///
/// let mut rng = Xoshiro256PlusPlus::seed_from_u64(1);
/// let mut items = [1, 2, 3, 4, 5, 6, 7];
/// let words = shuffle(&mut rng, &mut items, u64::MAX)?.words;
/// assert_eq!(words, 1);
/// items.sort_unstable();
/// assert_eq!(items, [1, 2, 3, 4, 5, 6, 7]);
/// # Ok::<(), gapyndura::slice::ShuffleError>(())
/// ```
///
/// # Errors
///
/// Those of [`partial_shuffle`].
///
/// ```
/// use gapyndura::{Refusal, Xoshiro256PlusPlus};
/// use gapyndura::slice::shuffle;
///
/// let mut rng = Xoshiro256PlusPlus::seed_from_u64(1);
/// let mut items: Vec<u32> = (0..100).collect();
/// // The first draw serves the first 12 items, and these alone are shuffled.
/// let error = shuffle(&mut rng, &mut items, 1).unwrap_err();
/// assert_eq!((error.refusal, error.words), (Refusal::BudgetExhausted, 1));
/// assert!(items[12..].iter().copied().eq(12..100));
/// // One item needs no word.
/// assert!(shuffle(&mut rng, &mut [7], 0).is_ok());
/// ```
#[inline]
pub fn shuffle<'a>(
    rng: &mut Xoshiro256PlusPlus,
    items: &'a mut [u32],
    budget: u64,
) -> Result<Shuffled<'a>, ShuffleError> {
    let mut out = [0; 2];
    let (at, len) = (items.as_mut_ptr(), items.len());
    // SAFETY: as in `partial_shuffle`.
    let number = unsafe { gapyndura_shuffle(rng.state_mut(), at, len, budget, &mut out) };
    ended(number, items, out)
}

/// The most items that a view is drawn from.
const MOST_ITEMS: u64 = (1 << 32) - 2;

/// A view of drawn items: it shows the items at the indices, one after another (SCOPE 15).
///
/// [`sample`] draws the indices. The view shows the caller's own items, which stay lent when the view and the indices are gone. Each
/// step shows the item at the next index and moves one place on. Past the last index a step shows none, and the view stays.
///
/// The three parts can be kept, changed or made up freely. At an index that is not below the items' count the view also shows none
/// and stays; rand panics there. [`sample`] draws no such index. In a view that has one, `len` still counts all the indices
/// from the place on, and so is more than the items to come.
///
/// The draw is proved. The clip of the amount in [`sample`] and the step are this crate's own, since a view has no function at the C
/// boundary. They do what the proved view does in Rattle.
///
/// ```
/// use gapyndura::slice::IndexedSamples;
///
/// let items = ["a", "b", "c"];
/// let mut view = IndexedSamples { items: &items, indices: &[2, 0], place: 0 };
/// assert_eq!((view.len(), view.next()), (2, Some(&"c")));
/// assert_eq!((view.len(), view.next()), (1, Some(&"a")));
/// assert_eq!((view.len(), view.next()), (0, None));
/// assert_eq!(view.place, 2);
///
/// let mut view = IndexedSamples { items: &items, indices: &[1, 3, 0], place: 1 };
/// assert_eq!((view.next(), view.next()), (None, None));
/// assert_eq!(view.place, 1);
/// ```
///
/// A view of items of any type has `Clone` and `Debug`. The clone shows the same items from the same place on. `Debug` prints how
/// many items there are, and not the items.
///
/// ```
/// use gapyndura::IndexedSamples;
///
/// struct Reading(u32); // neither `Clone` nor `Debug`
/// let readings = [Reading(7), Reading(8), Reading(9)];
/// let mut view = IndexedSamples { items: &readings, indices: &[2, 0], place: 0 };
/// let mut again = view.clone();
/// assert_eq!((view.next().map(|reading| reading.0), view.len()), (Some(9), 1));
/// assert_eq!((again.next().map(|reading| reading.0), again.len()), (Some(9), 1));
/// assert_eq!(format!("{view:?}"), "IndexedSamples { items_len: 3, indices: [2, 0], place: 1 }");
/// ```
pub struct IndexedSamples<'a, 'i, T> {
    /// The caller's items.
    pub items: &'a [T],
    /// The indices of those that are shown.
    pub indices: &'i [u32],
    /// The next place among the indices.
    pub place: usize,
}

// Written by hand, as `Debug` and those of `Viewed` are: a derived one would ask the same of the items.
impl<T> Clone for IndexedSamples<'_, '_, T> {
    fn clone(&self) -> Self {
        Self { ..*self }
    }
}

impl<T> fmt::Debug for IndexedSamples<'_, '_, T> {
    fn fmt(&self, f: &mut fmt::Formatter<'_>) -> fmt::Result {
        f.debug_struct("IndexedSamples")
            .field("items_len", &self.items.len())
            .field("indices", &self.indices)
            .field("place", &self.place)
            .finish()
    }
}

impl<'a, T> Iterator for IndexedSamples<'a, '_, T> {
    type Item = &'a T;

    fn next(&mut self) -> Option<&'a T> {
        let index = *self.indices.get(self.place)?;
        let item = self.items.get(index as usize)?;
        self.place += 1;
        Some(item)
    }

    fn size_hint(&self) -> (usize, Option<usize>) {
        let remaining = self.indices.len().saturating_sub(self.place);
        (remaining, Some(remaining))
    }
}

impl<T> ExactSizeIterator for IndexedSamples<'_, '_, T> {}

// If it shows none it stays, so it shows none again.
impl<T> FusedIterator for IndexedSamples<'_, '_, T> {}

/// A view of drawn items, and the words read for it. Like the view it has `Clone` and `Debug` whatever the items are:
///
/// ```
/// use gapyndura::Xoshiro256PlusPlus;
/// use gapyndura::slice::sample;
///
/// struct Reading; // neither `Clone` nor `Debug`
/// let mut rng = Xoshiro256PlusPlus::seed_from_u64(1);
/// let mut indices = [0; 1];
/// let viewed = sample(&mut rng, &[Reading], 1, u64::MAX, &mut indices, &mut [])?;
/// assert_eq!(
///     format!("{:?}", viewed.clone()),
///     "Viewed { view: IndexedSamples { items_len: 1, indices: [0], place: 0 }, words: 1 }",
/// );
/// # Ok::<(), gapyndura::SampleError>(())
/// ```
pub struct Viewed<'a, 'i, T> {
    /// The view, at its first item.
    pub view: IndexedSamples<'a, 'i, T>,
    /// How many words were read from the generator.
    pub words: u64,
}

impl<T> Clone for Viewed<'_, '_, T> {
    fn clone(&self) -> Self {
        Self {
            view: self.view.clone(),
            words: self.words,
        }
    }
}

impl<T> fmt::Debug for Viewed<'_, '_, T> {
    fn fmt(&self, f: &mut fmt::Formatter<'_>) -> fmt::Result {
        f.debug_struct("Viewed")
            .field("view", &self.view)
            .field("words", &self.words)
            .finish()
    }
}

/// Draws `amount` of the items, in random order, or all of them if they are fewer, and lends a view that shows them (SCOPE 15).
///
/// The items, and the words read for them, are those of rand's `IndexedRandom::sample`. They may be of any type: none of them
/// is read here. The draw is that of [`index::sample`] with the count of items as its length. `budget`, `indices` and `scratch` are
/// those of that call; `indices` needs an entry for each item drawn.
///
/// ```
/// use gapyndura::Xoshiro256PlusPlus;
/// use gapyndura::slice::sample;
///
/// let mut rng = Xoshiro256PlusPlus::seed_from_u64(1);
/// let cities = ["Bern", "Lima", "Oslo", "Riga", "Rome"];
/// let mut indices = [0; 3];
/// let viewed = sample(&mut rng, &cities, 3, u64::MAX, &mut indices, &mut [])?;
/// assert_eq!((viewed.view.len(), viewed.words), (3, 3));
/// let drawn: Vec<&str> = viewed.view.copied().collect();
/// assert_eq!(drawn, indices.map(|index| cities[index as usize]));
///
/// // No more are drawn than there are.
/// let viewed = sample(&mut rng, &cities[..2], 3, u64::MAX, &mut indices, &mut [])?;
/// assert_eq!(viewed.view.len(), 2);
/// # Ok::<(), gapyndura::index::SampleError>(())
/// ```
///
/// # Errors
///
/// There is no view if one of these applies, the first of which is answered:
///
/// - [`ZeroState`](Refusal::ZeroState);
/// - [`TooLong`](Refusal::TooLong), if there are more than 2^32 - 2 items;
/// - [`SliceTooShort`](Refusal::SliceTooShort), if `indices` has fewer entries than items are to be drawn;
/// - [`ScratchTooShort`](Refusal::ScratchTooShort), if the method in place is due and `scratch` has fewer entries than there are items;
/// - [`BudgetExhausted`](Refusal::BudgetExhausted), if `budget` words are read and one more is needed.
///
/// With the last of them exactly `budget` words are read, and both slices are as [`index::sample`] leaves them then. With the others no
/// word is read and no slice changed.
///
/// ```
/// use gapyndura::{Refusal, Xoshiro256PlusPlus};
/// use gapyndura::slice::sample;
///
/// let mut rng = Xoshiro256PlusPlus::seed_from_u64(1);
/// let items = [(); 1_000_000];
/// let mut indices = [0; 200];
/// let error = sample(&mut rng, &items, 200, 7, &mut indices, &mut []).unwrap_err();
/// assert_eq!((error.refusal, error.so_far.words), (Refusal::BudgetExhausted, 7));
/// assert_eq!(error.so_far.count, 7);
/// assert_eq!(indices[7..], [0; 193]);
///
/// let error = sample(&mut rng, &items, 201, 0, &mut indices, &mut []).unwrap_err();
/// assert_eq!(error.refusal, Refusal::SliceTooShort);
/// ```
#[inline]
pub fn sample<'a, 'i, T>(
    rng: &mut Xoshiro256PlusPlus,
    items: &'a [T],
    amount: u64,
    budget: u64,
    indices: &'i mut [u32],
    scratch: &mut [u32],
) -> Result<Viewed<'a, 'i, T>, SampleError> {
    let count = items.len() as u64;
    // A list may have one item less than the longest length of an index sample. If it is too long, a length that is too long there
    // is handed on, so that the refusal, and the one before it, come from the proved call.
    let length = if count > MOST_ITEMS { u64::MAX } else { count };
    let amount = amount.min(count);
    let sampled = index::sample(rng, length, amount, budget, indices, scratch)?;
    Ok(Viewed {
        view: IndexedSamples {
            items,
            indices: &indices[..sampled.count],
            place: 0,
        },
        words: sampled.words,
    })
}

#[cfg(test)]
mod tests {
    use super::{IndexedSamples, sample};
    use crate::{Refusal, Xoshiro256PlusPlus};

    /// A place past the last index, also far past it, is the end of the view.
    #[test]
    fn a_view_stays_past_its_last_index() {
        for place in [2, 3, usize::MAX] {
            let mut view = IndexedSamples {
                items: &[5, 6],
                indices: &[1, 0],
                place,
            };
            for _ in 0..3 {
                assert_eq!((view.len(), view.next()), (0, None));
                assert_eq!(view.place, place);
            }
        }
    }

    #[test]
    fn a_view_stays_at_an_index_of_no_item() {
        for index in [2, 3, u32::MAX] {
            let mut view = IndexedSamples {
                items: &[5, 6],
                indices: &[1, index, 0],
                place: 0,
            };
            assert_eq!((view.len(), view.next()), (3, Some(&6)));
            for _ in 0..3 {
                assert_eq!((view.len(), view.next()), (2, None));
                assert_eq!(view.place, 1);
            }
        }
    }

    /// Items that take no memory, in any number.
    #[test]
    fn too_many_items_are_refused_after_no_generator() {
        let most = (1 << 32) - 2;
        let items = [(); 1 << 33];
        let refusal = |from, count, indices: &mut [u32]| {
            let mut rng = Xoshiro256PlusPlus::from_state(from);
            let result = sample(&mut rng, &items[..count], 5, 9, indices, &mut []);
            let refusal = result.err().map(|error| error.refusal);
            assert_eq!(rng.state() == from, refusal.is_some());
            refusal
        };
        for count in [most + 1, most + 2, items.len()] {
            let mut indices = [7; 5];
            assert_eq!(refusal([0; 4], count, &mut []), Some(Refusal::ZeroState));
            for entries in [0, 5] {
                let refused = refusal([1, 2, 3, 4], count, &mut indices[..entries]);
                assert_eq!(refused, Some(Refusal::TooLong));
            }
            assert_eq!(indices, [7; 5]);
        }
        let short = refusal([1, 2, 3, 4], most, &mut [0; 4]);
        assert_eq!(short, Some(Refusal::SliceTooShort));
        assert_eq!(refusal([1, 2, 3, 4], most, &mut [0; 5]), None);
    }
}
