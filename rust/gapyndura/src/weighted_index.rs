//! Picks by weight, as in rand's module `weighted_index`.

use core::error::Error;
use core::fmt;

use crate::boundary::{
    gapyndura_weights_new, gapyndura_weights_pick, gapyndura_weights_update,
    gapyndura_weights_weight,
};
use crate::{Refusal, Xoshiro256PlusPlus};

/// The record of a table of weights (SCOPE 13). The running sums that go with it stand in a slice of the caller's, which is lent to
/// every call.
///
/// Sum i adds the weights 0 to i. There is one for every weight but the last: `count - 1` sums, and none for one weight. Entries of
/// the slice past them are neither read nor changed.
///
/// The record and the slice go together as the last accepted call has left them. Both can be kept, copied or made up freely:
/// each call looks at all sums, and declines a broken table, that is one that is not whole. A table is whole if the count and the total are at least 1, the
/// slice has at least `count - 1` entries, and no sum is below the one before it or above the total.
///
/// ```
/// use gapyndura::Xoshiro256PlusPlus;
/// use gapyndura::weighted_index::WeightedIndex;
///
/// let mut cumulative_weights = [0; 2];
/// let mut table = WeightedIndex::new(&[2, 0, 3], &mut cumulative_weights)?;
/// table.update_weights(&mut cumulative_weights, &[1], &[4])?;
/// assert_eq!(table, WeightedIndex { count: 3, total_weight: 9 });
/// assert_eq!(cumulative_weights, [2, 6]);
///
/// let mut rng = Xoshiro256PlusPlus::seed_from_u64(1);
/// let picked = table.sample(&mut rng, &cumulative_weights, u64::MAX)?;
/// assert!(picked.index < 3);
/// # Ok::<(), Box<dyn std::error::Error>>(())
/// ```
#[derive(Clone, Copy, Debug, PartialEq, Eq, Hash)]
pub struct WeightedIndex {
    /// How many weights there are.
    pub count: u64,
    /// What they add up to.
    pub total_weight: u32,
}

/// What a pick took and gave.
#[derive(Clone, Copy, Debug, PartialEq, Eq, Hash)]
pub struct Picked {
    /// The item that was picked, by its place among the weights.
    pub index: u32,
    /// How many words were read from the generator.
    pub words: u64,
}

/// Why nothing is picked, and the words read before the call was declined.
#[derive(Clone, Copy, Debug, PartialEq, Eq, Hash)]
pub struct PickError {
    /// The cause.
    pub refusal: Refusal,
    /// The words read: the budget with [`BudgetExhausted`](Refusal::BudgetExhausted), else none.
    pub words: u64,
}

impl fmt::Display for PickError {
    fn fmt(&self, f: &mut fmt::Formatter<'_>) -> fmt::Result {
        self.refusal.fmt(f)?;
        if self.refusal == Refusal::BudgetExhausted {
            write!(f, ": nothing picked in {} words", self.words)?;
        }
        Ok(())
    }
}

impl Error for PickError {}

impl From<PickError> for Refusal {
    /// The cause alone.
    fn from(error: PickError) -> Self {
        error.refusal
    }
}

impl WeightedIndex {
    /// Makes the table of these weights (SCOPE 13): answers its record, and writes its sums to the front of `cumulative_weights`.
    ///
    /// It is the table of rand's `WeightedIndex::new`. Entries past the sums never change.
    ///
    /// ```
    /// use gapyndura::weighted_index::WeightedIndex;
    ///
    /// let mut cumulative_weights = [9; 4];
    /// let table = WeightedIndex::new(&[2, 0, 3], &mut cumulative_weights)?;
    /// assert_eq!((table.count, table.total_weight), (3, 5));
    /// assert_eq!(cumulative_weights, [2, 2, 9, 9]);
    ///
    /// let table = WeightedIndex::new(&[7], &mut [])?;
    /// assert_eq!((table.count, table.total_weight), (1, 7));
    /// # Ok::<(), gapyndura::Refusal>(())
    /// ```
    ///
    /// # Errors
    ///
    /// The first of these that applies. The slice is then unchanged.
    ///
    /// - [`TooLong`](Refusal::TooLong), if there are more than 2^32 - 2 weights;
    /// - [`NoWeights`](Refusal::NoWeights);
    /// - [`SliceTooShort`](Refusal::SliceTooShort), if `cumulative_weights` has fewer entries than there are sums;
    /// - [`Overflow`](Refusal::Overflow), if the weights sum above 2^32 - 1;
    /// - [`InsufficientNonZero`](Refusal::InsufficientNonZero), if every weight is 0.
    ///
    /// ```
    /// use gapyndura::Refusal;
    /// use gapyndura::weighted_index::WeightedIndex;
    ///
    /// assert_eq!(WeightedIndex::new(&[], &mut []), Err(Refusal::NoWeights));
    /// assert_eq!(WeightedIndex::new(&[0, 0], &mut []), Err(Refusal::SliceTooShort));
    /// assert_eq!(WeightedIndex::new(&[0, 0], &mut [0]), Err(Refusal::InsufficientNonZero));
    /// assert_eq!(WeightedIndex::new(&[1, u32::MAX], &mut [0]), Err(Refusal::Overflow));
    /// ```
    #[inline]
    pub fn new(weights: &[u32], cumulative_weights: &mut [u32]) -> Result<Self, Refusal> {
        let mut table = [0; 2];
        // SAFETY: the pointer of a slice is not null, not even if the slice is empty, is aligned, and is good for the slice's
        // length. All that is written is borrowed for that, hence overlaps nothing.
        let number = unsafe {
            gapyndura_weights_new(
                weights.as_ptr(),
                weights.len(),
                cumulative_weights.as_mut_ptr(),
                cumulative_weights.len(),
                &mut table,
            )
        };
        Refusal::check(number)?;
        Ok(Self::from_boundary(table))
    }

    /// Changes weights: the weight at `places[j]` becomes `weights[j]`, in the record and the sums (SCOPE 13).
    ///
    /// The new table is the one that rand's `WeightedIndex::update_weights` leaves. Places count from 0 and must increase. An empty
    /// change is accepted. The new total is checked when all weights are changed, so a list may first raise one weight and then lower
    /// another. Entries past the sums never change.
    ///
    /// ```
    /// use gapyndura::weighted_index::WeightedIndex;
    ///
    /// let mut cumulative_weights = [0; 2];
    /// let mut table = WeightedIndex::new(&[2, 0, 3], &mut cumulative_weights)?;
    /// table.update_weights(&mut cumulative_weights, &[0, 2], &[1, 8])?;
    /// assert_eq!((table.count, table.total_weight), (3, 9));
    /// assert_eq!(cumulative_weights, [1, 1]);
    /// table.update_weights(&mut cumulative_weights, &[0, 2], &[u32::MAX, 0])?;
    /// assert_eq!((table.total_weight, cumulative_weights), (u32::MAX, [u32::MAX; 2]));
    /// # Ok::<(), gapyndura::Refusal>(())
    /// ```
    ///
    /// # Errors
    ///
    /// The first of these that applies. The record and the slice are then unchanged.
    ///
    /// - [`TooLong`](Refusal::TooLong), if the count or the length of `weights` is above 2^32 - 2;
    /// - [`InvalidTable`](Refusal::InvalidTable), if the table is broken;
    /// - [`SliceTooShort`](Refusal::SliceTooShort), if the lists differ in length;
    /// - for each place in turn [`PlacesNotIncreasing`](Refusal::PlacesNotIncreasing), then
    ///   [`PlaceOutOfRange`](Refusal::PlaceOutOfRange);
    /// - [`Overflow`](Refusal::Overflow), if the changed weights sum above 2^32 - 1;
    /// - [`InsufficientNonZero`](Refusal::InsufficientNonZero), if every weight would be 0.
    ///
    /// ```
    /// use gapyndura::Refusal;
    /// use gapyndura::weighted_index::WeightedIndex;
    ///
    /// let mut sums = [0; 1];
    /// let mut table = WeightedIndex::new(&[1, 4], &mut sums)?;
    /// assert_eq!(table.update_weights(&mut sums, &[0, 2], &[u32::MAX, 7]), Err(Refusal::PlaceOutOfRange));
    /// assert_eq!(table.update_weights(&mut sums, &[0, 1], &[u32::MAX, 1]), Err(Refusal::Overflow));
    /// assert_eq!(table.update_weights(&mut sums, &[0, 1], &[0, 0]), Err(Refusal::InsufficientNonZero));
    /// assert_eq!((table.total_weight, sums), (5, [1]));
    /// # Ok::<(), Refusal>(())
    /// ```
    #[inline]
    pub fn update_weights(
        &mut self,
        cumulative_weights: &mut [u32],
        places: &[u64],
        weights: &[u32],
    ) -> Result<(), Refusal> {
        let mut table = self.to_boundary();
        // SAFETY: as in `new`.
        let number = unsafe {
            gapyndura_weights_update(
                &mut table,
                cumulative_weights.as_mut_ptr(),
                cumulative_weights.len(),
                places.as_ptr(),
                places.len(),
                weights.as_ptr(),
                weights.len(),
            )
        };
        // The new record if the change is accepted, else the one that was handed over.
        *self = Self::from_boundary(table);
        Refusal::check(number)
    }

    /// The weight at a place, or `None` beyond the last (SCOPE 13).
    ///
    /// It is that of rand's `WeightedIndex::weight`.
    ///
    /// ```
    /// use gapyndura::weighted_index::WeightedIndex;
    ///
    /// let mut cumulative_weights = [0; 2];
    /// let table = WeightedIndex::new(&[2, 0, 3], &mut cumulative_weights)?;
    /// assert_eq!(table.weight(&cumulative_weights, 1)?, Some(0));
    /// assert_eq!(table.weight(&cumulative_weights, 2)?, Some(3));
    /// assert_eq!(table.weight(&cumulative_weights, 3)?, None);
    /// # Ok::<(), gapyndura::Refusal>(())
    /// ```
    ///
    /// # Errors
    ///
    /// The first of these that applies:
    ///
    /// - [`TooLong`](Refusal::TooLong), if the count is above 2^32 - 2;
    /// - [`InvalidTable`](Refusal::InvalidTable), if the table is broken.
    ///
    /// ```
    /// use gapyndura::Refusal;
    /// use gapyndura::weighted_index::WeightedIndex;
    ///
    /// let table = WeightedIndex { count: 3, total_weight: 5 };
    /// assert_eq!(table.weight(&[2], 0), Err(Refusal::InvalidTable));
    /// assert_eq!(table.weight(&[2, 1], 0), Err(Refusal::InvalidTable));
    /// assert_eq!(table.weight(&[2, 6], 0), Err(Refusal::InvalidTable));
    /// assert_eq!(table.weight(&[2, 5], 0), Ok(Some(2)));
    /// ```
    #[inline]
    pub fn weight(self, cumulative_weights: &[u32], place: u64) -> Result<Option<u32>, Refusal> {
        let mut out = [0; 2];
        // SAFETY: as in `new`.
        let number = unsafe {
            gapyndura_weights_weight(
                &self.to_boundary(),
                cumulative_weights.as_ptr(),
                cumulative_weights.len(),
                place,
                &mut out,
            )
        };
        Refusal::check(number)?;
        let [is_there, weight] = out;
        // A weight has 32 bits.
        Ok((is_there == 1).then_some(weight as u32))
    }

    /// Picks an item by its weight (SCOPE 14).
    ///
    /// The item, and the words read for it, are those of rand's `WeightedIndex::sample`. Each word picks one item or is
    /// dropped: an item of weight w is picked by w * floor(2^32 / total) of the 2^32 words. No item of weight 0 is picked.
    /// `budget` is the most words that the call may read.
    ///
    /// ```
    /// use gapyndura::Xoshiro256PlusPlus;
    /// use gapyndura::weighted_index::WeightedIndex;
    ///
    /// let mut cumulative_weights = [0; 2];
    /// let table = WeightedIndex::new(&[0, 5, 0], &mut cumulative_weights)?;
    /// let mut rng = Xoshiro256PlusPlus::seed_from_u64(1);
    /// let picked = table.sample(&mut rng, &cumulative_weights, u64::MAX)?;
    /// assert_eq!((picked.index, picked.words), (1, 1));
    /// # Ok::<(), Box<dyn std::error::Error>>(())
    /// ```
    ///
    /// # Errors
    ///
    /// The first of these that applies:
    ///
    /// - [`ZeroState`](Refusal::ZeroState);
    /// - [`TooLong`](Refusal::TooLong), if the count is above 2^32 - 2;
    /// - [`InvalidTable`](Refusal::InvalidTable), if the table is broken;
    /// - [`BudgetExhausted`](Refusal::BudgetExhausted), if `budget` words are read and all of them dropped.
    ///
    /// With the last of them the generator is advanced by exactly `budget` words. With the others no word is read and the generator
    /// stays.
    ///
    /// ```
    /// use gapyndura::{Refusal, Xoshiro256PlusPlus};
    /// use gapyndura::weighted_index::WeightedIndex;
    ///
    /// let table = WeightedIndex { count: 1, total_weight: 3 };
    /// // A generator whose first word is 0, which a draw below 3 drops.
    /// let mut rng = Xoshiro256PlusPlus::from_state([0, 0, 1, 0]);
    /// let mut after_one_word = rng.clone();
    /// assert_eq!(after_one_word.next_u32(), Ok(0));
    /// let error = table.sample(&mut rng, &[], 1).unwrap_err();
    /// assert_eq!((error.refusal, error.words), (Refusal::BudgetExhausted, 1));
    /// assert_eq!(rng, after_one_word);
    /// ```
    #[inline]
    pub fn sample(
        self,
        rng: &mut Xoshiro256PlusPlus,
        cumulative_weights: &[u32],
        budget: u64,
    ) -> Result<Picked, PickError> {
        let mut out = [0; 2];
        // SAFETY: as in `new`.
        let number = unsafe {
            gapyndura_weights_pick(
                rng.state_mut(),
                &self.to_boundary(),
                cumulative_weights.as_ptr(),
                cumulative_weights.len(),
                budget,
                &mut out,
            )
        };
        let [words, index] = out;
        if number == 0 {
            return Ok(Picked {
                // Below the count, which has 32 bits.
                index: index as u32,
                words,
            });
        }
        Err(PickError {
            refusal: Refusal::from_number(number),
            words,
        })
    }

    /// The record as the header has it: the count and the total.
    fn to_boundary(self) -> [u64; 2] {
        [self.count, self.total_weight.into()]
    }

    /// The record that a function of the header has written.
    fn from_boundary(table: [u64; 2]) -> Self {
        let [count, total_weight] = table;
        Self {
            count,
            // A total that is written is at most 2^32 - 1.
            total_weight: total_weight as u32,
        }
    }
}
