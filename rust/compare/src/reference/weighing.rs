//! The four calls on a table of weights, and how they end by rand's `WeightedIndex`, which is held to the plain list in each.

use rand::distr::Distribution;
use rand::distr::weighted::{Error, WeightedIndex};
use rand::rngs::Xoshiro256PlusPlus;

use crate::draws::{Drawn, counted, rejecting, within};
use crate::panics::panics;
use crate::plain_list::{
    INSUFFICIENT_NON_ZERO, MOST_WEIGHTS, NO_WEIGHTS, OVERFLOW, PLACE_OUT_OF_RANGE,
    PLACES_NOT_INCREASING, PlainList, Record,
};
use crate::sampling::{Ended, SLICE_TOO_SHORT, TOO_LONG, ZERO_STATE};
use crate::{State, from_state, state};

/// What a new table answers: the record, or the number of the refusal.
pub type Made = Result<Record, u64>;

/// How a change ends: it is carried out, or refused with this number.
pub type Changed = Result<(), u64>;

/// What a lookup answers: the weight if there is one, or the number of the refusal.
pub type Looked = Result<Option<u32>, u64>;

/// A way to make each of the four calls: rand's, the port's, or one with a fault in it.
#[derive(Clone, Copy)]
pub struct Calls {
    pub new: fn(&[u32], &mut [u32]) -> Made,
    pub update_weights: fn(&mut Record, &mut [u32], &[u64], &[u32]) -> Changed,
    pub weight: fn(Record, &[u32], u64) -> Looked,
    pub pick: fn(State, Record, &[u32], u64) -> Ended,
}

/// rand's calls.
pub const RAND: Calls = Calls {
    new,
    update_weights,
    weight,
    pick,
};

/// rand's error where a call is refused with this number.
///
/// # Panics
///
/// If rand has none.
fn error(number: u64) -> Error {
    match number {
        NO_WEIGHTS | PLACES_NOT_INCREASING | PLACE_OUT_OF_RANGE => Error::InvalidInput,
        OVERFLOW => Error::Overflow,
        INSUFFICIENT_NON_ZERO => Error::InsufficientNonZero,
        _ => panic!("rand has no error for {number}"),
    }
}

/// rand's table, and the plain list beside it.
#[derive(Clone, Debug)]
pub struct Held {
    list: PlainList,
    rand: WeightedIndex<u32>,
}

impl Held {
    /// rand's new table, where the slice for the sums has so many entries, or the number of the refusal.
    ///
    /// # Errors
    ///
    /// Those of the plain list. rand is lent no slice and takes more weights; it must err in all other cases.
    ///
    /// # Panics
    ///
    /// If rand does not end the call as the plain list does.
    pub fn new(weights: &[u32], sums_len: usize) -> Result<Self, u64> {
        let list = PlainList::new(weights, sums_len);
        if let Err(TOO_LONG | SLICE_TOO_SHORT) = list {
            return Err(list.unwrap_err());
        }
        let rand = WeightedIndex::new(weights);
        let refusal = list.as_ref().err().map(|&number| error(number));
        assert_eq!(rand.as_ref().err(), refusal.as_ref(), "new: {weights:?}");
        let held = Self {
            list: list?,
            rand: rand.expect("no error is left"),
        };
        held.check();
        Ok(held)
    }

    /// rand's table of the list that makes this one, where `lent` begins with its sums.
    ///
    /// # Errors
    ///
    /// 10 or 7. rand has no such table.
    pub fn of_table(table: Record, lent: &[u32]) -> Result<Self, u64> {
        let list = PlainList::of_table(table, lent)?;
        Self::new(list.weights(), lent.len())
    }

    /// rand's table must be that of the list.
    fn check(&self) {
        let Record { total_weight, .. } = self.record();
        let weights = self.list.weights().iter().copied();
        assert!(
            self.rand.total_weight() == total_weight && self.rand.weights().eq(weights),
            "rand holds {:?}, not {:?}",
            self.rand,
            self.list
        );
    }

    /// The record.
    #[must_use]
    pub fn record(&self) -> Record {
        self.list.record()
    }

    /// Writes the sums of rand's weights to the front of a slice.
    pub fn write_sums(&self, lent: &mut [u32]) {
        let mut sum = 0;
        let but_last = self.list.weights().len() - 1;
        for (entry, weight) in lent.iter_mut().zip(self.rand.weights().take(but_last)) {
            sum += weight;
            *entry = sum;
        }
    }

    /// Changes the table.
    ///
    /// # Errors
    ///
    /// Those of the plain list. rand takes pairs, so that lists which differ in length cannot be given to it, nor can weights that
    /// sum above 2^32 - 1 when all are changed: it panics there or goes on with a wrong total. In all other cases it must err.
    ///
    /// # Panics
    ///
    /// If rand does not end the call as the plain list does. Where the total passes 2^32 - 1 on the way, that is so in a build without
    /// overflow checks, whose total comes back with the true one; a build with checks must panic there.
    pub fn update_weights(&mut self, places: &[u64], weights: &[u32]) -> Changed {
        let changed = self.list.changed(places, weights);
        if let Err(TOO_LONG | SLICE_TOO_SHORT | OVERFLOW) = changed {
            return changed.map(|_| ());
        }
        let is_passing = cfg!(debug_assertions) && self.list.passes(places, weights);
        let places = places.iter().map(|&place| place as usize);
        let pairs: Vec<(usize, &u32)> = places.zip(weights).collect();
        if is_passing {
            let mut table = self.rand.clone();
            let is_panic = panics(|| _ = table.update_weights(&pairs));
            assert!(is_panic, "change of {:?}: {pairs:?}", self.list);
            return changed.map(|list| {
                *self = Self::new(list.weights(), list.weights().len()).expect("a table");
            });
        }
        let rand = self.rand.update_weights(&pairs);
        let refusal = changed.as_ref().err().map(|&number| error(number));
        assert_eq!(rand.err(), refusal, "change of {:?}: {pairs:?}", self.list);
        let ended = changed.map(|list| self.list = list);
        self.check();
        ended
    }

    /// The weight at a place, if it is one.
    ///
    /// # Panics
    ///
    /// If rand's is not the plain list's.
    #[must_use]
    pub fn weight(&self, place: u64) -> Option<u32> {
        let weight = self.rand.weight(place as usize);
        assert_eq!(
            weight,
            self.list.weight(place),
            "{place} of {:?}",
            self.list
        );
        weight
    }

    /// A pick from the generator of a state. rand knows no budget: where its pick reads more words, it is refused.
    ///
    /// # Panics
    ///
    /// If rand's pick is not that of the draw and the search of SCOPE 14.
    #[must_use]
    pub fn pick(&self, from: State, budget: u64) -> Ended {
        let mut rng = from_state(from);
        let [number, index, words] = within(&mut rng, budget, |rng| self.picked(rng));
        Ended {
            number,
            count: index,
            words,
            state: state(&rng),
        }
    }

    /// rand's pick, as the draw of an index.
    fn picked(&self, rng: &mut Xoshiro256PlusPlus) -> Drawn {
        let mut again = rng.clone();
        let picked = counted(rng, |rng| self.rand.sample(rng) as u32);
        let c = rejecting(&mut again, self.record().total_weight);
        assert!(
            (picked.value, picked.words) == (self.list.first_above(c.value), c.words)
                && again == *rng,
            "rand picks {picked:?} of {:?} with {c:?}",
            self.list
        );
        picked
    }
}

/// How rand ends a new table, with the sums in the slice that is lent for them.
///
/// # Errors
///
/// The number of the refusal.
pub fn new(weights: &[u32], lent: &mut [u32]) -> Made {
    let held = Held::new(weights, lent.len())?;
    held.write_sums(lent);
    Ok(held.record())
}

/// How rand ends a change of a table. The record is that of the table afterwards.
///
/// # Errors
///
/// The number of the refusal.
pub fn update_weights(
    table: &mut Record,
    lent: &mut [u32],
    places: &[u64],
    weights: &[u32],
) -> Changed {
    if weights.len() as u64 > MOST_WEIGHTS {
        return Err(TOO_LONG);
    }
    let mut held = Held::of_table(*table, lent)?;
    held.update_weights(places, weights)?;
    held.write_sums(lent);
    *table = held.record();
    Ok(())
}

/// How rand ends a lookup.
///
/// # Errors
///
/// The number of the refusal.
pub fn weight(table: Record, lent: &[u32], place: u64) -> Looked {
    Ok(Held::of_table(table, lent)?.weight(place))
}

/// How rand ends a pick. The count is the index.
#[must_use]
pub fn pick(from: State, table: Record, lent: &[u32], budget: u64) -> Ended {
    if from == [0; 4] {
        return Ended::refused(ZERO_STATE, from);
    }
    match Held::of_table(table, lent) {
        Ok(held) => held.pick(from, budget),
        Err(number) => Ended::refused(number, from),
    }
}

#[cfg(test)]
mod tests {
    use rand::distr::weighted::{Error, WeightedIndex};

    use super::Held;
    use crate::panics::panics;
    use crate::words::giving;

    /// The table of SCOPE 18: the word 2^31 gives c = 2 of 5, the word 2^30 gives c = 1.
    #[test]
    fn the_marked_picks_are_rands() {
        let held = Held::new(&[2, 0, 3], 2).expect("a table");
        assert_eq!(held.pick(giving(1 << 31, 0, 1), 1).count, 2);
        assert_eq!(held.pick(giving(1 << 30, 0, 1), 1).count, 0);
    }

    #[test]
    fn a_spent_pick_has_read_its_budget() {
        let held = Held::new(&[2, 0, 4], 2).expect("a table");
        let ended = held.pick(giving(0, 1, 1), 1);
        assert_eq!((ended.number, ended.count, ended.words), (13, 0, 1));
        let ended = held.pick(giving(0, 1, 1), 2);
        assert_eq!((ended.number, ended.count, ended.words), (0, 0, 2));
    }

    /// Changes of up to two items, with totals on both sides of 2^32 - 1 on the way and at the end. `Held` asks rand: a build without
    /// checks must end each as the plain list does, and one with checks must panic where the total passes, also if it comes back.
    #[test]
    fn small_changes_end_as_on_the_plain_list_or_panic_by_the_build() {
        let weights = [0, 1, 2, u32::MAX - 1, u32::MAX];
        let items = (0..3).flat_map(|place| weights.map(|weight| (place, weight)));
        let items: Vec<(u64, u32)> = items.collect();
        let mut changes: Vec<Vec<(u64, u32)>> = items.iter().map(|&item| vec![item]).collect();
        changes.extend(
            items
                .iter()
                .flat_map(|&a| items.iter().map(move |&b| vec![a, b])),
        );
        let mut ends = [0; 7];
        for (a, b) in weights.iter().flat_map(|&a| weights.map(|b| (a, b))) {
            let Ok(held) = Held::new(&[a, b], 1) else {
                continue;
            };
            for change in &changes {
                let (places, weights): (Vec<u64>, Vec<u32>) = change.iter().copied().unzip();
                let ended = held.clone().update_weights(&places, &weights);
                ends[ended.err().unwrap_or(0) as usize] += 1;
            }
        }
        assert!([0, 3, 4, 5, 6].iter().all(|&end| ends[end] > 0), "{ends:?}");
    }

    /// rand is asked where the total passes 2^32 - 1 and comes back: with a table beside the list that is not the list's, the change is
    /// found out. A build without checks leaves it no weight; one with checks does not panic.
    #[test]
    fn rand_is_asked_where_a_total_comes_back() {
        let other = if cfg!(debug_assertions) {
            [1, 0, 0]
        } else {
            [0, 1, 1]
        };
        let mut held = Held::new(&[0, 1, 0], 2).expect("a table");
        held.rand = WeightedIndex::new(other).expect("a table");
        assert!(panics(|| _ = held.update_weights(&[0, 1], &[u32::MAX, 0])));
    }

    /// rand's table of these weights after a change by whose pairs its total passes 2^32 - 1, and what it answers.
    fn overflowing(
        weights: &[u32],
        pairs: &[(usize, &u32)],
    ) -> (WeightedIndex<u32>, Result<(), Error>) {
        let mut table = WeightedIndex::new(weights).expect("a table");
        let changed = table.update_weights(pairs);
        (table, changed)
    }

    /// A build with checks panics at the item that passes 2^32 - 1, also where a later item would bring the total back or has a place
    /// that is refused.
    #[cfg(debug_assertions)]
    #[test]
    fn rand_panics_where_a_total_passes_the_greatest() {
        let greatest = &u32::MAX;
        for pairs in [
            &[(0, greatest)][..],
            &[(0, greatest), (1, &0)],
            &[(0, greatest), (0, &0)],
            &[(0, greatest), (2, &0)],
        ] {
            assert!(panics(|| drop(overflowing(&[0, 1], pairs))));
        }
        assert!(panics(|| drop(overflowing(&[0, 2], &[(0, greatest)]))));
    }

    /// A build without checks goes on modulo 2^32. Where the total stays above 2^32 - 1, it errs if 0 is left of it, and else takes a wrong
    /// table. Where a later item brings the total back it takes the right one, and a later place is refused as ever.
    #[cfg(not(debug_assertions))]
    #[test]
    fn rand_wraps_where_a_total_passes_the_greatest() {
        let greatest = &u32::MAX;
        let (_, changed) = overflowing(&[0, 1], &[(0, greatest)]);
        assert_eq!(changed, Err(Error::InsufficientNonZero));
        let (table, changed) = overflowing(&[0, 2], &[(0, greatest)]);
        assert_eq!((changed, table.total_weight()), (Ok(()), 1));
        assert_eq!(table.weight(0), Some(u32::MAX));
        let (table, changed) = overflowing(&[0, 1], &[(0, greatest), (1, &0)]);
        assert_eq!((changed, table.total_weight()), (Ok(()), u32::MAX));
        assert!(table.weights().eq([u32::MAX, 0]));
        for place in [0, 2] {
            let (table, changed) = overflowing(&[0, 1], &[(0, greatest), (place, &0)]);
            assert_eq!(changed, Err(Error::InvalidInput));
            assert!(table.weights().eq([0, 1]));
        }
    }
}
