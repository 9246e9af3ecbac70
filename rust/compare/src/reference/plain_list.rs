//! The plain list of weights (SCOPE 13), to which every table of running sums is held.

use crate::sampling::{SLICE_TOO_SHORT, TOO_LONG};

/// The numbers of the refusals that only weights have (SCOPE 2).
pub const NO_WEIGHTS: u64 = 2;
pub const OVERFLOW: u64 = 3;
pub const INSUFFICIENT_NON_ZERO: u64 = 4;
pub const PLACES_NOT_INCREASING: u64 = 5;
pub const PLACE_OUT_OF_RANGE: u64 = 6;
pub const INVALID_TABLE: u64 = 7;

/// The most weights that a list or a table has.
pub const MOST_WEIGHTS: u64 = (1 << 32) - 2;

/// The most that weights add up to.
const MOST_TOTAL: u64 = u32::MAX as u64;

/// A table's record.
#[derive(Clone, Copy, Debug, PartialEq, Eq)]
pub struct Record {
    pub count: u64,
    pub total_weight: u32,
}

/// A list of weights that makes a table: at least one, not all 0, and adding up to no more than 2^32 - 1.
#[derive(Clone, Debug, PartialEq, Eq)]
pub struct PlainList(Vec<u32>);

/// All weights added.
fn total(weights: &[u32]) -> u64 {
    weights.iter().copied().map(u64::from).sum()
}

impl PlainList {
    /// The list of a new table whose slice for the sums has so many entries, or the number of the refusal.
    ///
    /// # Errors
    ///
    /// 10, 2, 8, 3, 4: the first that applies.
    pub fn new(weights: &[u32], sums_len: usize) -> Result<Self, u64> {
        if weights.len() as u64 > MOST_WEIGHTS {
            return Err(TOO_LONG);
        }
        if weights.is_empty() {
            return Err(NO_WEIGHTS);
        }
        if sums_len < weights.len() - 1 {
            return Err(SLICE_TOO_SHORT);
        }
        Self::weighed(weights.to_vec())
    }

    /// The list of these weights where they make a table: 3, 4.
    fn weighed(weights: Vec<u32>) -> Result<Self, u64> {
        match total(&weights) {
            0 => Err(INSUFFICIENT_NON_ZERO),
            1..=MOST_TOTAL => Ok(Self(weights)),
            _ => Err(OVERFLOW),
        }
    }

    /// The list that makes this table, where `lent` begins with its sums.
    ///
    /// # Errors
    ///
    /// 10, 7: the first that applies.
    pub fn of_table(table: Record, lent: &[u32]) -> Result<Self, u64> {
        if table.count > MOST_WEIGHTS {
            return Err(TOO_LONG);
        }
        let last = table.count.checked_sub(1).ok_or(INVALID_TABLE)?;
        let sums = lent.get(..last as usize).ok_or(INVALID_TABLE)?;
        if table.total_weight == 0 {
            return Err(INVALID_TABLE);
        }
        let mut before = 0;
        let all = sums.iter().chain([&table.total_weight]);
        let weights = all.map(|&sum| {
            // None where the sums fall, or where the last of them is above the total.
            let weight = sum.checked_sub(before);
            before = sum;
            weight
        });
        let weights: Option<Vec<u32>> = weights.collect();
        weights.map(Self).ok_or(INVALID_TABLE)
    }

    /// The list after a change. This one stays: it is what a refused change leaves.
    ///
    /// # Errors
    ///
    /// 10, 8, then for each item 5, 6, after all items 3, 4: the first that applies.
    pub fn changed(&self, places: &[u64], weights: &[u32]) -> Result<Self, u64> {
        if weights.len() as u64 > MOST_WEIGHTS {
            return Err(TOO_LONG);
        }
        if places.len() != weights.len() {
            return Err(SLICE_TOO_SHORT);
        }
        let Self(mut changed) = self.clone();
        let mut before = None;
        for (&place, &weight) in places.iter().zip(weights) {
            if before.is_some_and(|before| place <= before) {
                return Err(PLACES_NOT_INCREASING);
            }
            if place >= changed.len() as u64 {
                return Err(PLACE_OUT_OF_RANGE);
            }
            changed[place as usize] = weight;
            before = Some(place);
        }
        Self::weighed(changed)
    }

    /// Whether the total passes 2^32 - 1 at an item of a change, before any place is refused. It may come back at a later item.
    #[must_use]
    pub fn passes(&self, places: &[u64], weights: &[u32]) -> bool {
        (1..=places.len().min(weights.len()))
            .any(|items| self.changed(&places[..items], &weights[..items]) == Err(OVERFLOW))
    }

    /// The weights.
    #[must_use]
    pub fn weights(&self) -> &[u32] {
        let Self(weights) = self;
        weights
    }

    /// The record of the table that the list makes.
    #[must_use]
    pub fn record(&self) -> Record {
        Record {
            count: self.weights().len() as u64,
            // No list has a greater total.
            total_weight: total(self.weights()) as u32,
        }
    }

    /// The sums of that table: for every weight but the last, all weights up to it added.
    pub fn sums(&self) -> impl Iterator<Item = u32> {
        let but_last = &self.weights()[..self.weights().len() - 1];
        but_last.iter().scan(0, |sum, weight| {
            *sum += weight;
            Some(*sum)
        })
    }

    /// The weight at a place, if it is one.
    #[must_use]
    pub fn weight(&self, place: u64) -> Option<u32> {
        self.weights().get(usize::try_from(place).ok()?).copied()
    }

    /// The first place whose running sum is above `c`, which is below the total.
    #[must_use]
    pub fn first_above(&self, c: u32) -> u32 {
        self.sums().take_while(|&sum| sum <= c).count() as u32
    }
}

#[cfg(test)]
mod tests {
    use super::{PlainList, Record};

    /// The picks and the change of SCOPE 18.
    #[test]
    fn the_marked_table_picks_and_changes() {
        let list = PlainList::new(&[2, 0, 3], 2).expect("a table");
        assert_eq!((list.first_above(1), list.first_above(2)), (0, 2));
        let list = list.changed(&[1], &[4]).expect("a change");
        let sums: Vec<u32> = list.sums().collect();
        assert_eq!((sums, list.record().total_weight), (vec![2, 6], 9));
    }

    #[test]
    fn a_list_is_read_back_from_its_table() {
        let list = PlainList::new(&[0, 7, 0, 1], 3).expect("a table");
        let lent: Vec<u32> = list.sums().chain([0, u32::MAX]).collect();
        assert_eq!(PlainList::of_table(list.record(), &lent), Ok(list));
    }

    #[test]
    fn a_table_of_no_list_is_broken() {
        let of = |count, total_weight, lent: &[u32]| {
            let table = Record {
                count,
                total_weight,
            };
            PlainList::of_table(table, lent).map(|list| list.weights().to_vec())
        };
        assert_eq!(of(3, 5, &[2, 1]), Err(7));
        assert_eq!(of(3, 5, &[2, 6]), Err(7));
        assert_eq!(of(3, 0, &[0, 0]), Err(7));
        assert_eq!(of(0, 5, &[]), Err(7));
        assert_eq!(of(3, 5, &[2]), Err(7));
        assert_eq!(of((1 << 32) - 2, 5, &[2]), Err(7));
        assert_eq!(of((1 << 32) - 1, 5, &[2]), Err(10));
        assert_eq!(of(2, 5, &[2, 1]), Ok(vec![2, 3]));
    }

    #[test]
    fn each_item_of_a_change_is_looked_at_in_turn() {
        let list = PlainList::new(&[1, 4], 1).expect("a table");
        let number = |places: &[u64], weights: &[u32]| list.changed(places, weights).err();
        assert_eq!(number(&[], &[]), None);
        assert_eq!(number(&[0], &[]), Some(8));
        assert_eq!(number(&[2, 0], &[0, 0]), Some(6));
        assert_eq!(number(&[1, 0, 2], &[0, 0, 0]), Some(5));
        assert_eq!(number(&[0, 1], &[0, 0]), Some(4));
    }

    /// The total is weighed after all items: it may pass 2^32 - 1 and come back, and a place is refused before it.
    #[test]
    fn a_change_is_weighed_at_the_end() {
        let number = |of: &[u32], places: &[u64], weights: &[u32]| {
            let list = PlainList::new(of, of.len()).expect("a table");
            (
                list.changed(places, weights).err(),
                list.passes(places, weights),
            )
        };
        let most = u32::MAX;
        assert_eq!(number(&[0, most], &[0, 1], &[5, most - 5]), (None, true));
        assert_eq!(number(&[1, 1], &[0, 7], &[most, 1]), (Some(6), true));
        assert_eq!(number(&[1, 1], &[0, 0], &[most, 1]), (Some(5), true));
        assert_eq!(number(&[0, 1], &[0], &[most]), (Some(3), true));
        assert_eq!(number(&[1, 1], &[0, 1], &[most, most]), (Some(3), true));
        assert_eq!(number(&[1, 4], &[0, 1], &[most - 4, 0]), (None, false));
        assert_eq!(number(&[1, 4], &[0, 1], &[most, 0]), (None, true));
        assert_eq!(number(&[1, 4], &[0, 1], &[most, 1]), (Some(3), true));
        assert_eq!(number(&[1, 4], &[2, 0], &[0, most]), (Some(6), false));
    }
}
