//! The lines that make a table of weights, change it, and then pick or look a weight up, and what they answer.

use crate::State;
use crate::answer::Answer;
use crate::number::{entries, length, numbers};
use crate::sample_line::CANARY;
use crate::sampling::Ended;
use crate::weighing::{Calls, Made};

/// A new table and a change of it, which is made where there is a table: `SUMS PLACES WEIGHTS p.. v.. w..`.
#[derive(Clone, Debug, PartialEq, Eq)]
pub struct Changed {
    pub sums_len: usize,
    /// The change's two lists.
    pub places: Vec<u64>,
    pub changes: Vec<u32>,
    /// The weights of the new table.
    pub weights: Vec<u32>,
}

impl Changed {
    /// The numbers of a line.
    fn numbers(&self) -> Vec<u64> {
        let counts = [self.sums_len, self.places.len(), self.changes.len()];
        let lists = numbers(&self.changes).chain(numbers(&self.weights));
        let places = self.places.iter().copied();
        let counts = counts.into_iter().map(|count| count as u64);
        counts.chain(places).chain(lists).collect()
    }

    /// The table of these numbers, if they are those of one.
    fn read(numbers: &[u64], room: usize) -> Option<Self> {
        let (&[sums_len, places, changes], lists) = numbers.split_first_chunk()?;
        let (places, lists) = lists.split_at_checked(length(places, room)?)?;
        let (changes, weights) = lists.split_at_checked(length(changes, room)?)?;
        length(weights.len() as u64, room)?;
        Some(Self {
            sums_len: length(sums_len, room)?,
            places: places.to_vec(),
            changes: entries(changes)?,
            weights: entries(weights)?,
        })
    }

    /// The table after its change, or the number of the first refusal, and the slice of the sums.
    fn made(&self, calls: &Calls) -> (Made, Vec<u32>) {
        let mut sums = vec![CANARY; self.sums_len];
        let made = (calls.new)(&self.weights, &mut sums);
        let changed = made.and_then(|mut table| {
            let lists = (&self.places, &self.changes);
            (calls.update_weights)(&mut table, &mut sums, lists.0, lists.1).map(|()| table)
        });
        (changed, sums)
    }
}

/// Picks one after another: `pick G PICKS BUDGET ..`. Their indices want room too.
#[derive(Clone, Debug, PartialEq, Eq)]
pub struct Picking {
    pub from: State,
    pub picks: usize,
    pub budget: u64,
    pub table: Changed,
}

impl Picking {
    /// The numbers of the line.
    #[must_use]
    pub fn numbers(&self) -> Vec<u64> {
        [&[self.picks as u64, self.budget], &self.table.numbers()[..]].concat()
    }

    /// The call with these numbers, if it is one.
    #[must_use]
    pub fn read(from: State, numbers: &[u64], room: usize) -> Option<Self> {
        let (&[picks, budget], table) = numbers.split_first_chunk()?;
        Some(Self {
            from,
            picks: length(picks, room)?,
            budget,
            table: Changed::read(table, room)?,
        })
    }

    /// The answer where the calls are made so: the indices where none is refused. The first that is refused is the last.
    #[must_use]
    pub fn answer(&self, calls: &Calls) -> Answer {
        let (made, sums) = self.table.made(calls);
        let table = match made {
            Ok(table) => table,
            Err(number) => return Answer::new(&Ended::refused(number, self.from), &[&sums], &[]),
        };
        let mut all = Ended::refused(0, self.from);
        let mut indices = Vec::new();
        for _ in 0..self.picks {
            let picked = (calls.pick)(all.state, table, &sums, self.budget - all.words);
            all.words += picked.words;
            all.state = picked.state;
            if picked.number != 0 {
                all.number = picked.number;
                indices.clear();
                break;
            }
            indices.push(picked.count as u32);
        }
        Answer::new(&all, &[&sums], &indices)
    }
}

/// A lookup: `weight G PLACE ..`.
#[derive(Clone, Debug, PartialEq, Eq)]
pub struct Looking {
    pub from: State,
    pub place: u64,
    pub table: Changed,
}

impl Looking {
    /// The numbers of the line.
    #[must_use]
    pub fn numbers(&self) -> Vec<u64> {
        [&[self.place], &self.table.numbers()[..]].concat()
    }

    /// The call with these numbers, if it is one.
    #[must_use]
    pub fn read(from: State, numbers: &[u64], room: usize) -> Option<Self> {
        let (&place, table) = numbers.split_first()?;
        Some(Self {
            from,
            place,
            table: Changed::read(table, room)?,
        })
    }

    /// The answer where the calls are made so: the weight, if there is one.
    #[must_use]
    pub fn answer(&self, calls: &Calls) -> Answer {
        let (made, sums) = self.table.made(calls);
        let looked = made.and_then(|table| (calls.weight)(table, &sums, self.place));
        let (number, weight) = match looked {
            Ok(weight) => (0, weight),
            Err(number) => (number, None),
        };
        let ended = Ended::refused(number, self.from);
        Answer::new(&ended, &[&sums], weight.as_slice())
    }
}

#[cfg(test)]
mod tests {
    use super::{Changed, Looking, Picking};
    use crate::answer::digest;
    use crate::weighing::RAND;
    use crate::words::giving;

    /// The weights 2, 0, 3, of which place 1 is changed to 4.
    fn changed() -> Changed {
        Changed {
            sums_len: 3,
            places: vec![1],
            changes: vec![4],
            weights: vec![2, 0, 3],
        }
    }

    #[test]
    fn a_lookup_is_of_the_table_after_its_change() {
        let look = |place| {
            let call = Looking {
                from: [0; 4],
                place,
                table: changed(),
            };
            assert_eq!(
                Looking::read([0; 4], &call.numbers(), 9),
                Some(call.clone())
            );
            call.answer(&RAND)
        };
        let answer = look(1);
        assert_eq!((answer.number, answer.values), (0, vec![4]));
        assert_eq!(answer.digest, digest(&[&[2, 6, u32::MAX]]));
        assert_eq!(look(3).values, []);
    }

    /// The second pick has what the first has left of the budget.
    #[test]
    fn picks_share_a_budget() {
        let pick = |picks, budget| {
            let call = Picking {
                from: giving(1 << 31, 0, 1),
                picks,
                budget,
                table: changed(),
            };
            let read = Picking::read(call.from, &call.numbers(), 9);
            assert_eq!(read, Some(call.clone()));
            call.answer(&RAND)
        };
        let one = pick(1, 1);
        assert_eq!((one.number, one.words, one.values.len()), (0, 1, 1));
        let spent = pick(2, 1);
        assert_eq!((spent.number, spent.words), (13, 1));
        assert_eq!((spent.values.len(), spent.state), (0, one.state));
        assert_eq!(pick(2, 9).values[0], one.values[0]);
        assert_eq!(pick(0, 0).number, 0);
    }

    #[test]
    fn the_first_refusal_is_told() {
        let answer = |table| {
            let from = [0; 4];
            let call = Picking {
                from,
                picks: 1,
                budget: 1,
                table,
            };
            call.answer(&RAND)
        };
        assert_eq!(answer(changed()).number, 12);
        let weights = vec![];
        assert_eq!(
            answer(Changed {
                weights,
                ..changed()
            })
            .number,
            2
        );
        let places = vec![9];
        let refused = answer(Changed {
            places,
            ..changed()
        });
        assert_eq!(refused.number, 6);
        assert_eq!(refused.digest, digest(&[&[2, 2, u32::MAX]]));
    }
}
