//! New tables.

use reference::weighing::Made;

use super::faults;
use super::{Answer, Calls, RAND, random, smaller};
use crate::inputs::{Source, smaller as smaller_numbers};
use crate::kind::Kind;
use crate::slices::Lent;

/// Calls of `WeightedIndex::new`.
pub struct New {
    port: Calls,
}

/// The weights, and how many entries are lent for the sums.
#[derive(Clone, Debug)]
pub struct Input {
    weights: Vec<u32>,
    sums_len: usize,
}

/// Every list of up to four of these is tried.
const SMALL: [u32; 7] = [0, 1, 2, 3, (1 << 31) - 1, 1 << 31, u32::MAX];
const LONGEST_SMALL: usize = 4;

/// Counts of weights that are tried with every total of [`totals`].
const COUNTS: [usize; 9] = [1, 2, 3, 5, 17, 100, 1000, 1999, 2000];

/// Between the counts to the last of those, so many are left out.
const GAP: usize = 13;

impl Kind for New {
    const NAME: &'static str = "WeightedIndex::new";
    const FAULTS: &'static [&'static str] = &[faults::LAST_SUM];
    type Input = Input;
    type Answer = Answer<Made>;

    fn new(plant: Option<&str>) -> Self {
        Self {
            port: faults::planted(plant),
        }
    }

    fn fixed(mut visit: impl FnMut(Input)) {
        for weights in lists(&SMALL, LONGEST_SMALL) {
            with_slices(weights, &mut visit);
        }
        let mut source = Source::new(1);
        for count in COUNTS {
            for total in totals() {
                with_slices(random::adding_to(total, count, &mut source), &mut visit);
            }
            with_slices(vec![0; count], &mut visit);
        }
        for count in (1..=2000).step_by(GAP) {
            let weights = (0..count).map(|_| source.below(1 << 20)).collect();
            with_slices(weights, &mut visit);
        }
    }

    fn random(source: &mut Source) -> Input {
        let mut weights = random::weights(source);
        if source.below(256) == 0 {
            weights.clear();
        }
        let needed = weights.len().saturating_sub(1);
        let sums_len = match source.below(16) {
            0 => needed.saturating_sub(1),
            1 => source.below(needed as u32 + 1) as usize,
            2..8 => needed + source.below(6) as usize,
            _ => needed,
        };
        Input { weights, sums_len }
    }

    fn smaller(input: &Input) -> Vec<Input> {
        let Input { weights, sums_len } = input;
        let lists = smaller::lists(weights).into_iter().map(|less| Input {
            weights: less,
            sums_len: *sums_len,
        });
        let slices = smaller_numbers(*sums_len as u64).map(|len| Input {
            weights: weights.clone(),
            sums_len: len as usize,
        });
        lists.chain(slices).collect()
    }

    fn rand(input: &Input) -> Answer<Made> {
        answer(&RAND, input)
    }

    fn port(&self, input: &Input) -> Answer<Made> {
        answer(&self.port, input)
    }
}

fn answer(calls: &Calls, input: &Input) -> Answer<Made> {
    let lent = Lent::new(input.sums_len);
    Answer::new(lent, |sums| (calls.new)(&input.weights, sums))
}

/// All lists of up to so many of these entries.
pub fn lists<T: Copy>(entries: &[T], longest: usize) -> Vec<Vec<T>> {
    let mut all = vec![Vec::new()];
    let mut start = 0;
    for _ in 0..longest {
        let end = all.len();
        for at in start..end {
            for &entry in entries {
                all.push([&all[at][..], &[entry]].concat());
            }
        }
        start = end;
    }
    all
}

/// The powers of two to 2^32 and their neighbours, but for 2^32 + 1.
fn totals() -> impl Iterator<Item = u64> {
    let powers = (0..=32).map(|exponent| 1 << exponent);
    let near = powers.flat_map(|power: u64| [power - 1, power, power + 1]);
    near.filter(|total| (1..=1 << 32).contains(total))
}

/// The weights with a slice of exactly the entries for their sums, longer ones, one that is an entry short, and none.
fn with_slices(weights: Vec<u32>, visit: &mut impl FnMut(Input)) {
    let needed = weights.len().saturating_sub(1);
    let mut lens = vec![0, needed.saturating_sub(1), needed, needed + 1, needed + 5];
    lens.dedup();
    for sums_len in lens {
        visit(Input {
            weights: weights.clone(),
            sums_len,
        });
    }
}

#[cfg(test)]
mod tests {
    use super::{Source, lists, random, totals};

    #[test]
    fn all_short_lists_are_there() {
        assert_eq!(lists(&[0, 1], 2).len(), 1 + 2 + 4);
        assert_eq!(lists(&[0, 1], 2)[6], [1, 1]);
    }

    #[test]
    fn weights_add_up_to_their_total() {
        let mut source = Source::new(1);
        for total in totals() {
            for count in [2, 3, 10] {
                let weights = random::adding_to(total, count, &mut source);
                assert_eq!(weights.len(), count);
                let sum: u64 = weights.iter().copied().map(u64::from).sum();
                assert_eq!(sum, total);
            }
        }
    }
}
