//! Time, taken of the sides in turn.

use std::time::{Duration, Instant};

use crate::seed::state;
use crate::sides::Sides;

/// How long is measured. The machine may do other things at the same time, and may be faster at one time than at another: so there are many
/// blocks, each side's is compared with its neighbour alone, and the median of these ratios counts. They are shorter than the time for which
/// an operating system lets other work have the processor, so that most are not interrupted.
pub struct Plan {
    /// The time that the blocks of a case take together, unless they are the fewest.
    pub time: Duration,
    /// The time that a block of the slowest side has at most, unless one call takes more, and half of which it has at least.
    pub block: Duration,
}

/// The fewest blocks of each side.
const FEWEST: u32 = 15;

/// A faster side's block has at least this part of a block's time.
const LEAST: u32 = 10;

/// How often a time is taken to find out how many calls a block has, so that none counts in which other work had the processor.
const TRIES: usize = 3;

/// Of all blocks: the medians of the nanoseconds that a call takes on each side, and the ratios of the port's block, which is the last, to each
/// neighbour.
pub struct Measured {
    pub times: Vec<f64>,
    pub ratios: Vec<Middle>,
}

/// The middle of some numbers: their median, and the quartiles, between which half of them lie.
#[derive(Clone, Copy, Debug, PartialEq)]
pub struct Middle {
    pub median: f64,
    pub quartiles: [f64; 2],
}

/// What a block has: so many calls, and how many times over each side makes them.
struct Block {
    calls: u32,
    rounds: Vec<u32>,
}

impl Plan {
    /// Measures the sides. In a block they have the same state and make the same calls, and the side that goes first takes turns.
    pub fn measure(&self, sides: &mut Sides) -> Measured {
        let Block { calls, rounds } = self.block(sides);
        let port = rounds.len() - 1;
        let mut blocks: Vec<Vec<f64>> = Vec::new();
        let started = Instant::now();
        for block in (0..).take_while(|&block| block < FEWEST || started.elapsed() < self.time) {
            let first = block as usize % rounds.len();
            let times = sides.times(state(block), calls, &rounds, first);
            let nanoseconds = times.iter().zip(&rounds).map(|(time, &rounds)| {
                time.as_nanos() as f64 / f64::from(calls) / f64::from(rounds)
            });
            blocks.push(nanoseconds.collect());
        }
        let time = |side: usize| median(blocks.iter().map(|block| block[side]).collect());
        let ratio = |side: usize| {
            let ratios = blocks.iter().map(|block| block[port] / block[side]);
            Middle::of(ratios.collect())
        };
        Measured {
            times: (0..=port).map(time).collect(),
            ratios: (0..port).map(ratio).collect(),
        }
    }

    /// Doubles the calls until the slowest side takes half a block. A side that is far faster makes them many times over: a time of
    /// few nanoseconds cannot be read, and most of it would be what another side has pushed out of the caches.
    fn block(&self, sides: &mut Sides) -> Block {
        let once = vec![1; sides.timed.len()];
        let mut calls = 1;
        loop {
            let tries = [(); TRIES].map(|()| sides.times(state(0), calls, &once, 0));
            let least = |side: usize| {
                let times = tries.iter().map(|times| times[side]);
                times.fold(Duration::MAX, Duration::min)
            };
            let times: Vec<Duration> = (0..once.len()).map(least).collect();
            if times.iter().any(|&time| time >= self.block / 2) {
                let short = (self.block / LEAST).as_nanos();
                let rounds = |time: &Duration| short.div_ceil(time.as_nanos().max(1)) as u32;
                let rounds = times.iter().map(rounds).collect();
                return Block { calls, rounds };
            }
            calls *= 2;
        }
    }
}

/// The nanoseconds of one call of each side, for calls that take so long that more would be too many.
pub fn once(sides: &mut Sides) -> Vec<f64> {
    let rounds = vec![1; sides.timed.len()];
    let times = sides.times(state(0), 1, &rounds, 0);
    times.iter().map(|time| time.as_nanos() as f64).collect()
}

impl Middle {
    pub fn of(mut numbers: Vec<f64>) -> Self {
        numbers.sort_by(f64::total_cmp);
        Self {
            median: at_part(&numbers, 0.5),
            quartiles: [0.25, 0.75].map(|part| at_part(&numbers, part)),
        }
    }
}

/// The middle of these numbers, or the mean of the two in the middle.
pub fn median(numbers: Vec<f64>) -> f64 {
    Middle::of(numbers).median
}

/// The number at this part of the way through sorted numbers, which is between two of them where it falls on none.
fn at_part(sorted: &[f64], part: f64) -> f64 {
    let place = part * (sorted.len() - 1) as f64;
    let (below, above) = (
        sorted[place.floor() as usize],
        sorted[place.ceil() as usize],
    );
    below + (above - below) * place.fract()
}

#[cfg(test)]
mod tests {
    use super::{Middle, median};

    #[test]
    fn the_median_is_the_middle_of_the_sorted_numbers() {
        assert_eq!(median(vec![5.0]), 5.0);
        assert_eq!(median(vec![9.0, 1.0, 2.0]), 2.0);
        assert_eq!(median(vec![4.0, 1.0, 100.0, 2.0]), 3.0);
    }

    #[test]
    fn half_of_the_numbers_lie_between_the_quartiles() {
        let middle = Middle::of(vec![9.0, 1.0, 5.0, 3.0, 7.0]);
        assert_eq!(middle.quartiles, [3.0, 7.0]);
        let middle = Middle::of(vec![4.0, 1.0, 2.0, 3.0]);
        assert_eq!(middle.quartiles, [1.75, 3.25]);
        assert_eq!(Middle::of(vec![5.0]).quartiles, [5.0, 5.0]);
    }
}
