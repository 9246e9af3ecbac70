//! What the division of a rejecting draw costs. rand works its threshold out once for a table or a sample, the port once for a pick or a sample;
//! between them stand copies of rand's draw that do so for each draw, or for each word.

use std::collections::HashSet;
use std::hint::black_box;

use rand::Rng;
use rand::distr::Distribution;
use rand::distr::uniform::{Error, SampleBorrow, SampleUniform, UniformSampler};
use rand::distr::weighted::{Weight, WeightedIndex};
use rand::rngs::Xoshiro256PlusPlus as Rand;
use reference::words::HALF_DROPPED;

use crate::numbers::grouped;
use crate::samples;
use crate::sides::{Case, Timed, answer, theirs};
use crate::weights::{pick, weights};

/// What stands beside the port: rand, and the copies.
const OTHERS: &[&str] = &["rand", "dividing by draw", "dividing by word"];

pub fn cases() -> Vec<Case> {
    let lists = [
        weights(2),
        weights(10),
        half_dropped(10),
        half_dropped(1000),
    ];
    let picks = lists.into_iter().map(picks);
    picks.chain([163, 2000].map(rejections)).collect()
}

/// So many weights, nearly equal, with a total at which half of all words are dropped.
fn half_dropped(count: u32) -> Vec<u32> {
    let mut weights = vec![HALF_DROPPED / count; count as usize];
    weights[0] += HALF_DROPPED % count;
    weights
}

/// Picks by these weights.
fn picks(weights: Vec<u32>) -> Case {
    let total = number(weights.iter().sum());
    let size = format!("{} weights of {total}", grouped(weights.len() as u64));
    let sides = move || {
        let sides = pick(&weights).with(copied_pick::<DRAW>(&weights));
        sides.with(copied_pick::<WORD>(&weights))
    };
    Case {
        others: OTHERS,
        ..Case::new("`sample` (pick)", size, sides)
    }
}

/// Samples by rejection where half of all words are dropped.
fn rejections(amount: u32) -> Case {
    let size = format!("{} of {}", grouped(amount.into()), number(HALF_DROPPED));
    let sides = move || {
        let sides = samples::sides(amount, HALF_DROPPED).with(copied_sample::<DRAW>(amount));
        sides.with(copied_sample::<WORD>(amount))
    };
    Case {
        others: OTHERS,
        ..Case::new("`sample` (rejection)", size, sides)
    }
}

fn number(number: u32) -> String {
    match number {
        HALF_DROPPED => "2^31 + 1".to_owned(),
        _ => grouped(number.into()),
    }
}

/// A pick from rand's own table, with such draws.
fn copied_pick<const OFTEN: bool>(weights: &[u32]) -> impl Timed + 'static {
    let table = table::<OFTEN>(weights);
    theirs(table, |rng, table| table.sample(rng), answer)
}

fn table<const OFTEN: bool>(weights: &[u32]) -> WeightedIndex<Each<OFTEN>> {
    let numbers = weights.iter().map(|&weight| Each(weight));
    WeightedIndex::new(numbers).expect("a good table")
}

/// A sample by rejection, with such draws.
fn copied_sample<const OFTEN: bool>(amount: u32) -> impl Timed + 'static {
    let call = |rng: &mut Rand, amount: &mut usize| sample::<OFTEN>(rng, *amount);
    theirs(amount as usize, call, answer)
}

/// A set of the indices, and a list of them in order.
fn sample<const OFTEN: bool>(rng: &mut Rand, amount: usize) -> Vec<u32> {
    let below = Below::<OFTEN> {
        range: black_box(HALF_DROPPED),
    };
    let mut held = HashSet::with_capacity(amount);
    let mut indices = Vec::with_capacity(amount);
    while indices.len() < amount {
        let index = below.draw(rng);
        if held.insert(index) {
            indices.push(index);
        }
    }
    indices
}

/// How often a copy divides.
const DRAW: bool = false;
const WORD: bool = true;

/// A number below which draws divide so often.
#[derive(Clone, Copy, PartialEq, PartialOrd)]
struct Each<const OFTEN: bool>(u32);

/// The draw below such a number.
struct Below<const OFTEN: bool> {
    range: u32,
}

impl<const OFTEN: bool> Below<OFTEN> {
    /// The compiler would work out above the loop what it can see is the same for each word. So both copies have a black box there, and differ in the
    /// division alone.
    fn draw<R: Rng + ?Sized>(&self, rng: &mut R) -> u32 {
        let of_draw = threshold(self.range);
        loop {
            let threshold = match OFTEN {
                DRAW => black_box(of_draw),
                WORD => threshold(black_box(self.range)),
            };
            let product = u64::from(rng.next_u32()) * u64::from(self.range);
            if product as u32 >= threshold {
                return (product >> 32) as u32;
            }
        }
    }
}

/// 2^32 mod `range`, by a division of 32 bits.
fn threshold(range: u32) -> u32 {
    range.wrapping_neg() % range
}

impl<const OFTEN: bool> Weight for Each<OFTEN> {
    const ZERO: Self = Self(0);

    fn checked_add_assign(&mut self, more: &Self) -> Result<(), ()> {
        self.0 = self.0.checked_add(more.0).ok_or(())?;
        Ok(())
    }
}

impl<const OFTEN: bool> SampleUniform for Each<OFTEN> {
    type Sampler = Below<OFTEN>;
}

impl<const OFTEN: bool> UniformSampler for Below<OFTEN> {
    type X = Each<OFTEN>;

    /// rand's table draws from 0 on.
    fn new<L, H>(low: L, high: H) -> Result<Self, Error>
    where
        L: SampleBorrow<Self::X>,
        H: SampleBorrow<Self::X>,
    {
        let range = high.borrow().0.checked_sub(low.borrow().0);
        let range = range.filter(|&range| range > 0).ok_or(Error::EmptyRange)?;
        Ok(Self { range })
    }

    fn new_inclusive<L, H>(low: L, high: H) -> Result<Self, Error>
    where
        L: SampleBorrow<Self::X>,
        H: SampleBorrow<Self::X>,
    {
        Self::new(*low.borrow(), Each(high.borrow().0 + 1))
    }

    fn sample<R: Rng + ?Sized>(&self, rng: &mut R) -> Each<OFTEN> {
        Each(self.draw(rng))
    }
}

#[cfg(test)]
mod tests {
    use rand::distr::Distribution;
    use rand::distr::weighted::WeightedIndex;
    use rand::seq::index;
    use reference::words::HALF_DROPPED;
    use reference::{from_state, some_state};

    use super::{DRAW, WORD, half_dropped, sample, table};

    #[test]
    fn the_copies_draw_what_rand_draws() {
        let weights = half_dropped(10);
        let rands = WeightedIndex::<u32>::new(&weights).expect("a good table");
        let copies = (table::<DRAW>(&weights), table::<WORD>(&weights));
        for number in 0..100 {
            let [mut rng, mut draw, mut word] = [(); 3].map(|()| from_state(some_state(number)));
            let picked = rands.sample(&mut rng);
            assert_eq!(copies.0.sample(&mut draw), picked);
            assert_eq!(copies.1.sample(&mut word), picked);
            let sampled = index::sample(&mut rng, HALF_DROPPED as usize, 163).into_vec();
            let as_usize = |indices: Vec<u32>| -> Vec<usize> {
                indices.into_iter().map(|index| index as usize).collect()
            };
            assert_eq!(as_usize(sample::<DRAW>(&mut draw, 163)), sampled);
            assert_eq!(as_usize(sample::<WORD>(&mut word, 163)), sampled);
            assert_eq!([&draw, &word], [&rng, &rng]);
        }
    }
}
