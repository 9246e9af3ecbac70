//! The two draws below a bound, as rand makes them, and a draw within a budget of words.

use rand::distr::{Distribution, Uniform};
use rand::rngs::Xoshiro256PlusPlus;
use rand::{Rng, RngExt};

use crate::Counting;
use crate::words::WORDS;

/// The number of the refusal for a draw that needs a word more than its budget (SCOPE 2).
pub const BUDGET_EXHAUSTED: u64 = 13;

/// A drawn value, and the words that were read for it.
#[derive(Clone, Copy, Debug, PartialEq, Eq)]
pub struct Drawn {
    pub value: u32,
    pub words: u64,
}

/// A draw below the number that it is given. The generator is advanced.
pub type Draw = fn(&mut Xoshiro256PlusPlus, u32) -> Drawn;

/// A way to make each of the two draws: rand's, or one with a fault in it.
#[derive(Clone, Copy, Debug)]
pub struct Draws {
    pub bounded: Draw,
    pub rejecting: Draw,
}

/// rand's draws.
pub const RAND: Draws = Draws { bounded, rejecting };

/// rand's bounded draw.
pub fn bounded(rng: &mut Xoshiro256PlusPlus, r: u32) -> Drawn {
    counted(rng, |rng| rng.random_range(..r))
}

/// rand's rejecting draw.
///
/// # Panics
///
/// If `r` is 0.
pub fn rejecting(rng: &mut Xoshiro256PlusPlus, r: u32) -> Drawn {
    let range = Uniform::new(0, r).expect("r is at least 1");
    counted(rng, |rng| range.sample(rng))
}

/// A rejecting draw at a threshold of any size, written anew from SCOPE 5. At 2^32 mod `r` it is rand's.
pub fn rejecting_at(rng: &mut Xoshiro256PlusPlus, r: u32, threshold: u64) -> Drawn {
    counted(rng, |rng| {
        loop {
            let product = u64::from(rng.next_u32()) * u64::from(r);
            if product % WORDS >= threshold {
                break (product / WORDS) as u32;
            }
        }
    })
}

/// The same at a threshold that is one too low: a fault to be found. Below an even `r` no word tells it from the draw that is due.
pub fn one_too_low(rng: &mut Xoshiro256PlusPlus, r: u32) -> Drawn {
    rejecting_at(rng, r, (WORDS % u64::from(r)).saturating_sub(1))
}

/// Makes a draw and counts the words that it reads.
pub fn counted(rng: &mut Xoshiro256PlusPlus, draw: impl FnOnce(&mut Counting) -> u32) -> Drawn {
    let mut counting = Counting::new(rng.clone());
    let value = draw(&mut counting);
    let words = counting.words();
    *rng = counting.into_inner();
    Drawn { value, words }
}

/// A draw within a budget of words: 0, the value and the words read; or 13, 0 and the budget, where the draw reads more
/// words than that. The generator has then advanced by as many words as the budget.
///
/// rand knows no budget: its draw is made in full, and where that took too many words, the budget is read from the
/// generator as it was before.
pub fn within(
    rng: &mut Xoshiro256PlusPlus,
    budget: u64,
    draw: impl FnOnce(&mut Xoshiro256PlusPlus) -> Drawn,
) -> [u64; 3] {
    let before = rng.clone();
    let drawn = draw(rng);
    if drawn.words <= budget {
        return [0, drawn.value.into(), drawn.words];
    }
    *rng = before;
    for _ in 0..budget {
        rng.next_u32();
    }
    [BUDGET_EXHAUSTED, 0, budget]
}

#[cfg(test)]
mod tests {
    use rand::Rng;

    use super::{bounded, rejecting, rejecting_at, within};
    use crate::words::{self, HALF_DROPPED, WORDS, giving};
    use crate::{from_state, state};

    #[test]
    fn a_budget_of_one_ends_between_two_words() {
        let start = from_state(giving(715827882, 2863311531, 1));
        let mut rng = start.clone();
        assert_eq!(within(&mut rng, 1, |rng| bounded(rng, 6)), [13, 0, 1]);
        assert_eq!(rng.next_u32(), 2863311531);
        let mut rng = start.clone();
        assert_eq!(within(&mut rng, 0, |rng| bounded(rng, 6)), [13, 0, 0]);
        assert_eq!(rng, start);
        assert_eq!(within(&mut rng, 2, |rng| bounded(rng, 6)), [0, 1, 2]);
    }

    #[test]
    fn at_the_threshold_of_its_range_a_draw_is_rands() {
        for r in [1, 2, 3, 6, 1000, 44_011, HALF_DROPPED, u32::MAX] {
            for (a, b) in words::rejecting(r) {
                let start = from_state(giving(a, b, 1));
                let [mut rng, mut same] = [start.clone(), start];
                let drawn = rejecting_at(&mut rng, r, WORDS % u64::from(r));
                assert_eq!(drawn, rejecting(&mut same, r), "{r}: {a}, {b}");
                assert_eq!(rng, same);
            }
        }
    }

    #[test]
    fn a_spent_draw_has_read_its_budget() {
        let mut rng = from_state(giving(0, 1, 1));
        let mut same = rng.clone();
        assert_eq!(within(&mut rng, 1, |rng| rejecting(rng, 6)), [13, 0, 1]);
        same.next_u32();
        assert_eq!(state(&rng), state(&same));
    }
}
