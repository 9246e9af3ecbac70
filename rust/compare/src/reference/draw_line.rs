//! The lines that ask for an output or one draw, and what they answer. Four zeros are taken too: all their words are 0.

use std::convert::Infallible;

use rand::distr::{Distribution, Uniform};
use rand::rngs::Xoshiro256PlusPlus;
use rand::{Rng, RngExt, TryRng};

use crate::answer::Answer;
use crate::draws::{BUDGET_EXHAUSTED, Drawn, Draws, within};
use crate::sampling::Ended;
use crate::words::WORDS;
use crate::{State, from_state, state};

/// A draw below `r` within a budget: `random_range G R BUDGET`, `uniform_int G R BUDGET`.
#[derive(Clone, Debug, PartialEq, Eq)]
pub struct Bounded {
    pub from: State,
    pub r: u32,
    pub budget: u64,
}

impl Bounded {
    /// The call with these numbers, if it is one.
    #[must_use]
    pub fn read(from: State, numbers: &[u64]) -> Option<Self> {
        let &[r, budget] = numbers else {
            return None;
        };
        let r = u32::try_from(r).ok().filter(|&r| r > 0)?;
        Some(Self { from, r, budget })
    }

    /// The answer of the bounded draw.
    #[must_use]
    pub fn random_range(&self, draws: &Draws) -> Answer {
        self.drawn(
            |rng| (draws.bounded)(rng, self.r),
            || Zeros::drawn(|rng| rng.random_range(..self.r)),
        )
    }

    /// The answer of the rejecting draw.
    ///
    /// # Panics
    ///
    /// If rand takes no such bound.
    #[must_use]
    pub fn uniform_int(&self, draws: &Draws) -> Answer {
        let of_zeros = || match WORDS % u64::from(self.r) {
            0 => {
                let range = Uniform::new(0, self.r).expect("r is at least 1");
                Zeros::drawn(|rng| range.sample(rng))
            }
            // A word of 0 is dropped, and no other comes.
            _ => None,
        };
        self.drawn(|rng| (draws.rejecting)(rng, self.r), of_zeros)
    }

    /// The answer to a draw that is made so, from four zeros in the second way. None is a draw without end.
    fn drawn(
        &self,
        draw: impl FnOnce(&mut Xoshiro256PlusPlus) -> Drawn,
        of_zeros: impl FnOnce() -> Option<Drawn>,
    ) -> Answer {
        let ([number, value, words], state) = if self.from == [0; 4] {
            let drawn = of_zeros().filter(|drawn| drawn.words <= self.budget);
            let ended = match drawn {
                Some(Drawn { value, words }) => [0, value.into(), words],
                None => [BUDGET_EXHAUSTED, 0, self.budget],
            };
            (ended, self.from)
        } else {
            let mut rng = from_state(self.from);
            let ended = within(&mut rng, self.budget, draw);
            (ended, state(&rng))
        };
        let ended = Ended {
            number,
            count: value,
            words,
            state,
        };
        one_value(&ended)
    }
}

/// The answer to a call whose count is its only value, where it is not refused.
#[must_use]
pub fn one_value(ended: &Ended) -> Answer {
    let value = ended.count as u32;
    let values = if ended.number == 0 { &[value][..] } else { &[] };
    Answer::new(ended, &[], values)
}

/// An output of 64 bits and the state after it.
pub type NextU64 = fn(State) -> (u64, State);

/// rand's output. Four zeros give 0 and stay, for a step shifts, turns and adds.
#[must_use]
pub fn next_u64(from: State) -> (u64, State) {
    if from == [0; 4] {
        return (0, from);
    }
    let mut rng = from_state(from);
    (rng.next_u64(), state(&rng))
}

/// The answer to a line `next_u64 G`: both halves of the output, the upper one first.
#[must_use]
pub fn output(from: State, next_u64: NextU64) -> Answer {
    let (output, state) = next_u64(from);
    let ended = Ended {
        number: 0,
        count: 0,
        words: 1,
        state,
    };
    Answer::new(&ended, &[], &[(output >> 32) as u32, output as u32])
}

/// A generator whose words are all 0, which rand's draws take as any other.
#[derive(Default)]
struct Zeros {
    words: u64,
}

impl Zeros {
    /// A draw from it.
    fn drawn(draw: impl FnOnce(&mut Self) -> u32) -> Option<Drawn> {
        let mut zeros = Self::default();
        let value = draw(&mut zeros);
        let words = zeros.words;
        Some(Drawn { value, words })
    }
}

impl TryRng for Zeros {
    type Error = Infallible;

    fn try_next_u32(&mut self) -> Result<u32, Infallible> {
        self.words += 1;
        Ok(0)
    }

    fn try_next_u64(&mut self) -> Result<u64, Infallible> {
        self.words += 1;
        Ok(0)
    }

    fn try_fill_bytes(&mut self, _: &mut [u8]) -> Result<(), Infallible> {
        unimplemented!("words are counted, bytes are not")
    }
}

#[cfg(test)]
mod tests {
    use super::{Bounded, next_u64, output};
    use crate::draws::RAND;
    use crate::words::giving;

    fn draw(r: u32, budget: u64) -> Bounded {
        Bounded {
            from: [0; 4],
            r,
            budget,
        }
    }

    #[test]
    fn four_zeros_give_zeros() {
        for r in [1, 2, 3, 6, u32::MAX] {
            let answer = draw(r, 9).random_range(&RAND);
            assert_eq!((answer.number, answer.words), (0, 1));
            assert_eq!((answer.values, answer.state), (vec![0], [0; 4]));
            assert_eq!(draw(r, 0).random_range(&RAND).number, 13);
        }
        let powers = [1, 2, 1 << 31].map(|r| draw(r, 9).uniform_int(&RAND));
        assert!(powers.iter().all(|answer| answer.words == 1));
        let endless = draw(6, 9).uniform_int(&RAND);
        assert_eq!((endless.number, endless.words), (13, 9));
        assert!(endless.values.is_empty());
        let answer = output([0; 4], next_u64);
        assert_eq!((answer.number, answer.words), (0, 1));
        assert_eq!((answer.values, answer.state), (vec![0, 0], [0; 4]));
    }

    #[test]
    fn an_output_is_two_halves() {
        let answer = output(giving(5, 6, 7), next_u64);
        assert_eq!(answer.values, [5, 7]);
    }

    #[test]
    fn a_draw_is_a_value_or_none() {
        let from = giving(715827882, 2863311531, 1);
        let drawn = |budget| Bounded { from, r: 6, budget }.random_range(&RAND);
        assert_eq!(drawn(2).values, [1]);
        assert_eq!((drawn(1).number, drawn(1).values), (13, vec![]));
        assert_eq!(Bounded::read(from, &[0, 1]), None);
        assert_eq!(Bounded::read(from, &[1 << 32, 1]), None);
        assert_eq!(Bounded::read(from, &[1]), None);
    }
}
