//! rand's generator, with its state laid open and the words that it gives counted. rand's file is not edited for this.
//!
//! With it, rand's answers to the lines of a list: what program `compare` holds a run to and program `list` writes.

pub mod answer;
pub mod book;
pub mod book_by_rand;
pub mod book_jobs;
pub mod book_text;
pub mod call;
pub mod choose_line;
pub mod choosing;
pub mod coins;
pub mod draw_line;
pub mod draws;
pub mod filling;
pub mod generator;
pub mod line;
pub mod methods;
mod number;
pub mod panics;
pub mod plain_list;
pub mod sample_line;
pub mod sampling;
pub mod shuffle_line;
pub mod shuffling;
pub mod states;
pub mod stratified_line;
pub mod stratifying;
pub mod viewing;
pub mod weighing;
pub mod weights_line;
pub mod words;

use std::convert::Infallible;
use std::fmt::{self, Write};

use rand::rngs::Xoshiro256PlusPlus;
use rand::{Rng, SeedableRng, TryRng};

/// The four words of a generator's state.
pub type State = [u64; 4];

/// The state of a generator.
///
/// rand keeps them in a private field, and the derived `Debug` writes that field in full: the numbers after the bracket.
///
/// # Panics
///
/// If that text does not hold four numbers of 64 bits there.
#[must_use]
pub fn state(rng: &Xoshiro256PlusPlus) -> State {
    let mut list = List::default();
    write!(list, "{rng:?}").unwrap_or_else(|_| panic!("no list of numbers in {rng:?}"));
    assert!(list.count == 4, "no state of four words in {rng:?}");
    list.numbers
}

/// Reads the numbers of a list while its text is being written: no text is kept, for this is done at every call that is
/// compared.
#[derive(Default)]
struct List {
    open: bool,
    count: usize,
    numbers: State,
}

impl Write for List {
    fn write_str(&mut self, text: &str) -> fmt::Result {
        for byte in text.bytes() {
            self.take(byte).ok_or(fmt::Error)?;
        }
        Ok(())
    }
}

impl List {
    /// The next character. None where there are more than four numbers or one passes 2^64 - 1.
    fn take(&mut self, byte: u8) -> Option<()> {
        match byte {
            b'[' => {
                self.open = true;
                self.count = 1;
            }
            b']' => self.open = false,
            b',' if self.open => self.count += 1,
            b'0'..=b'9' if self.open => {
                let number = self.numbers.get_mut(self.count - 1)?;
                *number = number
                    .checked_mul(10)?
                    .checked_add(u64::from(byte - b'0'))?;
            }
            _ => {}
        }
        Some(())
    }
}

/// The state of one of rand's generators, as good as any other.
#[must_use]
pub fn some_state(number: u64) -> State {
    state(&Xoshiro256PlusPlus::seed_from_u64(number))
}

/// rand's generator with these four words of state.
///
/// # Panics
///
/// If all four are 0: rand has no such generator.
#[must_use]
pub fn from_state(words: State) -> Xoshiro256PlusPlus {
    let mut seed = [0; 32];
    for (bytes, word) in seed.chunks_exact_mut(8).zip(words) {
        bytes.copy_from_slice(&word.to_le_bytes());
    }
    let rng = Xoshiro256PlusPlus::from_seed(seed);
    assert_eq!(state(&rng), words, "rand's generator takes this state");
    rng
}

/// The state after so many words.
///
/// # Panics
///
/// If all four words are 0.
#[must_use]
pub fn advanced(from: State, words: u64) -> State {
    let mut rng = from_state(from);
    for _ in 0..words {
        rng.next_u32();
    }
    state(&rng)
}

/// A generator that counts the words read from it, so that a count is never taken on trust from the way a call is written.
#[derive(Clone, Debug, PartialEq, Eq)]
pub struct Counting {
    rng: Xoshiro256PlusPlus,
    words: u64,
}

impl Counting {
    /// Counts from 0 on what is read from `rng`.
    #[must_use]
    pub fn new(rng: Xoshiro256PlusPlus) -> Self {
        Self { rng, words: 0 }
    }

    /// The words read so far. A 64-bit output counts as one.
    #[must_use]
    pub fn words(&self) -> u64 {
        self.words
    }

    /// The generator as it now stands.
    #[must_use]
    pub fn into_inner(self) -> Xoshiro256PlusPlus {
        self.rng
    }
}

/// What `call` gives from the generator of this state, the words that it reads, and the state afterwards.
///
/// # Panics
///
/// If all four words are 0.
pub fn counted<T>(from: State, call: impl FnOnce(&mut Counting) -> T) -> (T, u64, State) {
    let mut counting = Counting::new(from_state(from));
    let answer = call(&mut counting);
    let words = counting.words();
    (answer, words, state(&counting.into_inner()))
}

impl TryRng for Counting {
    type Error = Infallible;

    fn try_next_u32(&mut self) -> Result<u32, Infallible> {
        self.words += 1;
        self.rng.try_next_u32()
    }

    fn try_next_u64(&mut self) -> Result<u64, Infallible> {
        self.words += 1;
        self.rng.try_next_u64()
    }

    /// No call that is compared reads bytes, so no count of words is laid down for them.
    fn try_fill_bytes(&mut self, _: &mut [u8]) -> Result<(), Infallible> {
        unimplemented!("words are counted, bytes are not")
    }
}

#[cfg(test)]
mod tests {
    use rand::{Rng, RngExt, SeedableRng};

    use super::{Counting, Xoshiro256PlusPlus, from_state, state};

    #[test]
    fn a_state_goes_in_and_comes_out() {
        for words in [[1, 2, 3, 4], [0, 0, 0, u64::MAX], [u64::MAX, 10, 0, 256]] {
            assert_eq!(state(&from_state(words)), words);
        }
    }

    #[test]
    #[should_panic(expected = "takes this state")]
    fn rand_has_no_generator_of_four_zeros() {
        let _ = from_state([0; 4]);
    }

    #[test]
    fn words_are_counted() {
        let rng = Xoshiro256PlusPlus::seed_from_u64(1);
        let mut counting = Counting::new(rng.clone());
        counting.next_u32();
        counting.random_range(..1_u32);
        assert_eq!(counting.words(), 2);
        let mut advanced = rng;
        advanced.next_u64();
        advanced.next_u64();
        assert_eq!(counting.into_inner(), advanced);
    }
}
