//! The word of a line that says which generator the call is given.

use std::fmt;

use rand::SeedableRng;
use rand::rngs::Xoshiro256PlusPlus;

use crate::number::decimal;
use crate::{State, state};

/// The word for four zeros.
const ZERO: &str = "zero";

/// A generator as a line names it.
#[derive(Clone, Copy, Debug, PartialEq, Eq)]
pub enum Generator {
    /// That of `seed_from_u64`: a decimal number.
    Number(u64),
    /// That of `from_seed`: 32 bytes, two hex digits for each.
    Bytes([u8; 32]),
    /// Four zeros, which no seed gives: the word `zero`.
    Zero,
}

impl Generator {
    /// The generator of this state. Its bytes are a seed that gives it.
    #[must_use]
    pub fn of_state(from: State) -> Self {
        if from == [0; 4] {
            return Self::Zero;
        }
        let mut bytes = [0; 32];
        for (place, word) in bytes.chunks_exact_mut(8).zip(from) {
            place.copy_from_slice(&word.to_le_bytes());
        }
        Self::Bytes(bytes)
    }

    /// rand's state from this seed.
    #[must_use]
    pub fn state(self) -> State {
        match self {
            Self::Number(seed) => state(&Xoshiro256PlusPlus::seed_from_u64(seed)),
            Self::Bytes(seed) => state(&Xoshiro256PlusPlus::from_seed(seed)),
            Self::Zero => [0; 4],
        }
    }

    /// The generator that a word names, if it names one. 64 digits are bytes, even if all of them are decimal.
    #[must_use]
    pub fn parse(word: &str) -> Option<Self> {
        if word == ZERO {
            return Some(Self::Zero);
        }
        if word.len() != 64 {
            return decimal(word).map(Self::Number);
        }
        let mut bytes = [0; 32];
        for (byte, pair) in bytes.iter_mut().zip(word.as_bytes().chunks_exact(2)) {
            let digits = [char::from(pair[0]), char::from(pair[1])];
            let [high, low] = digits.map(|digit| digit.to_digit(16));
            *byte = (high? << 4 | low?) as u8;
        }
        Some(Self::Bytes(bytes))
    }
}

impl fmt::Display for Generator {
    fn fmt(&self, f: &mut fmt::Formatter<'_>) -> fmt::Result {
        match self {
            Self::Number(seed) => write!(f, "{seed}"),
            Self::Bytes(bytes) => {
                let mut digits = bytes.iter();
                digits.try_for_each(|byte| write!(f, "{byte:02x}"))
            }
            Self::Zero => f.write_str(ZERO),
        }
    }
}

#[cfg(test)]
mod tests {
    use super::Generator;
    use crate::some_state;

    #[test]
    fn words_name_generators() {
        let parsed = |word: &str| Generator::parse(word).map(Generator::state);
        assert_eq!(parsed("7"), Some(some_state(7)));
        assert_eq!(parsed("zero"), Some([0; 4]));
        assert_eq!(parsed(&"0".repeat(64)), Some(some_state(0)));
        assert_eq!(parsed(&"0".repeat(63)), Some(some_state(0)));
        assert_eq!(parsed(&"Af".repeat(32)), Some([0xafaf_afaf_afaf_afaf; 4]));
        let long = format!("1{}", "0".repeat(64));
        let spoilt = format!("g{}", "0".repeat(63));
        for word in ["", "Zero", "-1", "18446744073709551616", &long, &spoilt] {
            assert_eq!(parsed(word), None, "{word}");
        }
    }

    #[test]
    fn a_state_is_written_as_its_seed() {
        for from in [[1, 2, 3, 4], [0, 0, 0, 1 << 63], [0; 4], some_state(1)] {
            let word = Generator::of_state(from).to_string();
            let parsed = Generator::parse(&word);
            assert_eq!(parsed.map(Generator::state), Some(from), "{word}");
        }
    }
}
