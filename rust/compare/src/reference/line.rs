//! The lines of a list, and rand's answers to them.
//!
//! A list is text, and its first line is the class of slices. A line that is empty or starts with `#` is skipped. Any other is a
//! name, a generator and decimal numbers, with single blanks between, and is answered by one line. [`Call`] says which numbers a
//! name wants and [`Answer`] what an answer holds; a line that is no call is answered by the word `wrong`.

use std::fmt;

use crate::answer::Answer;
use crate::call::Call;
use crate::generator::Generator;
use crate::number::decimal;

/// The class of slices with which the Rattle program answers: the small one. It stands in a line of its own before all others.
pub const CLASS: &str = "s";

/// The size that no list passes, in bytes, with the line of its class: the program takes no more in that class.
pub const LARGEST_LIST: usize = 524_287;

/// What the program has room for in a class.
#[derive(Clone, Copy, Debug)]
pub struct Rooms {
    /// The entries of a slice.
    pub entries: usize,
    /// The numbers of a line.
    pub numbers: usize,
}

/// The entries of a slice of the small class.
pub const ROOM: usize = 65_537;

/// All that the small class has room for.
pub const ROOMS: Rooms = Rooms {
    entries: ROOM,
    numbers: 32_768,
};

/// The answer to a line that is no call.
pub const WRONG: &str = "wrong";

/// The kinds of line, by the names that rand has for the calls.
#[derive(Clone, Copy, Debug, PartialEq, Eq)]
pub enum Name {
    Seed,
    NextU64,
    NextU32,
    RandomRange,
    UniformInt,
    Sample,
    PartialShuffle,
    Shuffle,
    Tail,
    Head,
    SampleFill,
    IndexedSamples,
    Choose,
    ChooseStable,
    Pick,
    Weight,
    SampleStratified,
}

impl Name {
    /// All of them, in their order, with their words.
    const WORDS: [(Self, &str); 17] = [
        (Self::Seed, "seed"),
        (Self::NextU64, "next_u64"),
        (Self::NextU32, "next_u32"),
        (Self::RandomRange, "random_range"),
        (Self::UniformInt, "uniform_int"),
        (Self::Sample, "sample"),
        (Self::PartialShuffle, "partial_shuffle"),
        (Self::Shuffle, "shuffle"),
        (Self::Tail, "tail"),
        (Self::Head, "head"),
        (Self::SampleFill, "sample_fill"),
        (Self::IndexedSamples, "indexed_samples"),
        (Self::Choose, "choose"),
        (Self::ChooseStable, "choose_stable"),
        (Self::Pick, "pick"),
        (Self::Weight, "weight"),
        (Self::SampleStratified, "sample_stratified"),
    ];

    /// All of them, in their order.
    pub const ALL: [Self; Self::WORDS.len()] = {
        let mut all = [Self::Seed; Self::WORDS.len()];
        let mut place = 0;
        while place < all.len() {
            all[place] = Self::WORDS[place].0;
            place += 1;
        }
        all
    };

    /// The name that a word is.
    fn parse(word: &str) -> Option<Self> {
        let mut words = Self::WORDS.into_iter();
        words.find(|&(_, name)| name == word).map(|(name, _)| name)
    }
}

impl fmt::Display for Name {
    fn fmt(&self, f: &mut fmt::Formatter<'_>) -> fmt::Result {
        f.write_str(Self::WORDS[*self as usize].1)
    }
}

/// A name, a generator and numbers, which may be those of no call.
#[derive(Clone, Debug, PartialEq, Eq)]
pub struct Line {
    pub name: Name,
    pub generator: Generator,
    pub numbers: Vec<u64>,
}

impl Line {
    /// The line of this text, if its words are of these kinds.
    #[must_use]
    pub fn parse(text: &str) -> Option<Self> {
        let mut words = text.split(' ');
        let name = Name::parse(words.next()?)?;
        let generator = Generator::parse(words.next()?)?;
        let numbers: Option<Vec<u64>> = words.map(decimal).collect();
        Some(Self {
            name,
            generator,
            numbers: numbers?,
        })
    }
}

impl fmt::Display for Line {
    fn fmt(&self, f: &mut fmt::Formatter<'_>) -> fmt::Result {
        write!(f, "{} {}", self.name, self.generator)?;
        let mut numbers = self.numbers.iter();
        numbers.try_for_each(|number| write!(f, " {number}"))
    }
}

/// Whether a line of this text is skipped.
#[must_use]
pub fn is_skipped(text: &str) -> bool {
    text.is_empty() || text.starts_with('#')
}

/// The call of a line, if it is one.
#[must_use]
pub fn call(text: &str) -> Option<Call> {
    Call::of(&Line::parse(text)?, ROOMS)
}

/// rand's answer to a line that is not skipped.
#[must_use]
pub fn answer(text: &str) -> String {
    written(call(text).map(|call| call.answer()))
}

/// An answer as it is written, where none is that to a line that is no call.
#[must_use]
pub fn written(answer: Option<Answer>) -> String {
    answer.map_or(WRONG.to_owned(), |answer| answer.to_string())
}

#[cfg(test)]
mod tests {
    use super::{Line, Name, answer, call};

    #[test]
    fn every_name_is_its_word() {
        for (place, name) in Name::ALL.into_iter().enumerate() {
            assert_eq!(name as usize, place);
            assert_eq!(Name::parse(&name.to_string()), Some(name));
        }
    }

    #[test]
    fn a_line_is_written_as_it_is_read() {
        for text in ["seed zero", "shuffle 1 20 9", "pick 7 1 2 3 0 0 4 5"] {
            let line = Line::parse(text).map(|line| line.to_string());
            assert_eq!(line.as_deref(), Some(text));
        }
    }

    /// Each way in which a line can be wrong.
    #[test]
    fn lines_that_are_no_calls_are_wrong() {
        for text in [
            "seed",
            "seed ",
            " seed 1",
            "seed 1 ",
            "seed  1",
            "seed 1\r",
            "seed\t1",
            "seed 1 2",
            "Seed 1",
            "seeds 1",
            "seed one",
            "shuffle 1",
            "shuffle 1 3",
            "shuffle 1 -3 9",
            "shuffle 1 65538 9",
            "partial_shuffle 1 3 2",
            "sample_fill 1 3 2",
            "random_range 1 0 9",
            "uniform_int 1 4294967296 9",
            "choose 1 3 9",
            "choose 1 3 9 3",
            "choose 1 3 9 0 0",
            "choose 1 3 9 2",
            "choose 1 3 9 2 2 0",
            "choose 1 3 9 2 1 4294967296",
            "choose 1 65537 9 0",
            "pick 1 2 9 5 1 1 0",
            "pick 1 2 9 5 0 0 4294967296",
            "weight 1 2 65538 0 0 1",
            "weight 1 2 5 18446744073709551615 1 1",
            "sample_stratified 1 9 3 0",
            "sample_stratified 1 9 3 0 2 5",
            "sample_stratified 1 9 65538 0 0",
        ] {
            assert!(call(text).is_none(), "{text}");
            assert_eq!(answer(text), "wrong");
        }
    }

    #[test]
    fn lines_with_all_the_room_are_calls() {
        for text in [
            "seed 01",
            "shuffle 1 65537 9",
            "choose 1 65536 9 1",
            "sample_stratified 1 9 65537 65537 0",
        ] {
            assert!(call(text).is_some(), "{text}");
        }
        let numbers = |count: usize| format!("weight 1 0 0 0 0{}", " 7".repeat(count - 4));
        assert!(call(&numbers(32_768)).is_some());
        assert!(call(&numbers(32_769)).is_none());
    }
}
