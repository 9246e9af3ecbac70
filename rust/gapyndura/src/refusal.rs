//! Why a call is declined.

use core::error::Error;
use core::fmt;

/// Why a call is declined, by number (SCOPE 2). [`Display`](fmt::Display) says it in words. Numbers 14, 15 and 16 are about draw books.
/// No call of this package reads a draw book, so none answers them.
///
/// A call that may need more than one word takes a budget, the most words that it may read. Its error also says how many words were
/// read, and becomes a refusal by `?` or `into`. A call without a budget answers a refusal alone: it has then read no word and changed
/// nothing.
///
/// ```
/// use gapyndura::{Refusal, Xoshiro256PlusPlus};
/// use gapyndura::index::sample;
/// use gapyndura::slice::shuffle;
///
/// fn draw(rng: &mut Xoshiro256PlusPlus, indices: &mut [u32; 3]) -> Result<(), Refusal> {
///     sample(rng, 2, 3, 100, indices, &mut [])?;
///     shuffle(rng, indices, 100)?;
///     Ok(())
/// }
/// let mut rng = Xoshiro256PlusPlus::seed_from_u64(1);
/// assert_eq!(draw(&mut rng, &mut [0; 3]), Err(Refusal::AmountExceedsLength));
/// ```
///
/// ```
/// use gapyndura::Refusal;
///
/// assert_eq!(Refusal::SliceTooShort.number(), 8);
/// assert_eq!(Refusal::AmountExceedsLength.to_string(), "the amount is above the length");
/// ```
#[derive(Clone, Copy, Debug, PartialEq, Eq, Hash)]
pub enum Refusal {
    /// The amount is above the length.
    AmountExceedsLength = 1,
    /// A new table has no weights.
    NoWeights,
    /// The weights sum above 2^32 - 1.
    Overflow,
    /// Every weight is, or would be, 0.
    InsufficientNonZero,
    /// A place of a change does not lie above the place before it.
    PlacesNotIncreasing,
    /// A place of a change is none of the table: it is at the count of weights or above.
    PlaceOutOfRange,
    /// The table is broken: a sum is below the one before it or above the total, the count or the total is 0, or fewer than
    /// `count - 1` sums are lent.
    InvalidTable,
    /// A slice to be written has too few entries, or two lists that go together differ in length.
    SliceTooShort,
    /// The method in place is due, and the scratch slice is shorter than the length.
    ScratchTooShort,
    /// A length is above 2^32 - 1, or the length of a list or a table's count is above 2^32 - 2.
    TooLong,
    /// The hints of how many items remain are false, or too few or too many.
    InvalidHints,
    /// All four words of the generator's state are 0.
    ZeroState,
    /// A word is needed, and as many as the budget allows have been read.
    BudgetExhausted,
    /// A draw book's count is missing or above 64, or its contents are cut short.
    ContentsCutShort,
    /// A job of a draw book is of a kind that is not known.
    UnknownKind,
    /// The bodies of a draw book do not lie as its contents and their kinds say, or it is too long.
    LayoutMismatch,
    /// The lists of a stratified sample differ in count, or its lengths add up to more than 2^32 - 1.
    PartsMismatch,
}

/// All causes, by their numbers from 1 on.
const ALL: [Refusal; 17] = [
    Refusal::AmountExceedsLength,
    Refusal::NoWeights,
    Refusal::Overflow,
    Refusal::InsufficientNonZero,
    Refusal::PlacesNotIncreasing,
    Refusal::PlaceOutOfRange,
    Refusal::InvalidTable,
    Refusal::SliceTooShort,
    Refusal::ScratchTooShort,
    Refusal::TooLong,
    Refusal::InvalidHints,
    Refusal::ZeroState,
    Refusal::BudgetExhausted,
    Refusal::ContentsCutShort,
    Refusal::UnknownKind,
    Refusal::LayoutMismatch,
    Refusal::PartsMismatch,
];

impl Refusal {
    /// The cause's number, as `include/gapyndura.h` has it: 1 to 17.
    #[must_use]
    pub const fn number(self) -> u32 {
        self as u32
    }

    /// The cause with this number, which must be one.
    pub(crate) fn from_number(number: u32) -> Self {
        ALL[number as usize - 1]
    }

    /// The result of a call whose refusals change nothing: it is carried out, or declined for a cause.
    pub(crate) fn check(number: u32) -> Result<(), Self> {
        match number {
            0 => Ok(()),
            _ => Err(Self::from_number(number)),
        }
    }
}

impl fmt::Display for Refusal {
    fn fmt(&self, f: &mut fmt::Formatter<'_>) -> fmt::Result {
        f.write_str(match self {
            Self::AmountExceedsLength => "the amount is above the length",
            Self::NoWeights => "there are no weights",
            Self::Overflow => "the weights sum above 2^32 - 1",
            Self::InsufficientNonZero => "every weight is 0",
            Self::PlacesNotIncreasing => "a changed place is not above the one before it",
            Self::PlaceOutOfRange => "a changed place is not below the count of weights",
            Self::InvalidTable => "the cumulative weights are those of no list of weights",
            Self::SliceTooShort => "a slice has too few entries",
            Self::ScratchTooShort => "the scratch slice is shorter than the length",
            Self::TooLong => "a length or a count is too large",
            Self::InvalidHints => "the bounds on what remains do not hold of the items",
            Self::ZeroState => "all four words of the generator's state are 0",
            Self::BudgetExhausted => "the budget of words is used up",
            Self::ContentsCutShort => "the book's contents are cut short or of more than 64 jobs",
            Self::UnknownKind => "a job of the book is of an unknown kind",
            Self::LayoutMismatch => "the book's bodies do not lie as they must, or it is too long",
            Self::PartsMismatch => "the lists of parts differ in count, or the whole is too long",
        })
    }
}

impl Error for Refusal {}

#[cfg(test)]
mod tests {
    extern crate std;

    use super::{ALL, Refusal};
    use std::string::ToString;

    #[test]
    fn numbers_run_from_1_to_17() {
        for (number, refusal) in (1..).zip(ALL) {
            assert_eq!(refusal.number(), number);
            assert_eq!(Refusal::from_number(number), refusal);
        }
        assert_eq!(Refusal::BudgetExhausted.number(), 13);
        assert_eq!(Refusal::LayoutMismatch.number(), 16);
        assert_eq!(Refusal::PartsMismatch.number(), 17);
    }

    /// A word of each cause, by its number: texts that are exchanged, here and in the C header alike, lack it.
    #[test]
    fn a_text_has_a_word_of_its_cause() {
        let words = [
            "above the length",
            "no weights",
            "sum above",
            "every weight is 0",
            "above the one before",
            "below the count",
            "cumulative",
            "too few entries",
            "scratch",
            "too large",
            "what remains",
            "state are 0",
            "budget",
            "contents",
            "unknown kind",
            "bodies",
            "differ in count",
        ];
        assert_eq!(words.len(), ALL.len());
        for (refusal, word) in ALL.into_iter().zip(words) {
            let text = refusal.to_string();
            assert!(text.contains(word), "{}: {text}", refusal.number());
        }
    }
}
