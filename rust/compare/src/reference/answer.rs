//! The line that answers a call.

use std::fmt;

use crate::State;
use crate::sampling::Ended;

/// What a call answers: the number of the refusal or 0, the words read, the state afterwards, the digest of the slices that it was
/// lent to write or of the part that it lends, and its values.
#[derive(Clone, Debug, PartialEq, Eq)]
pub struct Answer {
    pub number: u64,
    pub words: u64,
    pub state: State,
    pub digest: u64,
    pub values: Vec<u32>,
}

impl Answer {
    /// The answer of a call that ended so, with these slices and these values.
    #[must_use]
    pub fn new(ended: &Ended, slices: &[&[u32]], values: &[u32]) -> Self {
        Self {
            number: ended.number,
            words: ended.words,
            state: ended.state,
            digest: digest(slices),
            values: values.to_vec(),
        }
    }

    /// The answer of a call that reads no word, writes nothing and is not refused: the entries of this part, and their digest.
    #[must_use]
    pub fn shown(from: State, part: &[u32]) -> Self {
        Self::new(&Ended::refused(0, from), &[part], part)
    }
}

impl fmt::Display for Answer {
    fn fmt(&self, f: &mut fmt::Formatter<'_>) -> fmt::Result {
        let Self {
            number,
            words,
            state,
            digest,
            values,
        } = self;
        write!(f, "{number} {words} {} {digest}", hex(*state))?;
        values.iter().try_for_each(|value| write!(f, " {value}"))
    }
}

/// The digits of a state: two for each byte, the low byte of each word first.
#[must_use]
pub fn hex(state: State) -> String {
    let bytes = state.into_iter().flat_map(u64::to_le_bytes);
    bytes.map(|byte| format!("{byte:02x}")).collect()
}

/// A number that tells slices apart: h is 0, and for every entry in turn it is (h * 16777619 + entry) mod 4294967291.
#[must_use]
pub fn digest(slices: &[&[u32]]) -> u64 {
    let entries = slices.iter().copied().flatten();
    entries.fold(0, |h, &entry| {
        (h * 16777619 + u64::from(entry)) % 4294967291
    })
}

#[cfg(test)]
mod tests {
    use super::{Answer, digest, hex};

    #[test]
    fn a_digest_goes_through_all_slices() {
        assert_eq!(digest(&[]), 0);
        assert_eq!(digest(&[&[], &[]]), 0);
        assert_eq!(digest(&[&[5]]), 5);
        assert_eq!(digest(&[&[u32::MAX]]), 4);
        assert_eq!(digest(&[&[5, 7]]), 5 * 16777619 + 7);
        assert_eq!(digest(&[&[5], &[7]]), 5 * 16777619 + 7);
        assert_eq!(digest(&[&[1000, 0]]), 16777619 * 1000 % 4294967291);
    }

    #[test]
    fn an_answer_is_a_line() {
        assert_eq!(hex([0; 4]), "0".repeat(64));
        let answer = Answer::shown([0x0123_4567_89ab_cdef, 1, 0, 1 << 63], &[3, 0]);
        let state = "efcdab8967452301010000000000000000000000000000000000000000000080";
        assert_eq!(answer.to_string(), format!("0 0 {state} 50332857 3 0"));
    }
}
