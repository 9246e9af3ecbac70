//! The lines that ask for a sample or a view, `NAME G LENGTH AMOUNT BUDGET INDICES SCRATCH`, and what they answer; and what any sample does.

use crate::State;
use crate::answer::Answer;
use crate::number::length;
use crate::sampling::{Ended, Sampling};
use crate::viewing::{View, items};

/// What is in every entry of the slices that a call of a line is lent to write.
pub const CANARY: u32 = u32::MAX;

/// The numbers of such a line.
#[must_use]
pub fn numbers(call: &Sampling) -> Vec<u64> {
    let lengths = [call.indices_len, call.scratch_len].map(|len| len as u64);
    [&[call.length, call.amount, call.budget], &lengths[..]].concat()
}

/// The call with these numbers, if it is one.
#[must_use]
pub fn read(from: State, numbers: &[u64], room: usize) -> Option<Sampling> {
    let &[all, amount, budget, indices_len, scratch_len] = numbers else {
        return None;
    };
    Some(Sampling {
        from,
        length: all,
        amount,
        budget,
        indices_len: length(indices_len, room)?,
        scratch_len: length(scratch_len, room)?,
    })
}

/// The answer to a sample with so many entries of indices and of scratch that `end` ends: the indices written, and the digest of both
/// slices.
pub fn sampled(
    indices_len: usize,
    scratch_len: usize,
    end: impl FnOnce(&mut [u32], &mut [u32]) -> Ended,
) -> Answer {
    let mut indices = vec![CANARY; indices_len];
    let mut scratch = vec![CANARY; scratch_len];
    let ended = end(&mut indices, &mut scratch);
    let written = &indices[..ended.count as usize];
    Answer::new(&ended, &[&indices, &scratch], written)
}

/// The answer to a view that is drawn so: the items shown, and the digest of the scratch slice. The line's length is the number of
/// the items.
#[must_use]
pub fn viewed(call: &Sampling, view: View) -> Answer {
    let mut indices = vec![CANARY; call.indices_len];
    let mut scratch = vec![CANARY; call.scratch_len];
    let items = items(call.length as usize);
    let (ended, walk) = view(call, &items, &mut indices, &mut scratch);
    Answer::new(&ended, &[&scratch], &walk.items())
}

#[cfg(test)]
mod tests {
    use super::{sampled, viewed};
    use crate::answer::digest;
    use crate::sampling::Sampling;
    use crate::viewing::view;

    const ONE: Sampling = Sampling {
        from: [1, 2, 3, 4],
        length: 1,
        amount: 1,
        budget: 1,
        indices_len: 2,
        scratch_len: 1,
    };

    #[test]
    fn a_sample_has_its_indices_and_both_slices() {
        let answer = sampled(ONE.indices_len, ONE.scratch_len, |indices, scratch| {
            ONE.end(indices, scratch)
        });
        assert_eq!((answer.number, answer.words), (0, 1));
        assert_eq!(answer.values, [0]);
        assert_eq!(answer.digest, digest(&[&[0, u32::MAX], &[u32::MAX]]));
    }

    /// A view of one item, which is 7, and one of the same with no generator.
    #[test]
    fn a_view_has_its_items_and_the_scratch_slice() {
        let call = Sampling { amount: 3, ..ONE };
        let answer = viewed(&call, view);
        assert_eq!((answer.number, answer.words), (0, 1));
        assert_eq!(answer.values, [7]);
        assert_eq!(answer.digest, digest(&[&[u32::MAX]]));
        let from = [0; 4];
        let answer = viewed(&Sampling { from, ..call }, view);
        assert_eq!((answer.number, answer.words), (12, 0));
        assert!(answer.values.is_empty());
    }
}
