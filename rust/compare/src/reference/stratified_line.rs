//! The lines that ask for a stratified sample, `NAME G BUDGET INDICES SCRATCH PARTS l.. a..`. PARTS is the count of the lengths, and all
//! numbers behind these are amounts: so the two lists of a line can differ in count.

use crate::State;
use crate::number::length;
use crate::stratifying::Stratifying;

/// The numbers of such a line.
#[must_use]
pub fn numbers(call: &Stratifying) -> Vec<u64> {
    let counts = [call.indices_len, call.scratch_len, call.lengths.len()];
    let counts = counts.map(|count| count as u64);
    [&[call.budget], &counts[..], &call.lengths, &call.amounts].concat()
}

/// The call with these numbers, if it is one.
#[must_use]
pub fn read(from: State, numbers: &[u64], room: usize) -> Option<Stratifying> {
    let (&[budget, indices_len, scratch_len, parts], lists) = numbers.split_first_chunk()?;
    let (lengths, amounts) = lists.split_at_checked(length(parts, room)?)?;
    Some(Stratifying {
        from,
        lengths: lengths.to_vec(),
        amounts: amounts.to_vec(),
        budget,
        indices_len: length(indices_len, room)?,
        scratch_len: length(scratch_len, room)?,
    })
}

#[cfg(test)]
mod tests {
    use super::{numbers, read};

    #[test]
    fn lists_are_told_apart_by_the_count_of_lengths() {
        let lists = |numbers: &[u64]| {
            let call = read([1, 2, 3, 4], numbers, 9)?;
            assert_eq!(super::numbers(&call), numbers);
            Some((call.lengths, call.amounts))
        };
        assert_eq!(lists(&[7, 2, 0, 0]), Some((vec![], vec![])));
        assert_eq!(lists(&[7, 2, 0, 0, 5]), Some((vec![], vec![5])));
        assert_eq!(lists(&[7, 2, 0, 1, 5]), Some((vec![5], vec![])));
        let two = [7, 2, 9, 2, 5, u64::MAX, 1, 0];
        assert_eq!(lists(&two), Some((vec![5, u64::MAX], vec![1, 0])));
        let wrong: [&[u64]; 5] = [
            &[7, 2, 0],
            &[7, 2, 0, 1],
            &[7, 2, 0, u64::MAX, 5],
            &[7, 10, 0, 0],
            &[7, 2, 10, 0],
        ];
        assert!(wrong.into_iter().all(|numbers| lists(numbers).is_none()));
    }

    #[test]
    fn a_line_has_the_numbers_of_its_call() {
        let call = read([1, 2, 3, 4], &[7, 2, 3, 1, 5, 4], 9).expect("a call");
        assert_eq!((call.budget, call.indices_len, call.scratch_len), (7, 2, 3));
        assert_eq!(numbers(&call), [7, 2, 3, 1, 5, 4]);
    }
}
