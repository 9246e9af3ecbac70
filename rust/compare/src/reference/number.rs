//! The numbers of a line.

/// The number that a word is: digits alone, of a number below 2^64.
#[must_use]
pub fn decimal(word: &str) -> Option<u64> {
    let is_digits = word.bytes().all(|byte| byte.is_ascii_digit());
    is_digits.then(|| word.parse().ok()).flatten()
}

/// The entries of slices, if each number is that of one.
#[must_use]
pub fn entries(numbers: &[u64]) -> Option<Vec<u32>> {
    let entries = numbers.iter().map(|&number| u32::try_from(number).ok());
    entries.collect()
}

/// The entries as numbers of a line.
pub fn numbers(entries: &[u32]) -> impl Iterator<Item = u64> {
    entries.iter().copied().map(u64::from)
}

/// The length of a slice, if there is room for it.
#[must_use]
pub fn length(number: u64, room: usize) -> Option<usize> {
    let length = usize::try_from(number).ok();
    length.filter(|&length| length <= room)
}

#[cfg(test)]
mod tests {
    use super::{decimal, entries, length};

    #[test]
    fn numbers_are_digits_alone() {
        for (word, number) in [
            ("0", 0),
            ("007", 7),
            ("18446744073709551615", u64::MAX),
            ("00000000000000000000000000000000000001", 1),
        ] {
            assert_eq!(decimal(word), Some(number));
        }
        for word in [
            "",
            "+1",
            "-1",
            "1 ",
            "1.",
            "0x1",
            "18446744073709551616",
            "²",
        ] {
            assert_eq!(decimal(word), None, "{word}");
        }
    }

    #[test]
    fn entries_have_32_bits_and_slices_have_room() {
        assert_eq!(entries(&[0, 4294967295]), Some(vec![0, u32::MAX]));
        assert_eq!(entries(&[0, 4294967296]), None);
        assert_eq!(length(5, 5), Some(5));
        assert_eq!(length(6, 5), None);
    }
}
