//! Words from bytes and bytes from words.

/// The bytes of one 64-bit word.
const WORD: usize = size_of::<u64>();

/// Reads `N` little-endian words from the front of `src`. That is what SCOPE 4 says of the 32 bytes of a seed.
///
/// # Panics
///
/// If `src` has fewer than `8 * N` bytes.
#[inline]
pub fn read_words<const N: usize>(src: &[u8]) -> [u64; N] {
    core::array::from_fn(|i| {
        let mut bytes = [0; WORD];
        bytes.copy_from_slice(&src[WORD * i..WORD * (i + 1)]);
        u64::from_le_bytes(bytes)
    })
}

/// Fills `dst` with the little-endian bytes of the words that `next_word` gives. A last word may be used in part.
///
/// # Errors
///
/// The first error of `next_word`; the bytes before that word are written.
#[inline]
pub fn fill_bytes_via_next_word<E>(
    dst: &mut [u8],
    mut next_word: impl FnMut() -> Result<u64, E>,
) -> Result<(), E> {
    for chunk in dst.chunks_mut(WORD) {
        let bytes = next_word()?.to_le_bytes();
        chunk.copy_from_slice(&bytes[..chunk.len()]);
    }
    Ok(())
}

#[cfg(test)]
mod tests {
    use core::convert::Infallible;

    use super::{fill_bytes_via_next_word, read_words};

    #[test]
    fn the_first_byte_is_the_lowest() {
        let mut seed = [0; 32];
        seed[0] = 1;
        seed[9] = 2;
        seed[31] = 128;
        assert_eq!(read_words(&seed), [1, 2 << 8, 0, 1 << 63]);
    }

    #[test]
    fn a_last_word_is_used_in_part() {
        let mut word = 0x0807_0605_0403_0201;
        let mut bytes = [0; 10];
        let filled = fill_bytes_via_next_word(&mut bytes, || {
            word += 1;
            Ok::<u64, Infallible>(word)
        });
        assert_eq!(filled, Ok(()));
        assert_eq!(bytes, [2, 2, 3, 4, 5, 6, 7, 8, 3, 2]);
    }
}
