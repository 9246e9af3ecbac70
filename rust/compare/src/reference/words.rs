//! Words on both sides of a draw's tests, and generators that give them.
//!
//! A draw below `r` multiplies its word by `r`; `h` is the upper half of that product and `l` the lower. The bounded draw
//! reads a second word if `l > 2^32 - r`, and the rejecting draw drops the word if `l < 2^32 mod r`.
//!
//! After k words, which are X as one number, the bounded draw reads on if `X * r mod 2^32k` is above `2^32k - r`. What that lacks to
//! `2^32k`, a number below `r`, settles the next word's tests: it carries from one word on, and at the word before that one the draw
//! reads on, but where `r` divides what is lacking.

use rand::Rng;

use crate::{State, from_state};

/// The number of words.
pub const WORDS: u64 = 1 << 32;

/// Below this number half of all words are dropped, which is as many as can be.
pub const HALF_DROPPED: u32 = (1 << 31) + 1;

/// A generator whose first two words are `a` and `b`. What is left free is filled from `salt`.
///
/// Two outputs do not settle four words of state, so the state after the first step is taken to have 0 for its first word;
/// then the second output is that state's last word turned, and both steps can be undone.
pub fn giving(a: u32, b: u32, salt: u64) -> State {
    let first = u64::from(a) << 32 | salt & 0xffff_ffff;
    let second = u64::from(b) << 32 | salt >> 32;
    let s0 = second.rotate_right(23).rotate_right(45);
    let s3 = first.wrapping_sub(s0).rotate_right(23).wrapping_sub(s0);
    let state = [s0, s3 ^ s0, salt, s3];
    let mut rng = from_state(state);
    assert_eq!([rng.next_u64(), rng.next_u64()], [first, second]);
    state
}

/// The largest power of two that divides `r`. The low halves that words give are its multiples.
fn step(r: u32) -> u64 {
    1 << r.trailing_zeros()
}

/// A word whose low half at `r` is `l`, a multiple of `step(r)`. There are `step(r)` of them; `skip` lesser ones are passed.
fn word_with(l: u64, r: u32, skip: u64) -> u32 {
    let distance = WORDS / step(r);
    let odd = u64::from(r) / step(r);
    let word = (l / step(r)).wrapping_mul(inverse(odd)) % distance + skip * distance;
    assert_eq!(word * u64::from(r) % WORDS, l);
    u32::try_from(word).expect("a word is below 2^32")
}

/// The number that gives 1 with `odd`, modulo 2^64. Each round of Newton's method doubles the bits that are right.
fn inverse(odd: u64) -> u64 {
    (0..6).fold(1, |x: u64, _| {
        x.wrapping_mul(2_u64.wrapping_sub(odd.wrapping_mul(x)))
    })
}

/// Words near the value `at` of the low half: the nearest below it, at it, the nearest above it, the first and the last.
/// Where several words give such a low half, the least, a middle and the greatest one take turns.
fn around(at: u64, r: u32) -> Vec<u32> {
    let step = step(r);
    let near = [at.wrapping_sub(step), at, at + step, 0, WORDS - step];
    let skips = [0, step / 2, step - 1].into_iter().cycle();
    let reached = near.into_iter().zip(skips).filter(|&(l, _)| l < WORDS);
    let mut words: Vec<u32> = reached.map(|(l, skip)| word_with(l, r, skip)).collect();
    words.sort_unstable();
    words.dedup();
    words
}

/// Rows of three words on both sides of the bounded draw's tests: whether a second, a third and a fourth word is read, and whether
/// the second and the third carry. A word behind one that settles the draw is one that would settle another value.
pub fn bounded(r: u32) -> Vec<[u32; 3]> {
    let firsts = around(WORDS - u64::from(r), r);
    let rows = firsts.into_iter().flat_map(|a| {
        let lacking = WORDS - u64::from(a) * u64::from(r) % WORDS;
        seconds(lacking, r).into_iter().flat_map(move |b| {
            let thirds = thirds(lacking, b, r);
            thirds.into_iter().map(move |c| [a, b, c])
        })
    });
    rows.collect()
}

/// The rows of those that read so many words or more. A row of 3 reads a third word, one of 4 a fourth, whatever that is.
pub fn reading(r: u32, least: usize) -> Vec<[u32; 3]> {
    let mut rows = bounded(r);
    rows.retain(|&row| words_read(row, r) >= least);
    rows
}

/// The words that a bounded draw reads of a row: 4 stands for all more than 3.
fn words_read(row: [u32; 3], r: u32) -> usize {
    let mut lacking = WORDS - u64::from(row[0]) * u64::from(r) % WORDS;
    for (read, word) in (1..).zip(&row[1..]) {
        if lacking >= r.into() {
            return read;
        }
        match left_lacking(lacking, *word, r) {
            Some(left) => lacking = left,
            None => return read + 1,
        }
    }
    if lacking >= r.into() { 3 } else { 4 }
}

/// What is lacking after a word more, in the next 32 bits. None where it carries.
fn left_lacking(lacking: u64, word: u32, r: u32) -> Option<u64> {
    let product = u128::from(word) * u128::from(r);
    let left = (u128::from(lacking) * u128::from(WORDS)).checked_sub(product);
    // So much is lacking that no further word is read, or less than 2^64.
    let left = left.filter(|&left| left > 0)?;
    Some(u64::try_from(left).unwrap_or(u64::MAX))
}

/// The next words 0, the two before the first that carries, that one, and the greatest, where so much is lacking after the words before.
fn seconds(lacking: u64, r: u32) -> Vec<u32> {
    // Above every word where no further one is read.
    let carries = (u128::from(lacking) << 32).div_ceil(r.into());
    let wanted = [
        0,
        carries.saturating_sub(2),
        carries - 1,
        carries,
        WORDS as u128 - 1,
    ];
    let mut words: Vec<u32> = wanted.into_iter().flat_map(u32::try_from).collect();
    words.sort_unstable();
    words.dedup();
    words
}

/// The same for the word behind the second, which is read only where the second is and settles nothing.
fn thirds(lacking: u64, b: u32, r: u32) -> Vec<u32> {
    let is_below = |lacking: &u64| *lacking < r.into();
    let left = Some(lacking).filter(is_below);
    let left = left.and_then(|lacking| left_lacking(lacking, b, r));
    match left.filter(is_below) {
        Some(left) => seconds(left, r),
        None => vec![!b],
    }
}

/// Word pairs on both sides of the rejecting draw's test: each word near it, followed by each.
pub fn rejecting(r: u32) -> Vec<(u32, u32)> {
    let words = around(WORDS % u64::from(r), r);
    let pairs = words
        .iter()
        .flat_map(|&a| words.iter().map(move |&b| (a, b)));
    pairs.collect()
}

#[cfg(test)]
mod tests {
    use super::{bounded, reading, words_read};
    use crate::states::giving_three;
    use crate::{draws, from_state};

    /// The words below 6 of SCOPE 18, and how many are read. Among the rows is a first word with the same low half, 2^31 above the one there.
    #[test]
    fn the_marked_rows_are_among_them() {
        let (a, b) = (715_827_882, 2_863_311_530);
        for (row, words) in [
            ([a, b, 0], 3),
            ([a, b, b + 1], 3),
            ([a, b, b], 4),
            ([a, b + 1, !(b + 1)], 2),
        ] {
            assert_eq!(words_read(row, 6), words, "{row:?}");
            let row = [a + (1 << 31), row[1], row[2]];
            assert!(bounded(6).contains(&row), "{row:?}");
            assert_eq!(words_read(row, 6), words, "{row:?}");
        }
    }

    /// Each row reads in rand as many words as it is said to, and rows of every number are there but where r divides 2^32.
    #[test]
    fn rows_read_one_to_four_words() {
        for r in [1, 2, 3, 6, 1000, 44_010, 1 << 31, (1 << 31) + 1, u32::MAX] {
            let mut seen = [0; 5];
            for row in bounded(r) {
                let mut rng = from_state(giving_three(row, 1));
                let read = draws::bounded(&mut rng, r).words.min(4) as usize;
                assert_eq!(read, words_read(row, r), "{r}: {row:?}");
                seen[read] += 1;
            }
            let most = if r.is_power_of_two() { 1 } else { 4 };
            let counts = &seen[1..=most];
            assert!(counts.iter().all(|&count| count > 0), "{r}: {seen:?}");
            assert_eq!(reading(r, 4).len(), seen[4], "{r}");
        }
    }
}
