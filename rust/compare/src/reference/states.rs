//! Generators computed so that rare words come out where a draw is made: no random one gives a bounded draw its third word.
//!
//! An output of xoshiro256++ is `rotl(s0 + s3, 23) + s0`, and a step makes of s0, s1, s2 and s3
//!
//! - `s0 ^ s3 ^ s1`,
//! - `s1 ^ s2 ^ s0`,
//! - `s2 ^ s0 ^ s1 << 17`,
//! - `rotl(s3 ^ s1, 45)`.
//!
//! So the first and the last word after a step give the first word before it, and the output there gives the last one.

use std::ops::RangeInclusive;

use rand::Rng;
use rand::rngs::Xoshiro256PlusPlus;

use crate::draws::bounded;
use crate::methods::by_rand;
use crate::stratifying::Part;
use crate::{State, from_state, state};

/// A generator whose first three words are these. What is left free is filled from `salt`.
///
/// Three outputs and the first word of the state before the third settle all four words of state before the first, and any are
/// taken: the lower halves of the outputs and that word are free.
///
/// # Panics
///
/// If all that is given is 0, which makes four zeros.
#[must_use]
pub fn giving_three(words: [u32; 3], salt: u64) -> State {
    let lower = [salt as u32, (salt >> 32) as u32, (salt >> 16) as u32];
    let outputs: [u64; 3] =
        std::array::from_fn(|place| u64::from(words[place]) << 32 | u64::from(lower[place]));
    // The state before the third output, of which two words are needed.
    let third_s0 = salt;
    let third_s3 = last_word(outputs[2], third_s0);
    let turned = third_s3.rotate_right(45);
    // The state before the second: its s1 is settled too, for the step from it makes the last word above.
    let second_s0 = third_s0 ^ turned;
    let second_s3 = last_word(outputs[1], second_s0);
    let second_s1 = turned ^ second_s3;
    // The state before the first.
    let turned = second_s3.rotate_right(45);
    let s0 = second_s0 ^ turned;
    let s3 = last_word(outputs[0], s0);
    let s1 = s3 ^ turned;
    let from = [s0, s1, second_s1 ^ s1 ^ s0, s3];
    let mut rng = from_state(from);
    assert_eq!([(); 3].map(|()| rng.next_u64()), outputs);
    from
}

/// Generators whose draw below 6 reads four words or five, its value, and the words. All begin with 715827882 and twice 2863311530; then come
/// 0, 2863311531, and 2863311530 once more. No fourth word can be asked for as the three can: these were found among some 2^32 generators each.
pub const LONG_DRAWS: [(State, u32, u64); 3] = [
    (
        [
            0xf62e_856c_e902_eb24,
            0x7676_040c_8155_6d42,
            0x1a69_a5b7_3d8d_1ebc,
            0x03fb_32fc_0f47_8f09,
        ],
        0,
        4,
    ),
    (
        [
            0x96d6_d64d_11a9_6b92,
            0x84d7_786c_7a7a_5bcb,
            0x82b2_5622_016c_1966,
            0x1652_06da_95ff_4e4a,
        ],
        1,
        4,
    ),
    (
        [
            0x74bd_4332_739e_b57a,
            0x6160_8c05_4c2d_3d0f,
            0x0feb_9394_e6c1_8a0a,
            0x4dd7_ca39_6730_399e,
        ],
        0,
        5,
    ),
];

/// The last word of a state with this output and this first word.
fn last_word(output: u64, s0: u64) -> u64 {
    output.wrapping_sub(s0).rotate_right(23).wrapping_sub(s0)
}

/// The generator that is at this state after so many words.
#[must_use]
pub fn before(at: State, words: u64) -> State {
    (0..words).fold(at, |state, _| step_back(state))
}

/// The state one step before.
fn step_back([t0, t1, t2, t3]: State) -> State {
    let turned = t3.rotate_right(45);
    let s0 = t0 ^ turned;
    // s1 ^ s1 << 17, which is undone 17 bits at a time.
    let shifted = t1 ^ t2;
    let s1 = (0..4).fold(shifted, |s1, _| shifted ^ s1 << 17);
    [s0, s1, t1 ^ s1 ^ s0, turned ^ s1]
}

/// A generator with which the bounded draws below these numbers are made one after another so that the last of them starts with these
/// three words. What is left free is filled from `salt`.
///
/// # Panics
///
/// If there is no draw, or no generator is found.
#[must_use]
pub fn at_last_draw(bounds: &[u32], words: [u32; 3], salt: u64) -> State {
    let (_, earlier) = bounds.split_last().expect("a draw");
    let count = earlier.len() as u64;
    let draws = |rng: &mut Xoshiro256PlusPlus| {
        for &r in earlier {
            bounded(rng, r);
        }
    };
    let found = leading_to(
        |salt| giving_three(words, salt),
        salt,
        count..=2 * count,
        draws,
    );
    found.expect("a generator for these draws")
}

/// A generator from which `draws` lead to the state that `at` gives for a salt, this one or another; if one is found.
///
/// How many words the draws read is seen in the words themselves, which come of that state: of each number of words that they may
/// read it is tried whether they do, and then another salt.
#[must_use]
pub fn leading_to(
    at: impl Fn(u64) -> State,
    salt: u64,
    reads: RangeInclusive<u64>,
    draws: impl Fn(&mut Xoshiro256PlusPlus),
) -> Option<State> {
    let salts =
        (0..100).map(|turn: u64| salt.wrapping_add(turn.wrapping_mul(0x9e37_79b9_7f4a_7c15)));
    let mut starts = salts.filter(|&salt| salt != 0).flat_map(|salt| {
        let at = at(salt);
        reads.clone().map(move |read| (at, before(at, read)))
    });
    let found = starts.find(|&(at, start)| {
        let mut rng = from_state(start);
        draws(&mut rng);
        state(&rng) == at
    });
    found.map(|(_, start)| start)
}

/// A generator with which samples of these parts, and bounded draws below these numbers behind them, lead to a state that `at` gives for a
/// salt, this one or another; and the words that they read. No more words than four for each draw are tried.
#[must_use]
pub fn behind_parts(
    at: impl Fn(u64) -> State,
    salt: u64,
    parts: &[Part],
    bounds: &[u32],
) -> Option<(State, u64)> {
    let draws = |rng: &mut Xoshiro256PlusPlus| {
        let parts = parts.iter();
        let samples = parts.map(|&(length, amount)| by_rand(rng, length as u32, amount as u32));
        let words: u64 = samples.map(|sample| sample.words()).sum();
        words + bounds.iter().map(|&r| bounded(rng, r).words).sum::<u64>()
    };
    let amounts: u64 = parts.iter().map(|&(_, amount)| amount).sum();
    let least = amounts + bounds.len() as u64;
    let from = leading_to(at, salt, least..=4 * least, |rng| {
        draws(rng);
    })?;
    Some((from, draws(&mut from_state(from))))
}

#[cfg(test)]
mod tests {
    use rand::Rng;

    use super::{LONG_DRAWS, at_last_draw, before, behind_parts, giving_three};
    use crate::draws::bounded;
    use crate::methods::by_rand;
    use crate::{from_state, some_state, state};

    #[test]
    fn any_three_words_come_out() {
        let edges = [0, 1, 2, 0x8000_0000, 715_827_882, u32::MAX - 1, u32::MAX];
        for a in edges {
            for b in edges {
                for c in edges {
                    for salt in [1, 0x0123_4567_89ab_cdef, u64::MAX] {
                        let mut rng = from_state(giving_three([a, b, c], salt));
                        assert_eq!([(); 3].map(|()| rng.next_u32()), [a, b, c]);
                    }
                }
            }
        }
    }

    #[test]
    fn long_draws_read_four_words_and_five() {
        let fourths = [0, 2_863_311_531, 2_863_311_530];
        for ((from, value, words), fourth) in LONG_DRAWS.into_iter().zip(fourths) {
            let mut rng = from_state(from);
            let first = [(); 4].map(|()| rng.next_u32());
            assert_eq!(first, [715_827_882, 2_863_311_530, 2_863_311_530, fourth]);
            let drawn = bounded(&mut from_state(from), 6);
            assert_eq!((drawn.value, drawn.words), (value, words));
        }
    }

    #[test]
    fn steps_are_undone() {
        for number in 0..100 {
            let from = some_state(number);
            let mut rng = from_state(from);
            for words in 0..20 {
                assert_eq!(before(state(&rng), words), from);
                rng.next_u32();
            }
        }
    }

    /// Small bounds, whose draws read a word each, and large ones, whose draws read two as often as not.
    #[test]
    fn a_later_draw_has_the_words() {
        let words = [1 << 31, 5, 6];
        for r in [1, 6, 44_010, 479_001_600, (1 << 31) + 1, u32::MAX] {
            for count in [1, 2, 5, 30] {
                for salt in 0..20 {
                    let from = at_last_draw(&vec![r; count], words, salt);
                    let mut rng = from_state(from);
                    for _ in 1..count {
                        bounded(&mut rng, r);
                    }
                    assert_eq!([(); 3].map(|()| rng.next_u32()), words, "{r} {count}");
                }
            }
        }
    }

    /// Behind parts by each method, of which one drops half of its words, and draws of the part itself.
    #[test]
    fn a_later_part_has_the_words() {
        let words = [1 << 31, 5, 6];
        let parts = [(20, 5), (40, 20), (44_010, 163), ((1 << 31) + 1, 163)];
        for count in 0..=parts.len() {
            let parts = &parts[..count];
            let found = behind_parts(|salt| giving_three(words, salt), 1, parts, &[6, 7]);
            let (from, read) = found.expect("a generator");
            let mut rng = from_state(from);
            for &(length, amount) in parts {
                by_rand(&mut rng, length as u32, amount as u32);
            }
            for r in [6, 7] {
                bounded(&mut rng, r);
            }
            assert_eq!([(); 3].map(|()| rng.next_u32()), words);
            assert_eq!(before(state(&rng), read + 3), from);
        }
    }
}
