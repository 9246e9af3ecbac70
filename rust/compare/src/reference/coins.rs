//! Coins and the chance of one over d, written from SCOPE 11 alone: a second opinion on rand's, which flips many at once.

use rand::Rng;

/// What is left of the word that was read last. A choice starts with none.
#[derive(Clone, Copy, Debug, Default)]
pub struct Coins {
    /// The bits that are left, from the top.
    bits: u32,
    left: u32,
}

impl Coins {
    /// The next coin: whether it is heads, which is a bit of 0. A word is read where none is left.
    pub fn is_heads(&mut self, rng: &mut impl Rng) -> bool {
        if self.left == 0 {
            self.bits = rng.next_u32();
            self.left = u32::BITS;
        }
        let is_heads = self.bits >> 31 == 0;
        self.bits <<= 1;
        self.left -= 1;
        is_heads
    }

    /// Yes with a chance of one over d: n starts at 1, and while it is below d a coin makes it 2n on heads and 2n - d on tails. The
    /// answer is no where that is 0 or less, and yes once n is at least d.
    pub fn one_over(&mut self, rng: &mut impl Rng, d: u64) -> bool {
        let mut n = 1;
        while n < d {
            n *= 2;
            if self.is_heads(rng) {
                continue;
            }
            if n <= d {
                return false;
            }
            n -= d;
        }
        true
    }
}

#[cfg(test)]
mod tests {
    use super::Coins;
    use crate::words::giving;
    use crate::{Counting, from_state};

    /// What one over d answers from a first word, and the coins that are then left of it.
    fn answered(word: u32, d: u64) -> (bool, u32) {
        let mut rng = Counting::new(from_state(giving(word, 0, 1)));
        let mut coins = Coins::default();
        let answer = coins.one_over(&mut rng, d);
        (answer, coins.left)
    }

    #[test]
    fn one_over_3_goes_by_its_coins() {
        // Heads, heads: 2, then 4. Heads, tails, heads: 2, 1, 2, and heads again ends it. Tails: 2 - 3.
        assert_eq!(answered(0, 3), (true, 30));
        assert_eq!(answered(0b0100 << 28, 3), (true, 28));
        assert_eq!(answered(0b0101_1000 << 24, 3), (false, 27));
        assert_eq!(answered(1 << 31, 3), (false, 31));
    }

    #[test]
    fn one_over_1_uses_no_coin_and_over_2_one() {
        assert_eq!(answered(0, 1), (true, 0));
        assert_eq!(answered(0, 2), (true, 31));
        assert_eq!(answered(1 << 31, 2), (false, 31));
    }

    #[test]
    fn a_word_has_32_coins() {
        let mut rng = Counting::new(from_state(giving(0, 0, 1)));
        let mut coins = Coins::default();
        assert!((0..32).all(|_| coins.is_heads(&mut rng)));
        assert_eq!(rng.words(), 1);
        coins.is_heads(&mut rng);
        assert_eq!(rng.words(), 2);
    }
}
