//! The generator.

use crate::Refusal;
use crate::boundary::{gapyndura_from_seed, gapyndura_next_u32, gapyndura_seed_from_u64};

/// The generator xoshiro256++ of Blackman and Vigna, as four words of state (SCOPE 4).
///
/// Two generators are equal exactly if their states are.
#[derive(Clone, Debug, PartialEq, Eq)]
pub struct Xoshiro256PlusPlus {
    state: [u64; 4],
}

impl Xoshiro256PlusPlus {
    /// The generator whose state is the 32 bytes read as four little-endian words. If all bytes are 0, which makes no
    /// generator, it is that of [`seed_from_u64`](Self::seed_from_u64) for 0.
    ///
    /// ```
    /// use gapyndura::Xoshiro256PlusPlus;
    ///
    /// let mut seed = [0; 32];
    /// seed[0] = 1;
    /// seed[9] = 2;
    /// let rng = Xoshiro256PlusPlus::from_seed(seed);
    /// assert_eq!(rng.state(), [1, 512, 0, 0]);
    ///
    /// let zero = Xoshiro256PlusPlus::from_seed([0; 32]);
    /// assert_eq!(zero, Xoshiro256PlusPlus::seed_from_u64(0));
    /// ```
    #[must_use]
    #[inline]
    pub fn from_seed(seed: [u8; 32]) -> Self {
        let mut state = [0; 4];
        gapyndura_from_seed(&seed, &mut state);
        Self { state }
    }

    /// The generator whose state is the first four outputs of SplitMix64 from `seed`.
    ///
    /// ```
    /// use gapyndura::Xoshiro256PlusPlus;
    ///
    /// let rng = Xoshiro256PlusPlus::seed_from_u64(0);
    /// assert_eq!(
    ///     rng.state(),
    ///     [16294208416658607535, 7960286522194355700, 487617019471545679, 17909611376780542444],
    /// );
    /// ```
    #[must_use]
    #[inline]
    pub fn seed_from_u64(seed: u64) -> Self {
        let mut state = [0; 4];
        gapyndura_seed_from_u64(seed, &mut state);
        Self { state }
    }

    /// The generator with these four words of state. Any words are taken. If all four are 0, the calls that draw from the
    /// generator decline it: it would give 0 for ever.
    ///
    /// ```
    /// use gapyndura::Xoshiro256PlusPlus;
    ///
    /// let rng = Xoshiro256PlusPlus::seed_from_u64(7);
    /// assert_eq!(Xoshiro256PlusPlus::from_state(rng.state()), rng);
    /// ```
    #[must_use]
    pub const fn from_state(state: [u64; 4]) -> Self {
        Self { state }
    }

    /// The four words of state.
    ///
    /// ```
    /// use gapyndura::Xoshiro256PlusPlus;
    ///
    /// assert_eq!(Xoshiro256PlusPlus::from_state([1, 2, 3, 4]).state(), [1, 2, 3, 4]);
    /// ```
    #[must_use]
    pub const fn state(&self) -> [u64; 4] {
        self.state
    }

    /// Draws one word of 32 bits: the upper half of the generator's next output (SCOPE 15).
    ///
    /// It is the word of rand's `next_u32`. The generator is lent to the call and is one step further afterwards.
    ///
    /// ```
    /// use gapyndura::Xoshiro256PlusPlus;
    ///
    /// let mut rng = Xoshiro256PlusPlus::from_state([1, 2, 3, 4]);
    /// // The first two outputs are 41943041 and 58720359, the third is 3588806011781223.
    /// assert_eq!([rng.next_u32()?, rng.next_u32()?], [0, 0]);
    /// assert_eq!(u64::from(rng.next_u32()?), 3588806011781223 >> 32);
    /// # Ok::<(), gapyndura::Refusal>(())
    /// ```
    ///
    /// # Errors
    ///
    /// [`ZeroState`](Refusal::ZeroState). Then no word is read; otherwise exactly one is.
    ///
    /// ```
    /// use gapyndura::{Refusal, Xoshiro256PlusPlus};
    ///
    /// let mut rng = Xoshiro256PlusPlus::from_state([0; 4]);
    /// assert_eq!(rng.next_u32(), Err(Refusal::ZeroState));
    /// assert_eq!(rng.state(), [0; 4]);
    /// ```
    #[inline]
    pub fn next_u32(&mut self) -> Result<u32, Refusal> {
        let mut out = [0; 2];
        let number = gapyndura_next_u32(&mut self.state, &mut out);
        Refusal::check(number)?;
        let [_, word] = out;
        // A word has 32 bits.
        Ok(word as u32)
    }

    /// The four words of state, to be lent to a call that advances them.
    pub(crate) fn state_mut(&mut self) -> &mut [u64; 4] {
        &mut self.state
    }
}
