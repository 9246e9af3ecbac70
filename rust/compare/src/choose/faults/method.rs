//! Both choosers written anew, draw by draw and coin by coin, with an error in them that a program could have.

use std::convert::Infallible;
use std::ops::Range;

use rand::{Rng, RngExt, TryRng};
use reference::choosing::{Chosen, Lists, end_by};
use reference::coins::Coins;
use reference::{Counting, State};

use crate::choose::Chooser;
use crate::draw_faults;

/// An error in a choice.
#[derive(Clone, Copy, PartialEq, Eq)]
pub enum Error {
    /// There is none.
    #[cfg(test)]
    None,
    /// Coins that are left before a bounded draw are dropped at it.
    CoinsReset,
    /// A draw is made below the lower hint alone.
    NotConsumed,
    /// A draw is made with the fault of bounded draws at this place.
    Draw(usize),
    /// A bit of 1 is heads.
    HeadsExchanged,
    /// A word's coins are its bits from the bottom.
    BitsFromBelow,
    /// One over d is settled as yes where 2n - d is 0.
    ZeroIsYes,
    /// One over 1 is settled after a coin, whatever that shows.
    CoinAtOne,
    /// What coins take of two or more items that are known to remain is lost.
    GroupLost,
    /// One draw is made where both hints agree.
    UpperHeeded,
}

/// A generator whose words come with their bits in the other order.
struct Upended<'a>(&'a mut Counting);

impl TryRng for Upended<'_> {
    type Error = Infallible;

    fn try_next_u32(&mut self) -> Result<u32, Infallible> {
        Ok(self.0.next_u32().reverse_bits())
    }

    fn try_next_u64(&mut self) -> Result<u64, Infallible> {
        unimplemented!("coins are bits of 32-bit words")
    }

    fn try_fill_bytes(&mut self, _: &mut [u8]) -> Result<(), Infallible> {
        unimplemented!("coins are bits of 32-bit words")
    }
}

/// A chooser with an error in it.
#[derive(Clone, Copy)]
pub struct Method {
    /// Whether coins are flipped for items that are known to remain; else one draw is made for all of these.
    is_stable: bool,
    error: Error,
}

impl Method {
    /// This chooser's.
    pub fn of<C: Chooser>(error: Error) -> Self {
        Self {
            is_stable: C::IS_STABLE,
            error,
        }
    }

    /// How it ends.
    pub fn end(self, from: State, lists: Lists<'_>, budget: u64) -> Chosen {
        end_by(from, lists, budget, |rng| self.item(rng, lists))
    }

    /// The item. The items that are known to remain at a place are a group, or else the next one is.
    fn item(self, rng: &mut Counting, lists: Lists<'_>) -> Option<u32> {
        let mut coins = Coins::default();
        let mut place = 0;
        let mut chosen = None;
        while place < lists.items.len() {
            let group = place..place + lists.lower[place].max(1) as usize;
            place = group.end;
            let taken = match self.is_drawn(lists, group.start) {
                true => self.drawn(rng, &mut coins, group),
                false => self.flipped(rng, &mut coins, group),
            };
            chosen = taken.or(chosen);
        }
        chosen.map(|place| lists.items[place])
    }

    /// Whether one draw is made for the group at a place.
    fn is_drawn(self, lists: Lists<'_>, place: usize) -> bool {
        let [lower, upper] = [lists.lower[place], lists.upper[place]];
        let is_heeded = match self.error {
            Error::UpperHeeded => lower == upper,
            _ => !self.is_stable,
        };
        lower >= 2 && is_heeded
    }

    /// The place that one draw takes of a group, if any.
    fn drawn(self, rng: &mut Counting, coins: &mut Coins, group: Range<usize>) -> Option<usize> {
        if self.error == Error::CoinsReset {
            *coins = Coins::default();
        }
        let consumed = match self.error {
            Error::NotConsumed => 0,
            _ => group.start,
        };
        let r = (group.len() + consumed) as u32;
        let ix = match self.error {
            Error::Draw(fault) => draw_faults::value(rng, r, fault),
            _ => rng.random_range(..r),
        } as usize;
        (ix < group.len()).then_some(group.start + ix)
    }

    /// The last place that coins take of a group, if any.
    fn flipped(self, rng: &mut Counting, coins: &mut Coins, group: Range<usize>) -> Option<usize> {
        let is_lost = self.error == Error::GroupLost && group.len() >= 2;
        let taken = group.filter(|&place| self.one_over(rng, coins, place as u64 + 1));
        taken.last().filter(|_| !is_lost)
    }

    /// Whether the next coin is heads.
    fn is_heads(self, rng: &mut Counting, coins: &mut Coins) -> bool {
        match self.error {
            Error::HeadsExchanged => !coins.is_heads(rng),
            Error::BitsFromBelow => coins.is_heads(&mut Upended(rng)),
            _ => coins.is_heads(rng),
        }
    }

    /// Whether coins settle one over d as yes.
    fn one_over(self, rng: &mut Counting, coins: &mut Coins, d: u64) -> bool {
        if self.error == Error::CoinAtOne && d == 1 {
            coins.is_heads(rng);
        }
        let mut n = 1;
        while n < d {
            n *= 2;
            if self.is_heads(rng, coins) {
                continue;
            }
            if n <= d {
                return n == d && self.error == Error::ZeroIsYes;
            }
            n -= d;
        }
        true
    }
}

#[cfg(test)]
mod tests {
    use super::{Error, Method};
    use crate::choose::{AnyChoice, Choose, Chooser, StableChoice};
    use crate::inputs::Source;
    use crate::kind::Kind;

    fn is_rands<C: Chooser>() {
        let mut source = Source::new(1);
        for _ in 0..20_000 {
            let input = Choose::random(&mut source);
            let lists = input.lists();
            let chosen = Method::of::<C>(Error::None).end(input.from, lists, input.budget);
            let rand = (C::RAND)(input.from, lists, input.budget);
            assert_eq!(chosen, rand, "{input:?}");
        }
    }

    /// So that nothing but the error is found.
    #[test]
    fn a_method_without_an_error_is_rands() {
        is_rands::<AnyChoice>();
        is_rands::<StableChoice>();
    }
}
