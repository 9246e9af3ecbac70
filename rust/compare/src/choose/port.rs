//! The port's calls of `choose` and `choose_stable`.

use gapyndura::Xoshiro256PlusPlus;
use gapyndura::iterator::{self, ChooseError};
use reference::State;
use reference::choosing::{Chosen, Lists};

/// How the port ends a choice.
pub fn choose(from: State, lists: Lists<'_>, budget: u64) -> Chosen {
    ended(from, |rng| {
        iterator::choose(rng, lists.items, lists.lower, lists.upper, budget)
    })
}

/// How the port ends a stable choice.
pub fn choose_stable(from: State, lists: Lists<'_>, budget: u64) -> Chosen {
    ended(from, |rng| {
        iterator::choose_stable(rng, lists.items, lists.lower, lists.upper, budget)
    })
}

/// How a call ends.
fn ended(
    from: State,
    call: impl FnOnce(&mut Xoshiro256PlusPlus) -> Result<iterator::Chosen, ChooseError>,
) -> Chosen {
    let mut rng = Xoshiro256PlusPlus::from_state(from);
    let (number, item, words) = match call(&mut rng) {
        Ok(chosen) => (0, chosen.item, chosen.words),
        Err(error) => (error.refusal.number(), None, error.words),
    };
    Chosen {
        number: number.into(),
        item,
        words,
        state: rng.state(),
    }
}
