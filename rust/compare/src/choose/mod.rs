//! The two choosers. What is compared is the answer, the item, the words read, the generator afterwards, and the three lists that
//! are lent, with entries around them, none of which a call may change.

#[cfg(test)]
mod differences;
mod faults;
mod fixed;
#[cfg(test)]
mod longest;
mod pairs;
pub mod port;
mod random;
#[cfg(test)]
mod repeated;
mod smaller;

use std::marker::PhantomData;

use reference::State;
use reference::choosing::{self, Chosen, Lists, choose, choose_stable};

use crate::draw_faults;
use crate::inputs::Source;
use crate::kind::Kind;
use crate::slices::Lent;

pub use pairs::TwoReaders;
pub use random::count;

/// Calls of `choose`, each from a generator of its own.
pub type Choose = Calls<AnyChoice>;

/// Calls of `choose_stable`, each from a generator of its own.
pub type ChooseStable = Calls<StableChoice>;

/// Calls of either chooser.
pub struct Calls<C> {
    pub end: choosing::Choose,
    chooser: PhantomData<C>,
}

/// What the choosers do not share.
pub trait Chooser {
    const NAME: &'static str;
    const FAULTS: &'static [&'static str];

    /// Whether hints that hold make no difference.
    const IS_STABLE: bool;

    const RAND: choosing::Choose;
    const PORT: choosing::Choose;

    /// The port's choice with this fault in it, where the name is that of one.
    fn faulty(plant: Option<&str>) -> Option<choosing::Choose>;

    /// Hands over inputs that every run tries beside those of both.
    fn further(visit: &mut impl FnMut(Input));
}

/// [`Choose`]'s chooser.
pub struct AnyChoice;

/// [`ChooseStable`]'s chooser.
pub struct StableChoice;

/// What either chooser is given.
#[derive(Clone, Debug)]
pub struct Input {
    pub from: State,
    pub items: Vec<u32>,
    pub lower: Vec<u32>,
    pub upper: Vec<u32>,
    pub budget: u64,
}

impl Input {
    /// The three lists.
    fn lists(&self) -> Lists<'_> {
        Lists {
            items: &self.items,
            lower: &self.lower,
            upper: &self.upper,
        }
    }
}

/// All that is left of a call: how it ends, and the items and the hints.
#[derive(Debug, PartialEq)]
pub struct Answer {
    pub chosen: Chosen,
    pub lent: [Lent; 3],
}

impl Answer {
    /// The answer where `end` ends the call.
    pub fn new(input: &Input, end: choosing::Choose) -> Self {
        Self::lending(input.from, input.lists(), input.budget, end)
    }

    /// The same of a call that is lent copies of these lists.
    fn lending(from: State, lists: Lists<'_>, budget: u64, end: choosing::Choose) -> Self {
        let mut lent = [lists.items, lists.lower, lists.upper].map(Lent::of);
        let [items, lower, upper] = &mut lent;
        let lists = Lists {
            items: items.entries(),
            lower: lower.entries(),
            upper: upper.entries(),
        };
        let chosen = end(from, lists, budget);
        Self { chosen, lent }
    }
}

impl Chooser for AnyChoice {
    const NAME: &'static str = "choose";
    const FAULTS: &'static [&'static str] = &[
        faults::COINS_RESET,
        faults::NOT_CONSUMED,
        faults::ITEM_AFTER,
        faults::SPENT_NONE,
        faults::WORDS,
        faults::HINTS_SHORT,
        faults::HEADS_EXCHANGED,
        faults::BITS_FROM_BELOW,
        faults::ZERO_IS_YES,
        faults::COIN_AT_ONE,
        draw_faults::SECOND_WORD,
        draw_faults::FIRST_LOW_KEPT,
        draw_faults::STOPS_AT_LARGEST,
        draw_faults::THIRD_UNTESTED,
    ];
    const IS_STABLE: bool = false;
    const RAND: choosing::Choose = choose;
    const PORT: choosing::Choose = port::choose;

    fn faulty(plant: Option<&str>) -> Option<choosing::Choose> {
        faults::choose(plant)
    }

    fn further(visit: &mut impl FnMut(Input)) {
        fixed::single_draws(visit);
        fixed::draws_between_coins(visit);
        fixed::coins_after_a_draw(visit);
    }
}

impl Chooser for StableChoice {
    const NAME: &'static str = "choose_stable";
    const FAULTS: &'static [&'static str] = &[
        faults::ITEM_AFTER,
        faults::SPENT_NONE,
        faults::WORDS,
        faults::HINTS_SHORT,
        faults::HEADS_EXCHANGED,
        faults::BITS_FROM_BELOW,
        faults::ZERO_IS_YES,
        faults::COIN_AT_ONE,
        faults::HINTS_HEEDED,
        faults::UPPER_HEEDED,
        faults::GROUP_LOST,
    ];
    const IS_STABLE: bool = true;
    const RAND: choosing::Choose = choose_stable;
    const PORT: choosing::Choose = port::choose_stable;

    fn faulty(plant: Option<&str>) -> Option<choosing::Choose> {
        faults::choose_stable(plant)
    }

    fn further(visit: &mut impl FnMut(Input)) {
        fixed::many(visit);
    }
}

impl<C: Chooser> Kind for Calls<C> {
    const NAME: &'static str = C::NAME;
    const FAULTS: &'static [&'static str] = C::FAULTS;
    const PARTS: usize = 2;
    type Input = Input;
    type Answer = Answer;

    fn new(plant: Option<&str>) -> Self {
        Self {
            end: C::faulty(plant).unwrap_or(C::PORT),
            chooser: PhantomData,
        }
    }

    fn fixed(mut visit: impl FnMut(Input)) {
        fixed::calls(C::RAND, &mut visit);
        C::further(&mut visit);
    }

    fn random(source: &mut Source) -> Input {
        random::call(source)
    }

    fn smaller(input: &Input) -> Vec<Input> {
        smaller::than(input)
    }

    fn rand(input: &Input) -> Answer {
        Answer::new(input, C::RAND)
    }

    fn port(&self, input: &Input) -> Answer {
        Answer::new(input, self.end)
    }
}
