//! Stable choices from the same items, generator and budget with the hints of two readers, all of which hold. What is compared is each of
//! the two choices, all that is compared of a single one, and whether they end alike: in the answer, the item, the words and the generator.

mod fixed;
mod random;
mod smaller;

use reference::State;
use reference::choosing::{self, Lists};

use super::{Answer, Chooser, Input, StableChoice, faults};
use crate::inputs::Source;
use crate::kind::Kind;

/// Pairs of calls of `choose_stable`, each pair from a generator of its own.
pub struct TwoReaders {
    end: choosing::Choose,
}

/// A list of lower hints and one of upper hints.
type Hints = (Vec<u32>, Vec<u32>);

/// What the two calls are given.
#[derive(Clone, Debug)]
pub struct Pair {
    from: State,
    items: Vec<u32>,
    hints: [Hints; 2],
    budget: u64,
}

impl Pair {
    /// The pair of two calls that differ in their hints alone.
    fn of([first, second]: [Input; 2]) -> Self {
        Self {
            from: first.from,
            items: first.items,
            hints: [(first.lower, first.upper), (second.lower, second.upper)],
            budget: first.budget,
        }
    }

    /// The two calls.
    fn calls(&self) -> [Input; 2] {
        self.hints.clone().map(|(lower, upper)| Input {
            from: self.from,
            items: self.items.clone(),
            lower,
            upper,
            budget: self.budget,
        })
    }

    /// The three lists of each call.
    fn lists(&self) -> [Lists<'_>; 2] {
        self.hints.each_ref().map(|(lower, upper)| Lists {
            items: &self.items,
            lower,
            upper,
        })
    }
}

/// All that is left of the two calls.
#[derive(Debug, PartialEq)]
pub struct Answers {
    are_alike: bool,
    each: [Answer; 2],
}

impl Answers {
    /// The answers where `end` ends both calls.
    fn new(pair: &Pair, end: choosing::Choose) -> Self {
        let lists = pair.lists();
        let each = lists.map(|lists| Answer::lending(pair.from, lists, pair.budget, end));
        let [first, second] = &each;
        Self {
            are_alike: first.chosen == second.chosen,
            each,
        }
    }
}

impl Kind for TwoReaders {
    const NAME: &'static str = "choose_stable, the hints of two readers";
    const FAULTS: &'static [&'static str] = &[
        faults::HINTS_HEEDED,
        faults::UPPER_HEEDED,
        faults::GROUP_LOST,
        faults::HEADS_EXCHANGED,
        faults::BITS_FROM_BELOW,
        faults::ZERO_IS_YES,
        faults::COIN_AT_ONE,
    ];
    const PARTS: usize = 2;
    type Input = Pair;
    type Answer = Answers;

    fn new(plant: Option<&str>) -> Self {
        Self {
            end: StableChoice::faulty(plant).unwrap_or(StableChoice::PORT),
        }
    }

    fn fixed(mut visit: impl FnMut(Pair)) {
        fixed::pairs(&mut visit);
    }

    fn random(source: &mut Source) -> Pair {
        random::pair(source)
    }

    fn smaller(pair: &Pair) -> Vec<Pair> {
        smaller::than(pair)
    }

    fn calls(_: &Pair) -> u64 {
        2
    }

    /// rand's answers, which must be alike: where both sides heeded their hints, they would not differ.
    fn rand(pair: &Pair) -> Answers {
        let answers = Answers::new(pair, StableChoice::RAND);
        assert!(answers.are_alike, "rand heeds hints: {pair:?} {answers:?}");
        answers
    }

    fn port(&self, pair: &Pair) -> Answers {
        Answers::new(pair, self.end)
    }
}

#[cfg(test)]
mod tests {
    use super::{TwoReaders, faults};
    use crate::inputs::Source;
    use crate::kind::Kind;

    /// Random pairs in which a fault must show.
    const PAIRS: usize = 2000;

    /// Whether a fault shows in what the port answers to a pair, without rand.
    fn shows_alone(fault: &str) -> bool {
        let faulty = TwoReaders::new(Some(fault));
        let mut source = Source::new(1);
        (0..PAIRS).any(|_| !faulty.port(&TwoReaders::random(&mut source)).are_alike)
    }

    /// What leans on hints needs no rand to be found. What does not is found against rand alone, as by a single call.
    #[test]
    fn two_runs_of_the_port_show_what_leans_on_hints() {
        for fault in [
            faults::HINTS_HEEDED,
            faults::UPPER_HEEDED,
            faults::GROUP_LOST,
        ] {
            assert!(shows_alone(fault), "{fault}");
        }
        for fault in [
            faults::HEADS_EXCHANGED,
            faults::BITS_FROM_BELOW,
            faults::ZERO_IS_YES,
            faults::COIN_AT_ONE,
        ] {
            assert!(!shows_alone(fault), "{fault}");
        }
    }
}
