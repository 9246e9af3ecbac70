//! One word of a lent generator. What is compared is the answer, the word, and the generator afterwards. That a word counts as one, and
//! that a refused one writes zeros, is in a test of package `gapyndura`.

use gapyndura::Xoshiro256PlusPlus;
use reference::sampling::Ended;
use reference::viewing::{self, next_u32};
use reference::words::giving;
use reference::{State, some_state};

use crate::inputs::{Source, edges, smaller_states};
use crate::kind::Kind;

/// From so many generators of rand's a word is drawn in every run.
const GENERATORS: u64 = 10_000;

/// A word that leaves the generator as it was.
const UNADVANCED: &str = "word-unadvanced";

/// The word of the step after the one that is due.
pub const OF_NEXT_STEP: &str = "word-of-next-step";

/// Words, each from a generator of its own.
pub struct NextU32 {
    pub end: viewing::NextU32,
}

/// How the port ends a word.
pub fn port(from: State) -> Ended {
    let mut rng = Xoshiro256PlusPlus::from_state(from);
    match rng.next_u32() {
        Ok(word) => Ended {
            number: 0,
            count: word.into(),
            words: 1,
            state: rng.state(),
        },
        Err(refusal) => Ended::refused(refusal.number().into(), rng.state()),
    }
}

/// Fault [`UNADVANCED`].
fn unadvanced(from: State) -> Ended {
    Ended {
        state: from,
        ..port(from)
    }
}

/// Fault [`OF_NEXT_STEP`].
fn of_next_step(from: State) -> Ended {
    let ended = port(from);
    Ended {
        count: port(ended.state).count,
        ..ended
    }
}

impl Kind for NextU32 {
    const NAME: &'static str = "next_u32";
    const FAULTS: &'static [&'static str] = &[UNADVANCED, OF_NEXT_STEP];
    type Input = State;
    type Answer = Ended;

    fn new(plant: Option<&str>) -> Self {
        Self {
            end: match plant {
                Some(UNADVANCED) => unadvanced,
                Some(OF_NEXT_STEP) => of_next_step,
                _ => port,
            },
        }
    }

    /// Every edge at each place among zeros, among ones and among others, and each two edges as the first and the last word, whose sum an
    /// output is. Four zeros are among them.
    fn fixed(mut visit: impl FnMut(State)) {
        for around in [[0; 4], [u64::MAX; 4], [1, 2, 3, 4]] {
            for place in 0..4 {
                for word in edges() {
                    let mut state = around;
                    state[place] = word;
                    visit(state);
                }
            }
        }
        for first in edges() {
            edges()
                .into_iter()
                .for_each(|last| visit([first, 0, 0, last]));
        }
        let words = [0, 1, 1 << 31, u32::MAX];
        for (a, b) in words.into_iter().flat_map(|a| words.map(|b| (a, b))) {
            visit(giving(a, b, 1));
        }
        (0..GENERATORS).map(some_state).for_each(visit);
    }

    fn random(source: &mut Source) -> State {
        source.state_or_zero()
    }

    fn smaller(from: &State) -> Vec<State> {
        smaller_states(*from).collect()
    }

    fn rand(from: &State) -> Ended {
        next_u32(*from)
    }

    fn port(&self, from: &State) -> Ended {
        (self.end)(*from)
    }
}
