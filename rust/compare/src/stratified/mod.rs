//! The stratified sample. What is compared is the answer, the count, the words read, the generator afterwards, and both slices whole, with
//! entries around them that no call may change.

mod faults;
mod fixed;
pub mod port;
mod random;
mod smaller;

use reference::stratifying::{EndParts, Stratifying};

use crate::inputs::Source;
use crate::kind::Kind;
use crate::sample::Answer;

pub use smaller::{fewer, lists};

/// Calls of `sample_stratified`, each from a generator of its own.
pub struct SampleStratified {
    pub end: EndParts,
}

/// The answer where `end` ends the call and leaves the slices as they then are.
pub fn answer(call: &Stratifying, end: EndParts) -> Answer {
    Answer::of(call.indices_len, call.scratch_len, |indices, scratch| {
        end(call, indices, scratch)
    })
}

impl Kind for SampleStratified {
    const NAME: &'static str = "sample_stratified";
    const FAULTS: &'static [&'static str] = &faults::NAMES;
    const PARTS: usize = 4;
    type Input = Stratifying;
    type Answer = Answer;

    fn new(plant: Option<&str>) -> Self {
        Self {
            end: faults::planted(plant).unwrap_or(port::end),
        }
    }

    fn fixed(visit: impl FnMut(Stratifying)) {
        fixed::calls(visit);
    }

    fn random(source: &mut Source) -> Stratifying {
        random::call(source)
    }

    fn smaller(call: &Stratifying) -> Vec<Stratifying> {
        smaller::than(call)
    }

    fn rand(call: &Stratifying) -> Answer {
        answer(call, Stratifying::end)
    }

    fn port(&self, call: &Stratifying) -> Answer {
        answer(call, self.end)
    }
}
