//! The view of drawn items. What is compared is the answer, the words read, the generator afterwards, both slices whole, with entries
//! around them that no call may change, and each step of the view: the item, and how many the view says remain, also past the last.

#[cfg(test)]
mod differences;
mod faults;
mod fixed;
#[cfg(test)]
mod longest;
pub mod port;
mod random;

use std::sync::OnceLock;

use reference::sampling::{Ended, Sampling};
use reference::viewing::{self, View, Walk, view};

use crate::draw_faults;
use crate::inputs::Source;
use crate::kind::Kind;
use crate::sample::Sample;
use crate::slices::Lent;

/// The most items that a view is drawn from.
const MOST_ITEMS: usize = 500_001;

/// So many items. They are made once: no call can write them.
fn items(count: u64) -> &'static [u32] {
    static ITEMS: OnceLock<Vec<u32>> = OnceLock::new();
    let items = ITEMS.get_or_init(|| viewing::items(MOST_ITEMS));
    &items[..count as usize]
}

/// Views, each from a generator of its own. Of an input the length is the number of items.
pub struct IndexedSamples {
    pub end: View,
}

/// All that is left of a call.
#[derive(Debug, PartialEq)]
pub struct Answer {
    pub ended: Ended,
    pub walk: Walk,
    pub indices: Lent,
    pub scratch: Lent,
}

impl Answer {
    /// The answer where `end` ends the call and leaves the slices as they then are.
    pub fn new(call: &Sampling, end: View) -> Self {
        let mut indices = Lent::new(call.indices_len);
        let mut scratch = Lent::new(call.scratch_len);
        let items = items(call.length);
        let (ended, walk) = end(call, items, indices.entries(), scratch.entries());
        Self {
            ended,
            walk,
            indices,
            scratch,
        }
    }
}

impl Kind for IndexedSamples {
    const NAME: &'static str = "IndexedSamples, the wrapper's";
    const FAULTS: &'static [&'static str] = &[
        faults::STAYS,
        faults::NOT_CLIPPED,
        faults::AT_PLACES,
        draw_faults::SECOND_WORD,
        draw_faults::FIRST_LOW_KEPT,
        draw_faults::STOPS_AT_LARGEST,
        draw_faults::THIRD_UNTESTED,
    ];
    const PARTS: usize = 2;
    type Input = Sampling;
    type Answer = Answer;

    fn new(plant: Option<&str>) -> Self {
        Self {
            end: match plant {
                Some(faults::STAYS) => faults::stays,
                Some(faults::NOT_CLIPPED) => faults::not_clipped,
                Some(faults::AT_PLACES) => faults::at_places,
                _ => draw_faults::planted(plant, faults::OF_DRAWS).unwrap_or(port::view),
            },
        }
    }

    fn fixed(visit: impl FnMut(Sampling)) {
        fixed::calls(visit);
    }

    fn random(source: &mut Source) -> Sampling {
        random::call(source)
    }

    fn smaller(call: &Sampling) -> Vec<Sampling> {
        Sample::smaller(call)
    }

    fn rand(call: &Sampling) -> Answer {
        Answer::new(call, view)
    }

    fn port(&self, call: &Sampling) -> Answer {
        Answer::new(call, self.end)
    }
}
