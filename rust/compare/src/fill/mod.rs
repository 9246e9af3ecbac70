//! The fill from items that are read once. What is compared is the answer, the count, the words read, the generator afterwards, and
//! the whole buffer, with entries around it that no call may change.

mod faults;
mod fixed;
pub mod port;
mod random;

use reference::filling::{Fill, Filling, sample_fill};
use reference::sampling::Ended;

use crate::inputs::{Source, smaller, smaller_states};
use crate::kind::Kind;
use crate::slices::Lent;

/// Calls of `sample_fill`, each from a generator of its own.
pub struct SampleFill {
    pub end: Fill,
}

/// All that is left of a call.
#[derive(Debug, PartialEq)]
pub struct Answer {
    pub ended: Ended,
    pub buf: Lent,
}

impl Answer {
    /// The answer where `end` ends the call and leaves the buffer as it then is. The items are 0, 1 and so on; none of them is in
    /// the buffer before.
    pub fn new(call: &Filling, end: Fill) -> Self {
        let items: Vec<u32> = (0..).take(call.items_len).collect();
        let mut buf = Lent::new(call.buf_len);
        let ended = end(call, &items, buf.entries());
        Self { ended, buf }
    }
}

impl Kind for SampleFill {
    const NAME: &'static str = "sample_fill";
    const FAULTS: &'static [&'static str] = &faults::NAMES;
    const PARTS: usize = 2;
    type Input = Filling;
    type Answer = Answer;

    fn new(plant: Option<&str>) -> Self {
        Self {
            end: faults::planted(plant).unwrap_or(port::sample_fill),
        }
    }

    fn fixed(visit: impl FnMut(Filling)) {
        fixed::calls(visit);
    }

    fn random(source: &mut Source) -> Filling {
        random::call(source)
    }

    fn smaller(call: &Filling) -> Vec<Filling> {
        let feeds = smaller(call.items_len as u64).map(|less| Filling {
            items_len: less as usize,
            ..call.clone()
        });
        let buffers = smaller(call.buf_len as u64).map(|less| Filling {
            buf_len: less as usize,
            ..call.clone()
        });
        let budgets = smaller(call.budget).map(|budget| Filling {
            budget,
            ..call.clone()
        });
        let states = smaller_states(call.from).map(|from| Filling {
            from,
            ..call.clone()
        });
        feeds.chain(buffers).chain(budgets).chain(states).collect()
    }

    fn rand(call: &Filling) -> Answer {
        Answer::new(call, sample_fill)
    }

    fn port(&self, call: &Filling) -> Answer {
        Answer::new(call, self.end)
    }
}
