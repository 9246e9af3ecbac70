//! The table of weights. What is compared is the answer, the record, the words read, the generator afterwards, and the whole slice
//! of the sums, with entries past them and around the slice that no call may change. Every answer is held to the plain list of
//! weights, and to rand's table but where the Rust has no such call.

mod change;
#[cfg(test)]
mod differences;
pub mod faults;
mod history;
#[cfg(test)]
mod longest;
mod lookup;
mod new;
mod pick;
mod port;
pub mod random;
mod smaller;
mod tables;

use crate::slices::Lent;

pub use change::Change;
pub use history::History;
pub use lookup::Lookup;
pub use new::New;
pub use pick::Pick;
pub use reference::weighing::{Calls, RAND};
pub use smaller::{lists, shorter};
pub use tables::Table;

/// The port's calls.
pub const PORT: Calls = Calls {
    new: port::new,
    update_weights: port::update_weights,
    weight: port::weight,
    pick: port::pick,
};

/// All that is left of a call: what it answers, and the slice of the sums.
#[derive(Debug, PartialEq)]
pub struct Answer<T> {
    answer: T,
    sums: Lent,
}

impl<T> Answer<T> {
    /// The answer of a call that is lent this slice.
    fn new(mut sums: Lent, call: impl FnOnce(&mut [u32]) -> T) -> Self {
        let answer = call(sums.entries());
        Self { answer, sums }
    }
}
