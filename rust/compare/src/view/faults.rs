//! Faults that can be put into the port's views, so that a comparison is seen to fail.

use gapyndura::slice::IndexedSamples;
use reference::sampling::{Ended, Sampling};
use reference::viewing::{View, Walk};

use super::port::{view, view_by};
use crate::draw_faults;
use crate::sample;
use crate::sample::faults::WITH_DRAWS;

/// A step that shows its item and stays at its place.
pub const STAYS: &str = "view-stays";

/// An amount that is not clipped to the number of items.
pub const NOT_CLIPPED: &str = "view-not-clipped";

/// The items at the places in place of those at the indices.
pub const AT_PLACES: &str = "view-at-places";

/// A view that never moves.
struct Stays<'a, 'i>(IndexedSamples<'a, 'i, u32>);

impl<'a> Iterator for Stays<'a, '_> {
    type Item = &'a u32;

    fn next(&mut self) -> Option<&'a u32> {
        self.0.clone().next()
    }

    fn size_hint(&self) -> (usize, Option<usize>) {
        self.0.size_hint()
    }
}

impl ExactSizeIterator for Stays<'_, '_> {}

/// Fault [`STAYS`].
pub fn stays(
    call: &Sampling,
    items: &[u32],
    indices: &mut [u32],
    scratch: &mut [u32],
) -> (Ended, Walk) {
    view_by(call, items, indices, scratch, |view| Walk::of(Stays(view)))
}

/// Fault [`NOT_CLIPPED`].
pub fn not_clipped(
    call: &Sampling,
    items: &[u32],
    indices: &mut [u32],
    scratch: &mut [u32],
) -> (Ended, Walk) {
    if call.amount > call.length {
        let ended = sample::port::end(call, indices, scratch);
        return (ended, Walk::default());
    }
    view(call, items, indices, scratch)
}

/// The views with each fault of the bounded draw.
pub const OF_DRAWS: [View; draw_faults::NAMES.len()] = [
    with_draw::<0>,
    with_draw::<1>,
    with_draw::<2>,
    with_draw::<3>,
];

/// A view with a fault of the bounded draw.
fn with_draw<const FAULT: usize>(
    call: &Sampling,
    items: &[u32],
    indices: &mut [u32],
    scratch: &mut [u32],
) -> (Ended, Walk) {
    let clipped = Sampling {
        amount: call.amount.min(call.length),
        ..call.clone()
    };
    let ended = WITH_DRAWS[FAULT](&clipped, indices, scratch);
    if ended.number != 0 {
        return (ended, Walk::default());
    }
    let drawn = &indices[..ended.count as usize];
    let walk = Walk::of(drawn.iter().map(|&index| &items[index as usize]));
    (ended, walk)
}

/// Fault [`AT_PLACES`].
pub fn at_places(
    call: &Sampling,
    items: &[u32],
    indices: &mut [u32],
    scratch: &mut [u32],
) -> (Ended, Walk) {
    view_by(call, items, indices, scratch, |view| {
        Walk::of(view.items[..view.indices.len()].iter())
    })
}
