//! Smaller pairs than those at which the sides differ.

use std::iter::zip;

use super::Pair;
use crate::choose::smaller::{fewer, hints, others};

/// The pairs that are one step smaller than this one and whose hints hold: without some of the items, which both calls then lack, with
/// smaller hints of one reader, or with less of what the calls share.
pub fn than(pair: &Pair) -> Vec<Pair> {
    let [first, second] = pair.calls();
    let both = zip(fewer(&first), fewer(&second)).map(|(first, second)| [first, second]);
    let of_first = [hints(&first), others(&first)].concat().into_iter();
    let of_first = of_first.map(|first| [first, second.clone()]);
    let of_second = hints(&second).into_iter();
    let of_second = of_second.map(|second| [first.clone(), second]);
    let pairs = both.chain(of_first).chain(of_second).map(Pair::of);
    let hold = |pair: &Pair| pair.lists().iter().all(|lists| lists.are_hints_good());
    pairs.filter(hold).collect()
}
