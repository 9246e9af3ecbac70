//! Smaller stratified samples than those at which the sides differ.

use reference::stratifying::Stratifying;

use crate::inputs::{smaller, smaller_states};
use crate::weights::{self, shorter};

/// The calls that are one step smaller than this one.
pub fn than(call: &Stratifying) -> Vec<Stratifying> {
    let mut calls = [fewer(call), lists(call)].concat();
    let mut add = |edit: &dyn Fn(&mut Stratifying)| calls.push(edited(call, edit));
    smaller(call.budget).for_each(|budget| add(&|call| call.budget = budget));
    smaller(call.indices_len as u64).for_each(|len| add(&|call| call.indices_len = len as usize));
    smaller(call.scratch_len as u64).for_each(|len| add(&|call| call.scratch_len = len as usize));
    smaller_states(call.from).for_each(|from| add(&|call| call.from = from));
    calls
}

/// The call with a change.
fn edited(call: &Stratifying, edit: &dyn Fn(&mut Stratifying)) -> Stratifying {
    let mut less = call.clone();
    edit(&mut less);
    less
}

/// The same without some of the parts. What one list has more than the other stays.
pub fn fewer(call: &Stratifying) -> Vec<Stratifying> {
    let both = call.lengths.len().min(call.amounts.len());
    let parts: Vec<usize> = (0..both).collect();
    let kept = shorter(&parts).into_iter();
    let calls = kept.map(|kept| {
        let of = |list: &[u64]| {
            let front = kept.iter().map(|&part| list[part]);
            front.chain(list[both..].iter().copied()).collect()
        };
        Stratifying {
            lengths: of(&call.lengths),
            amounts: of(&call.amounts),
            ..call.clone()
        }
    });
    calls.collect()
}

/// The same with one of the lists made smaller.
pub fn lists(call: &Stratifying) -> Vec<Stratifying> {
    let lengths = weights::lists(&call.lengths).into_iter();
    let lengths = lengths.map(|list| edited(call, &|call| call.lengths.clone_from(&list)));
    let amounts = weights::lists(&call.amounts).into_iter();
    let amounts = amounts.map(|list| edited(call, &|call| call.amounts.clone_from(&list)));
    lengths.chain(amounts).collect()
}
