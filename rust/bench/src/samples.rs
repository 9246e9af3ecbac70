//! Samples of indices. rand returns its indices in a vector of its own; the port is lent the same two slices again and again. A stratified
//! sample is rand's in a loop over the parts, whose indices go to one vector that was made before, each with the start of its part added.

use gapyndura::index;
use rand::rngs::Xoshiro256PlusPlus;
use reference::methods::{Method, due, scratch};

use crate::numbers::grouped;
use crate::sides::{Case, Sides, ours, theirs};

/// Amounts and lengths, by the method that is due.
const SAMPLES: [(u32, u32); 12] = [
    (5, 100),
    (12, 351),
    (162, 10_000_000),
    (12, 350),
    (100, 10_000),
    (163, 44_009),
    (2000, 499_999),
    (163, 44_010),
    (2000, 500_000),
    (20_000, 1 << 31),
    (100_000, u32::MAX),
    (1_000_000, u32::MAX),
];

/// The parts of a stratified sample, and the amount and the length of each.
const PARTS: usize = 100;
const PART: (u64, u64) = (10, 1000);

pub fn cases() -> Vec<Case> {
    let samples = SAMPLES.map(|(amount, length)| case(amount, length));
    samples.into_iter().chain([stratified_case()]).collect()
}

fn stratified_case() -> Case {
    let (amount, length) = PART;
    let size = format!("{PARTS} parts, {amount} of {} each", grouped(length));
    let entries = PARTS * amount as usize;
    Case {
        lent: Some(entries * size_of::<u32>()),
        ..Case::new("`sample_stratified`", size, stratified)
    }
}

fn case(amount: u32, length: u32) -> Case {
    let size = format!("{} of {}", grouped(amount.into()), power_or_digits(length));
    let entries = amount as usize + scratch(length, amount);
    Case {
        lent: Some(entries * size_of::<u32>()),
        ..Case::new(call(amount, length), size, move || sides(amount, length))
    }
}

/// The call with the method by which both sides draw.
fn call(amount: u32, length: u32) -> &'static str {
    match due(length, amount) {
        Method::Floyd => "`sample` (Floyd)",
        Method::InPlace => "`sample` (in place)",
        Method::Rejection => "`sample` (rejection)",
    }
}

fn power_or_digits(length: u32) -> String {
    match length {
        u32::MAX => "2^32 − 1".to_owned(),
        _ if length > 1 << 24 && length.is_power_of_two() => format!("2^{}", length.ilog2()),
        _ => grouped(length.into()),
    }
}

pub fn sides(amount: u32, length: u32) -> Sides {
    let indices = vec![0; amount as usize];
    let scratch = vec![0; scratch(length, amount)];
    Sides::new(
        theirs(
            (length as usize, amount as usize),
            |rng, (length, amount)| rand::seq::index::sample(rng, *length, *amount),
            // An index below a length of 32 bits has no more.
            |_, drawn| drawn.into_iter().map(|index| index as u32).collect(),
        ),
        ours(
            (u64::from(length), u64::from(amount), indices, scratch),
            |rng, (length, amount, indices, scratch)| {
                let sampled = index::sample(rng, *length, *amount, u64::MAX, indices, scratch);
                sampled.expect("the slices and the budget suffice")
            },
            |(.., indices, _), _| indices.clone(),
        ),
    )
}

fn stratified() -> Sides {
    let (amount, length) = PART;
    let lengths = vec![length; PARTS];
    let amounts = vec![amount; PARTS];
    let indices = vec![0; PARTS * amount as usize];
    Sides::new(
        theirs(
            (lengths.clone(), amounts.clone(), indices.clone()),
            |rng, (lengths, amounts, indices)| join(rng, lengths, amounts, indices),
            |(.., indices), ()| indices.clone(),
        ),
        ours(
            (lengths, amounts, indices),
            |rng, (lengths, amounts, indices)| {
                let sampled =
                    index::sample_stratified(rng, lengths, amounts, u64::MAX, indices, &mut []);
                sampled.expect("the slices and the budget suffice")
            },
            |(.., indices), _| indices.clone(),
        ),
    )
}

/// rand's samples of the parts, one behind the other.
fn join(rng: &mut Xoshiro256PlusPlus, lengths: &[u64], amounts: &[u64], indices: &mut Vec<u32>) {
    indices.clear();
    let mut start = 0;
    for (&length, &amount) in lengths.iter().zip(amounts) {
        let drawn = rand::seq::index::sample(rng, length as usize, amount as usize);
        indices.extend(drawn.into_iter().map(|index| start + index as u32));
        start += length as u32;
    }
}
