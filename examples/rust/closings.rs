//! Which closings of a gate are measured again: every kind of call of the crate, from one seed.
//!
//!     cargo run --package gapyndura --example closings
//!
//! in `rust/`. `examples/c/closings.c` makes the same calls, and both print `examples/closings.stdout`.

use std::error::Error;

use gapyndura::index::{SampleError, sample, sample_stratified};
use gapyndura::iterator::{choose, choose_stable, sample_fill};
use gapyndura::slice::{partial_shuffle, shuffle};
use gapyndura::{Refusal, WeightedIndex, Xoshiro256PlusPlus};

/// The calls are made as version 8 has them; `CHANGELOG.md` says what a later one changes.
const _: () = assert!(gapyndura::VERSION == 8);

/// The most words that a call may read. Without a budget a call that draws could read on for ever.
const BUDGET: u64 = 1000;

fn print_list(title: &str, list: &[u32], words: u64) {
    print!("{title}:");
    for entry in list {
        print!(" {entry}");
    }
    println!(" (words read: {words})");
}

/// Five of a hundred closings, and the order in which they are measured. Five are drawn by Floyd's method, which needs no scratch.
fn sample_and_shuffle(rng: &mut Xoshiro256PlusPlus) -> Result<(), Box<dyn Error>> {
    let mut closings = [0; 5];
    let sampled = sample(rng, 100, 5, BUDGET, &mut closings, &mut [])?;
    print_list("closings", &closings[..sampled.count], sampled.words);
    let shuffled = shuffle(rng, &mut closings, BUDGET)?;
    print_list("in the order", shuffled.tail, shuffled.words);
    Ok(())
}

/// Twenty of fifty closings by the method in place, which needs fifty entries of scratch.
fn sample_in_place(rng: &mut Xoshiro256PlusPlus) -> Result<(), Box<dyn Error>> {
    let mut closings = [0; 20];
    let sampled = sample(rng, 50, 20, BUDGET, &mut closings, &mut [0; 50])?;
    print_list("in place", &closings[..sampled.count], sampled.words);
    Ok(())
}

/// From each of three gates as many closings as are wanted of it. One numbering goes through all gates: that of the last begins at 65.
fn sample_each_gate(rng: &mut Xoshiro256PlusPlus) -> Result<(), SampleError> {
    let mut closings = [0; 5];
    let (lengths, amounts) = ([40, 25, 10], [3, 0, 2]);
    let sampled = sample_stratified(rng, &lengths, &amounts, BUDGET, &mut closings, &mut [])?;
    print_list("of each gate", &closings[..sampled.count], sampled.words);
    Ok(())
}

/// Two of the five staffs at hand, at the end of their slice, and three of them into a buffer.
fn share_out_staffs(rng: &mut Xoshiro256PlusPlus) -> Result<(), Refusal> {
    let mut staffs = [11, 12, 13, 14, 15];
    let mut kept = [0; 3];
    let filled = sample_fill(rng, &staffs, &mut kept, BUDGET)?;
    print_list("three staffs", &kept[..filled.count], filled.words);
    let shuffled = partial_shuffle(rng, &mut staffs, 2, BUDGET)?;
    print_list("two staffs", shuffled.tail, shuffled.words);
    Ok(())
}

/// A gate by its weight, before a change of the weights and after it.
fn pick_gates(rng: &mut Xoshiro256PlusPlus) -> Result<(), Box<dyn Error>> {
    let mut sums = [0; 2];
    let mut table = WeightedIndex::new(&[2, 0, 3], &mut sums)?;
    for change in [None, Some(4)] {
        if let Some(weight) = change {
            table.update_weights(&mut sums, &[1], &[weight])?;
        }
        let picked = table.sample(rng, &sums, BUDGET)?;
        println!(
            "gate {} of total weight {} (words read: {})",
            picked.index, table.total_weight, picked.words
        );
    }
    if let Some(weight) = table.weight(&sums, 1)? {
        println!("gate 1 has weight {weight}");
    }
    Ok(())
}

/// One of three readers, with hints that say exactly how many remain, and without.
fn choose_reader(rng: &mut Xoshiro256PlusPlus) -> Result<(), Box<dyn Error>> {
    let readers = [7, 8, 9];
    let exact = [3, 2, 1, 0];
    for chosen in [
        choose(rng, &readers, &exact, &exact, BUDGET)?,
        choose_stable(rng, &readers, &[0; 4], &[u32::MAX; 4], BUDGET)?,
    ] {
        if let Some(reader) = chosen.item {
            println!("reader {reader} (words read: {})", chosen.words);
        }
    }
    Ok(())
}

/// Calls that are declined: nothing has changed. Only with 13 the words of the budget are read.
fn be_refused(rng: &mut Xoshiro256PlusPlus) {
    let mut closings = [0; 200];
    for result in [
        sample(rng, 3, 4, BUDGET, &mut closings, &mut []),
        sample_stratified(rng, &[40, 25], &[3], BUDGET, &mut closings, &mut []),
    ] {
        if let Err(error) = result {
            let refusal = error.refusal;
            println!(
                "refused with {}: {refusal} (words read: {})",
                refusal.number(),
                error.so_far.words
            );
        }
    }
    if let Err(error) = sample(rng, 1_000_000, 200, 7, &mut closings, &mut []) {
        let (refusal, so_far) = (error.refusal, error.so_far);
        println!(
            "refused with {}: {refusal} (words read: {}, found: {})",
            refusal.number(),
            so_far.words,
            so_far.count
        );
    }
}

fn main() -> Result<(), Box<dyn Error>> {
    let mut rng = Xoshiro256PlusPlus::seed_from_u64(1);
    sample_and_shuffle(&mut rng)?;
    sample_in_place(&mut rng)?;
    share_out_staffs(&mut rng)?;
    pick_gates(&mut rng)?;
    choose_reader(&mut rng)?;
    sample_each_gate(&mut rng)?;
    be_refused(&mut rng);
    Ok(())
}
