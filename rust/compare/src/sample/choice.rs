//! The choice of the method, over all lengths and amounts. It is seen without memory: with an empty scratch slice the port refuses with 9
//! where the method in place is due. With a budget of one word, which is the greatest, Floyd's method and the one by rejection both
//! answer 13, but have drawn another index: the last below its bound.

use std::cell::RefCell;

use gapyndura::index::sample;
use gapyndura::{Refusal, Xoshiro256PlusPlus as Port};
use rand::SeedableRng;
use rand::rngs::Xoshiro256PlusPlus as Rand;
use reference::methods::{Method, due, floyd_from, seen};
use reference::words::giving;

use crate::inputs::{Source, smaller};
use crate::kind::Kind;
use crate::slices::without_memory;

/// To this length rand's choice is always seen in its sample. That takes the length's time and memory.
const SEEN: u32 = 20_000;

/// The choice of the method.
pub struct Choice {
    /// A slice for the largest amount.
    indices: RefCell<&'static mut [u32]>,
    /// Fault `length-rounding`: from 163 on the length is compared as it is, not rounded to 24 bits.
    keeps_length: bool,
    /// Fault `entry-before`: from 13 to 162 the table is asked for the amount before.
    asks_before: bool,
}

/// A length and an amount that is not above it.
#[derive(Clone, Debug)]
pub struct Input {
    length: u32,
    amount: u32,
    /// Whether rand's choice is seen in its sample whatever the length is.
    is_seen: bool,
}

impl Kind for Choice {
    const NAME: &'static str = "sample, the choice of its method";
    const FAULTS: &'static [&'static str] = &["length-rounding", "entry-before"];
    type Input = Input;
    /// None is an answer that no method gives.
    type Answer = Option<Method>;

    fn new(plant: Option<&str>) -> Self {
        Self {
            indices: RefCell::new(without_memory(u32::MAX as usize)),
            keeps_length: plant == Some("length-rounding"),
            asks_before: plant == Some("entry-before"),
        }
    }

    fn fixed(mut visit: impl FnMut(Input)) {
        for amount in 0..=170 {
            (amount..=40).for_each(|length| visit(input(length, amount, true)));
            near_lines(amount, |length| visit(input(length, amount, true)));
        }
        for amount in 12..=162 {
            at_entry(amount, |length| visit(input(length, amount, true)));
        }
        for amount in [2000, 13_638] {
            near_lines(amount, |length| {
                visit(input(length, amount, length < 1_000_000));
            });
        }
        for length in [16_777_346, 16_777_347] {
            visit(input(length, 457_564, true));
        }
        for exponent in 8..32 {
            let power = 1 << exponent;
            for amount in [power, power + 1, power - 1 + power] {
                near_lines(amount, |length| visit(input(length, amount, false)));
            }
        }
    }

    fn random(source: &mut Source) -> Input {
        let amount = match source.below(16) {
            0 => source.below(400),
            1 => source.u64() as u32,
            2..8 => source.even() as u32 >> source.below(24),
            _ => source.even() as u32 >> source.below(8),
        };
        let mut lengths = Vec::new();
        near_lines(amount, |length| lengths.push(length));
        lengths.extend([u32::MAX, amount, (source.even() as u32).max(amount)]);
        let length = source.one_of(&lengths);
        let off = source.below(600);
        let length = source.one_of(&[
            length,
            length.saturating_add(off),
            length.saturating_sub(off),
        ]);
        input(length, amount, false)
    }

    /// Of these rand's choice is seen only where that is cheap: there may be many.
    fn smaller(choice: &Input) -> Vec<Input> {
        let Input { length, amount, .. } = *choice;
        let amounts = smaller(amount.into()).map(|less| input(length, less as u32, false));
        let lengths = smaller(length.into()).filter(|&less| less >= amount.into());
        let lengths = lengths.map(|less| input(less as u32, amount, false));
        amounts.chain(lengths).collect()
    }

    /// The method that gives rand's sample. If several do, or if rand's sample would take much memory, it is the one by the rule of
    /// SCOPE 6, with Rust's own rounding.
    fn rand(choice: &Input) -> Option<Method> {
        let Input {
            length,
            amount,
            is_seen,
        } = *choice;
        let by_rule = due(length, amount);
        if !is_seen && length > SEEN {
            return Some(by_rule);
        }
        let rng = Rand::seed_from_u64(u64::from(length) << 32 | u64::from(amount));
        let methods = seen(&rng, length, amount);
        let is_among = methods.contains(&by_rule);
        if is_among {
            Some(by_rule)
        } else {
            methods.first().copied()
        }
    }

    fn port(&self, choice: &Input) -> Option<Method> {
        let Input { length, amount, .. } = *choice;
        if self.keeps_length && length >= 500_000 && amount >= 163 {
            let line: f32 = 330.0 / 9.0 * amount as f32;
            let is_below = f64::from(length) < f64::from(line);
            return Some(if is_below {
                Method::InPlace
            } else {
                Method::Rejection
            });
        }
        if self.asks_before && (13..=162).contains(&amount) {
            return Some(due(length, amount - 1));
        }
        let mut rng = Port::from_state(giving(u32::MAX, 0, 1));
        let mut indices = self.indices.borrow_mut();
        let indices = &mut indices[..amount as usize];
        let result = sample(&mut rng, length.into(), amount.into(), 1, indices, &mut []);
        match result.map_err(|error| (error.refusal, error.so_far.count)) {
            // No index, or one, which is then the last below the length.
            Ok(_) => Some(Method::Floyd),
            Err((Refusal::ScratchTooShort, 0)) => Some(Method::InPlace),
            // Floyd's first draw is below the least length that has room for the others.
            Err((Refusal::BudgetExhausted, 1)) => match length - indices[0] {
                1 => Some(Method::Rejection),
                least if least == amount => Some(Method::Floyd),
                _ => None,
            },
            Err(_) => None,
        }
    }
}

/// These numbers as an input, the amount cut to the length.
fn input(length: u32, amount: u32, is_seen: bool) -> Input {
    Input {
        length,
        amount: amount.min(length),
        is_seen,
    }
}

/// The lengths at which the port's table could be wrong for this amount: next to its entry, to the length from which another line holds and to the
/// first that is rounded, and the greatest.
fn at_entry(amount: u32, visit: impl FnMut(u32)) {
    let entry = floyd_from(amount);
    let near = [entry, 500_000].map(|at| [at - 1, at, at + 1]);
    let long = [(1 << 24) - 1, 1 << 24, (1 << 24) + 1, u32::MAX];
    near.into_iter().flatten().chain(long).for_each(visit);
}

/// The lengths next to the lines at this amount, and next to the length from which other lines hold.
fn near_lines(amount: u32, mut visit: impl FnMut(u32)) {
    let count = f64::from(amount);
    let lines = [
        (10.0 + 1.6 * count) * count,
        (70.0 / 9.0 + 8.0 / 45.0 * count) * count,
        270.0 * count,
        330.0 / 9.0 * count,
        500_000.0,
    ];
    for line in lines {
        // A line above all lengths comes down to the greatest.
        let at = line as u32;
        let lengths = at.saturating_sub(2)..=at.saturating_add(2);
        lengths
            .filter(|&length| length >= amount)
            .for_each(&mut visit);
    }
}
