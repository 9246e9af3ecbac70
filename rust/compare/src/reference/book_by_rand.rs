//! A runner of draw books in plain Rust over rand, as one would write it without a port: what the port's program is measured against. The
//! reference is [`book_jobs`](crate::book_jobs), which holds rand to the lists and methods of the scope and is slow by that.

use std::fmt::Write;

use rand::SeedableRng;
use rand::distr::Distribution;
use rand::distr::weighted::{Error, WeightedIndex};
use rand::rngs::Xoshiro256PlusPlus;
use rand::seq::index;

use crate::Counting;
use crate::book::{Draw, Job, read};
use crate::book_jobs::{Drawn, ENTRIES};
use crate::draws::BUDGET_EXHAUSTED;
use crate::methods::scratch;
use crate::plain_list::{INSUFFICIENT_NON_ZERO, NO_WEIGHTS, OVERFLOW};
use crate::sampling::{AMOUNT_EXCEEDS_LENGTH, SCRATCH_TOO_SHORT, SLICE_TOO_SHORT};

/// What the program prints for a book.
#[must_use]
pub fn output(book: &[u8]) -> String {
    let mut text = String::new();
    match read(book) {
        Ok(jobs) => {
            for job in &jobs {
                write_line(&mut text, &drawn(job));
            }
        }
        Err(number) => write_line(&mut text, &Err(number)),
    }
    text
}

fn write_line(text: &mut String, drawn: &Drawn) {
    // A string takes all that is written to it.
    let _ = match drawn {
        Ok(indices) => {
            let mut places = indices.iter().enumerate();
            places.try_for_each(|(place, index)| match place {
                0 => write!(text, "{index}"),
                _ => write!(text, " {index}"),
            })
        }
        Err(number) => write!(text, "refused {number}"),
    };
    text.push('\n');
}

fn drawn(job: &Job) -> Drawn {
    let mut rng = Counting::new(Xoshiro256PlusPlus::from_seed(job.seed));
    match &job.draw {
        Draw::Sample {
            length,
            amount,
            budget,
        } => sampled(&mut rng, *length, *amount, *budget),
        Draw::Pick {
            picks,
            budget,
            weights,
        } => picked(&mut rng, *picks, *budget, weights),
    }
}

fn sampled(rng: &mut Counting, length: u32, amount: u32, budget: u32) -> Drawn {
    if amount > length {
        return Err(AMOUNT_EXCEEDS_LENGTH);
    }
    if amount as usize > ENTRIES {
        return Err(SLICE_TOO_SHORT);
    }
    if scratch(length, amount) > ENTRIES {
        return Err(SCRATCH_TOO_SHORT);
    }
    let indices = index::sample(rng, length as usize, amount as usize);
    if rng.words() > budget.into() {
        return Err(BUDGET_EXHAUSTED);
    }
    Ok(indices.into_iter().map(|index| index as u32).collect())
}

fn picked(rng: &mut Counting, picks: u32, budget: u32, weights: &[u32]) -> Drawn {
    if weights.len() > ENTRIES + 1 {
        return Err(SLICE_TOO_SHORT);
    }
    let table = WeightedIndex::new(weights).map_err(|error| match error {
        Error::Overflow => OVERFLOW,
        Error::InsufficientNonZero => INSUFFICIENT_NON_ZERO,
        _ => NO_WEIGHTS,
    })?;
    if picks as usize > ENTRIES {
        return Err(SLICE_TOO_SHORT);
    }
    let picks = (0..picks).map(|_| {
        let before = rng.words();
        let index = table.sample(rng) as u32;
        match rng.words() - before <= budget.into() {
            true => Ok(index),
            false => Err(BUDGET_EXHAUSTED),
        }
    });
    picks.collect()
}
