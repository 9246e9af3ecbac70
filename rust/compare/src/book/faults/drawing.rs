//! Faults in what a job draws.

use reference::State;
use reference::book::{Draw, Job};
use reference::book_jobs::{Drawn, ENTRIES};
use reference::methods::{Method, due};
use reference::sampling::{SLICE_TOO_SHORT, Sampling};
use reference::weighing::Held;

/// One budget for all picks of a job.
const SHARED: &str = "budget-shared";

/// What was found before the budget was used up is printed.
const SPENT_SAMPLE: &str = "spent-sample-printed";
const SPENT_PICKS: &str = "spent-picks-printed";

/// More picks than entries refused before the weights are looked at.
const PICKS_FIRST: &str = "picks-first";

/// More picks than entries refused when the entries are full.
const PICKS_LATE: &str = "picks-late";

/// A pick more or less than there is room for.
const PICKS_MORE: &str = "picks-8193-taken";
const PICKS_FULL: &str = "picks-8192-refused";

/// A weight more or less than there is room for.
const WEIGHTS_MORE: &str = "weights-8194-taken";
const WEIGHTS_FULL: &str = "weights-8193-refused";

/// An index or an entry of scratch more or less than there is room for.
const INDICES_MORE: &str = "indices-8193-taken";
const INDICES_FULL: &str = "indices-8192-refused";
const SCRATCH_MORE: &str = "scratch-8193-taken";
const SCRATCH_FULL: &str = "scratch-8192-refused";

/// No picks, and so no look at the weights.
const UNCHECKED: &str = "no-picks-unchecked";

/// Too many weights refused after those that make no table.
const WEIGHTS_LATE: &str = "weights-late";

/// Each pick from the job's seed.
const PICK_ANEW: &str = "picks-from-seed";

/// A sample that heeds its budget only if it is by rejection.
const REJECTION_HEEDS: &str = "rejection-alone-heeds";

/// A budget that is just enough taken for too small.
const EARLY: &str = "book-spent-early";

/// All of them.
pub const NAMES: [&str; 18] = [
    SHARED,
    SPENT_SAMPLE,
    SPENT_PICKS,
    PICKS_FIRST,
    PICKS_LATE,
    PICKS_MORE,
    PICKS_FULL,
    WEIGHTS_MORE,
    WEIGHTS_FULL,
    INDICES_MORE,
    INDICES_FULL,
    SCRATCH_MORE,
    SCRATCH_FULL,
    UNCHECKED,
    WEIGHTS_LATE,
    PICK_ANEW,
    REJECTION_HEEDS,
    EARLY,
];

/// What a job draws with a fault in it, or without one where the name is another.
pub fn drawn(job: &Job, fault: &str) -> Drawn {
    match (&job.draw, job.sampling()) {
        (_, Some(call)) => sampled(call, fault),
        (
            Draw::Pick {
                picks,
                budget,
                weights,
            },
            None,
        ) => picked(
            job.from(),
            *picks as usize,
            (*budget).into(),
            weights,
            fault,
        ),
        _ => unreachable!("a job samples or picks"),
    }
}

/// A number of entries that a fault changes by one.
fn entries(fault: &str, more: &str, full: &str) -> usize {
    ENTRIES + usize::from(fault == more) - usize::from(fault == full)
}

fn sampled(mut call: Sampling, fault: &str) -> Drawn {
    call.indices_len = entries(fault, INDICES_MORE, INDICES_FULL);
    call.scratch_len = entries(fault, SCRATCH_MORE, SCRATCH_FULL);
    let (mut indices, mut scratch) = (vec![0; call.indices_len], vec![0; call.scratch_len]);
    if fault == EARLY && call.budget > 0 {
        call.budget -= 1;
    }
    if fault == REJECTION_HEEDS && !is_by_rejection(&call) {
        call.budget = u64::MAX;
    }
    let ended = call.end(&mut indices, &mut scratch);
    indices.truncate(ended.count as usize);
    match ended.number {
        13 if fault == SPENT_SAMPLE => Ok(indices),
        0 => Ok(indices),
        number => Err(number),
    }
}

/// Whether a sample is by rejection, if it is one at all. A job's numbers are of 32 bits.
fn is_by_rejection(call: &Sampling) -> bool {
    call.amount <= call.length && due(call.length as u32, call.amount as u32) == Method::Rejection
}

fn picked(from: State, picks: usize, budget: u64, weights: &[u32], fault: &str) -> Drawn {
    let most = entries(fault, PICKS_MORE, PICKS_FULL);
    if fault == PICKS_FIRST && picks > most {
        return Err(SLICE_TOO_SHORT);
    }
    if fault == UNCHECKED && picks == 0 {
        return Ok(Vec::new());
    }
    let sums = entries(fault, WEIGHTS_MORE, WEIGHTS_FULL);
    if fault == WEIGHTS_LATE {
        Held::new(weights, weights.len())?;
    }
    let table = Held::new(weights, sums)?;
    if picks > most && fault != PICKS_LATE {
        return Err(SLICE_TOO_SHORT);
    }
    let indices = each(&table, from, picks.min(most), budget, fault)?;
    match picks > most && indices.len() == most {
        true => Err(SLICE_TOO_SHORT),
        false => Ok(indices),
    }
}

/// The picks, one after another.
fn each(table: &Held, mut from: State, picks: usize, budget: u64, fault: &str) -> Drawn {
    let mut left = budget;
    let mut indices = Vec::new();
    for _ in 0..picks {
        let ended = match fault {
            EARLY => table.pick(from, left.saturating_sub(1)),
            _ => table.pick(from, left),
        };
        match ended.number {
            0 => indices.push(ended.count as u32),
            13 if fault == SPENT_PICKS => return Ok(indices),
            number => return Err(number),
        }
        if fault != PICK_ANEW {
            from = ended.state;
        }
        if fault == SHARED {
            left -= ended.words;
        }
    }
    Ok(indices)
}
