//! Faults that can be put into the port's stratified samples, so that a comparison is seen to fail.

use std::cell::Cell;

use reference::advanced;
use reference::draws::{BUDGET_EXHAUSTED, RAND};
use reference::methods::{self, by_rand, draw, due};
use reference::sampling::{End, Ended, Sampling};
use reference::stratifying::{EndParts, PARTS_MISMATCH, Stratifying, add, moved, placed, sum};

use crate::draw_faults;
use crate::sample::faults::{
    SPENT_EARLY, SPENT_UNADVANCED, SPENT_UNNEEDED, WITH_DRAWS, spent_early, spent_unadvanced,
    spent_unneeded,
};

/// The whole budget for each part.
const BUDGET_EACH: &str = "strata-budget-each";

/// A start that is the sum of the amounts before, in place of the lengths.
const START_AMOUNTS: &str = "strata-start-amounts";

/// Each part by the method that is due for the length of the whole.
const METHOD_WHOLE: &str = "strata-method-whole";

/// Too short a scratch slice seen when the part comes that needs it, the parts before being drawn.
const SCRATCH_LATE: &str = "strata-scratch-late";

/// A part of which none is wanted skipped with its length.
const EMPTY_SKIPPED: &str = "strata-empty-skipped";

/// The start added twice to what a spent part has left.
const SPENT_TWICE: &str = "strata-spent-twice";

/// No start added to what a spent part has left.
const SPENT_UNMOVED: &str = "strata-spent-unmoved";

/// Every part drawn from the generator that the call was given, which then is as far as it is due.
const SAME_DRAWS: &str = "strata-same-draws";

/// The lengths added up modulo 2^64.
const SUM_WRAPS: &str = "strata-sum-wraps";

/// The start added to what a part in place leaves in the scratch slice.
const SCRATCH_MOVED: &str = "strata-scratch-moved";

/// An amount above its length told before lists that do not go together.
const MISMATCH_LATE: &str = "strata-17-late";

/// A spent call that counts what the last part has written alone.
const COUNT_LAST: &str = "strata-count-last";

/// The entries behind those that are written set to 0.
const TAIL_CLEARED: &str = "strata-tail-cleared";

/// The names of the faults.
pub const NAMES: [&str; 20] = [
    BUDGET_EACH,
    START_AMOUNTS,
    METHOD_WHOLE,
    SCRATCH_LATE,
    EMPTY_SKIPPED,
    SPENT_TWICE,
    SPENT_UNMOVED,
    SAME_DRAWS,
    SUM_WRAPS,
    SCRATCH_MOVED,
    MISMATCH_LATE,
    COUNT_LAST,
    TAIL_CLEARED,
    SPENT_EARLY,
    SPENT_UNNEEDED,
    SPENT_UNADVANCED,
    draw_faults::SECOND_WORD,
    draw_faults::FIRST_LOW_KEPT,
    draw_faults::STOPS_AT_LARGEST,
    draw_faults::THIRD_UNTESTED,
];

/// The calls with each fault of the bounded draw in the parts that do not start at 0.
const OF_DRAWS: [EndParts; draw_faults::NAMES.len()] = [
    |call, indices, scratch| with_later(call, WITH_DRAWS[0], indices, scratch),
    |call, indices, scratch| with_later(call, WITH_DRAWS[1], indices, scratch),
    |call, indices, scratch| with_later(call, WITH_DRAWS[2], indices, scratch),
    |call, indices, scratch| with_later(call, WITH_DRAWS[3], indices, scratch),
];

/// The call with this fault in it, where the name is that of one.
pub fn planted(plant: Option<&str>) -> Option<EndParts> {
    Some(match plant? {
        BUDGET_EACH => |call, indices, scratch| {
            with_part(call, |part| part.budget = call.budget, indices, scratch)
        },
        SAME_DRAWS => same_draws,
        START_AMOUNTS => start_amounts,
        METHOD_WHOLE => method_whole,
        SCRATCH_LATE => scratch_late,
        EMPTY_SKIPPED => empty_skipped,
        SPENT_TWICE => |call, indices, scratch| spent_moved(call, 2, indices, scratch),
        SPENT_UNMOVED => |call, indices, scratch| spent_moved(call, 0, indices, scratch),
        SUM_WRAPS => sum_wraps,
        SCRATCH_MOVED => scratch_moved,
        MISMATCH_LATE => mismatch_late,
        COUNT_LAST => count_last,
        TAIL_CLEARED => tail_cleared,
        SPENT_EARLY => |call, indices, scratch| with(call, &spent_early, indices, scratch),
        SPENT_UNNEEDED => |call, indices, scratch| with(call, &spent_unneeded, indices, scratch),
        SPENT_UNADVANCED => {
            |call, indices, scratch| with(call, &spent_unadvanced, indices, scratch)
        }
        _ => return draw_faults::planted(plant, OF_DRAWS),
    })
}

/// A way to end the sample of a part, without its start.
type EndSample<'a> = &'a dyn Fn(&Sampling, &mut [u32], &mut [u32]) -> Ended;

/// A call whose parts are sampled so.
fn with(
    call: &Stratifying,
    sample: EndSample<'_>,
    indices: &mut [u32],
    scratch: &mut [u32],
) -> Ended {
    let end = |start, part: &Sampling, indices: &mut [u32], scratch: &mut [u32]| {
        moved(start, sample(part, indices, scratch), indices)
    };
    call.end_by(&end, indices, scratch)
}

/// A call whose parts are sampled so, with a change of what each is given.
fn with_part(
    call: &Stratifying,
    change: impl Fn(&mut Sampling),
    indices: &mut [u32],
    scratch: &mut [u32],
) -> Ended {
    let sample = |part: &Sampling, indices: &mut [u32], scratch: &mut [u32]| {
        let mut part = part.clone();
        change(&mut part);
        part.end(indices, scratch)
    };
    with(call, &sample, indices, scratch)
}

/// A call whose parts that do not start at 0 are sampled so.
fn with_later(call: &Stratifying, later: End, indices: &mut [u32], scratch: &mut [u32]) -> Ended {
    let end = |start, part: &Sampling, indices: &mut [u32], scratch: &mut [u32]| {
        let sample = if start == 0 { Sampling::end } else { later };
        moved(start, sample(part, indices, scratch), indices)
    };
    call.end_by(&end, indices, scratch)
}

/// Fault [`START_AMOUNTS`].
fn start_amounts(call: &Stratifying, indices: &mut [u32], scratch: &mut [u32]) -> Ended {
    let end = |_, part: &Sampling, indices: &mut [u32], scratch: &mut [u32]| {
        let amounts = call.indices_len - part.indices_len;
        placed(amounts as u64, part, indices, scratch)
    };
    call.end_by(&end, indices, scratch)
}

/// Fault [`SAME_DRAWS`].
fn same_draws(call: &Stratifying, indices: &mut [u32], scratch: &mut [u32]) -> Ended {
    let mut ended = with_part(call, |part| part.from = call.from, indices, scratch);
    if ended.words > 0 {
        ended.state = advanced(call.from, ended.words);
    }
    ended
}

/// Fault [`METHOD_WHOLE`]. What a spent part leaves is as it is due.
fn method_whole(call: &Stratifying, indices: &mut [u32], scratch: &mut [u32]) -> Ended {
    let whole = sum(&call.lengths) as u32;
    let sample = |part: &Sampling, indices: &mut [u32], scratch: &mut [u32]| {
        let drawing = |rng: &mut _, length, amount| {
            let mut again = Clone::clone(rng);
            let sample = draw(due(whole, amount), &mut again, length, amount, &RAND);
            if sample.words() > part.budget {
                return by_rand(rng, length, amount);
            }
            *rng = again;
            sample
        };
        part.end_by(&drawing, indices, scratch)
    };
    with(call, &sample, indices, scratch)
}

/// Fault [`SCRATCH_LATE`].
fn scratch_late(call: &Stratifying, indices: &mut [u32], scratch: &mut [u32]) -> Ended {
    match call.refusal() {
        Some(9) => call.parts_by(&placed, indices, scratch),
        _ => call.end(indices, scratch),
    }
}

/// Fault [`EMPTY_SKIPPED`].
fn empty_skipped(call: &Stratifying, indices: &mut [u32], scratch: &mut [u32]) -> Ended {
    if let Some(number) = call.refusal() {
        return call.refused(number);
    }
    let (lengths, amounts) = call.parts().filter(|&(_, amount)| amount > 0).unzip();
    let call = Stratifying {
        lengths,
        amounts,
        ..call.clone()
    };
    call.end(indices, scratch)
}

/// Faults [`SPENT_TWICE`] and [`SPENT_UNMOVED`]: the start is added so many times.
fn spent_moved(call: &Stratifying, times: u64, indices: &mut [u32], scratch: &mut [u32]) -> Ended {
    let end = |start: u64, part: &Sampling, indices: &mut [u32], scratch: &mut [u32]| {
        let ended = part.end(indices, scratch);
        let times = if ended.number == 0 { 1 } else { times };
        moved(times * start, ended, indices)
    };
    call.end_by(&end, indices, scratch)
}

/// Fault [`SUM_WRAPS`]. A part that is too long is refused when it comes, as `sample` refuses it.
fn sum_wraps(call: &Stratifying, indices: &mut [u32], scratch: &mut [u32]) -> Ended {
    let is_alike = call.lengths.len() == call.amounts.len();
    let is_wrapped = sum(&call.lengths) as u64 <= u32::MAX.into();
    match call.refusal() {
        Some(PARTS_MISMATCH) if is_alike && is_wrapped => call.parts_by(&placed, indices, scratch),
        _ => call.end(indices, scratch),
    }
}

/// Fault [`SCRATCH_MOVED`].
fn scratch_moved(call: &Stratifying, indices: &mut [u32], scratch: &mut [u32]) -> Ended {
    let end = |start, part: &Sampling, indices: &mut [u32], scratch: &mut [u32]| {
        let ended = placed(start, part, indices, scratch);
        let arranged = methods::scratch(part.length as u32, part.amount as u32);
        add(start, &mut scratch[..arranged]);
        ended
    };
    call.end_by(&end, indices, scratch)
}

/// Fault [`MISMATCH_LATE`].
fn mismatch_late(call: &Stratifying, indices: &mut [u32], scratch: &mut [u32]) -> Ended {
    let ended = call.end(indices, scratch);
    let mut parts = call.parts();
    if ended.number == PARTS_MISMATCH && parts.any(|(length, amount)| amount > length) {
        return call.refused(1);
    }
    ended
}

/// Fault [`COUNT_LAST`].
fn count_last(call: &Stratifying, indices: &mut [u32], scratch: &mut [u32]) -> Ended {
    let last = Cell::new(0);
    let end = |start, part: &Sampling, indices: &mut [u32], scratch: &mut [u32]| {
        let ended = placed(start, part, indices, scratch);
        last.set(ended.count);
        ended
    };
    let mut ended = call.end_by(&end, indices, scratch);
    if ended.number == BUDGET_EXHAUSTED {
        ended.count = last.get();
    }
    ended
}

/// Fault [`TAIL_CLEARED`].
fn tail_cleared(call: &Stratifying, indices: &mut [u32], scratch: &mut [u32]) -> Ended {
    let ended = call.end(indices, scratch);
    if ended.number == 0 || ended.number == BUDGET_EXHAUSTED {
        indices[ended.count as usize..].fill(0);
    }
    ended
}
