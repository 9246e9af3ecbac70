//! Faults that can be put into the port's shuffles, so that a comparison is seen to fail.

use reference::advanced;
use reference::draws::{BUDGET_EXHAUSTED, bounded};
use reference::shuffling::{
    Exchanges, Outcome, PartialShuffle, Parts, Shuffle, Shuffling, Whole, end_by, partial_shuffle,
    refusal,
};

use super::port;
use crate::draw_faults::{self, faulty};
use crate::sample::faults::{SPENT_EARLY, SPENT_UNADVANCED, SPENT_UNNEEDED, unneeded};

/// A shuffle that reads its words and leaves the slice as it was.
const MOVES_NOTHING: &str = "shuffle-moves-nothing";

/// A tail that starts one place late, where it has an entry.
pub const OFF_BY_ONE: &str = "tail-off-by-one";

/// A spent shuffle that has made only the first exchange of the last draw that is finished.
const SPENT_UNDONE: &str = "chunk-spent-undone";

/// The faults that both shuffles can have.
pub const NAMES: [&str; 9] = [
    MOVES_NOTHING,
    SPENT_UNDONE,
    SPENT_EARLY,
    SPENT_UNNEEDED,
    SPENT_UNADVANCED,
    draw_faults::SECOND_WORD,
    draw_faults::FIRST_LOW_KEPT,
    draw_faults::STOPS_AT_LARGEST,
    draw_faults::THIRD_UNTESTED,
];

/// The faults of a partial shuffle.
pub const OF_PARTIAL: [&str; NAMES.len() + 1] = {
    let mut names = [OFF_BY_ONE; NAMES.len() + 1];
    let mut place = 0;
    while place < NAMES.len() {
        names[place] = NAMES[place];
        place += 1;
    }
    names
};

/// The shuffles with each fault of the bounded draw.
const WITH_DRAWS: [PartialShuffle; draw_faults::NAMES.len()] = [
    |call, items| end_by(call, faulty::<0>, items),
    |call, items| end_by(call, faulty::<1>, items),
    |call, items| end_by(call, faulty::<2>, items),
    |call, items| end_by(call, faulty::<3>, items),
];

/// The partial shuffle with this fault in it, where the name is that of one.
pub fn planted(plant: Option<&str>) -> Option<PartialShuffle> {
    Some(match plant? {
        MOVES_NOTHING => moves_nothing,
        OFF_BY_ONE => tail_off_by_one,
        SPENT_UNDONE => spent_undone,
        SPENT_EARLY => spent_early,
        SPENT_UNNEEDED => spent_unneeded,
        SPENT_UNADVANCED => spent_unadvanced,
        _ => return draw_faults::planted(plant, WITH_DRAWS),
    })
}

/// The shuffles with each fault that both can have.
const WHOLE: [Shuffle; NAMES.len()] = [
    whole::<0>, whole::<1>, whole::<2>, whole::<3>, whole::<4>, whole::<5>, whole::<6>, whole::<7>,
    whole::<8>,
];

/// The whole shuffle with this fault in it, where the name is that of one.
pub fn planted_whole(plant: Option<&str>) -> Option<Shuffle> {
    let place = NAMES.iter().position(|name| Some(*name) == plant)?;
    Some(WHOLE[place])
}

/// The whole shuffle with the fault at this place.
fn whole<const PLACE: usize>(call: &Whole, items: &mut [u32]) -> Outcome {
    let partial = planted(Some(NAMES[PLACE])).expect("a fault of both");
    partial(&call.as_partial(), items)
}

/// Fault [`MOVES_NOTHING`].
fn moves_nothing(call: &Shuffling, items: &mut [u32]) -> Outcome {
    let before = items.to_vec();
    let outcome = port::partial_shuffle(call, items);
    items.copy_from_slice(&before);
    outcome
}

/// Fault [`OFF_BY_ONE`].
fn tail_off_by_one(call: &Shuffling, items: &mut [u32]) -> Outcome {
    match port::partial_shuffle(call, items) {
        (mut ended, Some(_)) if (ended.count as usize) < call.len => {
            ended.count += 1;
            let n = ended.count as usize;
            let parts = Parts {
                tail: n..call.len,
                head: 0..n,
            };
            (ended, Some(parts))
        }
        other => other,
    }
}

/// The exchanges of a call, if it makes draws.
fn exchanges(call: &Shuffling) -> Option<Exchanges> {
    let is_refused = refusal(call.from, call.len).is_some();
    (!is_refused).then(|| Exchanges::new(call, bounded))
}

/// Fault [`SPENT_UNDONE`].
fn spent_undone(call: &Shuffling, items: &mut [u32]) -> Outcome {
    let before = items.to_vec();
    let outcome = partial_shuffle(call, items);
    if outcome.0.number == BUDGET_EXHAUSTED {
        let exchanges = exchanges(call).expect("draws");
        let mut finished = exchanges.draws.iter().rev();
        let last = finished.find(|(_, words)| *words <= call.budget);
        let done = last.map_or(exchanges.done(0), |(first, _)| first + 1);
        items.copy_from_slice(&before);
        for &[place, other] in &exchanges.places[..done] {
            items.swap(place, other);
        }
    }
    outcome
}

/// Fault [`SPENT_EARLY`].
fn spent_early(call: &Shuffling, items: &mut [u32]) -> Outcome {
    let Some(mut exchanges) = exchanges(call) else {
        return partial_shuffle(call, items);
    };
    let last = exchanges.draws.last_mut();
    if let Some((_, words)) = last.filter(|(_, words)| *words == call.budget) {
        *words += 1;
    }
    exchanges.end(call, items)
}

/// Fault [`SPENT_UNNEEDED`].
fn spent_unneeded(call: &Shuffling, items: &mut [u32]) -> Outcome {
    let (ended, parts) = partial_shuffle(call, items);
    let ended = unneeded(ended, call.budget);
    let parts = parts.filter(|_| ended.number == 0);
    (ended, parts)
}

/// Fault [`SPENT_UNADVANCED`].
fn spent_unadvanced(call: &Shuffling, items: &mut [u32]) -> Outcome {
    let (mut ended, parts) = partial_shuffle(call, items);
    if ended.number == BUDGET_EXHAUSTED {
        let draws = exchanges(call).expect("draws").draws;
        let words = draws.iter().map(|&(_, words)| words);
        let finished = words.filter(|&words| words <= call.budget).max();
        ended.state = advanced(call.from, finished.unwrap_or(0));
    }
    (ended, parts)
}
