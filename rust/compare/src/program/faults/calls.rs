//! Faults in what a call does. Outputs, draws and parts have faults of their own; the others are those of the same calls at the C
//! boundary.

use reference::call::Calls;
use reference::draw_line::next_u64;
use reference::draws::{Draw, Drawn, Draws, RAND, bounded, one_too_low, rejecting, rejecting_at};
use reference::line::Name;
use reference::sampling::{End, Sampling};
use reference::shuffle_line::{head, tail};
use reference::words::WORDS;

use crate::choose::{Choose, ChooseStable};
use crate::draw_faults::{self, faulty};
use crate::fill::SampleFill;
use crate::kind::Kind;
use crate::port::PORT;
use crate::sample::Sample;
use crate::sample::faults::with_draws;
use crate::seeding::{FromSeed, SeedFromU64};
use crate::shuffle::{PartialShuffle, Shuffle};
use crate::stratified::SampleStratified;
use crate::view::IndexedSamples;
use crate::weights::{History, faults};
use crate::word::{NextU32, OF_NEXT_STEP};

/// The rejecting draw with a threshold that is one too high.
const THRESHOLD: &str = "threshold";

/// The same with one that is one too low.
const THRESHOLD_LOW: &str = "threshold-low";

/// A draw that read more than one word, with a figure of one word less.
const FIGURE: &str = "words";

/// A part of a slice, lent at the place behind the one that is asked for.
const PARTS: &str = "parts-off-by-one";

/// The faults of draws that lines alone have: the draws with each of them, and samples that are drawn so.
const DRAWS: [(&str, Draws, End); 3] = [
    (THRESHOLD, OF_THRESHOLD, |call, indices, scratch| {
        with_draws(&OF_THRESHOLD, call, indices, scratch)
    }),
    (THRESHOLD_LOW, OF_THRESHOLD_LOW, |call, indices, scratch| {
        with_draws(&OF_THRESHOLD_LOW, call, indices, scratch)
    }),
    (FIGURE, OF_FIGURE, |call, indices, scratch| {
        with_draws(&OF_FIGURE, call, indices, scratch)
    }),
];

/// The bounded draws with each fault that every call can have which makes one.
const BOUNDED: [Draw; draw_faults::NAMES.len()] =
    [faulty::<0>, faulty::<1>, faulty::<2>, faulty::<3>];

const OF_THRESHOLD: Draws = Draws {
    rejecting: |rng, r| rejecting_at(rng, r, WORDS % r as u64 + 1),
    ..RAND
};

const OF_THRESHOLD_LOW: Draws = Draws {
    rejecting: one_too_low,
    ..RAND
};

const OF_FIGURE: Draws = Draws {
    bounded: |rng, r| one_less(bounded(rng, r)),
    rejecting: |rng, r| one_less(rejecting(rng, r)),
};

/// The faults that a kind of line can have.
pub fn of(name: Name) -> Vec<&'static str> {
    match name {
        Name::Seed => [SeedFromU64::FAULTS, FromSeed::FAULTS].concat(),
        Name::NextU64 => vec![OF_NEXT_STEP],
        Name::NextU32 => NextU32::FAULTS.to_vec(),
        Name::RandomRange => [&draw_faults::NAMES[..], &[FIGURE]].concat(),
        Name::UniformInt => vec![THRESHOLD, THRESHOLD_LOW, FIGURE],
        Name::Sample => [Sample::FAULTS, &[FIGURE]].concat(),
        Name::PartialShuffle => PartialShuffle::FAULTS.to_vec(),
        Name::Shuffle => Shuffle::FAULTS.to_vec(),
        Name::Tail | Name::Head => vec![PARTS],
        Name::SampleFill => SampleFill::FAULTS.to_vec(),
        Name::IndexedSamples => IndexedSamples::FAULTS.to_vec(),
        Name::Choose => Choose::FAULTS.to_vec(),
        Name::ChooseStable => ChooseStable::FAULTS.to_vec(),
        // But for an entry past the sums that is searched: in a line it is 2^32 - 1, above all that is drawn.
        Name::Pick => but(&[
            faults::ENTRY_PAST,
            faults::WEIGHT_SUM,
            faults::WEIGHT_BEYOND,
        ]),
        Name::Weight => but(&[
            faults::ENTRY_PAST,
            faults::EQUAL_SUM,
            faults::PICK_WORDS,
            faults::PICK_THRESHOLD,
        ]),
        Name::SampleStratified => SampleStratified::FAULTS.to_vec(),
    }
}

/// The faults of tables but for these.
fn but(others: &[&str]) -> Vec<&'static str> {
    let all = History::FAULTS.iter().copied();
    all.filter(|fault| !others.contains(fault)).collect()
}

/// The calls with this fault in them, or as they are where it is none of theirs.
pub fn planted(fault: &str) -> Calls {
    let plant = Some(fault);
    let mut calls = Calls {
        next_u32: NextU32::new(plant).end,
        sample: Sample::new(plant).fault.unwrap_or(Sampling::end),
        view: IndexedSamples::new(plant).end,
        partial_shuffle: PartialShuffle::new(plant).end,
        shuffle: Shuffle::new(plant).end,
        sample_fill: SampleFill::new(plant).end,
        choose: Choose::new(plant).end,
        choose_stable: ChooseStable::new(plant).end,
        weights: faults::planted(plant),
        sample_stratified: SampleStratified::new(plant).end,
        ..PORT
    };
    if let Some((_, draws, sample)) = DRAWS.into_iter().find(|(name, ..)| *name == fault) {
        calls.draws = draws;
        calls.sample = sample;
    }
    if let Some(bounded) = draw_faults::planted(plant, BOUNDED) {
        calls.draws.bounded = bounded;
    }
    match fault {
        OF_NEXT_STEP => {
            calls.next_u64 = |from| {
                let (_, after) = next_u64(from);
                (next_u64(after).0, after)
            };
        }
        PARTS => {
            calls.tail = |items, at| tail(items, at.saturating_add(1));
            calls.head = |items, at| head(items, at.saturating_add(1));
        }
        _ => {}
    }
    calls
}

/// Fault [`FIGURE`].
fn one_less(drawn: Drawn) -> Drawn {
    Drawn {
        words: drawn.words - u64::from(drawn.words > 1),
        ..drawn
    }
}

#[cfg(test)]
mod tests {
    use reference::call::Call;
    use reference::draw_line::Bounded;
    use reference::words::giving;

    use super::{FIGURE, THRESHOLD, THRESHOLD_LOW, planted};
    use crate::draw_faults::SECOND_WORD;

    /// Whether each fault of a draw shows in a draw from these words.
    fn shows(make: fn(Bounded) -> Call, r: u32, a: u32, b: u32) -> [bool; 4] {
        let from = giving(a, b, 1);
        let call = make(Bounded { from, r, budget: 2 });
        let faults = [SECOND_WORD, THRESHOLD, THRESHOLD_LOW, FIGURE];
        faults.map(|fault| call.answer_by(&planted(fault)) != call.answer())
    }

    #[test]
    fn each_fault_of_a_draw_shows_where_it_is() {
        let bounded = |a| shows(Call::RandomRange, 6, a, 0);
        // The lower halves are 2^32 - 8, 2^32 - 6 and 2^32 - 4.
        assert_eq!(bounded(3579139412), [false; 4]);
        assert_eq!(bounded(u32::MAX), [true, false, false, false]);
        assert_eq!(bounded(715827882), [false, false, false, true]);
        let rejecting = |r, a| shows(Call::UniformInt, r, a, 1);
        // 6, 4 (2^32 mod 6) and 0.
        assert_eq!(rejecting(6, 1), [false; 4]);
        assert_eq!(rejecting(6, 1431655766), [false, true, false, false]);
        assert_eq!(rejecting(6, 0), [false, false, false, true]);
        // 3 and 0, one below 2^32 mod 3.
        assert_eq!(rejecting(3, 1), [false; 4]);
        assert_eq!(rejecting(3, 0), [false, false, true, true]);
    }
}
