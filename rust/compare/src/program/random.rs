//! Random lines. Half of those that draw once are at a test of the draw.

use reference::State;
use reference::call::Call;
use reference::choose_line::{Choosing, Hints};
use reference::draw_line::Bounded;
use reference::filling::Filling;
use reference::generator::Generator;
use reference::line::{Line, Name, ROOM, ROOMS};
use reference::sampling::Sampling;
use reference::shuffle_line::Part;
use reference::shuffling::{Shuffling, Whole};
use reference::states::giving_three;
use reference::weights_line::{Changed, Looking, Picking};
use reference::words::{bounded, giving, rejecting};

use crate::choose::{self, Choose};
use crate::fill::SampleFill;
use crate::inputs::Source;
use crate::kind::Kind;
use crate::sample::Sample;
use crate::seeding::{FromSeed, SeedFromU64};
use crate::shuffle::{self, PartialShuffle, Shuffle};
use crate::stratified::SampleStratified;
use crate::view::IndexedSamples;
use crate::weights;

/// A budget that a rejecting draw from four zeros may read to its end, for such a draw has no other.
const ENDLESS: u64 = 1000;

/// A line of this kind.
pub fn line(name: Name, source: &mut Source) -> Line {
    let line = call(name, source).line();
    let generator = match source.below(4) {
        0 => seed(source),
        _ => line.generator,
    };
    let line = Line { generator, ..line };
    if is_endless(&line) {
        return self::line(name, source);
    }
    line
}

/// A seed of either kind, now and then of zero bytes.
fn seed(source: &mut Source) -> Generator {
    match source.below(64) {
        0 => Generator::Bytes([0; 32]),
        1..16 => Generator::Bytes(FromSeed::random(source)),
        _ => Generator::Number(SeedFromU64::random(source)),
    }
}

/// Whether the call of a line reads words without end, but for a budget that is large.
pub fn is_endless(line: &Line) -> bool {
    match Call::of(line, ROOMS) {
        Some(Call::UniformInt(call)) => call.from == [0; 4] && call.budget > ENDLESS,
        _ => false,
    }
}

/// A call of this kind. Its generator may be replaced by another.
fn call(name: Name, source: &mut Source) -> Call {
    match name {
        Name::Seed => Call::Seed(source.state_or_zero()),
        Name::NextU64 => Call::NextU64(source.state_or_zero()),
        Name::NextU32 => Call::NextU32(source.state_or_zero()),
        Name::RandomRange => Call::RandomRange(draw(source, at_bounded)),
        Name::UniformInt => Call::UniformInt(draw(source, at_rejecting)),
        Name::Sample => Call::Sample(sample(source)),
        Name::PartialShuffle => {
            let call = PartialShuffle::random(source);
            let len = call.len.min(ROOM);
            Call::PartialShuffle(Shuffling { len, ..call })
        }
        Name::Shuffle => {
            let call = Shuffle::random(source);
            let len = call.len.min(ROOM);
            Call::Shuffle(Whole { len, ..call })
        }
        Name::Tail => Call::Tail(part(source)),
        Name::Head => Call::Head(part(source)),
        Name::SampleFill => {
            let call = SampleFill::random(source);
            let items_len = call.items_len.min(ROOM);
            let buf_len = call.buf_len.min(ROOM);
            Call::SampleFill(Filling {
                items_len,
                buf_len,
                ..call
            })
        }
        Name::IndexedSamples => Call::IndexedSamples(view(source)),
        Name::Choose => Call::Choose(choice(source)),
        Name::ChooseStable => Call::ChooseStable(choice(source)),
        Name::Pick => Call::Pick(picking(source)),
        Name::Weight => Call::Weight(looking(source)),
        Name::SampleStratified => Call::SampleStratified(SampleStratified::random(source)),
    }
}

/// A draw. Half of them start from a generator whose first words are on one side or the other of a test of it, which this gives.
fn draw(source: &mut Source, at_tests: fn(&mut Source, u32) -> State) -> Bounded {
    let r = bound(source);
    let from = match source.below(2) {
        0 => at_tests(source, r),
        _ => source.state_or_zero(),
    };
    let budget = budget(source);
    Bounded { from, r, budget }
}

/// A generator whose first three words are at the tests of a bounded draw. Four zeros are no state, and words of 0 may be wanted.
fn at_bounded(source: &mut Source, r: u32) -> State {
    let row = source.one_of(&bounded(r));
    giving_three(row, source.even() | 1)
}

/// The same of the first two words and a rejecting draw.
fn at_rejecting(source: &mut Source, r: u32) -> State {
    let (a, b) = source.one_of(&rejecting(r));
    giving(a, b, source.even() | 1)
}

/// A bound of a draw: a small one, a large one or one near a power of two as often as not.
fn bound(source: &mut Source) -> u32 {
    let low = source.u64() as u32;
    low.max(1)
}

/// A budget of words: mostly one that a draw can use up.
fn budget(source: &mut Source) -> u64 {
    match source.below(4) {
        0 => source.u64(),
        1 => u64::MAX,
        _ => source.below(5).into(),
    }
}

/// A sample with slices for which the program has room. A quarter are of one index, which is a bounded draw.
fn sample(source: &mut Source) -> Sampling {
    if source.below(4) == 0 {
        let Bounded { from, r, budget } = draw(source, at_bounded);
        return Sampling {
            from,
            length: r.into(),
            amount: 1,
            budget,
            indices_len: 1,
            scratch_len: 0,
        };
    }
    let call = Sample::random(source);
    Sampling {
        indices_len: call.indices_len.min(ROOM),
        scratch_len: call.scratch_len.min(ROOM),
        ..call
    }
}

/// A view with items and slices for which the program has room.
fn view(source: &mut Source) -> Sampling {
    let call = IndexedSamples::random(source);
    Sampling {
        length: call.length.min(ROOM as u64),
        indices_len: call.indices_len.min(ROOM),
        scratch_len: call.scratch_len.min(ROOM),
        ..call
    }
}

/// A part at any place, at the ends or past them.
fn part(source: &mut Source) -> Part {
    let len = shuffle::length(source).min(ROOM);
    let at = match source.below(4) {
        0 => source.u64(),
        1 => (len as u64 + u64::from(source.below(4))).saturating_sub(2),
        _ => source.u64() % (len as u64 + 2),
    };
    Part {
        from: source.state_or_zero(),
        len,
        at,
    }
}

/// A choice with hints that the program makes or that are given.
fn choice(source: &mut Source) -> Choosing {
    let call = Choose::random(source);
    let (items_len, hints) = match source.below(4) {
        0 => (made(source), Hints::None),
        1 => (made(source), Hints::Exact),
        _ => (call.items.len(), Hints::Given(call.lower, call.upper)),
    };
    Choosing {
        from: call.from,
        items_len,
        budget: call.budget,
        hints,
    }
}

/// How many items there are where their hints are made: those want room for one entry more.
fn made(source: &mut Source) -> usize {
    match source.below(64) {
        0 => source.below(ROOM as u32) as usize,
        _ => choose::count(source),
    }
}

/// A table, mostly with entries enough for its sums, and a change of it.
fn table(source: &mut Source) -> Changed {
    let is_heavy = source.below(4) == 0;
    let weights = match is_heavy {
        true => weights::random::heavy(source),
        false if source.below(64) == 0 => Vec::new(),
        false => weights::random::weights(source),
    };
    let (places, changes) = match is_heavy {
        true => weights::random::moved(&weights, source),
        false => weights::random::change(weights.len() as u64, source),
    };
    Changed {
        sums_len: (weights.len() + 2).saturating_sub(source.below(4) as usize),
        places,
        changes,
        weights,
    }
}

/// Picks: one, few, or many.
fn picking(source: &mut Source) -> Picking {
    let picks = match source.below(16) {
        0 => source.below(300),
        1..8 => source.below(5),
        _ => 1,
    };
    Picking {
        from: source.state_or_zero(),
        picks: picks as usize,
        budget: budget(source),
        table: table(source),
    }
}

/// A lookup of any place, mostly of one that is there.
fn looking(source: &mut Source) -> Looking {
    let table = table(source);
    Looking {
        from: source.state_or_zero(),
        place: weights::random::place(table.weights.len() as u64, source),
        table,
    }
}

#[cfg(test)]
mod tests {
    use reference::call::Call;
    use reference::line::{Name, ROOMS};

    use super::line;
    use crate::inputs::Source;

    /// The numbers of refusals that lines of a kind can have.
    fn refusals(name: Name) -> &'static [usize] {
        match name {
            Name::Seed | Name::NextU64 | Name::Tail | Name::Head => &[],
            Name::NextU32 => &[12],
            Name::PartialShuffle | Name::Shuffle | Name::SampleFill => &[12, 13],
            Name::RandomRange | Name::UniformInt => &[13],
            Name::Sample => &[1, 8, 9, 10, 12, 13],
            Name::IndexedSamples => &[8, 9, 12, 13],
            Name::Choose | Name::ChooseStable => &[11, 12, 13],
            Name::Pick => &[2, 3, 4, 5, 6, 8, 12, 13],
            Name::Weight => &[2, 3, 4, 5, 6, 8],
            Name::SampleStratified => &[1, 8, 9, 12, 13, 17],
        }
    }

    /// Random lines are calls, and each number that a line can answer is answered again and again.
    #[test]
    fn random_lines_have_every_answer() {
        for name in Name::ALL {
            let mut source = Source::new(1);
            let mut numbers = [0; 18];
            for _ in 0..5000 {
                let line = line(name, &mut source);
                let call = Call::of(&line, ROOMS);
                let call = call.unwrap_or_else(|| panic!("{line} is no call"));
                numbers[call.answer().number as usize] += 1;
            }
            for (number, &count) in numbers.iter().enumerate() {
                let can_be = number == 0 || refusals(name).contains(&number);
                assert_eq!(count > 3, can_be, "{name} {number}: {numbers:?}");
            }
        }
    }
}
