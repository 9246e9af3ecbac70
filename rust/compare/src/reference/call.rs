//! The calls that lines make, and what they answer.

use crate::State;
use crate::answer::Answer;
use crate::choose_line::Choosing;
use crate::choosing::{Choose, choose, choose_stable};
use crate::draw_line::{Bounded, NextU64, next_u64, one_value, output};
use crate::draws::{self, Draws};
use crate::filling::{Fill, Filling, sample_fill};
use crate::generator::Generator;
use crate::line::{Line, Name, Rooms};
use crate::number::length;
use crate::sample_line::{self, sampled, viewed};
use crate::sampling::{End, Sampling};
use crate::shuffle_line::{Part, Parting, filled, head, shuffled, tail};
use crate::shuffling::{PartialShuffle, Shuffle, Shuffling, Whole, partial_shuffle, shuffle};
use crate::stratified_line;
use crate::stratifying::{EndParts, Stratifying};
use crate::viewing::{NextU32, View, next_u32, view};
use crate::weighing;
use crate::weights_line::{Looking, Picking};

/// A way to make each of the calls: rand's, the port's, or one with a fault in it.
#[derive(Clone, Copy)]
pub struct Calls {
    pub next_u64: NextU64,
    pub next_u32: NextU32,
    pub draws: Draws,
    pub sample: End,
    pub view: View,
    pub partial_shuffle: PartialShuffle,
    pub shuffle: Shuffle,
    pub tail: Parting,
    pub head: Parting,
    pub sample_fill: Fill,
    pub choose: Choose,
    pub choose_stable: Choose,
    pub weights: weighing::Calls,
    pub sample_stratified: EndParts,
}

/// rand's calls.
pub const RAND: Calls = Calls {
    next_u64,
    next_u32,
    draws: draws::RAND,
    sample: Sampling::end,
    view,
    partial_shuffle,
    shuffle,
    tail,
    head,
    sample_fill,
    choose,
    choose_stable,
    weights: weighing::RAND,
    sample_stratified: Stratifying::end,
};

/// What a line asks for.
#[derive(Clone, Debug, PartialEq, Eq)]
pub enum Call {
    /// Nothing but the generator.
    Seed(State),
    /// An output of 64 bits.
    NextU64(State),
    /// A word of a lent generator.
    NextU32(State),
    /// A bounded draw within a budget.
    RandomRange(Bounded),
    /// A rejecting draw within a budget.
    UniformInt(Bounded),
    Sample(Sampling),
    PartialShuffle(Shuffling),
    Shuffle(Whole),
    Tail(Part),
    Head(Part),
    SampleFill(Filling),
    /// A view of drawn items, as many as the length says.
    IndexedSamples(Sampling),
    Choose(Choosing),
    ChooseStable(Choosing),
    Pick(Picking),
    Weight(Looking),
    SampleStratified(Stratifying),
}

impl Call {
    /// The call of a line, if it is one where there are these rooms.
    #[must_use]
    pub fn of(line: &Line, rooms: Rooms) -> Option<Self> {
        Self::from_state(line, line.generator.state(), rooms)
    }

    /// The same from another state than the line's.
    #[must_use]
    pub fn from_state(line: &Line, from: State, rooms: Rooms) -> Option<Self> {
        let numbers = &line.numbers[..];
        length(numbers.len() as u64, rooms.numbers)?;
        let room = rooms.entries;
        Some(match line.name {
            Name::Seed => Self::Seed(alone(from, numbers)?),
            Name::NextU64 => Self::NextU64(alone(from, numbers)?),
            Name::NextU32 => Self::NextU32(alone(from, numbers)?),
            Name::RandomRange => Self::RandomRange(Bounded::read(from, numbers)?),
            Name::UniformInt => Self::UniformInt(Bounded::read(from, numbers)?),
            Name::Sample => Self::Sample(sample_line::read(from, numbers, room)?),
            Name::PartialShuffle => Self::PartialShuffle(partial(from, numbers, room)?),
            Name::Shuffle => Self::Shuffle(whole(from, numbers, room)?),
            Name::Tail => Self::Tail(part(from, numbers, room)?),
            Name::Head => Self::Head(part(from, numbers, room)?),
            Name::SampleFill => Self::SampleFill(fill(from, numbers, room)?),
            Name::IndexedSamples => {
                let call = sample_line::read(from, numbers, room)?;
                length(call.length, room)?;
                Self::IndexedSamples(call)
            }
            Name::Choose => Self::Choose(Choosing::read(from, numbers, room)?),
            Name::ChooseStable => Self::ChooseStable(Choosing::read(from, numbers, room)?),
            Name::Pick => Self::Pick(Picking::read(from, numbers, room)?),
            Name::Weight => Self::Weight(Looking::read(from, numbers, room)?),
            Name::SampleStratified => {
                Self::SampleStratified(stratified_line::read(from, numbers, room)?)
            }
        })
    }

    /// The line that asks for it. Its generator is named by its state.
    #[must_use]
    pub fn line(&self) -> Line {
        let line = |name, from, numbers| Line {
            name,
            generator: Generator::of_state(from),
            numbers,
        };
        let parts = |name, part: &Part| line(name, part.from, vec![part.len as u64, part.at]);
        let draw = |name, call: &Bounded| line(name, call.from, vec![call.r.into(), call.budget]);
        let sample = |name, call: &Sampling| line(name, call.from, sample_line::numbers(call));
        match self {
            Self::Seed(from) => line(Name::Seed, *from, vec![]),
            Self::NextU64(from) => line(Name::NextU64, *from, vec![]),
            Self::NextU32(from) => line(Name::NextU32, *from, vec![]),
            Self::RandomRange(call) => draw(Name::RandomRange, call),
            Self::UniformInt(call) => draw(Name::UniformInt, call),
            Self::Sample(call) => sample(Name::Sample, call),
            Self::PartialShuffle(call) => {
                let numbers = vec![call.len as u64, call.amount, call.budget];
                line(Name::PartialShuffle, call.from, numbers)
            }
            Self::Shuffle(call) => {
                let numbers = vec![call.len as u64, call.budget];
                line(Name::Shuffle, call.from, numbers)
            }
            Self::Tail(call) => parts(Name::Tail, call),
            Self::Head(call) => parts(Name::Head, call),
            Self::SampleFill(call) => {
                let numbers = [call.items_len as u64, call.buf_len as u64, call.budget];
                line(Name::SampleFill, call.from, numbers.to_vec())
            }
            Self::IndexedSamples(call) => sample(Name::IndexedSamples, call),
            Self::Choose(call) => line(Name::Choose, call.from, call.numbers()),
            Self::ChooseStable(call) => line(Name::ChooseStable, call.from, call.numbers()),
            Self::Pick(call) => line(Name::Pick, call.from, call.numbers()),
            Self::Weight(call) => line(Name::Weight, call.from, call.numbers()),
            Self::SampleStratified(call) => {
                let numbers = stratified_line::numbers(call);
                line(Name::SampleStratified, call.from, numbers)
            }
        }
    }

    /// rand's answer.
    #[must_use]
    pub fn answer(&self) -> Answer {
        self.answer_by(&RAND)
    }

    /// The answer where the calls are made so.
    #[must_use]
    pub fn answer_by(&self, calls: &Calls) -> Answer {
        match self {
            Self::Seed(from) => Answer::shown(*from, &[]),
            Self::NextU64(from) => output(*from, calls.next_u64),
            Self::NextU32(from) => one_value(&(calls.next_u32)(*from)),
            Self::RandomRange(call) => call.random_range(&calls.draws),
            Self::UniformInt(call) => call.uniform_int(&calls.draws),
            Self::Sample(call) => sampled(call.indices_len, call.scratch_len, |i, s| {
                (calls.sample)(call, i, s)
            }),
            Self::PartialShuffle(call) => {
                shuffled(call.len, |items| (calls.partial_shuffle)(call, items))
            }
            Self::Shuffle(call) => shuffled(call.len, |items| (calls.shuffle)(call, items)),
            Self::Tail(call) => call.answer(calls.tail),
            Self::Head(call) => call.answer(calls.head),
            Self::SampleFill(call) => filled(call, calls.sample_fill),
            Self::IndexedSamples(call) => viewed(call, calls.view),
            Self::Choose(call) => call.answer(calls.choose),
            Self::ChooseStable(call) => call.answer(calls.choose_stable),
            Self::Pick(call) => call.answer(&calls.weights),
            Self::Weight(call) => call.answer(&calls.weights),
            Self::SampleStratified(call) => sampled(call.indices_len, call.scratch_len, |i, s| {
                (calls.sample_stratified)(call, i, s)
            }),
        }
    }
}

/// The state of a line without numbers.
fn alone(from: State, numbers: &[u64]) -> Option<State> {
    numbers.is_empty().then_some(from)
}

/// `partial_shuffle G LENGTH AMOUNT BUDGET`.
fn partial(from: State, numbers: &[u64], room: usize) -> Option<Shuffling> {
    let &[len, amount, budget] = numbers else {
        return None;
    };
    Some(Shuffling {
        from,
        len: length(len, room)?,
        amount,
        budget,
    })
}

/// `shuffle G LENGTH BUDGET`.
fn whole(from: State, numbers: &[u64], room: usize) -> Option<Whole> {
    let &[len, budget] = numbers else {
        return None;
    };
    let len = length(len, room)?;
    Some(Whole { from, len, budget })
}

/// `tail G LENGTH N`, `head G LENGTH N`.
fn part(from: State, numbers: &[u64], room: usize) -> Option<Part> {
    let &[len, at] = numbers else {
        return None;
    };
    let len = length(len, room)?;
    Some(Part { from, len, at })
}

/// `sample_fill G LENGTH AMOUNT BUDGET`.
fn fill(from: State, numbers: &[u64], room: usize) -> Option<Filling> {
    let &[items_len, buf_len, budget] = numbers else {
        return None;
    };
    Some(Filling {
        from,
        items_len: length(items_len, room)?,
        buf_len: length(buf_len, room)?,
        budget,
    })
}
