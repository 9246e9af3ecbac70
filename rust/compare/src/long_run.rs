//! Long mixed runs: one generator carried through many samples, shuffles, fills, picks, choices, words, views and stratified samples, so
//! that a generator left in the wrong place shows in all that follows.

use reference::State;
use reference::answer::digest;
use reference::call::{Calls, RAND};
use reference::choosing;
use reference::filling::Filling;
use reference::sampling::{End, Ended, Sampling};
use reference::shuffling::{Outcome, Shuffling, Whole};
use reference::stratifying::{EndParts, Stratifying};
use reference::viewing::View;

use crate::choose::{self, Choose};
use crate::fill::{self, SampleFill};
use crate::inputs::{Source, edges, smaller};
use crate::kind::Kind;
use crate::port::PORT;
use crate::sample::{self, Sample};
use crate::shuffle::{self, PartialShuffle, Shuffle};
use crate::slices::Lent;
use crate::stratified::{self, SampleStratified};
use crate::view::{self, IndexedSamples};
use crate::weights;

/// The calls of a run.
const CALLS: u64 = 1000;

/// A pick that reads its words and leaves the generator as it was.
const GENERATOR_STAYS: &str = "generator-stays";

/// All calls that draw, one after another from one generator.
pub struct LongRun {
    port: Calls,
}

/// A run: where it starts, the seed of all else that its calls are given, and their number.
#[derive(Clone, Debug)]
pub struct Input {
    from: State,
    seed: u64,
    calls: u64,
}

/// The state after a run, the words read in all, and a digest of all answers and slices.
#[derive(Debug, PartialEq)]
pub struct Total {
    state: State,
    words: u64,
    digest: u64,
}

impl Kind for LongRun {
    const NAME: &'static str = "samples, shuffles, fills, picks, choices, words, views and stratified samples, one generator for many";
    const FAULTS: &'static [&'static str] = &[GENERATOR_STAYS];
    const PARTS: usize = 2;
    type Input = Input;
    type Answer = Total;

    fn new(plant: Option<&str>) -> Self {
        let mut port = PORT;
        if plant == Some(GENERATOR_STAYS) {
            port.weights.pick = |from, table, lent, budget| Ended {
                state: from,
                ..(PORT.weights.pick)(from, table, lent, budget)
            };
        }
        Self { port }
    }

    fn fixed(mut visit: impl FnMut(Input)) {
        for (seed, word) in (0..).zip(edges()).step_by(16) {
            let from = [word, 1, 2, 3];
            let calls = CALLS;
            visit(Input { from, seed, calls });
        }
    }

    fn random(source: &mut Source) -> Input {
        Input {
            from: source.state(),
            seed: source.even(),
            calls: CALLS,
        }
    }

    fn smaller(input: &Input) -> Vec<Input> {
        let fewer = smaller(input.calls);
        fewer
            .map(|calls| Input {
                calls,
                ..input.clone()
            })
            .collect()
    }

    fn calls(input: &Input) -> u64 {
        input.calls
    }

    fn rand(input: &Input) -> Total {
        total(&RAND, input)
    }

    fn port(&self, input: &Input) -> Total {
        total(&self.port, input)
    }
}

/// What comes of a run in which the calls are made so.
fn total(calls: &Calls, input: &Input) -> Total {
    let mut source = Source::new(input.seed);
    let mut total = Total {
        state: input.from,
        words: 0,
        digest: 0,
    };
    for _ in 0..input.calls {
        let (ended, lent) = call(calls, total.state, &mut source);
        total.state = ended.state;
        total.words += ended.words;
        let mut seen = vec![total.digest, ended.number, ended.count, ended.words];
        seen.extend(lent.iter().map(Lent::digest));
        let halves = seen.iter().map(|number| (number ^ number >> 32) as u32);
        total.digest = digest(&[&halves.collect::<Vec<u32>>()]);
    }
    total
}

/// A random call from this generator: how it ends, and the slices that it was lent.
fn call(calls: &Calls, from: State, source: &mut Source) -> (Ended, Vec<Lent>) {
    match source.below(10) {
        0 => sampled(from, source, calls.sample),
        1 => {
            let call = Shuffling {
                from,
                ..PartialShuffle::random(source)
            };
            shuffled(call.len, |items| (calls.partial_shuffle)(&call, items))
        }
        2 => {
            let call = Whole {
                from,
                ..Shuffle::random(source)
            };
            shuffled(call.len, |items| (calls.shuffle)(&call, items))
        }
        3 => {
            let call = Filling {
                from,
                ..SampleFill::random(source)
            };
            let answer = fill::Answer::new(&call, calls.sample_fill);
            (answer.ended, vec![answer.buf])
        }
        4 => picked(from, source, &calls.weights),
        5 => chosen(from, source, calls.choose),
        6 => chosen(from, source, calls.choose_stable),
        7 => ((calls.next_u32)(from), Vec::new()),
        8 => stratified(from, source, calls.sample_stratified),
        _ => viewed(from, source, calls.view),
    }
}

/// How a sample ends, and both slices.
fn sampled(from: State, source: &mut Source, end: End) -> (Ended, Vec<Lent>) {
    let call = Sampling {
        from,
        ..Sample::random(source)
    };
    let answer = sample::Answer::new(&call, end);
    (answer.ended, vec![answer.indices, answer.scratch])
}

/// How a stratified sample ends, and both slices.
fn stratified(from: State, source: &mut Source, end: EndParts) -> (Ended, Vec<Lent>) {
    let call = Stratifying {
        from,
        ..SampleStratified::random(source)
    };
    let answer = stratified::answer(&call, end);
    (answer.ended, vec![answer.indices, answer.scratch])
}

/// How a pick ends, and the slice of the sums.
fn picked(from: State, source: &mut Source, calls: &weights::Calls) -> (Ended, Vec<Lent>) {
    let table = weights::random::table(source);
    let budget = weights::random::budget(source);
    let mut sums = Lent::of(&table.sums);
    let ended = (calls.pick)(from, table.record, sums.entries(), budget);
    (ended, vec![sums])
}

/// How a shuffle of so many items ends, and the items.
fn shuffled(len: usize, end: impl FnOnce(&mut [u32]) -> Outcome) -> (Ended, Vec<Lent>) {
    let answer = shuffle::Answer::new(len, end);
    (answer.ended, vec![answer.items])
}

/// How a choice ends, and the lists.
fn chosen(from: State, source: &mut Source, end: choosing::Choose) -> (Ended, Vec<Lent>) {
    let call = choose::Input {
        from,
        ..Choose::random(source)
    };
    let answer = choose::Answer::new(&call, end);
    (answer.chosen.ended(), answer.lent.into())
}

/// How a view ends, the slices, and its steps as a slice.
fn viewed(from: State, source: &mut Source, end: View) -> (Ended, Vec<Lent>) {
    let call = Sampling {
        from,
        ..IndexedSamples::random(source)
    };
    let answer = view::Answer::new(&call, end);
    let steps = answer.walk.steps.iter();
    let steps = steps.flat_map(|&(item, len)| [item.map_or(0, |item| item + 1), len as u32]);
    let steps = Lent::of(&steps.collect::<Vec<u32>>());
    (answer.ended, vec![answer.indices, answer.scratch, steps])
}
