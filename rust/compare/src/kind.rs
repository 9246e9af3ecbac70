//! What a kind of call is, and how one is run on both sides.

use std::fmt::Debug;
use std::ops::AddAssign;
use std::time::{Duration, Instant};

use crate::arguments::Arguments;
use crate::inputs::Source;

/// A call that both sides answer.
pub trait Kind {
    /// The call's name, as rand has it.
    const NAME: &'static str;

    /// The faults that can be put into the port's answers, so that a comparison is seen to fail.
    const FAULTS: &'static [&'static str];

    /// How many parts of the time of a run the kind gets.
    const PARTS: usize = 1;

    /// All that the call is given.
    type Input: Clone + Debug;

    /// All that can be seen of its outcome.
    type Answer: PartialEq + Debug;

    /// The kind with one of its faults planted, or with none where the name is not among its own.
    fn new(plant: Option<&str>) -> Self;

    /// Hands over the inputs that every run tries: small ones without gap, and those at the edges.
    fn fixed(visit: impl FnMut(Self::Input));

    /// A random input.
    fn random(source: &mut Source) -> Self::Input;

    /// Inputs that count as smaller than this one. No chain of them may be endless.
    fn smaller(input: &Self::Input) -> Vec<Self::Input>;

    /// The calls that an input makes.
    fn calls(_: &Self::Input) -> u64 {
        1
    }

    /// rand's answer.
    fn rand(input: &Self::Input) -> Self::Answer;

    /// The port's answer.
    fn port(&self, input: &Self::Input) -> Self::Answer;
}

/// Where random inputs end: at the first bound that is reached.
pub struct Bound {
    /// The time that they may take.
    pub time: Option<Duration>,
    /// How many there are at most of each kind.
    pub calls: u64,
}

impl Bound {
    /// Whether there is still time for what was started then.
    pub fn in_time(&self, started: Instant) -> bool {
        self.time.is_none_or(|time| started.elapsed() < time)
    }
}

/// How many calls were made, and on how many inputs the sides differ.
#[derive(Clone, Copy, Default)]
pub struct Tally {
    pub calls: u64,
    pub differ: u64,
}

impl AddAssign for Tally {
    fn add_assign(&mut self, other: Self) {
        self.calls += other.calls;
        self.differ += other.differ;
    }
}

/// A kind as a line in the program's table.
pub struct Entry {
    /// The kind's name.
    #[cfg(test)]
    pub name: &'static str,
    /// The kind's faults.
    pub faults: &'static [&'static str],
    /// The kind's parts of the time.
    pub parts: usize,
    /// Runs the kind and prints what came of it.
    pub run: fn(&Arguments, &Bound) -> Tally,
    /// Whether this fault shows in one of so many random inputs.
    #[cfg(test)]
    pub shows: fn(&str, usize) -> bool,
}

impl Entry {
    /// The line of kind `K`.
    pub const fn of<K: Kind>() -> Self {
        Self {
            #[cfg(test)]
            name: K::NAME,
            faults: K::FAULTS,
            parts: K::PARTS,
            run: run::<K>,
            #[cfg(test)]
            shows: shows::<K>,
        }
    }
}

#[cfg(test)]
fn shows<K: Kind>(fault: &str, inputs: usize) -> bool {
    let trial = Trial::new(K::new(Some(fault)), true);
    let mut source = Source::new(1);
    (0..inputs).any(|_| trial.differs(&K::random(&mut source)))
}

/// Calls between two looks at the clock.
const BATCH: u64 = 256;

fn run<K: Kind>(arguments: &Arguments, bound: &Bound) -> Tally {
    let plant = arguments.plant.as_deref();
    let mut trial = Trial::new(K::new(plant), plant.is_some());
    K::fixed(|input| trial.compare(input));
    let mut source = Source::new(arguments.seed);
    let started = Instant::now();
    let mut left = bound.calls;
    while left > 0 && !trial.is_settled() && bound.in_time(started) {
        let end = left.saturating_sub(BATCH);
        while left > end {
            let input = K::random(&mut source);
            left = left.saturating_sub(K::calls(&input));
            trial.compare(input);
        }
    }
    println!("{}: {} calls", K::NAME, trial.tally.calls);
    trial.report();
    trial.tally
}

/// A kind while it is run.
struct Trial<K: Kind> {
    kind: K,
    /// Whether a fault is planted, which it is enough to find once.
    is_planted: bool,
    tally: Tally,
    first: Option<K::Input>,
}

impl<K: Kind> Trial<K> {
    fn new(kind: K, is_planted: bool) -> Self {
        Self {
            kind,
            is_planted,
            tally: Tally::default(),
            first: None,
        }
    }

    fn differs(&self, input: &K::Input) -> bool {
        K::rand(input) != self.kind.port(input)
    }

    /// Whether no more inputs need be tried.
    fn is_settled(&self) -> bool {
        self.is_planted && self.tally.differ > 0
    }

    fn compare(&mut self, input: K::Input) {
        if self.is_settled() {
            return;
        }
        self.tally.calls += K::calls(&input);
        if self.differs(&input) {
            self.tally.differ += 1;
            self.first.get_or_insert(input);
        }
    }

    /// The input that is reached from the first difference by going to a smaller one for as long as the sides still differ.
    fn smallest(&self) -> Option<K::Input> {
        let mut found = self.first.clone()?;
        while let Some(input) = K::smaller(&found)
            .into_iter()
            .find(|input| self.differs(input))
        {
            found = input;
        }
        Some(found)
    }

    fn report(&self) {
        if let Some(input) = self.smallest() {
            report(
                self.tally.differ,
                format!("{} {input:?}", K::NAME),
                format!("{:?}", K::rand(&input)),
                format!("{:?}", self.kind.port(&input)),
            );
        }
    }
}

/// Prints how often the sides differ, and the smallest call found at which they do with the answers of both.
pub fn report(differ: u64, call: String, rand: String, port: String) {
    println!("  {differ} differ; the smallest input found:");
    println!("  {call}");
    println!("  rand: {rand}");
    println!("  port: {port}");
}
