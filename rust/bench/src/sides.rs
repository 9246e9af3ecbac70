//! The sides of a case: the same call with the same inputs, by rand and by the port.

use std::fmt::Debug;
use std::hint::black_box;
use std::time::{Duration, Instant};

use gapyndura::Xoshiro256PlusPlus as Port;
use rand::rngs::Xoshiro256PlusPlus as Rand;
use reference::{State, from_state, state};

use crate::allocation::{Allocated, allocated};

/// Where the first call of both sides starts.
const FIRST: State = [1, 2, 3, 4];

/// A generator of either side.
pub trait Generator: Clone {
    fn from_state(from: State) -> Self;

    fn state(&self) -> State;
}

impl Generator for Rand {
    fn from_state(from: State) -> Self {
        from_state(from)
    }

    fn state(&self) -> State {
        state(self)
    }
}

impl Generator for Port {
    fn from_state(from: State) -> Self {
        Self::from_state(from)
    }

    fn state(&self) -> State {
        self.state()
    }
}

/// A call of one side, with its generator and all that it is lent.
pub struct Side<G, L, C, S> {
    rng: G,
    lent: L,
    call: C,
    /// What a call has given, to be compared: its answer, or what it has written.
    seen: S,
}

/// rand's side.
pub fn theirs<L, C, S, A, T>(lent: L, call: C, seen: S) -> Side<Rand, L, C, S>
where
    C: Fn(&mut Rand, &mut L) -> A,
    S: Fn(&L, A) -> T,
{
    Side::new(lent, call, seen)
}

/// The port's side.
pub fn ours<L, C, S, A, T>(lent: L, call: C, seen: S) -> Side<Port, L, C, S>
where
    C: Fn(&mut Port, &mut L) -> A,
    S: Fn(&L, A) -> T,
{
    Side::new(lent, call, seen)
}

/// Sees the answer itself.
pub fn answer<L, A>(_: &L, answer: A) -> A {
    answer
}

impl<G: Generator, L, C, S> Side<G, L, C, S> {
    fn new(lent: L, call: C, seen: S) -> Self {
        Self {
            rng: G::from_state(FIRST),
            lent,
            call,
            seen,
        }
    }

    /// Makes the first call: what is seen of it, and what it allocates.
    fn first<A, T>(&mut self) -> (T, Allocated)
    where
        C: Fn(&mut G, &mut L) -> A,
        S: Fn(&L, A) -> T,
    {
        let (answer, heap) = allocated(|| (self.call)(&mut self.rng, &mut self.lent));
        ((self.seen)(&self.lent, answer), heap)
    }
}

/// What can be timed.
pub trait Timed {
    /// The time that so many calls from this state take, made so many times over.
    fn time(&mut self, from: State, calls: u32, rounds: u32) -> Duration;

    /// The state that the last call has left.
    fn state(&self) -> State;
}

impl<G, L, C, S, A> Timed for Side<G, L, C, S>
where
    G: Generator,
    C: Fn(&mut G, &mut L) -> A,
{
    fn time(&mut self, from: State, calls: u32, rounds: u32) -> Duration {
        let start = G::from_state(from);
        let started = Instant::now();
        for _ in 0..rounds {
            let mut rng = start.clone();
            for _ in 0..calls {
                // Nothing is known of what is lent, and any of it may be read afterwards. An answer that owns memory gives it back.
                black_box((self.call)(&mut rng, black_box(&mut self.lent)));
            }
            self.rng = rng;
        }
        started.elapsed()
    }

    fn state(&self) -> State {
        self.rng.state()
    }
}

/// The sides: rand's and the port's, or the port's before and after, with copies of rand's call between them. The port's is the last. And what the first
/// calls of rand and of the port have allocated.
pub struct Sides {
    pub timed: Vec<Box<dyn Timed>>,
    pub heap: [Allocated; 2],
}

impl Sides {
    /// Makes a first call of each side.
    ///
    /// # Panics
    ///
    /// If they do not give the same, or if the port allocates.
    pub fn new<L, C, S, A, M, D, U, B, T>(
        mut theirs: Side<Rand, L, C, S>,
        mut ours: Side<Port, M, D, U>,
    ) -> Self
    where
        L: 'static,
        M: 'static,
        C: Fn(&mut Rand, &mut L) -> A + 'static,
        D: Fn(&mut Port, &mut M) -> B + 'static,
        S: Fn(&L, A) -> T + 'static,
        U: Fn(&M, B) -> T + 'static,
        T: PartialEq + Debug,
    {
        let (rand, rand_heap) = theirs.first();
        let (port, port_heap) = ours.first();
        assert_eq!(port, rand, "both sides give the same");
        assert_eq!(port_heap.times, 0, "the port allocates nothing");
        Self {
            timed: vec![Box::new(theirs), Box::new(ours)],
            heap: [rand_heap, port_heap],
        }
    }

    /// The port's side alone.
    pub fn port(mut self) -> Box<dyn Timed> {
        self.timed.pop().expect("the port's is the last")
    }

    /// The port's side beside another.
    pub fn beside(self, other: impl Timed + 'static) -> Self {
        Self {
            heap: self.heap,
            timed: vec![Box::new(other), self.port()],
        }
    }

    /// With a copy of rand's call before the port's.
    pub fn with(mut self, copy: impl Timed + 'static) -> Self {
        self.timed.insert(self.timed.len() - 1, Box::new(copy));
        self
    }

    /// The times of so many calls from this state, made as many times over as each side's number says. The side of that number
    /// goes first.
    ///
    /// # Panics
    ///
    /// If the sides come to different states.
    pub fn times(
        &mut self,
        from: State,
        calls: u32,
        rounds: &[u32],
        first: usize,
    ) -> Vec<Duration> {
        let sides = self.timed.len();
        let mut times = vec![Duration::ZERO; sides];
        for side in (0..sides).map(|turn| (first + turn) % sides) {
            times[side] = self.timed[side].time(from, calls, rounds[side]);
        }
        for pair in self.timed.windows(2) {
            assert_eq!(pair[0].state(), pair[1].state(), "they read the same words");
        }
        times
    }
}

/// A case of a table.
pub struct Case {
    /// The call, and of a sample the method.
    pub call: &'static str,
    /// How large it is.
    pub size: String,
    /// What stands beside the port, in order.
    pub others: &'static [&'static str],
    /// The bytes that the port is lent to write, where the table tells of memory.
    pub lent: Option<usize>,
    pub sides: Box<dyn Fn() -> Sides>,
}

impl Case {
    pub fn new(
        call: &'static str,
        size: impl Into<String>,
        sides: impl Fn() -> Sides + 'static,
    ) -> Self {
        Self {
            call,
            size: size.into(),
            others: &["rand"],
            lent: None,
            sides: Box::new(sides),
        }
    }

    /// The name by which it is selected.
    pub fn name(&self) -> String {
        format!("{}, {}", self.call.replace('`', ""), self.size)
    }
}
