//! Numbers to try.

use rand::rngs::Xoshiro256PlusPlus;
use rand::{Rng, RngExt, SeedableRng};
use reference::draws::bounded;
use reference::states::at_last_draw;
use reference::{State, from_state, words};

/// A computed state is for one of the first so many draws of a random call.
const DRAWS: usize = 12;

/// Random numbers, by rand's own generator: an error in the port cannot choose what the port is tried on.
pub struct Source(Xoshiro256PlusPlus);

impl Source {
    /// The numbers of a seed.
    pub fn new(seed: u64) -> Self {
        Self(Xoshiro256PlusPlus::seed_from_u64(seed))
    }

    /// A number below `end`.
    pub fn below(&mut self, end: u32) -> u32 {
        self.0.random_range(..end)
    }

    /// Any number of 64 bits, each as likely as another.
    pub fn even(&mut self) -> u64 {
        self.0.next_u64()
    }

    /// A number of 64 bits: as often as not one near a power of two, or with few bits, or 0.
    pub fn u64(&mut self) -> u64 {
        let power = 1 << self.below(64);
        match self.below(8) {
            0 => u64::wrapping_add(power, self.even() % 16),
            1 => u64::wrapping_sub(power, self.even() % 16),
            2 => power | 1 << self.below(64),
            3 => 0,
            _ => self.even(),
        }
    }

    /// The state of a generator: any, or one whose words are near powers of two, or have few bits, or are 0.
    pub fn state(&mut self) -> State {
        let state = match self.below(2) {
            0 => [(); 4].map(|()| self.u64()),
            _ => [(); 4].map(|()| self.even()),
        };
        if state == [0; 4] { self.state() } else { state }
    }

    /// The same; and now and then four zeros, which are no generator.
    pub fn state_or_zero(&mut self) -> State {
        if self.below(256) == 0 {
            [0; 4]
        } else {
            self.state()
        }
    }

    /// The same; and now and then one with which one of the bounded draws below these numbers, made one after another, has words on one
    /// side or the other of its tests.
    pub fn state_at_draws(&mut self, bounds: &[u32]) -> State {
        let few = bounds.len().min(DRAWS);
        if few == 0 || self.below(4) > 0 {
            return self.state_or_zero();
        }
        let place = self.below(few as u32) as usize;
        let row = self.one_of(&words::bounded(bounds[place]));
        at_last_draw(&bounds[..=place], row, self.even())
    }

    /// One of these.
    pub fn one_of<T: Copy>(&mut self, choices: &[T]) -> T {
        choices[self.below(choices.len() as u32) as usize]
    }
}

/// Hands over generators with which the first, the second, a middle and the last of the bounded draws below these numbers has words on
/// both sides of each of its tests; and with each a budget that ends before that draw, at each of its words and behind it, and enough.
pub fn at_draws(bounds: &[u32], mut visit: impl FnMut(State, u64)) {
    let mut places = vec![0, 1, bounds.len() / 2, bounds.len().wrapping_sub(1)];
    places.retain(|&place| place < bounds.len());
    places.sort_unstable();
    places.dedup();
    for place in places {
        let (earlier, draw) = (&bounds[..place], &bounds[..=place]);
        for (salt, row) in (1..).zip(words::bounded(bounds[place])) {
            let from = at_last_draw(draw, row, salt);
            let mut rng = from_state(from);
            let words = earlier.iter().map(|&r| bounded(&mut rng, r).words);
            let before: u64 = words.sum();
            let budgets = before.saturating_sub(1)..=before + 5;
            budgets
                .chain([u64::MAX])
                .for_each(|budget| visit(from, budget));
        }
    }
}

/// 0, the powers of two of 64 bits, their neighbours, and the largest number.
pub fn edges() -> Vec<u64> {
    let powers = (0..u64::BITS).map(|exponent| 1 << exponent);
    let mut edges: Vec<u64> = powers
        .flat_map(|power| [power - 1, power, power + 1])
        .collect();
    edges.push(u64::MAX);
    edges.sort_unstable();
    edges.dedup();
    edges
}

/// Smaller numbers than this one: those that differ from it by a power of two, the farthest first. Going to one of them
/// again and again ends at the least number of any range of numbers.
pub fn smaller(number: u64) -> impl Iterator<Item = u64> {
    let powers = (0..u64::BITS).rev().map(|exponent| 1 << exponent);
    powers.filter_map(move |power| number.checked_sub(power))
}

/// States with a smaller number for one of their words. Four zeros are none.
pub fn smaller_states(from: State) -> impl Iterator<Item = State> {
    let places = (0..4).flat_map(move |place| smaller(from[place]).map(move |less| (place, less)));
    let states = places.map(move |(place, less)| {
        let mut state = from;
        state[place] = less;
        state
    });
    states.filter(|state| *state != [0; 4])
}

#[cfg(test)]
mod tests {
    use reference::draws::bounded;
    use reference::from_state;

    use super::{Source, at_draws};

    /// How many of these states let the draw at a place read one word, two, three, and more.
    fn counts(bounds: &[u32], place: usize, states: impl Iterator<Item = [u64; 4]>) -> [u32; 4] {
        let mut counts = [0; 4];
        for from in states {
            let mut rng = from_state(from);
            let words = bounds.iter().map(|&r| bounded(&mut rng, r).words);
            let words: Vec<u64> = words.collect();
            counts[words[place].min(4) as usize - 1] += 1;
        }
        counts
    }

    /// In the inputs of every run, at the first and at the last draw, and in random ones, at any.
    #[test]
    fn draws_read_one_word_to_four() {
        let bounds = [44, 45, 4_000_000_000, 47, 6];
        let mut states = Vec::new();
        at_draws(&bounds, |from, _| states.push(from));
        for place in [0, 1, 2, 4] {
            let counts = counts(&bounds, place, states.iter().copied());
            assert!(counts.iter().all(|&count| count > 0), "{counts:?}");
        }
        let mut source = Source::new(1);
        let states = (0..5000).map(|_| source.state_at_draws(&bounds));
        let states: Vec<_> = states.filter(|from| *from != [0; 4]).collect();
        for place in 0..bounds.len() {
            let counts = counts(&bounds, place, states.iter().copied());
            assert!(counts.iter().all(|&count| count > 5), "{counts:?}");
        }
    }

    /// Budgets end before a draw, at each of its words and behind it.
    #[test]
    fn budgets_are_those_around_a_draw() {
        let mut budgets = Vec::new();
        at_draws(&[6], |_, budget| budgets.push(budget));
        assert_eq!(budgets[..8], [0, 1, 2, 3, 4, 5, u64::MAX, 0]);
        at_draws(&[], |_, _| panic!("there is no draw"));
    }
}
