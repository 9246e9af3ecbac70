//! The three methods of index sampling and the choice among them, written anew from SCOPE 6 and 7.
//!
//! rand hands out the indices alone. What else is known of its sample is got by making the same draws again in the way of
//! the method, and [`by_rand`] holds every one of these to rand's own indices, words and generator.

use std::collections::HashSet;

use rand::rngs::Xoshiro256PlusPlus;
use rand::seq::index;

use crate::Counting;
use crate::draws::{Drawn, Draws, RAND};

/// A way to draw a sample.
#[derive(Clone, Copy, Debug, PartialEq, Eq)]
pub enum Method {
    Floyd,
    InPlace,
    Rejection,
}

impl Method {
    /// All of them.
    pub const ALL: [Self; 3] = [Self::Floyd, Self::InPlace, Self::Rejection];
}

/// The method that is due, with Rust's own rounding of whole numbers to `f32`.
#[must_use]
pub fn due(length: u32, amount: u32) -> Method {
    let (slope, base, ratio) = match length {
        ..500_000_u32 => (1.6_f32, 10.0_f32, 270.0_f32),
        _ => (8.0 / 45.0, 70.0 / 9.0, 330.0 / 9.0),
    };
    let places = length as f32;
    let count = amount as f32;
    match amount {
        0..=11 => Method::Floyd,
        12..=162 if places < (base + slope * count) * count => Method::InPlace,
        12..=162 => Method::Floyd,
        _ if places < ratio * count => Method::InPlace,
        _ => Method::Rejection,
    }
}

/// The entries of scratch that a sample needs: the method in place arranges all indices there.
#[must_use]
pub fn scratch(length: u32, amount: u32) -> usize {
    match due(length, amount) {
        Method::InPlace => length as usize,
        Method::Floyd | Method::Rejection => 0,
    }
}

/// What a method has drawn.
#[derive(Clone, Debug, Default, PartialEq, Eq)]
pub struct Sample {
    /// The indices, in order.
    pub indices: Vec<u32>,
    /// The words read when each of them was drawn.
    pub words: Vec<u64>,
    /// The values of the bounded draws, in order. By rejection none.
    pub values: Vec<u32>,
    /// In place: all indices below the length, as they were exchanged. Else none.
    pub arranged: Vec<u32>,
}

impl Sample {
    /// The words read in all.
    #[must_use]
    pub fn words(&self) -> u64 {
        self.words.last().copied().unwrap_or(0)
    }

    /// Adds a draw.
    pub fn read(&mut self, drawn: Drawn) {
        self.words.push(self.words() + drawn.words);
        self.values.push(drawn.value);
    }

    /// How many draws are finished with so many words, or by rejection how many indices are found.
    #[must_use]
    pub fn finished(&self, words: u64) -> usize {
        self.words.partition_point(|&read| read <= words)
    }
}

/// The sample of a method with these draws. The generator is advanced.
pub fn draw(
    method: Method,
    rng: &mut Xoshiro256PlusPlus,
    length: u32,
    amount: u32,
    draws: &Draws,
) -> Sample {
    match method {
        Method::Floyd => floyd(rng, length, amount, draws),
        Method::InPlace => in_place(rng, length, amount, draws),
        Method::Rejection => rejection(rng, length, amount, draws),
    }
}

fn floyd(rng: &mut Xoshiro256PlusPlus, length: u32, amount: u32, draws: &Draws) -> Sample {
    let mut sample = Sample::default();
    for j in length - amount..length {
        sample.read((draws.bounded)(rng, j + 1));
    }
    sample.indices = entries(length - amount, &sample.values);
    sample
}

/// The entries as draws of Floyd's method with these values leave them, the first being at this j.
#[must_use]
pub fn entries(first: u32, values: &[u32]) -> Vec<u32> {
    let mut entries = Vec::new();
    for (&t, j) in values.iter().zip(first..) {
        if let Some(equal) = entries.iter_mut().find(|index| **index == t) {
            *equal = j;
        }
        entries.push(t);
    }
    entries
}

fn in_place(rng: &mut Xoshiro256PlusPlus, length: u32, amount: u32, draws: &Draws) -> Sample {
    let mut sample = Sample::default();
    for i in 0..amount {
        sample.read((draws.bounded)(rng, length - i));
    }
    sample.arranged = arranged(length, &sample.values);
    sample.indices = sample.arranged[..amount as usize].to_vec();
    sample
}

/// All indices below the length, as exchanges by draws with these values arrange them.
#[must_use]
pub fn arranged(length: u32, values: &[u32]) -> Vec<u32> {
    let mut places: Vec<u32> = (0..length).collect();
    for (i, &d) in values.iter().enumerate() {
        places.swap(i, i + d as usize);
    }
    places
}

fn rejection(rng: &mut Xoshiro256PlusPlus, length: u32, amount: u32, draws: &Draws) -> Sample {
    let mut sample = Sample::default();
    let mut held = HashSet::new();
    let mut words = 0;
    while sample.indices.len() < amount as usize {
        let drawn = (draws.rejecting)(rng, length);
        words += drawn.words;
        if held.insert(drawn.value) {
            sample.indices.push(drawn.value);
            sample.words.push(words);
        }
    }
    sample
}

/// rand's own sample: the indices and the words read for them. The generator is advanced.
fn rand(rng: &mut Xoshiro256PlusPlus, length: u32, amount: u32) -> (Vec<u32>, u64) {
    let mut counting = Counting::new(rng.clone());
    let indices = index::sample(&mut counting, length as usize, amount as usize);
    let words = counting.words();
    *rng = counting.into_inner();
    // An index below a length of 32 bits has no more.
    let indices = indices.into_iter().map(|index| index as u32);
    (indices.collect(), words)
}

/// rand's own sample, with what the method that is due adds to it. The generator is advanced.
///
/// # Panics
///
/// If that method makes another sample of the same draws: then [`due`] is not rand's choice.
pub fn by_rand(rng: &mut Xoshiro256PlusPlus, length: u32, amount: u32) -> Sample {
    let mut again = rng.clone();
    let (indices, words) = rand(rng, length, amount);
    let method = due(length, amount);
    let sample = draw(method, &mut again, length, amount, &RAND);
    assert!(
        sample.indices == indices && sample.words() == words && again == *rng,
        "{amount} of {length}: rand's sample is not by {method:?}"
    );
    sample
}

/// The least length at which Floyd's method is due for this amount.
///
/// # Panics
///
/// If it is due at no length, as for amounts from 163 on.
#[must_use]
pub fn floyd_from(amount: u32) -> u32 {
    let mut lengths = 0..=u32::MAX;
    let found = lengths.find(|&length| due(length, amount) == Method::Floyd);
    found.expect("Floyd's method is due to amount 162")
}

/// Whether a method is tried. Floyd's takes the amount's square of steps; the one in place the length's memory, so that for few indices it is
/// tried at short lengths only.
fn is_tried(method: Method, length: u32, amount: u32) -> bool {
    match method {
        Method::Floyd => amount <= 5000,
        Method::InPlace => amount > 170 || length <= 1_000_000,
        Method::Rejection => true,
    }
}

/// The methods that give rand's sample from this generator: the indices, the words and the generator afterwards.
#[must_use]
pub fn seen(rng: &Xoshiro256PlusPlus, length: u32, amount: u32) -> Vec<Method> {
    let mut after = rng.clone();
    let (indices, words) = rand(&mut after, length, amount);
    let tried = Method::ALL
        .into_iter()
        .filter(|&method| is_tried(method, length, amount));
    let gives = |method: &Method| {
        let mut again = rng.clone();
        let sample = draw(*method, &mut again, length, amount, &RAND);
        sample.indices == indices && sample.words() == words && again == after
    };
    tried.filter(gives).collect()
}

/// The bounds of the draws that Floyd's method or the one in place makes, in their order. By rejection there are no bounded draws.
#[must_use]
pub fn bounds(length: u32, amount: u32) -> Vec<u32> {
    match due(length, amount) {
        Method::Floyd => (length - amount..length).map(|j| j + 1).collect(),
        Method::InPlace => (0..amount).map(|i| length - i).collect(),
        Method::Rejection => Vec::new(),
    }
}

#[cfg(test)]
mod tests {
    use rand::SeedableRng;
    use rand::rngs::Xoshiro256PlusPlus;

    use super::{Method, arranged, due, entries, floyd_from, seen};

    /// The samples of two out of three of SCOPE 18, and what the first draw alone leaves; and two exchanges of four places.
    #[test]
    fn values_of_draws_make_samples() {
        assert_eq!(entries(1, &[1, 1]), [2, 1]);
        assert_eq!(entries(1, &[0, 0]), [2, 0]);
        assert_eq!(entries(1, &[1]), [1]);
        assert_eq!(arranged(4, &[2, 2]), [2, 3, 0, 1]);
        assert_eq!(arranged(4, &[]), [0, 1, 2, 3]);
    }

    /// The choices that SCOPE 6 names, each seen in rand's own sample.
    #[test]
    fn the_marked_choices_are_rands() {
        let rng = Xoshiro256PlusPlus::seed_from_u64(1);
        for (amount, length, method) in [
            (12, 350, Method::InPlace),
            (12, 351, Method::Floyd),
            (12, 500_000, Method::Floyd),
            (163, 44_009, Method::InPlace),
            (163, 44_010, Method::Rejection),
            (2000, 499_999, Method::InPlace),
            (2000, 500_000, Method::Rejection),
        ] {
            assert_eq!(due(length, amount), method);
            assert_eq!(seen(&rng, length, amount), [method]);
        }
    }

    #[test]
    fn the_choice_turns_to_floyds_method_and_never_back() {
        assert_eq!((floyd_from(0), floyd_from(11)), (0, 0));
        for amount in 12..=162 {
            let entry = floyd_from(amount);
            assert_eq!(due(entry - 1, amount), Method::InPlace);
            let longer = (entry..600_000).chain([(1 << 24) - 1, (1 << 24) + 1, u32::MAX]);
            for length in longer {
                assert_eq!(due(length, amount), Method::Floyd);
            }
        }
    }

    #[test]
    fn a_length_is_rounded_to_the_nearest_even() {
        assert_eq!(16_777_217_u32 as f32, 16_777_216.0);
        assert_eq!(16_777_219_u32 as f32, 16_777_220.0);
    }
}
