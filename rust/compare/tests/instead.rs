//! Calls of rand that have no call of their own here: what docs/DIFFERENCES.md says to call instead gives the same, words and generator too.

use gapyndura::Xoshiro256PlusPlus;
use gapyndura::index::sample;
use gapyndura::iterator::{choose, sample_fill};
use gapyndura::slice::shuffle;
use gapyndura::weighted_index::WeightedIndex;
use rand::rngs::SmallRng;
use rand::seq::{IndexedMutRandom, IndexedRandom, IteratorRandom, SliceRandom};
use rand::{RngExt, SeedableRng};
use reference::{State, counted};

/// No call here comes near it.
const BUDGET: u64 = 1_000_000;

/// Lengths with every small one among them.
fn lengths() -> impl Iterator<Item = u32> {
    (0..40).chain([100, 350, 351, 1000])
}

/// A generator for each number.
fn state(number: u32) -> State {
    Xoshiro256PlusPlus::seed_from_u64(number.into()).state()
}

/// What a call of ours gives, the words that it says, and the generator's state after it.
fn ours<T>(from: State, call: impl FnOnce(&mut Xoshiro256PlusPlus) -> (T, u64)) -> (T, u64, State) {
    let mut rng = Xoshiro256PlusPlus::from_state(from);
    let (value, words) = call(&mut rng);
    (value, words, rng.state())
}

/// `amount` of `length` indices, or none where there are not so many, and the words.
fn sampled(rng: &mut Xoshiro256PlusPlus, length: u32, amount: usize) -> (Option<Vec<u32>>, u64) {
    let mut indices = vec![0; amount];
    let mut scratch = vec![0; length as usize];
    let (length, wanted) = (length.into(), amount as u64);
    match sample(rng, length, wanted, BUDGET, &mut indices, &mut scratch) {
        Ok(sampled) => (Some(indices), sampled.words),
        Err(error) => (None, error.so_far.words),
    }
}

#[test]
fn a_slice_s_choose_is_a_sample_of_one() {
    for length in lengths() {
        let from = state(length);
        let mut items: Vec<u32> = (0..length).collect();
        let port = ours(from, |rng| {
            let (indices, words) = sampled(rng, length, 1);
            (indices.map(|indices| indices[0]), words)
        });
        assert_eq!(counted(from, |rng| items.choose(rng).copied()), port);
        assert_eq!(
            counted(from, |rng| items.choose_mut(rng).map(|item| *item)),
            port
        );
    }
}

#[test]
fn choose_with_exact_hints_gives_a_slice_s_choice_and_no_word_is_read_for_one_item() {
    for length in lengths().skip(1) {
        let from = state(length);
        let items: Vec<u32> = (0..length).collect();
        let exact: Vec<u32> = (0..=length).rev().collect();
        let port = ours(from, |rng| {
            let chosen = choose(rng, &items, &exact, &exact, BUDGET).unwrap();
            (chosen.item, chosen.words)
        });
        let rand = counted(from, |rng| items.choose(rng).copied());
        if length == 1 {
            assert_eq!((port, rand.1), ((Some(0), 0, from), 1));
        } else {
            assert_eq!(rand, port);
        }
    }
}

#[test]
fn sample_array_is_a_sample_to_eleven_indices() {
    fn check<const N: usize>() {
        for length in lengths() {
            let from = state(length);
            let rand = counted(from, |rng| {
                rand::seq::index::sample_array::<_, N>(rng, length as usize)
                    .map(|indices| indices.map(|index| index as u32).to_vec())
            });
            assert_eq!(rand, ours(from, |rng| sampled(rng, length, N)));
        }
    }
    check::<0>();
    check::<1>();
    check::<2>();
    check::<5>();
    check::<11>();
}

#[test]
fn a_slice_s_sample_is_that_of_its_indices_with_the_amount_clipped() {
    for length in lengths() {
        for amount in [0, 1, 5, 12, 200] {
            let from = state(length);
            let items: Vec<u32> = (0..length).collect();
            let rand = counted(from, |rng| items.sample(rng, amount).copied().collect());
            let clipped = amount.min(length as usize);
            let (indices, words, after) = ours(from, |rng| sampled(rng, length, clipped));
            assert_eq!(rand, (indices.unwrap(), words, after));
        }
    }
}

#[test]
fn an_iterator_s_sample_is_a_fill() {
    for length in lengths() {
        for amount in [0, 1, 5, 50] {
            let from = state(length);
            let items: Vec<u32> = (0..length).collect();
            let rand = counted(from, |rng| items.iter().copied().sample(rng, amount));
            let port = ours(from, |rng| {
                let mut buf = vec![0; amount];
                let filled = sample_fill(rng, &items, &mut buf, BUDGET).unwrap();
                buf.truncate(filled.count);
                (buf, filled.words)
            });
            assert_eq!(rand, port);
        }
    }
}

/// So many picks from the table of these weights.
fn picks(rng: &mut Xoshiro256PlusPlus, weights: &[u32], times: usize) -> (Vec<u32>, u64) {
    let mut sums = vec![0; weights.len()];
    let table = WeightedIndex::new(weights, &mut sums).unwrap();
    let picked: Vec<_> = (0..times)
        .map(|_| table.sample(rng, &sums, BUDGET).unwrap())
        .collect();
    (
        picked.iter().map(|pick| pick.index).collect(),
        picked.iter().map(|pick| pick.words).sum(),
    )
}

#[test]
fn the_weighted_choices_are_picks() {
    for length in lengths().skip(1) {
        let from = state(length);
        let mut items: Vec<u32> = (0..length).collect();
        let weight = |&item: &u32| item * 7 % 5 + item % 2 + 1;
        let weights: Vec<u32> = items.iter().map(weight).collect();
        let one = ours(from, |rng| picks(rng, &weights, 1));
        assert_eq!(
            counted(from, |rng| vec![
                *items.choose_weighted(rng, weight).unwrap()
            ]),
            one
        );
        assert_eq!(
            counted(from, |rng| vec![
                *items.choose_weighted_mut(rng, weight).unwrap()
            ]),
            one
        );
        let rand = counted(from, |rng| {
            let choices = items.choose_weighted_iter(rng, weight).unwrap();
            choices.take(20).copied().collect::<Vec<_>>()
        });
        assert_eq!(rand, ours(from, |rng| picks(rng, &weights, 20)));
    }
}

#[test]
fn choices_with_replacement_are_picks_of_equal_weights() {
    for length in lengths().skip(1) {
        let from = state(length);
        let items: Vec<u32> = (0..length).collect();
        let rand = counted(from, |rng| {
            let choices = items.choose_iter(rng).unwrap();
            choices.take(20).copied().collect::<Vec<_>>()
        });
        let weights = vec![1; items.len()];
        assert_eq!(rand, ours(from, |rng| picks(rng, &weights, 20)));
    }
}

#[test]
fn weights_of_8_and_16_bits_are_picked_as_those_of_32() {
    for number in 0..40 {
        let from = state(number);
        let weights = [2u8, 0, 3, 40, 7];
        let one = ours(from, |rng| picks(rng, &weights.map(u32::from), 1));
        let small = rand::distr::weighted::WeightedIndex::new(weights).unwrap();
        let middle = rand::distr::weighted::WeightedIndex::new(weights.map(u16::from)).unwrap();
        assert_eq!(counted(from, |rng| vec![rng.sample(&small) as u32]), one);
        assert_eq!(counted(from, |rng| vec![rng.sample(&middle) as u32]), one);
    }
}

#[test]
fn the_small_generator_is_this_one() {
    for seed in 0..40 {
        let (mut items, mut same): (Vec<u32>, Vec<u32>) = ((0..100).collect(), (0..100).collect());
        items.shuffle(&mut SmallRng::seed_from_u64(seed));
        shuffle(
            &mut Xoshiro256PlusPlus::seed_from_u64(seed),
            &mut same,
            BUDGET,
        )
        .unwrap();
        assert_eq!(items, same);
        items.shuffle(&mut SmallRng::from_seed([seed as u8; 32]));
        shuffle(
            &mut Xoshiro256PlusPlus::from_seed([seed as u8; 32]),
            &mut same,
            BUDGET,
        )
        .unwrap();
        assert_eq!(items, same);
    }
}
