//! Tables of weights: new ones, changes of one place, lookups and picks.

use gapyndura::weighted_index::WeightedIndex as PortTable;
use rand::distr::Distribution;
use rand::distr::weighted::WeightedIndex as RandTable;

use crate::numbers::grouped;
use crate::seed::seed;
use crate::sides::{Case, Sides, Timed, answer, ours, theirs};

/// How many weights the tables have.
const COUNTS: [usize; 3] = [10, 1000, 100_000];

/// The weights are good, and so are the tables made of them.
const GOOD: &str = "a good table";

pub fn cases() -> Vec<Case> {
    type Work = (&'static str, &'static str, fn(usize) -> Sides);
    let works: [Work; 4] = [
        ("`new`", "", new),
        ("`update_weights`", "one place, in the middle, of ", change),
        ("`weight`", "one place, in the middle, of ", lookup),
        ("`sample` (pick)", "", |count| pick(&weights(count))),
    ];
    let mut cases = Vec::new();
    for (call, of, sides) in works {
        for count in COUNTS {
            let size = format!("{of}{} weights", grouped(count as u64));
            cases.push(Case::new(call, size, move || sides(count)));
        }
    }
    cases
}

/// So many weights, from 1 to 10: each seed begins at its own place of their row.
pub fn weights(count: usize) -> Vec<u32> {
    let first = seed() % 10;
    (0..)
        .map(|i: u32| 1 + (first + i * 7) % 10)
        .take(count)
        .collect()
}

fn rand_table(count: usize) -> RandTable<u32> {
    RandTable::new(weights(count)).expect(GOOD)
}

/// The port's table of these weights with its sums.
fn port_table(weights: &[u32]) -> (PortTable, Vec<u32>) {
    let mut sums = vec![0; weights.len() - 1];
    let table = PortTable::new(weights, &mut sums).expect(GOOD);
    (table, sums)
}

/// The weights of the port's table.
fn differences(table: PortTable, sums: &[u32]) -> Vec<u32> {
    let ends = sums.iter().chain([&table.total_weight]);
    let starts = [0].iter().chain(sums);
    ends.zip(starts).map(|(end, start)| end - start).collect()
}

fn new(count: usize) -> Sides {
    Sides::new(
        theirs(
            weights(count),
            |_, weights| RandTable::<u32>::new(&*weights).expect(GOOD),
            |_, table| table.weights().collect(),
        ),
        ours(
            (weights(count), vec![0; count - 1]),
            |_, (weights, sums)| PortTable::new(weights, sums).expect(GOOD),
            |(_, sums), table| differences(table, sums),
        ),
    )
}

/// The weight in the middle becomes one of two in turn.
pub fn change(count: usize) -> Sides {
    let other = |weight: u32| 12 - weight;
    let (table, sums) = port_table(&weights(count));
    Sides::new(
        theirs(
            (rand_table(count), count / 2, 5),
            move |_, (table, middle, weight)| {
                *weight = other(*weight);
                table.update_weights(&[(*middle, &*weight)]).expect(GOOD);
            },
            |(table, ..), ()| table.weights().collect(),
        ),
        ours(
            (table, sums, count as u64 / 2, 5),
            move |_, (table, sums, middle, weight)| {
                *weight = other(*weight);
                let changed = table.update_weights(sums, &[*middle], &[*weight]);
                changed.expect(GOOD);
            },
            |(table, sums, ..), ()| differences(*table, sums),
        ),
    )
}

/// A lookup, with a plain pass over the sums beside it.
pub fn lookup_and_pass(count: usize) -> Sides {
    lookup(count).with(pass(count))
}

/// Reads each sum once and compares none: what the check for 7 costs at least.
fn pass(count: usize) -> impl Timed + 'static {
    let (_, sums) = port_table(&weights(count));
    theirs(
        sums,
        |_, sums| sums.iter().fold(0, |all, sum| all | sum),
        answer,
    )
}

fn lookup(count: usize) -> Sides {
    let (table, sums) = port_table(&weights(count));
    Sides::new(
        theirs(
            (rand_table(count), count / 2),
            |_, (table, middle)| table.weight(*middle),
            answer,
        ),
        ours(
            (table, sums, count as u64 / 2),
            |_, (table, sums, middle)| table.weight(sums, *middle).expect(GOOD),
            answer,
        ),
    )
}

/// A pick by these weights.
pub fn pick(weights: &[u32]) -> Sides {
    Sides::new(
        theirs(
            RandTable::<u32>::new(weights).expect(GOOD),
            |rng, table| table.sample(rng),
            answer,
        ),
        ours(
            port_table(weights),
            |rng, (table, sums)| table.sample(rng, sums, u64::MAX).expect(GOOD),
            |_, picked| picked.index as usize,
        ),
    )
}
