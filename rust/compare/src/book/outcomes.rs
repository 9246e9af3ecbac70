//! Books of jobs with every outcome: samples where a method crosses over or a slice ends, and picks at the edges of what there is room for.

use reference::book::{Draw, Job, MOST_JOBS, write};
use reference::book_jobs::ENTRIES;
use reference::book_text::seed;
use reference::generator::Generator;
use reference::methods::bounds;
use reference::words::{HALF_DROPPED, giving, rejecting};

use super::random::{AMOUNTS, LENGTHS};
use super::small;
use crate::inputs::at_draws;

/// A sample of more is tried with few budgets: it takes its time.
const FEW: u32 = 1000;

/// All of them: as many jobs in a book as it takes.
pub fn books() -> Vec<Vec<u8>> {
    let jobs = small::jobs().chain(samples()).chain(long_draws());
    let jobs = jobs.chain(picks());
    let mut books = packed(jobs.collect());
    books.extend(full().map(|job| write(&[job]).expect("it fits")));
    books.push(write(&longest()).expect("it fits"));
    books
}

/// Books of these jobs, in their order.
fn packed(jobs: Vec<Job>) -> Vec<Vec<u8>> {
    let mut books = Vec::new();
    let mut held: Vec<Job> = Vec::new();
    let mut book = Vec::new();
    for job in jobs {
        held.push(job.clone());
        match write(&held) {
            Ok(longer) => book = longer,
            Err(_) => {
                books.push(book);
                held = vec![job];
                book = write(&held).expect("it fits");
            }
        }
    }
    books.push(book);
    books
}

/// Samples of each edge length and amount, with budgets that are enough and that are not.
fn samples() -> impl Iterator<Item = Job> {
    let pairs = LENGTHS.into_iter().flat_map(|a| AMOUNTS.map(|b| (a, b)));
    pairs.zip(0..).flat_map(|((length, amount), number)| {
        let budgets = [0, amount.saturating_sub(1), amount, u32::MAX];
        let from = if amount > FEW { 2 } else { 0 };
        budgets.into_iter().skip(from).map(move |budget| Job {
            seed: seed(Generator::Number(number)).expect("a seed"),
            draw: Draw::Sample {
                length,
                amount,
                budget,
            },
        })
    })
}

/// Samples by Floyd's method and in place of which a draw has words on both sides of its tests, with budgets around that draw.
fn long_draws() -> impl Iterator<Item = Job> {
    [(6, 1), (9, 5), (12, 12)]
        .into_iter()
        .flat_map(|(length, amount)| {
            let mut jobs = Vec::new();
            at_draws(&bounds(length, amount), |from, budget| {
                jobs.push(Job {
                    seed: seed(Generator::of_state(from)).expect("a seed"),
                    draw: Draw::Sample {
                        length,
                        amount,
                        budget: u32::try_from(budget).unwrap_or(u32::MAX),
                    },
                });
            });
            jobs
        })
}

/// Picks from few weights with every small budget, from generators whose words are on both sides of the draw's test.
fn picks() -> impl Iterator<Item = Job> {
    let lists: [&[u32]; 5] = [
        &[1],
        &[1, HALF_DROPPED - 1],
        &[2, 0, 3],
        &[0, 0, u32::MAX],
        &[1 << 31, (1 << 31) - 1, 0],
    ];
    lists.into_iter().flat_map(|weights| {
        let total = weights.iter().sum();
        rejecting(total).into_iter().flat_map(move |(a, b)| {
            let seed = seed(Generator::of_state(giving(a, b, 1))).expect("a seed");
            let budgets = (0..4).flat_map(|budget| [1, 2, 5].map(|picks| (picks, budget)));
            budgets.map(move |(picks, budget)| Job {
                seed,
                draw: Draw::Pick {
                    picks,
                    budget,
                    weights: weights.to_vec(),
                },
            })
        })
    })
}

/// The jobs that print the most.
fn longest() -> Vec<Job> {
    let job = |number| Job {
        seed: seed(Generator::Number(number)).expect("a seed"),
        draw: Draw::Sample {
            length: u32::MAX,
            amount: ENTRIES as u32,
            budget: u32::MAX,
        },
    };
    (0..MOST_JOBS as u64).map(job).collect()
}

/// As many picks and weights as there is room for, one less and one more, also of lists that make no table.
fn full() -> impl Iterator<Item = Job> {
    let entries = ENTRIES as u32;
    let counts = [1, 2, ENTRIES, ENTRIES + 1, ENTRIES + 2];
    let weights = counts.into_iter().flat_map(|count| {
        [
            (0, 0),
            (1, 1),
            (1 << 19, 1),
            (1 << 20, 0),
            (u32::MAX, u32::MAX),
        ]
        .map(|w| (count, w))
    });
    let numbers = [
        (0, 0),
        (1, 1),
        (entries, 9),
        (entries + 1, 9),
        (u32::MAX, 0),
    ];
    weights.flat_map(move |(count, (first, others))| {
        let mut weights = vec![others; count];
        weights[0] = first;
        numbers.map(|(picks, budget)| Job {
            seed: [5; 32],
            draw: Draw::Pick {
                picks,
                budget,
                weights: weights.clone(),
            },
        })
    })
}

#[cfg(test)]
mod tests {
    use reference::book::{Draw, read};

    use super::books;

    #[test]
    fn every_outcome_is_there() {
        let mut numbers = [[0; 14]; 2];
        for job in books()
            .iter()
            .flat_map(|book| read(book).expect("a good book"))
        {
            let place = usize::from(matches!(job.draw, Draw::Pick { .. }));
            numbers[place][job.drawn().err().unwrap_or(0) as usize] += 1;
        }
        for (numbers, refusals) in numbers
            .iter()
            .zip([&[0, 1, 8, 9, 13][..], &[0, 2, 3, 4, 8, 13]])
        {
            assert!(
                refusals.iter().all(|&number| numbers[number] > 4),
                "{numbers:?}"
            );
        }
    }
}
