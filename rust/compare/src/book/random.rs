//! Random jobs of every outcome, and books of them.

use reference::State;
use reference::book::{Draw, Job, Seed, write};
use reference::book_jobs::ENTRIES;
use reference::book_text::seed as seed_of;
use reference::generator::Generator;
use reference::plain_list::PlainList;
use reference::words::{HALF_DROPPED, giving, rejecting};

use crate::inputs::Source;
use crate::kind::Kind;
use crate::sample::Sample;
use crate::weights::random as weights;

/// Lengths at which a method crosses over, or scratch ends, or 32 bits do.
pub const LENGTHS: [u32; 14] = [
    0,
    1,
    12,
    163,
    350,
    351,
    ENTRIES as u32 - 1,
    ENTRIES as u32,
    ENTRIES as u32 + 1,
    44_009,
    44_010,
    499_999,
    500_000,
    u32::MAX,
];

/// Amounts of the same kind.
pub const AMOUNTS: [u32; 12] = [
    0,
    1,
    11,
    12,
    13,
    162,
    163,
    164,
    ENTRIES as u32 - 1,
    ENTRIES as u32,
    ENTRIES as u32 + 1,
    u32::MAX,
];

/// A random book of random jobs.
pub fn book(source: &mut Source) -> Vec<u8> {
    let most = source.one_of(&[1, 2, 4, 8, 64]);
    let count = source.below(most + 1);
    let mut jobs: Vec<Job> = (0..count).map(|_| job(source)).collect();
    loop {
        match write(&jobs) {
            Ok(book) => return book,
            Err(_) => drop(jobs.pop()),
        }
    }
}

/// A random job.
pub fn job(source: &mut Source) -> Job {
    let (from, draw) = match source.below(2) {
        0 => sample(source),
        _ => pick(source),
    };
    let seed = match source.below(32) {
        0 => [0; 32],
        1 => std::array::from_fn(|_| source.below(256) as u8),
        _ => seed(from, source),
    };
    Job { seed, draw }
}

/// The seed of a state, or of another where it is that of no generator.
fn seed(from: State, source: &mut Source) -> Seed {
    let found = seed_of(Generator::of_state(from));
    found.unwrap_or_else(|| seed(source.state(), source))
}

/// A number of 32 bits for one that may have more.
fn narrow(number: u64) -> u32 {
    u32::try_from(number).unwrap_or(u32::MAX)
}

/// A sample: one at the edges, one by rejection, or any.
fn sample(source: &mut Source) -> (State, Draw) {
    let mut call = Sample::random(source);
    match source.below(8) {
        0 => {
            call.length = source.one_of(&LENGTHS).into();
            call.amount = source.one_of(&AMOUNTS).into();
        }
        1 => {
            call.amount = (163 + source.below(200)).into();
            call.length = call.amount * 270 + source.u64() % 1000;
            call.budget = call.amount + u64::from(source.below(6));
        }
        _ => {}
    }
    let draw = Draw::Sample {
        length: narrow(call.length),
        amount: narrow(call.amount),
        budget: narrow(call.budget),
    };
    (call.from, draw)
}

/// Picks: half of them start from a generator whose first two words are on one side or the other of the draw's test.
fn pick(source: &mut Source) -> (State, Draw) {
    let weights = list(source);
    let table = PlainList::new(&weights, ENTRIES);
    let from = match table {
        Ok(list) if source.below(2) == 0 => {
            let (a, b) = source.one_of(&rejecting(list.record().total_weight));
            giving(a, b, source.even() | 1)
        }
        _ => source.state(),
    };
    let draw = Draw::Pick {
        picks: picks(source),
        budget: budget(source),
        weights,
    };
    (from, draw)
}

/// Weights, which may be those of no table, or of one where words are dropped.
fn list(source: &mut Source) -> Vec<u32> {
    match source.below(64) {
        0 | 1 => Vec::new(),
        2 | 3 => vec![0; source.below(4) as usize + 1],
        4 | 5 => [weights::heavy(source), vec![3]].concat(),
        6 => (0..=source.below(3000)).map(|_| source.below(9)).collect(),
        7..32 => {
            let count = weights::count(source);
            weights::adding_to(HALF_DROPPED.into(), count, source)
        }
        _ => weights::weights(source),
    }
}

/// How many picks: few, none, or as many as there are entries, or more.
fn picks(source: &mut Source) -> u32 {
    let entries = ENTRIES as u32;
    match source.below(128) {
        0 => entries - source.below(2),
        1..4 => entries + 1,
        4 => source.u64() as u32,
        5..16 => 0,
        16..24 => source.below(300),
        _ => 1 + source.below(8),
    }
}

/// A budget: often one that a pick uses up.
fn budget(source: &mut Source) -> u32 {
    match source.below(4) {
        0 => u32::MAX,
        1 => source.u64() as u32,
        _ => source.below(6),
    }
}

#[cfg(test)]
mod tests {
    use reference::book::{Draw, LARGEST, MOST_JOBS, read};
    use reference::methods::{Method, due};

    use super::{book, job};
    use crate::inputs::Source;

    /// How often each outcome must be there among the jobs.
    const OFTEN: usize = 5;

    /// Jobs, with what they draw and the number of their refusal, or 0.
    fn counts(is_sample: bool) -> [usize; 14] {
        let mut source = Source::new(1);
        let mut numbers = [0; 14];
        for _ in 0..3000 {
            let job = job(&mut source);
            if matches!(job.draw, Draw::Sample { .. }) == is_sample {
                numbers[job.drawn().err().unwrap_or(0) as usize] += 1;
            }
        }
        numbers
    }

    #[test]
    fn random_jobs_have_every_outcome() {
        for (is_sample, refusals) in [(true, &[1, 8, 9, 13][..]), (false, &[2, 3, 4, 8, 13])] {
            let numbers = counts(is_sample);
            for (number, &count) in numbers.iter().enumerate() {
                let can_be = number == 0 || refusals.contains(&number);
                assert_eq!(count > OFTEN, can_be, "{number}: {numbers:?}");
                assert!(can_be || count == 0, "{number}: {numbers:?}");
            }
        }
    }

    /// Samples by each method, jobs without indices, and picks of which one is refused behind others.
    #[test]
    fn random_jobs_draw_in_every_way() {
        let mut source = Source::new(1);
        let (mut methods, mut without, mut behind) = ([0; 3], 0, 0);
        for _ in 0..3000 {
            let job = job(&mut source);
            let drawn = job.drawn();
            without += usize::from(drawn.as_ref().is_ok_and(Vec::is_empty));
            match job.draw {
                Draw::Sample { length, amount, .. } if drawn.is_ok() => {
                    let method = due(length, amount);
                    let place = Method::ALL.iter().position(|other| *other == method);
                    methods[place.expect("it is one")] += 1;
                }
                Draw::Pick { picks: 2.., .. } => {
                    let mut first = job.clone();
                    if let Draw::Pick { picks, .. } = &mut first.draw {
                        *picks = 1;
                    }
                    behind += usize::from(drawn == Err(13) && first.drawn().is_ok());
                }
                _ => {}
            }
        }
        let often = |count: usize| count > OFTEN;
        assert!(methods.into_iter().all(often), "{methods:?}");
        assert!(often(without) && often(behind), "{without}, {behind}");
    }

    #[test]
    fn random_books_are_good_and_of_all_lengths() {
        let mut source = Source::new(1);
        let mut counts = [0; MOST_JOBS + 1];
        for _ in 0..4000 {
            let book = book(&mut source);
            assert!(book.len() <= LARGEST);
            counts[read(&book).expect("a good book").len()] += 1;
        }
        assert!(counts.iter().all(|&count| count > 0), "{counts:?}");
    }
}
