//! What the jobs of a book draw, by rand, and the lines that say so.

use crate::State;
use crate::book::{Draw, Job, Seed, read};
use crate::generator::Generator;
use crate::sampling::{SLICE_TOO_SHORT, Sampling};
use crate::weighing::Held;

/// The entries of each slice that the jobs have: for the indices, for scratch, and for the sums of a table.
pub const ENTRIES: usize = 8192;

/// What a job draws: its indices, or the number of the refusal.
pub type Drawn = Result<Vec<u32>, u64>;

impl Job {
    /// What rand draws for it.
    ///
    /// # Errors
    ///
    /// The number of the first refusal. Where the budget is used up, that is all that is told.
    pub fn drawn(&self) -> Drawn {
        match &self.draw {
            Draw::Sample { .. } => self.sampled(),
            Draw::Pick {
                picks,
                budget,
                weights,
            } => {
                let table = Held::new(weights, ENTRIES)?;
                if *picks as usize > ENTRIES {
                    return Err(SLICE_TOO_SHORT);
                }
                self.picked(&table, *picks, (*budget).into())
            }
        }
    }

    /// The state from which it draws.
    #[must_use]
    pub fn from(&self) -> State {
        state(self.seed)
    }

    /// The indices of a job that samples.
    fn sampled(&self) -> Drawn {
        let (mut indices, mut scratch) = (vec![0; ENTRIES], vec![0; ENTRIES]);
        let call = self.sampling().expect("it samples");
        let ended = call.end(&mut indices, &mut scratch);
        if ended.number != 0 {
            return Err(ended.number);
        }
        indices.truncate(ended.count as usize);
        Ok(indices)
    }

    /// The call of `sample` that it makes, if it samples.
    #[must_use]
    pub fn sampling(&self) -> Option<Sampling> {
        let Draw::Sample {
            length,
            amount,
            budget,
        } = self.draw
        else {
            return None;
        };
        Some(Sampling {
            from: self.from(),
            length: length.into(),
            amount: amount.into(),
            budget: budget.into(),
            indices_len: ENTRIES,
            scratch_len: ENTRIES,
        })
    }

    /// Picks from a table, one after another from one generator, each with the whole budget.
    fn picked(&self, table: &Held, picks: u32, budget: u64) -> Drawn {
        let mut from = self.from();
        let picks = (0..picks).map(|_| {
            let ended = table.pick(from, budget);
            from = ended.state;
            match ended.number {
                0 => Ok(ended.count as u32),
                number => Err(number),
            }
        });
        picks.collect()
    }
}

/// rand's generator of a seed.
fn state(seed: Seed) -> State {
    Generator::Bytes(seed).state()
}

/// The line of a job, without its end.
#[must_use]
pub fn line(drawn: &Drawn) -> String {
    match drawn {
        Ok(indices) => {
            let indices: Vec<String> = indices.iter().map(u32::to_string).collect();
            indices.join(" ")
        }
        Err(number) => format!("refused {number}"),
    }
}

/// The lines that stand for these jobs, or for a book that is refused.
pub fn lines(jobs: Result<Vec<Job>, u64>, drawn: impl Fn(&Job) -> Drawn) -> String {
    let drawn = match jobs {
        Ok(jobs) => jobs.iter().map(drawn).collect(),
        Err(number) => vec![Err(number)],
    };
    let lines = drawn.iter().map(line);
    lines.flat_map(|line| [line, "\n".to_owned()]).collect()
}

/// What the program prints for a book.
#[must_use]
pub fn output(book: &[u8]) -> String {
    lines(read(book), Job::drawn)
}

#[cfg(test)]
mod tests {
    use super::output;
    use crate::book::{Draw, Job, write};
    use crate::generator::Generator;
    use crate::words::{HALF_DROPPED, giving};

    fn job(draw: Draw) -> Job {
        Job {
            seed: [7; 32],
            draw,
        }
    }

    fn sample(length: u32, amount: u32, budget: u32) -> Job {
        job(Draw::Sample {
            length,
            amount,
            budget,
        })
    }

    fn pick(picks: u32, budget: u32, weights: &[u32]) -> Job {
        job(Draw::Pick {
            picks,
            budget,
            weights: weights.to_vec(),
        })
    }

    fn line(job: Job) -> String {
        output(&write(&[job]).expect("a book"))
    }

    #[test]
    fn a_sample_is_refused_in_its_order() {
        for (job, due) in [
            (sample(0, 0, 0), "\n"),
            (sample(1, 1, 0), "refused 13\n"),
            (sample(1, 1, 1), "0\n"),
            (sample(0, 1, 0), "refused 1\n"),
            (sample(8192, 8193, 0), "refused 1\n"),
            (sample(8193, 8193, 0), "refused 8\n"),
            (sample(8193, 8192, 0), "refused 9\n"),
            (sample(8192, 8192, 8191), "refused 13\n"),
            (sample(44_009, 163, 0), "refused 9\n"),
            (sample(44_010, 163, 0), "refused 13\n"),
            (sample(u32::MAX, 163, 162), "refused 13\n"),
        ] {
            assert_eq!(line(job.clone()), due, "{job:?}");
        }
        let all = line(sample(8192, 8192, u32::MAX));
        assert_eq!(all.split_whitespace().count(), 8192);
        let many = line(sample(u32::MAX, 163, u32::MAX));
        assert_eq!(many.split(' ').count(), 163);
    }

    #[test]
    fn picks_are_refused_in_their_order() {
        for (job, due) in [
            (pick(9000, 0, &[]), "refused 2\n"),
            (pick(9000, 0, &[u32::MAX, 1]), "refused 3\n"),
            (pick(9000, 0, &[0, 0]), "refused 4\n"),
            (pick(0, 0, &[0]), "refused 4\n"),
            (pick(8193, 0, &[1]), "refused 8\n"),
            (pick(1, 0, &[1]), "refused 13\n"),
            (pick(0, 0, &[1]), "\n"),
            (pick(3, 1, &[1]), "0 0 0\n"),
            (pick(0, 0, &[0; 8194]), "refused 8\n"),
            (pick(0, 0, &[0; 8193]), "refused 4\n"),
        ] {
            assert_eq!(line(job.clone()), due, "{job:?}");
        }
        let many = line(pick(8192, 1, &[1]));
        assert_eq!(many.split(' ').count(), 8192);
    }

    /// Two picks that read a word each, and one that drops the first of two.
    #[test]
    fn each_pick_has_the_budget_anew() {
        let from = |a, b| match Generator::of_state(giving(a, b, 1)) {
            Generator::Bytes(seed) => seed,
            _ => unreachable!("no zeros"),
        };
        let picked = |seed, picks, budget| {
            let weights = vec![1, HALF_DROPPED - 1];
            let draw = Draw::Pick {
                picks,
                budget,
                weights,
            };
            line(Job { seed, draw })
        };
        assert_eq!(picked(from(1, 1), 2, 1), "0 0\n");
        assert_eq!(picked(from(0, 1), 1, 1), "refused 13\n");
        assert_eq!(picked(from(0, 1), 1, 2), "0\n");
    }

    #[test]
    fn a_book_is_a_line_for_each_job_or_its_refusal() {
        assert_eq!(output(&[0; 4]), "");
        assert_eq!(output(&[0; 3]), "refused 14\n");
        assert_eq!(output(&[0; 5]), "refused 16\n");
        let jobs = [sample(1, 1, 1), sample(0, 1, 0), pick(2, 1, &[0, 1])];
        let book = write(&jobs).expect("a book");
        assert_eq!(output(&book), "0\nrefused 1\n1 1\n");
    }
}
