//! The Rattle programs of draw books: `book` runs one, and `book_text` writes one from a text and shows one as a text. What they write is held, byte
//! by byte, to what rand draws for the jobs and to the format, which the reference has anew.

mod damaged;
mod edges;
mod faults;
mod layout;
mod outcomes;
mod process;
mod random;
mod seen;
mod small;
mod smaller;
mod texts;

use std::time::Instant;

use reference::book_text::text;

use crate::arguments::Arguments;
use crate::inputs::Source;
use crate::kind::{Bound, Tally, report};
use seen::{Seen, Short, Task};

pub use faults::{of_book, of_text};
pub use process::Programs;

/// How many parts of the time of a run the books get: a run of a program takes as long as thousands of calls.
pub const PARTS: usize = 30;

/// How many smaller inputs are tried. Each is a run of the program.
const TRIES: usize = 2000;

/// Rounds of random inputs that are made though the time is over.
const LEAST: u64 = 20;

/// A kind of input.
struct Kind {
    name: &'static str,
    task: Task,
    /// The inputs that every run tries.
    fixed: fn() -> Vec<Vec<u8>>,
    random: Option<fn(&mut Source) -> Vec<u8>>,
}

/// The kinds, in the order in which they are run.
const KINDS: [Kind; 6] = [
    Kind {
        name: "book, every small one",
        task: Task::Run,
        fixed: small::books,
        random: None,
    },
    Kind {
        name: "book, those at the edges of the format",
        task: Task::Run,
        fixed: edges::books,
        random: None,
    },
    Kind {
        name: "book, damaged ones",
        task: Task::Run,
        fixed: damaged::books,
        random: Some(damaged::random),
    },
    Kind {
        name: "book, good ones",
        task: Task::Run,
        fixed: outcomes::books,
        random: Some(random::book),
    },
    Kind {
        name: "write-book",
        task: Task::Write,
        fixed: texts::texts,
        random: Some(texts::random),
    },
    Kind {
        name: "show-book",
        task: Task::Show,
        fixed: texts::shown_books,
        random: Some(texts::random_book),
    },
];

/// Runs all kinds for which there is a program and prints what came of each. `bound` is the time of all together and the random inputs of each.
pub fn run(programs: &Programs, arguments: &Arguments, bound: &Bound) -> Tally {
    for option in programs.missing() {
        println!("draw books: not all compared, for want of {option} PATH");
    }
    let started = Instant::now();
    let kinds = KINDS.iter().filter(|kind| programs.does(kind.task));
    let mut trials: Vec<Trial> = kinds.map(Trial::new).collect();
    for at in 0..trials.len() {
        if !is_settled(&trials, programs, trials[at].kind.task) {
            for input in (trials[at].kind.fixed)() {
                trials[at].compare(programs, input);
            }
        }
    }
    random_rounds(&mut trials, programs, arguments.seed, |round| {
        round < bound.calls && (round < LEAST || bound.in_time(started))
    });
    if !trials.is_empty() {
        println!("answered by the programs of draw books, a run being one call:");
    }
    let mut sum = Tally::default();
    for trial in &trials {
        println!("{}: {} calls", trial.kind.name, trial.tally.calls);
        trial.report(programs);
        sum += trial.tally;
    }
    sum
}

/// Random inputs of each kind in turn, for as many rounds as `goes_on` says.
fn random_rounds(
    trials: &mut [Trial],
    programs: &Programs,
    seed: u64,
    goes_on: impl Fn(u64) -> bool,
) {
    let mut source = Source::new(seed);
    for _ in (0..).take_while(|&round| goes_on(round)) {
        let mut tasks = trials.iter().map(|trial| trial.kind.task);
        if tasks.all(|task| is_settled(trials, programs, task)) {
            break;
        }
        for at in 0..trials.len() {
            let Kind { task, random, .. } = *trials[at].kind;
            let random = random.filter(|_| !is_settled(trials, programs, task));
            if let Some(random) = random {
                trials[at].compare(programs, random(&mut source));
            }
        }
    }
}

/// Whether a fault is planted and found in this task, which it is enough to be once.
fn is_settled(trials: &[Trial], programs: &Programs, task: Task) -> bool {
    let mut of_task = trials.iter().filter(|trial| trial.kind.task == task);
    programs.is_planted() && of_task.any(|trial| trial.tally.differ > 0)
}

/// A kind while it is run.
struct Trial {
    kind: &'static Kind,
    tally: Tally,
    first: Option<Vec<u8>>,
}

impl Trial {
    fn new(kind: &'static Kind) -> Self {
        Self {
            kind,
            tally: Tally::default(),
            first: None,
        }
    }

    /// What is due and what is seen, where these differ.
    fn difference(&self, programs: &Programs, input: &[u8]) -> Option<(Seen, Seen)> {
        let due = Seen::due(self.kind.task, input);
        let seen = programs.seen(self.kind.task, input, &due);
        (due != seen).then_some((due, seen))
    }

    fn compare(&mut self, programs: &Programs, input: Vec<u8>) {
        if programs.is_planted() && self.tally.differ > 0 {
            return;
        }
        self.tally.calls += 1;
        if self.difference(programs, &input).is_some() {
            self.tally.differ += 1;
            self.first.get_or_insert(input);
        }
    }

    /// The input that is reached from the first difference by going to a smaller one for as long as there is a difference and tries are left.
    fn smallest(&self, programs: &Programs) -> Option<Vec<u8>> {
        let mut found = self.first.clone()?;
        let mut tries = 0;
        loop {
            let less = smaller::than(self.kind.task, &found).into_iter();
            let mut less = less.take(TRIES - tries);
            let next = less.find(|less| {
                tries += 1;
                self.difference(programs, less).is_some()
            });
            match next {
                Some(next) => found = next,
                None => return Some(found),
            }
        }
    }

    fn report(&self, programs: &Programs) {
        let Some(input) = self.smallest(programs) else {
            return;
        };
        let jobs = match self.kind.task {
            Task::Write => None,
            Task::Run | Task::Show => text(&input).ok(),
        };
        let jobs = jobs.map_or(String::new(), |jobs| {
            format!(": {}", Short(jobs.as_bytes()))
        });
        // A program that gives other answers at other times is no longer seen to differ.
        let (due, seen) = self.difference(programs, &input).unwrap_or_else(|| {
            let due = Seen::due(self.kind.task, &input);
            (due.clone(), due)
        });
        report(
            self.tally.differ,
            format!("{:?} {}{jobs}", self.kind.task, Short(&input)),
            due.to_string(),
            seen.to_string(),
        );
    }
}

#[cfg(test)]
mod tests {
    use reference::{book_by_rand, book_jobs};

    use super::{edges, outcomes, random};
    use crate::inputs::Source;

    /// The runner that the program is measured against does what the reference does.
    #[test]
    fn a_plain_runner_over_rand_gives_the_same() {
        let mut source = Source::new(1);
        let random = (0..300).map(|_| random::book(&mut source));
        let books = outcomes::books().into_iter().chain(edges::books());
        for book in books.chain(random) {
            assert_eq!(book_by_rand::output(&book), book_jobs::output(&book));
        }
    }
}
