//! Faults that can be put into what the programs write, so that a comparison is seen to fail: an input is answered with an error in the answer, and
//! that is taken where it is not what is due. Those of [`reading`] are in the reader of a book, those of [`drawing`] in what a job draws,
//! those of [`printing`] in the lines, and those of [`texts`] in the texts of jobs.

mod drawing;
mod printing;
mod reading;
mod texts;

use reference::book_text::Wrong;

use super::process::pieces;
use super::seen::{Seen, Task};
use reading::Reader;

/// What a first read gives taken for the whole input.
const FIRST_READ: &str = "first-read-alone";

/// The faults that a task can have.
pub fn of(task: Task) -> Vec<&'static str> {
    let names = match task {
        Task::Run => [&reading::NAMES[..], &drawing::NAMES, &printing::NAMES].concat(),
        Task::Write => texts::names(),
        Task::Show => [&reading::NAMES[..], &texts::names_of_shown()].concat(),
    };
    [&[FIRST_READ], &names[..]].concat()
}

/// Those of program `book`.
pub fn of_book() -> Vec<&'static str> {
    of(Task::Run)
}

/// Those of program `book_text`.
pub fn of_text() -> Vec<&'static str> {
    [of(Task::Write), of(Task::Show)].concat()
}

/// What is seen of a run with a fault in it, or without one where the task cannot have it.
pub fn seen(task: Task, input: &[u8], fault: &str) -> Seen {
    let input = match fault {
        FIRST_READ => pieces(input).0,
        _ => input,
    };
    let read = || Reader::new(input, fault).read();
    match task {
        Task::Run => {
            let drawn = |job: &_| drawing::drawn(job, fault);
            Seen::out(printing::printed(read(), drawn, fault))
        }
        Task::Write => Seen::of(texts::book(input, fault)),
        Task::Show => {
            let text = read().map(|jobs| texts::text(&jobs, fault).into_bytes());
            Seen::of(text.map_err(Wrong::Refused))
        }
    }
}

#[cfg(test)]
mod tests {
    use super::{of, seen};
    use crate::book::KINDS;
    use crate::book::seen::{Seen, Task};
    use crate::inputs::Source;

    /// Random inputs of each kind in which a fault must show, beside those that every run tries.
    const RANDOM: usize = 200;

    /// All inputs of a task, and what is due for each.
    fn inputs(task: Task) -> Vec<(Vec<u8>, Seen)> {
        let mut source = Source::new(1);
        let kinds = KINDS.iter().filter(|kind| kind.task == task);
        let inputs =
            kinds.flat_map(|kind| {
                let mut inputs = (kind.fixed)();
                let random = kind.random.into_iter();
                inputs.extend(random.flat_map(|random| {
                    (0..RANDOM).map(|_| random(&mut source)).collect::<Vec<_>>()
                }));
                inputs
            });
        let with_due = |input: Vec<u8>| {
            let due = Seen::due(task, &input);
            (input, due)
        };
        inputs.map(with_due).collect()
    }

    /// Each is found, and nothing is without one.
    #[test]
    fn every_fault_shows() {
        for task in [Task::Run, Task::Write, Task::Show] {
            let inputs = inputs(task);
            for fault in of(task) {
                let mut both = inputs.iter();
                let found = both.any(|(input, due)| seen(task, input, fault) != *due);
                assert!(found, "{fault} shows in no input of {task:?}");
            }
            for (input, due) in &inputs {
                assert_eq!(seen(task, input, "none of these"), *due);
            }
        }
    }
}
