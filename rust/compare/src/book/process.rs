//! The Rattle programs as processes, one for each input.

use std::io;
use std::process::{Command, Stdio};

use super::seen::{Seen, Task};
use super::{PARTS, faults};
use crate::arguments::{Arguments, BOOK, BOOK_TEXT};
use crate::child;

/// The programs that are there, and the fault that is put into what they write.
pub struct Programs {
    book: Option<String>,
    text: Option<String>,
    fault: Option<String>,
}

impl Programs {
    /// The programs of a command line.
    ///
    /// # Errors
    ///
    /// If one cannot be run.
    pub fn new(arguments: &Arguments) -> Result<Self, String> {
        let programs = Self {
            book: arguments.book.clone(),
            text: arguments.book_text.clone(),
            fault: arguments.plant.clone(),
        };
        for task in [Task::Run, Task::Show] {
            if let Some(path) = programs.path(task) {
                let run = run(path, task, &[0; 4]);
                run.map_err(|error| format!("{path}: {error}"))?;
            }
        }
        Ok(programs)
    }

    /// How many parts of the time of a run they get.
    pub fn parts(&self) -> usize {
        match self.does(Task::Run) || self.does(Task::Write) || self.does(Task::Show) {
            true => PARTS,
            false => 0,
        }
    }

    /// The options that are wanted, where programs are missing.
    pub fn missing(&self) -> impl Iterator<Item = &'static str> {
        let programs = [(BOOK, &self.book), (BOOK_TEXT, &self.text)];
        let missing = programs.into_iter().filter(|(_, path)| path.is_none());
        missing.map(|(option, _)| option)
    }

    /// The program that has this task.
    fn path(&self, task: Task) -> Option<&str> {
        match task {
            Task::Run => self.book.as_deref(),
            Task::Write | Task::Show => self.text.as_deref(),
        }
    }

    /// Whether there is a program for a task, and the planted fault, if there is one, can be in it.
    pub fn does(&self, task: Task) -> bool {
        let fault = self.fault.as_deref();
        let has_fault = fault.is_none_or(|fault| faults::of(task).contains(&fault));
        self.path(task).is_some() && has_fault
    }

    /// Whether there is a fault to be found.
    pub fn is_planted(&self) -> bool {
        self.fault.is_some()
    }

    /// What the program of a task makes of an input, with the planted fault where it shows. `due` is what is due.
    ///
    /// # Panics
    ///
    /// If there is no program, or if it cannot be run.
    pub fn seen(&self, task: Task, input: &[u8], due: &Seen) -> Seen {
        let path = self.path(task).expect("it is there");
        let seen = run(path, task, input).unwrap_or_else(|error| panic!("{path}: {error}"));
        match &self.fault {
            None => seen,
            Some(fault) => Some(faults::seen(task, input, fault))
                .filter(|faulty| faulty != due)
                .unwrap_or(seen),
        }
    }
}

fn run(path: &str, task: Task, input: &[u8]) -> io::Result<Seen> {
    let mut command = Command::new(path);
    command.stderr(Stdio::piped());
    let (front, back) = pieces(input);
    let front = [task.prefix(), front].concat();
    let output = match back {
        [] => child::output(&mut command, &[&front]),
        _ => child::output(&mut command, &[&front, back]),
    };
    output.map(Seen::by)
}

/// The pieces in which an input is written: of one in sixteen two, of which a program that takes a first read for all has the first alone.
pub fn pieces(input: &[u8]) -> (&[u8], &[u8]) {
    let sum: usize = input.iter().copied().map(usize::from).sum();
    match sum % 16 {
        3 => input.split_at(input.len() / 4 * 3),
        _ => (input, &[]),
    }
}

#[cfg(test)]
mod tests {
    use super::{pieces, run};
    use crate::book::seen::{Seen, Task, Told};

    #[test]
    fn a_program_is_given_its_input_behind_the_task() {
        let seen = |task| run("cat", task, b"\0a").expect("it runs");
        assert_eq!(seen(Task::Run), Seen::out("\0a"));
        assert_eq!(seen(Task::Write), Seen::out("w\n\0a"));
        assert_eq!(seen(Task::Show), Seen::out("s\n\0a"));
    }

    #[test]
    fn an_input_may_come_in_pieces() {
        assert_eq!(pieces(b"\0\0\0\x03\0"), (&b"\0\0\0"[..], &b"\x03\0"[..]));
        assert_eq!(pieces(b"\0\0\0\x04"), (&b"\0\0\0\x04"[..], &b""[..]));
        let seen = run("cat", Task::Run, b"aaad\xac").expect("it runs");
        assert_eq!(seen, Seen::out(b"aaad\xac"));
    }

    /// More than a pipe holds, to a program that reads nothing.
    #[test]
    fn a_program_need_not_read_all() {
        let seen = run("true", Task::Run, &[0; 1_000_000]).expect("it runs");
        assert_eq!((seen.out.len(), seen.told), (0, Told::Nothing));
        assert!(run("no such program", Task::Run, &[]).is_err());
    }
}
