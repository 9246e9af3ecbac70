//! Another build of this program, with the archive of another version: its port's side is measured beside ours, in one run.

use std::io::{self, BufRead, BufReader, Write};
use std::process::{Child, ChildStdin, ChildStdout, Command, Stdio};
use std::time::Duration;

use reference::State;

use crate::seed::seed;
use crate::sides::{Case, Timed};

/// The word that makes this program answer another.
pub const SERVE: &str = "--serve";

/// The word before a seed.
pub const SEED: &str = "--seed";

/// The port's side of a case in the other build.
pub struct Before {
    child: Child,
    questions: ChildStdin,
    answers: BufReader<ChildStdout>,
    state: State,
}

impl Before {
    /// Starts the other build for a case.
    ///
    /// # Errors
    ///
    /// If it cannot be run.
    pub fn start(program: &str, case: &str) -> io::Result<Self> {
        let mut command = Command::new(program);
        command.args([SERVE, case]);
        // A build from before there were seeds has the seed 0.
        if seed() > 0 {
            command.args([SEED, &seed().to_string()]);
        }
        let mut child = command
            .stdin(Stdio::piped())
            .stdout(Stdio::piped())
            .spawn()?;
        let questions = child.stdin.take().expect("it is piped");
        let answers = BufReader::new(child.stdout.take().expect("it is piped"));
        Ok(Self {
            child,
            questions,
            answers,
            state: [0; 4],
        })
    }

    /// Asks for a block of calls: the nanoseconds that it takes, and the state that it leaves.
    fn ask(&mut self, from: State, calls: u32, rounds: u32) -> Option<Duration> {
        let [a, b, c, d] = from;
        writeln!(self.questions, "{a} {b} {c} {d} {calls} {rounds}").ok()?;
        let mut line = String::new();
        self.answers.read_line(&mut line).ok()?;
        let [nanoseconds, a, b, c, d] = numbers(&line)?;
        self.state = [a, b, c, d];
        Some(Duration::from_nanos(nanoseconds))
    }
}

impl Timed for Before {
    /// # Panics
    ///
    /// If the other build does not answer.
    fn time(&mut self, from: State, calls: u32, rounds: u32) -> Duration {
        let time = self.ask(from, calls, rounds);
        time.expect("the other build has the case, and answers")
    }

    fn state(&self) -> State {
        self.state
    }
}

impl Drop for Before {
    fn drop(&mut self) {
        // It may have ended already.
        let _ = self.child.kill();
        let _ = self.child.wait();
    }
}

/// Answers another build's questions about a case, to the end of the input.
///
/// # Errors
///
/// If a question cannot be read or is none, or if the answer cannot be written.
pub fn serve(case: &Case) -> io::Result<()> {
    let mut port = (case.sides)().port();
    for line in io::stdin().lines() {
        let question = numbers(&line?).ok_or(io::ErrorKind::InvalidData)?;
        let [a, b, c, d, calls, rounds] = question;
        let time = port.time([a, b, c, d], calls as u32, rounds as u32);
        let [a, b, c, d] = port.state();
        println!("{} {a} {b} {c} {d}", time.as_nanos());
    }
    Ok(())
}

/// A line of so many numbers.
fn numbers<const N: usize>(line: &str) -> Option<[u64; N]> {
    let numbers = line.split_whitespace().map(str::parse);
    let numbers: Vec<u64> = numbers.collect::<Result<_, _>>().ok()?;
    numbers.try_into().ok()
}

#[cfg(test)]
mod tests {
    use super::numbers;

    #[test]
    fn a_line_has_so_many_numbers() {
        assert_eq!(
            numbers("1 20 18446744073709551615\n"),
            Some([1, 20, u64::MAX])
        );
        assert_eq!(numbers::<2>("1"), None);
        assert_eq!(numbers::<1>("1 2"), None);
        assert_eq!(numbers::<1>("-1"), None);
    }
}
