//! The Rattle program `draw` answers lists of random lines, of every kind of call and wrong ones, and its answers are held to rand's,
//! line by line. The outputs, the draws and the parts have no function at the C boundary: it is here alone that they are compared.

mod faults;
mod process;
mod random;
mod smaller;
pub mod spoilt;

use std::time::Instant;

use reference::State;
use reference::generator::Generator;
use reference::line::{LARGEST_LIST, Line, Name};

use crate::arguments::Arguments;
use crate::inputs::Source;
use crate::kind::{Bound, Tally, report};
use process::Asked;

pub use faults::names as faults;
pub use process::Program;

/// The kinds of line: those of each name, and lines by their text.
const KINDS: usize = Name::ALL.len() + 1;

/// How many parts of the time of a run the lines get.
pub const PARTS: usize = KINDS;

/// How many times a smaller line is looked for. Each time is a run of the program, and a chain of smaller bounds can be as long
/// as the bound is large.
const STEPS: usize = 200;

/// The part of the largest list that a random one takes, so that the clock is looked at now and then.
const PART: usize = 4;

/// Runs all kinds of line and prints what came of each. `bound` is the time of all together and the lines of each.
pub fn run(program: &Program, arguments: &Arguments, bound: &Bound) -> Tally {
    let mut trials: [Trial; KINDS] = std::array::from_fn(Trial::new);
    let mut lists = Lists::new(arguments.seed, bound.calls);
    let started = Instant::now();
    let mut is_whole = true;
    // A list that is not answered line for line is the last: to find out which lines are to blame takes many runs.
    while is_whole && bound.in_time(started) {
        let list = lists.next();
        if list.is_empty() {
            break;
        }
        let (kinds, lines): (Vec<usize>, Vec<Asked>) = list.into_iter().unzip();
        let answers = program.once(&lines);
        is_whole = answers.is_some();
        let answers = answers.unwrap_or_else(|| program.answers(&lines));
        for ((kind, line), port) in kinds.into_iter().zip(lines).zip(answers) {
            trials[kind].compare(line, port);
        }
    }
    let mut sum = sum(&trials, program);
    println!("{} of the lines in runs of one generator", lists.in_runs);
    if !is_whole && sum.differ == 0 {
        println!("  a list is not answered line for line, though its lines are in shorter lists");
        sum.differ = 1;
    }
    sum
}

/// Prints what came of each kind of line.
fn sum(trials: &[Trial], program: &Program) -> Tally {
    println!("answered by the program, a line being one call:");
    let mut sum = Tally::default();
    for trial in trials {
        println!("{}: {} calls", trial.name, trial.tally.calls);
        trial.report(program);
        sum += trial.tally;
    }
    sum
}

/// Random lists. In every second one each line goes on from the generator that rand's answer to the line before has, which is the
/// program's as long as they do not differ.
struct Lists {
    source: Source,
    /// How many lines of each kind are left.
    left: [u64; KINDS],
    is_run: bool,
    /// The lines of all runs.
    in_runs: u64,
}

impl Lists {
    fn new(seed: u64, lines: u64) -> Self {
        Self {
            source: Source::new(seed),
            left: [lines; KINDS],
            is_run: true,
            in_runs: 0,
        }
    }

    /// Random lines, the kinds taking turns, until the next would make too long a list or none is left.
    fn next(&mut self) -> Vec<(usize, Asked)> {
        self.is_run = !self.is_run;
        let mut from = self.is_run.then(|| self.source.state_or_zero());
        let mut lines = Vec::new();
        let mut size = 0;
        while self.left.iter().any(|&left| left > 0) {
            for kind in (0..KINDS)
                .filter(|&kind| self.left[kind] > 0)
                .collect::<Vec<_>>()
            {
                let asked = self.asked(kind, &mut from);
                size += asked.size();
                if size >= LARGEST_LIST / PART && !lines.is_empty() {
                    return lines;
                }
                self.left[kind] -= 1;
                self.in_runs += u64::from(self.is_run);
                lines.push((kind, asked));
            }
        }
        lines
    }

    /// A random line of a kind, in a run from the generator that is due, which it then takes on.
    fn asked(&mut self, kind: usize, from: &mut Option<State>) -> Asked {
        let text = match (Name::ALL.get(kind), &*from) {
            (None, _) => spoilt::text(&mut self.source),
            (Some(&name), None) => random::line(name, &mut self.source).to_string(),
            (Some(&name), Some(from)) => self.line_from(name, *from).to_string(),
        };
        let asked = Asked::new(text);
        if let (Some(from), Some(_), Some(after)) = (from, Name::ALL.get(kind), asked.after()) {
            *from = after;
        }
        match self.source.below(32) {
            0 => asked.behind(""),
            1 => asked.behind("# sample 1 2 3"),
            2 => asked.behind("#"),
            _ => asked,
        }
    }

    /// A random line of this name and this generator, whose call ends.
    fn line_from(&mut self, name: Name, from: State) -> Line {
        let generator = Generator::of_state(from);
        let line = random::line(name, &mut self.source);
        let line = Line { generator, ..line };
        if random::is_endless(&line) {
            return self.line_from(name, from);
        }
        line
    }
}

/// A line on which the sides differ, and what the program answered to it.
#[derive(Clone)]
struct Difference {
    line: Asked,
    port: String,
}

impl Difference {
    /// The first smaller line on which the sides differ. All that count as smaller by one step are asked in one list.
    fn smaller(&self, program: &Program) -> Option<Self> {
        let (line, port) = program.first(&smaller::than(&self.line))?;
        Some(Self { line, port })
    }
}

/// A kind of line while it is run.
struct Trial {
    name: String,
    tally: Tally,
    first: Option<Difference>,
}

impl Trial {
    fn new(kind: usize) -> Self {
        let name = Name::ALL.get(kind).map(Name::to_string);
        Self {
            name: name.unwrap_or("lines by their text, most of them wrong".to_owned()),
            tally: Tally::default(),
            first: None,
        }
    }

    fn compare(&mut self, line: Asked, port: String) {
        self.tally.calls += 1;
        if port != line.rand() {
            self.tally.differ += 1;
            self.first.get_or_insert(Difference { line, port });
        }
    }

    fn report(&self, program: &Program) {
        let Some(mut found) = self.first.clone() else {
            return;
        };
        for _ in 0..STEPS {
            let Some(smaller) = found.smaller(program) else {
                break;
            };
            found = smaller;
        }
        report(
            self.tally.differ,
            format!("{:?}", found.line.text()),
            found.line.rand().to_owned(),
            found.port,
        );
    }
}

#[cfg(test)]
mod tests {
    use reference::line::{LARGEST_LIST, Line, Name, call, is_skipped};

    use super::{KINDS, Lists};

    /// Two lists: one of lines that stand for themselves, and a run.
    #[test]
    fn every_second_list_is_a_run() {
        let mut lists = Lists::new(1, u64::MAX);
        assert!(lists.next().len() > KINDS);
        assert_eq!(lists.in_runs, 0);
        let run = lists.next();
        assert_eq!(lists.in_runs, run.len() as u64);
        let named = run.iter().filter(|(kind, _)| *kind < Name::ALL.len());
        let named: Vec<&str> = named.map(|(_, asked)| asked.line()).collect();
        for pair in named.windows(2) {
            let after = call(pair[0]).map(|call| call.answer().state);
            let from = Line::parse(pair[1]).map(|line| line.generator.state());
            assert_eq!(after, from, "{} {}", pair[0], pair[1]);
        }
    }

    #[test]
    fn lists_hold_as_many_lines_as_are_asked_for_and_fit() {
        let mut lists = Lists::new(1, 3);
        assert_eq!(lists.next().len(), 3 * KINDS);
        assert!(lists.next().is_empty());
        let list = Lists::new(2, u64::MAX).next();
        let size: usize = list.iter().map(|(_, asked)| asked.size()).sum();
        assert!(size < LARGEST_LIST);
        let mut texts = list.iter().flat_map(|(_, asked)| asked.text().split('\n'));
        assert!(texts.any(is_skipped));
    }
}
