//! The words on the command line.

use std::time::Duration;

use crate::kind::Bound;

/// How the program is called.
pub const USAGE: &str = "usage: compare [--program PATH] [--book PATH] [--book-text PATH] [--seed N] [--seconds N] \
     [--calls N] [--plant NAME]";

/// The options that name the Rattle programs.
pub const PROGRAM: &str = "--program";
pub const BOOK: &str = "--book";
pub const BOOK_TEXT: &str = "--book-text";

/// How long a run takes where neither a time nor a number of calls is given.
const DEFAULT_SECONDS: u64 = 20;

/// What was asked for.
#[derive(Debug, PartialEq, Eq)]
pub struct Arguments {
    /// The seed of the random inputs.
    pub seed: u64,
    /// The time for all random inputs together.
    seconds: Option<u64>,
    /// How many random calls of each kind are made.
    calls: Option<u64>,
    /// The fault that is put into the answers of one side.
    pub plant: Option<String>,
    /// The Rattle program that answers lists of calls.
    pub program: Option<String>,
    /// The Rattle program that runs draw books.
    pub book: Option<String>,
    /// The Rattle program that writes them from texts and shows them.
    pub book_text: Option<String>,
}

/// The names of the faults that can be planted.
pub struct Faults {
    /// Those in the answers at the C boundary.
    pub boundary: Vec<&'static str>,
    /// Those in the answers of the Rattle programs, with the option that names each.
    pub programs: Vec<(&'static str, Vec<&'static str>)>,
}

impl Arguments {
    /// Reads the command line.
    pub fn parse(words: impl Iterator<Item = String>, faults: &Faults) -> Result<Self, String> {
        let mut arguments = Self {
            seed: 1,
            seconds: None,
            calls: None,
            plant: None,
            program: None,
            book: None,
            book_text: None,
        };
        let mut words = words;
        while let Some(word) = words.next() {
            let value = words.next().ok_or(format!("{word} lacks its value"))?;
            match word.as_str() {
                "--seed" => arguments.seed = number(&value)?,
                "--seconds" => arguments.seconds = Some(number(&value)?),
                "--calls" => arguments.calls = Some(number(&value)?),
                "--plant" => arguments.plant = Some(value),
                PROGRAM => arguments.program = Some(value),
                BOOK => arguments.book = Some(value),
                BOOK_TEXT => arguments.book_text = Some(value),
                _ => return Err(format!("{word} is no option")),
            }
        }
        arguments.check_plant(faults)?;
        Ok(arguments)
    }

    /// A fault must be one of `faults`, and what it is planted in must be run, or a run would pass for want of a fault to
    /// find.
    fn check_plant(&self, faults: &Faults) -> Result<(), String> {
        let Some(name) = self.plant.as_deref() else {
            return Ok(());
        };
        let programs = faults.programs.iter();
        let mut options = programs.filter(|(_, names)| names.contains(&name));
        let is_boundary = faults.boundary.contains(&name);
        if is_boundary || options.clone().any(|(option, _)| self.is_given(option)) {
            return Ok(());
        }
        Err(match options.next() {
            Some((option, _)) => {
                format!("fault {name} is one of a program's: {option} is wanted")
            }
            None => format!("no fault is called {name}"),
        })
    }

    /// Whether the program of this option is named.
    fn is_given(&self, option: &str) -> bool {
        let program = match option {
            PROGRAM => &self.program,
            BOOK => &self.book,
            _ => &self.book_text,
        };
        program.is_some()
    }

    /// Whether a part of the program with these faults is to be run: where one is planted, only what has it.
    pub fn wants(&self, faults: &[&str]) -> bool {
        let plant = self.plant.as_deref();
        plant.is_none_or(|plant| faults.contains(&plant))
    }

    /// The bound of so many parts, where there are `all` of them.
    pub fn bound(&self, parts: usize, all: usize) -> Bound {
        let seconds = match (self.seconds, self.calls) {
            (None, None) => Some(DEFAULT_SECONDS),
            (seconds, _) => seconds,
        };
        let share = parts as f64 / all as f64;
        Bound {
            time: seconds.map(|seconds| Duration::from_secs(seconds).mul_f64(share)),
            calls: self.calls.unwrap_or(u64::MAX),
        }
    }
}

fn number(text: &str) -> Result<u64, String> {
    text.parse()
        .map_err(|_| format!("{text} is no number below 2^64"))
}

#[cfg(test)]
mod tests {
    use std::time::Duration;

    use super::{Arguments, Faults};

    const BOUNDARY: &str = "at-the-boundary";
    const PROGRAM: &str = "in-the-program";
    const BOOK: &str = "in-a-book";

    fn parse(line: &str) -> Result<Arguments, String> {
        let faults = Faults {
            boundary: vec![BOUNDARY],
            programs: vec![
                (super::PROGRAM, vec![PROGRAM]),
                (super::BOOK, vec![BOOK]),
                (super::BOOK_TEXT, vec![BOOK, PROGRAM]),
            ],
        };
        Arguments::parse(line.split_whitespace().map(str::to_owned), &faults)
    }

    #[test]
    fn every_option_is_read() {
        for seed in [1, 2, 3, u64::MAX] {
            let line = format!("--seed {seed} --seconds 9 --calls 7 --plant {BOUNDARY} --book b");
            let arguments = Arguments {
                seed,
                seconds: Some(9),
                calls: Some(7),
                plant: Some(BOUNDARY.to_owned()),
                program: None,
                book: Some("b".to_owned()),
                book_text: None,
            };
            assert_eq!(parse(&line), Ok(arguments));
        }
        assert_eq!(parse("").map(|arguments| arguments.seed), Ok(1));
    }

    /// A run that cannot find the fault must not pass for one that did not.
    #[test]
    fn a_fault_that_cannot_be_found_is_an_error() {
        for line in [
            "--plant",
            "--plant no-such",
            "--plant in-the-program",
            "--plant in-the-program --book path",
            "--plant in-a-book --program path",
        ] {
            assert!(parse(line).is_err(), "{line}");
        }
        for line in [
            "--plant in-a-book --book path",
            "--plant in-a-book --book-text path",
        ] {
            assert!(parse(line).is_ok(), "{line}");
        }
        let line = format!("--plant {PROGRAM} --program path");
        let planted = parse(&line).expect("the program is named");
        assert!(planted.wants(&["another", PROGRAM]));
        assert!(!planted.wants(&["another"]));
        assert!(parse("").expect("no options").wants(&[]));
    }

    #[test]
    fn what_is_no_option_or_no_number_is_an_error() {
        for line in ["--sead 1", "--seed", "--seed x", "--calls -1", "7 7"] {
            assert!(parse(line).is_err(), "{line}");
        }
    }

    #[test]
    fn the_time_is_shared_by_parts() {
        let time = |line| parse(line).expect("options").bound(3, 10).time;
        assert_eq!(time("--seconds 10"), Some(Duration::from_secs(3)));
        assert_eq!(time(""), Some(Duration::from_secs(6)));
        assert_eq!(time("--calls 5"), None);
    }
}
