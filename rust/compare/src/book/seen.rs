//! What can be seen of a run of a program, and what is due.

use std::fmt;
use std::process::Output;

use reference::book_jobs::output;
use reference::book_text::{Wrong, book, text};

/// How many characters of an output or of an input are printed.
const SHOWN: usize = 400;

/// What a program is asked to do with its input.
#[derive(Clone, Copy, Debug, PartialEq, Eq)]
pub enum Task {
    /// Program `book`: to run a book.
    Run,
    /// Program `book_text`: to write the book of a text.
    Write,
    /// The same: to show a book as a text.
    Show,
}

impl Task {
    /// What stands before the input on the program's standard input.
    pub fn prefix(self) -> &'static [u8] {
        match self {
            Self::Run => b"",
            Self::Write => b"w\n",
            Self::Show => b"s\n",
        }
    }
}

/// What is on standard error.
#[derive(Clone, Debug, PartialEq, Eq)]
pub enum Told {
    Nothing,
    Wrong(Wrong),
    /// Anything else, or an end by a signal.
    Other(String),
}

/// All that is seen.
#[derive(Clone, Debug, PartialEq, Eq)]
pub struct Seen {
    pub out: Vec<u8>,
    pub told: Told,
}

impl Seen {
    /// An output with nothing told.
    pub fn out(out: impl Into<Vec<u8>>) -> Self {
        Self {
            out: out.into(),
            told: Told::Nothing,
        }
    }

    /// What is written, or what is wrong and nothing written.
    pub fn of(written: Result<Vec<u8>, Wrong>) -> Self {
        match written {
            Ok(out) => Self::out(out),
            Err(wrong) => Self {
                out: Vec::new(),
                told: Told::Wrong(wrong),
            },
        }
    }

    /// What is due.
    pub fn due(task: Task, input: &[u8]) -> Self {
        match task {
            Task::Run => Self::out(output(input)),
            Task::Write => Self::of(book(input)),
            Task::Show => Self::of(text(input).map(String::into_bytes)),
        }
    }

    /// What a process has written. Its status is not compared: what it says is the script's affair.
    pub fn by(output: Output) -> Self {
        let text = String::from_utf8_lossy(&output.stderr);
        let told = match output.status.code() {
            None => Told::Other(output.status.to_string()),
            Some(_) => told(&text),
        };
        Self {
            out: output.stdout,
            told,
        }
    }
}

/// What a text on standard error tells: in one line the number of a wrong line, or that of a refusal.
fn told(text: &str) -> Told {
    let line = match text.strip_suffix('\n') {
        _ if text.is_empty() => return Told::Nothing,
        Some(line) if !line.contains('\n') => line,
        _ => return Told::Other(text.to_owned()),
    };
    let behind = line.split_once("line ").map(|(_, behind)| behind);
    let number = behind.and_then(|behind| behind.split_once(':')?.0.parse().ok());
    if let Some(number) = number {
        return Told::Wrong(Wrong::Line(number));
    }
    let mut words = line.split(|character: char| !character.is_alphanumeric());
    let number = words.find_map(|word| {
        word.parse()
            .ok()
            .filter(|number| (14..=16).contains(number))
    });
    match number {
        Some(number) => Told::Wrong(Wrong::Refused(number)),
        None => Told::Other(text.to_owned()),
    }
}

impl fmt::Display for Seen {
    fn fmt(&self, f: &mut fmt::Formatter<'_>) -> fmt::Result {
        write!(f, "{}", Short(&self.out))?;
        match &self.told {
            Told::Nothing => Ok(()),
            told => write!(f, ", {told:?}"),
        }
    }
}

/// Bytes, of which the front is printed: as text where they are text, else two digits for each.
pub struct Short<'a>(pub &'a [u8]);

impl fmt::Display for Short<'_> {
    fn fmt(&self, f: &mut fmt::Formatter<'_>) -> fmt::Result {
        let Self(bytes) = self;
        let is_text = |byte: &u8| matches!(byte, b' '..=b'~' | b'\n');
        if bytes.iter().all(is_text) {
            let front = &bytes[..bytes.len().min(SHOWN)];
            write!(f, "{:?}", String::from_utf8_lossy(front))?;
        } else {
            let mut front = bytes.iter().take(SHOWN / 2);
            front.try_for_each(|byte| write!(f, "{byte:02x}"))?;
        }
        match bytes.len() {
            ..=SHOWN => Ok(()),
            len => write!(f, " and on to {len} bytes"),
        }
    }
}

#[cfg(test)]
mod tests {
    use reference::book_text::Wrong;

    use super::{Short, Told, told};

    #[test]
    fn a_line_and_a_refusal_are_told() {
        let line = |number| Told::Wrong(Wrong::Line(number));
        assert_eq!(told(""), Told::Nothing);
        assert_eq!(told("draw: line 14: no job\n"), line(14));
        let refused = Told::Wrong(Wrong::Refused(16));
        assert_eq!(told("draw: refused 16: its bodies\n"), refused);
        for text in ["line 1: a", "line 1: a\nline 2: b\n", "refused\n", "\n"] {
            assert_eq!(told(text), Told::Other(text.to_owned()));
        }
    }

    #[test]
    fn bytes_are_printed_in_short() {
        assert_eq!(Short(b"a\n").to_string(), "\"a\\n\"");
        assert_eq!(Short(&[0, 255]).to_string(), "00ff");
        let long = Short(&[0; 1000]).to_string();
        assert!(long.ends_with("00 and on to 1000 bytes"), "{long}");
    }
}
