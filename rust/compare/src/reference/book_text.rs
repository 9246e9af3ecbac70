//! Draw books as text: a line for each job, `sample SEED LENGTH AMOUNT BUDGET` or `pick SEED PICKS BUDGET W0 W1 ..`.
//!
//! A seed is a decimal number, which stands for the state bytes of `seed_from_u64`, or 64 hex digits, which are the seed bytes
//! themselves. Empty lines and lines that begin with `#` are passed over.

use std::str;

use crate::book::{Draw, Job, MOST_JOBS, PICK, SAMPLE, Seed, read, write};
use crate::generator::Generator;
use crate::number::{decimal, entries};

/// The words for the kinds.
const WORDS: [(u32, &str); 2] = [(SAMPLE, "sample"), (PICK, "pick")];

/// Why there is no book, or no text of one.
#[derive(Clone, Copy, Debug, PartialEq, Eq)]
pub enum Wrong {
    /// The first wrong line, counted from 1 with those that are passed over.
    Line(u64),
    /// The book would be refused, or is, with this number.
    Refused(u64),
}

/// The book of a text. With one job more than a book may have, what stands behind it does not matter any more.
///
/// # Errors
///
/// The first wrong line; where there is none, 14 for too many jobs and 16 for too long a book.
pub fn book(text: &[u8]) -> Result<Vec<u8>, Wrong> {
    let mut jobs = Vec::new();
    for (number, line) in (1..).zip(text.split(|&byte| byte == b'\n')) {
        if jobs.len() > MOST_JOBS {
            break;
        }
        if let Some(job) = job(line).ok_or(Wrong::Line(number))? {
            jobs.push(job);
        }
    }
    write(&jobs).map_err(Wrong::Refused)
}

/// The job of a line, of which there is none where it is passed over. None where the line is wrong.
fn job(line: &[u8]) -> Option<Option<Job>> {
    if line.is_empty() || line.starts_with(b"#") {
        return Some(None);
    }
    parse(str::from_utf8(line).ok()?).map(Some)
}

/// The job that a line is.
#[must_use]
pub fn parse(line: &str) -> Option<Job> {
    let mut words = line.split(' ');
    let word = words.next()?;
    let (kind, _) = WORDS.into_iter().find(|&(_, name)| name == word)?;
    let seed = seed(Generator::parse(words.next()?)?)?;
    let numbers: Option<Vec<u64>> = words.map(decimal).collect();
    let draw = Draw::of(kind, &entries(&numbers?)?)?;
    Some(Job { seed, draw })
}

/// The seed bytes that a word stands for. Those of a state give it back. Four zeros are the state of no generator.
#[must_use]
pub fn seed(generator: Generator) -> Option<Seed> {
    match generator {
        Generator::Number(_) => seed(Generator::of_state(generator.state())),
        Generator::Bytes(bytes) => Some(bytes),
        Generator::Zero => None,
    }
}

/// The text of a book.
///
/// # Errors
///
/// The number of the refusal.
pub fn text(book: &[u8]) -> Result<String, Wrong> {
    let jobs = read(book).map_err(Wrong::Refused)?;
    Ok(jobs.iter().map(|job| shown(job) + "\n").collect())
}

/// The line of a job.
///
/// # Panics
///
/// Never: every kind has a word.
#[must_use]
pub fn shown(job: &Job) -> String {
    let kind = job.draw.kind();
    let mut words = WORDS.into_iter();
    let word = words.find_map(|(number, word)| (number == kind).then_some(word));
    let front = [word.expect("a kind has a word").to_owned(), hex(job.seed)];
    let numbers = job.draw.numbers().into_iter();
    let words: Vec<String> = front
        .into_iter()
        .chain(numbers.map(|number| number.to_string()))
        .collect();
    words.join(" ")
}

/// The word for seed bytes.
fn hex(seed: Seed) -> String {
    Generator::Bytes(seed).to_string()
}

#[cfg(test)]
mod tests {
    use super::{Wrong, book, parse, shown, text};
    use crate::book::{Draw, Job, read};
    use crate::some_state;

    const HEX: &str = "000102030405060708090a0b0c0d0e0f101112131415161718191a1b1c1d1e1f";

    #[test]
    fn lines_are_jobs() {
        let sample = Job {
            seed: std::array::from_fn(|place| place as u8),
            draw: Draw::Sample {
                length: 100,
                amount: 5,
                budget: u32::MAX,
            },
        };
        let line = format!("sample {HEX} 100 5 4294967295");
        assert_eq!(parse(&line), Some(sample.clone()));
        assert_eq!(shown(&sample), line);
        let pick = parse("pick 7 2 3 4 0 5").expect("a job");
        assert_eq!(pick.draw.numbers(), [2, 3, 4, 0, 5]);
        assert_eq!(pick.from(), some_state(7));
        assert_eq!(parse(&shown(&pick)), Some(pick));
        assert!(parse(&format!("pick {HEX} 2 3")).is_some());
        let zeros = parse(&format!("pick {} 0 0", "0".repeat(64))).expect("a job");
        assert_eq!((zeros.seed, zeros.from()), ([0; 32], some_state(0)));
    }

    #[test]
    fn wrong_lines_are_no_jobs() {
        for line in [
            "sample",
            "sample 1 2 3",
            "sample 1 2 3 4 5",
            "sample  1 2 3 4",
            " sample 1 2 3 4",
            "sample 1 2 3 4 ",
            "sample 1 2 3 4294967296",
            "sample 1 2 3 -4",
            "sample zero 2 3 4",
            "sample 18446744073709551616 2 3 4",
            "Sample 1 2 3 4",
            "pick 1 2",
            "pick 1 2 3 +1",
            "weigh 1 2 3 4",
            " # a",
        ] {
            assert_eq!(parse(line), None, "{line}");
        }
        assert!(parse(&format!("sample {}g 1 1 1", &HEX[1..])).is_none());
    }

    #[test]
    fn a_text_is_a_book_and_back() {
        assert_eq!(book(b""), Ok(vec![0; 4]));
        assert_eq!(book(b"\n# a\n\n"), Ok(vec![0; 4]));
        assert_eq!(text(&[0; 4]), Ok(String::new()));
        let lines = format!("sample {HEX} 1 1 0\npick {HEX} 3 2 1 1 1\n");
        let made = book(lines.as_bytes()).expect("a book");
        assert_eq!(text(&made), Ok(lines.clone()));
        let unended = lines.trim_end().as_bytes();
        assert_eq!(book(unended), Ok(made.clone()));
        assert_eq!(read(&made).map(|jobs| jobs.len()), Ok(2));
    }

    #[test]
    fn the_first_wrong_line_is_told_with_its_number() {
        let lines = b"# \xff\n\npick 1 1 1 1\nsample 1 1 1\n\n?\n";
        assert_eq!(book(lines), Err(Wrong::Line(4)));
        assert_eq!(book(b"\xff"), Err(Wrong::Line(1)));
        assert_eq!(book(b"pick 1 1 1 1\r\n"), Err(Wrong::Line(1)));
        let many = "sample 1 1 1 1\n".repeat(65);
        assert_eq!(book(many.as_bytes()), Err(Wrong::Refused(14)));
        let behind = format!("{many}?\n");
        assert_eq!(book(behind.as_bytes()), Err(Wrong::Refused(14)));
        let full = format!("{}?\n", "sample 1 1 1 1\n".repeat(64));
        assert_eq!(book(full.as_bytes()), Err(Wrong::Line(65)));
        let long = format!("pick 1 1 1{}\n", " 1".repeat(16_371));
        assert_eq!(book(long.as_bytes()), Err(Wrong::Refused(16)));
        assert_eq!(text(&[0; 5]), Err(Wrong::Refused(16)));
    }
}
