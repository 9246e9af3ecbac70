//! Inputs that count as smaller than another. No chain of them is endless: there are fewer jobs, bytes or lines, or a number in them is less, or
//! more bytes are zeros.

use std::ops::Range;

use reference::book::{Draw, Job, read, write};

use super::seen::Task;
use crate::inputs::smaller;
use crate::weights::{lists, shorter};

/// To so many jobs each is made smaller.
const FEW: usize = 3;

/// A longer input is cut into no more parts than these, and a text of more bytes gets fewer lines and words alone.
const PARTS: usize = 300;

/// The inputs that are one step smaller than this one.
pub fn than(task: Task, input: &[u8]) -> Vec<Vec<u8>> {
    match (task, read(input)) {
        (Task::Write, _) => texts(&String::from_utf8_lossy(input)),
        (_, Ok(jobs)) => books(&jobs),
        (_, Err(_)) => bytes(input),
    }
}

/// Good books with fewer jobs or with a smaller one.
fn books(jobs: &[Job]) -> Vec<Vec<u8>> {
    let mut all = shorter(jobs);
    if jobs.len() <= FEW {
        for (at, job) in jobs.iter().enumerate() {
            all.extend(less(job).into_iter().map(|less| {
                let mut jobs = jobs.to_vec();
                jobs[at] = less;
                jobs
            }));
        }
    }
    let books = all.iter().filter_map(|jobs| write(jobs).ok());
    books.collect()
}

/// Jobs with zeros for the seed, with smaller numbers, or with fewer weights.
fn less(job: &Job) -> Vec<Job> {
    let kind = job.draw.kind();
    let draws = lists(&job.draw.numbers());
    let draws = draws.iter().filter_map(|numbers| Draw::of(kind, numbers));
    let mut jobs: Vec<Job> = draws
        .map(|draw| Job {
            draw,
            ..job.clone()
        })
        .collect();
    if job.seed != [0; 32] {
        jobs.insert(
            0,
            Job {
                seed: [0; 32],
                draw: job.draw.clone(),
            },
        );
    }
    jobs
}

/// Bytes without a part of them, or with zeros for a part.
fn bytes(input: &[u8]) -> Vec<Vec<u8>> {
    let mut all = Vec::new();
    for part in parts(input.len()) {
        let (front, back) = (&input[..part.start], &input[part.end..]);
        all.push([front, back].concat());
        if input[part.clone()].iter().any(|&byte| byte != 0) {
            all.push([front, &vec![0; part.len()], back].concat());
        }
    }
    all
}

/// Halves, quarters and so on, to single bytes or to as many as there are parts.
fn parts(len: usize) -> Vec<Range<usize>> {
    let mut parts = Vec::new();
    let mut part = len.div_ceil(2);
    while part > 0 && part >= len / PARTS {
        parts.extend(
            (0..len)
                .step_by(part)
                .map(|start| start..len.min(start + part)),
        );
        part /= 2;
    }
    parts
}

/// Texts with fewer lines, words or characters, or with a smaller number.
fn texts(text: &str) -> Vec<Vec<u8>> {
    let lines: Vec<&str> = text.split('\n').collect();
    let mut all: Vec<String> = shorter(&lines)
        .iter()
        .map(|lines| lines.join("\n"))
        .collect();
    if lines.len() <= FEW {
        for (at, line) in lines.iter().enumerate() {
            all.extend(words(line).iter().map(|line| {
                let mut lines = lines.clone();
                lines[at] = line;
                lines.join("\n")
            }));
        }
    }
    if text.len() <= PARTS {
        let places = text.char_indices();
        all.extend(places.map(|(at, character)| {
            let behind = at + character.len_utf8();
            [&text[..at], &text[behind..]].concat()
        }));
    }
    // One that is written anew may be the same.
    all.retain(|less| less != text);
    all.into_iter().map(String::into_bytes).collect()
}

/// A line with fewer words, or with a smaller number for one of them.
fn words(line: &str) -> Vec<String> {
    let words: Vec<&str> = line.split(' ').collect();
    let mut all: Vec<String> = shorter(&words)
        .iter()
        .map(|words| words.join(" "))
        .collect();
    for at in 0..words.len().min(10) {
        let number = words[at].parse().unwrap_or(0);
        all.extend(smaller(number).map(|less| {
            let less = less.to_string();
            let mut words = words.clone();
            words[at] = &less;
            words.join(" ")
        }));
    }
    all
}

#[cfg(test)]
mod tests {
    use reference::book::write;

    use super::than;
    use crate::book::seen::Task;
    use crate::book::{damaged, random, texts};
    use crate::inputs::Source;

    /// The input that is reached by going to the first smaller one that holds.
    fn smallest(task: Task, input: Vec<u8>, holds: fn(&[u8]) -> bool) -> Vec<u8> {
        let mut found = input;
        for _ in 0..5000 {
            match than(task, &found).into_iter().find(|less| holds(less)) {
                Some(less) => found = less,
                None => return found,
            }
        }
        panic!("an endless chain at {found:?}");
    }

    #[test]
    fn books_get_small() {
        let mut source = Source::new(1);
        for _ in 0..20 {
            let book = random::book(&mut source);
            assert_eq!(smallest(Task::Run, book, |_| true).len(), 4);
            let spoilt = damaged::random(&mut source);
            let least = smallest(Task::Show, spoilt, |book| book.len() >= 30);
            assert!(least.len() < 80, "{}", least.len());
        }
        assert!(than(Task::Run, &write(&[]).expect("a book")).is_empty());
    }

    #[test]
    fn texts_get_small() {
        let mut source = Source::new(1);
        for _ in 0..20 {
            let text = texts::random(&mut source);
            assert!(smallest(Task::Write, text, |_| true).is_empty());
        }
    }
}
