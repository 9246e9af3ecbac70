//! Faults in the texts of jobs, as they are read and as they are shown.

use reference::book::{Draw, Job, MOST_JOBS, write};
use reference::book_text::{Wrong, parse, seed, shown};
use reference::generator::Generator;

use crate::book::layout::{KIND, Layout, OFFSET, contents};

/// What a wrong line is taken for.
type Taken = fn(&str) -> String;

/// The faults by which wrong lines are taken, each for another line. Those that lines of calls can have too have their names.
const TAKEN: [(&str, Taken); 11] = [
    ("blanks-trimmed", |line| line.trim_matches(' ').to_owned()),
    ("blanks-doubled", |line| line.replace("  ", " ")),
    ("return-taken", |line| line.replace('\r', "")),
    ("tab-as-blank", |line| line.replace('\t', " ")),
    ("sign-taken", |line| line.replace('+', "")),
    ("name-case", str::to_lowercase),
    ("word-more", |line| {
        let words = line.rsplit_once(' ');
        words.map_or(String::new(), |(front, _)| front.to_owned())
    }),
    ("word-missing", |line| format!("{line} 0")),
    ("entry-modulo", |line| words(line, low_half)),
    ("zero-taken", |line| line.replace(" zero ", " 0 ")),
    ("digits-short", |line| {
        words(line, |word| match word.len() {
            63 => format!("{word}0"),
            _ => word.to_owned(),
        })
    }),
];

/// Whether the line of a job is not taken.
type Refused = fn(&str) -> bool;

/// The faults by which lines of jobs are taken for wrong ones.
const REFUSED: [(&str, Refused); 4] = [
    ("digits-upper", |line| {
        line.bytes().any(|byte| byte.is_ascii_uppercase())
    }),
    ("leading-zero", |line| {
        let mut words = line.split(' ').filter(|word| word.len() < 64);
        words.any(|word| word.len() > 1 && word.starts_with('0'))
    }),
    ("greatest-number", |line| {
        line.split(' ').any(|word| word == "4294967295")
    }),
    ("no-list-line", |line| {
        line.starts_with("pick") && line.split(' ').count() == 4
    }),
];

/// A decimal seed as the first bytes of the seed.
const SEED_AS_BYTES: &str = "seed-as-bytes";

/// The bytes of a seed in the other order.
const DIGITS_TURNED: &str = "digits-turned";

/// Lines that are passed over not counted.
const UNCOUNTED: &str = "skipped-uncounted";

/// The last wrong line told, not the first.
const LAST_WRONG: &str = "last-wrong-line";

/// Wrong lines passed over.
const PASSED_OVER: &str = "wrong-passed-over";

/// A book of the jobs before a wrong line.
const FRONT: &str = "front-written";

/// A last line without its end lost.
const UNENDED: &str = "unended-lost";

/// A comment behind blanks.
const COMMENT: &str = "comment-behind-blank";

/// More jobs or bytes than a book may have written.
const TOO_MANY: &str = "too-much-written";

/// Offsets from the first body on.
const FROM_BODIES: &str = "offset-from-bodies";

/// The last weight of a job not written.
const WEIGHT_UNWRITTEN: &str = "last-weight-unwritten";

/// The kinds exchanged in the contents.
const KINDS_WRITTEN: &str = "kinds-written-exchanged";

/// All of those of texts that are read.
pub fn names() -> Vec<&'static str> {
    let taken = TAKEN.into_iter().map(|(name, _)| name);
    let refused = REFUSED.into_iter().map(|(name, _)| name);
    let others = [
        SEED_AS_BYTES,
        DIGITS_TURNED,
        UNCOUNTED,
        LAST_WRONG,
        PASSED_OVER,
        FRONT,
        UNENDED,
        COMMENT,
        TOO_MANY,
        FROM_BODIES,
        WEIGHT_UNWRITTEN,
        KINDS_WRITTEN,
    ];
    taken.chain(refused).chain(others).collect()
}

/// The book of a text with a fault in it, or without one where the name is another.
pub fn book(text: &[u8], fault: &str) -> Result<Vec<u8>, Wrong> {
    let text = String::from_utf8_lossy(text);
    let end = match fault {
        UNENDED => text.rfind('\n').map_or(0, |at| at + 1),
        _ => text.len(),
    };
    let mut jobs = Vec::new();
    let (mut number, mut wrong) = (0, None);
    for line in text[..end].split('\n') {
        let is_skipped = line.is_empty() || line.starts_with('#');
        let is_skipped = is_skipped || fault == COMMENT && line.trim_start().starts_with('#');
        number += u64::from(!(fault == UNCOUNTED && is_skipped));
        if is_skipped || jobs.len() > MOST_JOBS {
            continue;
        }
        match job(line, fault) {
            Some(job) => jobs.push(job),
            None if fault == FRONT => break,
            None if fault == PASSED_OVER => {}
            None if fault == LAST_WRONG => wrong = Some(number),
            None => return Err(Wrong::Line(number)),
        }
    }
    match wrong {
        Some(number) => Err(Wrong::Line(number)),
        None => written(&jobs, fault),
    }
}

/// The book of jobs, of which as many are written as fit where there are too many.
fn written(jobs: &[Job], fault: &str) -> Result<Vec<u8>, Wrong> {
    let mut fit = jobs.to_vec();
    while fault == TOO_MANY && write(&fit).is_err() {
        fit.pop();
    }
    let book = write(&fit).map_err(Wrong::Refused)?;
    for job in &mut fit {
        match &mut job.draw {
            Draw::Pick { weights, .. } if fault == WEIGHT_UNWRITTEN => _ = weights.pop(),
            _ => {}
        }
    }
    let mut layout = Layout::of(&fit);
    for row in &mut layout.rows {
        match fault {
            FROM_BODIES => row[OFFSET] -= contents(fit.len()) as u32,
            KINDS_WRITTEN => row[KIND] = 3 - row[KIND],
            _ => {}
        }
    }
    match fault {
        FROM_BODIES | WEIGHT_UNWRITTEN | KINDS_WRITTEN => Ok(layout.bytes()),
        _ => Ok(book),
    }
}

/// The job of a line, if it is taken.
fn job(line: &str, fault: &str) -> Option<Job> {
    let refused = REFUSED.into_iter().find(|(name, _)| *name == fault);
    let job = parse(line).filter(|_| refused.is_none_or(|(_, is_refused)| !is_refused(line)));
    let taken = TAKEN.into_iter().find(|(name, _)| *name == fault);
    let job = job.or_else(|| parse(&taken?.1(line)));
    let mut job = job?;
    let generator = Generator::parse(line.split(' ').nth(1)?);
    match (fault, generator) {
        (SEED_AS_BYTES, Some(Generator::Number(number))) => {
            job.seed = [0; 32];
            job.seed[..8].copy_from_slice(&number.to_le_bytes());
        }
        (DIGITS_TURNED, Some(Generator::Bytes(_))) => job.seed.reverse(),
        _ => {}
    }
    Some(job)
}

/// The line with each word changed so.
fn words(line: &str, change: fn(&str) -> String) -> String {
    let words: Vec<String> = line.split(' ').map(change).collect();
    words.join(" ")
}

/// A number, modulo 2^32, but for a seed.
fn low_half(word: &str) -> String {
    let number = word.parse::<u64>();
    let number = number.map(|number| (number as u32).to_string());
    number.unwrap_or(word.to_owned())
}

/// A way to show a job.
type Show = fn(&Job) -> String;

/// The faults of jobs as they are shown.
const SHOWN: [(&str, Show); 4] = [
    ("shown-upper", |job| {
        words(&shown(job), |word| match word.len() {
            64 => word.to_uppercase(),
            _ => word.to_owned(),
        })
    }),
    ("shown-state", |job| {
        let seed = seed(Generator::of_state(job.from()));
        let seed = seed.unwrap_or(job.seed);
        shown(&Job {
            seed,
            ..job.clone()
        })
    }),
    ("shown-weights-cut", |job| {
        let mut job = job.clone();
        if let Draw::Pick { weights, .. } = &mut job.draw {
            weights.pop();
        }
        shown(&job)
    }),
    ("shown-blank", |job| shown(job) + " "),
];

/// Their names.
pub fn names_of_shown() -> Vec<&'static str> {
    SHOWN.into_iter().map(|(name, _)| name).collect()
}

/// The text of jobs, with a fault in it or without one where the name is another.
pub fn text(jobs: &[Job], fault: &str) -> String {
    let found = SHOWN.into_iter().find(|(name, _)| *name == fault);
    let show = found.map_or(shown as Show, |(_, show)| show);
    jobs.iter().map(|job| show(job) + "\n").collect()
}
