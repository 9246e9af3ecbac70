//! Faults in the lines of a book.

use reference::book::Job;
use reference::book_jobs::{Drawn, line, lines};

/// A blank behind each index.
const BLANK: &str = "blank-behind";

/// A blank before the first index.
const BLANK_FRONT: &str = "blank-before";

/// The end of the last line missing.
const UNENDED: &str = "last-line-unended";

/// A text behind the number of a refusal.
const TEXT: &str = "refusal-with-text";

/// No line for a job behind one that is refused.
const ENDS: &str = "refused-job-ends";

/// No line for a job without indices.
const NO_LINE: &str = "no-line-without-indices";

/// Nothing for a book that is refused.
const SILENT: &str = "bad-book-silent";

/// A line for a book without jobs.
const EMPTY_LINE: &str = "line-without-jobs";

/// The indices from 1 on.
const FROM_ONE: &str = "indices-from-1";

/// All of them.
pub const NAMES: [&str; 9] = [
    BLANK,
    BLANK_FRONT,
    UNENDED,
    TEXT,
    ENDS,
    NO_LINE,
    SILENT,
    EMPTY_LINE,
    FROM_ONE,
];

/// The lines that stand for these jobs, with a fault in them or without one where the name is another.
pub fn printed(jobs: Result<Vec<Job>, u64>, drawn: impl Fn(&Job) -> Drawn, fault: &str) -> String {
    match (fault, &jobs) {
        (SILENT, Err(_)) => return String::new(),
        (EMPTY_LINE, Ok(jobs)) if jobs.is_empty() => return "\n".to_owned(),
        (ENDS, Ok(jobs)) => {
            let mut all: Vec<Drawn> = jobs.iter().map(drawn).collect();
            let end = all.iter().position(Result::is_err);
            all.truncate(end.map_or(all.len(), |at| at + 1));
            return all.iter().map(|drawn| line(drawn) + "\n").collect();
        }
        _ => {}
    }
    let one_more = |job: &Job| drawn(job).map(|list| list.iter().map(|index| index + 1).collect());
    let text = match fault {
        FROM_ONE => lines(jobs, one_more),
        _ => lines(jobs, drawn),
    };
    let each = |change: fn(&str) -> String| text.lines().map(change).collect();
    match fault {
        BLANK => each(|line| match line {
            "" => "\n".to_owned(),
            _ => format!("{line} \n"),
        }),
        BLANK_FRONT => each(|line| format!(" {line}\n")),
        UNENDED => text.strip_suffix('\n').unwrap_or_default().to_owned(),
        TEXT => each(|line| match line.starts_with("refused") {
            true => format!("{line}: declined\n"),
            false => format!("{line}\n"),
        }),
        NO_LINE => each(|line| match line {
            "" => String::new(),
            _ => format!("{line}\n"),
        }),
        _ => text,
    }
}
