//! Texts of jobs: good ones, and some that are wrong in each way that there is.

use reference::book::MOST_JOBS;
use reference::book_text::shown;

use super::{damaged, edges, outcomes, random, small};
use crate::inputs::Source;
use crate::program::spoilt;

/// 32 seed bytes, as digits.
const SEED: &str = "00112233445566778899aabbccddeeff0f1e2d3c4b5a69788796a5b4c3d2e1f0";

/// Lines of no jobs, but for those with a seed that is none.
const WRONG: [&str; 43] = [
    " ",
    " # a",
    "sample",
    "sample 1",
    "sample 1 2 3",
    "sample 1 2 3 4 5",
    "sample 1 2 3 4 ",
    " sample 1 2 3 4",
    "sample  1 2 3 4",
    "sample 1 2  3 4",
    "sample 1 2 3 4\r",
    "sample\t1 2 3 4",
    "sample 1 2 3 4\0",
    "sample 1 2 3 4294967296",
    "sample 1 2 4294967296 4",
    "sample 1 4294967296 3 4",
    "sample 1 18446744073709551616 3 4",
    "sample 1 18446744073709551617 3 4",
    "sample 18446744073709551616 2 3 4",
    "sample 99999999999999999999 2 3 4",
    "sample -1 2 3 4",
    "sample +1 2 3 4",
    "sample 1 -2 3 4",
    "sample 1 2 3 +4",
    "sample 1 2 3 4.",
    "sample 1 0x2 3 4",
    "sample zero 2 3 4",
    "sample a 2 3 4",
    "Sample 1 2 3 4",
    "samples 1 2 3 4",
    "sampl 1 2 3 4",
    "pick",
    "pick 1",
    "pick 1 2",
    "pick 1 2 3 ",
    "pick 1 2 3 4,5",
    "pick 1 2 3 4294967296",
    "pick 1 2 3 4 5 6 7 8 x",
    "PICK 1 2 3 4",
    "picks 1 2 3 4",
    "shuffle 1 2",
    "1",
    "\u{e9}",
];

/// The most weights of a job in a book of its own.
const MOST_WEIGHTS: usize = 16_370;

/// Every third book of those that are shown as texts is enough: they are refused by the same reader as those that are run.
const EACH: usize = 3;

/// Books that are shown as texts.
pub fn shown_books() -> Vec<Vec<u8>> {
    let small = small::books().into_iter().step_by(EACH);
    let damaged = damaged::books().into_iter().step_by(2 * EACH);
    let edges = edges::books().into_iter();
    let outcomes = outcomes::books().into_iter().step_by(EACH);
    small.chain(damaged).chain(edges).chain(outcomes).collect()
}

/// Texts that every run tries.
pub fn texts() -> Vec<Vec<u8>> {
    let mut texts: Vec<Vec<u8>> = Vec::new();
    let good = good();
    for line in good.iter().chain(&wrong()) {
        texts.push(line.clone().into_bytes());
        texts.push(format!("{line}\n").into_bytes());
        texts.push(format!("# first\n\npick 1 1 1 1\n{line}\nsample 1 1 1 1\n?\n").into_bytes());
    }
    for skipped in ["", "\n", "\n\n\n", "#", "#\n", "# a\n#b", "#\u{e9}\n\n#"] {
        texts.push(skipped.into());
    }
    texts.push(b"#\xff\xfe\0\n\xff".to_vec());
    texts.push(good.join("\n").into_bytes());
    for jobs in [MOST_JOBS - 1, MOST_JOBS, MOST_JOBS + 1, 200] {
        texts.push("sample 1 1 1 1\n".repeat(jobs).into_bytes());
        texts.push("\n# a\npick 7 1 1 5".repeat(jobs).into_bytes());
        texts.push(("sample 1 1 1 1\n".repeat(jobs) + "\n?\n").into_bytes());
    }
    for weights in [MOST_WEIGHTS - 1, MOST_WEIGHTS, MOST_WEIGHTS + 1] {
        for weight in [" 1", " 4294967295"] {
            texts.push(format!("pick 1 1 1{}\n", weight.repeat(weights)).into_bytes());
        }
    }
    texts
}

/// Lines of jobs, also in ways in which they are not shown.
fn good() -> Vec<String> {
    let upper = SEED.to_uppercase();
    let zeros = "0".repeat(64);
    let nines = "9".repeat(64);
    let mut lines = vec![
        "sample 0 0 0 0".to_owned(),
        "sample 18446744073709551615 4294967295 4294967295 4294967295".to_owned(),
        "sample 0018446744073709551615 04294967295 00 0".to_owned(),
        "pick 1 0 0".to_owned(),
        "pick 1 1 1 0".to_owned(),
        "pick 9 4294967295 4294967295 4294967295 0 1 00000000000000000000000000002".to_owned(),
    ];
    for seed in [SEED, &upper, &zeros, &nines, &zeros[..63]] {
        lines.push(format!("sample {seed} 1 2 3"));
        lines.push(format!("pick {seed} 1 2 3 4 5"));
    }
    lines
}

/// Lines of no jobs.
fn wrong() -> Vec<String> {
    let mut lines = WRONG.map(str::to_owned).to_vec();
    for seed in [&SEED[1..], &format!("{SEED}0"), &format!("g{}", &SEED[1..])] {
        lines.push(format!("sample {seed} 1 2 3"));
        lines.push(format!("pick {seed} 1 2 3"));
    }
    lines
}

/// A random text: lines of random jobs, with others among them that are passed over. In half of the texts a line is changed.
pub fn random(source: &mut Source) -> Vec<u8> {
    let most = source.one_of(&[2, 4, 9, 90]);
    let count = source.below(most);
    let mut lines: Vec<String> = (0..count).map(|_| line(source)).collect();
    if count > 0 && source.below(2) == 0 {
        let at = source.below(count) as usize;
        let words = lines[at].split(' ').map(str::to_owned).collect();
        lines[at] = spoilt::changed(source, words);
    }
    let mut text = lines.join("\n");
    if source.below(4) > 0 {
        text.push('\n');
    }
    text.into_bytes()
}

/// A line of a random job, with either kind of seed, or one that is passed over.
fn line(source: &mut Source) -> String {
    match source.below(16) {
        0 => return String::new(),
        1 => return "# sample 1 2 3 4".to_owned(),
        _ => {}
    }
    let line = shown(&random::job(source));
    let mut words: Vec<&str> = line.split(' ').collect();
    let number = source.u64().to_string();
    if source.below(2) == 0 {
        words[1] = &number;
    }
    words.join(" ")
}

/// A random book to be shown: a good one as a rule.
pub fn random_book(source: &mut Source) -> Vec<u8> {
    match source.below(4) {
        0 => damaged::random(source),
        _ => random::book(source),
    }
}

#[cfg(test)]
mod tests {
    use reference::book_text::{Wrong, book, parse, text};

    use super::{good, random, random_book, wrong};
    use crate::inputs::Source;

    #[test]
    fn lines_are_good_or_wrong() {
        assert!(good().iter().all(|line| parse(line).is_some()));
        for line in wrong() {
            assert_eq!(parse(&line), None, "{line}");
        }
    }

    #[test]
    fn random_texts_have_every_end() {
        let mut source = Source::new(1);
        let ends: Vec<_> = (0..2000).map(|_| book(&random(&mut source))).collect();
        let count =
            |end: fn(&Result<Vec<u8>, Wrong>) -> bool| ends.iter().filter(|made| end(made)).count();
        assert!(count(|made| made.is_ok()) > 500);
        assert!(count(|made| matches!(made, Err(Wrong::Line(2..)))) > 100);
        assert!(count(|made| matches!(made, Err(Wrong::Refused(14)))) > 5);
    }

    /// A book that is shown is written again as it was.
    #[test]
    fn a_shown_book_is_written_again() {
        let mut source = Source::new(1);
        for _ in 0..300 {
            let bytes = random_book(&mut source);
            if let Ok(shown) = text(&bytes) {
                assert_eq!(book(shown.as_bytes()), Ok(bytes));
            }
        }
    }
}
