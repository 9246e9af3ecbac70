//! Program `compare` itself, where a fault is planted and where it cannot be.

use std::process::{Command, Output};

/// Faults that are found within a second, in seedings, words, samples, changes and lookups.
const FAULTS: [&str; 6] = [
    "zero-bytes",
    "word-unadvanced",
    "floyd-appends-j",
    "old-weight",
    "weight-sum",
    "weight-beyond",
];

/// Faults of bounded draws that read on, and of calls that use their budget up.
const OF_BUDGETS: [&str; 11] = [
    "second-word",
    "first-low-kept",
    "stops-at-largest",
    "third-untested",
    "spent-early",
    "spent-unneeded",
    "spent-unadvanced",
    "floyd-spent-undone",
    "in-place-spent-copied",
    "chunk-spent-undone",
    "fill-spent-counted",
];

/// Faults of stratified samples.
const OF_PARTS: [&str; 13] = [
    "strata-budget-each",
    "strata-start-amounts",
    "strata-method-whole",
    "strata-scratch-late",
    "strata-empty-skipped",
    "strata-spent-twice",
    "strata-spent-unmoved",
    "strata-same-draws",
    "strata-sum-wraps",
    "strata-scratch-moved",
    "strata-17-late",
    "strata-count-last",
    "strata-tail-cleared",
];

/// A program that gives back the lines behind the class.
const ECHO: &str = concat!(env!("CARGO_MANIFEST_DIR"), "/tests/echo");

fn compare(words: &[&str]) -> Output {
    let mut command = Command::new(env!("CARGO_BIN_EXE_compare"));
    command.args(words).output().expect("compare runs")
}

/// What a run with a fault planted tells, which ends with a difference.
fn told(fault: &str, seed: &str) -> String {
    let output = compare(&["--plant", fault, "--seed", seed, "--calls", "1000"]);
    let text = String::from_utf8_lossy(&output.stdout).into_owned();
    assert_eq!(output.status.code(), Some(1), "{fault}: {text}");
    let last = text.lines().last().unwrap_or_default();
    assert!(
        last.ends_with(" differ") && !last.ends_with(" 0 differ"),
        "{last}"
    );
    text
}

#[test]
fn a_planted_fault_is_told_and_ends_with_status_1() {
    for fault in FAULTS {
        for seed in ["1", "2", "3"] {
            let text = told(fault, seed);
            assert!(text.contains("the smallest input found"), "{text}");
        }
    }
}

/// Every kind of call that can have such a fault tells of it.
#[test]
fn a_fault_of_budgets_or_of_parts_is_told_by_each_kind_that_has_it() {
    for fault in OF_BUDGETS.into_iter().chain(OF_PARTS) {
        let text = told(fault, "1");
        let kinds = text.matches(" calls\n").count();
        let found = text.matches("the smallest input found").count();
        assert!(kinds > 0 && kinds == found, "{fault}: {text}");
    }
}

/// That program answers no line as rand does. A fault of lines alone is planted, so that only lines are run.
#[test]
fn a_program_that_differs_is_told_with_the_smallest_lines() {
    let words = [
        "--plant",
        "answer-digest",
        "--program",
        ECHO,
        "--calls",
        "5",
    ];
    let output = compare(&words);
    let text = String::from_utf8_lossy(&output.stdout);
    assert_eq!(output.status.code(), Some(1), "{text}");
    for line in [
        "seed 0",
        "shuffle 0 0 0",
        "pick 0 0 0 0 0 0",
        "choose 0 0 0 0",
        "sample_stratified 0 0 0 0 0",
    ] {
        assert!(text.contains(&format!("\"{line}\"")), "{line}: {text}");
    }
    assert!(text.ends_with("90 calls, 90 differ\n"), "{text}");
}

/// rand's own programs of draw books stand in for the port's.
const BOOKS: [&str; 4] = [
    "--book",
    env!("CARGO_BIN_EXE_rand_book"),
    "--book-text",
    env!("CARGO_BIN_EXE_rand_book_text"),
];

/// All runs before the one that has the fault must be those that are due: one alone differs.
#[test]
fn a_fault_of_draw_books_is_told_with_the_smallest_input() {
    for (fault, smallest) in [
        ("tail-taken", "Run 0000000000\n"),
        ("budget-shared", " 2 1 1\\n\"\n"),
        (
            "file-order",
            "Run 02000000010000000000000000000000000000000000000000000000\n",
        ),
        ("shown-state", " 0 0 0\\n\"\n"),
        ("seed-as-bytes", "Write \"sample 0 0 0 0\"\n"),
        ("skipped-uncounted", "Write \"\\n?\"\n"),
    ] {
        let planted = ["--plant", fault, "--calls", "3"];
        let output = compare(&[&BOOKS[..], &planted].concat());
        let text = String::from_utf8_lossy(&output.stdout);
        assert_eq!(output.status.code(), Some(1), "{fault}: {text}");
        assert!(text.contains(smallest), "{fault}: {text}");
        assert!(text.ends_with(" differ\n"), "{text}");
    }
}

/// A program that says nothing, and one that gives its input back.
#[test]
fn programs_of_draw_books_that_differ_are_told() {
    for program in ["true", "cat"] {
        let words = [
            "--plant",
            "larger-taken",
            "--book",
            program,
            "--book-text",
            program,
        ];
        let output = compare(&[&words[..], &["--calls", "1"]].concat());
        let text = String::from_utf8_lossy(&output.stdout);
        assert_eq!(output.status.code(), Some(1), "{text}");
        assert!(
            text.contains("Run \"\"\n  rand: \"refused 14\\n\""),
            "{text}"
        );
        assert!(
            text.contains("Show \"\"\n  rand: \"\", Wrong(Refused(14))"),
            "{text}"
        );
    }
}

#[test]
fn a_fault_that_cannot_be_planted_ends_with_status_2() {
    for fault in [
        "no-such-fault",
        "threshold",
        "answer-digest",
        "word-more",
        "file-order",
        "shown-upper",
    ] {
        let output = compare(&["--plant", fault]);
        let text = String::from_utf8_lossy(&output.stderr);
        assert_eq!(output.status.code(), Some(2), "{fault}: {text}");
        assert!(
            text.contains(fault) && text.contains("faults to plant"),
            "{text}"
        );
    }
}
