//! Program `bench` beside another build of itself.

use std::process::{Command, Output};

const BENCH: &str = env!("CARGO_BIN_EXE_bench");

fn bench(words: &[&str]) -> Output {
    let mut command = Command::new(BENCH);
    command.args(words).output().expect("bench runs")
}

#[test]
fn both_builds_are_measured() {
    let output = bench(&["--quick", "--before", BENCH, "Floyd), 5 of 100"]);
    let text = String::from_utf8_lossy(&output.stdout);
    assert_eq!(output.status.code(), Some(0), "{text}");
    assert!(text.contains("| before | after | ratio |"), "{text}");
    let last = text.lines().last().unwrap_or_default();
    assert!(
        last.starts_with("| 5 of 100 | `sample` (Floyd) | "),
        "{text}"
    );
}

#[test]
fn both_builds_have_the_seed() {
    let output = bench(&[
        "--quick",
        "--seed",
        "7",
        "--before",
        BENCH,
        "weight, one place, in the middle, of 10 ",
    ]);
    let text = String::from_utf8_lossy(&output.stdout);
    assert_eq!(output.status.code(), Some(0), "{text}");
    assert!(text.contains("The seed is 7."), "{text}");
}

#[test]
fn growth_has_a_line_for_each_size_and_side() {
    let output = bench(&["--quick", "--growth", "--most", "30", "weight"]);
    let text = String::from_utf8_lossy(&output.stdout);
    assert_eq!(output.status.code(), Some(0), "{text}");
    let starts = text
        .lines()
        .map(|line| line.rsplit_once(',').map_or(line, |(start, _)| start));
    let due = [
        "call,size,side",
        "update_weights,10,rand",
        "update_weights,10,ours",
        "update_weights,30,rand",
        "update_weights,30,ours",
        "weight,10,rand",
        "weight,10,plain pass",
        "weight,10,ours",
        "weight,30,rand",
        "weight,30,plain pass",
        "weight,30,ours",
    ];
    assert_eq!(starts.collect::<Vec<_>>(), due, "{text}");
}

#[test]
fn what_cannot_be_measured_ends_with_status_2() {
    for words in [
        &["--before"][..],
        &["--before", "no such program", "5 of 100"],
        &["--serve", "no such case"],
        &["--slow"],
        &["5 of 100", "12 of 350"],
        &["--seed"],
        &["--seed", "-1"],
        &["--most", "few"],
        &["--book"],
        &["--book", "no such program"],
    ] {
        let output = bench(words);
        assert_eq!(output.status.code(), Some(2), "{words:?}");
        assert!(!output.stderr.is_empty(), "{words:?}");
    }
}
