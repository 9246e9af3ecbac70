//! Writes the fixed list of rand's answers that the Rattle program is held to: the class of slices and the lines in file `stdin`,
//! answers in `stdout`.
//!
//! [`reference::line`] says what a line of `stdin` is and what its line of `stdout` holds.

mod choices;
mod contents;
mod run;
mod samples;
mod shuffles;
mod stratified;
mod views;
mod weights;
mod wrong;

use std::env;
use std::fs;
use std::path::PathBuf;
use std::process::ExitCode;

use contents::Section;
use reference::line::{CLASS, LARGEST_LIST, answer, is_skipped};

fn main() -> ExitCode {
    let mut words = env::args_os().skip(1);
    let (Some(folder), None) = (words.next(), words.next()) else {
        eprintln!("usage: list FOLDER");
        return ExitCode::from(2);
    };
    let (stdin, stdout) = texts(&contents::sections());
    let folder = PathBuf::from(folder);
    for (name, text) in [("stdin", stdin), ("stdout", stdout)] {
        let file = folder.join(name);
        if let Err(error) = fs::write(&file, &text) {
            eprintln!("list: {}: {error}", file.display());
            return ExitCode::FAILURE;
        }
        println!(
            "{}: {} lines, {} bytes",
            file.display(),
            text.lines().count(),
            text.len()
        );
    }
    ExitCode::SUCCESS
}

/// The two files.
fn texts(sections: &[Section]) -> (String, String) {
    let mut stdin = format!("{CLASS}\n");
    let mut stdout = String::new();
    for section in sections {
        push(&mut stdin, &format!("# {}", section.title));
        for line in &section.lines {
            push(&mut stdin, line);
            if !is_skipped(line) {
                push(&mut stdout, &answer(line));
            }
        }
    }
    assert!(stdin.len() <= LARGEST_LIST, "{} bytes", stdin.len());
    (stdin, stdout)
}

/// Adds a line.
fn push(text: &mut String, line: &str) {
    text.push_str(line);
    text.push('\n');
}

#[cfg(test)]
mod tests {
    use super::{contents, fs, texts};

    /// Nothing was written into them by hand, and no change of the list was forgotten.
    #[test]
    fn the_files_are_those_of_the_list() {
        let file = |name| {
            let path = format!("{}/../../crates/draw/{name}", env!("CARGO_MANIFEST_DIR"));
            fs::read_to_string(path).expect("the list is there")
        };
        let (stdin, stdout) = texts(&contents::sections());
        assert!(file("stdin") == stdin, "stdin is not that of the list");
        assert!(file("stdout") == stdout, "stdout is not that of the list");
    }
}
