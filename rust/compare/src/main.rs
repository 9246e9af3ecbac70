//! Runs Gapyndura and rand on the same inputs and says whether they ever differ.
//!
//! Each kind of call at the C boundary is a file with a type that is a [`kind::Kind`], and a line in [`KINDS`]. Calls that
//! have no function there are made by the Rattle program of module [`program`], and draw books by those of module [`book`].

mod arguments;
mod book;
mod child;
mod choose;
mod draw_faults;
mod fill;
mod inputs;
mod kind;
mod long_run;
#[cfg(test)]
mod longest;
mod port;
mod program;
mod sample;
mod seeding;
mod shuffle;
mod slices;
mod stratified;
mod view;
mod weights;
mod word;

use std::env;
use std::process::ExitCode;

use arguments::{Arguments, BOOK, BOOK_TEXT, Faults, PROGRAM, USAGE};
use book::Programs;
use kind::{Entry, Tally};
use program::Program;

/// The kinds of call at the C boundary, in the order in which they are run.
const KINDS: [Entry; 19] = [
    Entry::of::<seeding::FromSeed>(),
    Entry::of::<seeding::SeedFromU64>(),
    Entry::of::<word::NextU32>(),
    Entry::of::<sample::Sample>(),
    Entry::of::<sample::choice::Choice>(),
    Entry::of::<stratified::SampleStratified>(),
    Entry::of::<view::IndexedSamples>(),
    Entry::of::<shuffle::PartialShuffle>(),
    Entry::of::<shuffle::Shuffle>(),
    Entry::of::<fill::SampleFill>(),
    Entry::of::<weights::New>(),
    Entry::of::<weights::Change>(),
    Entry::of::<weights::Lookup>(),
    Entry::of::<weights::Pick>(),
    Entry::of::<weights::History>(),
    Entry::of::<choose::Choose>(),
    Entry::of::<choose::ChooseStable>(),
    Entry::of::<choose::TwoReaders>(),
    Entry::of::<long_run::LongRun>(),
];

fn main() -> ExitCode {
    let faults = faults();
    let sum = Arguments::parse(env::args().skip(1), &faults)
        .map_err(|message| format!("{message}\n{}", usage(&faults)))
        .and_then(|arguments| run(&arguments));
    match sum {
        Ok(sum) => {
            println!("{} calls, {} differ", sum.calls, sum.differ);
            ExitCode::from(u8::from(sum.differ > 0))
        }
        Err(message) => {
            eprintln!("compare: {message}");
            ExitCode::from(2)
        }
    }
}

/// Runs all that was asked for; where a fault is planted, what it is planted in. An error is a program that cannot be run.
fn run(arguments: &Arguments) -> Result<Tally, String> {
    let program = arguments.program.as_deref().map(|path| {
        Program::new(path, arguments.plant.as_deref()).map_err(|error| format!("{path}: {error}"))
    });
    let program = program.transpose()?;
    let books = Programs::new(arguments)?;
    let lines = program.as_ref().map_or(0, |_| program::PARTS);
    let boundary = KINDS.iter().map(|entry| entry.parts).sum::<usize>();
    let all = boundary + lines + books.parts();
    let mut sum = Tally::default();
    for entry in KINDS.iter().filter(|entry| arguments.wants(entry.faults)) {
        sum += (entry.run)(arguments, &arguments.bound(entry.parts, all));
    }
    match program {
        Some(program) if arguments.wants(&program::faults()) => {
            sum += program::run(&program, arguments, &arguments.bound(lines, all));
        }
        Some(_) => {}
        None => println!("outputs and draws: not compared, for want of {PROGRAM} PATH"),
    }
    sum += book::run(&books, arguments, &arguments.bound(books.parts(), all));
    Ok(sum)
}

/// All faults that can be planted. One that several kinds can have is there once.
fn faults() -> Faults {
    let boundary = KINDS.iter().flat_map(|entry| entry.faults).copied();
    Faults {
        boundary: each_once(boundary),
        programs: vec![
            (PROGRAM, each_once(program::faults())),
            (BOOK, each_once(book::of_book())),
            (BOOK_TEXT, each_once(book::of_text())),
        ],
    }
}

fn each_once(names: impl IntoIterator<Item = &'static str>) -> Vec<&'static str> {
    let mut found = Vec::new();
    for name in names {
        if !found.contains(&name) {
            found.push(name);
        }
    }
    found
}

fn usage(faults: &Faults) -> String {
    let boundary = faults.boundary.join(", ");
    let mut text = format!("{USAGE}\nfaults to plant: {boundary}");
    for (option, names) in &faults.programs {
        let names = names.iter().copied();
        let names: Vec<&str> = names
            .filter(|name| !faults.boundary.contains(name))
            .collect();
        text += &format!("; with {option}: {}", names.join(", "));
    }
    text
}

#[cfg(test)]
mod tests {
    use super::KINDS;

    /// Random inputs in which a fault must show.
    const INPUTS: usize = 50_000;

    /// A fault that is planted is there, and random inputs alone are enough to find it. No kind is without one.
    #[test]
    fn every_fault_at_the_boundary_shows() {
        for entry in &KINDS {
            assert!(!entry.faults.is_empty(), "{} has no fault", entry.name);
            for fault in entry.faults {
                assert!((entry.shows)(fault, INPUTS), "{fault} shows nowhere");
            }
        }
    }

    #[test]
    fn nothing_differs_without_a_fault() {
        for entry in &KINDS {
            assert!(!(entry.shows)("none of these", 20));
        }
    }
}
