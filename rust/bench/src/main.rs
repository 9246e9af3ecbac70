//! Measures Gapyndura's calls against rand's, in one run, and prints tables in Markdown.

mod allocation;
mod before;
mod books;
mod choices;
mod divisions;
mod generators;
mod growth;
mod memory;
mod numbers;
mod samples;
mod seed;
mod shuffles;
mod sides;
mod table;
mod timing;
mod views;
mod weights;

use std::env;
use std::io;
use std::process::ExitCode;
use std::time::Duration;

use allocation::Counting;
use sides::Case;
use timing::Plan;

#[global_allocator]
static ALLOCATOR: Counting = Counting;

/// A table: its title and its cases.
type Group = (&'static str, fn() -> Vec<Case>);

/// The tables, in the order in which they are printed.
const GROUPS: [Group; 7] = [
    ("`sample` of indices", samples::cases),
    ("Shuffles and the reservoir", shuffles::cases),
    ("The weight table", weights::cases),
    ("Divisions of a rejecting draw", divisions::cases),
    ("Choosers", choices::cases),
    ("Generators", generators::cases),
    ("Views", views::cases),
];

/// The time of a run.
const PLAN: Plan = Plan {
    time: Duration::from_millis(1500),
    block: Duration::from_millis(1),
};

/// The same, for a first look.
const QUICK: Plan = Plan {
    time: Duration::from_millis(40),
    ..PLAN
};

/// What is asked for.
struct Asked {
    plan: Plan,
    seed: u32,
    /// Whether the growth of cost is measured in place of the tables, and the largest size.
    growth: bool,
    most: usize,
    /// Another build of this program, to be measured in rand's place.
    before: Option<String>,
    /// Whether another build asks.
    serves: bool,
    /// The Rattle program that runs draw books, to be measured in place of calls.
    book: Option<String>,
    part: String,
}

fn main() -> ExitCode {
    let Some(asked) = asked(env::args().skip(1)) else {
        eprintln!(
            "usage: bench [--quick] [--seed N] [--before ANOTHER BUILD OF BENCH | --book PROGRAM | --growth [--most SIZE]] [PART OF A CASE'S NAME]"
        );
        return ExitCode::from(2);
    };
    seed::set(asked.seed);
    if asked.growth {
        growth::print(&asked.plan, &asked.part, asked.most);
        return ExitCode::SUCCESS;
    }
    let groups = selected(&asked.part);
    if groups.is_empty() {
        eprintln!("bench: no case has {} in its name", asked.part);
        return ExitCode::from(2);
    }
    match run(&asked, &groups) {
        Ok(()) => ExitCode::SUCCESS,
        Err(error) => {
            eprintln!("bench: {error}");
            ExitCode::from(2)
        }
    }
}

/// The words of the command line, or none where they are wrong.
fn asked(mut words: impl Iterator<Item = String>) -> Option<Asked> {
    let mut asked = Asked {
        plan: PLAN,
        seed: 0,
        growth: false,
        most: usize::MAX,
        before: None,
        serves: false,
        book: None,
        part: String::new(),
    };
    while let Some(word) = words.next() {
        match word.as_str() {
            "--quick" => asked.plan = QUICK,
            before::SEED => asked.seed = words.next()?.parse().ok()?,
            "--growth" => asked.growth = true,
            "--most" => asked.most = words.next()?.parse().ok()?,
            "--before" => asked.before = Some(words.next()?),
            "--book" => asked.book = Some(words.next()?),
            before::SERVE => asked.serves = true,
            _ if word.starts_with('-') || !asked.part.is_empty() => return None,
            _ => asked.part = word,
        }
    }
    Some(asked)
}

fn run(asked: &Asked, groups: &[(&'static str, Vec<Case>)]) -> io::Result<()> {
    if let Some(book) = &asked.book {
        return books::print(book, &asked.plan);
    }
    if asked.serves {
        let mut cases = groups.iter().flat_map(|(_, cases)| cases);
        let case = cases.find(|case| case.name() == asked.part);
        return before::serve(case.ok_or(io::ErrorKind::NotFound)?);
    }
    let sides = match asked.before {
        None => "ours to rand's",
        Some(_) => "this build's to the other's",
    };
    println!(
        "Nanoseconds a call; the ratio is {sides}. Medians of the blocks of each side, which take turns for {:?} a case, and in brackets the quartiles of the ratio. The seed is {}.",
        asked.plan.time, asked.seed
    );
    for (title, cases) in groups {
        match &asked.before {
            None => table::print(title, cases, &asked.plan),
            Some(before) => table::print_before(title, cases, &asked.plan, before)?,
        }
    }
    Ok(())
}

/// The cases with this in their names, by their tables.
fn selected(part: &str) -> Vec<(&'static str, Vec<Case>)> {
    let groups = GROUPS.into_iter().map(|(title, cases)| {
        let mut cases = cases();
        cases.retain(|case| case.name().contains(part));
        (title, cases)
    });
    groups.filter(|(_, cases)| !cases.is_empty()).collect()
}

#[cfg(test)]
mod tests {
    use std::collections::HashSet;

    use super::selected;

    /// To make the sides is to hold their first calls to each other.
    #[test]
    fn the_sides_of_every_case_give_the_same() {
        for case in selected("").iter().flat_map(|(_, cases)| cases) {
            (case.sides)();
        }
    }

    #[test]
    fn cases_are_selected_by_a_part_of_their_names() {
        let names = |part| {
            let groups = selected(part);
            let cases = groups.iter().flat_map(|(_, cases)| cases);
            cases.map(|case| case.name()).collect::<Vec<_>>()
        };
        assert_eq!(names("Floyd").len(), 3);
        assert_eq!(
            names("partial_shuffle, 10 of"),
            ["partial_shuffle, 10 of 1,000 items"]
        );
        assert!(names("no such case").is_empty());
        let all = names("");
        assert_eq!(all.iter().collect::<HashSet<_>>().len(), all.len());
    }
}
