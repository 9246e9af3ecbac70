//! The tables.

use std::io;

use crate::allocation::Allocated;
use crate::before::Before;
use crate::numbers::{grouped, rounded, with_spread};
use crate::sides::Case;
use crate::timing::{Measured, Plan};

/// The first cells of a table where another build is measured.
const VERSIONS: &str = "| Case | Call | before | after | ratio |\n|---|---|---:|---:|---:|";

/// The further ones where a table tells of memory.
const MEMORY: &str = " rand allocates | ours allocates | ours is lent |";

/// Measures the cases and prints a line for each.
pub fn print(title: &str, cases: &[Case], plan: &Plan) {
    let has_memory = cases.iter().any(|case| case.lent.is_some());
    let (names, rules) = if has_memory {
        (MEMORY, "---|---|---|")
    } else {
        ("", "")
    };
    let others = cases[0].others;
    println!("\n## {title}\n");
    println!("{}{names}", heads(others));
    println!("|---|---|---:|{}{rules}", "---:|---:|".repeat(others.len()));
    for case in cases {
        println!("{}", line(case, plan));
    }
}

/// The heads of the times: each side's, and ours to each other's.
fn heads(others: &[&str]) -> String {
    let times = others.join(" | ");
    let ratios = match others {
        [_] => "ratio".to_owned(),
        _ => format!("ratio to {}", others.join(" | to ")),
    };
    format!("| Case | Call | {times} | ours | {ratios} |")
}

/// Measures the cases against another build of this program, and prints a line for each.
///
/// # Errors
///
/// If that build cannot be run.
pub fn print_before(title: &str, cases: &[Case], plan: &Plan, before: &str) -> io::Result<()> {
    println!("\n## {title}\n\n{VERSIONS}");
    for case in cases {
        let other = Before::start(before, &case.name())?;
        let mut sides = (case.sides)().beside(other);
        let measured = plan.measure(&mut sides);
        println!("| {} |", times(case, &measured).join(" | "));
    }
    Ok(())
}

/// The first cells of a case's line.
fn times(case: &Case, measured: &Measured) -> Vec<String> {
    let mut cells = vec![case.size.clone(), case.call.to_owned()];
    cells.extend(measured.times.iter().map(|&time| rounded(time, 1)));
    cells.extend(measured.ratios.iter().copied().map(with_spread));
    cells
}

fn line(case: &Case, plan: &Plan) -> String {
    let mut sides = (case.sides)();
    let mut cells = times(case, &plan.measure(&mut sides));
    if let Some(lent) = case.lent {
        cells.extend(sides.heap.map(heap_text));
        cells.push(bytes(lent));
    }
    format!("| {} |", cells.join(" | "))
}

fn heap_text(heap: Allocated) -> String {
    match heap.times {
        0 => "nothing".to_owned(),
        1 => bytes(heap.bytes),
        times => format!("{} in {times}", bytes(heap.bytes)),
    }
}

fn bytes(count: usize) -> String {
    format!("{} B", grouped(count as u64))
}
