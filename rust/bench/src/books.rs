//! The Rattle program `book` against one over rand, each as a process from its start to its end.

use std::env;
use std::fs::{self, File};
use std::io;
use std::path::PathBuf;
use std::process::{Command, Stdio};
use std::time::{Duration, Instant};

use reference::book::{Draw, Job, LARGEST, MOST_JOBS, write};
use reference::book_jobs::{ENTRIES, output};
use reference::book_text::seed;
use reference::generator::Generator;

use crate::memory::peak;
use crate::numbers::{grouped, rounded, with_spread};
use crate::timing::{Middle, Plan, median};

/// How many times the time of another case one has here: a process takes longer than a call.
const TIMES: u32 = 4;

/// The program over rand, which stands beside this one.
const RUNNER: &str = "rand_book";

/// The fewest runs of each side.
const FEWEST: usize = 15;

const HEADS: &str = "| Book | Output | rand | ours | ratio | rand at most | ours at most |\n\
                     |---|---:|---:|---:|---:|---:|---:|";

/// A book, and the size of what it prints.
struct Case {
    name: &'static str,
    book: Vec<u8>,
}

/// The seed of the job of this number.
fn seed_of(number: usize) -> [u8; 32] {
    seed(Generator::Number(number as u64)).expect("a number has a seed")
}

fn job(number: usize, draw: Draw) -> Job {
    Job {
        seed: seed_of(number),
        draw,
    }
}

fn sample(length: u32, amount: u32) -> Draw {
    Draw::Sample {
        length,
        amount,
        budget: u32::MAX,
    }
}

fn pick(picks: usize, weights: usize) -> Draw {
    Draw::Pick {
        picks: picks as u32,
        budget: u32::MAX,
        weights: (0..weights as u32).map(|place| place % 100).collect(),
    }
}

/// As many jobs as fit, half of them samples by each method, and as many weights for the others as fill the book.
fn full() -> Vec<Job> {
    let samples = [
        sample(1_000_000, 11),
        sample(8192, 100),
        sample(1_000_000, 1000),
    ];
    let mut jobs: Vec<Job> = (0..MOST_JOBS / 2)
        .map(|number| job(number, samples[number % 3].clone()))
        .collect();
    let picking = MOST_JOBS - jobs.len();
    let taken = 4 + 12 * MOST_JOBS + 44 * jobs.len() + 40 * picking;
    let weights = (LARGEST - taken) / 4;
    for number in 0..picking {
        let more = usize::from(number < weights % picking);
        let draw = pick(100, weights / picking + more);
        jobs.push(job(number, draw));
    }
    jobs
}

fn cases() -> Vec<Case> {
    let each = |draw: Draw| {
        (0..MOST_JOBS)
            .map(|number| job(number, draw.clone()))
            .collect()
    };
    let books: [(&str, Vec<Job>); 5] = [
        ("no jobs", vec![]),
        (
            "64 jobs, 65,536 bytes: 32 samples, 32 times 100 picks",
            full(),
        ),
        (
            "one job: 8,192 picks from 8,193 weights",
            vec![job(0, pick(ENTRIES, ENTRIES + 1))],
        ),
        (
            "64 jobs: 8,192 picks from 10 weights each",
            each(pick(ENTRIES, 10)),
        ),
        (
            "64 jobs: 8,192 of 2^32 − 1 each, by rejection",
            each(sample(u32::MAX, ENTRIES as u32)),
        ),
    ];
    let books = books.into_iter();
    books
        .map(|(name, jobs)| Case {
            name,
            book: write(&jobs).expect("it fits"),
        })
        .collect()
}

/// Measures program `book` at this path, and prints a line for each book.
///
/// # Errors
///
/// If a program cannot be run.
pub fn print(program: &str, plan: &Plan) -> io::Result<()> {
    let runner = env::current_exe()?.with_file_name(RUNNER);
    let runner = runner.to_string_lossy();
    println!("Microseconds from the start of a process to its end, and KiB.\n\n{HEADS}");
    for case in cases() {
        println!("{}", case.line([&runner, program], plan.time * TIMES)?);
    }
    Ok(())
}

impl Case {
    /// Lets the programs take turns. The second is ours.
    fn line(&self, programs: [&str; 2], time: Duration) -> io::Result<String> {
        let input = Input::new(&self.book)?;
        let due = output(&self.book);
        for program in programs {
            let (printed, _) = input.run(program)?;
            assert!(printed == due.as_bytes(), "{program} prints what is due");
        }
        let mut times: [Vec<f64>; 2] = [Vec::new(), Vec::new()];
        let started = Instant::now();
        while times[0].len() < FEWEST || started.elapsed() < time {
            let first = times[0].len() % 2;
            for side in [first, 1 - first] {
                let (_, time) = input.run(programs[side])?;
                times[side].push(time.as_secs_f64() * 1e6);
            }
        }
        let ratios = times[1]
            .iter()
            .zip(&times[0])
            .map(|(ours, rand)| ours / rand);
        let ratio = with_spread(Middle::of(ratios.collect()));
        let [rand, ours] = times.map(|times| rounded(median(times), 1));
        let memory = programs.map(|program| peak(program, &self.book));
        let [rand_peak, our_peak] = memory.map(|kib| kib.map(grouped));
        let name = self.name;
        let size = grouped(due.len() as u64);
        Ok(format!(
            "| {name} | {size} B | {rand} | {ours} | {ratio} | {} | {} |",
            rand_peak?, our_peak?
        ))
    }
}

/// A book in a file, so that nothing has to be written to a process while its time is taken.
struct Input(PathBuf);

impl Input {
    fn new(book: &[u8]) -> io::Result<Self> {
        let name = format!("gapyndura-bench-{}.book", std::process::id());
        let path = env::temp_dir().join(name);
        fs::write(&path, book)?;
        Ok(Self(path))
    }

    /// What a program prints, and the time that it takes.
    fn run(&self, program: &str) -> io::Result<(Vec<u8>, Duration)> {
        let mut command = Command::new(program);
        command.stdin(File::open(&self.0)?).stdout(Stdio::piped());
        let started = Instant::now();
        let output = command.spawn()?.wait_with_output()?;
        Ok((output.stdout, started.elapsed()))
    }
}

impl Drop for Input {
    fn drop(&mut self) {
        // It may be gone already.
        let _ = fs::remove_file(&self.0);
    }
}

#[cfg(test)]
mod tests {
    use reference::book::{LARGEST, MOST_JOBS, read};

    use super::cases;

    #[test]
    fn the_full_book_is_full_and_every_job_draws() {
        let cases = cases();
        let full = &cases[1].book;
        assert_eq!(full.len(), LARGEST);
        assert_eq!(read(full).map(|jobs| jobs.len()), Ok(MOST_JOBS));
        for case in &cases {
            let jobs = read(&case.book).expect("a good book");
            assert!(jobs.iter().all(|job| job.drawn().is_ok()), "{}", case.name);
        }
    }
}
