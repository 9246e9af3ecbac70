//! Every small book: short strings of bytes, one row with every number around those that are right, and jobs with every small number.

use reference::book::{Draw, Job, PICK, SAMPLE, bytes};

use super::layout::{KIND, LENGTH, Layout, OFFSET, contents};

/// The bytes that short strings are made of.
const BYTES: [u8; 4] = [0, 1, 2, 255];

/// Weights that small lists are made of.
const WEIGHTS: [u32; 3] = [0, 1, u32::MAX];

/// All of them.
pub fn books() -> Vec<Vec<u8>> {
    let mut books = strings();
    books.extend(counts());
    books.extend(tails());
    books.extend(rows());
    books.extend(pairs());
    books.extend(jobs().map(|job| Layout::of(&[job]).bytes()));
    books
}

/// Every string of up to four of the bytes.
fn strings() -> Vec<Vec<u8>> {
    let mut all = vec![Vec::new()];
    let mut from = 0;
    for _ in 0..4 {
        let to = all.len();
        for at in from..to {
            let longer = BYTES.map(|byte| [&all[at][..], &[byte]].concat());
            all.extend(longer);
        }
        from = to;
    }
    all
}

/// A count, with as many bytes of zeros behind it as its rows take, or with one less or one more.
fn counts() -> impl Iterator<Item = Vec<u8>> {
    let counts = (0..=66).chain([127, 128, 255, 256, 257, 65_536, 1 << 24, 1 << 31]);
    counts.flat_map(|count: u32| {
        let behind = 12 * count.min(66) as usize;
        [behind.saturating_sub(1), behind, behind + 1].map(|len| {
            let count = bytes(&[count]);
            [&count[..], &vec![0; len]].concat()
        })
    })
}

/// Bytes behind a book without jobs.
fn tails() -> impl Iterator<Item = Vec<u8>> {
    let zeros = (1..=16).map(|len| vec![0; 4 + len]);
    zeros.chain([1, 2, 255].map(|byte| vec![0, 0, 0, 0, byte]))
}

/// A book of one row, with every number that is right or next to it, and bodies of such lengths.
fn rows() -> Vec<Vec<u8>> {
    let lengths = [0, 36, 39, 40, 41, 43, 44, 45, 48];
    let offsets = [0, 15, 16, 17, 60, u32::MAX];
    let mut books = Vec::new();
    for kind in [SAMPLE, PICK] {
        for body in lengths {
            for length in lengths.into_iter().chain([u32::MAX - 3]) {
                books.push([1, kind, 16, length, body]);
            }
            books.extend(offsets.map(|offset| [1, kind, offset, body, body]));
        }
    }
    for kind in [0, 3, 257, 1 << 8, 1 << 16, 1 << 24, 2 << 24, u32::MAX] {
        books.extend(lengths.map(|body| [1, kind, 16, body, body]));
        books.push([1, kind, 0, 0, 44]);
    }
    let books = books.iter();
    books
        .map(|[front @ .., body]| [bytes(front), vec![0; *body as usize]].concat())
        .collect()
}

/// Books of two rows: every two kinds, with right and wrong offsets and ends.
fn pairs() -> Vec<Vec<u8>> {
    let mut jobs = jobs();
    let job = jobs.next().expect("there are jobs");
    let layout = Layout::of(&[job.clone(), job]);
    let start = contents(2) as u32;
    let kinds = [0, SAMPLE, PICK, 3];
    let mut books = Vec::new();
    for (first, second) in kinds.iter().flat_map(|&a| kinds.map(|b| (a, b))) {
        for offsets in [
            [start, start + 44],
            [start + 1, start + 44],
            [start, start + 45],
            [start + 44, start],
            [start, start],
        ] {
            for len in [87, 88, 89] {
                let mut changed = layout.clone();
                changed.rows[0][KIND] = first;
                changed.rows[1][KIND] = second;
                changed.rows[0][OFFSET] = offsets[0];
                changed.rows[1][OFFSET] = offsets[1];
                changed.bodies.resize(len, 0);
                books.push(changed.bytes());
            }
        }
        for length in [40, 48] {
            let mut changed = layout.clone();
            changed.rows[0][KIND] = first;
            changed.rows[1][KIND] = second;
            changed.rows[0][LENGTH] = length;
            books.push(changed.bytes());
        }
    }
    books
}

/// Every job with small numbers.
pub fn jobs() -> impl Iterator<Item = Job> {
    let job = |draw| Job {
        seed: std::array::from_fn(|place| place as u8 + 1),
        draw,
    };
    samples().into_iter().chain(picks()).map(job)
}

fn samples() -> Vec<Draw> {
    let mut draws = Vec::new();
    for (length, amount) in (0..4).flat_map(|length| (0..4).map(move |amount| (length, amount))) {
        draws.extend([0, 1].map(|budget| Draw::Sample {
            length,
            amount,
            budget,
        }));
    }
    draws
}

fn picks() -> Vec<Draw> {
    let one = WEIGHTS.iter().map(|&weight| vec![weight]);
    let two = WEIGHTS.iter().flat_map(|&a| WEIGHTS.map(|b| vec![a, b]));
    let lists: Vec<Vec<u32>> = [vec![]].into_iter().chain(one).chain(two).collect();
    let mut draws = Vec::new();
    for weights in &lists {
        for (picks, budget) in (0..3).flat_map(|picks| (0..3).map(move |budget| (picks, budget))) {
            draws.push(Draw::Pick {
                picks,
                budget,
                weights: weights.clone(),
            });
        }
    }
    draws
}
