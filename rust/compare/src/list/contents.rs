//! What the list holds.

use reference::answer::Answer;
use reference::call::Call;
use reference::draw_line::Bounded;
use reference::generator::Generator;
use reference::line::{Line, Name};
use reference::sampling::Sampling;
use reference::states::{LONG_DRAWS, at_last_draw, giving_three};
use reference::words::{bounded, giving, reading, rejecting};
use reference::{State, some_state};

use crate::{choices, run, samples, shuffles, stratified, views, weights, wrong};

/// The bounds that are drawn below: the least, powers of two, their neighbours, and the largest.
const BOUNDS: [u32; 8] = [1, 2, 3, 6, 1 << 31, (1 << 31) + 1, u32::MAX - 1, u32::MAX];

/// Of each draw that reads three or more words, so many rows of words are tried.
const ROWS: usize = 3;

/// Random draws for each bound, one after another.
const DRAWS: u64 = 14;

/// Budgets that end a bounded draw before its first word, behind each of three, and never.
const BOUNDED_BUDGETS: [u64; 5] = [0, 1, 2, 3, u64::MAX];

/// Budgets that end a rejecting draw after one word, after two, after three, and never.
const REJECTING_BUDGETS: [u64; 4] = [1, 2, 3, u64::MAX];

/// The outputs that the authors of xoshiro256++ give for the state 1, 2, 3, 4.
const PUBLISHED: [u64; 10] = [
    41943041,
    58720359,
    3588806011781223,
    3591011842654386,
    9228616714210784205,
    9973669472204895162,
    14011001112246962877,
    12406186145184390807,
    15849039046786891736,
    10450023813501588000,
];

/// Lines that belong together.
pub struct Section {
    /// What they are, for the comment before them.
    pub title: String,
    pub lines: Vec<String>,
}

impl Section {
    /// The lines of these calls under a title.
    pub fn new(title: impl Into<String>, calls: Vec<Call>) -> Self {
        let lines = calls.iter().map(|call| call.line().to_string());
        Self::of_lines(title, lines.collect())
    }

    /// These lines under a title.
    pub fn of_lines(title: impl Into<String>, lines: Vec<String>) -> Self {
        let title = title.into();
        Self { title, lines }
    }
}

/// The whole list.
pub fn sections() -> Vec<Section> {
    let mut sections = vec![
        published(),
        seeds(),
        seed_bytes(),
        steps(),
        marked(),
        zeros(),
    ];
    for r in BOUNDS {
        sections.push(random(r));
        sections.push(chosen_bounded(r));
        sections.push(chosen_rejecting(r));
    }
    sections.extend(samples::sections());
    sections.extend(shuffles::sections());
    sections.extend(weights::sections());
    sections.extend(choices::sections());
    sections.extend(views::sections());
    sections.extend(stratified::sections());
    sections.push(run::section());
    sections.extend(wrong::sections());
    sections
}

/// Calls one after another, each from the generator that the answer to the one before has.
pub fn chained(from: State, calls: impl IntoIterator<Item = impl Fn(State) -> Call>) -> Vec<Call> {
    let mut from = from;
    let calls = calls.into_iter().map(|make| {
        let call = make(from);
        from = call.answer().state;
        call
    });
    calls.collect()
}

/// The same draw in a call: Floyd's sample of one.
fn floyd_of_one(from: State, r: u32, budget: u64) -> Call {
    Call::Sample(Sampling {
        from,
        length: r.into(),
        amount: 1,
        budget,
        indices_len: 1,
        scratch_len: 0,
    })
}

fn random_range(from: State, r: u32, budget: u64) -> Call {
    Call::RandomRange(Bounded { from, r, budget })
}

fn uniform_int(from: State, r: u32, budget: u64) -> Call {
    Call::UniformInt(Bounded { from, r, budget })
}

fn published() -> Section {
    let calls = chained([1, 2, 3, 4], PUBLISHED.map(|_| Call::NextU64));
    for (call, output) in calls.iter().zip(PUBLISHED) {
        let halves = [(output >> 32) as u32, output as u32];
        assert_eq!(call.answer().values, halves);
    }
    Section::new(
        "The authors' published outputs from the state 1, 2, 3, 4",
        calls,
    )
}

/// Lines that ask for these generators and nothing else.
fn generators(title: &str, generators: impl IntoIterator<Item = Generator>) -> Section {
    let lines = generators.into_iter().map(|generator| {
        let line = Line {
            name: Name::Seed,
            generator,
            numbers: Vec::new(),
        };
        line.to_string()
    });
    Section::of_lines(title, lines.collect())
}

fn seeds() -> Section {
    let mut seeds: Vec<u64> = (0..=16).chain([12345, u64::MAX - 1, u64::MAX]).collect();
    for exponent in [8, 16, 31, 32, 33, 48, 62, 63] {
        seeds.extend([(1 << exponent) - 1, 1 << exponent, (1 << exponent) + 1]);
    }
    // Seeds around those at which each of SplitMix64's four sums passes 2^64 or comes to 0.
    const PHI: u64 = 0x9e37_79b9_7f4a_7c15;
    for sums in 1..=4 {
        let zero = PHI.wrapping_mul(sums).wrapping_neg();
        seeds.extend([zero.wrapping_sub(1), zero, zero.wrapping_add(1)]);
    }
    generators(
        "Generators from one number",
        seeds.into_iter().map(Generator::Number),
    )
}

/// Bytes, all of them, and in either case.
fn seed_bytes() -> Section {
    let mut seeds = vec![[0; 32], [1; 32], [127; 32], [128; 32], [255; 32]];
    for byte in [1, 128, 255] {
        for place in 0..32 {
            let mut seed = [0; 32];
            seed[place] = byte;
            seeds.push(seed);
        }
    }
    seeds.push(std::array::from_fn(|place| place as u8));
    seeds.push(std::array::from_fn(|place| 255 - place as u8));
    let mut section = generators(
        "Generators from 32 bytes, and the one that no seed gives",
        seeds.into_iter().map(Generator::Bytes),
    );
    section.lines.extend([
        format!("seed {}", "AB".repeat(32)),
        format!("seed {}", "aBCdEf01".repeat(8)),
        format!("seed {}", "12345678".repeat(8)),
        "seed zero".to_owned(),
    ]);
    section
}

fn steps() -> Section {
    let mut states = vec![[1, 2, 3, 4], [u64::MAX; 4], [1 << 63; 4]];
    for place in 0..4 {
        for word in [1, 1 << 63, u64::MAX] {
            let mut state = [0; 4];
            state[place] = word;
            states.push(state);
        }
    }
    states.extend((0..10).map(some_state));
    states.extend([giving(0, u32::MAX, 1), giving(u32::MAX, 0, 1)]);
    let calls = states.into_iter().flat_map(|from| {
        let outputs = chained(from, [Call::NextU64; 4]);
        [outputs, chained(from, [Call::NextU32; 3])].concat()
    });
    Section::new(
        "Outputs, and words, which are their upper halves",
        calls.collect(),
    )
}

/// The draws of SCOPE 18, each held to what it says. Those of shuffles and of weights are with these.
fn marked() -> Section {
    // The words, the value, and how many words are read.
    let drawn = [
        ([2147483648, 0, 0], 3, 1),
        ([4294967295, 0, 0], 5, 1),
        ([715827882, 2863311531, 0], 1, 2),
        ([715827882, 2863311530, 0], 0, 3),
        ([715827882, 2863311530, 2863311529], 0, 3),
        ([715827882, 2863311530, 2863311531], 1, 3),
    ];
    let mut calls = Vec::new();
    for (row, value, words) in drawn {
        let from = giving_three(row, 1);
        for call in [random_range, floyd_of_one] {
            calls.push(held(call(from, 6, words), &[value], words));
            calls.push(call(from, 6, words - 1));
        }
    }
    calls.extend(long_draws());
    calls.push(held(uniform_int(giving(0, 1, 1), 6, 2), &[0], 2));
    // Draws 1 and 1 below 2 and below 3, and draws 0 and 0.
    for (word, indices) in [(1 << 31, [2, 1]), (0, [2, 0])] {
        let call = Call::Sample(Sampling {
            from: giving(word, word, 1),
            length: 3,
            amount: 2,
            budget: 2,
            indices_len: 2,
            scratch_len: 0,
        });
        calls.push(held(call, &indices, 2));
    }
    Section::new("The draws and the samples of SCOPE 18", calls)
}

/// Draws below 6 that read four words and five, with every budget. The fourth settles the value but for one word.
fn long_draws() -> Vec<Call> {
    let mut calls = Vec::new();
    for (from, value, words) in LONG_DRAWS {
        for call in [random_range, floyd_of_one] {
            calls.push(held(call(from, 6, words), &[value], words));
            calls.extend((0..words).map(|budget| call(from, 6, budget)));
        }
    }
    calls
}

/// Calls of which the first, a middle and the last of the bounded draws below these numbers reads three or more words, where it has such
/// words: with a budget for each of its words and with enough. `make` is given the generator and the budget.
pub fn at_draws(bounds: &[u32], make: impl Fn(State, u64) -> Call) -> Vec<Call> {
    let mut places = vec![0, bounds.len() / 2, bounds.len() - 1];
    places.dedup();
    let mut calls = Vec::new();
    for place in places {
        let rows = reading(bounds[place], 3);
        for (row, salt) in rows.into_iter().step_by(2).take(ROWS).zip(1..) {
            let from = at_last_draw(&bounds[..=place], row, some_state(salt)[0]);
            let before = place as u64;
            let budgets = (before..before + 5).chain([u64::MAX]);
            calls.extend(budgets.map(|budget| make(from, budget)));
        }
    }
    calls
}

/// A call that is answered so.
pub fn held(call: Call, values: &[u32], words: u64) -> Call {
    let Answer {
        number,
        words: read,
        values: drawn,
        ..
    } = call.answer();
    assert_eq!((number, read, &drawn[..]), (0, words, values), "{call:?}");
    call
}

/// Four zeros, in the lines that take them and in the one of a lent word, which does not.
fn zeros() -> Section {
    let zero = [0; 4];
    let mut calls = vec![Call::NextU64(zero), Call::NextU32(zero)];
    for r in BOUNDS {
        for budget in [0, 1, 5] {
            calls.push(random_range(zero, r, budget));
            calls.push(uniform_int(zero, r, budget));
        }
    }
    Section::new("Outputs and draws of four zeros", calls)
}

/// Draws of each kind from one generator, with budgets that take turns.
fn random(r: u32) -> Section {
    let draws = (0..DRAWS).map(|number| {
        let budget = [u64::MAX, 2, 1, 1000, 0, 3, 4][number as usize % 7];
        move |from| match number % 3 {
            0 => random_range(from, r, budget),
            1 => uniform_int(from, r, budget),
            _ => floyd_of_one(from, r, budget),
        }
    });
    Section::new(
        format!("Draws below {r}, one after another"),
        chained(some_state(r.into()), draws),
    )
}

fn chosen_bounded(r: u32) -> Section {
    let rows = bounded(r).into_iter().zip(1..);
    let calls = rows.flat_map(|(row, salt)| {
        let from = giving_three(row, some_state(salt)[0]);
        let within = BOUNDED_BUDGETS.map(|budget| random_range(from, r, budget));
        [&within[..], &[floyd_of_one(from, r, u64::MAX)]].concat()
    });
    Section::new(
        format!(
            "Bounded draws below {r} at the tests of the second, the third and the fourth word"
        ),
        calls.collect(),
    )
}

fn chosen_rejecting(r: u32) -> Section {
    let pairs = rejecting(r).into_iter().zip(1..);
    let calls = pairs.flat_map(|((a, b), salt)| {
        let from = giving(a, b, some_state(salt)[0]);
        REJECTING_BUDGETS.map(|budget| uniform_int(from, r, budget))
    });
    Section::new(
        format!("Rejecting draws below {r} at the threshold"),
        calls.collect(),
    )
}
