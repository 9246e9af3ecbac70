//! The shuffles, the parts and the fills of the list. Few are long, for all their values are in the answer.

use reference::call::Call;
use reference::filling::{self, Filling};
use reference::line::ROOM;
use reference::shuffle_line::Part;
use reference::shuffling::{Shuffling, Whole, bounds, chunk};
use reference::words::giving;
use reference::{State, some_state};

use crate::contents::{Section, at_draws, held};

/// Lengths of whole shuffles: the least, those next to the ends of the first chunks, and long ones.
const LENGTHS: [usize; 15] = [0, 1, 2, 3, 4, 11, 12, 13, 18, 19, 20, 26, 27, 300, 8000];

/// The bytes of a block. The program writes the values of an answer in such blocks.
const BLOCK: usize = 65_536;

/// The bytes that a block must have left for one more value.
const LEAST_LEFT: usize = 21;

/// Lengths of whole shuffles: as many items as one block takes, one more, and as many as three blocks take.
const BLOCKS: [usize; 3] = [12_771, 12_772, 30_000];

/// Lengths at which partial shuffles of every amount to two more are asked for.
const EVERY_AMOUNT: [usize; 5] = [0, 1, 2, 3, 5];

/// The last places at which a chunk has 5, 4 and 3 factors, and one at which it has 2.
const STARTS: [usize; 4] = [81, 253, 1623, 30_000];

/// Items and slots: fewer, as many and more, and none of either.
const FILLS: [(usize, usize); 22] = [
    (0, 0),
    (0, 1),
    (0, 5),
    (1, 0),
    (1, 1),
    (2, 0),
    (2, 1),
    (3, 1),
    (3, 2),
    (3, 3),
    (3, 4),
    (10, 3),
    (20, 20),
    (21, 20),
    (20, 21),
    (100, 0),
    (100, 10),
    (1000, 25),
    (ROOM, 100),
    (ROOM, 0),
    (3000, 2999),
    (500, ROOM),
];

/// Lengths and amounts of shuffles that are asked for with every budget.
const BUDGETED: [(usize, u64); 9] = [
    (0, 0),
    (1, 1),
    (5, 0),
    (3, 3),
    (5, 2),
    (30, 30),
    (40, 12),
    (100, 20),
    (65_537, 3),
];

/// All shuffles and fills of the list.
pub fn sections() -> Vec<Section> {
    vec![
        marked(),
        whole(),
        every_amount(),
        at_chunks(),
        long(),
        of_blocks(),
        budgets(),
        long_draws(),
        parts(),
        fills(),
        fill_budgets(),
        refusals(),
    ]
}

/// A partial shuffle with a budget that suffices.
fn partial_shuffle(from: State, len: usize, amount: u64) -> Call {
    partial_within(from, len, amount, u64::MAX)
}

fn partial_within(from: State, len: usize, amount: u64, budget: u64) -> Call {
    Call::PartialShuffle(Shuffling {
        from,
        len,
        amount,
        budget,
    })
}

/// A shuffle with a budget that suffices.
fn shuffle(from: State, len: usize) -> Call {
    let budget = u64::MAX;
    Call::Shuffle(Whole { from, len, budget })
}

fn fill_within(from: State, items_len: usize, buf_len: usize, budget: u64) -> Call {
    Call::SampleFill(Filling {
        from,
        items_len,
        buf_len,
        budget,
    })
}

/// The shuffle of SCOPE 18, held to what it says, and those of the chunks before and after; and the bounds of the two chunks
/// that it works out, which show in the words: two items from place 65534 on take one word, and two from place 65535 on take two.
fn marked() -> Section {
    // The first words that give the chunks 6, 7 and 8.
    let [before, turned, after] = [54, 63, 72].map(|word| shuffle(giving(word, 0, 1), 3));
    let mut calls = vec![before, held(turned, &[2, 1, 0], 1), after];
    for (len, words) in [(65_536, 1), (65_537, 2)] {
        let call = partial_shuffle(giving(1 << 31, 1 << 30, 1), len, 2);
        assert_eq!(call.answer().words, words, "{call:?}");
        calls.push(call);
    }
    Section::new(
        "Three items shuffled by the chunks 6, 7 and 8, of which 7 is in SCOPE 18. The chunks from 65535 and from 65536 on",
        calls,
    )
}

fn whole() -> Section {
    let numbered = (0..).zip(LENGTHS);
    let calls = numbered.map(|(number, len)| shuffle(some_state(number), len));
    Section::new("Shuffles", calls.collect())
}

/// Partial shuffles of few items with all amounts.
fn every_amount() -> Section {
    let mut calls = Vec::new();
    for len in EVERY_AMOUNT {
        for amount in 0..=len as u64 + 2 {
            calls.push(partial_shuffle(some_state(100 + amount), len, amount));
        }
    }
    Section::new("Partial shuffles of every amount", calls)
}

/// Partial shuffles whose tails start where chunks get fewer factors, and which end next to the end of a chunk.
fn at_chunks() -> Section {
    let mut calls = Vec::new();
    for start in STARTS {
        for n in [start - 1, start, start + 1] {
            let factors = chunk(n as u32 + 1).1 as usize;
            for amount in [factors, factors + 1] {
                let from = some_state((n + amount) as u64);
                calls.push(partial_shuffle(from, n + amount, amount as u64));
            }
        }
    }
    Section::new("Partial shuffles at the edges of chunks", calls)
}

fn long() -> Section {
    let room = ROOM as u64;
    let calls = [0, 1, 2, 100, 2000].map(|amount| {
        let from = some_state(amount);
        partial_shuffle(from, ROOM, amount)
    });
    let more = [room, room + 1, u64::MAX].map(|amount| partial_shuffle([0; 4], ROOM, amount));
    Section::new(
        "Partial shuffles of many items",
        [&calls[..], &more].concat(),
    )
}

/// Shuffles whose answers are longer than a block.
fn of_blocks() -> Section {
    let calls = BLOCKS.map(|len| shuffle(some_state(len as u64), len));
    let [full, more, three] = calls.each_ref().map(values_size);
    assert_eq!(full, BLOCK - LEAST_LEFT + 1);
    assert!(more > full && three > 2 * BLOCK);
    Section::new(
        "Shuffles whose answers are longer than a block",
        calls.to_vec(),
    )
}

/// The bytes of an answer's values, each with the blank before it.
fn values_size(call: &Call) -> usize {
    let values = call.answer().values;
    values.iter().map(|value| format!(" {value}").len()).sum()
}

/// Shuffles with every budget to more than they need: no draw, one, chunks of many indices and of one.
fn budgets() -> Section {
    let mut calls = Vec::new();
    for (number, (len, amount)) in (110..).zip(BUDGETED) {
        let from = some_state(number);
        let needed = partial_shuffle(from, len, amount).answer().words;
        for budget in 0..=needed + 1 {
            calls.push(partial_within(from, len, amount, budget));
            if amount == len as u64 {
                calls.push(Call::Shuffle(Whole { from, len, budget }));
            }
        }
    }
    Section::new("Shuffles within a budget", calls)
}

/// Shuffles of which a draw reads three words and more.
fn long_draws() -> Section {
    let mut calls = Vec::new();
    for (len, amount) in [(5, 3), (20, 20), (65_537, 2)] {
        let of_partial = |from, budget| partial_within(from, len, amount, budget);
        calls.extend(at_draws(&bounds(len, amount), of_partial));
    }
    for len in [3, 20] {
        let of_whole = |from, budget| Call::Shuffle(Whole { from, len, budget });
        calls.extend(at_draws(&bounds(len, len as u64), of_whole));
    }
    for (items_len, buf_len) in [(6, 5), (9, 3), (7, 0)] {
        let of_fill = |from, budget| fill_within(from, items_len, buf_len, budget);
        let bounds = filling::bounds(items_len, buf_len);
        calls.extend(at_draws(&bounds, of_fill));
    }
    let title = "Shuffles and fills of which a draw reads three words and more";
    Section::new(title, calls)
}

/// Fills with every budget to more than they need.
fn fill_budgets() -> Section {
    let mut calls = Vec::new();
    let sizes: [(usize, usize); 5] = [(0, 0), (3, 3), (2, 5), (1, 0), (9, 4)];
    for (number, (items_len, buf_len)) in (230..).zip(sizes) {
        let most = items_len.saturating_sub(buf_len) as u64 + 1;
        let fill = |budget| fill_within(some_state(number), items_len, buf_len, budget);
        calls.extend((0..=most).map(fill));
    }
    Section::new("Fills within a budget", calls)
}

/// Parts at every kind of place: the ends, next to them, in the middle and beyond.
fn parts() -> Section {
    let mut calls = Vec::new();
    for len in [0, 1, 30] {
        let last = len as u64;
        let mut places = vec![0, 1, last / 2, last.saturating_sub(1), last, last + 1];
        places.extend([1 << 32, (1 << 32) + 1, u64::MAX]);
        places.sort_unstable();
        places.dedup();
        for from in [[0; 4], some_state(last)] {
            for &at in &places {
                let part = Part { from, len, at };
                calls.extend([Call::Tail(part.clone()), Call::Head(part)]);
            }
        }
    }
    let from = some_state(3);
    let (len, at) = (ROOM, ROOM as u64 - 5);
    calls.push(Call::Tail(Part { from, len, at }));
    calls.push(Call::Head(Part { from, len, at: 5 }));
    Section::new("Tails and heads at places of every kind", calls)
}

fn fills() -> Section {
    let calls = (200..).zip(FILLS).map(|(number, (items_len, buf_len))| {
        fill_within(some_state(number), items_len, buf_len, u64::MAX)
    });
    Section::new("Fills", calls.collect())
}

/// The generator that is none: nothing is shuffled or filled.
fn refusals() -> Section {
    let from = [0; 4];
    let mut calls = Vec::new();
    for budget in [0, u64::MAX] {
        for (len, amount) in [(0, 0), (3, 2), (30, 0), (30, u64::MAX)] {
            calls.push(partial_within(from, len, amount, budget));
        }
        calls.extend([0, 1, 30].map(|len| Call::Shuffle(Whole { from, len, budget })));
        let sizes = [(0, 0), (3, 0), (30, 4), (4, 30)];
        calls.extend(sizes.map(|(items, slots)| fill_within(from, items, slots, budget)));
    }
    assert!(calls.iter().all(|call| call.answer().number == 12));
    Section::new("Shuffles and fills that are refused", calls)
}
