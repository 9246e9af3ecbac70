//! The tables of weights of the list.

use reference::answer::digest;
use reference::call::Call;
use reference::weights_line::{Changed, Looking, Picking};
use reference::words::{giving, rejecting};
use reference::{State, some_state};

use crate::contents::{Section, held};

/// A budget that no pick of the list uses up.
const ENOUGH: u64 = 1000;

/// Weights of whole tables: one weight, zeros at either end and in the middle, equal ones, and totals at powers of two and at the most.
const TABLES: [&[u32]; 14] = [
    &[1],
    &[u32::MAX],
    &[0, 1],
    &[1, 0],
    &[2, 0, 3],
    &[0, 0, 0, 7, 0, 0],
    &[5, 5, 5, 5, 5],
    &[1 << 30, 1 << 30],
    &[1 << 31, 1],
    &[1, 1 << 31, 0],
    &[1, 0, u32::MAX - 1],
    &[1 << 16, 0, 1 << 16, 1 << 20],
    &[1, 2, 3, 4, 5, 6, 7, 8, 9, 10],
    &[0, 1, 0, 1, 0, 1, 0, 1, 0, 1, 0],
];

/// Changes of the weights 5, 0, 4, 1, 0 with their two lists: accepted ones, and at each refusal alone and before or behind another.
const CHANGES: [(&[u64], &[u32]); 24] = [
    (&[], &[]),
    (&[0], &[0]),
    (&[1, 4], &[7, 2]),
    (&[0, 1, 2, 3, 4], &[0, 0, 0, 0, 1]),
    (&[0, 1, 2, 3, 4], &[9, 8, 7, 6, 5]),
    (&[4], &[u32::MAX - 10]),
    (&[0, 4], &[0, u32::MAX - 5]),
    // 8
    (&[0], &[]),
    (&[], &[3]),
    (&[9, 9], &[3]),
    // 5; then with 6 behind it and before it
    (&[1, 1], &[2, 2]),
    (&[3, 1, 5], &[2, 2, 2]),
    (&[3, 5, 1], &[2, 2, 2]),
    // 6
    (&[5], &[2]),
    (&[u64::MAX], &[0]),
    // 3, for a total that is one too much, and for one that modulo 2^32 is not
    (&[4], &[u32::MAX - 9]),
    (&[0, 2], &[u32::MAX, 0]),
    (&[0, 1], &[u32::MAX, u32::MAX]),
    // a total that passes 2^32 - 1 and comes back, and one at which a later place is refused with 5 or 6
    (&[0, 2, 3], &[u32::MAX, 0, 0]),
    (&[0, 1, 2], &[7, u32::MAX - 8, 0]),
    (&[0, 0], &[u32::MAX, 0]),
    (&[0, 5], &[u32::MAX, 0]),
    // 4
    (&[0, 2, 3], &[0, 0, 0]),
    (&[0, 1, 2, 3, 4], &[0, 0, 0, 0, 0]),
];

/// All tables of the list.
pub fn sections() -> Vec<Section> {
    vec![
        marked(),
        tables(),
        changes(),
        refusals(),
        orders(),
        picks(),
        budgets(),
    ]
}

/// A table with just enough entries for its sums and no change.
fn table(weights: &[u32]) -> Changed {
    Changed {
        sums_len: weights.len().saturating_sub(1),
        places: Vec::new(),
        changes: Vec::new(),
        weights: weights.to_vec(),
    }
}

/// The weights 5, 0, 4, 1, 0 with a change.
fn changed(places: &[u64], changes: &[u32]) -> Changed {
    Changed {
        places: places.to_vec(),
        changes: changes.to_vec(),
        ..table(&[5, 0, 4, 1, 0])
    }
}

/// One pick with a budget that is enough.
fn pick(from: State, table: Changed) -> Call {
    Call::Pick(Picking {
        from,
        picks: 1,
        budget: ENOUGH,
        table,
    })
}

/// A lookup. It reads no word, so that any generator is as good.
fn weight(place: u64, table: Changed) -> Call {
    let from = [0; 4];
    Call::Weight(Looking { from, place, table })
}

/// The table of SCOPE 18: c = 1 picks 0 and c = 2 picks 2; place 1 changed to 4 makes the sums 2 and 6 and the total 9.
fn marked() -> Section {
    let weights = [2, 0, 3];
    let mut calls = [(1 << 30, 0), (1 << 31, 2)]
        .map(|(word, index)| held(pick(giving(word, 0, 1), table(&weights)), &[index], 1))
        .to_vec();
    let change = Changed {
        places: vec![1],
        changes: vec![4],
        ..table(&weights)
    };
    let looked = held(weight(1, change.clone()), &[4], 0);
    assert_eq!(looked.answer().digest, digest(&[&[2, 6]]));
    calls.push(looked);
    // The word 2^32 - 1 gives 8 of 9, the last of the third weight; 2^31 gives 4, in the second.
    for (word, index) in [(u32::MAX, 2), (1 << 31, 1)] {
        let from = giving(word, 0, 1);
        calls.push(held(pick(from, change.clone()), &[index], 1));
    }
    Section::new("The table of 2, 0, 3 of SCOPE 18", calls)
}

/// Whole tables with entries past the sums and without, each picked from, and each place and the one behind the last looked up.
fn tables() -> Section {
    let mut calls = Vec::new();
    for (number, weights) in (300..).zip(TABLES) {
        for more in [0, 3] {
            let mut table = table(weights);
            table.sums_len += more;
            calls.push(pick(some_state(number), table.clone()));
            let place = (number + more as u64) % (weights.len() as u64 + 1);
            calls.push(weight(place, table));
        }
    }
    let all = [5, 0, 4, 1, 0];
    let places = [0, 1, 2, 3, 4, 5, 6, 1 << 32, u64::MAX];
    calls.extend(places.map(|place| weight(place, table(&all))));
    Section::new("Tables of weights", calls)
}

fn changes() -> Section {
    let calls = (400..)
        .zip(CHANGES)
        .flat_map(|(number, (places, changes))| {
            let table = changed(places, changes);
            let picked = pick(some_state(number), table.clone());
            [picked, weight(number % 6, table)]
        });
    Section::new("Changes of a table, accepted and refused", calls.collect())
}

/// New tables that are refused, so that nothing else is done; and no generator.
fn refusals() -> Section {
    let none: [(&[u32], usize); 8] = [
        (&[], 0),
        (&[], 3),
        (&[0, 0], 0),
        (&[0, 0], 1),
        (&[0], 0),
        (&[u32::MAX, 1], 0),
        (&[u32::MAX, 1], 1),
        (&[1, 2, 3], 1),
    ];
    let mut calls = Vec::new();
    for (weights, sums_len) in none {
        let table = Changed {
            sums_len,
            ..table(weights)
        };
        for from in [some_state(500), [0; 4]] {
            calls.push(pick(from, table.clone()));
        }
        calls.push(weight(0, table));
    }
    calls.push(pick([0; 4], table(&[2, 0, 3])));
    Section::new("New tables that are refused, and no generator", calls)
}

/// A change that makes a line be refused.
type Cause = fn(&mut Picking);

/// What makes a line be refused, in the order in which it is told: a new table with 2, 8, 3 and 4, a change with 8, 5, 6, 3 and 4, a pick with
/// 12 and 13.
const CAUSES: [(u64, Cause); 11] = [
    (2, |call| call.table.weights = Vec::new()),
    (8, |call| call.table.sums_len = 3),
    (3, |call| call.table.weights = vec![u32::MAX, 1, 0, 0, 0]),
    (4, |call| call.table.weights = vec![0; 5]),
    (8, |call| call.table.places.push(4)),
    (5, |call| with(call, &[1, 1], &[2, 2])),
    (6, |call| with(call, &[5], &[2])),
    (3, |call| with(call, &[4], &[u32::MAX])),
    (4, |call| with(call, &[0, 2, 3], &[0, 0, 0])),
    (12, |call| call.from = [0; 4]),
    (13, |call| call.budget = 0),
];

/// Lists of a change behind those that there are.
fn with(call: &mut Picking, places: &[u64], changes: &[u32]) {
    call.table.places.extend(places);
    call.table.changes.extend(changes);
}

/// Each cause of a refusal alone and each two together, in either order where both are lists of a change.
fn orders() -> Section {
    let mut calls = Vec::new();
    for (number, cause) in CAUSES {
        for (_, other) in CAUSES {
            for causes in [[cause, other], [other, cause]] {
                let mut call = Picking {
                    from: some_state(510),
                    picks: 2,
                    budget: 9,
                    table: changed(&[], &[]),
                };
                causes.iter().for_each(|cause| cause(&mut call));
                let call = Call::Pick(call);
                if !calls.contains(&call) {
                    calls.push(call);
                }
            }
        }
        let told = calls.iter().any(|call| call.answer().number == number);
        assert!(told, "{number}");
    }
    Section::new("Refusals of tables, alone and two together", calls)
}

/// Picks one after another with what is left of the budget: none, some and all of them.
fn picks() -> Section {
    let weights = [1 << 30, 1 << 29, 1, 1 << 30];
    let mut calls = Vec::new();
    for picks in [0, 1, 2, 5, 40] {
        for budget in [0, 1, 2, 3, 5, 40, u64::MAX] {
            let from = some_state(520 + picks as u64);
            let table = table(&weights);
            calls.push(Call::Pick(Picking {
                from,
                picks,
                budget,
                table,
            }));
        }
    }
    Section::new("Picks that share a budget", calls)
}

/// Picks whose first words are next to the draw's test, with every budget to two words.
fn budgets() -> Section {
    let mut calls = Vec::new();
    for total in [6, (1 << 31) + 1] {
        for (a, b) in rejecting(total).into_iter().take(4) {
            for budget in 0..3 {
                calls.push(Call::Pick(Picking {
                    from: giving(a, b, 1),
                    picks: 1,
                    budget,
                    table: table(&[1, 0, total - 1]),
                }));
            }
        }
    }
    Section::new("Picks with few words to read", calls)
}
