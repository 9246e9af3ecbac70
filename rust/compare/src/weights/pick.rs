//! Picks.

use reference::answer::digest;
use reference::sampling::Ended;
use reference::weighing::Held;
use reference::words::{HALF_DROPPED, giving, rejecting};
use reference::{State, some_state};

use super::faults;
use super::tables;
use super::{Answer, Calls, RAND, Table, random, smaller};
use crate::inputs::{Source, edges, smaller as smaller_numbers, smaller_states};
use crate::kind::Kind;
use crate::slices::Lent;

/// Calls of `WeightedIndex::sample`, each from a generator of its own.
pub struct Pick {
    port: Calls,
}

/// The generator, the table and the budget.
#[derive(Clone, Debug)]
pub struct Input {
    from: State,
    table: Table,
    budget: u64,
}

/// From so many generators every whole table is picked from, with every budget.
const GENERATORS: u64 = 40;

/// From so many it is where half of all words are dropped.
const GENERATORS_WHERE_DROPPED: u64 = 500;

impl Kind for Pick {
    const NAME: &'static str = "WeightedIndex::sample";
    const FAULTS: &'static [&'static str] = &[
        faults::EQUAL_SUM,
        faults::ENTRY_PAST,
        faults::PICK_WORDS,
        faults::PICK_THRESHOLD,
    ];
    const PARTS: usize = 2;
    type Input = Input;
    type Answer = Answer<Ended>;

    fn new(plant: Option<&str>) -> Self {
        Self {
            port: faults::planted(plant),
        }
    }

    fn fixed(mut visit: impl FnMut(Input)) {
        for table in tables::whole() {
            (0..GENERATORS).for_each(|number| budgets(&table, some_state(number), &mut visit));
            at_tests(&table, &mut visit);
        }
        for weights in [
            &[HALF_DROPPED][..],
            &[1, 0, HALF_DROPPED - 1],
            &[1 << 30, 0, 1 << 30, 2],
        ] {
            let table = Table::of(weights);
            let generators = 0..GENERATORS_WHERE_DROPPED;
            generators.for_each(|number| budgets(&table, some_state(number), &mut visit));
        }
        for word in edges() {
            for from in [[word, 1, 2, 3], [0, 0, word, 1], [1, 0, 0, word]] {
                budgets(&Table::of(&[1, 0, 1 << 31]), from, &mut visit);
            }
        }
        refusals(&mut visit);
    }

    fn random(source: &mut Source) -> Input {
        let table = random::table(source);
        let from = match source.below(4) {
            0 => at_test(&table, source),
            _ => source.state_or_zero(),
        };
        Input {
            from,
            table,
            budget: random::budget(source),
        }
    }

    fn smaller(input: &Input) -> Vec<Input> {
        let Input {
            from,
            table,
            budget,
        } = input;
        let with = |from: State, table: &Table, budget| Input {
            from,
            table: table.clone(),
            budget,
        };
        let tables = smaller::tables(table);
        let tables = tables.iter().map(|less| with(*from, less, *budget));
        let budgets = smaller_numbers(*budget).map(|less| with(*from, table, less));
        let states = smaller_states(*from).map(|less| with(less, table, *budget));
        tables.chain(budgets).chain(states).collect()
    }

    fn rand(input: &Input) -> Answer<Ended> {
        answer(&RAND, input)
    }

    fn port(&self, input: &Input) -> Answer<Ended> {
        answer(&self.port, input)
    }
}

fn answer(calls: &Calls, input: &Input) -> Answer<Ended> {
    let Input {
        from,
        table,
        budget,
    } = input;
    let lent = Lent::of(&table.sums);
    Answer::new(lent, |sums| {
        (calls.pick)(*from, table.record, sums, *budget)
    })
}

/// A pick from a whole table with every budget from 0 to more than it needs.
fn budgets(table: &Table, from: State, visit: &mut impl FnMut(Input)) {
    let held = Held::of_table(table.record, &table.sums).expect("a whole table");
    let needed = held.pick(from, u64::MAX).words;
    for budget in (0..=needed + 2).chain([u64::MAX]) {
        let table = table.clone();
        visit(Input {
            from,
            table,
            budget,
        });
    }
}

/// Picks from a whole table whose first two words are on one side or the other of the draw's test.
fn at_tests(table: &Table, visit: &mut impl FnMut(Input)) {
    for (salt, (a, b)) in (1..).zip(rejecting(table.record.total_weight)) {
        budgets(table, giving(a, b, salt), visit);
    }
}

/// A generator whose first two words are so, for a table that may be broken.
fn at_test(table: &Table, source: &mut Source) -> State {
    let pairs = rejecting(table.record.total_weight.max(1));
    let (a, b) = source.one_of(&pairs);
    giving(a, b, digest(&[&table.sums]) | 1)
}

/// No generator, a count that is too large, a broken table, and no budget: each alone, and each with all others.
fn refusals(visit: &mut impl FnMut(Input)) {
    for table in tables::all() {
        for from in [some_state(1), [0; 4]] {
            for budget in [0, 1, u64::MAX] {
                let table = table.clone();
                visit(Input {
                    from,
                    table,
                    budget,
                });
            }
        }
    }
}
