//! Lookups of a weight.

use reference::weighing::Looked;

use super::{Answer, Calls, RAND, Table, faults, random, smaller, tables};
use crate::inputs::{Source, smaller as smaller_numbers};
use crate::kind::Kind;
use crate::slices::Lent;

/// Calls of `WeightedIndex::weight`.
pub struct Lookup {
    port: Calls,
}

/// The table, and the place that is asked for.
#[derive(Clone, Debug)]
pub struct Input {
    table: Table,
    place: u64,
}

/// Counts of tables of which every place is looked up.
const COUNTS: [usize; 3] = [100, 1000, 2000];

impl Kind for Lookup {
    const NAME: &'static str = "WeightedIndex::weight";
    const FAULTS: &'static [&'static str] = &[faults::WEIGHT_SUM, faults::WEIGHT_BEYOND];
    type Input = Input;
    type Answer = Answer<Looked>;

    fn new(plant: Option<&str>) -> Self {
        Self {
            port: faults::planted(plant),
        }
    }

    fn fixed(mut visit: impl FnMut(Input)) {
        tables::all().for_each(|table| every_place(table, &mut visit));
        let mut source = Source::new(1);
        for count in COUNTS {
            let weights = random::adding_to(u32::MAX.into(), count, &mut source);
            every_place(Table::of(&weights), &mut visit);
        }
    }

    fn random(source: &mut Source) -> Input {
        let table = random::table(source);
        let place = random::place(table.record.count, source);
        Input { table, place }
    }

    fn smaller(input: &Input) -> Vec<Input> {
        let Input { table, place } = input;
        let tables = smaller::tables(table).into_iter().map(|less| Input {
            table: less,
            place: *place,
        });
        let places = smaller_numbers(*place).map(|place| Input {
            table: table.clone(),
            place,
        });
        tables.chain(places).collect()
    }

    fn rand(input: &Input) -> Answer<Looked> {
        answer(&RAND, input)
    }

    fn port(&self, input: &Input) -> Answer<Looked> {
        answer(&self.port, input)
    }
}

fn answer(calls: &Calls, input: &Input) -> Answer<Looked> {
    let Input { table, place } = input;
    let lent = Lent::of(&table.sums);
    Answer::new(lent, |sums| (calls.weight)(table.record, sums, *place))
}

/// Every place of a table for which sums are lent, and places beyond the last.
fn every_place(table: Table, visit: &mut impl FnMut(Input)) {
    let count = table.record.count;
    let beyond = [count, count.saturating_add(1), 1 << 32, u64::MAX];
    let lent = table.sums.len() as u64 + 1;
    for place in (0..count.min(lent)).chain(beyond) {
        let table = table.clone();
        visit(Input { table, place });
    }
}
