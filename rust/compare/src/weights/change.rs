//! Changes of a table.

use reference::plain_list::Record;
use reference::weighing::Changed;

use super::faults;
use super::new::lists;
use super::{Answer, Calls, RAND, Table, random, smaller, tables};
use crate::inputs::Source;
use crate::kind::Kind;
use crate::slices::Lent;

/// Calls of `WeightedIndex::update_weights`, each of a table of its own.
pub struct Change {
    port: Calls,
}

/// The table and the two lists.
#[derive(Clone, Debug)]
pub struct Input {
    table: Table,
    places: Vec<u64>,
    weights: Vec<u32>,
}

/// How a change ends, and the record afterwards.
type Ended = (Changed, Record);

/// Tables of which every small change is tried.
const SMALL: [&[u32]; 13] = [
    &[1],
    &[u32::MAX],
    &[0, 1],
    &[1, 1],
    &[0, u32::MAX],
    &[1, u32::MAX - 1],
    &[1 << 31, 1],
    &[2, 0, 3],
    &[0, 0, 1],
    &[u32::MAX - 2, 1, 1],
    &[1, 0, 0, 2],
    &[0, 1, u32::MAX - 1, 0],
    &[1, 1, 1, 1, 1],
];

/// What a small change is made of: lists of up to three of these places, and of up to three of these weights.
const PLACES: [u64; 4] = [0, 1, 2, 3];
const WEIGHTS: [u32; 5] = [0, 1, 2, u32::MAX - 1, u32::MAX];
const LONGEST: usize = 3;

impl Kind for Change {
    const NAME: &'static str = "WeightedIndex::update_weights";
    const FAULTS: &'static [&'static str] = &[
        faults::OLD_WEIGHT,
        faults::REFUSAL_WRITES,
        faults::PLACES_ORDER,
        faults::TOTAL_AT_ITEM,
        faults::TOTAL_MODULO,
        faults::OVERFLOW_ORDER,
    ];
    const PARTS: usize = 2;
    type Input = Input;
    type Answer = Answer<Ended>;

    fn new(plant: Option<&str>) -> Self {
        Self {
            port: faults::planted(plant),
        }
    }

    fn fixed(mut visit: impl FnMut(Input)) {
        small(&mut visit);
        for table in tables::all() {
            refusals(&table, &mut visit);
        }
    }

    fn random(source: &mut Source) -> Input {
        let (table, (places, weights)) = match source.below(4) {
            0 => {
                let heavy = random::heavy(source);
                (Table::of(&heavy), random::moved(&heavy, source))
            }
            _ => {
                let table = random::table(source);
                let count = table.record.count;
                (table, random::change(count, source))
            }
        };
        Input {
            table,
            places,
            weights,
        }
    }

    fn smaller(input: &Input) -> Vec<Input> {
        let Input {
            table,
            places,
            weights,
        } = input;
        let with = |table: &Table, places: &[u64], weights: &[u32]| Input {
            table: table.clone(),
            places: places.to_vec(),
            weights: weights.to_vec(),
        };
        let mut inputs = Vec::new();
        // An item of both lists at once first: that leaves lists of one length.
        for at in 0..places.len().min(weights.len()) {
            let (mut fewer, mut lighter) = (places.clone(), weights.clone());
            fewer.remove(at);
            lighter.remove(at);
            inputs.push(with(table, &fewer, &lighter));
        }
        inputs.extend(
            smaller::tables(table)
                .iter()
                .map(|less| with(less, places, weights)),
        );
        inputs.extend(
            smaller::lists(places)
                .iter()
                .map(|less| with(table, less, weights)),
        );
        inputs.extend(
            smaller::lists(weights)
                .iter()
                .map(|less| with(table, places, less)),
        );
        inputs
    }

    fn rand(input: &Input) -> Answer<Ended> {
        answer(&RAND, input)
    }

    fn port(&self, input: &Input) -> Answer<Ended> {
        answer(&self.port, input)
    }
}

fn answer(calls: &Calls, input: &Input) -> Answer<Ended> {
    let Input {
        table,
        places,
        weights,
    } = input;
    Answer::new(Lent::of(&table.sums), |sums| {
        let mut record = table.record;
        let ended = (calls.update_weights)(&mut record, sums, places, weights);
        (ended, record)
    })
}

/// Every small change of the small tables, the lists being of one length or not. Entries past the sums would not do as sums.
fn small(visit: &mut impl FnMut(Input)) {
    let all_places = lists(&PLACES, LONGEST);
    let all_weights = lists(&WEIGHTS, LONGEST);
    for of in SMALL {
        let table = Table::of(of).followed_by(&[u32::MAX, 0]);
        for places in &all_places {
            for weights in &all_weights {
                visit(Input {
                    table: table.clone(),
                    places: places.clone(),
                    weights: weights.clone(),
                });
            }
        }
    }
}

/// A change of each kind of a table that may be broken: every cause of a refusal alone and with all others, a bit of `causes` for
/// each. The causes that an item has stand in both orders.
fn refusals(table: &Table, visit: &mut impl FnMut(Input)) {
    let count = table.record.count;
    for causes in 0..32 {
        let has = |cause: u32| causes >> cause & 1 == 1;
        let mut items = vec![(0, if has(0) { 0 } else { 1 })];
        if has(1) {
            // Not above the place before.
            items.push((0, 1));
        }
        if has(2) {
            items.push((count, 1));
        }
        if has(3) {
            items.push((count.saturating_sub(1), u32::MAX));
        }
        for turn in 0..items.len() {
            items.rotate_left(turn);
            let (places, mut weights): (Vec<u64>, Vec<u32>) = items.iter().copied().unzip();
            if has(4) {
                weights.push(7);
            }
            visit(Input {
                table: table.clone(),
                places,
                weights,
            });
        }
    }
}

#[cfg(test)]
mod tests {
    use reference::plain_list::PlainList;

    use super::{Change, Input, Kind};
    use crate::inputs::Source;

    /// Totals pass 2^32 - 1 on the way in many random changes, which then end in each way they can: taken, or refused with 3, 5 or 6.
    #[test]
    fn random_changes_pass_the_greatest_total_and_come_back() {
        let mut source = Source::new(1);
        let mut ends = [0; 14];
        for _ in 0..5000 {
            let Input {
                table,
                places,
                weights,
            } = Change::random(&mut source);
            let Ok(list) = PlainList::of_table(table.record, &table.sums) else {
                continue;
            };
            if list.passes(&places, &weights) {
                let changed = list.changed(&places, &weights);
                ends[changed.err().unwrap_or(0) as usize] += 1;
            }
        }
        assert!([0, 3, 5, 6].iter().all(|&end| ends[end] > 50), "{ends:?}");
    }
}
