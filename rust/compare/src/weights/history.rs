//! Histories: a new table, and changes of it one after another, with picks and lookups between them. Each call is given the record of
//! the last accepted one and the slice as the last one has left it. rand's table is carried through all of them, and so is the plain
//! list of weights.

use reference::plain_list::{PlainList, Record};
use reference::sampling::{Ended, ZERO_STATE};
use reference::weighing::{Changed, Held, Looked};
use reference::{State, some_state};

use super::faults;
use super::new::lists;
use super::{Calls, random, smaller};
use crate::inputs::{Source, smaller_states};
use crate::kind::Kind;
use crate::slices::Lent;

/// Histories of one table.
pub struct History {
    port: Calls,
}

/// A call on the table.
#[derive(Clone, Debug)]
enum Step {
    Change { places: Vec<u64>, weights: Vec<u32> },
    Lookup { place: u64 },
    Pick { budget: u64 },
}

/// The new table's weights, what is in the slice that is lent for the sums, the generator of the first pick, and the calls. Each pick
/// goes on with the generator that the one before has left.
#[derive(Clone, Debug)]
pub struct Input {
    weights: Vec<u32>,
    lent: Vec<u32>,
    from: State,
    steps: Vec<Step>,
}

/// What is seen of a call.
#[derive(Debug, PartialEq)]
enum Seen {
    /// How the change ends, the record afterwards, and the digest of the slice of the sums.
    Change(Changed, Record, u64),
    Lookup(Looked),
    Pick(Ended),
}

/// What is seen of a history: the new table's record or its refusal, every call, and the slice of the sums at the end.
#[derive(Debug, PartialEq)]
pub struct Answer {
    new: Result<Record, u64>,
    steps: Vec<Seen>,
    sums: Lent,
}

/// A table that a history goes through.
trait Table {
    fn record(&self) -> Record;
    fn update_weights(&mut self, lent: &mut [u32], places: &[u64], weights: &[u32]) -> Changed;
    fn weight(&self, lent: &[u32], place: u64) -> Looked;
    fn pick(&self, lent: &[u32], from: State, budget: u64) -> Ended;
}

/// rand's keeps its sums itself: what is lent is only written.
impl Table for Held {
    fn record(&self) -> Record {
        self.record()
    }

    fn update_weights(&mut self, lent: &mut [u32], places: &[u64], weights: &[u32]) -> Changed {
        self.update_weights(places, weights)?;
        self.write_sums(lent);
        Ok(())
    }

    fn weight(&self, _: &[u32], place: u64) -> Looked {
        Ok(self.weight(place))
    }

    fn pick(&self, _: &[u32], from: State, budget: u64) -> Ended {
        if from == [0; 4] {
            return Ended::refused(ZERO_STATE, from);
        }
        self.pick(from, budget)
    }
}

/// The port's: a record, which goes with the lent sums.
struct Ported {
    record: Record,
    calls: Calls,
}

impl Table for Ported {
    fn record(&self) -> Record {
        self.record
    }

    fn update_weights(&mut self, lent: &mut [u32], places: &[u64], weights: &[u32]) -> Changed {
        (self.calls.update_weights)(&mut self.record, lent, places, weights)
    }

    fn weight(&self, lent: &[u32], place: u64) -> Looked {
        (self.calls.weight)(self.record, lent, place)
    }

    fn pick(&self, lent: &[u32], from: State, budget: u64) -> Ended {
        (self.calls.pick)(from, self.record, lent, budget)
    }
}

/// Tables of which short histories are tried without gap.
const SMALL: [&[u32]; 4] = [&[1], &[0, 1], &[2, 0, 3], &[1, u32::MAX - 1, 0]];

/// The changes that they are made of, in every order and again and again, up to three.
const CHANGES: [(&[u64], &[u32]); 10] = [
    (&[], &[]),
    (&[0], &[0]),
    (&[0], &[2]),
    (&[1], &[4]),
    (&[0, 1], &[1, 0]),
    (&[0, 1], &[u32::MAX - 1, 1]),
    (&[1, 2], &[0, u32::MAX - 1]),
    (&[2, 1], &[1, 1]),
    (&[0, 3], &[5, 5]),
    (&[0, 1], &[1]),
];
const LONGEST: usize = 3;

impl Kind for History {
    const NAME: &'static str = "WeightedIndex, histories of changes with lookups and picks";
    const FAULTS: &'static [&'static str] = &[
        faults::EQUAL_SUM,
        faults::ENTRY_PAST,
        faults::LAST_SUM,
        faults::OLD_WEIGHT,
        faults::REFUSAL_WRITES,
        faults::PICK_WORDS,
        faults::PLACES_ORDER,
        faults::TOTAL_AT_ITEM,
        faults::TOTAL_MODULO,
        faults::OVERFLOW_ORDER,
        faults::WEIGHT_SUM,
        faults::WEIGHT_BEYOND,
    ];
    const PARTS: usize = 4;
    type Input = Input;
    type Answer = Answer;

    fn new(plant: Option<&str>) -> Self {
        Self {
            port: faults::planted(plant),
        }
    }

    fn fixed(mut visit: impl FnMut(Input)) {
        for weights in SMALL {
            for (number, changes) in (0..).zip(lists(&CHANGES, LONGEST)) {
                visit(short(weights, number, &changes));
            }
        }
    }

    fn random(source: &mut Source) -> Input {
        let weights = match source.below(4) {
            0 => random::heavy(source),
            _ => random::weights(source),
        };
        let lent_len = match source.below(64) {
            0 => source.below(weights.len() as u32),
            _ => weights.len() as u32 - 1 + source.below(4),
        };
        // Small ones too, or a call that reads an entry past the sums would find it above all that is drawn.
        let lent = (0..lent_len).map(|_| random::weight(source)).collect();
        let changes = 1 + source.below(12);
        let mut steps = Vec::new();
        let mut list = PlainList::new(&weights, lent_len as usize).ok();
        for _ in 0..changes {
            let now = list.as_ref().map_or(&weights[..], PlainList::weights);
            let more = self::steps(now, source);
            if let Step::Change { places, weights } = &more[0] {
                list = list.map(|list| list.changed(places, weights).unwrap_or(list));
            }
            steps.extend(more);
        }
        Input {
            weights,
            lent,
            from: source.state_or_zero(),
            steps,
        }
    }

    fn smaller(input: &Input) -> Vec<Input> {
        let steps = smaller::shorter(&input.steps).into_iter();
        let steps = steps.map(|steps| Input {
            steps,
            ..input.clone()
        });
        let lists = smaller::lists(&input.weights).into_iter();
        let lists = lists.map(|weights| Input {
            weights,
            ..input.clone()
        });
        let states = smaller_states(input.from).map(|from| Input {
            from,
            ..input.clone()
        });
        let slices = smaller::lists(&input.lent).into_iter();
        let slices = slices.map(|lent| Input {
            lent,
            ..input.clone()
        });
        let changes = smaller_changes(input);
        steps
            .chain(lists)
            .chain(slices)
            .chain(changes)
            .chain(states)
            .collect()
    }

    /// The new table, and all that follows where there is one.
    fn calls(input: &Input) -> u64 {
        let is_made = PlainList::new(&input.weights, input.lent.len()).is_ok();
        1 + if is_made { input.steps.len() as u64 } else { 0 }
    }

    fn rand(input: &Input) -> Answer {
        input.play(|weights, lent| {
            let held = Held::new(weights, lent.len())?;
            held.write_sums(lent);
            Ok(held)
        })
    }

    fn port(&self, input: &Input) -> Answer {
        let calls = self.port;
        input.play(|weights, lent| {
            let record = (calls.new)(weights, lent)?;
            Ok(Ported { record, calls })
        })
    }
}

impl Input {
    /// What is seen of the history of the table that `new` makes.
    fn play<T: Table>(&self, new: impl FnOnce(&[u32], &mut [u32]) -> Result<T, u64>) -> Answer {
        let mut sums = Lent::of(&self.lent);
        let mut steps = Vec::new();
        let mut table = new(&self.weights, sums.entries());
        let record = match &table {
            Ok(table) => Ok(table.record()),
            Err(number) => Err(*number),
        };
        if let Ok(table) = &mut table {
            let mut state = self.from;
            steps.extend(
                self.steps
                    .iter()
                    .map(|step| seen(table, &mut sums, &mut state, step)),
            );
        }
        Answer {
            new: record,
            steps,
            sums,
        }
    }
}

/// Makes a call on the table.
fn seen(table: &mut impl Table, sums: &mut Lent, state: &mut State, step: &Step) -> Seen {
    match step {
        Step::Change { places, weights } => {
            let ended = table.update_weights(sums.entries(), places, weights);
            Seen::Change(ended, table.record(), sums.digest())
        }
        Step::Lookup { place } => Seen::Lookup(table.weight(sums.entries(), *place)),
        Step::Pick { budget } => {
            let ended = table.pick(sums.entries(), *state, *budget);
            *state = ended.state;
            Seen::Pick(ended)
        }
    }
}

/// A history of these changes, each followed by a pick and by lookups of every place.
fn short(weights: &[u32], number: u64, changes: &[(&[u64], &[u32])]) -> Input {
    let steps = changes.iter().flat_map(|(places, new)| {
        let change = Step::Change {
            places: places.to_vec(),
            weights: new.to_vec(),
        };
        let lookups = (0..=weights.len() as u64).map(|place| Step::Lookup { place });
        [change, Step::Pick { budget: 50 }]
            .into_iter()
            .chain(lookups)
    });
    Input {
        weights: weights.to_vec(),
        lent: [0, 7, u32::MAX]
            .into_iter()
            .cycle()
            .take(weights.len() + 1)
            .collect(),
        from: some_state(number),
        steps: steps.collect(),
    }
}

/// A random change of these weights, and up to two picks and two lookups after it.
fn steps(weights: &[u32], source: &mut Source) -> Vec<Step> {
    let count = weights.len() as u64;
    let (places, weights) = match source.below(4) {
        0 => random::moved(weights, source),
        _ => random::change(count, source),
    };
    let mut steps = vec![Step::Change { places, weights }];
    for _ in 0..source.below(3) {
        let budget = random::budget(source);
        steps.push(Step::Pick { budget });
    }
    for _ in 0..source.below(3) {
        let place = random::place(count, source);
        steps.push(Step::Lookup { place });
    }
    steps
}

/// The history with a shorter or smaller list in one of its changes.
fn smaller_changes(input: &Input) -> Vec<Input> {
    let mut inputs = Vec::new();
    for (at, step) in input.steps.iter().enumerate() {
        if let Step::Change { places, weights } = step {
            let items = (0..places.len().min(weights.len())).map(|item| {
                let (mut places, mut weights) = (places.clone(), weights.clone());
                places.remove(item);
                weights.remove(item);
                Step::Change { places, weights }
            });
            let lists = smaller::lists(weights)
                .into_iter()
                .map(|weights| Step::Change {
                    places: places.clone(),
                    weights,
                });
            for step in items.chain(lists) {
                let mut less = input.clone();
                less.steps[at] = step;
                inputs.push(less);
            }
        }
    }
    inputs
}

#[cfg(test)]
mod tests {
    use super::{History, Kind, Seen, Source};

    /// A new table is refused with 3, 4 and 8, a change with 3, 4, 5, 6 and 8, a pick with 13; and each is carried out.
    #[test]
    fn random_histories_have_every_answer() {
        let mut source = Source::new(1);
        let (mut new, mut changes, mut picks) = ([0; 14], [0; 14], [0; 14]);
        for _ in 0..5000 {
            let answer = History::rand(&History::random(&mut source));
            new[answer.new.err().unwrap_or(0) as usize] += 1;
            for seen in answer.steps {
                match seen {
                    Seen::Change(ended, ..) => changes[ended.err().unwrap_or(0) as usize] += 1,
                    Seen::Pick(ended) => picks[ended.number as usize] += 1,
                    Seen::Lookup(_) => {}
                }
            }
        }
        let often = |counts: [u32; 14], numbers: &[usize]| {
            assert!(
                numbers.iter().all(|&number| counts[number] > 20),
                "{counts:?}"
            );
        };
        often(new, &[0, 3, 4, 8]);
        often(changes, &[0, 3, 4, 5, 6, 8]);
        often(picks, &[0, 12, 13]);
    }
}
