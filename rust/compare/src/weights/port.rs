//! The port's calls on a table of weights.

use gapyndura::Xoshiro256PlusPlus;
use gapyndura::weighted_index::WeightedIndex;
use reference::State;
use reference::plain_list::Record;
use reference::sampling::Ended;
use reference::weighing::{Changed, Looked, Made};

/// The port's record.
fn table(record: Record) -> WeightedIndex {
    let Record {
        count,
        total_weight,
    } = record;
    WeightedIndex {
        count,
        total_weight,
    }
}

/// The record of the port's.
fn record(table: WeightedIndex) -> Record {
    let WeightedIndex {
        count,
        total_weight,
    } = table;
    Record {
        count,
        total_weight,
    }
}

/// How the port ends a new table.
pub fn new(weights: &[u32], lent: &mut [u32]) -> Made {
    let made = WeightedIndex::new(weights, lent);
    made.map(record).map_err(|refusal| refusal.number().into())
}

/// How the port ends a change. The record is that of the table afterwards, also where the change is refused.
pub fn update_weights(
    of: &mut Record,
    lent: &mut [u32],
    places: &[u64],
    weights: &[u32],
) -> Changed {
    let mut table = table(*of);
    let changed = table.update_weights(lent, places, weights);
    *of = record(table);
    changed.map_err(|refusal| refusal.number().into())
}

/// How the port ends a lookup.
pub fn weight(of: Record, lent: &[u32], place: u64) -> Looked {
    let looked = table(of).weight(lent, place);
    looked.map_err(|refusal| refusal.number().into())
}

/// How the port ends a pick. The count is the index.
pub fn pick(from: State, of: Record, lent: &[u32], budget: u64) -> Ended {
    let mut rng = Xoshiro256PlusPlus::from_state(from);
    let result = table(of).sample(&mut rng, lent, budget);
    let (number, index, words) = match result {
        Ok(picked) => (0, picked.index, picked.words),
        Err(error) => (error.refusal.number(), 0, error.words),
    };
    Ended {
        number: number.into(),
        count: index.into(),
        words,
        state: rng.state(),
    }
}
