//! Faults that can be put into the port's calls on a table, so that a comparison is seen to fail.

use reference::State;
use reference::draws::{BUDGET_EXHAUSTED, one_too_low, rejecting, within};
use reference::plain_list::{
    OVERFLOW, PLACE_OUT_OF_RANGE, PLACES_NOT_INCREASING, PlainList, Record,
};
use reference::sampling::Ended;
use reference::weighing::{Changed, Looked, Made};
use reference::{from_state, state};

use super::{Calls, PORT, port};

/// A sum equal to the drawn number picks its own item.
pub const EQUAL_SUM: &str = "equal-sum";

/// A pick that searches one entry more than there are sums, where it is lent.
pub const ENTRY_PAST: &str = "entry-past";

/// The last sum, which is the total, is written behind the others where an entry is lent for it.
pub const LAST_SUM: &str = "last-sum";

/// A change that adds the new weights and does not drop the old.
pub const OLD_WEIGHT: &str = "old-weight";

/// A change that is refused at an item, with the items before it written.
pub const REFUSAL_WRITES: &str = "refusal-writes";

/// A pick that dropped a word, with a figure of one word less.
pub const PICK_WORDS: &str = "pick-words";

/// A pick whose draw has a threshold that is one too low.
pub const PICK_THRESHOLD: &str = "pick-threshold";

/// A place out of range at any item, told before one out of order.
pub const PLACES_ORDER: &str = "places-order";

/// A change that is refused with 3 where its total passes 2^32 - 1 on the way, though it may come back.
pub const TOTAL_AT_ITEM: &str = "total-at-item";

/// A change whose total is compared modulo 2^32: it is taken where all of it is above 2^32 - 1 and something is left.
pub const TOTAL_MODULO: &str = "total-modulo";

/// A change of which 3 is told before 5 or 6, where the items before that place are too much.
pub const OVERFLOW_ORDER: &str = "overflow-order";

/// A lookup that answers the sum of all weights up to the place.
pub const WEIGHT_SUM: &str = "weight-sum";

/// A lookup that answers a weight of 0 beyond the last place.
pub const WEIGHT_BEYOND: &str = "weight-beyond";

/// The port's calls with this fault in them, or as they are where the name is none of these.
pub fn planted(plant: Option<&str>) -> Calls {
    let mut calls = PORT;
    match plant {
        Some(EQUAL_SUM) => calls.pick = equal_sum,
        Some(ENTRY_PAST) => calls.pick = entry_past,
        Some(PICK_WORDS) => calls.pick = pick_words,
        Some(PICK_THRESHOLD) => calls.pick = pick_threshold,
        Some(LAST_SUM) => calls.new = last_sum,
        Some(OLD_WEIGHT) => calls.update_weights = old_weight,
        Some(REFUSAL_WRITES) => calls.update_weights = refusal_writes,
        Some(PLACES_ORDER) => calls.update_weights = places_order,
        Some(TOTAL_AT_ITEM) => calls.update_weights = total_at_item,
        Some(TOTAL_MODULO) => calls.update_weights = total_modulo,
        Some(OVERFLOW_ORDER) => calls.update_weights = overflow_order,
        Some(WEIGHT_SUM) => calls.weight = weight_sum,
        Some(WEIGHT_BEYOND) => calls.weight = weight_beyond,
        _ => {}
    }
    calls
}

/// Fault [`EQUAL_SUM`].
fn equal_sum(from: State, table: Record, lent: &[u32], budget: u64) -> Ended {
    let mut ended = port::pick(from, table, lent, budget);
    if ended.number == 0 {
        let c = rejecting(&mut from_state(from), table.total_weight).value;
        let sums = &lent[..table.count as usize - 1];
        ended.count = sums.partition_point(|&sum| sum < c) as u64;
    }
    ended
}

/// Fault [`ENTRY_PAST`].
fn entry_past(from: State, table: Record, lent: &[u32], budget: u64) -> Ended {
    let mut ended = port::pick(from, table, lent, budget);
    if ended.number == 0 && ended.count == table.count - 1 {
        let c = rejecting(&mut from_state(from), table.total_weight).value;
        let past = lent.get(table.count as usize - 1);
        ended.count += u64::from(past.is_some_and(|&entry| entry <= c));
    }
    ended
}

/// Fault [`PICK_WORDS`].
fn pick_words(from: State, table: Record, lent: &[u32], budget: u64) -> Ended {
    let mut ended = port::pick(from, table, lent, budget);
    ended.words -= u64::from(ended.number == 0 && ended.words > 1);
    ended
}

/// Fault [`PICK_THRESHOLD`].
fn pick_threshold(from: State, table: Record, lent: &[u32], budget: u64) -> Ended {
    let ended = port::pick(from, table, lent, budget);
    if ![0, BUDGET_EXHAUSTED].contains(&ended.number) {
        return ended;
    }
    let mut rng = from_state(from);
    let draw = |rng: &mut _| one_too_low(rng, table.total_weight);
    let [number, c, words] = within(&mut rng, budget, draw);
    let sums = &lent[..table.count as usize - 1];
    let index = sums.partition_point(|&sum| u64::from(sum) <= c) as u64;
    Ended {
        number,
        count: if number == 0 { index } else { 0 },
        words,
        state: state(&rng),
    }
}

/// Fault [`LAST_SUM`].
fn last_sum(weights: &[u32], lent: &mut [u32]) -> Made {
    let table = port::new(weights, lent)?;
    if let Some(entry) = lent.get_mut(weights.len() - 1) {
        *entry = table.total_weight;
    }
    Ok(table)
}

/// Fault [`OLD_WEIGHT`].
fn old_weight(table: &mut Record, lent: &mut [u32], places: &[u64], weights: &[u32]) -> Changed {
    let before = table.total_weight;
    port::update_weights(table, lent, places, weights)?;
    let sum = |total: u32, weight: &u32| total.wrapping_add(*weight);
    table.total_weight = weights.iter().fold(before, sum);
    Ok(())
}

/// Fault [`REFUSAL_WRITES`].
fn refusal_writes(
    table: &mut Record,
    lent: &mut [u32],
    places: &[u64],
    weights: &[u32],
) -> Changed {
    let ended = port::update_weights(table, lent, places, weights);
    if ended.is_err() && places.len() == weights.len() {
        let mut fewer = (1..places.len()).rev();
        fewer.find(|&items| {
            let mut left_alone = *table;
            port::update_weights(&mut left_alone, lent, &places[..items], &weights[..items]).is_ok()
        });
    }
    ended
}

/// Fault [`PLACES_ORDER`].
fn places_order(table: &mut Record, lent: &mut [u32], places: &[u64], weights: &[u32]) -> Changed {
    let ended = port::update_weights(table, lent, places, weights);
    let is_out_of_range = |place: &u64| *place >= table.count;
    match ended {
        Err(PLACES_NOT_INCREASING) if places.iter().any(is_out_of_range) => Err(PLACE_OUT_OF_RANGE),
        other => other,
    }
}

/// Whether the total of a change that has come to its items passes 2^32 - 1 at one of them.
fn passes(table: Record, lent: &[u32], places: &[u64], weights: &[u32]) -> bool {
    places.len() == weights.len()
        && PlainList::of_table(table, lent).is_ok_and(|list| list.passes(places, weights))
}

/// Fault [`TOTAL_AT_ITEM`].
fn total_at_item(table: &mut Record, lent: &mut [u32], places: &[u64], weights: &[u32]) -> Changed {
    if passes(*table, lent, places, weights) {
        return Err(OVERFLOW);
    }
    port::update_weights(table, lent, places, weights)
}

/// Fault [`TOTAL_MODULO`].
fn total_modulo(table: &mut Record, lent: &mut [u32], places: &[u64], weights: &[u32]) -> Changed {
    let ended = port::update_weights(table, lent, places, weights);
    let Ok(list) = PlainList::of_table(*table, lent) else {
        return ended;
    };
    let mut changed = list.weights().to_vec();
    for (&place, &weight) in places.iter().zip(weights) {
        if let Some(entry) = changed.get_mut(place as usize) {
            *entry = weight;
        }
    }
    let total = changed.iter().copied().fold(0, u32::wrapping_add);
    if ended != Err(OVERFLOW) || total == 0 {
        return ended;
    }
    let mut sum: u32 = 0;
    for (entry, weight) in lent.iter_mut().zip(&changed[..changed.len() - 1]) {
        sum = sum.wrapping_add(*weight);
        *entry = sum;
    }
    table.total_weight = total;
    Ok(())
}

/// Fault [`OVERFLOW_ORDER`].
fn overflow_order(
    table: &mut Record,
    lent: &mut [u32],
    places: &[u64],
    weights: &[u32],
) -> Changed {
    let is_passing = passes(*table, lent, places, weights);
    match port::update_weights(table, lent, places, weights) {
        Err(PLACES_NOT_INCREASING | PLACE_OUT_OF_RANGE) if is_passing => Err(OVERFLOW),
        other => other,
    }
}

/// Fault [`WEIGHT_SUM`].
fn weight_sum(table: Record, lent: &[u32], place: u64) -> Looked {
    let weight = port::weight(table, lent, place)?;
    Ok(weight.map(|_| match place + 1 < table.count {
        true => lent[place as usize],
        false => table.total_weight,
    }))
}

/// Fault [`WEIGHT_BEYOND`].
fn weight_beyond(table: Record, lent: &[u32], place: u64) -> Looked {
    let weight = port::weight(table, lent, place)?;
    Ok(weight.or(Some(0)))
}
