//! Tables of as many weights as there may be, and lists of one more, in slices that take memory only where they are written.

use reference::draws::rejecting;
use reference::plain_list::{MOST_WEIGHTS, Record};
use reference::{State, from_state, state};

use super::port::{new, pick, update_weights, weight};
use crate::slices::without_memory;

const FROM: State = [1, 2, 3, 4];

/// The most weights that a list may have.
const MOST: usize = MOST_WEIGHTS as usize;

/// All sums are 0, so that the last place has all weight.
#[test]
fn the_largest_table_is_good_for_all_calls() {
    let sums = without_memory(MOST - 1);
    let mut table = Record {
        count: MOST_WEIGHTS,
        total_weight: 1,
    };
    let last = MOST_WEIGHTS - 1;
    assert_eq!(weight(table, sums, last), Ok(Some(1)));
    assert_eq!(update_weights(&mut table, sums, &[last], &[5]), Ok(()));
    assert_eq!((table.count, table.total_weight), (MOST_WEIGHTS, 5));
    // rand has no table of this size here, but its draw below the total is the same: any number that it gives is the last place's.
    let mut rng = from_state(FROM);
    let drawn = rejecting(&mut rng, table.total_weight);
    let ended = pick(FROM, table, sums, u64::MAX);
    assert_eq!((ended.number, ended.count), (0, last));
    assert_eq!((ended.words, ended.state), (drawn.words, state(&rng)));
    // With a sum less it is broken.
    assert_eq!(weight(table, &sums[1..], last), Err(7));
}

#[test]
fn a_new_table_has_at_most_so_many_weights() {
    let weights = without_memory(MOST + 1);
    let sums = without_memory(MOST);
    assert_eq!(new(weights, sums), Err(10));
    assert_eq!(new(weights, &mut []), Err(10));
    assert_eq!(new(&weights[..MOST], &mut sums[..MOST - 2]), Err(8));
    assert_eq!(new(&weights[..MOST], &mut sums[..MOST - 1]), Err(4));
    (weights[0], weights[MOST - 1]) = (1, u32::MAX);
    assert_eq!(new(weights, sums), Err(10));
    assert_eq!(new(&weights[..MOST], sums), Err(3));
    assert_eq!((sums[0], sums[MOST - 1]), (0, 0));
}

#[test]
fn a_change_has_at_most_so_many_weights() {
    let weights: &[u32] = without_memory(MOST + 1);
    let places: &[u64] = without_memory(MOST + 1);
    let whole = Record {
        count: 2,
        total_weight: 5,
    };
    let change = |table: Record, places, weights| {
        let (mut after, mut sums) = (table, [2, 9]);
        let changed = update_weights(&mut after, &mut sums, places, weights);
        assert_eq!((after, sums), (table, [2, 9]));
        changed
    };
    for lists in [
        (places, weights),
        (&places[..MOST], weights),
        (&[], weights),
    ] {
        assert_eq!(change(whole, lists.0, lists.1), Err(10));
        let broken = Record { count: 0, ..whole };
        assert_eq!(change(broken, lists.0, lists.1), Err(10));
    }
    // A list of places is none of weights: it is only not as long as the other.
    assert_eq!(change(whole, places, &weights[..MOST]), Err(8));
    assert_eq!(change(whole, places, &[]), Err(8));
    assert_eq!(change(whole, &[], &weights[..MOST]), Err(8));
    // The two lists of the most items are looked at, and the second of the zeros is not above the first.
    assert_eq!(change(whole, &places[..MOST], &weights[..MOST]), Err(5));
    let too_many = Record {
        count: MOST_WEIGHTS + 1,
        ..whole
    };
    assert_eq!(change(too_many, &[], &[]), Err(10));
}
