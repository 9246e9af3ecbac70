//! The smallest inputs at which the port is meant to differ from rand, as docs/DIFFERENCES.md has them.

use rand::distr::Distribution;
use rand::distr::weighted::WeightedIndex;
use reference::{State, counted};

use super::{PORT, Table};

const FROM: State = [1, 2, 3, 4];

#[test]
fn a_pick_without_budget_reads_no_word() {
    let rand = WeightedIndex::new([1_u32]).expect("a table");
    let (index, words, _) = counted(FROM, |rng| rand.sample(rng));
    assert_eq!((index, words), (0, 1));
    let ended = (PORT.pick)(FROM, Table::of(&[1]).record, &[], 0);
    assert_eq!((ended.number, ended.words, ended.state), (13, 0, FROM));
}

#[test]
fn a_new_table_is_lent_its_sums() {
    assert!(WeightedIndex::new([0_u32, 1]).is_ok());
    assert_eq!((PORT.new)(&[0, 1], &mut []), Err(8));
    // One weight has no sums.
    assert!((PORT.new)(&[1], &mut []).is_ok());
}

/// rand takes pairs, and makes its tables itself.
#[test]
fn there_are_lists_that_differ_and_tables_of_no_weights() {
    let mut one = Table::of(&[1]).record;
    assert_eq!((PORT.update_weights)(&mut one, &mut [], &[0], &[]), Err(8));
    let mut none = Table::new(0, 0, &[]).record;
    assert_eq!((PORT.update_weights)(&mut none, &mut [], &[], &[]), Err(7));
    assert_eq!((PORT.weight)(none, &[], 0), Err(7));
    assert_eq!((PORT.pick)(FROM, none, &[], 0).number, 7);
}

/// What the port answers to a change of a table of two weights, and the table afterwards, which a refusal leaves as it was.
fn changed(of: [u32; 2], places: &[u64], weights: &[u32]) -> Result<Table, u64> {
    let before = Table::of(&of);
    let Table { record, mut sums } = before.clone();
    let mut record = record;
    let changed = (PORT.update_weights)(&mut record, &mut sums, places, weights);
    let after = Table { record, sums };
    assert!(changed.is_ok() || after == before, "{after:?}");
    changed.map(|()| after)
}

/// What rand does here is in the tests of `reference::weighing`, by the build: one with checks panics, one without goes on.
#[test]
fn weights_that_sum_above_the_greatest_are_refused() {
    let most = u32::MAX;
    assert_eq!(changed([0, 1], &[0], &[most]), Err(3));
    assert_eq!(changed([0, 2], &[0], &[most]), Err(3));
    // Modulo 2^32 this would be 2^32 - 2.
    assert_eq!(changed([1, 1], &[0, 1], &[most, most]), Err(3));
}

/// As in a build of rand without checks; one with checks panics at the first item of each.
#[test]
fn a_total_that_comes_back_is_taken_and_a_place_is_told_before_it() {
    let most = u32::MAX;
    for (of, new) in [([0, 1], [most, 0]), ([0, most], [5, most - 5])] {
        assert_eq!(changed(of, &[0, 1], &new), Ok(Table::of(&new)));
    }
    assert_eq!(changed([0, 1], &[0, 0], &[most, 0]), Err(5));
    assert_eq!(changed([0, 1], &[0, 2], &[most, 0]), Err(6));
    assert_eq!(changed([1, 1], &[0, 0], &[most, 1]), Err(5));
    assert_eq!(changed([1, 1], &[0, 7], &[most, 1]), Err(6));
}
