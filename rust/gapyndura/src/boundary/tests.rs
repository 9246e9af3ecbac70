//! What the functions of the header write besides what the safe calls hand on.

use core::array;

use super::{
    Choose, gapyndura_choose, gapyndura_choose_stable, gapyndura_next_u32,
    gapyndura_partial_shuffle, gapyndura_sample, gapyndura_sample_fill,
    gapyndura_sample_stratified, gapyndura_shuffle, gapyndura_weights_new, gapyndura_weights_pick,
    gapyndura_weights_update, gapyndura_weights_weight,
};

/// A call with a state, and with the out-parameter that is written.
type Call<'a> = &'a mut dyn FnMut(&mut [u64; 4], &mut [u64; 2]) -> u32;

#[test]
fn a_refused_shuffle_or_fill_has_read_and_placed_nothing() {
    let mut items = [5, 6, 7];
    let mut buf = [8, 9];
    let (at, len) = (items.as_mut_ptr(), items.len());
    let calls: [Call<'_>; 3] = [
        // SAFETY: the pointers are those of arrays that nothing else uses meanwhile.
        &mut |state, out| unsafe { gapyndura_partial_shuffle(state, at, len, 2, 9, out) },
        &mut |state, out| unsafe { gapyndura_shuffle(state, at, len, 9, out) },
        &mut |state, out| unsafe {
            gapyndura_sample_fill(state, at, len, buf.as_mut_ptr(), buf.len(), 9, out)
        },
    ];
    for call in calls {
        let (mut state, mut out) = ([0; 4], [3, 4]);
        assert_eq!(call(&mut state, &mut out), 12);
        assert_eq!((state, out), ([0; 4], [0; 2]));
    }
    assert_eq!((items, buf), ([5, 6, 7], [8, 9]));
}

/// The generator is as far as the budget, the slices are as the finished draws have left them, and the second number is 0.
#[test]
fn a_spent_shuffle_or_fill_has_read_its_budget_and_tells_no_place() {
    let mut items: [u32; 20] = array::from_fn(|place| place as u32);
    let mut buf = [8, 9];
    let (at, len) = (items.as_mut_ptr(), items.len());
    let calls: [Call<'_>; 3] = [
        // SAFETY: as above.
        &mut |state, out| unsafe { gapyndura_partial_shuffle(state, at, len, 19, 1, out) },
        &mut |state, out| unsafe { gapyndura_shuffle(state, at, len, 1, out) },
        &mut |state, out| unsafe {
            gapyndura_sample_fill(state, at, len, buf.as_mut_ptr(), buf.len(), 1, out)
        },
    ];
    for call in calls {
        let (mut state, mut out) = (STATE, BEFORE);
        assert_eq!(call(&mut state, &mut out), 13);
        assert_eq!((state, out), (after(STATE, 1), [1, 0]));
    }
    // Two shuffles have exchanged what their first chunks serve, and nothing behind it.
    assert!(items[12..].iter().copied().eq(12..20));
    items.sort_unstable();
    assert!(items.into_iter().eq(0..20));
    assert!(buf.iter().all(|&item| item < 12));
}

/// The count is that of the entries of indices that were written. By rejection three of the first nine words are dropped.
#[test]
fn a_spent_sample_counts_what_it_has_written() {
    for (length, amount, budget, count) in [(9, 5, 3, 3), (30, 20, 7, 0), (44_010, 163, 9, 6)] {
        let (mut indices, mut scratch) = ([u32::MAX; 163], [u32::MAX; 31]);
        let (mut state, mut out) = (STATE, BEFORE);
        // SAFETY: as above.
        let number = unsafe {
            gapyndura_sample(
                &mut state,
                length,
                amount,
                budget,
                indices.as_mut_ptr(),
                indices.len(),
                scratch.as_mut_ptr(),
                scratch.len(),
                &mut out,
            )
        };
        assert_eq!((number, out), (13, [budget, count]));
        assert_eq!(state, after(STATE, budget));
        let written = indices.iter().take_while(|&&index| index != u32::MAX);
        assert_eq!(written.count() as u64, count);
        let arranged = scratch.iter().filter(|&&index| index != u32::MAX);
        assert_eq!(arranged.count(), if count == 0 { 30 } else { 0 });
    }
}

/// The lengths and the amounts of parts.
type Lists<'a> = [&'a [u64]; 2];

/// The answer to a stratified sample with 31 entries of scratch, what it writes, the state afterwards, and the indices written, by the
/// entries that are other than before.
fn stratified(
    state: [u64; 4],
    [lengths, amounts]: Lists<'_>,
    budget: u64,
) -> (u32, [u64; 2], [u64; 4], usize) {
    let (mut indices, mut scratch) = ([u32::MAX; 40], [u32::MAX; 31]);
    let (mut state, mut out) = (state, BEFORE);
    // SAFETY: as above.
    let number = unsafe {
        gapyndura_sample_stratified(
            &mut state,
            lengths.as_ptr(),
            lengths.len(),
            amounts.as_ptr(),
            amounts.len(),
            budget,
            indices.as_mut_ptr(),
            indices.len(),
            scratch.as_mut_ptr(),
            scratch.len(),
            &mut out,
        )
    };
    let written = indices.iter().filter(|&&index| index != u32::MAX);
    (number, out, state, written.count())
}

/// Each cause, some with others behind it in the order. The parts before one that is refused are not drawn.
#[test]
fn a_refused_stratified_sample_has_read_and_written_nothing() {
    let refused: [(u32, [u64; 4], Lists<'_>); 9] = [
        (12, [0; 4], [&[9, 9], &[1]]),
        (12, [0; 4], [&[], &[]]),
        (17, STATE, [&[9, 9], &[1]]),
        (17, STATE, [&[9], &[10, 99]]),
        (17, STATE, [&[u64::MAX, 2], &[u64::MAX, 99]]),
        (17, STATE, [&[(1 << 32) - 1, 1], &[1, 1]]),
        (1, STATE, [&[9, 9, 99], &[1, 10, 99]]),
        (8, STATE, [&[30, 32], &[10, 31]]),
        (9, STATE, [&[30, 32], &[10, 12]]),
    ];
    for (number, state, parts) in refused {
        for budget in [0, 99] {
            let answer = stratified(state, parts, budget);
            assert_eq!(answer, (number, [0; 2], state, 0), "{parts:?}");
        }
    }
}

/// The count is that of the finished parts and of what is written of the next: by Floyd's method one for each word here, and none in place.
#[test]
fn a_spent_stratified_sample_counts_what_it_has_written() {
    let parts: Lists<'_> = [&[9, 5, 30, 9], &[5, 0, 12, 3]];
    for (budget, count) in [(0, 0), (3, 3), (5, 5), (7, 5), (16, 5), (17, 17), (19, 19)] {
        let answer = stratified(STATE, parts, budget);
        let out = [budget, count];
        assert_eq!(answer, (13, out, after(STATE, budget), count as usize));
    }
    let answer = stratified(STATE, parts, 20);
    assert_eq!(answer, (0, [20, 20], after(STATE, 20), 20));
    assert_eq!(stratified(STATE, [&[], &[]], 0), (0, [0; 2], STATE, 0));
}

/// The state after so many words.
fn after(state: [u64; 4], words: u64) -> [u64; 4] {
    let mut state = state;
    for _ in 0..words {
        assert_eq!(gapyndura_next_u32(&mut state, &mut [0; 2]), 0);
    }
    state
}

/// A count, and a total that may have more than 32 bits.
type Table = [u64; 2];

/// What is in a table or an out-parameter before it is written.
const BEFORE: [u64; 2] = [77, 88];

/// A generator.
const STATE: [u64; 4] = [1, 2, 3, 4];

/// Only the last word of the state is not 0: so the output is that word, turned by 23 bits.
#[test]
fn a_word_is_counted_as_one_and_a_refused_word_writes_zeros() {
    let (mut state, mut out) = ([0, 0, 0, 5 << 9], BEFORE);
    assert_eq!(gapyndura_next_u32(&mut state, &mut out), 0);
    assert_eq!(out, [1, 5]);
    assert_eq!(state, [5 << 9, 0, 0, 5 << 54]);
    for _ in 0..10_000 {
        out = BEFORE;
        assert_eq!(gapyndura_next_u32(&mut state, &mut out), 0);
        assert!(out[0] == 1 && out[1] < 1 << 32);
    }
    let (mut state, mut out) = ([0; 4], BEFORE);
    assert_eq!(gapyndura_next_u32(&mut state, &mut out), 12);
    assert_eq!((state, out), ([0; 4], [0; 2]));
}

/// The answer to a new table, and what is then in the record.
fn new(weights: &[u32], sums: &mut [u32]) -> (u32, Table) {
    let mut table = BEFORE;
    // SAFETY: the pointers and lengths are those of slices, and what is written is borrowed for that.
    let number = unsafe {
        gapyndura_weights_new(
            weights.as_ptr(),
            weights.len(),
            sums.as_mut_ptr(),
            sums.len(),
            &mut table,
        )
    };
    (number, table)
}

/// The answer to a change, and what is then in the record and in the sums.
fn update<const N: usize>(
    table: Table,
    sums: [u32; N],
    places: &[u64],
    weights: &[u32],
) -> (u32, Table, [u32; N]) {
    let (mut table, mut sums) = (table, sums);
    // SAFETY: as in `new`.
    let number = unsafe {
        gapyndura_weights_update(
            &mut table,
            sums.as_mut_ptr(),
            sums.len(),
            places.as_ptr(),
            places.len(),
            weights.as_ptr(),
            weights.len(),
        )
    };
    (number, table, sums)
}

/// The answer to a lookup, and what it writes.
fn weight(table: Table, sums: &[u32], place: u64) -> (u32, [u64; 2]) {
    let mut out = BEFORE;
    // SAFETY: as in `new`.
    let number =
        unsafe { gapyndura_weights_weight(&table, sums.as_ptr(), sums.len(), place, &mut out) };
    (number, out)
}

/// The answer to a pick, what it writes, and the state afterwards.
fn pick(state: [u64; 4], table: Table, sums: &[u32], budget: u64) -> (u32, [u64; 2], [u64; 4]) {
    let (mut state, mut out) = (state, BEFORE);
    // SAFETY: as in `new`.
    let number = unsafe {
        gapyndura_weights_pick(
            &mut state,
            &table,
            sums.as_ptr(),
            sums.len(),
            budget,
            &mut out,
        )
    };
    (number, out, state)
}

#[test]
fn a_refused_new_table_writes_no_record_and_no_sum() {
    let refused: [(u32, &[u32], usize); 5] = [
        (2, &[], 3),
        (8, &[1, 2, 3], 1),
        (8, &[u32::MAX, 2, 3], 1),
        (3, &[u32::MAX, 0, 1], 2),
        (4, &[0, 0, 0], 2),
    ];
    for (number, weights, lent) in refused {
        let mut sums = [9; 3];
        assert_eq!(new(weights, &mut sums[..lent]), (number, BEFORE));
        assert_eq!(sums, [9; 3]);
    }
    let mut sums = [9; 3];
    assert_eq!(new(&[2, 0, 3], &mut sums), (0, [3, 5]));
    assert_eq!(sums, [2, 2, 9]);
}

#[test]
fn a_refused_change_writes_no_record_and_no_sum() {
    let whole = [3, 5];
    let refused: [(u32, Table, &[u64], &[u32]); 13] = [
        (10, [(1 << 32) - 1, 5], &[], &[]),
        (7, [(1 << 32) - 2, 5], &[], &[]),
        (7, [3, 1], &[0], &[]),
        (7, [0, 5], &[], &[]),
        (8, whole, &[0, 1], &[1]),
        (8, whole, &[2], &[1, 1]),
        (5, whole, &[0, 0], &[1, 1]),
        (6, whole, &[0, 3], &[1, 1]),
        (5, whole, &[0, 0], &[u32::MAX, 1]),
        (6, whole, &[0, 3], &[u32::MAX, 1]),
        (3, whole, &[0, 1], &[1, u32::MAX]),
        (3, whole, &[0, 1], &[u32::MAX, u32::MAX]),
        (4, whole, &[0, 2], &[0, 0]),
    ];
    for (number, table, places, weights) in refused {
        let after = update(table, [2, 2, 9], places, weights);
        assert_eq!(after, (number, table, [2, 2, 9]));
    }
    let after = update(whole, [2, 2, 9], &[1], &[4]);
    assert_eq!(after, (0, [3, 9], [2, 6, 9]));
    let after = update(whole, [2, 2, 9], &[], &[]);
    assert_eq!(after, (0, whole, [2, 2, 9]));
    // The total passes 2^32 - 1 at the first item, and the second brings it back.
    let most = u32::MAX;
    let after = update(whole, [2, 2, 9], &[0, 2], &[most, 0]);
    assert_eq!(after, (0, [3, most.into()], [most, most, 9]));
}

#[test]
fn a_lookup_writes_zeros_where_there_is_no_weight() {
    let sums = [2, 2];
    assert_eq!(weight([3, 5], &sums, 2), (0, [1, 3]));
    assert_eq!(weight([3, 5], &sums, 1), (0, [1, 0]));
    for place in [3, 4, 1 << 32, u64::MAX] {
        assert_eq!(weight([3, 5], &sums, place), (0, [0, 0]));
    }
    for place in [0, 3, u64::MAX] {
        assert_eq!(weight([4, 5], &sums, place), (7, [0, 0]));
        assert_eq!(weight([(1 << 32) - 1, 5], &sums, place), (10, [0, 0]));
    }
}

#[test]
fn a_refused_pick_writes_no_index() {
    let (whole, sums) = ([3, 5], [2, 2]);
    assert_eq!(pick([0; 4], whole, &sums, 9), (12, [0, 0], [0; 4]));
    assert_eq!(pick(STATE, [1 << 32, 5], &sums, 9), (10, [0, 0], STATE));
    assert_eq!(pick(STATE, [4, 5], &sums, 9), (7, [0, 0], STATE));
    assert_eq!(pick(STATE, whole, &sums, 0), (13, [0, 0], STATE));
    // The first word is 0, which a draw below 5 drops.
    let (number, out, after) = pick([0, 0, 1, 0], whole, &sums, 1);
    assert_eq!((number, out), (13, [1, 0]));
    assert_eq!(after, [0, 1, 1, 0]);
}

/// A total of more than 32 bits is that of no table, whatever its low half is.
#[test]
fn a_total_above_32_bits_is_no_record() {
    let sums = [2, 2, 9];
    for total in [1 << 32, (1 << 32) + 5, 5 << 32, u64::MAX] {
        for (count, refusal) in [(3, 7), (1, 7), (0, 7), ((1 << 32) - 2, 7)]
            .into_iter()
            .chain([(1 << 32) - 1, 1 << 32, u64::MAX].map(|count| (count, 10)))
        {
            let table = [count, total];
            let unchanged = (refusal, table, sums);
            assert_eq!(update(table, sums, &[], &[]), unchanged);
            assert_eq!(update(table, sums, &[0], &[1, 1]), unchanged);
            assert_eq!(update(table, sums, &[1, 0], &[0, 0]), unchanged);
            assert_eq!(weight(table, &sums, 0), (refusal, [0, 0]));
            assert_eq!(weight(table, &sums, u64::MAX), (refusal, [0, 0]));
            for budget in [0, 9] {
                assert_eq!(pick(STATE, table, &sums, budget), (refusal, [0, 0], STATE));
                assert_eq!(pick([0; 4], table, &sums, budget), (12, [0, 0], [0; 4]));
            }
        }
    }
}

/// The two functions that choose.
const CHOOSERS: [Choose; 2] = [gapyndura_choose, gapyndura_choose_stable];

/// The answer to a choice from 5, 6, 7 and so on, what it writes, and the state afterwards.
fn choice(
    choose: Choose,
    state: [u64; 4],
    items_len: usize,
    [lower, upper]: [&[u32]; 2],
    budget: u64,
) -> (u32, [u64; 3], [u64; 4]) {
    let (mut state, mut out) = (state, [77, 88, 99]);
    let items: [u32; 3] = [5, 6, 7];
    let items = &items[..items_len];
    // SAFETY: as in `new`.
    let number = unsafe {
        choose(
            &mut state,
            items.as_ptr(),
            items.len(),
            lower.as_ptr(),
            lower.len(),
            upper.as_ptr(),
            upper.len(),
            budget,
            &mut out,
        )
    };
    (number, out, state)
}

#[test]
fn a_choice_writes_zeros_where_there_is_no_item() {
    for choose in CHOOSERS {
        let none: [&[u32]; 2] = [&[0], &[u32::MAX]];
        for budget in [0, 9] {
            assert_eq!(choice(choose, STATE, 0, none, budget), (0, [0; 3], STATE));
        }
        // One item reads no word.
        let one: [&[u32]; 2] = [&[0, 0], &[u32::MAX, 0]];
        assert_eq!(choice(choose, STATE, 1, one, 0), (0, [0, 1, 5], STATE));
        let (number, [words, is_there, item], _) =
            choice(choose, STATE, 3, [&[0; 4], &[u32::MAX; 4]], 9);
        assert_eq!((number, is_there), (0, 1));
        assert!(words > 0 && (5..8).contains(&item));
    }
}

#[test]
fn a_refused_choice_writes_no_item() {
    let good: [&[u32]; 2] = [&[0; 4], &[u32::MAX; 4]];
    let short: [&[u32]; 2] = [&[0; 3], &[u32::MAX; 4]];
    for choose in CHOOSERS {
        let refused = (12, [0; 3], [0; 4]);
        assert_eq!(choice(choose, [0; 4], 3, good, 9), refused);
        assert_eq!(choice(choose, [0; 4], 3, short, 0), refused);
        for budget in [0, 9] {
            let refused = (11, [0; 3], STATE);
            assert_eq!(choice(choose, STATE, 3, short, budget), refused);
        }
        assert_eq!(choice(choose, STATE, 3, good, 0), (13, [0; 3], STATE));
    }
    // A draw below 3 whose first word has a second: the low half of 1431655765 * 3 is 2^32 - 1.
    let exact: [&[u32]; 2] = [&[3, 2, 1, 0]; 2];
    // The first word of this state is 1431655765.
    let state = [0, 0, 0, 1431655765 << 9];
    let (number, out, after) = choice(gapyndura_choose, state, 3, exact, 1);
    assert_eq!((number, out), (13, [1, 0, 0]));
    assert_ne!(after, state);
    let (number, [words, is_there, _], _) = choice(gapyndura_choose, state, 3, exact, 2);
    assert_eq!((number, words, is_there), (0, 2, 1));
}
