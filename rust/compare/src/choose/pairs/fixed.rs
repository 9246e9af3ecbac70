//! The pairs that every run tries: few items with all hints that hold, and more of them with hints of each kind.

use reference::choose_line::{TRUE_PATTERNS, hints};
use reference::choosing::{NO_UPPER, choose_stable};
use reference::words::giving;
use reference::{State, some_state};

use super::{Hints, Pair};
use crate::choose::fixed::{LONG, LONGER, PATTERNED, all, lowers, uppers, with};
use crate::inputs::edges;

/// To this number of items each two hints are tried that hold: every lower one, with an upper that is exact, one more, or none.
const EACH_TWO: usize = 2;

/// With this number the same is done without uppers of one more.
const EACH_TWO_EXACT_OR_NONE: usize = 3;

/// To this number all hints are tried beside some others.
const EACH: usize = 4;

/// Where heads and tails take turns behind the first coin, one over 3 is settled by none of a word's coins.
const UNSETTLED: u32 = 0x2aaa_aaaa;
const UNSETTLED_STILL: u32 = 0xaaaa_aaaa;

/// A pair from this generator with these hints.
fn pair(from: State, hints: [Hints; 2], items_len: usize) -> Pair {
    Pair::of(hints.map(|hints| with(from, hints, items_len)))
}

/// Hands over all of them.
pub fn pairs(visit: &mut impl FnMut(Pair)) {
    each_two(visit);
    each_beside_others(visit);
    patterned(visit);
    for two in [[0, 1], [2, 3], [4, 7]] {
        let hints = two.map(|pattern| hints(pattern, LONG));
        visit(pair(some_state(two[0]), hints, LONG));
    }
    for word in edges() {
        for from in [[word, 1, 2, 3], [0, 0, word, 1], [1, 0, 0, word]] {
            let hints = [0, 1].map(|pattern| hints(pattern, 20));
            budgets(&pair(from, hints, 20), visit);
        }
    }
}

/// The words that the choice needs, whichever reader's hints it has.
fn needed(pair: &Pair) -> u64 {
    choose_stable(pair.from, pair.lists()[0], u64::MAX).words
}

/// The pair with each of these budgets.
fn within(pair: &Pair, budgets: impl IntoIterator<Item = u64>, visit: &mut impl FnMut(Pair)) {
    for budget in budgets {
        visit(Pair {
            budget,
            ..pair.clone()
        });
    }
}

/// The pair with every budget from 0 to what it needs.
fn budgets(pair: &Pair, visit: &mut impl FnMut(Pair)) {
    within(pair, 0..=needed(pair), visit);
}

/// Generators with which up to three items need a word, and such as need two or three for the third item.
fn generators() -> [State; 4] {
    [
        some_state(1),
        giving(UNSETTLED, 0, 1),
        some_state(2),
        giving(UNSETTLED, UNSETTLED_STILL, 1),
    ]
}

/// All hints of these lower and upper ones.
fn all_of(lowers: &[Vec<u32>], uppers: &[Vec<u32>]) -> Vec<Hints> {
    let hints = lowers.iter().flat_map(|lower| {
        let with = |upper: &Vec<u32>| (lower.clone(), upper.clone());
        uppers.iter().map(with)
    });
    hints.collect()
}

/// The generators take turns. Hints beside themselves are among the pairs.
fn each_two(visit: &mut impl FnMut(Pair)) {
    for items_len in 0..=EACH_TWO_EXACT_OR_NONE {
        let uppers = match items_len > EACH_TWO {
            true => all(items_len, |remain| vec![remain, NO_UPPER]),
            false => uppers(items_len),
        };
        let hints = all_of(&lowers(items_len), &uppers);
        for (number, first) in hints.iter().enumerate() {
            let generators = generators().into_iter().cycle();
            for (second, from) in hints[number..].iter().zip(generators) {
                let two = [first.clone(), second.clone()];
                budgets(&pair(from, two, items_len), visit);
            }
        }
    }
}

/// All hints beside none, beside exact ones, and beside the next of all hints.
fn each_beside_others(visit: &mut impl FnMut(Pair)) {
    for items_len in EACH_TWO + 1..=EACH {
        let all = all_of(&lowers(items_len), &uppers(items_len));
        let nexts = all[1..].iter().chain([&all[0]]);
        let generators = generators().into_iter().cycle();
        for ((first, next), from) in all.iter().zip(nexts).zip(generators) {
            for (budget, second) in [
                (u64::MAX, hints(0, items_len)),
                (1, hints(1, items_len)),
                (2, next.clone()),
            ] {
                let pair = pair(from, [first.clone(), second], items_len);
                within(&pair, [budget], visit);
            }
        }
    }
}

/// The patterns of hints that hold, each two of them; with every budget where the items are few, and with some where they are many.
fn patterned(visit: &mut impl FnMut(Pair)) {
    for (number, items_len) in (0..).zip((0..=PATTERNED).chain(LONGER)) {
        for (first, &pattern) in TRUE_PATTERNS.iter().enumerate() {
            for &other in &TRUE_PATTERNS[first + 1..] {
                let hints = [pattern, other].map(|pattern| hints(pattern, items_len));
                let pair = pair(some_state(100 * number + other), hints, items_len);
                match items_len > PATTERNED {
                    true => {
                        let needed = needed(&pair);
                        let some = [0, 1, needed / 2, needed - 1, needed, u64::MAX];
                        within(&pair, some, visit);
                    }
                    false => budgets(&pair, visit),
                }
                // No generator is told before a budget of 0.
                let without = Pair {
                    from: [0; 4],
                    ..pair
                };
                within(&without, [0, u64::MAX], visit);
            }
        }
    }
}

#[cfg(test)]
mod tests {
    use reference::choosing::choose_stable;

    use super::{generators, needed, pairs};
    use crate::choose::fixed::with;
    use crate::choose::pairs::Pair;

    #[test]
    fn three_items_need_one_to_three_words() {
        let words = generators().map(|from| {
            let input = with(from, (vec![0; 4], vec![u32::MAX; 4]), 3);
            choose_stable(from, input.lists(), u64::MAX).words
        });
        assert_eq!(words, [1, 2, 1, 3]);
    }

    /// All hints hold, and many a budget ends midway.
    #[test]
    fn pairs_hold_and_some_are_spent_midway() {
        let (mut count, mut midway) = (0, 0);
        pairs(&mut |pair: Pair| {
            assert!(pair.lists().iter().all(|lists| lists.are_hints_good()));
            count += 1;
            if pair.from != [0; 4] && pair.items.len() < 50 && pair.budget > 0 {
                midway += u32::from(pair.budget < needed(&pair));
            }
        });
        assert!(count > 300_000 && midway > 50_000, "{count} {midway}");
    }
}
