//! The choices that every run tries: small ones with all hints that hold, longer ones with hints of each kind, and false hints.

use reference::choose_line::{PATTERNS, hints};
use reference::choosing::{self, NO_UPPER};
use reference::states::{before, giving_three};
use reference::words::{bounded, giving};
use reference::{State, some_state};

use super::Input;
use crate::inputs::edges;

/// To this number of items all hints are tried that hold: every lower one, with an upper that is exact, one more, or none. So many
/// generators are tried with each.
const SMALL: usize = 4;
const GENERATORS: u64 = 4;

/// To this number the same is done with every budget.
const EVERY_BUDGET: usize = 3;

/// To this number every lower hint is tried without upper ones.
const LOWER_ONLY: usize = 6;

/// To this number of items, and at these longer ones, every pattern of hints is tried.
pub const PATTERNED: usize = 40;
pub const LONGER: [usize; 12] = [41, 63, 64, 65, 100, 127, 128, 129, 500, 1000, 1999, 2000];

/// A number of items for the stable choice, and numbers of which a draw takes all but the last ones.
pub const LONG: usize = 100_000;
const DRAWN: [usize; 4] = [65_535, 65_536, 65_537, 1_000_000];
const LAST: usize = 1000;

/// Numbers of items that are tried with every kind of false hints.
const FALSELY_HINTED: [usize; 7] = [0, 1, 2, 3, 5, 8, 100];

/// Numbers of items of which a draw has words on both sides of its tests.
const DRAWN_ONCE: [usize; 7] = [2, 3, 6, 7, 100, 1000, 65_537];

/// To this number of items draws come after coins.
const AFTER_COINS: usize = 9;

/// A call with these hints. The items are not their places, and one of them is 0.
pub fn with(from: State, (lower, upper): (Vec<u32>, Vec<u32>), items_len: usize) -> Input {
    let items = (0..).map(|place: u32| place.wrapping_mul(3).wrapping_sub(3));
    Input {
        from,
        items: items.take(items_len).collect(),
        lower,
        upper,
        budget: u64::MAX,
    }
}

/// Hands over all that both choosers are tried on. `rand` is the chooser, which says how many words a call needs.
pub fn calls(rand: choosing::Choose, visit: &mut impl FnMut(Input)) {
    small(rand, visit);
    lower_only(visit);
    patterned(rand, visit);
    falsely_hinted(visit);
    for word in edges() {
        for from in [[word, 1, 2, 3], [0, 0, word, 1], [1, 0, 0, word]] {
            let hints = hints(0, 20);
            budgets(rand, with(from, hints, 20), visit);
        }
    }
}

/// The call with every budget from 0 to more than it needs.
fn budgets(rand: choosing::Choose, input: Input, visit: &mut impl FnMut(Input)) {
    let needed = rand(input.from, input.lists(), u64::MAX).words;
    for budget in (0..=needed + 1).chain([u64::MAX]) {
        visit(Input {
            budget,
            ..input.clone()
        });
    }
}

/// All lists with one of `choices` at each place, which are given how many items remain there.
pub fn all(items_len: usize, choices: impl Fn(u32) -> Vec<u32>) -> Vec<Vec<u32>> {
    let mut lists = vec![Vec::new()];
    for remain in (0..=items_len as u32).rev() {
        let longer = lists.iter().flat_map(|list| {
            choices(remain)
                .into_iter()
                .map(move |choice| [&list[..], &[choice]].concat())
        });
        lists = longer.collect();
    }
    lists
}

/// All lower hints that hold for so many items.
pub fn lowers(items_len: usize) -> Vec<Vec<u32>> {
    all(items_len, |remain| (0..=remain).collect())
}

/// All upper hints that are exact, one more, or none.
pub fn uppers(items_len: usize) -> Vec<Vec<u32>> {
    all(items_len, |remain| vec![remain, remain + 1, NO_UPPER])
}

fn small(rand: choosing::Choose, visit: &mut impl FnMut(Input)) {
    for items_len in 0..=SMALL {
        let uppers = uppers(items_len);
        for (turn, lower) in (0..).zip(lowers(items_len)) {
            for (number, upper) in (turn..).zip(&uppers) {
                for generator in 0..GENERATORS {
                    let from = some_state(number * GENERATORS + generator);
                    let input = with(from, (lower.clone(), upper.clone()), items_len);
                    match items_len > EVERY_BUDGET {
                        true => visit(input),
                        false => budgets(rand, input, visit),
                    }
                }
            }
        }
    }
}

fn lower_only(visit: &mut impl FnMut(Input)) {
    for items_len in SMALL + 1..=LOWER_ONLY {
        for (number, lower) in (0..).zip(lowers(items_len)) {
            for generator in 0..GENERATORS {
                let hints = (lower.clone(), vec![NO_UPPER; items_len + 1]);
                let from = some_state(number * GENERATORS + generator);
                visit(with(from, hints, items_len));
            }
        }
    }
}

fn patterned(rand: choosing::Choose, visit: &mut impl FnMut(Input)) {
    for (number, items_len) in (0..).zip((0..=PATTERNED).chain(LONGER)) {
        for pattern in 0..PATTERNS {
            for generator in 0..GENERATORS {
                let from = some_state(100 * number + generator);
                let input = with(from, hints(pattern, items_len), items_len);
                budgets(rand, input, visit);
            }
        }
        // No generator is told before false hints, and before a budget of 0.
        for (pattern, budget) in [(0, 0), (1, u64::MAX), (5, 0), (6, u64::MAX)] {
            visit(Input {
                budget,
                ..with([0; 4], hints(pattern, items_len), items_len)
            });
        }
    }
}

/// False hints of every kind at the first place, in the middle and at the last, with exact hints and with none everywhere else; with a
/// budget of 0, which is told after them, and with enough.
fn falsely_hinted(visit: &mut impl FnMut(Input)) {
    for items_len in FALSELY_HINTED {
        for pattern in [0, 1] {
            for spoilt in spoilt(hints(pattern, items_len)) {
                for (from, budget) in [(some_state(1), 0), (some_state(2), 99), ([0; 4], 0)] {
                    visit(Input {
                        budget,
                        ..with(from, spoilt.clone(), items_len)
                    });
                }
            }
        }
    }
}

/// These hints with one thing changed in them. Not all are false: an upper of 0 holds at the last place.
fn spoilt((lower, upper): (Vec<u32>, Vec<u32>)) -> Vec<(Vec<u32>, Vec<u32>)> {
    let last = lower.len() - 1;
    let mut all = Vec::new();
    for place in [0, last / 2, last] {
        let remain = (last - place) as u32;
        for wrong in [remain + 1, remain + 2, u32::MAX] {
            let mut lower = lower.clone();
            lower[place] = wrong;
            all.push((lower, upper.clone()));
        }
        for wrong in [remain.saturating_sub(1), remain / 2, 0] {
            let mut upper = upper.clone();
            upper[place] = wrong;
            all.push((lower.clone(), upper));
        }
    }
    let longer = |list: &[u32], entry| [list, &[entry]].concat();
    for list in [vec![], lower[..last].to_vec(), longer(&lower, 0)] {
        all.push((list, upper.clone()));
    }
    for list in [vec![], upper[..last].to_vec(), longer(&upper, NO_UPPER)] {
        all.push((lower.clone(), list));
    }
    all.push((lower[..last].to_vec(), upper[..last].to_vec()));
    all.push((longer(&lower, 0), longer(&upper, NO_UPPER)));
    all.push((longer(&lower, 0), upper[..last].to_vec()));
    all
}

/// Choices with exact hints, which are one draw, from generators whose words are on one side or the other of its tests, with every budget.
pub fn single_draws(visit: &mut impl FnMut(Input)) {
    for items_len in DRAWN_ONCE {
        for (salt, row) in (1..).zip(bounded(items_len as u32)) {
            let input = with(giving_three(row, salt), hints(1, items_len), items_len);
            budgets(choosing::choose, input, visit);
        }
    }
}

/// Choices with coins first, then a draw of two or more items, then coins for those that are left: with every budget, and with words that
/// are on one side or the other of the draw's tests.
pub fn draws_between_coins(visit: &mut impl FnMut(Input)) {
    for items_len in 2..=AFTER_COINS {
        for before in 0..=items_len - 2 {
            for known in 2..=items_len - before {
                let mut lower = vec![0; items_len + 1];
                lower[before] = known as u32;
                let hints = (lower, vec![NO_UPPER; items_len + 1]);
                for from in at_tests(before, known) {
                    budgets(
                        choosing::choose,
                        with(from, hints.clone(), items_len),
                        visit,
                    );
                }
            }
        }
    }
}

/// Choices that draw from all items but the last, and flip coins for those. The first coins are heads, more than are needed.
pub fn coins_after_a_draw(visit: &mut impl FnMut(Input)) {
    for items_len in DRAWN {
        let mut lower = vec![0; items_len + 1];
        lower[0] = (items_len - LAST) as u32;
        let hints = (lower, vec![NO_UPPER; items_len + 1]);
        for coins in [0, 1, 1 << 12, 1 << 15, 1 << 16] {
            visit(with(giving(1 << 31, coins, 1), hints.clone(), items_len));
        }
    }
}

/// Stable choices from many items.
pub fn many(visit: &mut impl FnMut(Input)) {
    for pattern in 0..PATTERNS {
        visit(with(some_state(pattern), hints(pattern, LONG), LONG));
    }
}

/// Generators for a draw of so many items after so many others: the first coins are all heads, all tails and mixed.
fn at_tests(before: usize, known: usize) -> Vec<State> {
    let rows = bounded((before + known) as u32).into_iter();
    let states = (1..).zip(rows).flat_map(|(salt, row)| {
        let at = giving_three(row, salt);
        // The first item needs no coin. After two the first word is one of coins, and the draw's are those behind it.
        if before < 2 {
            return vec![at];
        }
        let coins = [0, u32::MAX, 0x5a5a_5a5a];
        let mut states = coins
            .map(|coins| giving_three([coins, row[0], row[1]], salt))
            .to_vec();
        states.push(self::before(at, 1));
        states
    });
    states.collect()
}

#[cfg(test)]
mod tests {
    use reference::choosing::choose;

    use super::{Input, draws_between_coins, lowers, uppers};

    #[test]
    fn all_small_hints_are_there() {
        assert_eq!(lowers(4).len(), 120);
        assert_eq!(uppers(4).len(), 243);
        assert!(lowers(2).contains(&vec![2, 1, 0]));
    }

    /// A budget that ends between the two words of a draw, after coins.
    #[test]
    fn a_draw_after_coins_reads_a_second_word() {
        let mut found = 0;
        draws_between_coins(&mut |input: Input| {
            let is_after_coins = input.lower[..2] == [0, 0];
            let words = choose(input.from, input.lists(), u64::MAX).words;
            let stops_between = is_after_coins && words > 2 && input.budget == 2;
            found += u32::from(stops_between);
        });
        assert!(found > 100, "{found}");
    }
}
