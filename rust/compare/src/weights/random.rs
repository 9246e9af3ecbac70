//! Random weights, changes and tables. Most are small.

use reference::plain_list::PlainList;

use super::Table;
use super::tables;
use crate::inputs::Source;

/// How many weights a list has. At least one.
pub fn count(source: &mut Source) -> usize {
    let count = match source.below(256) {
        0 => source.below(2000),
        1..8 => source.below(100),
        8..64 => source.below(12),
        _ => source.below(5),
    };
    count as usize + 1
}

/// A weight: small as a rule, often 0, or one near an edge, or any.
pub fn weight(source: &mut Source) -> u32 {
    match source.below(32) {
        0 => source.u64() as u32,
        1 => u32::MAX - source.below(3),
        2 => (1 << 31) - 2 + source.below(4),
        3 => source.below(1000),
        4..14 => 0,
        _ => source.below(4),
    }
}

/// So many weights that add up to this, which is at most 2^32. Zeros stand among them.
pub fn adding_to(total: u64, count: usize, source: &mut Source) -> Vec<u32> {
    let mut left = total;
    let mut weights = vec![0; count];
    let mut order: Vec<usize> = (0..count).collect();
    for at in (1..count).rev() {
        order.swap(at, source.below(at as u32 + 1) as usize);
    }
    let share = 2 * total / count as u64;
    for &at in &order[1..] {
        let most = match source.below(4) {
            0 | 1 => 0,
            2 => share.min(left),
            _ => left / 2,
        };
        // No more than half of 2^32, but for the share of two.
        weights[at] = (source.even() % (most + 1)).min(u32::MAX.into()) as u32;
        left -= u64::from(weights[at]);
    }
    if left > u32::MAX.into() && count > 1 {
        weights[order[1]] += 1;
        left -= 1;
    }
    weights[order[0]] = left.min(u32::MAX.into()) as u32;
    weights
}

/// A total at an edge: near a power of two, or just above 2^31, or near the greatest, or any. At most 2^32.
pub fn total(source: &mut Source) -> u64 {
    let near = u64::from(source.below(4));
    match source.below(6) {
        0 => 1 + near,
        1 => (1 << source.below(32)) + near,
        2 => (1 << 31) + near,
        3 => (1 << 32) - near,
        4 => (1 << (1 + source.below(32))) - 1,
        _ => 1 + u64::from(source.even() as u32),
    }
    .min(1 << 32)
}

/// A list of weights, which may be those of no table.
pub fn weights(source: &mut Source) -> Vec<u32> {
    let count = count(source);
    match source.below(4) {
        0 => {
            let total = total(source);
            adding_to(total, count, source)
        }
        1 => (0..count).map(|_| weight(source)).collect(),
        _ => (0..count).map(|_| source.below(4)).collect(),
    }
}

/// Weights that add up to the greatest total, or to one or two less.
pub fn heavy(source: &mut Source) -> Vec<u32> {
    let total = u32::MAX - source.below(3);
    let count = count(source);
    adding_to(total.into(), count, source)
}

/// A whole table, most often with entries past its sums.
pub fn whole(source: &mut Source) -> Table {
    let weights = weights(source);
    if PlainList::new(&weights, weights.len()).is_err() {
        return whole(source);
    }
    let more: Vec<u32> = (0..source.below(4)).map(|_| source.even() as u32).collect();
    Table::of(&weights).followed_by(&more)
}

/// A table: whole as a rule, or one with a part of it changed, which may break it.
pub fn table(source: &mut Source) -> Table {
    let mut table = whole(source);
    match source.below(32) {
        0 => table.record.count = source.u64(),
        1 => table.record.count = (table.record.count + 2).saturating_sub(source.below(5).into()),
        2 => table.record.total_weight = weight(source),
        3 => drop(table.sums.pop()),
        4 | 5 if !table.sums.is_empty() => {
            let at = source.below(table.sums.len() as u32) as usize;
            table.sums[at] = weight(source);
        }
        6 => table.record.count = source.one_of(&tables::TOO_MANY),
        _ => {}
    }
    table
}

/// A place where there are so many weights: one of them as a rule, or one that is not.
pub fn place(count: u64, source: &mut Source) -> u64 {
    match source.below(16) {
        0 => count,
        1 => count.saturating_add(1),
        2 => source.u64(),
        _ => source.even() % count.max(1),
    }
}

/// The two lists of a change: places in order as a rule, and a weight for each.
pub fn change(count: u64, source: &mut Source) -> (Vec<u64>, Vec<u32>) {
    let items = match source.below(16) {
        0 => source.below(40),
        _ => source.below(5),
    };
    let mut places: Vec<u64> = match source.below(4) {
        0 => (0..items).map(|_| place(count, source)).collect(),
        _ => (0..items).map(|_| source.even() % count.max(1)).collect(),
    };
    if source.below(4) > 0 {
        places.sort_unstable();
        places.dedup();
    }
    let is_small = source.below(2) == 0;
    let mut weights: Vec<u32> = places
        .iter()
        .map(|_| match is_small {
            true => source.below(3),
            false => weight(source),
        })
        .collect();
    match source.below(24) {
        0 => weights.push(weight(source)),
        1 => drop(weights.pop()),
        _ => {}
    }
    (places, weights)
}

/// The two lists of a change of these weights that moves weight from place to place, so that what they add up to passes 2^32 - 1 on the
/// way and comes back, or ends near it on either side. Now and then the last place is refused.
pub fn moved(weights: &[u32], source: &mut Source) -> (Vec<u64>, Vec<u32>) {
    let count = weights.len() as u64;
    let items = 1 + source.below(5);
    let mut places: Vec<u64> = (0..items).map(|_| source.even() % count).collect();
    places.sort_unstable();
    places.dedup();
    let stay = (0..).zip(weights).filter(|(at, _)| !places.contains(at));
    let stay: u64 = stay.map(|(_, &weight)| u64::from(weight)).sum();
    let total = match source.below(2) {
        0 => (1 << 32) - u64::from(source.below(4)),
        _ => total(source),
    };
    let mut new = adding_to(total.saturating_sub(stay), places.len(), source);
    let at = source.below(new.len() as u32) as usize;
    new[at] = new[at].saturating_add(source.below(3));
    match source.below(8) {
        0 => places.push(places[0]),
        1 => places.push(count),
        _ => return (places, new),
    }
    new.push(weight(source));
    (places, new)
}

/// A budget: enough, or few words.
pub fn budget(source: &mut Source) -> u64 {
    match source.below(4) {
        0 => source.below(4).into(),
        1 => source.u64(),
        _ => u64::MAX,
    }
}
