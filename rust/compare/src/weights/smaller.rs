//! Smaller lists and tables than those at which the sides differ.

use reference::plain_list::Record;

use super::Table;
use crate::inputs::smaller;

/// To this length a list's entries are made smaller one by one.
const SHORT: usize = 12;

/// Lists that lack a part of this one: a half, a quarter and so on, to a single entry.
pub fn shorter<T: Clone>(list: &[T]) -> Vec<Vec<T>> {
    let mut lists = Vec::new();
    let mut part = list.len().div_ceil(2);
    while part > 0 {
        for start in (0..list.len()).step_by(part) {
            let end = list.len().min(start + part);
            lists.push([&list[..start], &list[end..]].concat());
        }
        part /= 2;
    }
    lists
}

/// Shorter lists than this one, and where it is short the same with a smaller number for one of its entries.
pub fn lists<T: Copy + Into<u64> + TryFrom<u64>>(list: &[T]) -> Vec<Vec<T>> {
    let mut lists = shorter(list);
    if list.len() > SHORT {
        return lists;
    }
    for (at, &entry) in list.iter().enumerate() {
        for less in smaller(entry.into()).filter_map(|less| T::try_from(less).ok()) {
            let mut with_less = list.to_vec();
            with_less[at] = less;
            lists.push(with_less);
        }
    }
    lists
}

/// Smaller tables than this one. Where sums are left out, the count goes down with them or stays.
pub fn tables(table: &Table) -> Vec<Table> {
    let Record {
        count,
        total_weight,
    } = table.record;
    let fewer = shorter(&table.sums).into_iter().map(|sums| {
        let gone = (table.sums.len() - sums.len()) as u64;
        Table::new(count.saturating_sub(gone), total_weight, &sums)
    });
    let sums = lists(&table.sums)
        .into_iter()
        .map(|sums| Table::new(count, total_weight, &sums));
    let counts = smaller(count).map(|count| Table::new(count, total_weight, &table.sums));
    let totals = smaller(total_weight.into())
        .map(|total_weight| Table::new(count, total_weight as u32, &table.sums));
    fewer.chain(sums).chain(counts).chain(totals).collect()
}
