//! Tables to lend: whole ones, and ones that are those of no weights.

use reference::plain_list::{PlainList, Record};
use reference::words::HALF_DROPPED;

/// A record, and the slice that is lent with it. They may fit or not.
#[derive(Clone, Debug, PartialEq, Eq)]
pub struct Table {
    pub record: Record,
    pub sums: Vec<u32>,
}

impl Table {
    /// A record with this count and this total, and these sums.
    pub fn new(count: u64, total_weight: u32, sums: &[u32]) -> Self {
        let record = Record {
            count,
            total_weight,
        };
        let sums = sums.to_vec();
        Self { record, sums }
    }

    /// The table of these weights, which must be those of one.
    pub fn of(weights: &[u32]) -> Self {
        let list = PlainList::new(weights, weights.len()).expect("a table's weights");
        Self {
            record: list.record(),
            sums: list.sums().collect(),
        }
    }

    /// The same table, with entries past its sums.
    pub fn followed_by(mut self, more: &[u32]) -> Self {
        self.sums.extend(more);
        self
    }
}

/// Lists of weights: one, equal ones, zeros everywhere, sums that are equal, and totals at the edges.
pub const WEIGHTS: [&[u32]; 24] = [
    &[1],
    &[3],
    &[u32::MAX],
    &[1, 1],
    &[0, 1],
    &[1, 0],
    &[2, 0, 3],
    &[0, 0, 5],
    &[5, 0, 0],
    &[0, 5, 0],
    &[1, 2, 3],
    &[7, 0, 0, 0, 7],
    &[0, 3, 0, 0, 3, 0],
    &[1, 1, 1, 1, 1, 1, 1],
    &[1 << 31],
    &[1 << 30, 1 << 30],
    &[HALF_DROPPED],
    &[1, 1 << 31],
    &[1 << 31, 0, 1],
    &[1 << 30, (1 << 30) + 2],
    &[u32::MAX - 1, 1],
    &[1, u32::MAX - 1],
    &[1 << 31, (1 << 31) - 1],
    &[1, 2, 4, 8, 16, 32, 64, 128, 256, 512],
];

/// Whole tables: those of [`WEIGHTS`], each also with entries past its sums that would not do as sums.
pub fn whole() -> impl Iterator<Item = Table> {
    WEIGHTS.into_iter().flat_map(|weights| {
        let exact = Table::of(weights);
        let longer = exact.clone().followed_by(&[0, u32::MAX, 1]);
        [exact, longer]
    })
}

/// Tables that are broken, of each kind.
pub fn broken() -> Vec<Table> {
    let most = u64::from(u32::MAX) - 1;
    vec![
        // Sums that fall: the first pair, a later one, and the last one before entries that would do.
        Table::new(3, 5, &[3, 2]),
        Table::new(5, 9, &[1, 4, 3, 5]),
        Table::new(4, 9, &[1, 4, 3, 5]),
        Table::new(3, 5, &[u32::MAX, 0]),
        // A sum above the total: the last, all, and one before a fall.
        Table::new(3, 5, &[2, 6]),
        Table::new(2, 1, &[2]),
        Table::new(3, 5, &[6, 6]),
        Table::new(3, 5, &[6, 5]),
        Table::new(2, u32::MAX - 1, &[u32::MAX]),
        // A total of 0.
        Table::new(1, 0, &[]),
        Table::new(3, 0, &[0, 0]),
        Table::new(3, 0, &[2, 2]),
        // A count of 0.
        Table::new(0, 5, &[]),
        Table::new(0, 5, &[2, 2]),
        Table::new(0, 0, &[]),
        // Fewer sums than the count wants.
        Table::new(2, 5, &[]),
        Table::new(4, 5, &[2, 2]),
        Table::new(most, 5, &[]),
        Table::new(most, 5, &[2, 2]),
    ]
}

/// Counts that are too large for a table, whatever else is wrong with it.
pub const TOO_MANY: [u64; 3] = [u32::MAX as u64, 1 << 32, u64::MAX];

/// Tables with such a count.
pub fn too_long() -> impl Iterator<Item = Table> {
    TOO_MANY.into_iter().flat_map(|count| {
        [
            Table::new(count, 5, &[2, 2]),
            Table::new(count, 5, &[]),
            Table::new(count, 0, &[3, 2]),
        ]
    })
}

/// All of these.
pub fn all() -> impl Iterator<Item = Table> {
    whole().chain(broken()).chain(too_long())
}

#[cfg(test)]
mod tests {
    use reference::plain_list::PlainList;

    use super::{broken, too_long, whole};

    #[test]
    fn the_tables_are_what_they_are_called() {
        let refusal = |table: super::Table| PlainList::of_table(table.record, &table.sums).err();
        assert!(whole().all(|table| refusal(table).is_none()));
        assert!(broken().into_iter().all(|table| refusal(table) == Some(7)));
        assert!(too_long().all(|table| refusal(table) == Some(10)));
    }
}
