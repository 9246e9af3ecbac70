//! Faults of the bounded draw, which every call that makes one can have. A draw is made anew, from rand's own text, with an error in it.

use rand::Rng;
use rand::rngs::Xoshiro256PlusPlus;
use reference::draws::{Drawn, counted};

/// `>=` in place of `>` in the test for a further word.
pub const SECOND_WORD: &str = "second-word";

/// The low half of the first word's product kept where that of the new word's is due.
pub const FIRST_LOW_KEPT: &str = "first-low-kept";

/// No further word where the sum is exactly the largest word.
pub const STOPS_AT_LARGEST: &str = "stops-at-largest";

/// A third word wherever the sum is the largest word, whatever the low half of the new word's product is.
pub const THIRD_UNTESTED: &str = "third-untested";

/// All of them. A fault is named by its place here where a function has to be made for it.
pub const NAMES: [&str; 4] = [
    SECOND_WORD,
    FIRST_LOW_KEPT,
    STOPS_AT_LARGEST,
    THIRD_UNTESTED,
];

/// A place that is no fault's: the draw is then rand's.
#[cfg(test)]
pub const NONE: usize = NAMES.len();

/// The entry of a table with one for each fault, where the name is that of one.
pub fn planted<T: Copy>(plant: Option<&str>, table: [T; NAMES.len()]) -> Option<T> {
    let place = NAMES.iter().position(|name| Some(*name) == plant)?;
    Some(table[place])
}

/// The bounded draw with the fault at this place, as calls make it.
pub fn faulty<const FAULT: usize>(rng: &mut Xoshiro256PlusPlus, r: u32) -> Drawn {
    counted(rng, |rng| value(rng, r, FAULT))
}

/// The value of a draw with the fault at this place.
pub fn value(rng: &mut impl Rng, r: u32, fault: usize) -> u32 {
    let is = |name| NAMES.get(fault) == Some(&name);
    let mut word = || halves(u64::from(rng.next_u32()) * u64::from(r));
    let (mut value, mut low) = word();
    let mut is_untested = false;
    while is_untested || low > r.wrapping_neg() || is(SECOND_WORD) && low == r.wrapping_neg() {
        let (high, new) = word();
        match low.checked_add(high) {
            None => {
                value += 1;
                break;
            }
            Some(u32::MAX) if !is(STOPS_AT_LARGEST) => {
                low = if is(FIRST_LOW_KEPT) { low } else { new };
                is_untested = is(THIRD_UNTESTED);
            }
            Some(_) => break,
        }
    }
    value
}

/// The upper and the lower half of a product.
fn halves(product: u64) -> (u32, u32) {
    ((product >> 32) as u32, product as u32)
}

#[cfg(test)]
mod tests {
    use reference::draws::bounded;
    use reference::from_state;
    use reference::states::giving_three;
    use reference::words;

    use super::{NAMES, NONE, faulty};

    /// Whether the draw with each fault, and that with none, is rand's with these words.
    fn are_rands(r: u32, row: [u32; 3]) -> [bool; 5] {
        let draws = [
            faulty::<0>,
            faulty::<1>,
            faulty::<2>,
            faulty::<3>,
            faulty::<NONE>,
        ];
        draws.map(|draw| {
            let start = from_state(giving_three(row, 1));
            let (mut rng, mut same) = (start.clone(), start);
            draw(&mut rng, r) == bounded(&mut same, r) && rng == same
        })
    }

    /// So that nothing but the fault is found; and each shows in some row.
    #[test]
    fn a_draw_without_a_fault_is_rands() {
        for r in [1, 2, 3, 6, 1000, 1 << 31, (1 << 31) + 1, u32::MAX] {
            let rows = words::bounded(r);
            let found: Vec<_> = rows.into_iter().map(|row| are_rands(r, row)).collect();
            assert!(found.iter().all(|is_rands| is_rands[NONE]), "{r}");
            for (place, fault) in NAMES.iter().enumerate() {
                let shows = found.iter().any(|is_rands| !is_rands[place]);
                // A power of two reads one word, but for the first fault.
                assert!(shows || r.is_power_of_two(), "{fault}: {r}");
            }
        }
    }

    /// Of the words below 6 of SCOPE 18.
    #[test]
    fn faults_show_where_they_are() {
        let (a, b) = (715_827_882, 2_863_311_530);
        assert_eq!(are_rands(6, [a, b + 1, 0]), [true; 5]);
        assert!(!are_rands(6, [u32::MAX, 0, 0])[0]);
        assert_eq!(are_rands(6, [a, b, b + 1])[1..3], [true, false]);
        assert_eq!(are_rands(6, [a, b - 1, 0])[1..4], [false, true, false]);
    }
}
