//! rand's two builds side by side: with feature `unbiased`, which Gapyndura is compared with, and without it, which the base was.

use reference::states::giving_three;
use reference::words::bounded;
use reference::{Counting, from_state};

/// A draw below `r` of either build from the same three words: the value, and the words read.
fn drawn(r: u32, row: [u32; 3]) -> [(u32, u64); 2] {
    let rng = || Counting::new(from_state(giving_three(row, 1)));
    let (mut unbiased, mut base) = (rng(), rng());
    let values = [
        rand::RngExt::random_range(&mut unbiased, ..r),
        rand_base::RngExt::random_range(&mut base, ..r),
    ];
    [(values[0], unbiased.words()), (values[1], base.words())]
}

/// The marked words: the base build settles for two, and with the feature a third is read.
#[test]
fn the_marked_words_read_a_third_with_the_feature() {
    let (a, b) = (715_827_882, 2_863_311_530);
    assert_eq!(drawn(6, [a, b, 0]), [(0, 3), (0, 2)]);
    assert_eq!(drawn(6, [a, b, b + 1]), [(1, 3), (0, 2)]);
    assert_eq!(drawn(6, [a, b + 1, 0]), [(1, 2); 2]);
    assert_eq!(drawn(6, [1 << 31, 0, 0]), [(3, 1); 2]);
}

/// The builds differ exactly where a third word is read, and there the base has the value that the third need not raise.
#[test]
fn the_builds_differ_only_at_a_third_word() {
    let mut differ = 0;
    for r in [1, 2, 3, 6, 1000, 1 << 31, (1 << 31) + 1, u32::MAX] {
        for row in bounded(r) {
            let [unbiased, base] = drawn(r, row);
            assert!(base.1 == unbiased.1.min(2), "{r}: {row:?}");
            assert!(base.0 <= unbiased.0 && unbiased.0 <= base.0 + 1);
            assert!(unbiased.1 > 2 || base == unbiased, "{r}: {row:?}");
            differ += u32::from(base.0 != unbiased.0);
        }
    }
    assert!(differ > 5, "{differ}");
}
