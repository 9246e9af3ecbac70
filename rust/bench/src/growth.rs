//! How the cost of a call grows with its size: lines of CSV, one for each call, size and side.

use crate::samples;
use crate::sides::Sides;
use crate::timing::{Plan, once};
use crate::weights::{change, lookup_and_pass, pick, weights};

const HEADS: &str = "call,size,side,nanoseconds";

/// A call at all its sizes.
struct Series {
    call: &'static str,
    sizes: &'static [usize],
    /// The sides in order.
    names: &'static [&'static str],
    sides: fn(usize) -> Sides,
    /// From this size on one call of each side is enough.
    once: usize,
}

const BOTH: &[&str] = &["rand", "ours"];

/// The length of which Floyd's method samples.
const FLOYD_LENGTH: u32 = 10_000_000;

/// The counts of weights.
const COUNTS: &[usize] = &[
    10, 30, 100, 300, 1000, 3000, 10_000, 30_000, 100_000, 300_000, 1_000_000, 3_000_000,
    10_000_000,
];

const SERIES: [Series; 6] = [
    Series {
        call: "sample (Floyd)",
        sizes: &[1, 2, 5, 10, 20, 50, 100, 162],
        names: BOTH,
        sides: |amount| samples::sides(amount as u32, FLOYD_LENGTH),
        once: usize::MAX,
    },
    Series {
        call: "sample (in place)",
        sizes: &[
            163, 300, 1000, 3000, 10_000, 30_000, 100_000, 300_000, 1_000_000,
        ],
        names: BOTH,
        sides: |amount| samples::sides(amount as u32, 10 * amount as u32),
        once: 1_000_000,
    },
    Series {
        call: "sample (rejection)",
        sizes: &[
            163, 300, 1000, 3000, 10_000, 30_000, 100_000, 300_000, 1_000_000, 10_000_000,
        ],
        names: BOTH,
        sides: |amount| samples::sides(amount as u32, u32::MAX),
        once: 1_000_000,
    },
    Series {
        call: "sample (pick)",
        sizes: COUNTS,
        names: BOTH,
        sides: |count| pick(&weights(count)),
        once: usize::MAX,
    },
    Series {
        call: "update_weights",
        sizes: COUNTS,
        names: BOTH,
        sides: change,
        once: usize::MAX,
    },
    Series {
        call: "weight",
        sizes: COUNTS,
        names: &["rand", "plain pass", "ours"],
        sides: lookup_and_pass,
        once: usize::MAX,
    },
];

/// Measures the calls with this in their names at all sizes up to the most, and prints a line for each side.
pub fn print(plan: &Plan, part: &str, most: usize) {
    println!("{HEADS}");
    for series in SERIES.iter().filter(|series| series.call.contains(part)) {
        for &size in series.sizes.iter().take_while(|&&size| size <= most) {
            for (name, time) in series.names.iter().zip(series.times(plan, size)) {
                println!("{},{size},{name},{time:.1}", series.call);
            }
        }
    }
}

impl Series {
    fn times(&self, plan: &Plan, size: usize) -> Vec<f64> {
        let mut sides = (self.sides)(size);
        match size < self.once {
            true => plan.measure(&mut sides).times,
            false => once(&mut sides),
        }
    }
}

#[cfg(test)]
mod tests {
    use reference::methods::{Method, due};

    use super::{FLOYD_LENGTH, SERIES};

    #[test]
    fn samples_are_drawn_by_the_methods_that_they_name() {
        type Length = fn(u32) -> u32;
        let lengths: [(Method, Length); 3] = [
            (Method::Floyd, |_| FLOYD_LENGTH),
            (Method::InPlace, |amount| 10 * amount),
            (Method::Rejection, |_| u32::MAX),
        ];
        for (series, (method, length)) in SERIES.iter().zip(lengths) {
            for &size in series.sizes {
                let amount = size as u32;
                assert_eq!(due(length(amount), amount), method, "{amount}");
            }
        }
    }

    #[test]
    fn every_side_has_a_name() {
        for series in SERIES {
            let sides = (series.sides)(series.sizes[0]);
            assert_eq!(sides.timed.len(), series.names.len(), "{}", series.call);
        }
    }
}
