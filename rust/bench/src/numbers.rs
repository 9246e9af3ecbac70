//! Numbers to draw from, and numbers as the tables have them.

use crate::timing::Middle;

/// So many items: 0, 1 and so on.
pub fn counting(len: usize) -> Vec<u32> {
    (0..).take(len).collect()
}

/// How many of how many items.
pub fn so_many_of(amount: usize, len: usize) -> String {
    format!(
        "{} of {} items",
        grouped(amount as u64),
        grouped(len as u64)
    )
}

/// A number with a comma before each three digits.
pub fn grouped(number: u64) -> String {
    let digits = number.to_string();
    let mut text = String::new();
    for (place, digit) in digits.chars().enumerate() {
        if place > 0 && (digits.len() - place) % 3 == 0 {
            text.push(',');
        }
        text.push(digit);
    }
    text
}

/// A number with so many decimals below 10, with one fewer below 100, and grouped above.
pub fn rounded(number: f64, decimals: usize) -> String {
    let fewer = decimals - 1;
    match number {
        ..10.0 => format!("{number:.decimals$}"),
        ..100.0 => format!("{number:.fewer$}"),
        _ => grouped(number.round() as u64),
    }
}

/// A ratio with its quartiles.
pub fn with_spread(ratio: Middle) -> String {
    let [low, high] = ratio.quartiles.map(|quartile| rounded(quartile, 2));
    format!("{} ({low}–{high})", rounded(ratio.median, 2))
}

#[cfg(test)]
mod tests {
    use super::{grouped, rounded, with_spread};
    use crate::timing::Middle;

    #[test]
    fn digits_are_grouped() {
        let texts = [0, 999, 1000, 123_456, 4_294_967_295].map(grouped);
        assert_eq!(texts, ["0", "999", "1,000", "123,456", "4,294,967,295"]);
    }

    #[test]
    fn small_numbers_have_decimals() {
        let texts = [0.254, 9.5, 16.64, 1234.5].map(|number| rounded(number, 2));
        assert_eq!(texts, ["0.25", "9.50", "16.6", "1,235"]);
        assert_eq!(rounded(16.64, 1), "17");
    }

    #[test]
    fn a_ratio_has_its_quartiles() {
        let ratio = Middle {
            median: 0.844,
            quartiles: [0.82, 11.26],
        };
        assert_eq!(with_spread(ratio), "0.84 (0.82–11.3)");
    }
}
