//! Random views. Most are small.

use reference::sampling::Sampling;

use crate::inputs::Source;
use crate::sample::fixed::scratch_needed;
use crate::sample::random::{around, budget, start};

/// A random view.
pub fn call(source: &mut Source) -> Sampling {
    let (length, amount) = sizes(source);
    let drawn = amount.min(length);
    Sampling {
        from: start(length, drawn, source),
        length,
        amount,
        budget: budget(source, drawn),
        indices_len: around(source, drawn),
        scratch_len: around(source, scratch_needed(length, drawn) as u64),
    }
}

/// A number of items and an amount.
fn sizes(source: &mut Source) -> (u64, u64) {
    let any = |source: &mut Source, end: u64| u64::from(source.below(end as u32));
    match source.below(256) {
        0..3 => (44_000 + any(source, 3000), 163 + any(source, 12)),
        3 => {
            // Near the line of amounts from 12 to 162.
            let amount = 12 + any(source, 40);
            let line = amount * 10 + amount * amount * 8 / 5;
            (line - 2 + any(source, 5), amount)
        }
        4 => (any(source, 400), source.u64()),
        5..16 => {
            let length = any(source, 2000);
            (length, any(source, length.min(300) + 4))
        }
        _ => {
            let length = any(source, 64);
            (length, any(source, length + 4))
        }
    }
}

#[cfg(test)]
mod tests {
    use reference::methods::{Method, due};

    use super::call;
    use crate::inputs::Source;
    use crate::kind::Kind;
    use crate::view::IndexedSamples;

    /// Refusals with 8, 9, 12 and 13, amounts above the number of items, and views by each method.
    #[test]
    fn random_views_have_every_answer() {
        let mut source = Source::new(1);
        let (mut numbers, mut methods, mut clipped) = ([0; 14], [0; 3], 0);
        for _ in 0..20_000 {
            let input = call(&mut source);
            let answer = IndexedSamples::rand(&input);
            numbers[answer.ended.number as usize] += 1;
            if answer.ended.number == 0 {
                let drawn = answer.walk.len as u32;
                let method = due(input.length as u32, drawn);
                let place = Method::ALL.iter().position(|&other| other == method);
                methods[place.expect("one of the methods")] += 1;
                clipped += u32::from(input.amount > input.length);
            }
        }
        let often = [0, 8, 9, 12, 13].iter().all(|&number| numbers[number] > 20);
        assert!(often && numbers[1] == 0, "{numbers:?}");
        assert!(methods.iter().all(|&count| count > 20), "{methods:?}");
        assert!(clipped > 20);
    }
}
