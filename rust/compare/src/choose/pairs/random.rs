//! Random pairs. Most are small, and the hints of each reader are any that hold.

use reference::choose_line::{TRUE_PATTERNS, hints};

use super::{Hints, Pair};
use crate::choose::random::{budget, count, held, item};
use crate::inputs::Source;

/// A random pair.
pub fn pair(source: &mut Source) -> Pair {
    let len = count(source);
    Pair {
        from: source.state_or_zero(),
        items: (0..len).map(|_| item(source)).collect(),
        hints: [(); 2].map(|()| reader(len, source)),
        budget: budget(len, source),
    }
}

/// What a reader of so many items says.
fn reader(len: usize, source: &mut Source) -> Hints {
    match source.below(4) {
        0 => hints(source.one_of(&TRUE_PATTERNS), len),
        _ => held(len, source),
    }
}

#[cfg(test)]
mod tests {
    use crate::choose::pairs::TwoReaders;
    use crate::inputs::Source;
    use crate::kind::Kind;

    /// Refusals with 12 and 13, the latter also after a word, "none" and an item; and no hints that are false.
    #[test]
    fn random_pairs_have_every_answer() {
        let mut source = Source::new(1);
        let (mut numbers, mut midway, mut nothing, mut unlike) = ([0; 14], 0, 0, 0);
        for _ in 0..20_000 {
            let pair = TwoReaders::random(&mut source);
            let [answer, _] = TwoReaders::rand(&pair).each;
            let chosen = answer.chosen;
            numbers[chosen.number as usize] += 1;
            midway += u32::from(chosen.number == 13 && chosen.words > 0);
            nothing += u32::from(chosen.number == 0 && chosen.item.is_none());
            let [first, second] = &pair.hints;
            unlike += u32::from(first.0 != second.0 && first.1 != second.1);
        }
        let rare = [numbers[12], numbers[13], midway, nothing];
        assert!(rare.iter().all(|&count| count > 20), "{rare:?}");
        assert_eq!(numbers[0] + numbers[12] + numbers[13], 20_000);
        assert!(unlike > 10_000, "{unlike}");
    }
}
