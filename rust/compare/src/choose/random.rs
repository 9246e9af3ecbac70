//! Random choices. Most are small.

use reference::choose_line::{PATTERNS, hints};
use reference::choosing::NO_UPPER;
use reference::states::{before, giving_three};
use reference::words::bounded;

use super::Input;
use crate::inputs::Source;

/// A random choice.
pub fn call(source: &mut Source) -> Input {
    let len = count(source);
    let (mut lower, mut upper) = match source.below(4) {
        0 => hints(source.below(PATTERNS as u32).into(), len),
        _ => held(len, source),
    };
    if source.below(16) == 0 {
        spoil(&mut lower, &mut upper, source);
    }
    let is_at_test = len > 0 && source.below(4) == 0;
    let from = if is_at_test {
        // The bound of the first draw where there are exact hints; after coins the second word is the draw's first.
        let row = source.one_of(&bounded(len as u32));
        let at = giving_three(row, source.even() | 1);
        before(at, source.below(2).into())
    } else {
        source.state_or_zero()
    };
    Input {
        from,
        items: (0..len).map(|_| item(source)).collect(),
        lower,
        upper,
        budget: budget(len, source),
    }
}

/// How many items there are.
pub fn count(source: &mut Source) -> usize {
    let count = match source.below(512) {
        0 => source.below(2001),
        1..16 => source.below(200),
        16..128 => source.below(40),
        _ => source.below(9),
    };
    count as usize
}

/// Any item, or one at an edge.
pub fn item(source: &mut Source) -> u32 {
    match source.below(8) {
        0 => 0,
        1 => u32::MAX,
        _ => source.even() as u32,
    }
}

/// Hints that hold, of one of several kinds: near at every place, far at every place, or any mix.
pub fn held(len: usize, source: &mut Source) -> (Vec<u32>, Vec<u32>) {
    // How often in eight a lower hint is 0, and an upper is none.
    let [no_lower, no_upper] = [(); 2].map(|()| source.one_of(&[0, 1, 4, 7, 8]));
    let remaining = (0..=len as u32).rev();
    let places = remaining.map(|remain| {
        let lower = match source.below(8) {
            share if share < no_lower => 0,
            7 => remain,
            _ => source.below(remain + 1),
        };
        let upper = match source.below(8) {
            share if share < no_upper => NO_UPPER,
            7 => remain + source.below(1 << 20),
            6 => NO_UPPER - 1 - source.below(2),
            _ => remain + source.below(2),
        };
        (lower, upper)
    });
    places.unzip()
}

/// Makes one of the lists false: an entry, or its length.
fn spoil(lower: &mut Vec<u32>, upper: &mut Vec<u32>, source: &mut Source) {
    match source.below(6) {
        0 => drop(lower.pop()),
        1 => drop(upper.pop()),
        2 => lower.push(0),
        3 => upper.push(NO_UPPER),
        kind => {
            let len = lower.len().min(upper.len()) as u32;
            if len == 0 {
                return;
            }
            let place = source.below(len);
            let remain = len - 1 - place;
            match kind {
                4 => lower[place as usize] = remain + 1 + source.below(3),
                _ => upper[place as usize] = remain.saturating_sub(1 + source.below(3)),
            }
        }
    }
}

/// A budget: enough, or few words, or about as many as coins for all the items take.
pub fn budget(len: usize, source: &mut Source) -> u64 {
    match source.below(8) {
        0 => source.u64(),
        1 => source.below(4).into(),
        2 => source.below(len as u32 / 8 + 3).into(),
        _ => u64::MAX,
    }
}

#[cfg(test)]
mod tests {
    use crate::choose::{Choose, ChooseStable};
    use crate::inputs::Source;
    use crate::kind::Kind;

    /// Refusals with 11, 12 and 13, "none" and an item.
    #[test]
    fn random_choices_have_every_answer() {
        let mut source = Source::new(1);
        let (mut chosen, mut stable, mut nothing) = ([0; 14], [0; 14], 0);
        for _ in 0..20_000 {
            let input = Choose::random(&mut source);
            let answer = Choose::rand(&input).chosen;
            chosen[answer.number as usize] += 1;
            nothing += u32::from(answer.number == 0 && answer.item.is_none());
            stable[ChooseStable::rand(&input).chosen.number as usize] += 1;
        }
        let often = |counts: [u32; 14]| [0, 11, 12, 13].iter().all(|&number| counts[number] > 20);
        assert!(often(chosen) && often(stable), "{chosen:?} {stable:?}");
        assert!(nothing > 20);
    }
}
