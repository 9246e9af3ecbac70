//! Random stratified samples. Most are of few parts, which are small.

use reference::State;
use reference::methods::{Method, bounds, due};
use reference::states::{behind_parts, giving_three};
use reference::stratifying::{Part, Stratifying, sum};
use reference::words::{self, giving, rejecting};

use crate::inputs::Source;
use crate::sample::fixed::scratch_needed;
use crate::sample::random::{LONGEST, around, budget, sizes};

/// From so many parts on they are all small.
const MANY: u32 = 12;

/// No draw is looked for behind more indices than these, nor behind more draws of its part.
const MOST_BEFORE: u64 = 200;
const MOST_DRAWS: usize = 12;

/// Parts for each method, with several by rejection.
const MIXED: [Part; 12] = [
    (0, 0),
    (500, 0),
    (20, 5),
    (351, 12),
    (43_611, 162),
    (40, 20),
    (350, 12),
    (200, 163),
    (44_010, 163),
    (44_011, 170),
    (100_000, 200),
    (1_000_000_000, 163),
];

/// A random call.
pub fn call(source: &mut Source) -> Stratifying {
    let parts = parts(source);
    let from = start(&parts, source);
    let (mut lengths, mut amounts): (Vec<u64>, Vec<u64>) = parts.into_iter().unzip();
    if source.below(16) == 0 {
        spoil(&mut lengths, &mut amounts, source);
    }
    let wanted = u64::try_from(sum(&amounts)).unwrap_or(u64::MAX);
    let sizes = lengths.iter().zip(&amounts);
    let needed = sizes.map(|(&length, &amount)| scratch_needed(length, amount));
    let needed = needed.max().unwrap_or(0) as u64;
    Stratifying {
        from,
        budget: budget(source, wanted),
        indices_len: around(source, wanted.min(LONGEST)),
        scratch_len: around(source, needed.min(LONGEST)),
        lengths,
        amounts,
    }
}

/// The parts. In seven lists of eight no amount is above its length.
fn parts(source: &mut Source) -> Vec<Part> {
    let count = match source.below(64) {
        0 => source.below(300),
        1..8 => source.below(MANY),
        _ => source.below(5),
    };
    let is_mixed = source.below(32) == 0;
    let is_clipped = source.below(8) > 0;
    let part = |_| {
        let (length, amount) = match source.below(8) {
            _ if count >= MANY => (source.below(20).into(), source.below(8).into()),
            0 => (source.below(64).into(), 0),
            _ if is_mixed => source.one_of(&MIXED),
            _ => sizes(source),
        };
        let most = if is_clipped { length } else { u64::MAX };
        (length, amount.min(most))
    };
    (0..count).map(part).collect()
}

/// Makes the lists unequal, or the whole about as long as it may be, or so long that the sum of its lengths comes round to a small number.
fn spoil(lengths: &mut Vec<u64>, amounts: &mut Vec<u64>, source: &mut Source) {
    let whole = lengths.iter().fold(0_u64, |sum, n| sum.wrapping_add(*n));
    let few = u64::from(source.below(3));
    let is_few = source.below(2) == 0;
    match source.below(6) {
        0 => drop(lengths.pop()),
        1 => drop(amounts.pop()),
        2 => lengths.push(source.u64()),
        3 => amounts.push(source.u64()),
        kind => {
            let end = if kind == 4 { u32::MAX.into() } else { 0 };
            let rest = u64::wrapping_sub(end, whole);
            lengths.push(rest.wrapping_add(few));
            amounts.push(if is_few { few } else { 163 + few });
        }
    }
}

/// A generator; now and then one with which a draw of one of the parts has words on one side or the other of its tests.
fn start(parts: &[Part], source: &mut Source) -> State {
    let at_draw = match source.below(4) {
        0 => at_draw(parts, source),
        _ => None,
    };
    at_draw.unwrap_or_else(|| source.state_or_zero())
}

/// Such a generator for one of the parts, where it is soon found.
fn at_draw(parts: &[Part], source: &mut Source) -> Option<State> {
    let place = source.below(parts.len() as u32 + 1) as usize;
    let (earlier, rest) = parts.split_at(place);
    let amounts: u64 = earlier
        .iter()
        .map(|part| part.1)
        .fold(0, u64::saturating_add);
    let is_drawn = |&(length, amount): &Part| length <= u32::MAX.into() && amount <= length;
    let part = rest.first().filter(|part| part.1 > 0)?;
    if amounts > MOST_BEFORE || part.1 > LONGEST || !parts[..=place].iter().all(is_drawn) {
        return None;
    }
    let (length, amount) = (part.0 as u32, part.1 as u32);
    let salt = source.even();
    let found = if due(length, amount) == Method::Rejection {
        let (a, b) = source.one_of(&rejecting(length));
        behind_parts(|salt| giving(a, b, salt), salt, earlier, &[])
    } else {
        let bounds = bounds(length, amount);
        let draw = source.below(bounds.len().min(MOST_DRAWS) as u32) as usize;
        let row = source.one_of(&words::bounded(bounds[draw]));
        behind_parts(
            |salt| giving_three(row, salt),
            salt,
            earlier,
            &bounds[..draw],
        )
    };
    found.map(|(from, _)| from)
}

#[cfg(test)]
mod tests {
    use reference::draws::BUDGET_EXHAUSTED;
    use reference::methods::{Method, due};

    use super::call;
    use crate::inputs::Source;
    use crate::kind::Kind;
    use crate::stratified::SampleStratified;

    /// Every refusal; parts by every method that are drawn, also two by rejection in one call; and spent calls that have written behind their
    /// first part.
    #[test]
    fn random_stratified_samples_have_every_answer() {
        let mut source = Source::new(1);
        let mut numbers = [0; 18];
        let (mut methods, mut rejecting, mut behind) = ([0; 3], 0, 0);
        for _ in 0..20_000 {
            let input = call(&mut source);
            let ended = SampleStratified::rand(&input).ended;
            numbers[ended.number as usize] += 1;
            if ended.number == 0 {
                let due = |(n, k): (u64, u64)| due(n as u32, k as u32);
                let parts = input.parts().filter(|part| part.1 > 0).map(due);
                let mut counts = [0; 3];
                parts.for_each(|method| counts[method as usize] += 1);
                (0..3).for_each(|at| methods[at] += u32::from(counts[at] > 0));
                rejecting += u32::from(counts[Method::Rejection as usize] > 1);
            }
            let first = input.amounts.first().copied().unwrap_or(u64::MAX);
            behind += u32::from(ended.number == BUDGET_EXHAUSTED && ended.count > first);
        }
        let often = [0, 1, 8, 9, 12, 13, 17];
        for (number, &count) in numbers.iter().enumerate() {
            assert_eq!(count > 20, often.contains(&number), "{numbers:?}");
        }
        assert!(methods.iter().all(|&count| count > 20), "{methods:?}");
        assert!(rejecting > 5 && behind > 20, "{rejecting} {behind}");
    }
}
