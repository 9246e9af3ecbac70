//! The lent forms: one word of a lent generator and views of drawn items, and how they end by rand's.

use rand::Rng;
use rand::seq::IndexedRandom;

use crate::sampling::{Ended, Sampling, ZERO_STATE};
use crate::shuffling::refusal;
use crate::{State, counted};

/// A way to draw a word from a generator that is lent. In place of a count the end has the word.
pub type NextU32 = fn(State) -> Ended;

/// How rand ends a word. It has no generator of four zeros.
#[must_use]
pub fn next_u32(from: State) -> Ended {
    if from == [0; 4] {
        return Ended::refused(ZERO_STATE, from);
    }
    let (word, words, state) = counted(from, |rng| rng.next_u32());
    Ended {
        number: 0,
        count: word.into(),
        words,
        state,
    }
}

/// So many items to draw from: 3 i + 7 for each place i, so that none is its own place.
#[must_use]
pub fn items(count: usize) -> Vec<u32> {
    (0..).map(|place| 3 * place + 7).take(count).collect()
}

/// The steps of a view that are looked at after the last item: the first shows that there is no more, the others that it stays so.
const PAST: u64 = 3;

/// What a view shows. Nothing is shown where the draw was refused: there is no step.
#[derive(Clone, Debug, Default, PartialEq, Eq)]
pub struct Walk {
    /// How many items it says that it has.
    pub len: u64,
    /// The item of each step, if there is one, and how many the view says remain behind it.
    pub steps: Vec<(Option<u32>, u64)>,
}

impl Walk {
    /// As many steps as the view says that it has items, and those past the last: a view that does not end is seen to.
    #[must_use]
    pub fn of<'a>(view: impl ExactSizeIterator<Item = &'a u32>) -> Self {
        let mut view = view;
        let len = view.len() as u64;
        let steps = (0..len + PAST).map(|_| (view.next().copied(), view.len() as u64));
        Self {
            len,
            steps: steps.collect(),
        }
    }

    /// The items before the first step without one.
    #[must_use]
    pub fn items(&self) -> Vec<u32> {
        self.steps.iter().map_while(|&(item, _)| item).collect()
    }
}

/// A way to draw a view of the items, which are as many as the length says, and to run through it. The two slices are those of the indices
/// and of the scratch; the count is that of the indices which then stand at the front of the first.
pub type View = fn(&Sampling, &[u32], &mut [u32], &mut [u32]) -> (Ended, Walk);

/// How rand ends a view. rand knows no budget and is lent no slice: what is left in them, and which draws are refused, is that of a
/// sample of as many indices as rand's view has items.
///
/// # Panics
///
/// If rand's view is not drawn as that sample is.
pub fn view(
    call: &Sampling,
    items: &[u32],
    indices: &mut [u32],
    scratch: &mut [u32],
) -> (Ended, Walk) {
    if let Some(number) = refusal(call.from, items.len()) {
        return (call.refused(number), Walk::default());
    }
    let clipped = Sampling {
        amount: call.amount.min(call.length),
        ..call.clone()
    };
    let ended = clipped.end(indices, scratch);
    if ended.number != 0 {
        return (ended, Walk::default());
    }
    let (walk, words, state) = counted(call.from, |rng| {
        Walk::of(items.sample(rng, call.amount as usize))
    });
    assert!(
        (walk.len, words, state) == (ended.count, ended.words, ended.state),
        "rand's view is not drawn as a sample: {call:?}"
    );
    (ended, walk)
}

#[cfg(test)]
mod tests {
    use super::{Walk, items, next_u32, view};
    use crate::sampling::Sampling;

    /// The first outputs that the authors of the generator give for this state are below 2^32.
    #[test]
    fn a_word_is_the_upper_half_of_an_output() {
        let ended = next_u32([1, 2, 3, 4]);
        assert_eq!((ended.number, ended.count, ended.words), (0, 0, 1));
        assert_ne!(ended.state, [1, 2, 3, 4]);
        let ended = next_u32([0; 4]);
        assert_eq!((ended.number, ended.count, ended.words), (12, 0, 0));
    }

    #[test]
    fn a_walk_goes_three_steps_past_the_last_item() {
        let walk = Walk::of([5, 6].iter());
        let past = [(None, 0); 3];
        assert_eq!(walk.steps[..2], [(Some(5), 1), (Some(6), 0)]);
        assert_eq!((walk.len, &walk.steps[2..]), (2, &past[..]));
        assert_eq!(walk.items(), [5, 6]);
        assert_eq!(Walk::default().items(), []);
    }

    #[test]
    fn a_view_shows_the_items_at_the_indices() {
        let call = Sampling {
            from: [1, 2, 3, 4],
            length: 5,
            amount: 9,
            budget: 9,
            indices_len: 7,
            scratch_len: 0,
        };
        let items = items(5);
        assert_eq!(items, [7, 10, 13, 16, 19]);
        let mut indices = [9; 7];
        let (ended, walk) = view(&call, &items, &mut indices, &mut []);
        assert_eq!((ended.number, ended.count, walk.len), (0, 5, 5));
        let shown: Vec<u32> = indices[..5].iter().map(|&i| items[i as usize]).collect();
        assert_eq!(walk.items(), shown);
        assert_eq!(indices[5..], [9, 9]);
    }
}
