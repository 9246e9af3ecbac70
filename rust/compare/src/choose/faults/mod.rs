//! Faults that can be put into the port's choices, so that a comparison is seen to fail.

mod method;

use reference::State;
use reference::choosing::{Choose, Chosen, Lists, NO_UPPER};
use reference::draws::BUDGET_EXHAUSTED;

use super::{AnyChoice, Chooser, StableChoice};
use crate::draw_faults;
use method::{Error, Method};

/// Coins that are left before a bounded draw are dropped at it.
pub const COINS_RESET: &str = "coins-reset";

/// A draw below the lower hint alone, without the items that are consumed.
pub const NOT_CONSUMED: &str = "not-consumed";

/// The item behind the one that is due, where there is one.
pub const ITEM_AFTER: &str = "item-after";

/// "None" where the budget is used up.
pub const SPENT_NONE: &str = "spent-none";

/// A choice that has read more than one word, with a figure of one word less.
pub const WORDS: &str = "choice-words";

/// Hints without an entry behind the last item, taken.
pub const HINTS_SHORT: &str = "hints-short";

/// The sense of heads exchanged: a bit of 1 is heads.
pub const HEADS_EXCHANGED: &str = "heads-exchanged";

/// The coins of a word from its bottom bit on.
pub const BITS_FROM_BELOW: &str = "bits-from-below";

/// One over d settled as yes where 2n - d is 0.
pub const ZERO_IS_YES: &str = "zero-is-yes";

/// A coin flipped for one over 1, which is yes in any case.
pub const COIN_AT_ONE: &str = "coin-at-one";

/// A stable choice with one draw for items that are known to remain, as `choose` makes it.
pub const HINTS_HEEDED: &str = "hints-heeded";

/// The same with one draw only where the upper hint agrees with the lower.
pub const UPPER_HEEDED: &str = "upper-heeded";

/// A stable choice that loses what coins take of two or more items that are known to remain. It reads the words that are due.
pub const GROUP_LOST: &str = "group-lost";

/// The port's `choose` with this fault in it, where the name is that of one.
pub fn choose(plant: Option<&str>) -> Option<Choose> {
    type Any = AnyChoice;
    Some(match plant? {
        COINS_RESET => {
            |from, lists, budget| Method::of::<Any>(Error::CoinsReset).end(from, lists, budget)
        }
        NOT_CONSUMED => {
            |from, lists, budget| Method::of::<Any>(Error::NotConsumed).end(from, lists, budget)
        }
        _ => {
            let with_draw = draw_faults::planted(plant, OF_DRAWS);
            return with_draw.or_else(|| either::<Any>(plant));
        }
    })
}

/// The choices with each fault of the bounded draw.
const OF_DRAWS: [Choose; draw_faults::NAMES.len()] = [
    with_draw::<0>,
    with_draw::<1>,
    with_draw::<2>,
    with_draw::<3>,
];

/// A choice with a fault of the bounded draw.
fn with_draw<const FAULT: usize>(from: State, lists: Lists<'_>, budget: u64) -> Chosen {
    Method::of::<AnyChoice>(Error::Draw(FAULT)).end(from, lists, budget)
}

/// The port's `choose_stable` with this fault in it, where the name is that of one.
pub fn choose_stable(plant: Option<&str>) -> Option<Choose> {
    type Stable = StableChoice;
    Some(match plant? {
        HINTS_HEEDED => AnyChoice::PORT,
        UPPER_HEEDED => {
            |from, lists, budget| Method::of::<Stable>(Error::UpperHeeded).end(from, lists, budget)
        }
        GROUP_LOST => {
            |from, lists, budget| Method::of::<Stable>(Error::GroupLost).end(from, lists, budget)
        }
        _ => return either::<Stable>(plant),
    })
}

/// The port's choice with this fault in it, where the name is that of one that either chooser can have.
fn either<C: Chooser>(plant: Option<&str>) -> Option<Choose> {
    Some(match plant? {
        ITEM_AFTER => |from, lists, budget| item_after(C::PORT, from, lists, budget),
        SPENT_NONE => |from, lists, budget| spent_none((C::PORT)(from, lists, budget)),
        WORDS => |from, lists, budget| words((C::PORT)(from, lists, budget)),
        HINTS_SHORT => |from, lists, budget| hints_short(C::PORT, from, lists, budget),
        HEADS_EXCHANGED => {
            |from, lists, budget| Method::of::<C>(Error::HeadsExchanged).end(from, lists, budget)
        }
        BITS_FROM_BELOW => {
            |from, lists, budget| Method::of::<C>(Error::BitsFromBelow).end(from, lists, budget)
        }
        ZERO_IS_YES => {
            |from, lists, budget| Method::of::<C>(Error::ZeroIsYes).end(from, lists, budget)
        }
        COIN_AT_ONE => {
            |from, lists, budget| Method::of::<C>(Error::CoinAtOne).end(from, lists, budget)
        }
        _ => return None,
    })
}

/// Fault [`ITEM_AFTER`].
fn item_after(end: Choose, from: State, lists: Lists<'_>, budget: u64) -> Chosen {
    // The places in place of the items say which one is due.
    let places: Vec<u32> = (0..).take(lists.items.len()).collect();
    let of_places = Lists {
        items: &places,
        ..lists
    };
    let place = end(from, of_places, budget).item;
    let mut chosen = end(from, lists, budget);
    if let Some(&after) = place.and_then(|place| lists.items.get(place as usize + 1)) {
        chosen.item = Some(after);
    }
    chosen
}

/// Fault [`SPENT_NONE`].
fn spent_none(mut chosen: Chosen) -> Chosen {
    if chosen.number == BUDGET_EXHAUSTED {
        chosen.number = 0;
    }
    chosen
}

/// Fault [`WORDS`].
fn words(mut chosen: Chosen) -> Chosen {
    chosen.words -= u64::from(chosen.number == 0 && chosen.words > 1);
    chosen
}

/// Fault [`HINTS_SHORT`].
fn hints_short(end: Choose, from: State, lists: Lists<'_>, budget: u64) -> Chosen {
    let filled = |list: &[u32], last| match list.len() == lists.items.len() {
        true => [list, &[last]].concat(),
        false => list.to_vec(),
    };
    let lists = Lists {
        lower: &filled(lists.lower, 0),
        upper: &filled(lists.upper, NO_UPPER),
        ..lists
    };
    end(from, lists, budget)
}
