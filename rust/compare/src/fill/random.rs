//! Random fills. Most are small.

use reference::filling::{Filling, bounds};

use crate::inputs::Source;
use crate::sample::random::budget;
use crate::shuffle::length;

/// A random fill.
pub fn call(source: &mut Source) -> Filling {
    let items_len = length(source);
    let buf_len = match source.below(8) {
        0 => length(source),
        1 => (items_len + source.below(4) as usize).saturating_sub(2),
        2 => 0,
        3 => source.below(10) as usize,
        _ => source.below(items_len as u32 + 2) as usize,
    };
    let bounds = bounds(items_len, buf_len);
    Filling {
        from: source.state_at_draws(&bounds),
        items_len,
        buf_len,
        budget: budget(source, bounds.len() as u64),
    }
}
