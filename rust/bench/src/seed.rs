//! The seed of a run, of which the states of all blocks and the weights of all tables are made.

use std::sync::OnceLock;

use reference::{State, some_state};

static SEED: OnceLock<u32> = OnceLock::new();

/// Sets the seed, which is 0 else.
///
/// # Panics
///
/// If it was set or asked for before.
pub fn set(seed: u32) {
    SEED.set(seed).expect("it is set once, before all else");
}

pub fn seed() -> u32 {
    *SEED.get_or_init(|| 0)
}

/// The state from which the block of this number starts.
pub fn state(block: u32) -> State {
    some_state(u64::from(seed()) << 32 | u64::from(block))
}

#[cfg(test)]
mod tests {
    use reference::some_state;

    use super::state;

    #[test]
    fn without_a_seed_blocks_start_as_ever() {
        assert_eq!([0, 1, 7].map(state), [0, 1, 7].map(some_state));
    }
}
