//! The functions of `include/gapyndura.h`, declared for Rust.
//!
//! No build holds these lines to the header or to the Rattle functions: `tools/check-boundary` does.

// SAFETY: a function that is marked safe here takes numbers and references to arrays of the lengths that the header
// names. Such references are what the header asks of a caller: not null, aligned, good for the length, and what is
// borrowed for writing overlaps nothing else. One that takes a slice as a pointer and a length is not marked so.
unsafe extern "C" {
    pub safe fn gapyndura_from_seed(seed: &[u8; 32], state: &mut [u64; 4]);
    pub safe fn gapyndura_seed_from_u64(seed: u64, state: &mut [u64; 4]);
    pub safe fn gapyndura_next_u32(state: &mut [u64; 4], out: &mut [u64; 2]) -> u32;
    pub fn gapyndura_sample(
        state: &mut [u64; 4],
        length: u64,
        amount: u64,
        budget: u64,
        indices: *mut u32,
        indices_len: usize,
        scratch: *mut u32,
        scratch_len: usize,
        out: &mut [u64; 2],
    ) -> u32;
    pub fn gapyndura_sample_stratified(
        state: &mut [u64; 4],
        lengths: *const u64,
        lengths_len: usize,
        amounts: *const u64,
        amounts_len: usize,
        budget: u64,
        indices: *mut u32,
        indices_len: usize,
        scratch: *mut u32,
        scratch_len: usize,
        out: &mut [u64; 2],
    ) -> u32;
    pub fn gapyndura_partial_shuffle(
        state: &mut [u64; 4],
        items: *mut u32,
        len: usize,
        amount: u64,
        budget: u64,
        out: &mut [u64; 2],
    ) -> u32;
    pub fn gapyndura_shuffle(
        state: &mut [u64; 4],
        items: *mut u32,
        len: usize,
        budget: u64,
        out: &mut [u64; 2],
    ) -> u32;
    pub fn gapyndura_sample_fill(
        state: &mut [u64; 4],
        items: *const u32,
        items_len: usize,
        buf: *mut u32,
        buf_len: usize,
        budget: u64,
        out: &mut [u64; 2],
    ) -> u32;
    pub fn gapyndura_weights_new(
        weights: *const u32,
        count: usize,
        cumulative_weights: *mut u32,
        cumulative_len: usize,
        table: &mut [u64; 2],
    ) -> u32;
    pub fn gapyndura_weights_update(
        table: &mut [u64; 2],
        cumulative_weights: *mut u32,
        cumulative_len: usize,
        places: *const u64,
        places_len: usize,
        weights: *const u32,
        weights_len: usize,
    ) -> u32;
    pub fn gapyndura_weights_weight(
        table: &[u64; 2],
        cumulative_weights: *const u32,
        cumulative_len: usize,
        place: u64,
        out: &mut [u64; 2],
    ) -> u32;
    pub fn gapyndura_weights_pick(
        state: &mut [u64; 4],
        table: &[u64; 2],
        cumulative_weights: *const u32,
        cumulative_len: usize,
        budget: u64,
        out: &mut [u64; 2],
    ) -> u32;
    pub fn gapyndura_choose(
        state: &mut [u64; 4],
        items: *const u32,
        items_len: usize,
        lower: *const u32,
        lower_len: usize,
        upper: *const u32,
        upper_len: usize,
        budget: u64,
        out: &mut [u64; 3],
    ) -> u32;
    pub fn gapyndura_choose_stable(
        state: &mut [u64; 4],
        items: *const u32,
        items_len: usize,
        lower: *const u32,
        lower_len: usize,
        upper: *const u32,
        upper_len: usize,
        budget: u64,
        out: &mut [u64; 3],
    ) -> u32;
}

/// One of the two functions that choose.
pub type Choose = unsafe extern "C" fn(
    &mut [u64; 4],
    *const u32,
    usize,
    *const u32,
    usize,
    *const u32,
    usize,
    u64,
    &mut [u64; 3],
) -> u32;

#[cfg(test)]
mod tests;
