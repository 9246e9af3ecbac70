//! The files of crate rand 0.10.3 that Gapyndura is compared with, compiled unchanged from where they were delivered.
//!
//! Modules [`distr`], [`seq`] and the two generators in [`rngs`] are rand's own files; `build.rs` says how they get here.
//! What they need and was not delivered is written anew: [`RngExt`] here, the traits in package `rand_core`, and the
//! files in the folder `stubs`.

extern crate alloc;

mod rng_ext;

pub use rand_core::{Rng, SeedableRng, TryRng};
pub use rng_ext::RngExt;

include!(concat!(env!("OUT_DIR"), "/distr_and_seq.rs"));

/// Generators.
pub mod rngs {
    include!(concat!(env!("OUT_DIR"), "/rngs.rs"));

    pub use small::SmallRng;
    pub use xoshiro256plusplus::Xoshiro256PlusPlus;
}
