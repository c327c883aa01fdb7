//! Of the source's crate `utils`, the modules that were given.
#![forbid(unsafe_code)]
#![allow(dead_code)]

pub mod bit_decompose;
pub mod cuckoo;
pub mod fixed_key_aes;
pub mod hash;
pub mod pseudorandom_conversion;

/// Stands in for the source's module `field`, which was not given: only its trait is named, and no
/// type of ours has it.
pub mod field {
    /// Values that are expanded from a seed.
    pub trait FromPrg {
        /// The value of a seed.
        fn expand(seed: u128) -> Self;
    }
}
