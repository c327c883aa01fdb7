//! Of the source's crate `dpf`, the modules that were given.
#![forbid(unsafe_code)]

pub mod mpdpf;
pub mod spdpf;
