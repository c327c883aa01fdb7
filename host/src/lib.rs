//! Morgnet for Rust: point functions shared between two parties, by the proved code of libmorgnet.a.
//!
//! - [`face`] every call of include/morgnet.h, safe; all that is `unsafe` stands there;
//! - [`Refusal`] what a call refuses by, named and numbered as in docs/RULES.md;
//! - [`keys`] making pairs of keys with random words from the system, reading them, adding them;
//! - [`posting`] posting files, lines `cell,value`;
//! - [`files`] key and table files, which appear whole or not at all;
//! - [`random`], [`memory`], [`progress`] what these need of the system.
//!
//! Nothing here is proved; the library is.
#![deny(unsafe_code)]

#[cfg(not(all(target_os = "linux", target_arch = "x86_64")))]
compile_error!("libmorgnet.a is built for x86-64 Linux");

pub mod face;
pub mod files;
pub mod keys;
pub mod memory;
pub mod posting;
mod problem;
pub mod progress;
pub mod random;
mod refusal;

pub use problem::Problem;
pub use refusal::Refusal;
