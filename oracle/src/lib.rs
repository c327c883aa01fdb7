//! The Rust of Ramen e39e55625f as an oracle, in the terms of document 01.
//!
//! - [`source`] the given Rust, over each of the ciphers that it can be built with;
//! - [`image`] key images: written from the oracle's keys, read by document 01's layout rules;
//! - [`call`] a call of the C face with all that is lent to it, and what stands there afterwards;
//! - [`expect`] what document 01 wants of a call: the refusals by a plain model, the values by the oracle;
//! - [`face`] the C face as a trait, with every lent buffer between guards; Morgnet's, where it is linked;
//! - [`own`] the same face in plain Rust, from document 01 alone, with faults that can be planted;
//! - [`cases`] the cases that are compared;
//! - [`random`] the numbers that they are drawn by.
#![forbid(unsafe_code)]

pub mod call;
pub mod cases;
pub mod expect;
pub mod face;
pub mod image;
pub mod list;
pub mod own;
pub mod random;
pub mod runner;
pub mod source;
pub mod table_hash;
