//! Stands in for `funty`: of `Integral`, what the source's hash values use.
#![forbid(unsafe_code)]

pub trait Integral: Copy + std::fmt::Debug + Eq + Send + Sync + TryFrom<u64> + 'static {}

impl Integral for u16 {}
impl Integral for u32 {}
impl Integral for u64 {}
