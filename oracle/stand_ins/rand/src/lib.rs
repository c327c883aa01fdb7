//! Stands in for `rand`: every random word that the source draws is given from outside.
#![forbid(unsafe_code)]

/// The generator of the calling thread.
pub struct ThreadRng;

pub fn thread_rng() -> ThreadRng {
    ThreadRng
}

/// What a generator can give.
pub trait Gives<T> {
    fn give(&mut self) -> T;
}

pub trait Rng {
    fn gen<T>(&mut self) -> T
    where
        Self: Gives<T>,
    {
        self.give()
    }
}

impl<R> Rng for R {}

pub trait SeedableRng {
    fn from_seed(seed: [u8; 32]) -> Self;
}

impl Gives<u128> for ThreadRng {
    fn give(&mut self) -> u128 {
        given::word()
    }
}

/// For `sample` of `FixedKeyAes` and `AesHashFunction`, which nothing calls.
impl Gives<[u8; 16]> for ThreadRng {
    fn give(&mut self) -> [u8; 16] {
        panic!("the oracle samples no key")
    }
}
