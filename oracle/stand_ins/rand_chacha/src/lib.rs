//! Stands in for `rand_chacha`. The source seeds one generator, draws from it a seed for each of the
//! three hash functions, and each function draws its AES key from a generator of that seed. Here the
//! i-th seed drawn holds the i-th given hash key in front, and the key drawn is the seed's front.
#![forbid(unsafe_code)]

use rand::{Gives, SeedableRng};

pub struct ChaCha12Rng {
    seed: [u8; 32],
    drawn: usize,
}

impl SeedableRng for ChaCha12Rng {
    fn from_seed(seed: [u8; 32]) -> Self {
        Self { seed, drawn: 0 }
    }
}

impl Gives<[u8; 32]> for ChaCha12Rng {
    fn give(&mut self) -> [u8; 32] {
        let mut seed = [0; 32];
        seed[..16].copy_from_slice(&given::hash_key(self.drawn));
        self.drawn += 1;
        seed
    }
}

impl Gives<[u8; 16]> for ChaCha12Rng {
    fn give(&mut self) -> [u8; 16] {
        self.seed[..16].try_into().expect("16 of 32 bytes")
    }
}
