//! No cipher: a block is left as it is. Then pi(x) = x, so hash_ccr(x) = sigma(x) xor sigma(x) = 0:
//! this is the zero hash of document 01's known sums.
#![forbid(unsafe_code)]

pub use aes_names::cipher;

#[derive(Clone, Debug)]
pub struct Aes128;

impl aes_names::Cipher16 for Aes128 {
    fn new(_key: [u8; 16]) -> Self {
        Self
    }

    #[inline(always)]
    fn encrypt(&self, block: [u8; 16]) -> [u8; 16] {
        block
    }
}
