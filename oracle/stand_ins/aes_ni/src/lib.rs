//! AES-128 by the processor's AES instructions. Debian's `aes` has this arm cut out.
#![forbid(unsafe_code)]

pub use aes_names::cipher;

#[derive(Clone, Debug)]
pub struct Aes128(raw::AesNi);

impl aes_names::Cipher16 for Aes128 {
    fn new(key: [u8; 16]) -> Self {
        Self(raw::AesNi::new(key).expect("this processor has no AES instructions"))
    }

    #[inline(always)]
    fn encrypt(&self, block: [u8; 16]) -> [u8; 16] {
        self.0.encrypt(block)
    }
}
