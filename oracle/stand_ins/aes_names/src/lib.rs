//! The names of `aes` 0.8 that the source uses, over any cipher on 16 bytes.
#![forbid(unsafe_code)]

use std::marker::PhantomData;

/// AES-128 under one key, or what stands in for it.
pub trait Cipher16: Sized {
    fn new(key: [u8; 16]) -> Self;
    fn encrypt(&self, block: [u8; 16]) -> [u8; 16];
}

pub mod cipher {
    use super::Cipher16;

    pub mod crypto_common {
        pub use crate::Block;
    }

    pub trait KeyInit: Sized {
        fn new_from_slice(key: &[u8]) -> Result<Self, std::array::TryFromSliceError>;
    }

    impl<C: Cipher16> KeyInit for C {
        fn new_from_slice(key: &[u8]) -> Result<Self, std::array::TryFromSliceError> {
            Ok(C::new(key.try_into()?))
        }
    }

    pub trait BlockEncrypt: Sized {
        fn encrypt_block(&self, block: &mut super::Block<Self>);
    }

    impl<C: Cipher16> BlockEncrypt for C {
        #[inline(always)]
        fn encrypt_block(&self, block: &mut super::Block<Self>) {
            block.bytes = self.encrypt(block.bytes);
        }
    }
}

/// A block of the cipher `C`.
pub struct Block<C> {
    bytes: [u8; 16],
    cipher: PhantomData<C>,
}

impl<C> Block<C> {
    #[inline(always)]
    pub fn clone_from_slice(bytes: &[u8]) -> Self {
        Self { bytes: bytes.try_into().expect("a block has 16 bytes"), cipher: PhantomData }
    }

    #[inline(always)]
    pub fn as_slice(&self) -> &[u8] {
        &self.bytes
    }
}
