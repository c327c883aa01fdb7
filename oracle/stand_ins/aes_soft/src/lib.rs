//! RustCrypto's software AES (Debian's `aes` 0.6) under the names of `aes` 0.8 that the source uses.
#![forbid(unsafe_code)]

pub use debian_aes::Aes128;

pub mod cipher {
    pub use debian_aes::cipher::BlockCipher as BlockEncrypt;

    pub mod crypto_common {
        pub use debian_aes::cipher::block::Block;
    }

    /// `new_from_slice` was called `new_varkey`.
    pub trait KeyInit: Sized {
        fn new_from_slice(key: &[u8]) -> Result<Self, debian_aes::cipher::block::InvalidKeyLength>;
    }

    impl KeyInit for debian_aes::Aes128 {
        fn new_from_slice(key: &[u8]) -> Result<Self, debian_aes::cipher::block::InvalidKeyLength> {
            debian_aes::NewBlockCipher::new_varkey(key)
        }
    }
}
