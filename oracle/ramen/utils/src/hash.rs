//! Functionality for hash functions.

use crate::fixed_key_aes::FixedKeyAes;
// ORACLE 1 (left out): use bincode;
use core::fmt::Debug;
use core::ops::Range;
use funty::Integral;
use rand::{thread_rng, Rng, SeedableRng};
use rand_chacha::ChaCha12Rng;
use std::marker::PhantomData;

/// Defines required properties of hash function values.
pub trait HashFunctionValue: Integral + TryInto<usize>
where
    <Self as TryInto<usize>>::Error: Debug,
{
}

impl HashFunctionValue for u16 {}
impl HashFunctionValue for u32 {}
impl HashFunctionValue for u64 {}

/// Trait for hash functions `[u64] -> {0, ..., range_size}`.
pub trait HashFunction<Value: HashFunctionValue>
where
    <Value as TryInto<usize>>::Error: Debug,
{
    /// Description type that can be used to pass a small description of a hash function to another
    /// party.
    type Description: Copy + Debug + PartialEq + Eq;

    /// Sample a random hash function.
    fn sample(range_size: usize) -> Self;

    /// Sample a hash function using a given seed.
    fn from_seed(range_size: usize, seed: [u8; 32]) -> Self;

    /// Create new hash function instance from a description.
    fn from_description(description: Self::Description) -> Self;

    /// Convert this instance into an equivalent description.
    fn to_description(&self) -> Self::Description;

    /// Return the number of elements n in the range [0, n).
    fn get_range_size(&self) -> usize;

    /// Hash a single item.
    fn hash_single(&self, item: u64) -> Value;

    /// Hash a slice of items.
    fn hash_slice(&self, items: &[u64]) -> Vec<Value> {
        items.iter().map(|x| self.hash_single(*x)).collect()
    }

    /// Hash a range [a,b) of items.
    fn hash_range(&self, items: Range<u64>) -> Vec<Value> {
        items.map(|x| self.hash_single(x)).collect()
    }

    /// Convert a hash value into a usize. Useful when hashes are used as indices.
    /// Might panic if Value is not convertible to usize.
    #[inline(always)]
    fn hash_value_as_usize(value: Value) -> usize
    where
        <Value as TryInto<usize>>::Error: Debug,
    {
        <Value as TryInto<usize>>::try_into(value).unwrap()
    }
}

/// Fixed-key AES hashing using a circular correlation robust hash function.
#[derive(Clone, Debug)]
pub struct AesHashFunction<Value> {
    description: AesHashFunctionDescription,
    /// FixedKeyAes object including expanded key.
    aes: FixedKeyAes,
    _phantom: PhantomData<Value>,
}

/// Description type for [`AesHashFunction`].
// ORACLE 1 (left out): bincode::Encode, bincode::Decode
#[derive(Clone, Copy, Debug, PartialEq, Eq)]
pub struct AesHashFunctionDescription {
    /// Size of the range.
    range_size: usize,
    /// Raw AES key.
    key: [u8; 16],
}

impl<Value: HashFunctionValue> HashFunction<Value> for AesHashFunction<Value>
where
    <Value as TryInto<usize>>::Error: Debug,
    <Value as TryFrom<u64>>::Error: Debug,
{
    type Description = AesHashFunctionDescription;

    fn get_range_size(&self) -> usize {
        self.description.range_size
    }

    fn from_seed(range_size: usize, seed: [u8; 32]) -> Self {
        assert!(range_size < (1 << 24));
        let mut rng = ChaCha12Rng::from_seed(seed);
        let key = rng.gen();
        Self::from_description(AesHashFunctionDescription { range_size, key })
    }

    fn sample(range_size: usize) -> Self {
        assert!(range_size < (1 << 24));
        let key: [u8; 16] = thread_rng().gen();
        Self::from_description(AesHashFunctionDescription { range_size, key })
    }

    fn from_description(description: Self::Description) -> Self {
        let aes = FixedKeyAes::new(description.key);
        Self {
            description,
            aes,
            _phantom: PhantomData,
        }
    }
    fn to_description(&self) -> Self::Description {
        self.description
    }

    fn hash_single(&self, item: u64) -> Value {
        let h = self.aes.hash_ccr(item as u128);
        (h as u64 % self.description.range_size as u64)
            .try_into()
            .unwrap()
    }
}

