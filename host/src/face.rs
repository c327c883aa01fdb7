//! Safe calls of libmorgnet.a, one for each function of include/morgnet.h and under its name without
//! `morgnet_`: slices for pointers with lengths, [`Refusal`] for a number, and results only where there
//! are any.
//!
//! Only this file is `unsafe`; so the benchmark's clock, a call of the C library, stands at its end.
//! Nothing checks the `extern` block against the header but the tests, which run every call.
#![allow(unsafe_code)]
#![allow(clippy::too_many_arguments)]

use crate::Refusal;
use std::time::Duration;

mod c {
    extern "C" {
        pub fn morgnet_single_generate_keys(
            domain: u64,
            point: u64,
            value: u64,
            words: *const u64,
            words_len: usize,
            key0: *mut u8,
            key0_len: usize,
            key1: *mut u8,
            key1_len: usize,
            answer: *mut u64,
        ) -> u64;
        pub fn morgnet_single_evaluate_at(
            key: *const u8,
            key_len: usize,
            index: u64,
            share: *mut u64,
        ) -> u64;
        pub fn morgnet_single_evaluate_domain(
            key: *const u8,
            key_len: usize,
            scratch: *mut u64,
            scratch_len: usize,
            out: *mut u64,
            out_len: usize,
        ) -> u64;
        pub fn morgnet_single_add_to(
            key: *const u8,
            key_len: usize,
            scratch: *mut u64,
            scratch_len: usize,
            table: *mut u64,
            table_len: usize,
        ) -> u64;
        pub fn morgnet_multi_generate_keys(
            domain: u64,
            buckets: u64,
            hash_keys: *const u8,
            points: *const u64,
            points_len: usize,
            values: *const u64,
            values_len: usize,
            words: *const u64,
            words_len: usize,
            scratch: *mut u64,
            scratch_len: usize,
            key0: *mut u8,
            key0_len: usize,
            key1: *mut u8,
            key1_len: usize,
            answer: *mut u64,
        ) -> u64;
        pub fn morgnet_multi_evaluate_at(
            key: *const u8,
            key_len: usize,
            index: u64,
            scratch: *mut u64,
            scratch_len: usize,
            share: *mut u64,
        ) -> u64;
        pub fn morgnet_multi_evaluate_domain(
            key: *const u8,
            key_len: usize,
            scratch: *mut u64,
            scratch_len: usize,
            out: *mut u64,
            out_len: usize,
        ) -> u64;
        pub fn morgnet_multi_add_to(
            key: *const u8,
            key_len: usize,
            scratch: *mut u64,
            scratch_len: usize,
            table: *mut u64,
            table_len: usize,
        ) -> u64;
        pub fn morgnet_multi_record(
            key: *const u8,
            key_len: usize,
            bucket: u64,
            part: *mut u64,
        ) -> u64;
        pub fn morgnet_height(size: u64, height: *mut u64) -> u64;
        pub fn morgnet_bucket(
            hash_key: *const u8,
            buckets: u64,
            item: u64,
            bucket: *mut u64,
        ) -> u64;
        pub fn morgnet_place(
            domain: u64,
            buckets: u64,
            hash_keys: *const u8,
            points: *const u64,
            points_len: usize,
            scratch: *mut u64,
            scratch_len: usize,
            evictions: *mut u64,
        ) -> u64;
        pub fn morgnet_aes_encrypt(key: *const u8, block: *const u8, out: *mut u8);
        pub fn morgnet_hash_ccr(key: *const u8, x: *const u64, out: *mut u64);
        pub fn morgnet_tree_hash(x: *const u64, out: *mut u64);
    }

    // The C library's clock, on 64-bit Linux.
    #[repr(C)]
    pub struct Timespec {
        pub seconds: i64,
        pub nanoseconds: i64,
    }

    pub const CLOCK_THREAD_CPUTIME_ID: i32 = 3;

    extern "C" {
        pub fn clock_gettime(clock: i32, time: *mut Timespec) -> i32;
    }
}

/// What making a single key gives.
#[derive(Clone, Copy, Debug, PartialEq, Eq)]
pub struct Made {
    /// The length of each image, in bytes.
    pub length: usize,
    /// The random words used.
    pub words: u64,
}

/// What making a multi key gives.
#[derive(Clone, Copy, Debug, PartialEq, Eq)]
pub struct MadeMulti {
    /// The length of each image, in bytes.
    pub length: usize,
    /// The random words used.
    pub words: u64,
    /// How often a point had to move on to its next bucket.
    pub evictions: u64,
}

fn answer<T>(number: u64, result: T) -> Result<T, Refusal> {
    match number {
        0 => Ok(result),
        _ => Err(Refusal::of(number).expect("a call answers 0 or a number of document 01")),
    }
}

/// Makes the two keys of one point, into the front of both buffers.
///
/// # Errors
/// [`Refusal::Domain`], [`Refusal::Point`], [`Refusal::Words`], [`Refusal::Room`], in this order;
/// both buffers are then as they were.
pub fn single_generate_keys(
    domain: u64,
    point: u64,
    value: u64,
    words: &[u64],
    key0: &mut [u8],
    key1: &mut [u8],
) -> Result<Made, Refusal> {
    let mut result = [0; 2];
    // SAFETY: every pointer comes from a slice or an array with the length that is passed or that the
    // header names, so it is aligned and not null; what is written is borrowed alone.
    let number = unsafe {
        c::morgnet_single_generate_keys(
            domain,
            point,
            value,
            words.as_ptr(),
            words.len(),
            key0.as_mut_ptr(),
            key0.len(),
            key1.as_mut_ptr(),
            key1.len(),
            result.as_mut_ptr(),
        )
    };
    answer(number, Made { length: result[0] as usize, words: result[1] })
}

/// The share of one cell of a single key.
///
/// # Errors
/// [`Refusal::Key`], [`Refusal::Index`], in this order.
pub fn single_evaluate_at(key: &[u8], index: u64) -> Result<u64, Refusal> {
    let mut share = 0;
    // SAFETY: `key` is a slice and `share` a local: aligned, not null, apart.
    let number =
        unsafe { c::morgnet_single_evaluate_at(key.as_ptr(), key.len(), index, &mut share) };
    answer(number, share)
}

/// The shares of all cells of a single key, into the front of `out`.
///
/// # Errors
/// [`Refusal::Key`], [`Refusal::Scratch`], [`Refusal::Room`], in this order; both slices are then as
/// they were.
pub fn single_evaluate_domain(
    key: &[u8],
    scratch: &mut [u64],
    out: &mut [u64],
) -> Result<(), Refusal> {
    // SAFETY: the three come from slices, two of them borrowed alone: aligned, not null, apart.
    let number = unsafe {
        c::morgnet_single_evaluate_domain(
            key.as_ptr(),
            key.len(),
            scratch.as_mut_ptr(),
            scratch.len(),
            out.as_mut_ptr(),
            out.len(),
        )
    };
    answer(number, ())
}

/// Adds a single key to a table, cell by cell, modulo 2^64.
///
/// # Errors
/// [`Refusal::Key`], [`Refusal::Table`], [`Refusal::Scratch`], in this order; both slices are then as
/// they were.
pub fn single_add_to(key: &[u8], scratch: &mut [u64], table: &mut [u64]) -> Result<(), Refusal> {
    // SAFETY: the three come from slices, two of them borrowed alone: aligned, not null, apart.
    let number = unsafe {
        c::morgnet_single_add_to(
            key.as_ptr(),
            key.len(),
            scratch.as_mut_ptr(),
            scratch.len(),
            table.as_mut_ptr(),
            table.len(),
        )
    };
    answer(number, ())
}

/// Makes the two keys of a posting, into the front of both buffers.
///
/// # Errors
/// [`Refusal::Domain`], [`Refusal::Buckets`], [`Refusal::Count`], [`Refusal::Point`],
/// [`Refusal::Scratch`], [`Refusal::Place`], [`Refusal::Words`], [`Refusal::Room`], in this order;
/// both buffers are then as they were. The last three zero the scratch that is needed.
pub fn multi_generate_keys(
    domain: u64,
    buckets: u64,
    hash_keys: &[u8; 48],
    points: &[u64],
    values: &[u64],
    words: &[u64],
    scratch: &mut [u64],
    key0: &mut [u8],
    key1: &mut [u8],
) -> Result<MadeMulti, Refusal> {
    let mut result = [0; 3];
    // SAFETY: every pointer comes from a slice or an array with the length that is passed or that the
    // header names, so it is aligned and not null; what is written is borrowed alone.
    let number = unsafe {
        c::morgnet_multi_generate_keys(
            domain,
            buckets,
            hash_keys.as_ptr(),
            points.as_ptr(),
            points.len(),
            values.as_ptr(),
            values.len(),
            words.as_ptr(),
            words.len(),
            scratch.as_mut_ptr(),
            scratch.len(),
            key0.as_mut_ptr(),
            key0.len(),
            key1.as_mut_ptr(),
            key1.len(),
            result.as_mut_ptr(),
        )
    };
    let [length, words, evictions] = result;
    answer(number, MadeMulti { length: length as usize, words, evictions })
}

/// The share of one cell of a multi key.
///
/// # Errors
/// [`Refusal::Key`], [`Refusal::Index`], [`Refusal::Scratch`], [`Refusal::Mismatch`], in this order;
/// scratch is then as it was, but for the last, which zeroes what is needed.
pub fn multi_evaluate_at(key: &[u8], index: u64, scratch: &mut [u64]) -> Result<u64, Refusal> {
    let mut share = 0;
    // SAFETY: `key` and `scratch` are slices, `share` is a local: aligned, not null, apart.
    let number = unsafe {
        c::morgnet_multi_evaluate_at(
            key.as_ptr(),
            key.len(),
            index,
            scratch.as_mut_ptr(),
            scratch.len(),
            &mut share,
        )
    };
    answer(number, share)
}

/// The shares of all cells of a multi key, into the front of `out`.
///
/// # Errors
/// [`Refusal::Key`], [`Refusal::Scratch`], [`Refusal::Room`], [`Refusal::Mismatch`], in this order;
/// both slices are then as they were, but that the last zeroes the scratch that is needed.
pub fn multi_evaluate_domain(
    key: &[u8],
    scratch: &mut [u64],
    out: &mut [u64],
) -> Result<(), Refusal> {
    // SAFETY: the three come from slices, two of them borrowed alone: aligned, not null, apart.
    let number = unsafe {
        c::morgnet_multi_evaluate_domain(
            key.as_ptr(),
            key.len(),
            scratch.as_mut_ptr(),
            scratch.len(),
            out.as_mut_ptr(),
            out.len(),
        )
    };
    answer(number, ())
}

/// Adds a multi key to a table, cell by cell, modulo 2^64.
///
/// # Errors
/// [`Refusal::Key`], [`Refusal::Table`], [`Refusal::Scratch`], [`Refusal::Mismatch`], in this order;
/// both slices are then as they were, but that the last zeroes the scratch that is needed.
pub fn multi_add_to(key: &[u8], scratch: &mut [u64], table: &mut [u64]) -> Result<(), Refusal> {
    // SAFETY: the three come from slices, two of them borrowed alone: aligned, not null, apart.
    let number = unsafe {
        c::morgnet_multi_add_to(
            key.as_ptr(),
            key.len(),
            scratch.as_mut_ptr(),
            scratch.len(),
            table.as_mut_ptr(),
            table.len(),
        )
    };
    answer(number, ())
}

/// The record of a bucket, as that part of the image; empty where it has none.
///
/// # Errors
/// [`Refusal::Key`], [`Refusal::Index`], in this order.
pub fn multi_record(key: &[u8], bucket: u64) -> Result<&[u8], Refusal> {
    let mut part = [0; 2];
    // SAFETY: `key` is a slice and `part` has the length that the header names: aligned, not null, apart.
    let number =
        unsafe { c::morgnet_multi_record(key.as_ptr(), key.len(), bucket, part.as_mut_ptr()) };
    answer(number, ())?;
    let (from, length) = (part[0] as usize, part[1] as usize);
    Ok(&key[from..from + length])
}

/// The least h with 2^h at least `size`.
///
/// # Errors
/// [`Refusal::Domain`] exactly when `size` is 0 or above 2^34.
pub fn height(size: u64) -> Result<u64, Refusal> {
    let mut height = 0;
    // SAFETY: `height` is a local.
    let number = unsafe { c::morgnet_height(size, &mut height) };
    answer(number, height)
}

/// The bucket that a hash key gives an item.
///
/// # Errors
/// [`Refusal::Buckets`] exactly when `buckets` is 0 or above 65,535.
pub fn bucket(hash_key: &[u8; 16], buckets: u64, item: u64) -> Result<u64, Refusal> {
    let mut bucket = 0;
    // SAFETY: the key has the length that the header names; `bucket` is a local.
    let number = unsafe { c::morgnet_bucket(hash_key.as_ptr(), buckets, item, &mut bucket) };
    answer(number, bucket)
}

/// Places points into buckets, as making does. `scratch` then holds for each bucket 0 or 1 + the
/// point's place in the list, and for each point its next function. Answers the evictions.
///
/// # Errors
/// [`Refusal::Domain`], [`Refusal::Buckets`], [`Refusal::Count`], [`Refusal::Point`],
/// [`Refusal::Scratch`], [`Refusal::Place`], in this order; scratch is then as it was, but for the last,
/// which zeroes what is needed.
pub fn place(
    domain: u64,
    buckets: u64,
    hash_keys: &[u8; 48],
    points: &[u64],
    scratch: &mut [u64],
) -> Result<u64, Refusal> {
    let mut evictions = 0;
    // SAFETY: the keys have the length that the header names, the others are slices or a local:
    // aligned, not null; what is written is borrowed alone.
    let number = unsafe {
        c::morgnet_place(
            domain,
            buckets,
            hash_keys.as_ptr(),
            points.as_ptr(),
            points.len(),
            scratch.as_mut_ptr(),
            scratch.len(),
            &mut evictions,
        )
    };
    answer(number, evictions)
}

/// AES-128 on one block.
pub fn aes_encrypt(key: &[u8; 16], block: &[u8; 16]) -> [u8; 16] {
    let mut out = [0; 16];
    // SAFETY: the three arrays have the lengths that the header names.
    unsafe { c::morgnet_aes_encrypt(key.as_ptr(), block.as_ptr(), out.as_mut_ptr()) };
    out
}

/// `hash_ccr` of a word, low half first.
pub fn hash_ccr(key: &[u8; 16], x: [u64; 2]) -> [u64; 2] {
    let mut out = [0; 2];
    // SAFETY: the three arrays have the lengths that the header names.
    unsafe { c::morgnet_hash_ccr(key.as_ptr(), x.as_ptr(), out.as_mut_ptr()) };
    out
}

/// The tree hash of a word, low half first.
pub fn tree_hash(x: [u64; 2]) -> [u64; 2] {
    let mut out = [0; 2];
    // SAFETY: both arrays have the lengths that the header names.
    unsafe { c::morgnet_tree_hash(x.as_ptr(), out.as_mut_ptr()) };
    out
}

/// The processor time that the calling thread has used: a time that other programs do not lengthen much.
pub fn thread_time() -> Duration {
    let mut time = c::Timespec { seconds: 0, nanoseconds: 0 };
    // SAFETY: `time` is a timespec of 64-bit Linux, and a local.
    let failed = unsafe { c::clock_gettime(c::CLOCK_THREAD_CPUTIME_ID, &mut time) };
    assert_eq!(failed, 0, "the clock of a thread can be read");
    Duration::new(time.seconds as u64, time.nanoseconds as u32)
}
