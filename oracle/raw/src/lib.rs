//! Everything of the oracle that is `unsafe`: the processor's AES instructions, the processor's
//! clocks, and (feature `linked`) the C face of Morgnet.

/// AES-128 by the processor's instructions, under one key.
#[derive(Clone, Debug)]
pub struct AesNi {
    #[cfg(target_arch = "x86_64")]
    keys: [[u8; 16]; 11],
}

#[cfg(target_arch = "x86_64")]
mod ni {
    use core::arch::x86_64::*;

    /// SAFETY: called only where the processor has AES instructions.
    #[target_feature(enable = "aes,sse2")]
    unsafe fn next<const RCON: i32>(key: __m128i) -> __m128i {
        let help = _mm_shuffle_epi32::<0xff>(_mm_aeskeygenassist_si128::<RCON>(key));
        let mut key = _mm_xor_si128(key, _mm_slli_si128::<4>(key));
        key = _mm_xor_si128(key, _mm_slli_si128::<8>(key));
        _mm_xor_si128(key, help)
    }

    /// SAFETY: called only where the processor has AES instructions.
    #[target_feature(enable = "aes,sse2")]
    pub unsafe fn expand(key: [u8; 16]) -> [[u8; 16]; 11] {
        // SAFETY: `loadu` and `storeu` take any alignment; every array has the 16 bytes they touch.
        unsafe {
            let mut keys = [_mm_loadu_si128(key.as_ptr().cast()); 11];
            keys[1] = next::<0x01>(keys[0]);
            keys[2] = next::<0x02>(keys[1]);
            keys[3] = next::<0x04>(keys[2]);
            keys[4] = next::<0x08>(keys[3]);
            keys[5] = next::<0x10>(keys[4]);
            keys[6] = next::<0x20>(keys[5]);
            keys[7] = next::<0x40>(keys[6]);
            keys[8] = next::<0x80>(keys[7]);
            keys[9] = next::<0x1b>(keys[8]);
            keys[10] = next::<0x36>(keys[9]);
            let mut bytes = [[0; 16]; 11];
            for (to, from) in bytes.iter_mut().zip(keys) {
                _mm_storeu_si128(to.as_mut_ptr().cast(), from);
            }
            bytes
        }
    }

    /// SAFETY: called only where the processor has AES instructions.
    #[target_feature(enable = "aes,sse2")]
    #[inline]
    pub unsafe fn encrypt(keys: &[[u8; 16]; 11], block: [u8; 16]) -> [u8; 16] {
        // SAFETY: `loadu` and `storeu` take any alignment; every array has the 16 bytes they touch.
        unsafe {
            let key = |i: usize| _mm_loadu_si128(keys[i].as_ptr().cast());
            let mut s = _mm_xor_si128(_mm_loadu_si128(block.as_ptr().cast()), key(0));
            for i in 1..10 {
                s = _mm_aesenc_si128(s, key(i));
            }
            s = _mm_aesenclast_si128(s, key(10));
            let mut out = [0; 16];
            _mm_storeu_si128(out.as_mut_ptr().cast(), s);
            out
        }
    }
}

impl AesNi {
    /// The cipher under a key, or none where the processor has no AES instructions.
    #[cfg(target_arch = "x86_64")]
    pub fn new(key: [u8; 16]) -> Option<Self> {
        if !std::arch::is_x86_feature_detected!("aes") {
            return None;
        }
        // SAFETY: the processor has AES instructions, as just tested; every x86-64 has SSE2.
        Some(Self { keys: unsafe { ni::expand(key) } })
    }

    #[cfg(not(target_arch = "x86_64"))]
    pub fn new(_key: [u8; 16]) -> Option<Self> {
        None
    }

    /// One block.
    #[cfg(target_arch = "x86_64")]
    #[inline(always)]
    pub fn encrypt(&self, block: [u8; 16]) -> [u8; 16] {
        // SAFETY: there is an `AesNi` only where `new` found AES instructions.
        unsafe { ni::encrypt(&self.keys, block) }
    }

    #[cfg(not(target_arch = "x86_64"))]
    pub fn encrypt(&self, _block: [u8; 16]) -> [u8; 16] {
        unreachable!("`new` gives none")
    }
}

#[repr(C)]
struct Timespec {
    seconds: i64,
    nanoseconds: i64,
}

extern "C" {
    fn clock_gettime(clock: i32, time: *mut Timespec) -> i32;
}

fn clock(clock: i32) -> u64 {
    let mut time = Timespec { seconds: 0, nanoseconds: 0 };
    // SAFETY: `time` is a timespec of 64-bit Linux, and lives through the call.
    let failed = unsafe { clock_gettime(clock, &mut time) };
    assert_eq!(failed, 0, "the processor's clocks can be read");
    time.seconds as u64 * 1_000_000_000 + time.nanoseconds as u64
}

/// The processor time that the calling thread has used, in nanoseconds (64-bit Linux).
pub fn thread_time() -> u64 {
    const CLOCK_THREAD_CPUTIME_ID: i32 = 3;
    clock(CLOCK_THREAD_CPUTIME_ID)
}

/// The processor time that all threads have used, in nanoseconds (64-bit Linux).
pub fn process_time() -> u64 {
    const CLOCK_PROCESS_CPUTIME_ID: i32 = 2;
    clock(CLOCK_PROCESS_CPUTIME_ID)
}

/// The C face of Morgnet, as include/morgnet.h has it.
#[cfg(feature = "linked")]
pub mod morgnet {
    mod c {
        extern "C" {
            pub fn morgnet_single_generate_keys(
                domain: u64,
                point: u64,
                value: u64,
                words: *const u64,
                words_len: usize,
                key0: *mut u8,
                key0_len: usize,
                key1: *mut u8,
                key1_len: usize,
                answer: *mut u64,
            ) -> u64;
            pub fn morgnet_single_evaluate_at(
                key: *const u8,
                key_len: usize,
                index: u64,
                share: *mut u64,
            ) -> u64;
            pub fn morgnet_single_evaluate_domain(
                key: *const u8,
                key_len: usize,
                scratch: *mut u64,
                scratch_len: usize,
                out: *mut u64,
                out_len: usize,
            ) -> u64;
            pub fn morgnet_single_add_to(
                key: *const u8,
                key_len: usize,
                scratch: *mut u64,
                scratch_len: usize,
                table: *mut u64,
                table_len: usize,
            ) -> u64;
            pub fn morgnet_multi_generate_keys(
                domain: u64,
                buckets: u64,
                hash_keys: *const u8,
                points: *const u64,
                points_len: usize,
                values: *const u64,
                values_len: usize,
                words: *const u64,
                words_len: usize,
                scratch: *mut u64,
                scratch_len: usize,
                key0: *mut u8,
                key0_len: usize,
                key1: *mut u8,
                key1_len: usize,
                answer: *mut u64,
            ) -> u64;
            pub fn morgnet_multi_evaluate_at(
                key: *const u8,
                key_len: usize,
                index: u64,
                scratch: *mut u64,
                scratch_len: usize,
                share: *mut u64,
            ) -> u64;
            pub fn morgnet_multi_evaluate_domain(
                key: *const u8,
                key_len: usize,
                scratch: *mut u64,
                scratch_len: usize,
                out: *mut u64,
                out_len: usize,
            ) -> u64;
            pub fn morgnet_multi_add_to(
                key: *const u8,
                key_len: usize,
                scratch: *mut u64,
                scratch_len: usize,
                table: *mut u64,
                table_len: usize,
            ) -> u64;
            pub fn morgnet_multi_record(
                key: *const u8,
                key_len: usize,
                bucket: u64,
                part: *mut u64,
            ) -> u64;
            pub fn morgnet_height(size: u64, height: *mut u64) -> u64;
            pub fn morgnet_bucket(
                hash_key: *const u8,
                buckets: u64,
                item: u64,
                bucket: *mut u64,
            ) -> u64;
            pub fn morgnet_place(
                domain: u64,
                buckets: u64,
                hash_keys: *const u8,
                points: *const u64,
                points_len: usize,
                scratch: *mut u64,
                scratch_len: usize,
                evictions: *mut u64,
            ) -> u64;
            pub fn morgnet_aes_encrypt(key: *const u8, block: *const u8, out: *mut u8);
            pub fn morgnet_hash_ccr(key: *const u8, x: *const u64, out: *mut u64);
            pub fn morgnet_tree_hash(x: *const u64, out: *mut u64);
        }
    }

    pub fn single_generate_keys(
        domain: u64,
        point: u64,
        value: u64,
        words: &[u64],
        key0: &mut [u8],
        key1: &mut [u8],
        answer: &mut [u64; 2],
    ) -> u64 {
        // SAFETY: every pointer comes from a slice or an array: aligned, not null, as long as said,
        // and those that are written do not overlap others.
        unsafe {
            c::morgnet_single_generate_keys(
                domain,
                point,
                value,
                words.as_ptr(),
                words.len(),
                key0.as_mut_ptr(),
                key0.len(),
                key1.as_mut_ptr(),
                key1.len(),
                answer.as_mut_ptr(),
            )
        }
    }

    pub fn single_evaluate_at(key: &[u8], index: u64, share: &mut u64) -> u64 {
        // SAFETY: as in `single_generate_keys`; `share` is one element.
        unsafe { c::morgnet_single_evaluate_at(key.as_ptr(), key.len(), index, share) }
    }

    pub fn single_evaluate_domain(key: &[u8], scratch: &mut [u64], out: &mut [u64]) -> u64 {
        // SAFETY: as in `single_generate_keys`.
        unsafe {
            c::morgnet_single_evaluate_domain(
                key.as_ptr(),
                key.len(),
                scratch.as_mut_ptr(),
                scratch.len(),
                out.as_mut_ptr(),
                out.len(),
            )
        }
    }

    pub fn single_add_to(key: &[u8], scratch: &mut [u64], table: &mut [u64]) -> u64 {
        // SAFETY: as in `single_generate_keys`.
        unsafe {
            c::morgnet_single_add_to(
                key.as_ptr(),
                key.len(),
                scratch.as_mut_ptr(),
                scratch.len(),
                table.as_mut_ptr(),
                table.len(),
            )
        }
    }

    #[allow(clippy::too_many_arguments)]
    pub fn multi_generate_keys(
        domain: u64,
        buckets: u64,
        hash_keys: &[u8; 48],
        points: &[u64],
        values: &[u64],
        words: &[u64],
        scratch: &mut [u64],
        key0: &mut [u8],
        key1: &mut [u8],
        answer: &mut [u64; 3],
    ) -> u64 {
        // SAFETY: as in `single_generate_keys`; the arrays have the lengths of the header.
        unsafe {
            c::morgnet_multi_generate_keys(
                domain,
                buckets,
                hash_keys.as_ptr(),
                points.as_ptr(),
                points.len(),
                values.as_ptr(),
                values.len(),
                words.as_ptr(),
                words.len(),
                scratch.as_mut_ptr(),
                scratch.len(),
                key0.as_mut_ptr(),
                key0.len(),
                key1.as_mut_ptr(),
                key1.len(),
                answer.as_mut_ptr(),
            )
        }
    }

    pub fn multi_evaluate_at(key: &[u8], index: u64, scratch: &mut [u64], share: &mut u64) -> u64 {
        // SAFETY: as in `single_generate_keys`; `share` is one element.
        unsafe {
            c::morgnet_multi_evaluate_at(
                key.as_ptr(),
                key.len(),
                index,
                scratch.as_mut_ptr(),
                scratch.len(),
                share,
            )
        }
    }

    pub fn multi_evaluate_domain(key: &[u8], scratch: &mut [u64], out: &mut [u64]) -> u64 {
        // SAFETY: as in `single_generate_keys`.
        unsafe {
            c::morgnet_multi_evaluate_domain(
                key.as_ptr(),
                key.len(),
                scratch.as_mut_ptr(),
                scratch.len(),
                out.as_mut_ptr(),
                out.len(),
            )
        }
    }

    pub fn multi_add_to(key: &[u8], scratch: &mut [u64], table: &mut [u64]) -> u64 {
        // SAFETY: as in `single_generate_keys`.
        unsafe {
            c::morgnet_multi_add_to(
                key.as_ptr(),
                key.len(),
                scratch.as_mut_ptr(),
                scratch.len(),
                table.as_mut_ptr(),
                table.len(),
            )
        }
    }

    pub fn multi_record(key: &[u8], bucket: u64, part: &mut [u64; 2]) -> u64 {
        // SAFETY: as in `single_generate_keys`; `part` has the length of the header.
        unsafe { c::morgnet_multi_record(key.as_ptr(), key.len(), bucket, part.as_mut_ptr()) }
    }

    pub fn height(size: u64, height: &mut u64) -> u64 {
        // SAFETY: `height` is one element.
        unsafe { c::morgnet_height(size, height) }
    }

    pub fn bucket(hash_key: &[u8; 16], buckets: u64, item: u64, bucket: &mut u64) -> u64 {
        // SAFETY: the key has 16 bytes; `bucket` is one element.
        unsafe { c::morgnet_bucket(hash_key.as_ptr(), buckets, item, bucket) }
    }

    pub fn place(
        domain: u64,
        buckets: u64,
        hash_keys: &[u8; 48],
        points: &[u64],
        scratch: &mut [u64],
        evictions: &mut u64,
    ) -> u64 {
        // SAFETY: as in `multi_generate_keys`; `evictions` is one element.
        unsafe {
            c::morgnet_place(
                domain,
                buckets,
                hash_keys.as_ptr(),
                points.as_ptr(),
                points.len(),
                scratch.as_mut_ptr(),
                scratch.len(),
                evictions,
            )
        }
    }

    pub fn aes_encrypt(key: &[u8; 16], block: &[u8; 16], out: &mut [u8; 16]) {
        // SAFETY: the arrays have the lengths of the header.
        unsafe { c::morgnet_aes_encrypt(key.as_ptr(), block.as_ptr(), out.as_mut_ptr()) }
    }

    pub fn hash_ccr(key: &[u8; 16], x: &[u64; 2], out: &mut [u64; 2]) {
        // SAFETY: the arrays have the lengths of the header.
        unsafe { c::morgnet_hash_ccr(key.as_ptr(), x.as_ptr(), out.as_mut_ptr()) }
    }

    pub fn tree_hash(x: &[u64; 2], out: &mut [u64; 2]) {
        // SAFETY: the arrays have the lengths of the header.
        unsafe { c::morgnet_tree_hash(x.as_ptr(), out.as_mut_ptr()) }
    }
}
