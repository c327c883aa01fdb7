//! Times AES-128 and the tree hash, one block at a time: nanoseconds a block, the least of many runs
//! of the calling thread's processor time. Each block is the one before, encrypted, so that none can
//! begin before the last has ended.
//!
//!     bench_aes [SECONDS]     so long for each number; 1 where it is not said
#![forbid(unsafe_code)]

use oracle::expect::{TREE_KEY, TREE_MASK};
use std::hint::black_box;

const CHAIN: u64 = 1000;

/// Nanoseconds a step of a chain of blocks.
fn time(seconds: f64, mut step: impl FnMut([u8; 16]) -> [u8; 16]) -> f64 {
    let mut block = [7; 16];
    let mut least = u64::MAX;
    let begin = raw::thread_time();
    while raw::thread_time() - begin < (seconds * 1e9) as u64 {
        let start = raw::thread_time();
        for _ in 0..CHAIN {
            block = step(block);
        }
        black_box(block);
        least = least.min(raw::thread_time() - start);
    }
    least as f64 / CHAIN as f64
}

fn word(block: [u8; 16]) -> u128 {
    u128::from_le_bytes(block)
}

macro_rules! column {
    ($utils:ident, $seconds:expr) => {{
        use $utils::fixed_key_aes::FixedKeyAes;
        let aes = FixedKeyAes::new(black_box(TREE_KEY));
        [
            time($seconds, |b| aes.pi(word(b)).to_le_bytes()),
            time($seconds, |b| FixedKeyAes::new(black_box(TREE_KEY)).pi(word(b)).to_le_bytes()),
            time($seconds, |b| aes.hash_ccr(TREE_MASK ^ word(b)).to_le_bytes()),
            time($seconds, |b| {
                FixedKeyAes::new(black_box(TREE_KEY)).hash_ccr(TREE_MASK ^ word(b)).to_le_bytes()
            }),
        ]
    }};
}

/// Morgnet's calls: `morgnet_aes_encrypt` is given its key each time, `morgnet_tree_hash` has its own.
#[cfg(feature = "linked")]
fn morgnet(seconds: f64) -> [Option<f64>; 4] {
    let encrypt = time(seconds, |block| {
        let mut out = [0; 16];
        raw::morgnet::aes_encrypt(black_box(&TREE_KEY), &block, &mut out);
        out
    });
    let hash = time(seconds, |block| {
        let x = word(block);
        let mut out = [0; 2];
        raw::morgnet::tree_hash(&[x as u64, (x >> 64) as u64], &mut out);
        ((out[1] as u128) << 64 | out[0] as u128).to_le_bytes()
    });
    [None, Some(encrypt), None, Some(hash)]
}

#[cfg(not(feature = "linked"))]
fn morgnet(_seconds: f64) -> [Option<f64>; 4] {
    [None; 4]
}

fn main() {
    let seconds = std::env::args().nth(1).and_then(|s| s.parse().ok()).unwrap_or(1.0);
    if cfg!(debug_assertions) {
        eprintln!("built for comparing, not for timing: use target/release/bench_aes");
    }
    let soft = column!(utils_soft, seconds);
    let bytes = column!(utils_bytes, seconds);
    let ni = match raw::AesNi::new(TREE_KEY) {
        Some(_) => column!(utils_ni, seconds).map(Some),
        None => [None; 4],
    };
    let ours = morgnet(seconds);
    let names = [
        "block, key expanded once",
        "key expansion and block",
        "tree hash, key expanded once",
        "key expansion and tree hash",
    ];
    let shown = |n: Option<f64>| n.map_or("-".to_string(), |n| format!("{n:.1}"));
    let ratio = |n: Option<f64>, of: f64| n.map_or("-".to_string(), |n| format!("{:.2}", n / of));
    println!("| one at a time, chained | software AES, ns | byte-wise, ns | AES-NI, ns | Morgnet, ns | Morgnet / byte-wise | Morgnet / software |");
    println!("|---|---:|---:|---:|---:|---:|---:|");
    for (i, name) in names.iter().enumerate() {
        println!(
            "| {name} | {:.1} | {:.1} | {} | {} | {} | {} |",
            soft[i],
            bytes[i],
            shown(ni[i]),
            shown(ours[i]),
            ratio(ours[i], bytes[i]),
            ratio(ours[i], soft[i])
        );
    }
}
