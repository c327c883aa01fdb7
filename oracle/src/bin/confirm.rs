//! The first run of the oracle: does the Rust do what document 01 says where that page was written
//! without it? One line a case: the case, what the Rust gives, and what document 01 says where that
//! differs. The last line counts.
#![forbid(unsafe_code)]

use oracle::image;
use oracle::random::Random;
use oracle::source::{self, Bytes, Ni, Soft, Source, Zero};
use oracle::table_hash::{tables, TableHash};
use std::fmt::Debug;
use utils_none::cuckoo::{Hasher, Parameters};

struct Lines {
    agree: u64,
    differ: u64,
}

impl Lines {
    fn line<T: Debug + PartialEq>(&mut self, case: &str, rust: T, document: T) {
        if rust == document {
            self.agree += 1;
            println!("{case:<66} {rust:?}");
        } else {
            self.differ += 1;
            println!("{case:<66} {rust:?}   DIFFERS: document 01 has {document:?}");
        }
    }
}

fn bytes<const N: usize>(text: &str) -> [u8; N] {
    std::array::from_fn(|i| u8::from_str_radix(&text[2 * i..2 * i + 2], 16).expect("hex digits"))
}

fn cipher(lines: &mut Lines) {
    println!("-- cipher");
    // FIPS 197 (2001), appendices B and C.1: key, plaintext, ciphertext.
    for (name, key, plain, crypt) in [
        (
            "FIPS 197 B",
            "2b7e151628aed2a6abf7158809cf4f3c",
            "3243f6a8885a308d313198a2e0370734",
            "3925841d02dc09fbdc118597196a0b32",
        ),
        (
            "FIPS 197 C.1",
            "000102030405060708090a0b0c0d0e0f",
            "00112233445566778899aabbccddeeff",
            "69c4e0d86a7b0430d8cdb78070b4c55a",
        ),
    ] {
        let (key, plain, crypt) =
            (bytes(key), u128::from_le_bytes(bytes(plain)), bytes::<16>(crypt));
        lines.line(&format!("{name}, software AES"), Soft::pi(key, plain).to_le_bytes(), crypt);
        lines.line(&format!("{name}, byte-wise"), Bytes::pi(key, plain).to_le_bytes(), crypt);
        lines.line(&format!("{name}, AES-NI"), Ni::pi(key, plain).to_le_bytes(), crypt);
    }
    // sigma alone: without a cipher the hash is sigma xor sigma; with it, pi of sigma, xor sigma.
    let x = (1u128 << 64) | 2;
    let sigma_x = (3u128 << 64) | 1;
    let key = bytes("000102030405060708090a0b0c0d0e0f");
    lines.line(
        "hash_ccr of high 1, low 2 is pi(3‖1) xor 3‖1",
        Soft::hash_ccr(key, x),
        Soft::pi(key, sigma_x) ^ sigma_x,
    );
    let mut random = Random::new(1);
    let mut same = 0;
    for _ in 0..10_000 {
        let (key, left, right) = (random.array(), random.next(), random.next());
        let sigma = ((left ^ right) as u128) << 64 | left as u128;
        let x = (left as u128) << 64 | right as u128;
        let pi =
            u128::from_le_bytes(aes_bytes::Aes128::with_key(key).encrypted(sigma.to_le_bytes()));
        same += (Soft::hash_ccr(key, x) == pi ^ sigma
            && Ni::hash_ccr(key, x) == pi ^ sigma
            && Bytes::hash_ccr(key, x) == pi ^ sigma) as u64;
    }
    lines.line("hash_ccr, 10000 random keys and words, three ciphers", same, 10_000);
    lines.line("zero hash: hash_ccr of any word", Zero::hash_ccr(key, x), 0);
}

fn heights(lines: &mut Lines) {
    println!("-- height");
    // the source's rule, read off the number of correction words of a key that it makes
    let of = |size: u64| match size {
        1 => 0,
        _ => source::make_single::<Zero>(size, 0, 0, &[0, 0]).keys[0].words.len() as u32 + 1,
    };
    for (size, height) in [(1, 0), (2, 1), (3, 2), (4, 2), (5, 3), (1 << 34, 34)] {
        lines.line(&format!("height of {size}"), of(size), height);
    }
    let mut same = true;
    let mut count = 0u64;
    let mut check = |size: u64| {
        same &= of(size) == image::height(size);
        count += 1;
    };
    (1..=4096).for_each(&mut check);
    for k in 1..=34 {
        for around in 0..64 {
            check((1u64 << k).saturating_sub(around).max(1));
            check(((1u64 << k) + around).min(1 << 34));
        }
    }
    lines.line(&format!("f64 and integer rule agree ({count} sizes to 2^34)"), same, true);
    let f64_rule = |size: u64| (size as f64).log2().ceil() as u32;
    let first = (1..=62).map(|k| (1u64 << k) + 1).find(|&s| f64_rule(s) != image::height(s));
    lines.line("the first 2^k + 1 whose f64 height is another", first, Some((1 << 49) + 1));
}

fn known_single(lines: &mut Lines) {
    println!("-- known sums, single key");
    let made = source::make_single::<Soft>(1, 0, 5, &[7]);
    lines.line(
        "S 1, beta 5, word low half 7: last words",
        [made.keys[0].last, made.keys[1].last],
        [7, 18446744073709551614],
    );
    lines.line("  words used", made.words_used, 1);
    let made = source::make_single::<Zero>(2, 1, 5, &[0, 4]);
    let [key0, key1] = &made.keys;
    lines.line("zero hash, S 2, alpha 1, beta 5, words 0, 4: lcw", key0.lcw, [false, true]);
    lines.line("  last word", key0.last, 18446744073709551611);
    lines.line("  shares of party 0", source::single_domain::<Zero>(0, key0), vec![0, 0]);
    lines.line("  shares of party 1", source::single_domain::<Zero>(1, key1), vec![0, 5]);
    lines.line("  words used", made.words_used, 2);
    let made = source::make_single::<Zero>(3, 0, 9, &[0, 1]);
    let [key0, key1] = &made.keys;
    lines.line(
        "zero hash, S 3, alpha 0, beta 9, words 0, 1: correction words",
        &key0.words,
        &vec![1],
    );
    lines.line("  shares of party 0", source::single_domain::<Zero>(0, key0), vec![9, 0, 0]);
    lines.line("  shares of party 1", source::single_domain::<Zero>(1, key1), vec![0, 0, 0]);
    use utils_soft::pseudorandom_conversion::{PRConvertTo, PRConverter};
    let converted: u64 = PRConverter::convert(((1u128 << 64) | 1) >> 1);
    lines.line(
        "high half 1, low half 1, converted after the shift",
        converted,
        9223372036854775808,
    );
}

fn known_placement(lines: &mut Lines) {
    println!("-- known sums, buckets and placement");
    given::give_buckets(2, tables(&[[0, 0, 1], [1, 1, 1], [0, 1, 0]]));
    let hasher = Hasher::new(Parameters::<TableHash, u16>::from_seed(0, [0; 32]));
    let lists = hasher.hash_domain_into_buckets(3);
    lines.line(
        "D 3, B 2, (0,0,1), (1,1,1), (0,1,0): lists",
        lists.clone(),
        vec![vec![0, 0, 2, 2], vec![0, 1, 1, 1, 2]],
    );
    let positions = Hasher::<TableHash, u16>::compute_pos_lookup_table(3, &lists);
    let position = |bucket| Hasher::<TableHash, u16>::pos_lookup(&positions, bucket, 2);
    lines.line("  cell 2 has positions", [position(0), position(1)], [2, 4]);

    given::give_buckets(3, tables(&[[0, 1, 2], [0, 2, 1], [0, 0, 1]]));
    given::clear_walk();
    let hasher = Hasher::new(Parameters::<TableHash, u16>::from_seed(3, [0; 32]));
    let (table, _) = hasher.cuckoo_hash_items(&[0, 1, 2]);
    lines.line("B 3, A (0,1,2), B (0,2,1), C (0,0,1): buckets hold", table, vec![2, 0, 1]);
    lines.line("  evictions", given::walk(0).1, 2);

    let gave_up = source::place::<Zero>(2, [[0; 16]; 3], &[0, 1]).unwrap_err();
    lines.line("two points, all functions 0, B 2", gave_up.message.as_str(), "cycle detected");
    lines.line("  at eviction", gave_up.evictions, 3);

    let made = source::make_multi::<Soft>(1, 1, [[1; 16], [2; 16], [3; 16]], &[0], &[9], &[5, 6])
        .expect("one point fits");
    let record = made.keys[0].records[0].as_ref().expect("the bucket is not empty");
    let lists = Soft::lists(1, 1, [[1; 16], [2; 16], [3; 16]]);
    lines.line("D 1, B 1: bucket 0", lists, vec![vec![0, 0, 0]]);
    lines.line("  S", record.size, 3);
    lines.line("  image length", image::write_multi(&made.keys[0]).len(), 152);
    let read = image::read_multi(&image::write_multi(&made.keys[1])).map(|(key, _)| key);
    lines.line(
        "  party 1's image reads back as its key",
        read.as_ref() == Some(&made.keys[1]),
        true,
    );
}

fn main() {
    let mut lines = Lines { agree: 0, differ: 0 };
    cipher(&mut lines);
    heights(&mut lines);
    known_single(&mut lines);
    known_placement(&mut lines);
    println!("{} agree, {} differ", lines.agree, lines.differ);
    if lines.differ != 0 {
        std::process::exit(1);
    }
}
