//! The cases that are compared: fixed ones at every limit, and random ones.
//!
//! A group of cases is a function over the runner; [`fixed`] and [`drawn`] run them all. Images that
//! are read are the oracle's, whatever the face makes of a maker's call.

use crate::call::{refusal::*, Call};
use crate::image;
use crate::runner::Runner;
use crate::source::{self, Soft};

/// The largest domain of a damaged multi image that is read cell by cell: one cell costs the whole.
const SMALL: u64 = 4096;

// ---- what cases are made of

/// Elements beyond what is needed: often none.
fn beyond(r: &mut Runner) -> u64 {
    match r.random.below(4) {
        0 | 1 => 0,
        2 => 1,
        _ => r.random.below(9),
    }
}

fn cells(r: &mut Runner, count: u64) -> Vec<u64> {
    r.random.numbers(count as usize)
}

fn bytes(r: &mut Runner, count: usize) -> Vec<u8> {
    r.random.bytes(count)
}

/// Words enough for a single key over any domain, and sometimes more.
fn two_words(r: &mut Runner, size: u64) -> Vec<u64> {
    let count = if size == 1 { 2 } else { 4 } + beyond(r);
    cells(r, count)
}

/// A pair of single images, or none where making is refused.
fn make_single(r: &mut Runner, domain: u64, point: u64, value: u64) -> Option<[Vec<u8>; 2]> {
    let length = match domain {
        1..=image::LARGEST_SINGLE => image::single_length(domain),
        _ => 100,
    };
    let words = two_words(r, domain);
    let (longer0, longer1) = (beyond(r) as usize, beyond(r) as usize);
    let (key0, key1) = (bytes(r, length + longer0), bytes(r, length + longer1));
    let after = r.call(Call::SingleMake { domain, point, value, words, key0, key1 })?;
    let made = after.answer[0] as usize;
    (after.number == 0).then(|| [0, 1].map(|p: usize| after.bytes[p][..made].to_vec()))
}

fn single_at(r: &mut Runner, key: &[u8], index: u64) {
    r.call(Call::SingleAt { key: key.to_vec(), index });
}

/// Whole domain and adding, with the lengths given.
fn single_whole(r: &mut Runner, key: &[u8], scratch: u64, out: u64) {
    let (s, o) = (cells(r, scratch), cells(r, out));
    r.call(Call::SingleDomain { key: key.to_vec(), scratch: s, out: o });
    let (scratch, table) = (cells(r, scratch), cells(r, out));
    r.call(Call::SingleAdd { key: key.to_vec(), scratch, table });
}

/// Whole domain and adding of a fair key over `size` cells.
fn single_read_whole(r: &mut Runner, key: &[u8], size: u64) {
    let (s, o) = (2 * size + beyond(r), size + beyond(r));
    let (scratch, out) = (cells(r, s), cells(r, o));
    r.call(Call::SingleDomain { key: key.to_vec(), scratch, out });
    let (scratch, table) = (cells(r, s), cells(r, size));
    r.call(Call::SingleAdd { key: key.to_vec(), scratch, table });
}

/// What a maker of multi keys is given, apart from its buffers.
#[derive(Clone)]
struct Posting {
    domain: u64,
    buckets: u64,
    hash_keys: [u8; 48],
    points: Vec<u64>,
    values: Vec<u64>,
}

impl Posting {
    fn random(r: &mut Runner, domain: u64, buckets: u64, count: u64) -> Self {
        let points = r.random.rising(count as usize, domain);
        let values = points.iter().map(|_| r.random.value()).collect();
        Self { domain, buckets, hash_keys: r.random.array(), points, values }
    }

    fn split_keys(&self) -> [[u8; 16]; 3] {
        std::array::from_fn(|k| self.hash_keys[16 * k..16 * k + 16].try_into().expect("16 bytes"))
    }

    fn fits(&self) -> bool {
        source::place::<Soft>(self.buckets as usize, self.split_keys(), &self.points).is_ok()
    }

    /// Draws hash keys until the walk ends as wanted; none after many draws.
    fn placed(mut self, r: &mut Runner, fits: bool) -> Option<Self> {
        for _ in 0..400 {
            if self.fits() == fits {
                return Some(self);
            }
            self.hash_keys = r.random.array();
        }
        None
    }

    /// Scratch, random words and image length that making needs.
    fn needs(&self, r: &Runner) -> (u64, u64, usize) {
        let sizes = r.oracle.sizes(self.domain, self.buckets, self.split_keys());
        let words: u64 = sizes.iter().map(|&size| size.min(2)).sum();
        (4 * self.buckets + self.points.len() as u64, words, image::multi_length(&sizes))
    }

    fn call(&self, r: &mut Runner, scratch: u64, words: u64, lengths: [usize; 2]) -> Call {
        Call::MultiMake {
            domain: self.domain,
            buckets: self.buckets,
            hash_keys: self.hash_keys,
            points: self.points.clone(),
            values: self.values.clone(),
            words: cells(r, words),
            scratch: cells(r, scratch),
            key0: bytes(r, lengths[0]),
            key1: bytes(r, lengths[1]),
        }
    }

    /// Makes the pair with all that it needs and sometimes more; none where making is refused.
    fn make(&self, r: &mut Runner) -> Option<[Vec<u8>; 2]> {
        let (scratch, words, length) = self.needs(r);
        let (scratch, words) = (scratch + beyond(r), 2 * words + beyond(r));
        let lengths = [length + beyond(r) as usize, length + beyond(r) as usize];
        let call = self.call(r, scratch, words, lengths);
        let after = r.call(call)?;
        let made = after.answer[0] as usize;
        (after.number == 0).then(|| [0, 1].map(|p: usize| after.bytes[p][..made].to_vec()))
    }

    fn place(&self, r: &mut Runner) {
        let needed = self.buckets + self.points.len() as u64 + beyond(r);
        let scratch = cells(r, needed);
        r.call(Call::Place {
            domain: self.domain,
            buckets: self.buckets,
            hash_keys: self.hash_keys,
            points: self.points.clone(),
            scratch,
        });
    }
}

fn multi_at(r: &mut Runner, key: &[u8], index: u64, scratch: u64) {
    let scratch = cells(r, scratch);
    r.call(Call::MultiAt { key: key.to_vec(), index, scratch });
}

fn multi_record(r: &mut Runner, key: &[u8], bucket: u64) {
    r.call(Call::MultiRecord { key: key.to_vec(), bucket });
}

/// Whole domain and adding, with the lengths given.
fn multi_whole(r: &mut Runner, key: &[u8], scratch: u64, out: u64) {
    let (s, o) = (cells(r, scratch), cells(r, out));
    r.call(Call::MultiDomain { key: key.to_vec(), scratch: s, out: o });
    let (scratch, table) = (cells(r, scratch), cells(r, out));
    r.call(Call::MultiAdd { key: key.to_vec(), scratch, table });
}

/// Whole domain and adding of a key over `domain` cells and `buckets` buckets.
fn multi_read_whole(r: &mut Runner, key: &[u8], domain: u64, buckets: u64) {
    let (s, o) = (6 * domain + 2 * buckets + beyond(r), domain + beyond(r));
    let (scratch, out) = (cells(r, s), cells(r, o));
    r.call(Call::MultiDomain { key: key.to_vec(), scratch, out });
    let (scratch, table) = (cells(r, s), cells(r, domain));
    r.call(Call::MultiAdd { key: key.to_vec(), scratch, table });
}

/// Makes a posting and reads both keys in full: every cell, the whole domain, adding, every record.
fn multi_in_full(r: &mut Runner, posting: &Posting) {
    posting.place(r);
    let Some(keys) = posting.make(r) else { return };
    for key in &keys {
        for index in 0..posting.domain {
            let scratch = posting.buckets + beyond(r);
            multi_at(r, key, index, scratch);
        }
        multi_read_whole(r, key, posting.domain, posting.buckets);
        for bucket in 0..posting.buckets {
            multi_record(r, key, bucket);
        }
        multi_record(r, key, posting.buckets);
    }
}

/// Makes a posting and reads both keys: some cells, and the whole domain where `whole`.
fn multi_in_part(r: &mut Runner, posting: &Posting, at: u64, whole: bool) {
    posting.place(r);
    let Some(keys) = posting.make(r) else { return };
    for key in &keys {
        let mut indexes = vec![0, posting.domain - 1, posting.points[0]];
        indexes.truncate(at as usize);
        while (indexes.len() as u64) < at {
            indexes.push(match r.random.once_in(2) {
                true => r.random.below(posting.domain),
                false => posting.points[r.random.below(posting.points.len() as u64) as usize],
            });
        }
        for index in indexes {
            multi_at(r, key, index, posting.buckets);
        }
        if whole {
            multi_read_whole(r, key, posting.domain, posting.buckets);
        }
        let bucket = r.random.below(posting.buckets);
        multi_record(r, key, bucket);
    }
}

// ---- the layers below the keys

/// A number that is often at an end of its range, or near a power of two.
fn telling(r: &mut Runner) -> u64 {
    match r.random.below(6) {
        0 => 0,
        1 => u64::MAX,
        2 => 1 << r.random.below(64),
        3 => (1u64 << r.random.below(64)).wrapping_sub(1),
        _ => r.random.next(),
    }
}

fn one_cipher(r: &mut Runner) {
    let (key, block) = (r.random.array(), r.random.array());
    r.call(Call::Aes { key, block });
    let x = [telling(r), telling(r)];
    r.call(Call::Ccr { key, x });
    r.call(Call::Tree { x });
}

fn cipher(r: &mut Runner) {
    r.group("AES, hash_ccr, tree hash");
    let hex = |text: &str| -> [u8; 16] {
        std::array::from_fn(|i| u8::from_str_radix(&text[2 * i..2 * i + 2], 16).expect("hex"))
    };
    // FIPS 197 (2001), appendices B and C.1
    r.call(Call::Aes {
        key: hex("2b7e151628aed2a6abf7158809cf4f3c"),
        block: hex("3243f6a8885a308d313198a2e0370734"),
    });
    r.call(Call::Aes {
        key: hex("000102030405060708090a0b0c0d0e0f"),
        block: hex("00112233445566778899aabbccddeeff"),
    });
    // every substitution value in every place, through the first round
    for b in 0..=255 {
        r.call(Call::Aes { key: [0; 16], block: [b; 16] });
        r.call(Call::Aes { key: [b; 16], block: [0; 16] });
    }
    for bit in 0..64 {
        for x in [[1 << bit, 0], [0, 1 << bit]] {
            r.call(Call::Ccr { key: [7; 16], x });
            r.call(Call::Tree { x });
        }
    }
}

fn heights(r: &mut Runner) {
    r.group("height");
    for size in 0..=1025 {
        r.call(Call::Height { size });
    }
    for k in 10..64 {
        for size in [(1u64 << k) - 1, 1 << k, (1 << k) + 1] {
            r.call(Call::Height { size });
        }
    }
    r.call(Call::Height { size: u64::MAX });
}

fn one_bucket(r: &mut Runner) {
    let buckets = match r.random.below(4) {
        0 => r.random.within(1, 65_535),
        1 => r.random.within(1, 16),
        2 => 1 << r.random.below(16),
        _ => r.random.one_of(&[0, 1, 2, 65_534, 65_535, 65_536, 65_537, 1 << 32, u64::MAX]),
    };
    let (hash_key, item) = (r.random.array(), telling(r));
    r.call(Call::Bucket { hash_key, buckets, item });
}

fn bucket_hash(r: &mut Runner) {
    r.group("bucket hash");
    for buckets in [0, 1, 2, 3, 65_534, 65_535, 65_536, 65_537, 1 << 24, 1 << 32, u64::MAX] {
        for item in [0, 1, u32::MAX as u64, u32::MAX as u64 + 1, u64::MAX] {
            let hash_key = r.random.array();
            r.call(Call::Bucket { hash_key, buckets, item });
        }
    }
    for buckets in 1..=300 {
        let (hash_key, item) = (r.random.array(), r.random.next());
        r.call(Call::Bucket { hash_key, buckets, item });
    }
}

fn placements(r: &mut Runner) {
    r.group("placement");
    // B from 1 up and every count of points to it, with functions that collide
    for buckets in 1..=12 {
        for count in 1..=buckets {
            for draw in 0..8 {
                let mut posting = Posting::random(r, buckets + 8, buckets, count);
                if draw == 0 {
                    posting.hash_keys.copy_within(0..16, 16);
                }
                if draw <= 1 {
                    posting.hash_keys.copy_within(16..32, 32);
                }
                posting.place(r);
            }
        }
    }
    for (buckets, count) in [(100, 60), (100, 80), (1000, 700), (1000, 1000), (65_535, 30_000)] {
        for _ in 0..3 {
            let posting = Posting::random(r, 1 << 20, buckets, count);
            posting.place(r);
        }
    }
    // refusals, each alone and with those after it
    let base = Posting::random(r, 40, 5, 3);
    let Some(fits) = base.clone().placed(r, true) else { return };
    let Some(gives_up) = Posting::random(r, 40, 3, 3).placed(r, false) else { return };
    for posting in [fits, gives_up] {
        for mask in 0..32 {
            spoilt_place(r, &posting, mask);
        }
    }
    let last = u32::MAX as u64 - 1;
    for (domain, points) in [
        (u32::MAX as u64, vec![0, last]),
        (u32::MAX as u64, vec![0, last + 1]),
        (1 << 32, vec![0, last]),
        (5, vec![4, 4]),
        (5, vec![3, 4]),
        (5, vec![4, 3]),
        (5, vec![4, 5]),
    ] {
        let (hash_keys, scratch) = (r.random.array(), cells(r, 9));
        r.call(Call::Place { domain, buckets: 6, hash_keys, points, scratch });
    }
}

/// Spoils a placement: bit k - 1 brings about refusal k, for 1 to 5. There are two points at least.
fn spoilt_place(r: &mut Runner, posting: &Posting, mask: u32) {
    let spoilt = |k: u64| mask >> (k - 1) & 1 == 1;
    let mut bad = posting.clone();
    let count = bad.points.len() as u64;
    let mut needed = bad.buckets + count + beyond(r);
    if spoilt(SCRATCH) {
        needed = r.random.one_of(&[0, bad.buckets, bad.buckets + count - 1]);
    }
    if spoilt(POINT) {
        match r.random.below(4) {
            0 => bad.points[0] = bad.points[1],
            1 => bad.points.swap(0, 1),
            2 => bad.points[count as usize - 1] = bad.domain,
            _ => bad.points[0] = u64::MAX,
        }
    }
    if spoilt(COUNT) {
        match r.random.once_in(2) {
            true => bad.points = vec![],
            false => bad.points.extend((0..=bad.buckets).map(|x| bad.domain + x)),
        }
    }
    if spoilt(BUCKETS) {
        bad.buckets = r.random.one_of(&[0, 65_536, 1 << 32, u64::MAX]);
    }
    if spoilt(DOMAIN) {
        bad.domain = r.random.one_of(&[0, 1 << 32, u64::MAX]);
    }
    let scratch = cells(r, needed);
    let Posting { domain, buckets, hash_keys, points, .. } = bad;
    r.call(Call::Place { domain, buckets, hash_keys, points, scratch });
}

fn one_placement(r: &mut Runner) {
    let buckets = r.random.within(1, 40);
    let count = r.random.within(1, buckets);
    let posting = Posting::random(r, buckets + 1000, buckets, count);
    match count >= 2 && r.random.once_in(4) {
        true => {
            let mask = some_wrong(r, 5);
            spoilt_place(r, &posting, mask);
        }
        false => posting.place(r),
    }
}

// ---- single keys

fn single_every_alpha(r: &mut Runner) {
    r.group("single: every alpha of every S to 33");
    for size in 1..=33 {
        for alpha in 0..size {
            let value = r.random.value();
            let Some(keys) = make_single(r, size, alpha, value) else { return };
            for key in &keys {
                for index in 0..size {
                    single_at(r, key, index);
                }
                single_read_whole(r, key, size);
            }
        }
    }
}

/// 2^k and its neighbours.
fn around(k: u32) -> [u64; 3] {
    [(1 << k) - 1, 1 << k, (1 << k) + 1]
}

/// Some indexes of a domain: its ends, a point, the point's neighbours, and others.
fn some_indexes(r: &mut Runner, size: u64, point: u64) -> Vec<u64> {
    let middle = r.random.below(size);
    let mut list =
        vec![0, size - 1, size / 2, point, point ^ 1, point.wrapping_sub(1), point + 1, middle];
    list.retain(|&index| index < size);
    list.sort();
    list.dedup();
    list
}

fn single_powers(r: &mut Runner) {
    r.group("single: 2^k and neighbours to 2^18, in full");
    for size in (5..=18).flat_map(around) {
        let mut points = vec![0, size - 1];
        if size < 1 << 12 {
            points.push(r.random.below(size));
        }
        for point in points {
            let value = r.random.value();
            let Some(keys) = make_single(r, size, point, value) else { return };
            for key in &keys {
                single_read_whole(r, key, size);
                for index in some_indexes(r, size, point) {
                    single_at(r, key, index);
                }
            }
        }
    }
    r.group("single: 2^k and neighbours to 2^34, by cells");
    for size in (19..=34).flat_map(around) {
        for point in [0, size - 1, size / 2, r.random.below(size)] {
            let value = r.random.value();
            let Some(keys) = make_single(r, size, point, value) else { continue };
            for key in &keys {
                for index in some_indexes(r, size, point) {
                    single_at(r, key, index);
                }
                single_at(r, key, size);
                // the whole domain is refused for want of scratch, adding for the table
                single_whole(r, key, 7, 7);
            }
        }
    }
}

/// Spoils a making of single keys: bit 0 domain, 1 point, 2 words, 3 room.
fn spoilt_single(r: &mut Runner, size: u64, mask: u32) -> Call {
    let (mut domain, mut point) = (size, r.random.below(size));
    let mut words = if size == 1 { 2 } else { 4 } + beyond(r);
    let mut lengths = [0, 1].map(|_| image::single_length(size) + beyond(r) as usize);
    if mask & 1 != 0 {
        domain = r.random.one_of(&[0, (1 << 34) + 1, 1 << 35, 1 << 40, u64::MAX]);
    }
    if mask & 2 != 0 {
        point = r.random.one_of(&[domain, domain.saturating_add(1), u64::MAX]);
    }
    if mask & 4 != 0 {
        words = match r.random.below(3) {
            0 => 0,
            1 => 1,
            _ if size == 1 => 1,
            _ => r.random.within(2, 3),
        };
    }
    if mask & 8 != 0 {
        let short = match r.random.below(3) {
            0 => 0,
            _ => image::single_length(size) - 1,
        };
        match r.random.below(3) {
            0 => lengths[0] = short,
            1 => lengths[1] = short,
            _ => lengths = [short; 2],
        }
    }
    Call::SingleMake {
        domain,
        point,
        value: r.random.value(),
        words: cells(r, words),
        key0: bytes(r, lengths[0]),
        key1: bytes(r, lengths[1]),
    }
}

fn single_refusals(r: &mut Runner) {
    r.group("single: refusals and limits of making");
    for size in [1, 2, 3, 4, 5, 9, 1 << 34] {
        for mask in 0..16 {
            for _ in 0..4 {
                let call = spoilt_single(r, size, mask);
                r.call(call);
            }
        }
        // every length of the words and of each buffer up to one more than is needed
        let length = image::single_length(size);
        for words in 0..=5 {
            let call = Call::SingleMake {
                domain: size,
                point: size - 1,
                value: 3,
                words: cells(r, words),
                key0: bytes(r, length),
                key1: bytes(r, length),
            };
            r.call(call);
        }
        for short in [0, 1, 8, 64, length - 16, length - 1, length, length + 1] {
            for lengths in [[short, length], [length, short]] {
                let call = Call::SingleMake {
                    domain: size,
                    point: 0,
                    value: 3,
                    words: cells(r, 4),
                    key0: bytes(r, lengths[0]),
                    key1: bytes(r, lengths[1]),
                };
                r.call(call);
            }
        }
        for point in [0, size - 1, size, size + 1, u64::MAX] {
            make_single(r, size, point, 1);
        }
    }
    for domain in [0, 1, 1 << 34, (1 << 34) + 1, 1 << 40, u64::MAX] {
        make_single(r, domain, 0, 1);
    }
    r.group("single: refusals and limits of reading");
    for size in [1, 2, 3, 4, 7, 8] {
        let Some([key, _]) = make_single(r, size, size - 1, 77) else { return };
        for index in [0, size - 1, size, size + 1, 1 << 34, u64::MAX] {
            single_at(r, &key, index);
        }
        let mut broken = key.clone();
        broken[0] = 2;
        for key in [&key, &broken] {
            for scratch in [0, 1, 2 * size - 1, 2 * size, 2 * size + 1] {
                for out in [0, size - 1, size, size + 1] {
                    single_whole(r, key, scratch, out);
                }
            }
            single_at(r, key, size);
        }
    }
}

/// Reads an image that may be anything, with lengths that fit and that do not.
fn single_read_any(r: &mut Runner, key: &[u8], was: u64) {
    let says = key.get(8..16).map_or(0, |b| u64::from_le_bytes(b.try_into().expect("8 bytes")));
    for index in [0, was - 1, was, u64::MAX] {
        single_at(r, key, index);
    }
    single_whole(r, key, 2 * was, was);
    if says != was && says <= 1 << 12 {
        if says > 0 {
            single_at(r, key, says - 1);
        }
        single_at(r, key, says);
        single_whole(r, key, 2 * says, says);
    }
    let (scratch, out) = (r.random.below(3 * was), r.random.within(0, was + 1));
    single_whole(r, key, scratch, out);
    let short = r.random.below(2 * was);
    single_whole(r, key, short, was);
}

fn put(key: &mut [u8], at: usize, length: usize, number: u64) {
    key[at..at + length].copy_from_slice(&number.to_le_bytes()[..length]);
}

/// Images of single keys that break each rule, alone, and those that only look as if they did.
fn single_altered(r: &mut Runner, key: &[u8], size: u64) -> Vec<Vec<u8>> {
    let mut list = vec![];
    let mut alter = |at, length, number| {
        let mut image = key.to_vec();
        put(&mut image, at, length, number);
        list.push(image);
    };
    for party in [0, 1, 2, 3, 256, 0x10000, 0x80000, 0x100000, 0x200000, 0x400000, 1 << 31] {
        alter(0, 4, party);
    }
    for offset in [0, 7, 8, 9, 16, 0x8000000, u32::MAX as u64] {
        alter(4, 4, offset);
    }
    for lcw in [0, 1, 2, 3, 4, 5, 7, 1 << 8, 1 << 32, 1 << 63, u64::MAX] {
        alter(48, 8, lcw);
    }
    for at in [16, 24, 32, 40] {
        alter(at, 8, 1);
        alter(at, 8, 1 << 63);
        alter(at, 8, 0);
    }
    // hcw with bit 0 set, which no maker writes
    let mut odd = key.to_vec();
    odd[32] |= 1;
    list.push(odd.clone());
    for lcw in 0..4 {
        put(&mut odd, 48, 8, lcw);
        list.push(odd.clone());
    }
    // other sizes, with the length that was and with the length that they ask
    for other in [
        0,
        1,
        2,
        3,
        size.saturating_sub(1),
        size + 1,
        2 * size,
        (1 << 34) - 1,
        1 << 34,
        (1 << 34) + 1,
        (1 << 34) + 2,
        1 << 35,
        1 << 40,
        u64::MAX,
    ] {
        let mut image = key.to_vec();
        put(&mut image, 8, 8, other);
        list.push(image.clone());
        if other != 0 {
            image.resize(image::single_length(other), 0x5a);
            list.push(image.clone());
            image.extend([0; 16]);
            list.push(image.clone());
            if other == 1 {
                image.truncate(64);
                image[16..56].fill(0);
                list.push(image.clone());
                for at in [16, 31, 32, 47, 48] {
                    let mut image = image.clone();
                    image[at] = 1;
                    list.push(image);
                }
            }
        }
    }
    for length in 0..key.len() {
        list.push(key[..length].to_vec());
    }
    for longer in [1, 2, 7, 8, 15, 16, 17, 32] {
        for fill in [0, 0xff] {
            let mut image = key.to_vec();
            image.resize(key.len() + longer, fill);
            list.push(image);
        }
    }
    let _ = r;
    list
}

fn single_damaged(r: &mut Runner) {
    r.group("single: damaged and foreign images");
    for size in [1, 2, 3, 4, 5, 8, 17] {
        let point = r.random.below(size);
        let Some(keys) = make_single(r, size, point, 0x1234_5678_9abc_def0) else { return };
        for key in &keys {
            for image in single_altered(r, key, size) {
                single_read_any(r, &image, size);
            }
            for at in 0..key.len() {
                let mut image = key.clone();
                image[at] ^= 1 << r.random.below(8);
                single_read_any(r, &image, size);
            }
        }
        for _ in 0..20 {
            let image = foreign_single(r, size);
            single_read_any(r, &image, size);
        }
    }
    for _ in 0..200 {
        let length = r.random.below(100) as usize;
        let image = bytes(r, length);
        single_read_any(r, &image, 3);
    }
}

/// A fair image that no maker wrote.
fn foreign_single(r: &mut Runner, size: u64) -> Vec<u8> {
    let mut image = bytes(r, image::single_length(size));
    let party = r.random.below(2);
    put(&mut image, 0, 4, party);
    put(&mut image, 4, 4, 8);
    put(&mut image, 8, 8, size);
    let lcw = r.random.below(4);
    put(&mut image, 48, 8, lcw);
    if size == 1 {
        image[16..56].fill(0);
    }
    image
}

/// A few of `count` things that can be wrong: most often one or two.
fn some_wrong(r: &mut Runner, count: u64) -> u32 {
    match r.random.below(4) {
        0 => r.random.below(1 << count) as u32,
        1 => 1 << r.random.below(count) | 1 << r.random.below(count),
        _ => 1 << r.random.below(count),
    }
}

fn one_single(r: &mut Runner) {
    let size = match r.random.below(8) {
        0 => r.random.within(1, 4),
        1 => {
            let k = r.random.within(1, 34);
            ((1 << k) + r.random.below(3)).saturating_sub(1).clamp(1, 1 << 34)
        }
        2 => r.random.within(1, 1 << 34),
        _ => r.random.within(1, 300),
    };
    match r.random.below(6) {
        0 => {
            let mask = some_wrong(r, 4);
            let call = spoilt_single(r, size, mask);
            r.call(call);
        }
        1 => {
            let image = foreign_single(r, size);
            for _ in 0..4 {
                let index = r.random.below(size);
                single_at(r, &image, index);
            }
            if size <= 1 << 12 {
                single_read_whole(r, &image, size);
            }
        }
        2 => {
            let size = size.min(1 << 10);
            let mut image = foreign_single(r, size);
            let at = r.random.below(image.len() as u64) as usize;
            image[at] = r.random.next() as u8;
            single_read_any(r, &image, size);
        }
        _ => {
            let (point, value) = (r.random.below(size), r.random.value());
            let Some(keys) = make_single(r, size, point, value) else { return };
            for key in &keys {
                for index in some_indexes(r, size, point) {
                    single_at(r, key, index);
                }
                if size <= 1 << 12 {
                    single_read_whole(r, key, size);
                }
            }
        }
    }
}

// ---- multi keys

fn multi_small(r: &mut Runner) {
    r.group("multi: D from 1 up, B from 1 up, in full");
    for domain in 1..=18 {
        for buckets in 1..=7 {
            for count in 1..=buckets.min(domain) {
                let posting = Posting::random(r, domain, buckets, count);
                multi_in_full(r, &posting);
            }
        }
    }
    r.group("multi: functions that collide, in full");
    for domain in [1, 2, 3, 7, 12] {
        for buckets in [1, 2, 3, 4, 8, 30] {
            for count in 1..=domain.min(buckets).min(4) {
                let mut posting = Posting::random(r, domain, buckets, count);
                posting.hash_keys.copy_within(0..16, 16);
                multi_in_full(r, &posting);
                posting.hash_keys.copy_within(0..16, 32);
                multi_in_full(r, &posting);
                let mut posting = Posting::random(r, domain, buckets, count);
                posting.hash_keys.copy_within(16..32, 32);
                multi_in_full(r, &posting);
            }
        }
    }
    r.group("multi: lists that do not fit");
    for buckets in 2..=9 {
        for count in 2..=buckets {
            let posting = Posting::random(r, buckets + 5, buckets, count);
            if let Some(posting) = posting.placed(r, false) {
                posting.place(r);
                posting.make(r);
            }
        }
    }
    r.group("multi: more points and buckets");
    for (domain, buckets, count) in [
        (200, 40, 20),
        (300, 40, 30),
        (500, 257, 100),
        (1000, 100, 70),
        (1000, 1000, 400),
        (70, 90, 60),
        (64, 64, 48),
        (3, 5000, 3),
    ] {
        for _ in 0..3 {
            let posting = Posting::random(r, domain, buckets, count);
            multi_in_part(r, &posting, 12, true);
        }
    }
}

fn multi_powers(r: &mut Runner) {
    r.group("multi: 2^k and neighbours to 2^18, in full");
    for domain in (2..=18).flat_map(around) {
        let buckets = match domain {
            0..=64 => r.random.within(1, 6),
            65..=4096 => r.random.one_of(&[1, 3, 17, 64]),
            _ => r.random.one_of(&[1, 50, 1500]),
        };
        let count = r.random.within(1, buckets.min(domain).max(2) / 2);
        let posting = Posting::random(r, domain, buckets, count);
        multi_in_part(r, &posting, if domain < 1 << 14 { 4 } else { 1 }, true);
    }
    r.group("multi: larger domains, by cells");
    for domain in [(1 << 19) - 1, (1 << 19) + 1, 1 << 20] {
        let posting = Posting::random(r, domain, 1500, 1000);
        multi_in_part(r, &posting, 1, false);
    }
    r.group("multi: the largest bucket count");
    for (domain, count) in [(3, 3), (70_000, 20_000)] {
        let posting = Posting::random(r, domain, 65_535, count);
        multi_in_part(r, &posting, 2, true);
    }
    let posting = Posting::random(r, 1 << 17, 65_535, 65_535);
    posting.make(r);
}

/// Spoils a making of multi keys: bit k - 1 brings about refusal k, for 1 to 8.
fn spoilt_multi(r: &mut Runner, mask: u32) -> Option<Call> {
    let spoilt = |k: u64| mask >> (k - 1) & 1 == 1;
    let domain = r.random.within(5, 30);
    let (buckets, count) = match spoilt(PLACE) {
        true => (3, 3),
        false => {
            let buckets = r.random.within(3, 9);
            (buckets, r.random.within(2, buckets.min(4)))
        }
    };
    let mut bad = Posting::random(r, domain, buckets, count).placed(r, !spoilt(PLACE))?;
    let (mut scratch, mut words, length) = bad.needs(r);
    words *= 2;
    let mut lengths = [length + beyond(r) as usize, length + beyond(r) as usize];
    if spoilt(ROOM) {
        let short = if r.random.once_in(3) { 0 } else { length - 1 };
        match r.random.below(3) {
            0 => lengths[0] = short,
            1 => lengths[1] = short,
            _ => lengths = [short; 2],
        }
    }
    if spoilt(WORDS) {
        words = if r.random.once_in(3) { 0 } else { words - r.random.within(1, 2) };
    } else {
        words += r.random.below(2);
    }
    if spoilt(SCRATCH) {
        scratch = r.random.one_of(&[0, scratch - 1, buckets, 4 * buckets]);
        scratch = scratch.min(4 * buckets + count - 1);
    } else {
        scratch += beyond(r);
    }
    if spoilt(POINT) {
        match r.random.below(4) {
            0 => bad.points[count as usize - 1] = domain,
            1 => bad.points[0] = bad.points[1],
            2 => bad.points.swap(0, 1),
            _ => bad.points[0] = u64::MAX,
        }
    }
    if spoilt(COUNT) {
        match r.random.below(5) {
            0 => bad.values.push(1),
            1 => bad.values.truncate(1),
            2 => bad.values.clear(),
            3 => (bad.points, bad.values) = (vec![], vec![]),
            _ => {
                let more = buckets as usize + 1;
                bad.points.extend((0..more as u64).map(|x| domain + x));
                bad.points.truncate(more);
                bad.values.resize(more, 9);
            }
        }
    }
    if spoilt(BUCKETS) {
        bad.buckets = r.random.one_of(&[0, 65_536, 65_537, 1 << 32, u64::MAX]);
    }
    if spoilt(DOMAIN) {
        bad.domain = r.random.one_of(&[0, 1 << 32, (1 << 32) + 5, 1 << 34, u64::MAX]);
    }
    Some(bad.call(r, scratch, words, lengths))
}

fn multi_refusals(r: &mut Runner) {
    r.group("multi: refusals of making, in every combination");
    for mask in 0..256 {
        for _ in 0..4 {
            if let Some(call) = spoilt_multi(r, mask) {
                r.call(call);
            }
        }
    }
    r.group("multi: limits of making");
    // the largest domain passes as far as the scratch
    let last = u32::MAX as u64 - 1;
    for (domain, points) in [
        (u32::MAX as u64, vec![]),
        (u32::MAX as u64, vec![last]),
        (u32::MAX as u64, vec![last + 1]),
        (1 << 32, vec![]),
        (1 << 32, vec![last]),
        (0, vec![0]),
    ] {
        for buckets in [0, 1, 65_535, 65_536] {
            let values = points.clone();
            let hash_keys = r.random.array();
            let posting = Posting { domain, buckets, hash_keys, points: points.clone(), values };
            let call = posting.call(r, 3, 8, [200, 200]);
            r.call(call);
        }
    }
    // each length, up to one more than is needed
    let base = Posting::random(r, 9, 4, 3).placed(r, true);
    let Some(posting) = base else { return };
    let (scratch, words, length) = posting.needs(r);
    for scratch in 0..=scratch + 1 {
        let call = posting.call(r, scratch, 2 * words, [length; 2]);
        r.call(call);
    }
    for words in 0..=2 * words + 2 {
        let call = posting.call(r, scratch, words, [length; 2]);
        r.call(call);
    }
    for short in [0, 1, 71, 72, 80, length - 16, length - 1, length, length + 1] {
        for lengths in [[short, length], [length, short]] {
            let call = posting.call(r, scratch, 2 * words, lengths);
            r.call(call);
        }
    }
    r.group("multi: refusals and limits of reading");
    for (domain, buckets) in [(1, 1), (5, 3), (9, 4)] {
        let posting = Posting::random(r, domain, buckets, 1);
        let Some([key, _]) = posting.make(r) else { return };
        let mut broken = key.clone();
        broken[16] = 0;
        let mut mismatched = key.clone();
        put(&mut mismatched, 8, 8, domain + 1);
        for (key, domain) in [(&key, domain), (&broken, domain), (&mismatched, domain + 1)] {
            for index in [0, domain - 1, domain, domain + 1, u64::MAX] {
                for scratch in [0, buckets - 1, buckets, buckets + 1] {
                    multi_at(r, key, index, scratch);
                }
            }
            let needed = 6 * domain + 2 * buckets;
            for scratch in [0, buckets, needed - 1, needed, needed + 1] {
                for out in [0, domain - 1, domain, domain + 1] {
                    multi_whole(r, key, scratch, out);
                }
            }
            for bucket in [0, buckets - 1, buckets, buckets + 1, u64::MAX] {
                multi_record(r, key, bucket);
            }
        }
    }
}

/// Reads an image that may be anything, with lengths that fit and that do not. Where it says a large
/// domain, one cell is asked only with too little scratch: reading it would hash the whole domain.
fn multi_read_any(r: &mut Runner, key: &[u8], domain: u64, buckets: u64) {
    let field = |at: usize, length: usize| {
        let mut bytes = [0; 8];
        bytes[..length].copy_from_slice(key.get(at..at + length)?);
        Some(u64::from_le_bytes(bytes))
    };
    let says = field(8, 8).unwrap_or(0);
    let has = field(4, 4).unwrap_or(0);
    if says <= SMALL {
        let index = r.random.below(domain);
        multi_at(r, key, index, buckets);
        if has != buckets && has <= 65_536 {
            multi_at(r, key, 0, has);
        }
        if says != domain && says > 0 {
            multi_at(r, key, says - 1, buckets.max(has.min(SMALL)));
            multi_at(r, key, says, buckets);
        }
    }
    multi_at(r, key, u64::MAX, buckets);
    if has > 0 {
        multi_at(r, key, 0, buckets.min(has) - 1);
    }
    multi_whole(r, key, 6 * domain + 2 * buckets, domain);
    if (says, has) != (domain, buckets) && says <= SMALL && has <= 65_536 {
        multi_whole(r, key, 6 * says + 2 * has, says);
    }
    let needed = 6 * domain + 2 * buckets;
    let (scratch, out) = (r.random.below(needed), r.random.below(domain + 1));
    multi_whole(r, key, scratch, out);
    multi_whole(r, key, needed, out.min(domain - 1));
    multi_whole(r, key, scratch, domain);
    let bucket = r.random.within(0, buckets);
    multi_record(r, key, bucket);
}

/// Where the records of a fair image stand.
fn parts(key: &[u8]) -> Vec<(usize, usize)> {
    image::read_multi(key).expect("an image that the oracle made").1
}

/// Takes out the record of a bucket, with its directory entry, and moves the others up.
fn without_record(key: &[u8], bucket: usize) -> Vec<u8> {
    let parts = parts(key);
    let (at, length) = parts[bucket];
    let mut image = key.to_vec();
    image.drain(at..at + length);
    put(&mut image, 72 + 8 * bucket, 8, 0);
    for (b, &(begin, _)) in parts.iter().enumerate().skip(bucket + 1) {
        if begin != 0 {
            put(&mut image, 72 + 8 * b, 8, (begin - length) as u64);
        }
    }
    image
}

/// Gives a bucket without a record one of size `size`.
fn with_record(r: &mut Runner, key: &[u8], bucket: usize, size: u64) -> Vec<u8> {
    let parts = parts(key);
    let at = parts[bucket..].iter().find(|p| p.0 != 0).map_or(key.len(), |p| p.0);
    let record = foreign_single(r, size)[8..].to_vec();
    let mut image = key.to_vec();
    image.splice(at..at, record.iter().copied());
    put(&mut image, 72 + 8 * bucket, 8, at as u64);
    for (b, &(begin, _)) in parts.iter().enumerate().skip(bucket + 1) {
        if begin != 0 {
            put(&mut image, 72 + 8 * b, 8, (begin + record.len()) as u64);
        }
    }
    image
}

/// Images of multi keys that break each rule, alone, and those that only look as if they did.
fn multi_altered(r: &mut Runner, key: &[u8], domain: u64, buckets: u64) -> Vec<Vec<u8>> {
    let mut list = vec![];
    let mut alter = |at, length, number| {
        let mut image = key.to_vec();
        put(&mut image, at, length, number);
        list.push(image);
    };
    for party in [0, 1, 2, 3, 256, 0x10000, 0x80000, 0x100000, 0x200000, 0x400000, 1 << 31] {
        alter(0, 4, party);
    }
    for other in [0, 1, buckets - 1, buckets + 1, 65_535, 65_536, u32::MAX as u64] {
        alter(4, 4, other);
    }
    for other in [
        0,
        1,
        domain - 1,
        domain + 1,
        domain + 256,
        1 << 16,
        u32::MAX as u64 - 1,
        u32::MAX as u64,
        1 << 32,
        (1 << 32) + domain,
        u64::MAX,
    ] {
        alter(8, 8, other);
    }
    for n in [0, 1, buckets - 1, buckets, buckets + 1, domain + 1, 65_535, u32::MAX as u64] {
        alter(16, 4, n);
    }
    for offset in [0, 64, 71, 73, 72 + 8 * buckets, 0x48000000] {
        alter(20, 4, offset);
    }
    for k in 0..3 {
        alter(24 + 16 * k, 8, 0);
        alter(32 + 16 * k, 8, u64::MAX);
    }
    let places = parts(key);
    for (b, &(begin, length)) in places.iter().enumerate() {
        let entry = 72 + 8 * b;
        for other in
            [0, 1, 72, begin as u64 + 1, begin as u64 + 8, begin as u64 + 16, key.len() as u64]
        {
            alter(entry, 8, other);
        }
        alter(entry, 8, (begin as u64).wrapping_sub(16));
        alter(entry, 8, begin as u64 + (1 << 32));
        alter(entry, 8, u64::MAX);
        if begin == 0 {
            continue;
        }
        let size = image::read_multi(key).expect("fair").0.records[b].as_ref().expect("one").size;
        for other in [0, 1, size - 1, size + 1, 2 * size, 1 << 34, (1 << 34) + 1, u64::MAX] {
            alter(begin, 8, other);
        }
        for lcw in [0, 1, 2, 3, 4, 1 << 32, u64::MAX] {
            alter(begin + 40, 8, lcw);
        }
        alter(begin + 24, 8, 1);
        alter(begin + 8, 8, 1);
        let _ = length;
    }
    for (b, &(begin, length)) in places.iter().enumerate() {
        if begin == 0 {
            for size in [1, 2, 3] {
                list.push(with_record(r, key, b, size));
            }
            continue;
        }
        let without = without_record(key, b);
        list.push(without.clone());
        // back in, with another size: fair, and a mismatch
        let size = image::read_multi(key).expect("fair").0.records[b].as_ref().expect("one").size;
        for other in [1, 2, size.max(2) - 1, size + 1, 4 * size, 1 << 34] {
            list.push(with_record(r, &without, b, other));
        }
        list.push(with_record(r, &without, b, size));
        // taken out of the directory alone; cut out of the records alone; left twice
        let mut image = key.to_vec();
        put(&mut image, 72 + 8 * b, 8, 0);
        list.push(image);
        let mut image = key.to_vec();
        image.drain(begin..begin + length);
        list.push(image);
        let mut image = key.to_vec();
        image.splice(begin..begin, key[begin..begin + length].iter().copied());
        list.push(image);
        // a gap before the record
        let mut image = key.to_vec();
        image.splice(begin..begin, [0; 16]);
        for (c, &(at, _)) in places.iter().enumerate().skip(b) {
            if at != 0 {
                put(&mut image, 72 + 8 * c, 8, at as u64 + 16);
            }
        }
        list.push(image);
    }
    // no record at all: fair
    let mut image = key[..72 + 8 * buckets as usize].to_vec();
    image[72..].fill(0);
    list.push(image.clone());
    image.push(0);
    list.push(image);
    // two entries that change places
    if buckets >= 2 {
        let mut image = key.to_vec();
        let (first, rest) = image.split_at_mut(80);
        first[72..].swap_with_slice(&mut rest[..8]);
        list.push(image);
    }
    for length in 0..key.len() {
        list.push(key[..length].to_vec());
    }
    for longer in [1, 8, 16, 56, 72] {
        for fill in [0, 0xff] {
            let mut image = key.to_vec();
            image.resize(key.len() + longer, fill);
            list.push(image);
        }
    }
    list
}

fn multi_damaged(r: &mut Runner) {
    r.group("multi: damaged and foreign images");
    for (domain, buckets, count) in [(1, 1, 1), (2, 3, 1), (5, 2, 2), (4, 6, 2), (9, 4, 3)] {
        let posting = Posting::random(r, domain, buckets, count).placed(r, true);
        let Some(keys) = posting.and_then(|posting| posting.make(r)) else { return };
        for key in &keys {
            for image in multi_altered(r, key, domain, buckets) {
                multi_read_any(r, &image, domain, buckets);
            }
            for at in 0..key.len() {
                let mut image = key.clone();
                image[at] ^= 1 << r.random.below(8);
                multi_read_any(r, &image, domain, buckets);
            }
        }
        for _ in 0..20 {
            let mut image = keys[0].clone();
            foreign_records(r, &mut image);
            multi_read_any(r, &image, domain, buckets);
        }
    }
    // as many buckets as there may be, and one more, without a record
    for buckets in [65_535, 65_536] {
        let mut image = vec![0; 72 + 8 * buckets as usize];
        put(&mut image, 4, 4, buckets);
        put(&mut image, 8, 8, 2);
        put(&mut image, 16, 4, 1);
        put(&mut image, 20, 4, 72);
        multi_read_any(r, &image, 2, buckets);
    }
}

/// Fills every record of a fair image with other seeds and words, which keeps it fair.
fn foreign_records(r: &mut Runner, image: &mut [u8]) {
    let party = r.random.below(2);
    put(image, 0, 4, party);
    for (at, length) in parts(image) {
        if length != 0 {
            let size = u64::from_le_bytes(image[at..at + 8].try_into().expect("8 bytes"));
            image[at..at + length].copy_from_slice(&foreign_single(r, size)[8..]);
        }
    }
}

fn one_multi(r: &mut Runner) {
    let domain = match r.random.below(4) {
        0 => r.random.within(1, 10),
        1 => r.random.within(1, 1000),
        _ => r.random.within(1, 100),
    };
    let buckets = match r.random.below(4) {
        0 => r.random.within(1, 5),
        1 => r.random.within(1, 300),
        _ => r.random.within(1, 40),
    };
    let most = buckets.min(domain);
    let count = if r.random.once_in(3) { most } else { r.random.within(1, most.max(2) / 2) };
    match r.random.below(6) {
        0 => {
            let mask = some_wrong(r, 8);
            if let Some(call) = spoilt_multi(r, mask) {
                r.call(call);
            }
        }
        1 => {
            let posting = Posting::random(r, domain.min(60), buckets.min(20), 1);
            let Some([mut key, _]) = posting.make(r) else { return };
            foreign_records(r, &mut key);
            if r.random.once_in(2) {
                let at = r.random.below(key.len() as u64) as usize;
                key[at] = r.random.next() as u8;
            }
            multi_read_any(r, &key, posting.domain, posting.buckets);
        }
        _ => {
            let posting = Posting::random(r, domain, buckets, count);
            multi_in_part(r, &posting, 4, true);
        }
    }
}

// ---- docs/DIFFERENCES.md

/// The smallest inputs of docs/DIFFERENCES.md, as calls: what is wanted is document 01's answer, not
/// the Rust's.
fn differences(r: &mut Runner) {
    r.group("docs/DIFFERENCES.md, smallest inputs");
    let hash_keys: [u8; 48] = r.random.array();
    let mut make = |domain, buckets, points: &[u64], values: &[u64]| {
        let (points, values) = (points.to_vec(), values.to_vec());
        let posting = Posting { domain, buckets, hash_keys, points, values };
        let call = posting.call(r, 40, 40, [2000; 2]);
        r.call(call)
    };
    make(1, 1, &[], &[]);
    make(0, 1, &[], &[]);
    make(0, 1, &[0], &[1]);
    make(3, 1, &[0, 1], &[1, 1]);
    make(5, 2, &[4, 4], &[1, 2]);
    make(5, 2, &[5], &[1]);
    make(5, 2, &[4, 3], &[1, 2]);
    make(5, 65_536, &[4], &[1]);
    let made = make(1, 1, &[0], &[7]);
    r.call(Call::Bucket { hash_key: [1; 16], buckets: 65_536, item: 0 });
    let Some(made) = made else { return };
    let key = made.bytes[0][..152].to_vec();
    // a record of size 4 for a bucket of 3 entries, and no record for it
    let mut larger = key.clone();
    put(&mut larger, 80, 8, 4);
    multi_read_any(r, &larger, 1, 1);
    let none = without_record(&key, 0);
    multi_read_any(r, &none, 1, 1);
    // D 1, B 4: an empty bucket that has a record
    let posting = Posting { domain: 1, buckets: 4, hash_keys, points: vec![0], values: vec![7] };
    let Some([key, _]) = posting.make(r) else { return };
    let empty = parts(&key).iter().position(|p| p.0 == 0).expect("3 entries, 4 buckets");
    let ignored = with_record(r, &key, empty, 2);
    multi_read_any(r, &ignored, 1, 4);
    // another n in the image
    let mut other = key.clone();
    put(&mut other, 16, 4, 2);
    multi_read_any(r, &other, 1, 4);
    // S 1 with something where zeros must stand
    let Some([key, _]) = make_single(r, 1, 0, 5) else { return };
    for at in [16, 32, 48] {
        let mut image = key.clone();
        image[at] = 1;
        single_at(r, &image, 0);
    }
}

// ---- all of them

type Group = fn(&mut Runner);

/// The groups of fixed cases, cheap ones first.
const FIXED: &[Group] = &[
    differences,
    cipher,
    heights,
    bucket_hash,
    placements,
    single_refusals,
    multi_refusals,
    single_every_alpha,
    single_damaged,
    multi_small,
    multi_damaged,
    single_powers,
    multi_powers,
];

/// Runs every group of fixed cases. `shorter` leaves out the large domains. `progress` is told each
/// group that is done.
pub fn fixed(r: &mut Runner, shorter: bool, mut progress: impl FnMut(&Runner)) {
    let count = if shorter { FIXED.len() - 2 } else { FIXED.len() };
    for group in &FIXED[..count] {
        if !r.done() {
            group(r);
            progress(r);
        }
    }
}

/// Runs `count` random cases of every kind.
pub fn drawn(r: &mut Runner, count: u64, mut progress: impl FnMut(&Runner)) {
    let kinds: [(&'static str, Group); 5] = [
        ("random: AES, hash_ccr, tree hash", one_cipher),
        ("random: bucket hash", one_bucket),
        ("random: placement", one_placement),
        ("random: single keys", one_single),
        ("random: multi keys", one_multi),
    ];
    for (name, kind) in kinds {
        r.group(name);
        for _ in 0..count {
            if r.done() {
                return;
            }
            kind(r);
        }
        progress(r);
    }
}
