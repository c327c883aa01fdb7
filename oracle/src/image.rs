//! Key images ("Key images, little-endian"): written from the oracle's keys, and read by the layout
//! rules and limits, which the source does not have.

use crate::source::{MultiKey, Record};

/// The largest single domain.
pub const LARGEST_SINGLE: u64 = 1 << 34;
/// The largest multi domain.
pub const LARGEST_MULTI: u64 = (1 << 32) - 1;
/// The largest bucket count.
pub const LARGEST_BUCKETS: u64 = 65_535;
/// Bytes of a single image before its record.
pub const SINGLE_HEADER: usize = 8;
/// Bytes of a multi image before its directory.
pub const MULTI_HEADER: usize = 72;
/// Bytes of a record before its correction words.
pub const RECORD_HEADER: usize = 56;

/// The least h with 2^h at least `size`, by counting up.
pub fn height(size: u64) -> u32 {
    let mut h = 0;
    while (1u128 << h) < size as u128 {
        h += 1;
    }
    h
}

/// Bytes of a record over `size` cells.
pub fn record_length(size: u64) -> usize {
    RECORD_HEADER + 16 * (height(size) as usize).saturating_sub(1)
}

/// Bytes of a single image.
pub fn single_length(size: u64) -> usize {
    SINGLE_HEADER + record_length(size)
}

/// Bytes of a multi image whose buckets have these sizes.
pub fn multi_length(sizes: &[u64]) -> usize {
    let records: usize = sizes.iter().filter(|&&s| s != 0).map(|&s| record_length(s)).sum();
    MULTI_HEADER + 8 * sizes.len() + records
}

fn write_record(image: &mut Vec<u8>, record: &Record) {
    image.extend(record.size.to_le_bytes());
    image.extend(record.seed.to_le_bytes());
    image.extend(record.hcw.to_le_bytes());
    image.extend((record.lcw[0] as u64 + 2 * record.lcw[1] as u64).to_le_bytes());
    image.extend(record.last.to_le_bytes());
    for word in &record.words {
        image.extend(word.to_le_bytes());
    }
}

/// The image of a single key.
pub fn write_single(party: u32, record: &Record) -> Vec<u8> {
    let mut image = Vec::new();
    image.extend(party.to_le_bytes());
    image.extend((SINGLE_HEADER as u32).to_le_bytes());
    write_record(&mut image, record);
    image
}

/// The image of a multi key.
pub fn write_multi(key: &MultiKey) -> Vec<u8> {
    let mut image = Vec::new();
    image.extend(key.party.to_le_bytes());
    image.extend((key.records.len() as u32).to_le_bytes());
    image.extend(key.domain.to_le_bytes());
    image.extend(key.number_points.to_le_bytes());
    image.extend((MULTI_HEADER as u32).to_le_bytes());
    for hash_key in &key.hash_keys {
        image.extend(hash_key);
    }
    let mut next = MULTI_HEADER + 8 * key.records.len();
    for record in &key.records {
        match record {
            None => image.extend(0u64.to_le_bytes()),
            Some(record) => {
                image.extend((next as u64).to_le_bytes());
                next += RECORD_HEADER + 16 * record.words.len();
            }
        }
    }
    for record in key.records.iter().flatten() {
        write_record(&mut image, record);
    }
    image
}

fn number(image: &[u8], at: usize, bytes: usize) -> Option<u128> {
    let field = image.get(at..at.checked_add(bytes)?)?;
    Some(field.iter().rev().fold(0, |n, &b| n << 8 | b as u128))
}

/// The record that begins at `at`, and where it ends; none where a rule or limit is broken.
fn read_record(image: &[u8], at: usize) -> Option<(Record, usize)> {
    let size = number(image, at, 8)? as u64;
    if size == 0 || size > LARGEST_SINGLE {
        return None;
    }
    let seed = number(image, at + 8, 16)?;
    let hcw = number(image, at + 24, 16)?;
    let lcw = number(image, at + 40, 8)?;
    let last = number(image, at + 48, 8)? as u64;
    if lcw > 3 || (size == 1 && (seed, hcw, lcw) != (0, 0, 0)) {
        return None;
    }
    let end = at + record_length(size);
    let words = (at + RECORD_HEADER..end)
        .step_by(16)
        .map(|word| number(image, word, 16))
        .collect::<Option<Vec<_>>>()?;
    let lcw = [lcw & 1 == 1, lcw & 2 == 2];
    Some((Record { size, seed, hcw, lcw, last, words }, end))
}

/// The single key of an image; none where a rule or limit is broken (refusal Key).
pub fn read_single(image: &[u8]) -> Option<(u32, Record)> {
    let party = number(image, 0, 4)? as u32;
    let offset = number(image, 4, 4)?;
    if party > 1 || offset != SINGLE_HEADER as u128 {
        return None;
    }
    let (record, end) = read_record(image, SINGLE_HEADER)?;
    (end == image.len()).then_some((party, record))
}

/// The multi key of an image, with where each record stands; none where a rule or limit is broken.
pub fn read_multi(image: &[u8]) -> Option<(MultiKey, Vec<(usize, usize)>)> {
    let party = number(image, 0, 4)? as u32;
    let buckets = number(image, 4, 4)? as u64;
    let domain = number(image, 8, 8)? as u64;
    let number_points = number(image, 16, 4)? as u32;
    let offset = number(image, 20, 4)?;
    if party > 1
        || !(1..=LARGEST_BUCKETS).contains(&buckets)
        || !(1..=LARGEST_MULTI).contains(&domain)
        || !(1..=buckets).contains(&(number_points as u64))
        || offset != MULTI_HEADER as u128
    {
        return None;
    }
    let mut hash_keys = [[0; 16]; 3];
    for (k, hash_key) in hash_keys.iter_mut().enumerate() {
        hash_key.copy_from_slice(image.get(24 + 16 * k..40 + 16 * k)?);
    }
    let mut next = MULTI_HEADER + 8 * buckets as usize;
    let (mut records, mut parts) = (Vec::new(), Vec::new());
    for bucket in 0..buckets as usize {
        let entry = number(image, MULTI_HEADER + 8 * bucket, 8)?;
        if entry == 0 {
            records.push(None);
            parts.push((0, 0));
            continue;
        }
        if entry != next as u128 {
            return None;
        }
        let (record, end) = read_record(image, next)?;
        records.push(Some(record));
        parts.push((next, end - next));
        next = end;
    }
    (next == image.len())
        .then_some((MultiKey { party, domain, number_points, hash_keys, records }, parts))
}
