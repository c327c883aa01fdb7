//! The C face as a trait; a call of it with every lent buffer between guards; and Morgnet's own, where
//! it is linked.

use crate::call::{After, Call};
use crate::random::Random;

/// The functions of the C face, over slices.
pub trait Face {
    fn single_generate_keys(
        &self,
        domain: u64,
        point: u64,
        value: u64,
        words: &[u64],
        key0: &mut [u8],
        key1: &mut [u8],
        answer: &mut [u64; 2],
    ) -> u64;
    fn single_evaluate_at(&self, key: &[u8], index: u64, share: &mut u64) -> u64;
    fn single_evaluate_domain(&self, key: &[u8], scratch: &mut [u64], out: &mut [u64]) -> u64;
    fn single_add_to(&self, key: &[u8], scratch: &mut [u64], table: &mut [u64]) -> u64;
    #[allow(clippy::too_many_arguments)]
    fn multi_generate_keys(
        &self,
        domain: u64,
        buckets: u64,
        hash_keys: &[u8; 48],
        points: &[u64],
        values: &[u64],
        words: &[u64],
        scratch: &mut [u64],
        key0: &mut [u8],
        key1: &mut [u8],
        answer: &mut [u64; 3],
    ) -> u64;
    fn multi_evaluate_at(
        &self,
        key: &[u8],
        index: u64,
        scratch: &mut [u64],
        share: &mut u64,
    ) -> u64;
    fn multi_evaluate_domain(&self, key: &[u8], scratch: &mut [u64], out: &mut [u64]) -> u64;
    fn multi_add_to(&self, key: &[u8], scratch: &mut [u64], table: &mut [u64]) -> u64;
    fn multi_record(&self, key: &[u8], bucket: u64, part: &mut [u64; 2]) -> u64;
    fn height(&self, size: u64, height: &mut u64) -> u64;
    fn bucket(&self, hash_key: &[u8; 16], buckets: u64, item: u64, bucket: &mut u64) -> u64;
    fn place(
        &self,
        domain: u64,
        buckets: u64,
        hash_keys: &[u8; 48],
        points: &[u64],
        scratch: &mut [u64],
        evictions: &mut u64,
    ) -> u64;
    fn aes_encrypt(&self, key: &[u8; 16], block: &[u8; 16], out: &mut [u8; 16]);
    fn hash_ccr(&self, key: &[u8; 16], x: &[u64; 2], out: &mut [u64; 2]);
    fn tree_hash(&self, x: &[u64; 2], out: &mut [u64; 2]);
}

/// A slice between guards: as many elements before and after it as a slip might reach.
struct Guarded<T> {
    whole: Vec<T>,
    before: usize,
    length: usize,
    guards: Vec<T>,
}

impl<T: Copy + PartialEq> Guarded<T> {
    fn new(content: &[T], random: &mut Random, any: impl Fn(&mut Random) -> T) -> Self {
        let (before, after) = (32 + random.below(16) as usize, 64 + random.below(16) as usize);
        let guards: Vec<T> = (0..before + after).map(|_| any(random)).collect();
        let mut whole = guards[..before].to_vec();
        whole.extend(content);
        whole.extend(&guards[before..]);
        Self { whole, before, length: content.len(), guards }
    }

    fn lent(&mut self) -> &mut [T] {
        &mut self.whole[self.before..self.before + self.length]
    }

    /// The slice, or a complaint where a guard was changed.
    fn back(self, what: &str, complaints: &mut Vec<String>) -> Vec<T> {
        let end = self.before + self.length;
        if self.whole[..self.before] != self.guards[..self.before] {
            complaints.push(format!("writes before {what}"));
        }
        if self.whole[end..] != self.guards[self.before..] {
            complaints.push(format!("writes past the end of {what}"));
        }
        self.whole[self.before..end].to_vec()
    }
}

fn cells(content: &[u64], random: &mut Random) -> Guarded<u64> {
    Guarded::new(content, random, |r| r.next())
}

fn bytes(content: &[u8], random: &mut Random) -> Guarded<u8> {
    Guarded::new(content, random, |r| r.next() as u8)
}

/// Makes the call over guarded copies of what is lent. The answers are set to junk first, since every
/// return writes them. Gives what it left behind, and what it did that no slice shows.
pub fn run(face: &dyn Face, call: &Call, random: &mut Random) -> (After, Vec<String>) {
    let mut bad = Vec::new();
    let mut one = Guarded::new(&[random.next()], random, |r| r.next());
    let mut two = Guarded::new(&random.numbers(2), random, |r| r.next());
    let mut three = Guarded::new(&random.numbers(3), random, |r| r.next());
    let after = match call {
        Call::SingleMake { domain, point, value, words, key0, key1 } => {
            let (mut b0, mut b1) = (bytes(key0, random), bytes(key1, random));
            let answer = two.lent().try_into().expect("two elements");
            let given = words.clone();
            let number = face.single_generate_keys(
                *domain,
                *point,
                *value,
                words,
                b0.lent(),
                b1.lent(),
                answer,
            );
            unchanged("words", words, &given, &mut bad);
            After {
                number,
                answer: two.back("answer", &mut bad),
                cells: vec![],
                bytes: vec![b0.back("key0", &mut bad), b1.back("key1", &mut bad)],
            }
        }
        Call::SingleAt { key, index } => {
            let given = key.clone();
            let number = face.single_evaluate_at(key, *index, &mut one.lent()[0]);
            unchanged("key", key, &given, &mut bad);
            let answer = one.back("share", &mut bad);
            After { number, answer, cells: vec![], bytes: vec![] }
        }
        Call::SingleDomain { key, scratch, out } | Call::MultiDomain { key, scratch, out } => {
            let (mut s, mut o) = (cells(scratch, random), cells(out, random));
            let given = key.clone();
            let number = match call {
                Call::SingleDomain { .. } => face.single_evaluate_domain(key, s.lent(), o.lent()),
                _ => face.multi_evaluate_domain(key, s.lent(), o.lent()),
            };
            unchanged("key", key, &given, &mut bad);
            let cells = vec![s.back("scratch", &mut bad), o.back("out", &mut bad)];
            After { number, answer: vec![], cells, bytes: vec![] }
        }
        Call::SingleAdd { key, scratch, table } | Call::MultiAdd { key, scratch, table } => {
            let (mut s, mut t) = (cells(scratch, random), cells(table, random));
            let given = key.clone();
            let number = match call {
                Call::SingleAdd { .. } => face.single_add_to(key, s.lent(), t.lent()),
                _ => face.multi_add_to(key, s.lent(), t.lent()),
            };
            unchanged("key", key, &given, &mut bad);
            let cells = vec![s.back("scratch", &mut bad), t.back("table", &mut bad)];
            After { number, answer: vec![], cells, bytes: vec![] }
        }
        Call::MultiMake {
            domain,
            buckets,
            hash_keys,
            points,
            values,
            words,
            scratch,
            key0,
            key1,
        } => {
            let mut s = cells(scratch, random);
            let (mut b0, mut b1) = (bytes(key0, random), bytes(key1, random));
            let answer = three.lent().try_into().expect("three elements");
            let given = (points.clone(), values.clone(), words.clone());
            let number = face.multi_generate_keys(
                *domain,
                *buckets,
                hash_keys,
                points,
                values,
                words,
                s.lent(),
                b0.lent(),
                b1.lent(),
                answer,
            );
            unchanged("points", points, &given.0, &mut bad);
            unchanged("values", values, &given.1, &mut bad);
            unchanged("words", words, &given.2, &mut bad);
            After {
                number,
                answer: three.back("answer", &mut bad),
                cells: vec![s.back("scratch", &mut bad)],
                bytes: vec![b0.back("key0", &mut bad), b1.back("key1", &mut bad)],
            }
        }
        Call::MultiAt { key, index, scratch } => {
            let mut s = cells(scratch, random);
            let given = key.clone();
            let number = face.multi_evaluate_at(key, *index, s.lent(), &mut one.lent()[0]);
            unchanged("key", key, &given, &mut bad);
            let answer = one.back("share", &mut bad);
            After { number, answer, cells: vec![s.back("scratch", &mut bad)], bytes: vec![] }
        }
        Call::MultiRecord { key, bucket } => {
            let given = key.clone();
            let part = two.lent().try_into().expect("two elements");
            let number = face.multi_record(key, *bucket, part);
            unchanged("key", key, &given, &mut bad);
            After { number, answer: two.back("part", &mut bad), cells: vec![], bytes: vec![] }
        }
        Call::Height { size } => {
            let number = face.height(*size, &mut one.lent()[0]);
            After { number, answer: one.back("height", &mut bad), cells: vec![], bytes: vec![] }
        }
        Call::Bucket { hash_key, buckets, item } => {
            let number = face.bucket(hash_key, *buckets, *item, &mut one.lent()[0]);
            After { number, answer: one.back("bucket", &mut bad), cells: vec![], bytes: vec![] }
        }
        Call::Place { domain, buckets, hash_keys, points, scratch } => {
            let mut s = cells(scratch, random);
            let given = points.clone();
            let number =
                face.place(*domain, *buckets, hash_keys, points, s.lent(), &mut one.lent()[0]);
            unchanged("points", points, &given, &mut bad);
            let answer = one.back("evictions", &mut bad);
            After { number, answer, cells: vec![s.back("scratch", &mut bad)], bytes: vec![] }
        }
        Call::Aes { key, block } => {
            let mut out = bytes(&random.bytes(16), random);
            face.aes_encrypt(key, block, out.lent().try_into().expect("16 bytes"));
            let out = out.back("out", &mut bad);
            After { number: 0, answer: vec![], cells: vec![], bytes: vec![out] }
        }
        Call::Ccr { key, x } => {
            face.hash_ccr(key, x, two.lent().try_into().expect("two elements"));
            After { number: 0, answer: two.back("out", &mut bad), cells: vec![], bytes: vec![] }
        }
        Call::Tree { x } => {
            face.tree_hash(x, two.lent().try_into().expect("two elements"));
            After { number: 0, answer: two.back("out", &mut bad), cells: vec![], bytes: vec![] }
        }
    };
    (after, bad)
}

fn unchanged<T: PartialEq>(what: &str, now: &[T], before: &[T], complaints: &mut Vec<String>) {
    if now != before {
        complaints.push(format!("changes {what}, which it is to read only"));
    }
}

/// Morgnet, linked.
#[cfg(feature = "linked")]
pub struct Linked;

#[cfg(feature = "linked")]
impl Face for Linked {
    fn single_generate_keys(
        &self,
        domain: u64,
        point: u64,
        value: u64,
        words: &[u64],
        key0: &mut [u8],
        key1: &mut [u8],
        answer: &mut [u64; 2],
    ) -> u64 {
        raw::morgnet::single_generate_keys(domain, point, value, words, key0, key1, answer)
    }

    fn single_evaluate_at(&self, key: &[u8], index: u64, share: &mut u64) -> u64 {
        raw::morgnet::single_evaluate_at(key, index, share)
    }

    fn single_evaluate_domain(&self, key: &[u8], scratch: &mut [u64], out: &mut [u64]) -> u64 {
        raw::morgnet::single_evaluate_domain(key, scratch, out)
    }

    fn single_add_to(&self, key: &[u8], scratch: &mut [u64], table: &mut [u64]) -> u64 {
        raw::morgnet::single_add_to(key, scratch, table)
    }

    fn multi_generate_keys(
        &self,
        domain: u64,
        buckets: u64,
        hash_keys: &[u8; 48],
        points: &[u64],
        values: &[u64],
        words: &[u64],
        scratch: &mut [u64],
        key0: &mut [u8],
        key1: &mut [u8],
        answer: &mut [u64; 3],
    ) -> u64 {
        raw::morgnet::multi_generate_keys(
            domain, buckets, hash_keys, points, values, words, scratch, key0, key1, answer,
        )
    }

    fn multi_evaluate_at(
        &self,
        key: &[u8],
        index: u64,
        scratch: &mut [u64],
        share: &mut u64,
    ) -> u64 {
        raw::morgnet::multi_evaluate_at(key, index, scratch, share)
    }

    fn multi_evaluate_domain(&self, key: &[u8], scratch: &mut [u64], out: &mut [u64]) -> u64 {
        raw::morgnet::multi_evaluate_domain(key, scratch, out)
    }

    fn multi_add_to(&self, key: &[u8], scratch: &mut [u64], table: &mut [u64]) -> u64 {
        raw::morgnet::multi_add_to(key, scratch, table)
    }

    fn multi_record(&self, key: &[u8], bucket: u64, part: &mut [u64; 2]) -> u64 {
        raw::morgnet::multi_record(key, bucket, part)
    }

    fn height(&self, size: u64, height: &mut u64) -> u64 {
        raw::morgnet::height(size, height)
    }

    fn bucket(&self, hash_key: &[u8; 16], buckets: u64, item: u64, bucket: &mut u64) -> u64 {
        raw::morgnet::bucket(hash_key, buckets, item, bucket)
    }

    fn place(
        &self,
        domain: u64,
        buckets: u64,
        hash_keys: &[u8; 48],
        points: &[u64],
        scratch: &mut [u64],
        evictions: &mut u64,
    ) -> u64 {
        raw::morgnet::place(domain, buckets, hash_keys, points, scratch, evictions)
    }

    fn aes_encrypt(&self, key: &[u8; 16], block: &[u8; 16], out: &mut [u8; 16]) {
        raw::morgnet::aes_encrypt(key, block, out)
    }

    fn hash_ccr(&self, key: &[u8; 16], x: &[u64; 2], out: &mut [u64; 2]) {
        raw::morgnet::hash_ccr(key, x, out)
    }

    fn tree_hash(&self, x: &[u64; 2], out: &mut [u64; 2]) {
        raw::morgnet::tree_hash(x, out)
    }
}

#[cfg(test)]
mod tests {
    use super::*;

    /// A write before or past a lent slice is noticed, and a write within it is given back.
    #[test]
    fn guards_notice() {
        for (at, complaint) in [
            (-1, "writes before x"),
            (3, "writes past the end of x"),
            (60, "writes past the end of x"),
        ] {
            let mut guarded = cells(&[1, 2, 3], &mut Random::new(1));
            let place = (guarded.before as i64 + at) as usize;
            guarded.whole[place] ^= 1;
            let mut bad = vec![];
            assert_eq!(guarded.back("x", &mut bad), [1, 2, 3]);
            assert_eq!(bad, [complaint]);
        }
        let mut guarded = cells(&[1, 2, 3], &mut Random::new(1));
        guarded.lent()[2] = 9;
        let mut bad = vec![];
        assert_eq!(guarded.back("x", &mut bad), [1, 2, 9]);
        assert!(bad.is_empty());
    }
}
