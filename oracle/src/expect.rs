//! What document 01 wants of a call: the refusals, their order, and what stays or is zeroed by the
//! plain model below; every value by the oracle.

use crate::call::{refusal::*, After, Call};
use crate::image::{self, LARGEST_BUCKETS, LARGEST_MULTI, LARGEST_SINGLE};
use crate::source::{self, MultiKey, Record, Soft, Source};
use std::cell::RefCell;

/// The AES key of the tree hash.
pub const TREE_KEY: [u8; 16] = [
    0x47, 0x42, 0x37, 0x13, 0xef, 0xbe, 0xad, 0xde, 0x47, 0x42, 0x37, 0x13, 0xef, 0xbe, 0xad, 0xde,
];
/// The mask of the tree hash.
pub const TREE_MASK: u128 = 0xc000_ffee_c0ff_ffee_c0ff_eeee_c00f_feee;

type HashKeys = [[u8; 16]; 3];

/// The oracle, with its last answers: whole domains are asked for more than once.
#[derive(Default)]
pub struct Oracle {
    sizes: RefCell<Option<((u64, u64, HashKeys), Vec<u64>)>>,
    shares: RefCell<Option<(Vec<u8>, Vec<u64>)>>,
}

/// The model says that a call succeeds, and the oracle does not, or not so.
#[derive(Debug)]
pub struct Disagreement(pub String);

type Expected = Result<After, Disagreement>;

fn split(hash_keys: &[u8; 48]) -> HashKeys {
    std::array::from_fn(|k| hash_keys[16 * k..16 * k + 16].try_into().expect("16 bytes"))
}

fn word(x: [u64; 2]) -> u128 {
    (x[1] as u128) << 64 | x[0] as u128
}

fn halves(x: u128) -> Vec<u64> {
    vec![x as u64, (x >> 64) as u64]
}

fn zeroed(slice: &[u64], count: u64) -> Vec<u64> {
    let mut slice = slice.to_vec();
    slice[..count as usize].fill(0);
    slice
}

fn written<T: Copy>(slice: &[T], front: &[T]) -> Vec<T> {
    let mut slice = slice.to_vec();
    slice[..front.len()].copy_from_slice(front);
    slice
}

fn added(table: &[u64], shares: &[u64]) -> Vec<u64> {
    table.iter().zip(shares).map(|(cell, share)| cell.wrapping_add(*share)).collect()
}

/// Whether the points are below the domain and each is above the one before.
fn rising(points: &[u64], domain: u64) -> bool {
    points.iter().all(|&p| p < domain) && points.windows(2).all(|w| w[0] < w[1])
}

/// Random words that a single key over `size` cells uses.
fn words_needed(size: u64) -> u64 {
    match size {
        0 => 0,
        1 => 1,
        _ => 2,
    }
}

impl Oracle {
    /// The sizes of all buckets, by the oracle's lists.
    pub fn sizes(&self, domain: u64, buckets: u64, hash_keys: HashKeys) -> Vec<u64> {
        let about = (domain, buckets, hash_keys);
        let mut memo = self.sizes.borrow_mut();
        match memo.as_ref() {
            Some((known, sizes)) if *known == about => sizes.clone(),
            _ => {
                let lists = Soft::lists(domain, buckets as usize, hash_keys);
                let sizes: Vec<u64> = lists.iter().map(|list| list.len() as u64).collect();
                *memo = Some((about, sizes.clone()));
                sizes
            }
        }
    }

    fn shares_of(
        &self,
        key: &[u8],
        ask: impl FnOnce() -> Result<Vec<u64>, Disagreement>,
    ) -> Result<Vec<u64>, Disagreement> {
        let mut memo = self.shares.borrow_mut();
        if let Some((known, shares)) = memo.as_ref() {
            if known == key {
                return Ok(shares.clone());
            }
        }
        let shares = ask()?;
        *memo = Some((key.to_vec(), shares.clone()));
        Ok(shares)
    }

    fn single_shares(
        &self,
        key: &[u8],
        party: u32,
        record: &Record,
    ) -> Result<Vec<u64>, Disagreement> {
        self.shares_of(key, || Ok(source::single_domain::<Soft>(party, record)))
    }

    fn multi_shares(&self, key: &[u8], plain: &MultiKey) -> Result<Vec<u64>, Disagreement> {
        self.shares_of(key, || {
            source::multi_domain::<Soft>(plain)
                .map_err(|p| Disagreement(format!("evaluate_domain panics: {}", p.message)))
        })
    }

    /// Whether every record has its bucket's size, no record counting as 0.
    fn sizes_match(&self, key: &MultiKey) -> bool {
        let sizes = self.sizes(key.domain, key.records.len() as u64, key.hash_keys);
        let of = |r: &Option<Record>| r.as_ref().map_or(0, |r| r.size);
        key.records.iter().map(of).eq(sizes)
    }

    /// How many cells a call hashes, at most: where it is large, the call is one to stay away from.
    pub fn cells_hashed(&self, call: &Call) -> u64 {
        let domain = |key: &[u8]| image::read_multi(key).map_or(0, |(key, _)| key.domain);
        let single = |key: &[u8]| image::read_single(key).map_or(0, |(_, record)| record.size);
        match call {
            Call::MultiMake { domain, .. } if *domain <= LARGEST_MULTI => *domain,
            Call::MultiAt { key, index, scratch } => match image::read_multi(key) {
                Some((k, _)) if *index < k.domain && scratch.len() >= k.records.len() => k.domain,
                _ => 0,
            },
            Call::MultiDomain { key, scratch, out } => match domain(key) {
                d if scratch.len() as u64 >= 6 * d && out.len() as u64 >= d => d,
                _ => 0,
            },
            Call::MultiAdd { key, table, .. } => match domain(key) {
                d if table.len() as u64 == d => d,
                _ => 0,
            },
            Call::SingleDomain { key, scratch, out } => match single(key) {
                s if scratch.len() as u64 >= 2 * s && out.len() as u64 >= s => s,
                _ => 0,
            },
            Call::SingleAdd { key, table, .. } => match single(key) {
                s if table.len() as u64 == s => s,
                _ => 0,
            },
            _ => 0,
        }
    }

    /// What the call is to leave behind.
    pub fn expect(&self, call: &Call) -> Expected {
        match call {
            Call::SingleMake { domain, point, value, words, key0, key1 } => {
                self.single_make(*domain, *point, *value, words, key0, key1)
            }
            Call::SingleAt { key, index } => self.single_at(key, *index),
            Call::SingleDomain { key, scratch, out } => self.single_domain(key, scratch, out),
            Call::SingleAdd { key, scratch, table } => self.single_add(key, scratch, table),
            Call::MultiMake { .. } => self.multi_make(call),
            Call::MultiAt { key, index, scratch } => self.multi_at(key, *index, scratch),
            Call::MultiDomain { key, scratch, out } => self.multi_domain(key, scratch, out),
            Call::MultiAdd { key, scratch, table } => self.multi_add(key, scratch, table),
            Call::MultiRecord { key, bucket } => self.multi_record(key, *bucket),
            Call::Height { size } => self.height(*size),
            Call::Bucket { hash_key, buckets, item } => self.bucket(hash_key, *buckets, *item),
            Call::Place { domain, buckets, hash_keys, points, scratch } => {
                self.place(*domain, *buckets, split(hash_keys), points, scratch)
            }
            Call::Aes { key, block } => {
                let out = Soft::pi(*key, u128::from_le_bytes(*block)).to_le_bytes().to_vec();
                Ok(After { number: 0, answer: vec![], cells: vec![], bytes: vec![out] })
            }
            Call::Ccr { key, x } => {
                let answer = halves(Soft::hash_ccr(*key, word(*x)));
                Ok(After { number: 0, answer, cells: vec![], bytes: vec![] })
            }
            Call::Tree { x } => {
                let answer = halves(Soft::hash_ccr(TREE_KEY, TREE_MASK ^ word(*x)));
                Ok(After { number: 0, answer, cells: vec![], bytes: vec![] })
            }
        }
    }

    fn single_make(
        &self,
        domain: u64,
        point: u64,
        value: u64,
        words: &[u64],
        key0: &[u8],
        key1: &[u8],
    ) -> Expected {
        let refused = |number| {
            Ok(After {
                number,
                answer: vec![0; 2],
                cells: vec![],
                bytes: vec![key0.to_vec(), key1.to_vec()],
            })
        };
        if !(1..=LARGEST_SINGLE).contains(&domain) {
            return refused(DOMAIN);
        }
        if point >= domain {
            return refused(POINT);
        }
        let needed = words_needed(domain);
        if (words.len() as u64) / 2 < needed {
            return refused(WORDS);
        }
        let length = image::single_length(domain);
        if key0.len() < length || key1.len() < length {
            return refused(ROOM);
        }
        let made = source::make_single::<Soft>(domain, point, value, &source::wide(words));
        let image0 = image::write_single(0, &made.keys[0]);
        let image1 = image::write_single(1, &made.keys[1]);
        let lengths = (image0.len(), image1.len(), made.words_used);
        if lengths != (length, length, needed) {
            return Err(Disagreement(format!("lengths and words used {lengths:?}")));
        }
        Ok(After {
            number: 0,
            answer: vec![length as u64, needed],
            cells: vec![],
            bytes: vec![written(key0, &image0), written(key1, &image1)],
        })
    }

    fn single_at(&self, key: &[u8], index: u64) -> Expected {
        let after =
            |number, share| Ok(After { number, answer: vec![share], cells: vec![], bytes: vec![] });
        let Some((party, record)) = image::read_single(key) else {
            return after(KEY, 0);
        };
        if index >= record.size {
            return after(INDEX, 0);
        }
        after(0, source::single_at::<Soft>(party, &record, index))
    }

    fn single_domain(&self, key: &[u8], scratch: &[u64], out: &[u64]) -> Expected {
        let refused = |number| {
            let cells = vec![scratch.to_vec(), out.to_vec()];
            Ok(After { number, answer: vec![], cells, bytes: vec![] })
        };
        let Some((party, record)) = image::read_single(key) else {
            return refused(KEY);
        };
        if (scratch.len() as u64) < 2 * record.size {
            return refused(SCRATCH);
        }
        if (out.len() as u64) < record.size {
            return refused(ROOM);
        }
        let shares = self.single_shares(key, party, &record)?;
        let cells = vec![zeroed(scratch, 2 * record.size), written(out, &shares)];
        Ok(After { number: 0, answer: vec![], cells, bytes: vec![] })
    }

    fn single_add(&self, key: &[u8], scratch: &[u64], table: &[u64]) -> Expected {
        let refused = |number| {
            let cells = vec![scratch.to_vec(), table.to_vec()];
            Ok(After { number, answer: vec![], cells, bytes: vec![] })
        };
        let Some((party, record)) = image::read_single(key) else {
            return refused(KEY);
        };
        if table.len() as u64 != record.size {
            return refused(TABLE);
        }
        if (scratch.len() as u64) < 2 * record.size {
            return refused(SCRATCH);
        }
        let shares = self.single_shares(key, party, &record)?;
        let cells = vec![zeroed(scratch, 2 * record.size), added(table, &shares)];
        Ok(After { number: 0, answer: vec![], cells, bytes: vec![] })
    }

    fn multi_make(&self, call: &Call) -> Expected {
        let Call::MultiMake {
            domain,
            buckets,
            hash_keys,
            points,
            values,
            words,
            scratch,
            key0,
            key1,
        } = call
        else {
            unreachable!("asked for making alone")
        };
        let (domain, buckets, hash_keys) = (*domain, *buckets, split(hash_keys));
        let n = points.len() as u64;
        let after = |number, scratch| {
            Ok(After {
                number,
                answer: vec![0; 3],
                cells: vec![scratch],
                bytes: vec![key0.to_vec(), key1.to_vec()],
            })
        };
        let refused = |number| after(number, scratch.to_vec());
        if !(1..=LARGEST_MULTI).contains(&domain) {
            return refused(DOMAIN);
        }
        if !(1..=LARGEST_BUCKETS).contains(&buckets) {
            return refused(BUCKETS);
        }
        if n == 0 || n > buckets || n != values.len() as u64 {
            return refused(COUNT);
        }
        if !rising(points, domain) {
            return refused(POINT);
        }
        let needed = 4 * buckets + n;
        if (scratch.len() as u64) < needed {
            return refused(SCRATCH);
        }
        let clear = zeroed(scratch, needed);
        let placed = match source::place::<Soft>(buckets as usize, hash_keys, points) {
            Ok(placed) => placed,
            Err(panic) if panic.message == "cycle detected" => return after(PLACE, clear),
            Err(panic) => return Err(Disagreement(format!("the walk panics: {}", panic.message))),
        };
        let sizes = self.sizes(domain, buckets, hash_keys);
        let words_used = sizes.iter().map(|&size| words_needed(size)).sum::<u64>();
        if (words.len() as u64) / 2 < words_used {
            return after(WORDS, clear);
        }
        let length = image::multi_length(&sizes);
        if key0.len() < length || key1.len() < length {
            return after(ROOM, clear);
        }
        let made = source::make_multi::<Soft>(
            domain,
            buckets as usize,
            hash_keys,
            points,
            values,
            &source::wide(words),
        )
        .map_err(|p| Disagreement(format!("generate_keys panics: {}", p.message)))?;
        let image0 = image::write_multi(&made.keys[0]);
        let image1 = image::write_multi(&made.keys[1]);
        let got = (image0.len(), image1.len(), made.words_used, made.evictions);
        if got != (length, length, words_used, placed.evictions) {
            return Err(Disagreement(format!("lengths, words used and evictions {got:?}")));
        }
        Ok(After {
            number: 0,
            answer: vec![length as u64, words_used, made.evictions],
            cells: vec![clear],
            bytes: vec![written(key0, &image0), written(key1, &image1)],
        })
    }

    fn multi_at(&self, key: &[u8], index: u64, scratch: &[u64]) -> Expected {
        let after = |number, share, scratch| {
            Ok(After { number, answer: vec![share], cells: vec![scratch], bytes: vec![] })
        };
        let refused = |number| after(number, 0, scratch.to_vec());
        let Some((plain, _)) = image::read_multi(key) else {
            return refused(KEY);
        };
        if index >= plain.domain {
            return refused(INDEX);
        }
        let needed = plain.records.len() as u64;
        if (scratch.len() as u64) < needed {
            return refused(SCRATCH);
        }
        let clear = zeroed(scratch, needed);
        if !self.sizes_match(&plain) {
            return after(MISMATCH, 0, clear);
        }
        let share = source::multi_at::<Soft>(&plain, index)
            .map_err(|p| Disagreement(format!("evaluate_at panics: {}", p.message)))?;
        after(0, share, clear)
    }

    fn multi_domain(&self, key: &[u8], scratch: &[u64], out: &[u64]) -> Expected {
        let after = |number, scratch, out| {
            Ok(After { number, answer: vec![], cells: vec![scratch, out], bytes: vec![] })
        };
        let refused = |number| after(number, scratch.to_vec(), out.to_vec());
        let Some((plain, _)) = image::read_multi(key) else {
            return refused(KEY);
        };
        let needed = 6 * plain.domain + 2 * plain.records.len() as u64;
        if (scratch.len() as u64) < needed {
            return refused(SCRATCH);
        }
        if (out.len() as u64) < plain.domain {
            return refused(ROOM);
        }
        let clear = zeroed(scratch, needed);
        if !self.sizes_match(&plain) {
            return after(MISMATCH, clear, out.to_vec());
        }
        let shares = self.multi_shares(key, &plain)?;
        after(0, clear, written(out, &shares))
    }

    fn multi_add(&self, key: &[u8], scratch: &[u64], table: &[u64]) -> Expected {
        let after = |number, scratch, table| {
            Ok(After { number, answer: vec![], cells: vec![scratch, table], bytes: vec![] })
        };
        let refused = |number| after(number, scratch.to_vec(), table.to_vec());
        let Some((plain, _)) = image::read_multi(key) else {
            return refused(KEY);
        };
        if table.len() as u64 != plain.domain {
            return refused(TABLE);
        }
        let needed = 6 * plain.domain + 2 * plain.records.len() as u64;
        if (scratch.len() as u64) < needed {
            return refused(SCRATCH);
        }
        let clear = zeroed(scratch, needed);
        if !self.sizes_match(&plain) {
            return after(MISMATCH, clear, table.to_vec());
        }
        let shares = self.multi_shares(key, &plain)?;
        after(0, clear, added(table, &shares))
    }

    fn multi_record(&self, key: &[u8], bucket: u64) -> Expected {
        let after = |number, (begin, length): (usize, usize)| {
            let answer = vec![begin as u64, length as u64];
            Ok(After { number, answer, cells: vec![], bytes: vec![] })
        };
        let Some((_, parts)) = image::read_multi(key) else {
            return after(KEY, (0, 0));
        };
        if bucket >= parts.len() as u64 {
            return after(INDEX, (0, 0));
        }
        after(0, parts[bucket as usize])
    }

    fn height(&self, size: u64) -> Expected {
        let after = |number, h| Ok(After { number, answer: vec![h], cells: vec![], bytes: vec![] });
        if !(1..=LARGEST_SINGLE).contains(&size) {
            return after(DOMAIN, 0);
        }
        // the oracle's height shows in the keys that it makes: h - 1 correction words
        let words = source::make_single::<source::Zero>(size, 0, 0, &[0, 0]).keys[0].words.len();
        let h = if size == 1 { 0 } else { words as u64 + 1 };
        if h != image::height(size) as u64 {
            return Err(Disagreement(format!("height {h} for {size}")));
        }
        after(0, h)
    }

    fn bucket(&self, hash_key: &[u8; 16], buckets: u64, item: u64) -> Expected {
        let after = |number, b| Ok(After { number, answer: vec![b], cells: vec![], bytes: vec![] });
        if !(1..=LARGEST_BUCKETS).contains(&buckets) {
            return after(BUCKETS, 0);
        }
        after(0, Soft::bucket(*hash_key, buckets as usize, item) as u64)
    }

    fn place(
        &self,
        domain: u64,
        buckets: u64,
        hash_keys: HashKeys,
        points: &[u64],
        scratch: &[u64],
    ) -> Expected {
        let n = points.len() as u64;
        let after = |number, evictions, scratch| {
            Ok(After { number, answer: vec![evictions], cells: vec![scratch], bytes: vec![] })
        };
        let refused = |number| after(number, 0, scratch.to_vec());
        if !(1..=LARGEST_MULTI).contains(&domain) {
            return refused(DOMAIN);
        }
        if !(1..=LARGEST_BUCKETS).contains(&buckets) {
            return refused(BUCKETS);
        }
        if n == 0 || n > buckets {
            return refused(COUNT);
        }
        if !rising(points, domain) {
            return refused(POINT);
        }
        if (scratch.len() as u64) < buckets + n {
            return refused(SCRATCH);
        }
        match source::place::<Soft>(buckets as usize, hash_keys, points) {
            Ok(placed) => {
                let held = placed.buckets.iter().map(|b| b.map_or(0, |p| p as u64 + 1));
                let front: Vec<u64> = held.chain(placed.counters.iter().copied()).collect();
                after(0, placed.evictions, written(scratch, &front))
            }
            Err(panic) if panic.message == "cycle detected" => {
                after(PLACE, 0, zeroed(scratch, buckets + n))
            }
            Err(panic) => Err(Disagreement(format!("the walk panics: {}", panic.message))),
        }
    }
}
