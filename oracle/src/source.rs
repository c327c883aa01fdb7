//! The given Rust, over each of the ciphers that it can be built with, behind one trait. What it
//! draws is given to it first (`given`); what it makes is taken out of its key objects.

use std::fmt::Debug;
use std::num::Wrapping;
use std::panic::{self, AssertUnwindSafe};
use std::sync::atomic::{AtomicBool, Ordering};

/// A single key without its party, in document 01's terms ("Key images", record).
#[derive(Clone, Debug, PartialEq, Eq)]
pub struct Record {
    pub size: u64,
    pub seed: u128,
    pub hcw: u128,
    pub lcw: [bool; 2],
    pub last: u64,
    pub words: Vec<u128>,
}

/// A multi key.
#[derive(Clone, Debug, PartialEq, Eq)]
pub struct MultiKey {
    pub party: u32,
    pub domain: u64,
    pub number_points: u32,
    pub hash_keys: [[u8; 16]; 3],
    pub records: Vec<Option<Record>>,
}

/// What making gives: both parties' keys, the random words used and the evictions.
#[derive(Clone, Debug, PartialEq, Eq)]
pub struct Made<K> {
    pub keys: [K; 2],
    pub words_used: u64,
    pub evictions: u64,
}

/// Where the walk put the points.
#[derive(Clone, Debug, PartialEq, Eq)]
pub struct Placed {
    /// For each bucket the place in the list of the point that it holds.
    pub buckets: Vec<Option<usize>>,
    /// For each point how many of its turns it had, modulo 3: its next function.
    pub counters: Vec<u64>,
    pub evictions: u64,
}

/// The source panicked: what it said, and the evictions so far.
#[derive(Clone, Debug, PartialEq, Eq)]
pub struct Panic {
    pub message: String,
    pub evictions: u64,
}

static EXPECTED: AtomicBool = AtomicBool::new(false);

/// Runs what may panic, without the message that a panic prints.
pub fn caught<T>(run: impl FnOnce() -> T) -> Result<T, Panic> {
    static QUIET: std::sync::Once = std::sync::Once::new();
    QUIET.call_once(|| {
        let usual = panic::take_hook();
        panic::set_hook(Box::new(move |info| {
            if !EXPECTED.load(Ordering::SeqCst) {
                usual(info);
            }
        }));
    });
    EXPECTED.store(true, Ordering::SeqCst);
    let result = panic::catch_unwind(AssertUnwindSafe(run));
    EXPECTED.store(false, Ordering::SeqCst);
    result.map_err(|cause| Panic {
        message: cause
            .downcast_ref::<String>()
            .cloned()
            .or_else(|| cause.downcast_ref::<&str>().map(|s| s.to_string()))
            .unwrap_or_default(),
        evictions: given::walk(0).1,
    })
}

/// The given Rust over one cipher.
pub trait Source {
    /// The cipher's name, for tables.
    const NAME: &'static str;
    type SingleKey: Clone + Debug;
    type MultiKey: Clone + Debug;
    /// A scheme object with its precomputed hashes.
    type Scheme;

    /// AES under `key`, on a word's little-endian bytes (the source's `pi`).
    fn pi(key: [u8; 16], x: u128) -> u128;
    fn hash_ccr(key: [u8; 16], x: u128) -> u128;
    /// `hash_single` of `AesHashFunction` with results of 16 bits.
    fn bucket(key: [u8; 16], buckets: usize, item: u64) -> u16;

    fn single_make(size: u128, alpha: u128, beta: u64) -> (Self::SingleKey, Self::SingleKey);
    fn single_at(key: &Self::SingleKey, index: u128) -> u64;
    fn single_domain(key: &Self::SingleKey) -> Vec<Wrapping<u64>>;
    fn single_plain(key: &Self::SingleKey) -> (u32, Record);
    fn single_object(party: u32, record: &Record) -> Self::SingleKey;

    /// A scheme over the bucket count and hash keys that were given last, precomputed or not.
    fn scheme(domain: usize, number_points: usize, precompute: bool) -> Self::Scheme;
    fn multi_make(
        scheme: &Self::Scheme,
        points: &[u64],
        values: &[Wrapping<u64>],
    ) -> (Self::MultiKey, Self::MultiKey);
    fn multi_at(scheme: &Self::Scheme, key: &Self::MultiKey, index: u64) -> u64;
    fn multi_domain(scheme: &Self::Scheme, key: &Self::MultiKey) -> Vec<Wrapping<u64>>;
    fn multi_plain(key: &Self::MultiKey) -> MultiKey;
    fn multi_object(key: &MultiKey) -> Self::MultiKey;
    /// What the scheme says that its number of points is.
    fn scheme_points(scheme: &Self::Scheme) -> usize;

    /// The bucket lists over the whole domain.
    fn lists(domain: u64, number_buckets: usize, hash_keys: [[u8; 16]; 3]) -> Vec<Vec<u64>>;
    /// The walk: the table of places and of which buckets are held.
    fn walk(
        number_buckets: usize,
        hash_keys: [[u8; 16]; 3],
        points: &[u64],
    ) -> (Vec<u64>, Vec<usize>);
}

macro_rules! source {
    ($name:ident, $title:literal, $utils:ident, $dpf:ident) => {
        #[doc = concat!("The source with ", $title, ".")]
        pub struct $name;

        const _: () = {
            use $dpf::mpdpf::{MultiPointDpf, SmartMpDpf, SmartMpDpfKey};
            use $dpf::spdpf::{HalfTreeSpDpf, HalfTreeSpDpfKey, SinglePointDpf};
            use $utils::cuckoo::{Hasher, Parameters};
            use $utils::fixed_key_aes::FixedKeyAes;
            use $utils::hash::{AesHashFunction, HashFunction};

            type Value = Wrapping<u64>;
            type Single = HalfTreeSpDpf<Value>;
            type Hash = AesHashFunction<u16>;

            impl Source for $name {
                const NAME: &'static str = $title;
                type SingleKey = HalfTreeSpDpfKey<Value>;
                type MultiKey = SmartMpDpfKey<Single, Hash>;
                type Scheme = SmartMpDpf<Value, Single, Hash>;

                fn pi(key: [u8; 16], x: u128) -> u128 {
                    FixedKeyAes::new(key).pi(x)
                }

                fn hash_ccr(key: [u8; 16], x: u128) -> u128 {
                    FixedKeyAes::new(key).hash_ccr(x)
                }

                fn bucket(key: [u8; 16], buckets: usize, item: u64) -> u16 {
                    let mut seed = [0; 32];
                    seed[..16].copy_from_slice(&key);
                    <Hash as HashFunction<u16>>::from_seed(buckets, seed).hash_single(item)
                }

                fn single_make(
                    size: u128,
                    alpha: u128,
                    beta: u64,
                ) -> (Self::SingleKey, Self::SingleKey) {
                    Single::generate_keys(size, alpha, Wrapping(beta))
                }

                fn single_at(key: &Self::SingleKey, index: u128) -> u64 {
                    Single::evaluate_at(key, index).0
                }

                fn single_domain(key: &Self::SingleKey) -> Vec<Wrapping<u64>> {
                    Single::evaluate_domain(key)
                }

                fn single_plain(key: &Self::SingleKey) -> (u32, Record) {
                    let record = Record {
                        size: key.domain_size.try_into().expect("a size has 64 bits"),
                        seed: key.party_seed,
                        hcw: key.hcw,
                        lcw: key.lcw,
                        last: key.correction_word_np1.0,
                        words: key.correction_words.clone(),
                    };
                    (key.party_id as u32, record)
                }

                fn single_object(party: u32, record: &Record) -> Self::SingleKey {
                    HalfTreeSpDpfKey {
                        party_id: party as usize,
                        domain_size: record.size as u128,
                        party_seed: record.seed,
                        correction_words: record.words.clone(),
                        hcw: record.hcw,
                        lcw: record.lcw,
                        correction_word_np1: Wrapping(record.last),
                    }
                }

                fn scheme(domain: usize, number_points: usize, precompute: bool) -> Self::Scheme {
                    let mut scheme = Self::Scheme::new(domain, number_points);
                    if precompute {
                        scheme.precompute();
                    }
                    scheme
                }

                fn multi_make(
                    scheme: &Self::Scheme,
                    points: &[u64],
                    values: &[Value],
                ) -> (Self::MultiKey, Self::MultiKey) {
                    scheme.generate_keys(points, values)
                }

                fn multi_at(scheme: &Self::Scheme, key: &Self::MultiKey, index: u64) -> u64 {
                    scheme.evaluate_at(key, index).0
                }

                fn multi_domain(scheme: &Self::Scheme, key: &Self::MultiKey) -> Vec<Value> {
                    scheme.evaluate_domain(key)
                }

                fn multi_plain(key: &Self::MultiKey) -> MultiKey {
                    assert_eq!(key.cuckoo_parameters.get_number_buckets(), key.spdpf_keys.len());
                    MultiKey {
                        party: key.party_id as u32,
                        domain: key.domain_size as u64,
                        number_points: key.number_points as u32,
                        hash_keys: std::array::from_fn(given::hash_key),
                        records: key
                            .spdpf_keys
                            .iter()
                            .map(|key| key.as_ref().map(|key| Self::single_plain(key).1))
                            .collect(),
                    }
                }

                fn multi_object(key: &MultiKey) -> Self::MultiKey {
                    given::give_buckets(key.records.len(), key.hash_keys);
                    SmartMpDpfKey {
                        party_id: key.party as usize,
                        domain_size: key.domain as usize,
                        number_points: key.number_points as usize,
                        spdpf_keys: key
                            .records
                            .iter()
                            .map(|r| r.as_ref().map(|r| Self::single_object(key.party, r)))
                            .collect(),
                        cuckoo_parameters: Parameters::from_seed(
                            key.number_points as usize,
                            [0; 32],
                        ),
                    }
                }

                fn scheme_points(scheme: &Self::Scheme) -> usize {
                    scheme.get_number_points()
                }

                fn lists(
                    domain: u64,
                    number_buckets: usize,
                    hash_keys: [[u8; 16]; 3],
                ) -> Vec<Vec<u64>> {
                    given::give_buckets(number_buckets, hash_keys);
                    let parameters = Parameters::<Hash, u16>::from_seed(0, [0; 32]);
                    Hasher::new(parameters).hash_domain_into_buckets(domain)
                }

                fn walk(
                    number_buckets: usize,
                    hash_keys: [[u8; 16]; 3],
                    points: &[u64],
                ) -> (Vec<u64>, Vec<usize>) {
                    given::give_buckets(number_buckets, hash_keys);
                    let parameters = Parameters::<Hash, u16>::from_seed(points.len(), [0; 32]);
                    Hasher::new(parameters).cuckoo_hash_items(points)
                }
            }
        };
    };
}

source!(Soft, "RustCrypto's software AES", utils_soft, dpf_soft);
source!(Bytes, "byte-wise AES", utils_bytes, dpf_bytes);
source!(Ni, "AES-NI", utils_ni, dpf_ni);
source!(Zero, "the zero hash", utils_none, dpf_none);

/// Both parties' single keys.
pub fn make_single<S: Source>(size: u64, alpha: u64, beta: u64, words: &[u128]) -> Made<Record> {
    given::give_words(words);
    let (first, second) = S::single_make(size as u128, alpha as u128, beta);
    let ((party0, key0), (party1, key1)) = (S::single_plain(&first), S::single_plain(&second));
    assert_eq!((party0, party1), (0, 1));
    Made { keys: [key0, key1], words_used: given::words_used() as u64, evictions: 0 }
}

/// The share of one cell.
pub fn single_at<S: Source>(party: u32, record: &Record, index: u64) -> u64 {
    S::single_at(&S::single_object(party, record), index as u128)
}

/// The shares of all cells.
pub fn single_domain<S: Source>(party: u32, record: &Record) -> Vec<u64> {
    plain(S::single_domain(&S::single_object(party, record)))
}

/// Both parties' multi keys, or how the source panicked.
pub fn make_multi<S: Source>(
    domain: u64,
    number_buckets: usize,
    hash_keys: [[u8; 16]; 3],
    points: &[u64],
    values: &[u64],
    words: &[u128],
) -> Result<Made<MultiKey>, Panic> {
    given::give_buckets(number_buckets, hash_keys);
    given::give_words(words);
    given::clear_walk();
    let values: Vec<_> = values.iter().copied().map(Wrapping).collect();
    caught(|| {
        let scheme = S::scheme(domain as usize, points.len(), false);
        let (key0, key1) = S::multi_make(&scheme, points, &values);
        Made {
            keys: [S::multi_plain(&key0), S::multi_plain(&key1)],
            words_used: given::words_used() as u64,
            evictions: given::walk(0).1,
        }
    })
}

/// The share of one cell of a multi key, or how the source panicked.
pub fn multi_at<S: Source>(key: &MultiKey, index: u64) -> Result<u64, Panic> {
    let object = S::multi_object(key);
    caught(|| {
        let scheme = S::scheme(key.domain as usize, key.number_points as usize, false);
        S::multi_at(&scheme, &object, index)
    })
}

/// The shares of all cells of a multi key, or how the source panicked.
pub fn multi_domain<S: Source>(key: &MultiKey) -> Result<Vec<u64>, Panic> {
    let object = S::multi_object(key);
    caught(|| {
        let scheme = S::scheme(key.domain as usize, key.number_points as usize, false);
        plain(S::multi_domain(&scheme, &object))
    })
}

/// The walk over the points, or how the source panicked: "cycle detected" where it gives up.
pub fn place<S: Source>(
    number_buckets: usize,
    hash_keys: [[u8; 16]; 3],
    points: &[u64],
) -> Result<Placed, Panic> {
    given::clear_walk();
    let (table, places) = caught(|| S::walk(number_buckets, hash_keys, points))?;
    let (turns, evictions) = given::walk(points.len());
    let buckets = table
        .iter()
        .zip(places)
        .map(|(&item, place)| {
            (item != u64::MAX).then(|| {
                assert_eq!(item, points[place]);
                place
            })
        })
        .collect();
    Ok(Placed { buckets, counters: turns.iter().map(|t| t % 3).collect(), evictions })
}

fn plain(shares: Vec<Wrapping<u64>>) -> Vec<u64> {
    shares.into_iter().map(|share| share.0).collect()
}

/// Random words as the C face takes them (low half first) as the source draws them. An odd last
/// element is ignored.
pub fn wide(words: &[u64]) -> Vec<u128> {
    words.chunks_exact(2).map(|w| (w[1] as u128) << 64 | w[0] as u128).collect()
}
