//! Times the calls: the Rust with each of its ciphers, and Morgnet where it is linked, on the same
//! inputs in one run. Microseconds, the least of several runs of the process's processor time; the
//! Rust's threads are held to one. The columns take turns, three rounds of them, so that what disturbs
//! the machine for a while disturbs no column in all its turns.
//!
//!     bench [SECONDS] [LARGEST]     so long for each number (0.5); domains up to 2^LARGEST (20)
//!
//! The Rust allocates what it returns. Morgnet is lent scratch and outputs, allocated and touched
//! before and not cleared between runs. Adding, in the Rust, is the whole domain and a loop.
#![forbid(unsafe_code)]

use oracle::image;
use oracle::random::Random;
use oracle::source::{self, Bytes, MultiKey, Ni, Record, Soft, Source};
use std::hint::black_box;
use std::num::Wrapping;

/// The source's number of buckets for 1000 points (`compute_number_buckets`).
const BUCKETS: u64 = 1783;
const POINTS: usize = 1000;

/// How often each column has its turn.
const ROUNDS: usize = 3;

/// Microseconds of a call: the least of the runs that fit, and of two at least. A run repeats a short
/// call until it takes some 2 milliseconds, since the clock is not exact.
fn time<T>(seconds: f64, mut call: impl FnMut() -> T) -> f64 {
    let mut run = |times: u64| {
        let start = raw::process_time();
        for _ in 0..times {
            black_box(call());
        }
        raw::process_time() - start
    };
    let mut times = 1;
    while run(times) < 2_000_000 {
        times *= 2;
    }
    let begin = raw::process_time();
    let (mut least, mut runs) = (u64::MAX, 0);
    while runs < 2 || raw::process_time() - begin < (seconds * 1e9) as u64 {
        least = least.min(run(times));
        runs += 1;
    }
    least as f64 / 1e3 / times as f64
}

struct Single {
    size: u64,
    point: u64,
    value: u64,
    words: Vec<u64>,
    keys: [Record; 2],
    images: [Vec<u8>; 2],
    index: u64,
}

impl Single {
    fn new(random: &mut Random, size: u64) -> Self {
        let (point, value, words) = (random.below(size), random.next(), random.numbers(4));
        let made = source::make_single::<Soft>(size, point, value, &source::wide(&words));
        let images = [0, 1].map(|p| image::write_single(p, &made.keys[p as usize]));
        let index = random.below(size);
        Self { size, point, value, words, keys: made.keys, images, index }
    }

    /// Make, one cell, whole domain, adding.
    fn rust<S: Source>(&self, seconds: f64) -> Vec<f64> {
        let words = source::wide(&self.words);
        let key = S::single_object(0, &self.keys[0]);
        let mut table = vec![Wrapping(1u64); self.size as usize];
        vec![
            time(seconds, || {
                given::give_words(&words);
                S::single_make(self.size as u128, self.point as u128, self.value)
            }),
            time(seconds, || S::single_at(&key, self.index as u128)),
            time(seconds, || S::single_domain(&key)),
            time(seconds, || {
                for (cell, share) in table.iter_mut().zip(S::single_domain(&key)) {
                    *cell += share;
                }
            }),
        ]
    }

    #[cfg(feature = "linked")]
    fn morgnet(&self, seconds: f64) -> Vec<Option<f64>> {
        use raw::morgnet as m;
        let (mut key0, mut key1) = (self.images[0].clone(), self.images[0].clone());
        let mut scratch = vec![1; 2 * self.size as usize];
        let mut out = vec![1; self.size as usize];
        let mut table = out.clone();
        let (mut answer, mut share) = ([0; 2], 0);
        let key = &self.images[0];
        let times = vec![
            time(seconds, || {
                m::single_generate_keys(
                    self.size,
                    self.point,
                    self.value,
                    &self.words,
                    &mut key0,
                    &mut key1,
                    &mut answer,
                )
            }),
            time(seconds, || m::single_evaluate_at(key, self.index, &mut share)),
            time(seconds, || m::single_evaluate_domain(key, &mut scratch, &mut out)),
            time(seconds, || m::single_add_to(key, &mut scratch, &mut table)),
        ];
        assert_eq!([key0, key1], self.images, "both make the same images");
        assert_eq!(share, source::single_at::<Soft>(0, &self.keys[0], self.index));
        assert_eq!(
            out,
            source::single_domain::<Soft>(0, &self.keys[0]),
            "both give the same shares"
        );
        times.into_iter().map(Some).collect()
    }

    #[cfg(not(feature = "linked"))]
    fn morgnet(&self, _seconds: f64) -> Vec<Option<f64>> {
        let _ = &self.images;
        vec![None; 4]
    }
}

struct Multi {
    domain: u64,
    hash_keys: [u8; 48],
    points: Vec<u64>,
    values: Vec<u64>,
    words: Vec<u64>,
    keys: [MultiKey; 2],
    images: [Vec<u8>; 2],
    index: u64,
}

fn split(hash_keys: &[u8; 48]) -> [[u8; 16]; 3] {
    std::array::from_fn(|k| hash_keys[16 * k..16 * k + 16].try_into().expect("16 bytes"))
}

impl Multi {
    fn new(random: &mut Random, domain: u64) -> Self {
        let points = random.rising(POINTS, domain);
        let values = random.numbers(POINTS);
        let words = random.numbers(4 * BUCKETS as usize);
        loop {
            let hash_keys = random.array();
            let made = source::make_multi::<Soft>(
                domain,
                BUCKETS as usize,
                split(&hash_keys),
                &points,
                &values,
                &source::wide(&words),
            );
            if let Ok(made) = made {
                let images = [0, 1].map(|p: usize| image::write_multi(&made.keys[p]));
                let (keys, index) = (made.keys, random.below(domain));
                return Self { domain, hash_keys, points, values, words, keys, images, index };
            }
        }
    }

    /// Make, one cell, whole domain, adding, and the whole domain with the hashes kept.
    fn rust<S: Source>(&self, seconds: f64) -> Vec<f64> {
        let words = source::wide(&self.words);
        let values: Vec<_> = self.values.iter().copied().map(Wrapping).collect();
        let key = S::multi_object(&self.keys[0]);
        given::give_buckets(BUCKETS as usize, split(&self.hash_keys));
        let scheme = S::scheme(self.domain as usize, POINTS, false);
        let ready = S::scheme(self.domain as usize, POINTS, true);
        let mut table = vec![Wrapping(1u64); self.domain as usize];
        vec![
            time(seconds, || {
                given::give_words(&words);
                S::multi_make(&scheme, &self.points, &values)
            }),
            time(seconds, || S::multi_at(&scheme, &key, self.index)),
            time(seconds, || S::multi_domain(&scheme, &key)),
            time(seconds, || {
                for (cell, share) in table.iter_mut().zip(S::multi_domain(&scheme, &key)) {
                    *cell += share;
                }
            }),
            time(seconds, || S::multi_domain(&ready, &key)),
        ]
    }

    #[cfg(feature = "linked")]
    fn morgnet(&self, seconds: f64) -> Vec<Option<f64>> {
        use raw::morgnet as m;
        let (mut key0, mut key1) = (self.images[0].clone(), self.images[0].clone());
        let mut scratch = vec![1; 6 * self.domain as usize + 4 * BUCKETS as usize + POINTS];
        let mut out = vec![1; self.domain as usize];
        let mut table = out.clone();
        let (mut answer, mut share) = ([0; 3], 0);
        let key = &self.images[0];
        let times = [
            time(seconds, || {
                m::multi_generate_keys(
                    self.domain,
                    BUCKETS,
                    &self.hash_keys,
                    &self.points,
                    &self.values,
                    &self.words,
                    &mut scratch,
                    &mut key0,
                    &mut key1,
                    &mut answer,
                )
            }),
            time(seconds, || m::multi_evaluate_at(key, self.index, &mut scratch, &mut share)),
            time(seconds, || m::multi_evaluate_domain(key, &mut scratch, &mut out)),
            time(seconds, || m::multi_add_to(key, &mut scratch, &mut table)),
        ];
        assert_eq!([key0, key1], self.images, "both make the same images");
        let at = source::multi_at::<Soft>(&self.keys[0], self.index);
        assert_eq!(Ok(share), at, "both give the same share");
        let whole = source::multi_domain::<Soft>(&self.keys[0]);
        assert_eq!(Ok(out), whole, "both give the same shares");
        times.into_iter().map(Some).chain([None]).collect()
    }

    #[cfg(not(feature = "linked"))]
    fn morgnet(&self, _seconds: f64) -> Vec<Option<f64>> {
        let _ = &self.images;
        vec![None; 5]
    }
}

fn has_ni() -> bool {
    raw::AesNi::new([0; 16]).is_some()
}

/// Four columns of numbers, the least of each in so many rounds.
type Columns = [Vec<Option<f64>>; 4];

fn least(mut round: impl FnMut() -> Columns) -> Columns {
    let mut columns = round();
    for _ in 1..ROUNDS {
        for (column, again) in columns.iter_mut().zip(round()) {
            for (number, other) in column.iter_mut().zip(again) {
                *number = number.zip(other).map(|(a, b)| a.min(b));
            }
        }
    }
    columns
}

fn table(names: &[&str], what: &str, columns: Columns) {
    let shown = |n: Option<f64>| {
        n.map_or("-".to_string(), |n| match n {
            n if n < 10.0 => format!("{n:.2}"),
            n if n < 1000.0 => format!("{n:.1}"),
            n => format!("{n:.0}"),
        })
    };
    let ratio = |n: Option<f64>, of: Option<f64>| match (n, of) {
        (Some(n), Some(of)) => format!("{:.2}", n / of),
        _ => "-".to_string(),
    };
    let [soft, bytes, ni, ours] = columns;
    for (i, name) in names.iter().enumerate() {
        println!(
            "| {name} | {what} | {} | {} | {} | {} | {} | {} |",
            shown(soft[i]),
            shown(bytes[i]),
            shown(ni[i]),
            shown(ours[i]),
            ratio(ours[i], bytes[i]),
            ratio(ours[i], soft[i])
        );
    }
}

fn main() {
    // before the first thread is made: one worker, so that processor time is comparable
    std::env::set_var("RAYON_NUM_THREADS", "1");
    let number = |i: usize| std::env::args().nth(i).and_then(|s| s.parse::<f64>().ok());
    let seconds = number(1).unwrap_or(0.5);
    let largest = number(2).unwrap_or(20.0) as u32;
    if cfg!(debug_assertions) {
        eprintln!("built for comparing, not for timing: use target/release/bench");
    }
    let mut random = Random::new(5);
    println!("| call | S or D, B | software AES, us | byte-wise, us | AES-NI, us | Morgnet, us | Morgnet / byte-wise | Morgnet / software |");
    println!("|---|---|---:|---:|---:|---:|---:|---:|");
    for k in [12, 16, 20].into_iter().filter(|&k| k <= largest) {
        single(&Single::new(&mut random, 1 << k), k, seconds / ROUNDS as f64);
    }
    for k in [14, 16, 18, 20].into_iter().filter(|&k| k <= largest) {
        multi(&Multi::new(&mut random, 1 << k), k, seconds / ROUNDS as f64);
    }
}

fn all(times: Vec<f64>) -> Vec<Option<f64>> {
    times.into_iter().map(Some).collect()
}

fn single(case: &Single, k: u32, seconds: f64) {
    let names = ["single: make", "single: one cell", "single: whole domain", "single: adding"];
    let columns = least(|| {
        [
            all(case.rust::<Soft>(seconds)),
            all(case.rust::<Bytes>(seconds)),
            if has_ni() { all(case.rust::<Ni>(seconds)) } else { vec![None; 4] },
            case.morgnet(seconds),
        ]
    });
    table(&names, &format!("2^{k}"), columns);
}

fn multi(case: &Multi, k: u32, seconds: f64) {
    let names = [
        "multi: make",
        "multi: one cell",
        "multi: whole domain",
        "multi: adding",
        "multi: whole domain, hashes kept",
    ];
    let columns = least(|| {
        [
            all(case.rust::<Soft>(seconds)),
            all(case.rust::<Bytes>(seconds)),
            if has_ni() { all(case.rust::<Ni>(seconds)) } else { vec![None; 5] },
            case.morgnet(seconds),
        ]
    });
    table(&names, &format!("2^{k}, {BUCKETS}, n {POINTS}"), columns);
}
