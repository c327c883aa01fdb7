//! Runs the Rust on the smallest input of each entry of docs/DIFFERENCES.md, and says what it does and
//! what document 01 wants. Both profiles are telling: what only a debug build asserts shows in
//! target/debug alone.
#![forbid(unsafe_code)]

use oracle::call::{refusal, Call};
use oracle::expect::Oracle;
use oracle::image;
use oracle::list::{buffer, room};
use oracle::random::Random;
use oracle::source::{self, caught, MultiKey, Soft, Source};
use oracle::table_hash::{tables, TableHash};
use std::num::Wrapping;
use utils_none::cuckoo::{Hasher, Parameters};

type HashKeys = [[u8; 16]; 3];

fn title(number: &str, text: &str) {
    println!("\n{number}. {text}");
}

fn rust(text: String) {
    println!("   Rust: {text}");
}

/// What document 01 wants of a call.
fn here(call: Call) {
    let after = Oracle::default().expect(&call).expect("the oracle agrees");
    let answer = match after.number {
        0 => format!(" {:?}", after.answer),
        _ => String::new(),
    };
    println!(
        "   here: {} answers {} {}{answer}",
        call.function(),
        after.number,
        refusal::name(after.number)
    );
}

fn joined(hash_keys: HashKeys) -> [u8; 48] {
    std::array::from_fn(|i| hash_keys[i / 16][i % 16])
}

fn make_call(
    domain: u64,
    buckets: u64,
    hash_keys: HashKeys,
    points: &[u64],
    values: &[u64],
) -> Call {
    Call::MultiMake {
        domain,
        buckets,
        hash_keys: joined(hash_keys),
        points: points.to_vec(),
        values: values.to_vec(),
        words: vec![3; 40],
        scratch: room(60),
        key0: buffer(4000),
        key1: buffer(4000),
    }
}

/// The sums of both shares of all cells, or what the Rust says when it panics.
fn sums(
    domain: u64,
    buckets: usize,
    hash_keys: HashKeys,
    points: &[u64],
    values: &[u64],
) -> Result<(usize, Vec<u64>), String> {
    let words: Vec<u128> = (1..60).map(|w| w * 0x1234_5678_9abc_def0_1111).collect();
    let made = source::make_multi::<Soft>(domain, buckets, hash_keys, points, values, &words)
        .map_err(|p| p.message)?;
    let records = made.keys[0].records.iter().flatten().count();
    let share = |key: &MultiKey| source::multi_domain::<Soft>(key).map_err(|p| p.message);
    let (first, second) = (share(&made.keys[0])?, share(&made.keys[1])?);
    Ok((records, first.iter().zip(second).map(|(a, b)| a.wrapping_add(b)).collect()))
}

fn told(result: Result<(usize, Vec<u64>), String>) -> String {
    match result {
        Ok((records, sums)) => {
            format!("makes keys with {records} records; the shares sum to {sums:?}")
        }
        Err(message) => format!("panics: {}", message.lines().next().unwrap_or_default()),
    }
}

fn panicked<T: std::fmt::Debug>(result: Result<T, source::Panic>) -> String {
    match result {
        Ok(value) => format!("answers {value:?}"),
        Err(p) => format!("panics: {}", p.message.lines().next().unwrap_or_default()),
    }
}

const KEYS: HashKeys = [[1; 16], [2; 16], [3; 16]];

/// Hash keys for which the points fit and cell `apart` has more than one bucket.
fn keys_where(buckets: usize, points: &[u64], apart: u64) -> HashKeys {
    let mut random = Random::new(9);
    loop {
        let keys: HashKeys = [random.array(), random.array(), random.array()];
        let of = keys.map(|key| Soft::bucket(key, buckets, apart));
        let fits = source::place::<Soft>(buckets, keys, points).is_ok();
        if fits && of.iter().any(|&b| b != of[0]) {
            return keys;
        }
    }
}

fn points_and_domains() {
    title("3", "No points: D 1, B 1, an empty list");
    rust(told(sums(1, 1, KEYS, &[], &[])));
    here(make_call(1, 1, KEYS, &[], &[]));

    title("4", "No cells: D 0, B 1, an empty list");
    rust(told(sums(0, 1, KEYS, &[], &[])));
    here(make_call(0, 1, KEYS, &[], &[]));

    title("5", "More points than buckets: D 3, B 1, points 0, 1");
    rust(told(sums(3, 1, KEYS, &[0, 1], &[1, 1])));
    here(make_call(3, 1, KEYS, &[0, 1], &[1, 1]));
    println!("   D 3, B 2, points 0, 1, 2, all functions alike");
    rust(told(sums(3, 2, [[7; 16]; 3], &[0, 1, 2], &[1, 1, 1])));
    let mut random = Random::new(4);
    let cycle = std::iter::repeat_with(|| [random.array(), random.array(), random.array()])
        .find(|&keys| source::place::<Soft>(2, keys, &[0, 1]).is_err())
        .expect("some lists do not fit");
    println!("   the same, where the first two points do not fit");
    rust(told(sums(3, 2, cycle, &[0, 1, 2], &[1, 1, 1])));

    title("6", "Points that do not rise: D 5, B 2, points 4, 4, values 1, 2");
    let keys = keys_where(2, &[4, 4], 4);
    rust(told(sums(5, 2, keys, &[4, 4], &[1, 2])));
    here(make_call(5, 2, keys, &[4, 4], &[1, 2]));
    let keys = keys_where(2, &[4, 3], 4);
    println!("   points 4, 3");
    rust(told(sums(5, 2, keys, &[4, 3], &[1, 2])));
    here(make_call(5, 2, keys, &[4, 3], &[1, 2]));
    println!("   point 5");
    rust(told(sums(5, 2, KEYS, &[5], &[1])));
    here(make_call(5, 2, KEYS, &[5], &[1]));
    println!("   lists of different lengths: point 4, values 1, 2");
    rust(told(sums(5, 2, KEYS, &[4], &[1, 2])));
    here(make_call(5, 2, KEYS, &[4], &[1, 2]));

    title("7", "B 65536");
    rust(format!("SmartMpDpf {}", told(sums(5, 65_536, KEYS, &[4], &[1]))));
    here(make_call(5, 65_536, KEYS, &[4], &[1]));
    let alone = |buckets| panicked(caught(|| Soft::bucket([1; 16], buckets, 0)));
    rust(format!("AesHashFunction over 65536: item 0 {}", alone(65_536)));
    here(Call::Bucket { hash_key: [1; 16], buckets: 65_536, item: 0 });
    // item 0 hashes to 65536 or more for some key
    let high = (0..=255u8)
        .flat_map(|a| (0..=255u8).map(move |b| (a, b)))
        .map(|(a, b)| {
            let mut key = [0; 16];
            (key[0], key[1]) = (a, b);
            caught(move || Soft::bucket(key, (1 << 24) - 1, 0))
        })
        .find(Result::is_err)
        .expect("some hash is above 65535");
    rust(format!("AesHashFunction over 2^24 - 1, some key: item 0 {}", panicked(high)));
    rust(format!("AesHashFunction over 2^24: {}", alone(1 << 24)));

    title("14", "Limits of the domains");
    let large = |size| {
        caught(|| source::make_single::<Soft>(size, size - 1, 5, &[3, 4]).keys[0].words.len())
    };
    rust(format!("single, S 2^34 + 1: {} correction words", panicked(large((1 << 34) + 1))));
    let single = |domain, point| Call::SingleMake {
        domain,
        point,
        value: 5,
        words: vec![1; 4],
        key0: buffer(700),
        key1: buffer(700),
    };
    here(single((1 << 34) + 1, 0));
    rust(format!(
        "single, S 0: {}",
        panicked(caught(|| source::make_single::<Soft>(0, 0, 5, &[3, 4])))
    ));
    here(single(0, 0));
    rust(format!(
        "single, S 3, alpha 3: {}",
        panicked(caught(|| source::make_single::<Soft>(3, 3, 5, &[3, 4])))
    ));
    here(single(3, 3));
    rust(format!("multi, D 2^32: {}", told(sums(1 << 32, 1, KEYS, &[0], &[1]))));
    here(make_call(1 << 32, 1, KEYS, &[0], &[1]));

    title("15", "The walk gives up: B 2, two points, all functions 0");
    let gave_up = source::place::<source::Zero>(2, [[0; 16]; 3], &[0, 1]).unwrap_err();
    rust(format!("panics: {} (after {} evictions)", gave_up.message, gave_up.evictions));
    let gave_up = sums(3, 2, cycle, &[0, 1], &[1, 1]);
    rust(format!("the same by hash keys, D 3, points 0, 1: {}", told(gave_up)));
    here(make_call(3, 2, cycle, &[0, 1], &[1, 1]));
}

fn made(domain: u64, buckets: usize, hash_keys: HashKeys, point: u64, value: u64) -> [MultiKey; 2] {
    let words: Vec<u128> = (1..60).map(|w| w * 0x1234_5678_9abc_def0_1111).collect();
    source::make_multi::<Soft>(domain, buckets, hash_keys, &[point], &[value], &words)
        .expect("one point fits")
        .keys
}

fn readings(key: &MultiKey) {
    rust(format!("evaluate_at, cell 0: {}", panicked(source::multi_at::<Soft>(key, 0))));
    rust(format!("evaluate_domain: {}", panicked(source::multi_domain::<Soft>(key))));
    let (image, buckets) = (image::write_multi(key), key.records.len() as u64);
    here(Call::MultiAt { key: image.clone(), index: 0, scratch: room(buckets) });
    here(Call::MultiDomain {
        key: image,
        scratch: room(6 * key.domain + 2 * buckets),
        out: room(key.domain),
    });
}

fn keys_that_do_not_fit() {
    title("8", "A record of another size than its bucket: D 1, B 1, size 4 for 3");
    let [key, _] = made(1, 1, KEYS, 0, 7);
    let mut larger = key.clone();
    larger.records[0].as_mut().expect("one record").size = 4;
    println!("   (the fair key)");
    readings(&key);
    println!("   (size 4)");
    readings(&larger);
    println!("   no record for a bucket in use: D 1, B 1");
    let none = MultiKey { records: vec![None], ..key };
    readings(&none);
    println!("   a record for an empty bucket: D 1, B 4");
    let [key, _] = made(1, 4, KEYS, 0, 7);
    let empty = key.records.iter().position(Option::is_none).expect("an empty bucket");
    let mut extra = key.clone();
    extra.records[empty] = Some(source::make_single::<Soft>(2, 0, 1, &[1, 2]).keys[0].clone());
    println!("   (the fair key)");
    readings(&key);
    println!("   (with the record)");
    readings(&extra);

    title("9", "S 1 with a seed, hcw or lcw that is not zero");
    let record = source::make_single::<Soft>(1, 0, 5, &[7]).keys[0].clone();
    for (name, record) in [
        ("seed 1", source::Record { seed: 1, ..record.clone() }),
        ("hcw 1", source::Record { hcw: 1, ..record.clone() }),
        ("lcw 1, 0", source::Record { lcw: [true, false], ..record.clone() }),
    ] {
        rust(format!("{name}: cell 0 answers {}", source::single_at::<Soft>(0, &record, 0)));
        here(Call::SingleAt { key: image::write_single(0, &record), index: 0 });
    }

    title("10", "Whose hash functions: D 4, B 3; the object has others than the key");
    let [key0, key1] = made(4, 3, KEYS, 2, 7);
    let objects = [Soft::multi_object(&key0), Soft::multi_object(&key1)];
    let other: HashKeys = [[4; 16], [5; 16], [6; 16]];
    given::give_buckets(3, other);
    let scheme = Soft::scheme(4, 1, true);
    let at: Vec<u64> = (0..4)
        .map(|x| {
            objects.iter().map(|k| Wrapping(Soft::multi_at(&scheme, k, x))).sum::<Wrapping<u64>>().0
        })
        .collect();
    rust(format!("evaluate_at, both shares: {at:?}"));
    let whole = caught(|| {
        let [a, b] = [0, 1].map(|p: usize| Soft::multi_domain(&scheme, &objects[p]));
        a.iter().zip(b).map(|(a, b)| (a + b).0).collect::<Vec<u64>>()
    });
    rust(format!("evaluate_domain, both shares: {}", panicked(whole)));
    println!("   here: both read the image's keys, and are one call");
    println!("   the object's number of points is 2, the key's 1");
    given::give_buckets(3, KEYS);
    let scheme = Soft::scheme(4, 2, true);
    let at = caught(|| Soft::multi_at(&scheme, &objects[0], 0));
    rust(format!("evaluate_at {}", panicked(at)));
    let mut image = image::write_multi(&key0);
    image[16] = 2;
    println!("   n 2 in the image of one point");
    here(Call::MultiAt { key: image, index: 0, scratch: room(3) });
    let beyond = caught(|| Soft::multi_at(&Soft::scheme(4, 1, false), &objects[0], 4));
    println!("   cell 4 of D 4");
    rust(format!("evaluate_at {}", panicked(beyond)));
    here(Call::MultiAt { key: image::write_multi(&key0), index: 4, scratch: room(3) });
}

/// The walk by document 01's words, counting every eviction also where it gives up.
fn evictions(buckets: usize, hash_keys: HashKeys, points: &[u64]) -> (bool, u64) {
    let of = |p: usize, k: usize| Soft::bucket(hash_keys[k], buckets, points[p]) as usize;
    let mut held: Vec<Option<usize>> = vec![None; buckets];
    let mut next = vec![0; points.len()];
    let mut total = 0;
    for input in 0..points.len() {
        let (mut hand, mut own) = (input, 0);
        loop {
            let b = of(hand, next[hand]);
            next[hand] = (next[hand] + 1) % 3;
            match held[b].replace(hand) {
                None => break,
                Some(holder) => hand = holder,
            }
            (own, total) = (own + 1, total + 1);
            if own == points.len() as u64 + 1 {
                return (false, total);
            }
        }
    }
    (true, total)
}

fn walks_and_positions() {
    title("11", "Evictions: document 01's count beside the swaps of the Rust's walk");
    let mut random = Random::new(11);
    let (mut same, mut gave_up) = (0, 0);
    for _ in 0..20_000 {
        let buckets = random.within(1, 12) as usize;
        let count = random.within(1, buckets as u64) as usize;
        let points = random.rising(count, 100);
        let keys: HashKeys = [random.array(), random.array(), random.array()];
        let rust = match source::place::<Soft>(buckets, keys, &points) {
            Ok(placed) => (true, placed.evictions),
            Err(p) => (false, p.evictions),
        };
        gave_up += !rust.0 as u64;
        same += (rust == evictions(buckets, keys, &points)) as u64;
    }
    rust(format!("{same} of 20000 random walks agree, {gave_up} that give up among them"));

    title("12", "Positions: D 3, B 2, buckets of cells (0,0,1), (1,1,1), (0,1,0)");
    given::give_buckets(2, tables(&[[0, 0, 1], [1, 1, 1], [0, 1, 0]]));
    let hasher = Hasher::new(Parameters::<TableHash, u16>::from_seed(0, [0; 32]));
    let lists = hasher.hash_domain_into_buckets(3);
    let table = Hasher::<TableHash, u16>::compute_pos_lookup_table(3, &lists);
    rust(format!("position table, (bucket, position) by bucket: {table:?}"));
    let looked_up = |x: u64, b: usize| Hasher::<TableHash, u16>::pos_lookup(&table, b, x);
    let by_cell: Vec<[u64; 3]> = [[0, 0, 1], [1, 1, 1], [0, 1, 0]]
        .iter()
        .enumerate()
        .map(|(x, of)| of.map(|b| looked_up(x as u64, b)))
        .collect();
    println!("   here: first positions by cell and function: {by_cell:?}");

    title("13", "get_number_points of SmartMpDpf: D 5, 2 points");
    given::give_buckets(3, KEYS);
    rust(format!("answers {}", Soft::scheme_points(&Soft::scheme(5, 2, false))));
    println!("   here: there is no such call; the image holds n, the length of the list");
}

fn main() {
    println!(
        "The Rust at e39e55625f, debug assertions {}.",
        if cfg!(debug_assertions) { "on" } else { "off" }
    );
    println!("1 and 2 (sigma and pi, the height) are in the program `confirm`.");
    points_and_domains();
    keys_that_do_not_fit();
    walks_and_positions();
}
