//! Writes the replay lists, and replays them.
//!
//!     lists single SEED DATE FILE    writes a list of single keys (and heights and tree hashes)
//!     lists multi SEED DATE FILE     writes a list of multi keys (and bucket hashes and placements)
//!     lists replay FILE              replays a list over Morgnet, or over src/own.rs where it is not linked
//!     lists faults FILE..            replays lists over src/own.rs with each fault planted
//!
//! The format is in oracle/README.md.
#![forbid(unsafe_code)]

use oracle::call::{refusal, After, Call};
use oracle::image;
use oracle::list::{self, buffer, how, room, work, List};
use oracle::own::{Fault, Own, FAULTS};
use oracle::random::Random;
use oracle::source::{self, Soft};
use std::panic::{self, AssertUnwindSafe};
use std::process::exit;

fn usage() -> ! {
    eprintln!("usage: lists single|multi SEED DATE FILE | lists replay FILE | lists faults FILE..");
    exit(2)
}

fn main() {
    let args: Vec<String> = std::env::args().skip(1).collect();
    let words: Vec<&str> = args.iter().map(String::as_str).collect();
    match words[..] {
        [kind @ ("single" | "multi"), seed, date, file] => {
            let Ok(seed) = seed.parse() else { usage() };
            write(kind, seed, date, file)
        }
        ["replay", file] => replay(file),
        ["faults", ..] if words.len() > 1 => faults(&words[1..]),
        _ => usage(),
    }
}

fn write(kind: &str, seed: u64, date: &str, file: &str) {
    let mut random = Random::new(seed);
    let mut list = List::default();
    match kind {
        "single" => single(&mut list, &mut random),
        _ => multi(&mut list, &mut random),
    }
    let extent = list.extent;
    let head = format!(
        "{kind}_replay: answers of Ramen e39e55625f (dpf, utils); made by: lists {kind} {seed} {date}; seed {seed}; date {date}; {} records, {} calls",
        extent.records, extent.calls
    );
    let bytes = list.file(&head);
    assert!(bytes.len() <= list::LARGEST, "the replaying program holds {} bytes", list::LARGEST);
    std::fs::write(file, &bytes).unwrap_or_else(|e| panic!("{file}: {e}"));
    println!("{head}\n{} bytes, {extent:#?}", bytes.len());
}

#[cfg(feature = "linked")]
fn face() -> oracle::face::Linked {
    oracle::face::Linked
}

#[cfg(not(feature = "linked"))]
fn face() -> Own {
    Own { fault: Fault::None }
}

fn load(file: &str) -> Vec<u8> {
    std::fs::read(file).unwrap_or_else(|e| panic!("{file}: {e}"))
}

fn replay(file: &str) {
    let (records, calls, bad) = list::replay(&load(file), &face());
    println!("{records} records, {calls} calls, {} disagree", bad.len());
    if let Some(first) = bad.first() {
        println!("the first: {first}");
        exit(1);
    }
}

/// Says of each fault which list notices it.
fn faults(files: &[&str]) {
    panic::set_hook(Box::new(|_| {}));
    let mut missed = 0;
    for &fault in FAULTS {
        let noticed: Vec<String> = files
            .iter()
            .map(|file| {
                let bytes = load(file);
                let run = || list::replay(&bytes, &Own { fault }).2.len();
                match panic::catch_unwind(AssertUnwindSafe(run)) {
                    Ok(0) => "-".to_string(),
                    Ok(count) => count.to_string(),
                    Err(_) => "panics".to_string(),
                }
            })
            .collect();
        let unseen = noticed.iter().all(|n| n == "-");
        missed += unseen as u64;
        let note = if unseen { "  NOT NOTICED" } else { "" };
        println!("{:<28} {}{note}", format!("{fault:?}"), noticed.join("  "));
    }
    println!("{} faults, {missed} not noticed", FAULTS.len());
}

// ---- single keys

fn make_single(list: &mut List, random: &mut Random, domain: u64, point: u64, more: u64) -> After {
    let words = random.numbers(if domain == 1 { 2 } else { 4 } + more as usize % 3);
    let length = image::single_length(domain);
    list.call(&Call::SingleMake {
        domain,
        point,
        value: random.value(),
        words,
        key0: buffer(length + more as usize),
        key1: buffer(length),
    })
}

fn single(list: &mut List, random: &mut Random) {
    for size in [0, 1, 2, 3, 4, 5, 7, 8, 9, 33, (1 << 33) + 1, 1 << 34, (1 << 34) + 1, u64::MAX] {
        list.call(&Call::Height { size });
    }
    for k in 5..=33 {
        list.call(&Call::Height { size: (1 << k) + 1 });
    }
    for x in [[0, 0], [1, 0], [0, 1], [u64::MAX, 0], [random.next(), random.next()]] {
        list.call(&Call::Tree { x });
    }
    // small domains in full, odd and even; words, buffers, scratch and output longer than needed
    for size in 1..=9 {
        let points =
            if size < 4 { (0..size).collect() } else { vec![0, random.below(size), size - 1] };
        for (i, point) in points.into_iter().enumerate() {
            make_single(list, random, size, point, i as u64);
            let ways = match (size, i) {
                (1..=5, _) => how::AT + how::DOMAIN + how::ADD,
                (_, 0) => how::AT,
                (_, 1) => how::DOMAIN,
                _ => how::ADD,
            };
            list.cells(0, ways, 0, size, 3 - i as u64);
            list.cells(1, ways, 0, size, i as u64);
        }
    }
    for size in [16, 17, 31, 33] {
        let point = random.below(size);
        make_single(list, random, size, point, 0);
        list.cells(0, how::DOMAIN, 0, size, 2);
        list.cells(1, how::ADD, 0, size, 0);
    }
    // larger ones by cells, around the point
    for size in [1000, 1025, (1 << 20) - 1, (1 << 32) + 1, 1 << 34] {
        let point = random.within(1, size - 2);
        make_single(list, random, size, point, 1);
        list.cells(0, how::AT, point, 2, 0);
        list.cells(1, how::AT, point - 1, 2, 0);
    }
    refused_single(list, random);
    damaged_single(list, random);
}

fn refused_single(list: &mut List, random: &mut Random) {
    let mut make = |domain, point, words, room0, room1| {
        list.call(&Call::SingleMake {
            domain,
            point,
            value: 5,
            words: random.numbers(words),
            key0: buffer(room0),
            key1: buffer(room1),
        });
    };
    for domain in [0, (1 << 34) + 1, u64::MAX] {
        make(domain, 0, 4, 64, 64);
        make(domain, u64::MAX, 0, 0, 0);
    }
    for (point, words, room0, room1) in [
        (3, 4, 80, 80),
        (4, 0, 0, 0),
        (u64::MAX, 4, 80, 80),
        (2, 3, 80, 80),
        (2, 0, 79, 0),
        (2, 4, 79, 80),
        (2, 5, 80, 79),
        (2, 4, 0, 80),
    ] {
        make(3, point, words, room0, room1);
    }
    make(1, 0, 1, 64, 64);
    make(1, 0, 2, 63, 64);
    make(1, 0, 3, 64, 63);
    make(1, 1, 2, 64, 64);
    make(1 << 34, 1 << 34, 4, 592, 592);
    make(1 << 34, 0, 4, 592, 591);
}

fn put(image: &mut [u8], at: usize, length: usize, number: u64) {
    image[at..at + length].copy_from_slice(&number.to_le_bytes()[..length]);
}

/// Asks for one cell, the whole domain and adding, where they are refused.
fn refused_readings(list: &mut List, key: Vec<u8>, size: u64) {
    let at = Call::SingleAt { key: key.clone(), index: 0 };
    list.call(&at);
    let (scratch, out) = (work(2 * size), room(size));
    list.call(&Call::SingleDomain { key: key.clone(), scratch: scratch.clone(), out: out.clone() });
    list.call(&Call::SingleAdd { key, scratch, table: out });
}

fn damaged_single(list: &mut List, random: &mut Random) {
    make_single(list, random, 3, 1, 0);
    let [key, _] = list.pair();
    for index in [3, 4, u64::MAX] {
        list.call(&Call::SingleAt { key: key.clone(), index });
    }
    for (scratch, out) in [(5, 3), (0, 0), (6, 2), (5, 2)] {
        let call = Call::SingleDomain { key: key.clone(), scratch: work(scratch), out: room(out) };
        list.call(&call);
    }
    for (scratch, table) in [(5, 3), (6, 2), (6, 4), (5, 4), (0, 3)] {
        let call = Call::SingleAdd { key: key.clone(), scratch: work(scratch), table: room(table) };
        list.call(&call);
    }
    // each rule of the layout broken alone
    for (at, length, number) in [
        (0, 4, 2),
        (0, 4, 1 << 31),
        (4, 4, 0),
        (4, 4, 9),
        (8, 8, 0),
        (8, 8, 2),
        (8, 8, 5),
        (8, 8, (1 << 34) + 1),
        (48, 8, 4),
        (48, 8, 1 << 63),
    ] {
        let mut image = key.clone();
        put(&mut image, at, length, number);
        refused_readings(list, image, 3);
    }
    for length in [0, 1, 7, 8, 63, 64, 79] {
        refused_readings(list, key[..length].to_vec(), 3);
    }
    for longer in [1, 16] {
        let mut image = key.clone();
        image.resize(80 + longer, 0);
        refused_readings(list, image, 3);
    }
    let mut image = key.clone();
    put(&mut image, 8, 8, (1 << 34) + 1);
    image.resize(8 + 56 + 16 * 34, 0);
    refused_readings(list, image, 3);
    // fair images that no maker wrote: the other party, size 4, every lcw, hcw with bit 0 set
    for party in 0..2 {
        for lcw in 0..4 {
            let mut image = key.clone();
            put(&mut image, 0, 4, party);
            put(&mut image, 8, 8, 4);
            put(&mut image, 48, 8, lcw);
            image[32] |= (lcw & 1) as u8;
            for index in 0..4 {
                list.call(&Call::SingleAt { key: image.clone(), index });
            }
        }
    }
    // a domain of one cell with something where zeros must stand
    make_single(list, random, 1, 0, 0);
    let [_, key] = list.pair();
    for at in [16, 31, 32, 47, 48] {
        let mut image = key.clone();
        image[at] = 1;
        refused_readings(list, image, 1);
    }
    list.call(&Call::SingleAt { key, index: 1 });
}

// ---- multi keys

#[derive(Clone)]
struct Posting {
    domain: u64,
    buckets: u64,
    hash_keys: [u8; 48],
    points: Vec<u64>,
    values: Vec<u64>,
}

impl Posting {
    fn split(&self) -> [[u8; 16]; 3] {
        std::array::from_fn(|k| self.hash_keys[16 * k..16 * k + 16].try_into().expect("16 bytes"))
    }

    fn evictions(&self) -> Option<u64> {
        let placed = source::place::<Soft>(self.buckets as usize, self.split(), &self.points);
        placed.ok().map(|placed| placed.evictions)
    }

    fn sizes(&self) -> Vec<u64> {
        use oracle::source::Source;
        let lists = Soft::lists(self.domain, self.buckets as usize, self.split());
        lists.iter().map(|list| list.len() as u64).collect()
    }

    /// Draws points and hash keys until the posting is as wanted.
    fn find(
        random: &mut Random,
        domain: u64,
        buckets: u64,
        count: usize,
        wanted: impl Fn(&Posting) -> bool,
    ) -> Posting {
        for _ in 0..100_000 {
            let points = random.rising(count, domain);
            let values = points.iter().map(|_| random.value()).collect();
            let posting = Posting { domain, buckets, hash_keys: random.array(), points, values };
            if wanted(&posting) {
                return posting;
            }
        }
        panic!("no posting over D {domain}, B {buckets} is as wanted")
    }

    fn needs(&self) -> (u64, usize, usize) {
        let sizes = self.sizes();
        let words: u64 = sizes.iter().map(|&size| size.min(2)).sum();
        let scratch = 4 * self.buckets + self.points.len() as u64;
        (scratch, 2 * words as usize, image::multi_length(&sizes))
    }

    fn call(&self, random: &mut Random, scratch: u64, words: usize, rooms: [usize; 2]) -> Call {
        Call::MultiMake {
            domain: self.domain,
            buckets: self.buckets,
            hash_keys: self.hash_keys,
            points: self.points.clone(),
            values: self.values.clone(),
            words: random.numbers(words),
            scratch: work(scratch),
            key0: buffer(rooms[0]),
            key1: buffer(rooms[1]),
        }
    }

    fn make(&self, list: &mut List, random: &mut Random, more: usize) {
        let (scratch, words, length) = self.needs();
        let call =
            self.call(random, scratch + more as u64, words + more % 3, [length, length + more]);
        assert_eq!(list.call(&call).number, 0);
    }

    fn place(&self, list: &mut List, more: u64) {
        list.call(&Call::Place {
            domain: self.domain,
            buckets: self.buckets,
            hash_keys: self.hash_keys,
            points: self.points.clone(),
            scratch: work(self.buckets + self.points.len() as u64 + more),
        });
    }

    /// Makes the pair and reads it in every way.
    fn in_full(&self, list: &mut List, random: &mut Random, more: usize) {
        self.place(list, more as u64);
        self.make(list, random, more);
        let all = how::AT + how::DOMAIN + how::ADD;
        list.cells(0, all, 0, self.domain, more as u64);
        list.cells(1, how::DOMAIN, 0, self.domain, 0);
        list.cells(1, how::AT, self.points[0], 1, 1);
    }
}

/// The different buckets of a cell.
fn buckets_of(posting: &Posting, item: u64) -> Vec<u16> {
    use oracle::source::Source;
    let mut of: Vec<u16> = posting
        .split()
        .iter()
        .map(|&key| Soft::bucket(key, posting.buckets as usize, item))
        .collect();
    of.sort();
    of.dedup();
    of
}

fn multi(list: &mut List, random: &mut Random) {
    for (buckets, item) in [
        (0, 0),
        (1, 7),
        (2, 0),
        (3, u32::MAX as u64),
        (1000, 12),
        (65_535, u64::MAX),
        (65_535, random.next()),
        (65_536, 0),
        (u64::MAX, 1),
    ] {
        list.call(&Call::Bucket { hash_key: random.array(), buckets, item });
    }
    for _ in 0..4 {
        list.call(&Call::Ccr { key: random.array(), x: [random.next(), random.next()] });
    }
    let collides =
        |p: &Posting, many: usize| p.points.iter().any(|&x| buckets_of(p, x).len() == many);
    // one cell in one bucket; a point whose functions name two buckets, and one; an empty bucket; a
    // bucket of one entry; buckets that no point holds; evictions
    let postings = [
        Posting::find(random, 1, 1, 1, |_| true),
        Posting::find(random, 2, 2, 1, |p| collides(p, 2)),
        Posting::find(random, 3, 3, 2, |p| collides(p, 1) && p.evictions().is_some_and(|e| e > 0)),
        Posting::find(random, 2, 5, 1, |p| p.sizes().contains(&0) && p.sizes().contains(&1)),
        Posting::find(random, 4, 3, 2, |p| p.evictions() == Some(2)),
        Posting::find(random, 5, 4, 3, |p| p.evictions().is_some_and(|e| e >= 3)),
    ];
    for (i, posting) in postings.iter().enumerate() {
        posting.in_full(list, random, i % 4);
    }
    let larger = Posting::find(random, 40, 12, 8, |p| p.evictions().is_some_and(|e| e >= 4));
    larger.place(list, 0);
    larger.make(list, random, 0);
    list.cells(0, how::DOMAIN, 0, 40, 1);
    list.cells(1, how::ADD, 0, 40, 0);
    list.cells(1, how::AT, larger.points[1], 1, 0);
    // walks: many evictions, as many as there may be for one point, and those that give up
    for (buckets, count, least) in [(6, 5, 5), (9, 8, 9), (12, 11, 12)] {
        Posting::find(random, 64, buckets, count, |p| p.evictions().is_some_and(|e| e >= least))
            .place(list, 1);
    }
    nearly_given_up(random).place(list, 0);
    for (buckets, count) in [(2, 2), (3, 3), (5, 5)] {
        let posting = Posting::find(random, 16, buckets, count, |p| p.evictions().is_none());
        posting.place(list, 2);
        let (scratch, words, length) = posting.needs();
        let call = posting.call(random, scratch + 1, words, [length; 2]);
        assert_eq!(list.call(&call).number, refusal::PLACE);
    }
    one_more_would_fit(random).place(list, 1);
    refused_multi(list, random);
    damaged_multi(list, random);
    smallest_makings(list, random);
    smallest_readings(list, random);
}

/// A posting whose walk ends, though not within one eviction less for each input.
fn nearly_given_up(random: &mut Random) -> Posting {
    let tight = Own { fault: Fault::OneEvictionTooFew };
    Posting::find(random, 16, 4, 4, |p| p.evictions().is_some() && placed_by(p, &tight) != 0)
}

/// A posting whose walk gives up, though one eviction more would have ended it.
fn one_more_would_fit(random: &mut Random) -> Posting {
    let loose = Own { fault: Fault::OneEvictionTooMany };
    Posting::find(random, 16, 4, 4, |p| p.evictions().is_none() && placed_by(p, &loose) == 0)
}

fn placed_by(posting: &Posting, face: &Own) -> u64 {
    use oracle::face::Face;
    let mut scratch = work(posting.buckets + posting.points.len() as u64);
    let (domain, buckets) = (posting.domain, posting.buckets);
    face.place(domain, buckets, &posting.hash_keys, &posting.points, &mut scratch, &mut 0)
}

fn refused_multi(list: &mut List, random: &mut Random) {
    let good = Posting::find(random, 5, 3, 2, |p| p.evictions().is_some());
    let gives_up = Posting::find(random, 5, 3, 3, |p| p.evictions().is_none());
    let (scratch, words, length) = good.needs();
    let mut ask = |posting: &Posting, scratch, words, rooms| {
        let call = posting.call(random, scratch, words, rooms);
        list.call(&call);
    };
    // each refusal with everything after it wrong as well, and alone
    for domain in [0, 1 << 32, u64::MAX] {
        ask(&Posting { domain, ..good.clone() }, scratch, words, [length; 2]);
        ask(&Posting { domain, buckets: 0, values: vec![], ..gives_up.clone() }, 0, 0, [0; 2]);
    }
    for buckets in [0, 65_536, 1 << 32, u64::MAX] {
        ask(&Posting { buckets, ..good.clone() }, scratch, words, [length; 2]);
        ask(&Posting { buckets, values: vec![], points: vec![9, 9], ..good.clone() }, 0, 0, [0; 2]);
    }
    let list_of = |points: &[u64], values: usize| Posting {
        points: points.to_vec(),
        values: vec![1; values],
        ..good.clone()
    };
    for (points, values) in [
        (&[][..], 0),
        (&[1, 2], 1),
        (&[1, 2], 3),
        (&[1, 2], 0),
        (&[0, 1, 2, 3], 4),
        (&[2, 2], 1),
        (&[9], 0),
    ] {
        ask(&list_of(points, values), scratch, words, [length; 2]);
        ask(&list_of(points, values), 0, 0, [0; 2]);
    }
    for points in [&[4, 4][..], &[4, 3], &[5], &[0, 5], &[0, u64::MAX], &[u64::MAX, 0]] {
        ask(&list_of(points, points.len()), scratch, words, [length; 2]);
        ask(&list_of(points, points.len()), 0, 0, [0; 2]);
    }
    let last = u32::MAX as u64;
    let largest = |points: &[u64]| Posting { domain: last, ..list_of(points, points.len()) };
    // too little scratch, so that no mistake hashes the largest domain
    ask(&largest(&[]), 0, words, [length; 2]);
    ask(&largest(&[last]), 0, words, [length; 2]);
    ask(&largest(&[0, last - 1]), scratch - 1, words, [length; 2]);
    ask(&Posting { buckets: 65_535, ..good.clone() }, scratch, words, [length; 2]);
    ask(&good, scratch - 1, words, [length; 2]);
    ask(&gives_up, 0, 0, [0; 2]);
    ask(&gives_up, 15, 0, [0; 2]);
    ask(&good, scratch, words - 1, [length; 2]);
    ask(&good, scratch + 2, words - 2, [length - 1, 0]);
    ask(&good, scratch, words + 1, [length - 1, length]);
    ask(&good, scratch + 1, words, [length, length - 1]);
    for (domain, buckets, points, scratch) in [
        (0, 0, vec![], 0),
        (5, 0, vec![], 0),
        (5, 3, vec![], 9),
        (5, 3, vec![0, 1, 2, 3], 9),
        (5, 3, vec![4, 4], 9),
        (5, 3, vec![1, 2], 4),
        (last, 3, vec![last - 1], 4),
        (last, 3, vec![last], 4),
        (last + 1, 3, vec![1], 4),
    ] {
        let (hash_keys, scratch) = (good.hash_keys, work(scratch));
        list.call(&Call::Place { domain, buckets, hash_keys, points, scratch });
    }
}

fn damaged_multi(list: &mut List, random: &mut Random) {
    // one record of size 1, others larger, and an empty bucket
    let posting = Posting::find(random, 2, 4, 1, |p| {
        let sizes = p.sizes();
        p.evictions().is_some() && sizes[3] > 1 && sizes.contains(&0) && sizes.contains(&1)
    });
    posting.make(list, random, 0);
    let [key, other] = list.pair();
    let parts = image::read_multi(&key).expect("just made").1;
    for bucket in [0, 1, 2, 3, 4, u64::MAX] {
        list.call(&Call::MultiRecord { key: key.clone(), bucket });
    }
    for (index, scratch) in [(2, 4), (u64::MAX, 4), (0, 3), (2, 3), (0, 0)] {
        list.call(&Call::MultiAt { key: key.clone(), index, scratch: work(scratch) });
    }
    for (scratch, out) in [(19, 2), (20, 1), (19, 1), (0, 0)] {
        let call = Call::MultiDomain { key: key.clone(), scratch: work(scratch), out: room(out) };
        list.call(&call);
    }
    for (scratch, table) in [(19, 2), (20, 1), (20, 3), (19, 3)] {
        let call = Call::MultiAdd { key: key.clone(), scratch: work(scratch), table: room(table) };
        list.call(&call);
    }
    let (first, one) = (parts.iter().position(|p| p.0 != 0).expect("a record"), {
        let sizes = posting.sizes();
        parts[sizes.iter().position(|&s| s == 1).expect("a bucket of one")].0
    });
    let at = parts[first].0;
    // each rule of the layout broken alone: where, how long, which number
    let mut ways = 0;
    for (at, length, number) in [
        (0, 4, 2),
        (4, 4, 0),
        (4, 4, 3),
        (4, 4, 5),
        (8, 8, 0),
        (8, 8, 1 << 32),
        (8, 8, (1 << 32) + 2),
        (16, 4, 0),
        (16, 4, 5),
        (20, 4, 73),
        (72 + 8 * first, 8, 1),
        (72 + 8 * first, 8, at as u64 + 16),
        (72 + 8 * first, 8, 0),
        (at, 8, 0),
        (at, 8, 1 << 34),
        (at, 8, (1 << 34) + 1),
        (parts[3].0 + 40, 8, 4),
        (one + 8, 8, 1),
        (one + 24, 8, 1),
        (one + 40, 8, 1),
    ] {
        let mut image = key.clone();
        put(&mut image, at, length, number);
        // in turn by one cell, the whole domain, adding, and the record
        refused_multi_reading(list, image, ways);
        ways += 1;
    }
    for length in [0, 71, 72, 103, 104, key.len() - 16, key.len() - 1] {
        refused_multi_reading(list, key[..length].to_vec(), ways);
        ways += 1;
    }
    for longer in [1, 8] {
        let mut image = key.clone();
        image.resize(key.len() + longer, 0);
        refused_multi_reading(list, image, ways);
        ways += 1;
    }
    // a gap before the last record
    let mut image = key.clone();
    image.splice(parts[3].0..parts[3].0, [0; 16]);
    put(&mut image, 72 + 8 * 3, 8, parts[3].0 as u64 + 16);
    refused_multi_reading(list, image, 0);
    // a last record of 2^34 + 1 cells, as long as that asks
    let mut image = key.clone();
    put(&mut image, parts[3].0, 8, (1 << 34) + 1);
    image.resize(parts[3].0 + 56 + 16 * 34, 0);
    refused_multi_reading(list, image, 0);
    mismatched(list, &key, &posting);
    // fair, though no maker wrote it: another n, the other party, an odd hcw
    let mut image = other.clone();
    put(&mut image, 16, 4, 4);
    put(&mut image, 0, 4, 0);
    image[parts[3].0 + 24] |= 1;
    for index in 0..2 {
        list.call(&Call::MultiAt { key: image.clone(), index, scratch: work(5) });
    }
}

// ---- the smallest inputs of docs/DIFFERENCES.md, in its order

/// Makings that the Rust does not refuse, or refuses by a panic.
fn smallest_makings(list: &mut List, random: &mut Random) {
    let hash_keys: [u8; 48] = random.array();
    for (domain, buckets, points, values) in [
        (1, 1, &[][..], &[][..]),
        (0, 1, &[], &[]),
        (3, 1, &[0, 1], &[1, 2]),
        (5, 2, &[4], &[1, 2]),
        (5, 2, &[4, 4], &[1, 2]),
        (5, 2, &[4, 3], &[1, 2]),
        (5, 2, &[5], &[1]),
        (5, 65_536, &[4], &[1]),
        (1 << 32, 1, &[0], &[1]),
        (u32::MAX as u64, 1, &[], &[]),
    ] {
        let (points, values) = (points.to_vec(), values.to_vec());
        let posting = Posting { domain, buckets, hash_keys, points, values };
        // enough of everything if all else were right; too little scratch where a mistake would
        // hash a large domain
        let scratch = if domain < 6 { 10 } else { 0 };
        let call = posting.call(random, scratch, 8, [320; 2]);
        assert_ne!(list.call(&call).number, 0);
    }
    // two points, each with all its functions in bucket 0
    let stuck = Posting::find(random, 3, 2, 2, |p| {
        p.points == [0, 1] && p.points.iter().all(|&x| buckets_of(p, x) == [0])
    });
    stuck.place(list, 0);
    let (scratch, words, length) = stuck.needs();
    let call = stuck.call(random, scratch, words, [length; 2]);
    assert_eq!(list.call(&call).number, refusal::PLACE);
}

/// Images that the Rust reads, or refuses by a panic.
fn smallest_readings(list: &mut List, random: &mut Random) {
    let mut at = |key: &[u8], index, buckets, number| {
        let call = Call::MultiAt { key: key.to_vec(), index, scratch: work(buckets) };
        assert_eq!(list.call(&call).number, number);
    };
    let key = made_aside(random, 1);
    at(&key, 0, 1, 0);
    at(&key, 1, 1, refusal::INDEX);
    // a record of size 4 for a bucket of 3 entries, and no record for it
    let mut larger = key.clone();
    put(&mut larger, 80, 8, 4);
    at(&larger, 0, 1, refusal::MISMATCH);
    let mut none = key[..80].to_vec();
    put(&mut none, 72, 8, 0);
    at(&none, 0, 1, refusal::MISMATCH);
    // a record for an empty bucket, and another n
    let key = made_aside(random, 4);
    let parts = image::read_multi(&key).expect("just made").1;
    let empty = parts.iter().position(|p| p.0 == 0).expect("3 entries, 4 buckets");
    at(&with_record(&key, &parts, empty), 0, 4, refusal::MISMATCH);
    let mut other = key.clone();
    put(&mut other, 16, 4, 2);
    at(&other, 0, 4, 0);
}

/// Party 0's key over one cell, made outside the list.
fn made_aside(random: &mut Random, buckets: u64) -> Vec<u8> {
    let mut aside = List::default();
    Posting::find(random, 1, buckets, 1, |_| true).make(&mut aside, random, 0);
    let [key, _] = aside.pair();
    key
}

/// A reading of an image over D 2, B 4 that breaks a rule.
fn refused_multi_reading(list: &mut List, key: Vec<u8>, way: usize) {
    let call = match way % 4 {
        0 => Call::MultiAt { key, index: 0, scratch: work(4) },
        1 => Call::MultiDomain { key, scratch: work(20), out: room(2) },
        2 => Call::MultiAdd { key, scratch: work(20), table: room(2) },
        _ => Call::MultiRecord { key, bucket: 0 },
    };
    assert_eq!(list.call(&call).number, refusal::KEY);
}

/// The image with a record of one cell for an empty bucket.
fn with_record(key: &[u8], parts: &[(usize, usize)], empty: usize) -> Vec<u8> {
    let begin = parts[empty..].iter().find(|p| p.0 != 0).map_or(key.len(), |p| p.0);
    let mut image = key.to_vec();
    let mut record = [0; 56];
    record[0] = 1;
    image.splice(begin..begin, record);
    put(&mut image, 72 + 8 * empty, 8, begin as u64);
    for (b, part) in parts.iter().enumerate().skip(empty + 1) {
        if part.0 != 0 {
            put(&mut image, 72 + 8 * b, 8, part.0 as u64 + 56);
        }
    }
    image
}

/// Images that keep every rule, and whose records do not fit their buckets.
fn mismatched(list: &mut List, key: &[u8], posting: &Posting) {
    let sizes = posting.sizes();
    let mut images = vec![];
    // no record at all
    let mut image = key[..104].to_vec();
    image[72..].fill(0);
    images.push(image);
    // another domain, other hash keys
    let mut image = key.to_vec();
    put(&mut image, 8, 8, 3);
    images.push(image);
    let mut image = key.to_vec();
    image[24..72].fill(0);
    images.push(image);
    // the last record, of another size
    let parts = image::read_multi(key).expect("just made").1;
    let mut image = key.to_vec();
    image.truncate(parts[3].0 + 56);
    put(&mut image, parts[3].0, 8, if sizes[3] == 2 { 1 } else { 2 });
    if sizes[3] == 2 {
        image[parts[3].0 + 8..parts[3].0 + 48].fill(0);
    }
    images.push(image);
    // the last record taken out
    let mut image = key[..parts[3].0].to_vec();
    put(&mut image, 72 + 8 * 3, 8, 0);
    images.push(image);
    // a record of one cell for the empty bucket
    let empty = sizes.iter().position(|&s| s == 0).expect("an empty bucket");
    images.push(with_record(key, &parts, empty));
    for key in images {
        let domain = u64::from_le_bytes(key[8..16].try_into().expect("8 bytes"));
        for index in 0..2 {
            let scratch = work(4 + index);
            let after = list.call(&Call::MultiAt { key: key.clone(), index, scratch });
            assert_eq!(after.number, refusal::MISMATCH);
        }
        let (scratch, out) = (work(6 * domain + 8), room(domain));
        let call =
            Call::MultiDomain { key: key.clone(), scratch: scratch.clone(), out: out.clone() };
        list.call(&call);
        list.call(&Call::MultiDomain {
            key: key.clone(),
            scratch: scratch.clone(),
            out: room(domain - 1),
        });
        list.call(&Call::MultiAdd { key, scratch, table: out });
    }
}
