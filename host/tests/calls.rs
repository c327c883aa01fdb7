//! Every call through the safe wrapper: what it gives, every refusal, and that nothing is written past
//! what a success needs; then a whole posting, with refused calls between.
#![allow(clippy::needless_range_loop)]

use morgnet::{face, keys, random, Refusal};
use std::fmt::Debug;

/// Numbers that look like chance, the same in every run.
struct Any(u64);

impl Any {
    fn next(&mut self) -> u64 {
        self.0 ^= self.0 << 13;
        self.0 ^= self.0 >> 7;
        self.0 ^= self.0 << 17;
        self.0.wrapping_mul(2685821657736338717)
    }

    fn below(&mut self, bound: u64) -> u64 {
        self.next() % bound
    }

    fn numbers(&mut self, count: usize) -> Vec<u64> {
        (0..count).map(|_| self.next()).collect()
    }

    fn hash_keys(&mut self) -> [u8; 48] {
        std::array::from_fn(|_| self.next() as u8)
    }
}

/// A slice between guards. `lent` is the middle; after a call `front` says that nothing but its first
/// elements changed.
struct Guarded<T> {
    whole: Vec<T>,
    before: Vec<T>,
    count: usize,
}

const GUARD: usize = 16;

impl<T: Copy + PartialEq + Debug> Guarded<T> {
    fn new(count: usize, mut any: impl FnMut() -> T) -> Guarded<T> {
        let whole: Vec<T> = (0..count + 2 * GUARD).map(|_| any()).collect();
        Guarded { before: whole.clone(), whole, count }
    }

    fn lent(&mut self) -> &mut [T] {
        &mut self.whole[GUARD..GUARD + self.count]
    }

    fn now(&self) -> &[T] {
        &self.whole[GUARD..GUARD + self.count]
    }

    #[track_caller]
    fn front(&self, written: usize) {
        assert_eq!(self.whole[..GUARD], self.before[..GUARD], "written before the slice");
        let from = GUARD + written;
        assert!(self.whole[from..] == self.before[from..], "written past {written} elements");
    }

    #[track_caller]
    fn stays(&self) {
        self.front(0);
    }
}

impl Guarded<u64> {
    #[track_caller]
    fn zeroed(&self, count: usize) {
        assert!(self.now()[..count].iter().all(|x| *x == 0), "not zeroed");
        self.front(count);
    }
}

fn cells(count: usize, any: &mut Any) -> Guarded<u64> {
    Guarded::new(count, || any.next())
}

fn bytes(count: usize, any: &mut Any) -> Guarded<u8> {
    Guarded::new(count, || any.next() as u8)
}

/// A posting with a pair of keys.
struct Made {
    cells: u64,
    buckets: u64,
    points: Vec<u64>,
    values: Vec<u64>,
    images: [Vec<u8>; 2],
}

fn made(cells: u64, points: usize, any: &mut Any) -> Made {
    let mut chosen = std::collections::BTreeSet::new();
    while chosen.len() < points {
        chosen.insert(any.below(cells));
    }
    let points: Vec<u64> = chosen.into_iter().collect();
    let values = any.numbers(points.len());
    let buckets = keys::default_buckets(points.len() as u64);
    let pair = keys::make_multi(cells, buckets, &points, &values, 20).expect("it is placed");
    Made { cells, buckets, points, values, images: pair.images }
}

impl Made {
    fn scratch(&self) -> usize {
        (6 * self.cells + 2 * self.buckets) as usize
    }
}

#[test]
fn refusals_are_document_01s() {
    let names = [
        "Domain", "Buckets", "Count", "Point", "Scratch", "Place", "Words", "Room", "Key", "Index",
        "Table", "Mismatch",
    ];
    assert_eq!(Refusal::ALL.len(), names.len());
    for (i, name) in names.iter().enumerate() {
        let refusal = Refusal::of(i as u64 + 1).expect("a refusal");
        assert_eq!((refusal.number(), refusal.name()), (i as u64 + 1, *name));
    }
    assert_eq!(Refusal::of(0), None);
    assert_eq!(Refusal::of(13), None);
    assert_eq!(
        Refusal::Place.to_string(),
        "refusal 6 Place: the points did not fit into the buckets under these hash keys"
    );
}

#[test]
fn layers_below() {
    for (size, height) in [(1, 0), (2, 1), (3, 2), (4, 2), (5, 3), (1 << 34, 34)] {
        assert_eq!(face::height(size), Ok(height));
    }
    for size in [0, (1 << 34) + 1, u64::MAX] {
        assert_eq!(face::height(size), Err(Refusal::Domain));
    }
    let key: [u8; 16] = std::array::from_fn(|i| i as u8);
    let block: [u8; 16] = std::array::from_fn(|i| 0x11 * i as u8);
    // FIPS 197, C.1
    let wanted = 0x69c4e0d86a7b0430d8cdb78070b4c55a_u128.to_be_bytes();
    assert_eq!(face::aes_encrypt(&key, &block), wanted);
    let any = &mut Any(1);
    for _ in 0..100 {
        let key: [u8; 16] = std::array::from_fn(|_| any.next() as u8);
        let x = [any.next(), any.next()];
        let hash = face::hash_ccr(&key, x);
        let sigma = (x[1] ^ x[0]) as u128 * (1 << 64) + x[1] as u128;
        let pi = u128::from_le_bytes(face::aes_encrypt(&key, &sigma.to_le_bytes()));
        assert_eq!(hash, [(pi ^ sigma) as u64, ((pi ^ sigma) >> 64) as u64]);
        let buckets = 1 + any.below(65_535);
        let low = face::hash_ccr(&key, [x[0], 0])[0];
        assert_eq!(face::bucket(&key, buckets, x[0]), Ok(low % buckets));
        let tree: [u8; 16] = std::array::from_fn(|i| 0xdeadbeef_13374247_u64.to_le_bytes()[i % 8]);
        let masked = [x[0] ^ 0xc0ffeeeec00ffeee, x[1] ^ 0xc000ffeec0ffffee];
        assert_eq!(face::tree_hash(x), face::hash_ccr(&tree, masked));
    }
    assert_eq!(face::bucket(&key, 0, 1), Err(Refusal::Buckets));
    assert_eq!(face::bucket(&key, 65_536, 1), Err(Refusal::Buckets));
}

#[test]
fn single_keys() {
    let any = &mut Any(2);
    for size in [1, 2, 3, 4, 5, 8, 9, 63, 64, 65, 1000] {
        let (point, value) = (any.below(size), any.next());
        let words = any.numbers(5);
        let (mut key0, mut key1) = (bytes(700, any), bytes(592, any));
        let made = face::single_generate_keys(size, point, value, &words, key0.lent(), key1.lent());
        let made = made.expect("a pair");
        let height = face::height(size).expect("a size") as usize;
        assert_eq!(made.length, 64 + 16 * height.saturating_sub(1));
        assert_eq!(made.words, if size == 1 { 1 } else { 2 });
        key0.front(made.length);
        key1.front(made.length);
        let images = [&key0.now()[..made.length], &key1.now()[..made.length]];
        let n = size as usize;
        let mut sums = vec![0u64; n];
        for image in images {
            let (mut scratch, mut out) = (cells(2 * n + 3, any), cells(n + 2, any));
            assert_eq!(face::single_evaluate_domain(image, scratch.lent(), out.lent()), Ok(()));
            scratch.zeroed(2 * n);
            out.front(n);
            let (mut scratch, mut table) = (cells(2 * n, any), cells(n, any));
            assert_eq!(face::single_add_to(image, scratch.lent(), table.lent()), Ok(()));
            scratch.zeroed(2 * n);
            table.front(n);
            for i in 0..n {
                let share = out.now()[i];
                assert_eq!(face::single_evaluate_at(image, i as u64), Ok(share));
                assert_eq!(table.now()[i], table.before[GUARD + i].wrapping_add(share));
                sums[i] = sums[i].wrapping_add(share);
            }
        }
        let wanted: Vec<u64> = (0..size).map(|i| if i == point { value } else { 0 }).collect();
        assert_eq!(sums, wanted);
    }
}

#[test]
fn single_making_refusals() {
    let any = &mut Any(3);
    let words = any.numbers(4);
    let cases = [
        (0, 0, 4, 592, 592, Refusal::Domain),
        ((1 << 34) + 1, 0, 4, 592, 592, Refusal::Domain),
        (9, 9, 0, 0, 0, Refusal::Point),
        (9, 8, 3, 0, 0, Refusal::Words),
        (9, 8, 4, 111, 592, Refusal::Room),
        (9, 8, 4, 592, 111, Refusal::Room),
    ];
    for (domain, point, count, room0, room1, wanted) in cases {
        let (mut key0, mut key1) = (bytes(room0, any), bytes(room1, any));
        let made =
            face::single_generate_keys(domain, point, 7, &words[..count], key0.lent(), key1.lent());
        assert_eq!(made, Err(wanted));
        key0.stays();
        key1.stays();
    }
}

#[test]
fn single_reading_refusals() {
    let any = &mut Any(10);
    let pair = keys::make_single(9, 4, 7).expect("a pair");
    let image = &pair.images[1];
    assert_eq!(face::single_evaluate_at(image, 9), Err(Refusal::Index));
    for cut in 0..image.len() {
        assert_eq!(face::single_evaluate_at(&image[..cut], 0), Err(Refusal::Key));
    }
    for (image, scratch, out, wanted) in [
        (&image[1..], 0, 0, Refusal::Key),
        (image, 17, 0, Refusal::Scratch),
        (image, 18, 8, Refusal::Room),
    ] {
        let (mut s, mut o) = (cells(scratch, any), cells(out, any));
        assert_eq!(face::single_evaluate_domain(image, s.lent(), o.lent()), Err(wanted));
        s.stays();
        o.stays();
    }
    for (image, scratch, table, wanted) in [
        (&image[1..], 0, 0, Refusal::Key),
        (image, 0, 10, Refusal::Table),
        (image, 18, 8, Refusal::Table),
        (image, 17, 9, Refusal::Scratch),
    ] {
        let (mut s, mut t) = (cells(scratch, any), cells(table, any));
        assert_eq!(face::single_add_to(image, s.lent(), t.lent()), Err(wanted));
        s.stays();
        t.stays();
    }
}

/// Whole domain, adding and some cells of a key agree. Gives the shares.
fn shares_of(posting: &Made, image: &[u8], any: &mut Any) -> Vec<u64> {
    let n = posting.cells as usize;
    let (mut scratch, mut out) = (cells(posting.scratch() + 1, any), cells(n + 2, any));
    assert_eq!(face::multi_evaluate_domain(image, scratch.lent(), out.lent()), Ok(()));
    scratch.zeroed(posting.scratch());
    out.front(n);
    let shares = out.now()[..n].to_vec();
    let (mut scratch, mut table) = (cells(posting.scratch(), any), cells(n, any));
    assert_eq!(face::multi_add_to(image, scratch.lent(), table.lent()), Ok(()));
    scratch.zeroed(posting.scratch());
    table.front(n);
    for i in 0..n {
        assert_eq!(table.now()[i], table.before[GUARD + i].wrapping_add(shares[i]));
    }
    for i in [0, n - 1, any.below(posting.cells) as usize, posting.points[0] as usize] {
        let mut scratch = cells(posting.buckets as usize + 2, any);
        let share = face::multi_evaluate_at(image, i as u64, scratch.lent());
        assert_eq!(share, Ok(shares[i]));
        scratch.zeroed(posting.buckets as usize);
    }
    shares
}

/// The records stand one after the other, to the end of the image.
fn records_fill(posting: &Made, image: &[u8]) {
    let mut end = 72 + 8 * posting.buckets as usize;
    for bucket in 0..posting.buckets {
        let record = face::multi_record(image, bucket).expect("a bucket");
        if !record.is_empty() {
            assert_eq!(record.as_ptr(), image[end..].as_ptr());
        }
        end += record.len();
    }
    assert_eq!(end, image.len());
    assert_eq!(face::multi_record(image, posting.buckets), Err(Refusal::Index));
}

#[test]
fn multi_keys() {
    let any = &mut Any(4);
    for (size, points) in [(1, 1), (2, 2), (5, 3), (100, 10), (3000, 50)] {
        let posting = made(size, points, any);
        let mut sums = vec![0u64; size as usize];
        for (party, image) in posting.images.iter().enumerate() {
            let key = keys::Key::new(image.clone()).expect("a key");
            assert_eq!(key.kind, keys::Kind::Multi);
            assert_eq!((key.party, key.cells, key.buckets), (party as u64, size, posting.buckets));
            assert_eq!(key.points, points as u64);
            records_fill(&posting, image);
            for (sum, share) in sums.iter_mut().zip(shares_of(&posting, image, any)) {
                *sum = sum.wrapping_add(share);
            }
        }
        let mut wanted = vec![0; size as usize];
        for (point, value) in posting.points.iter().zip(&posting.values) {
            wanted[*point as usize] = *value;
        }
        assert_eq!(sums, wanted);
    }
}

/// A call of the maker: cells, buckets, points, number of values, words and scratch, room, refusal.
type Make<'a> = (u64, u64, &'a [u64], usize, usize, usize, usize, Refusal);

const THREE: [u64; 3] = [3, 5, 90];
// What three points in six buckets need.
const NEEDED: usize = 4 * 6 + 3;
const BAD_MAKES: [Make; 12] = [
    (0, 0, &[], 1, 0, 0, 0, Refusal::Domain),
    (1 << 32, 6, &THREE, 3, 24, NEEDED, 9000, Refusal::Domain),
    (100, 0, &[], 1, 0, 0, 0, Refusal::Buckets),
    (100, 65_536, &THREE, 3, 24, NEEDED, 9000, Refusal::Buckets),
    (100, 6, &[], 0, 24, NEEDED, 9000, Refusal::Count),
    (100, 6, &THREE, 4, 24, NEEDED, 9000, Refusal::Count),
    (100, 2, &[9, 9, 9], 3, 24, NEEDED, 9000, Refusal::Count),
    (90, 6, &THREE, 3, 0, 0, 0, Refusal::Point),
    (100, 6, &[3, 3, 9], 3, 24, NEEDED, 9000, Refusal::Point),
    (100, 6, &THREE, 3, 0, NEEDED - 1, 0, Refusal::Scratch),
    (100, 6, &THREE, 3, 11, NEEDED, 0, Refusal::Words),
    (100, 6, &THREE, 3, 24, NEEDED + 2, 500, Refusal::Room),
];

/// Hash keys under which the points fit into the buckets, or do not.
fn hash_keys(domain: u64, buckets: u64, points: &[u64], fit: bool, any: &mut Any) -> [u8; 48] {
    let mut scratch = vec![0; buckets as usize + points.len()];
    loop {
        let drawn = any.hash_keys();
        if face::place(domain, buckets, &drawn, points, &mut scratch).is_ok() == fit {
            return drawn;
        }
    }
}

/// Makes the call, which is refused and leaves both key buffers. Gives the scratch.
fn bad_make(hash_keys: &[u8; 48], call: Make, any: &mut Any) -> Guarded<u64> {
    let (domain, buckets, points, values, words, scratch, room, wanted) = call;
    let (values, words) = (any.numbers(values), any.numbers(words));
    let (mut s, mut key0, mut key1) = (cells(scratch, any), bytes(room, any), bytes(room, any));
    let made = face::multi_generate_keys(
        domain,
        buckets,
        hash_keys,
        points,
        &values,
        &words,
        s.lent(),
        key0.lent(),
        key1.lent(),
    );
    assert_eq!(made, Err(wanted));
    key0.stays();
    key1.stays();
    s
}

#[test]
fn multi_making_refusals() {
    let any = &mut Any(5);
    let fit = hash_keys(100, 6, &THREE, true, any);
    for call in BAD_MAKES {
        let scratch = bad_make(&fit, call, any);
        match call.7 {
            Refusal::Words | Refusal::Room => scratch.zeroed(NEEDED),
            _ => scratch.stays(),
        }
    }
    // Place comes before Words and Room
    let two = &THREE[..2];
    let unfit = hash_keys(100, 2, two, false, any);
    bad_make(&unfit, (100, 2, two, 2, 0, 12, 0, Refusal::Place), any).zeroed(10);
    let mut s = cells(7, any);
    assert_eq!(face::place(100, 2, &unfit, two, s.lent()), Err(Refusal::Place));
    s.zeroed(4);
    let mut s = cells(3, any);
    assert_eq!(face::place(100, 2, &unfit, two, s.lent()), Err(Refusal::Scratch));
    s.stays();
}

/// A good image, and some that are not.
struct Images {
    posting: Made,
    cut: Vec<u8>,
    long: Vec<u8>,
    single: Vec<u8>,
    other_hash_key: Vec<u8>,
}

fn images(any: &mut Any) -> Images {
    let posting = made(200, 9, any);
    let good = &posting.images[0];
    let cut = good[..good.len() - 1].to_vec();
    let long = [good, &[0][..]].concat();
    let single = keys::make_single(200, 4, 7).expect("a pair").images[0].clone();
    let mut other_hash_key = good.clone();
    other_hash_key[24] ^= 0x80;
    Images { posting, cut, long, single, other_hash_key }
}

/// Only Mismatch zeroes scratch.
#[track_caller]
fn left(scratch: &Guarded<u64>, needed: usize, refusal: Refusal) {
    match refusal {
        Refusal::Mismatch => scratch.zeroed(needed),
        _ => scratch.stays(),
    }
}

#[test]
fn multi_one_cell_refusals() {
    let any = &mut Any(6);
    let Images { posting, cut, long, single, other_hash_key } = images(any);
    let (good, buckets) = (&posting.images[0], posting.buckets as usize);
    for (image, index, scratch, wanted) in [
        (&cut, 999, 0, Refusal::Key),
        (&long, 0, buckets, Refusal::Key),
        (&single, 0, buckets, Refusal::Key),
        (good, 200, 0, Refusal::Index),
        (good, 199, buckets - 1, Refusal::Scratch),
        (&other_hash_key, 0, buckets, Refusal::Mismatch),
    ] {
        let mut s = cells(scratch, any);
        assert_eq!(face::multi_evaluate_at(image, index, s.lent()), Err(wanted));
        left(&s, buckets, wanted);
    }
    assert_eq!(face::multi_record(&cut, 0), Err(Refusal::Key));
    assert_eq!(face::multi_record(good, u64::MAX), Err(Refusal::Index));
    assert!(keys::Key::new(cut).is_err_and(|refusal| refusal == Refusal::Key));
    assert_eq!(keys::Key::new(single).expect("a key").kind, keys::Kind::Single);
}

#[test]
fn multi_whole_domain_refusals() {
    let any = &mut Any(11);
    let Images { posting, cut, other_hash_key, .. } = images(any);
    let (good, needed) = (&posting.images[0], posting.scratch());
    for (image, scratch, out, wanted) in [
        (&cut, 0, 0, Refusal::Key),
        (good, needed - 1, 0, Refusal::Scratch),
        (good, needed, 199, Refusal::Room),
        (&other_hash_key, needed, 199, Refusal::Room),
        (&other_hash_key, needed + 3, 200, Refusal::Mismatch),
    ] {
        let (mut s, mut o) = (cells(scratch, any), cells(out, any));
        assert_eq!(face::multi_evaluate_domain(image, s.lent(), o.lent()), Err(wanted));
        o.stays();
        left(&s, needed, wanted);
    }
}

#[test]
fn multi_adding_refusals() {
    let any = &mut Any(12);
    let Images { posting, cut, other_hash_key, .. } = images(any);
    let (good, needed) = (&posting.images[0], posting.scratch());
    for (image, scratch, table, wanted) in [
        (&cut, 0, 0, Refusal::Key),
        (good, 0, 201, Refusal::Table),
        (&other_hash_key, needed, 199, Refusal::Table),
        (good, needed - 1, 200, Refusal::Scratch),
        (&other_hash_key, needed + 3, 200, Refusal::Mismatch),
    ] {
        let (mut s, mut t) = (cells(scratch, any), cells(table, any));
        assert_eq!(face::multi_add_to(image, s.lent(), t.lent()), Err(wanted));
        t.stays();
        left(&s, needed, wanted);
    }
}

const DAY: u64 = 2500;

/// Several pairs over one table, single and multi, and what they post together.
fn day(any: &mut Any) -> (Vec<[Vec<u8>; 2]>, Vec<u64>) {
    let mut plain = vec![0u64; DAY as usize];
    let mut pairs = Vec::new();
    for round in 0..6 {
        let (points, values, images) = if round % 3 == 2 {
            let (point, value) = (any.below(DAY), any.next());
            let pair = keys::make_single(DAY, point, value).expect("a pair");
            (vec![point], vec![value], pair.images)
        } else {
            let posting = made(DAY, 20 + round, any);
            (posting.points, posting.values, posting.images)
        };
        for (point, value) in points.iter().zip(&values) {
            plain[*point as usize] = plain[*point as usize].wrapping_add(*value);
        }
        pairs.push(images);
    }
    (pairs, plain)
}

/// Adds a key to a table, after calls that are refused and leave the table.
fn adds(image: &[u8], table: &mut [u64], any: &mut Any) {
    let key = keys::Key::new(image.to_vec()).expect("a key");
    let mut scratch = vec![any.next(); key.scratch() as usize];
    let before = table.to_vec();
    let mut damaged = image.to_vec();
    damaged[4] ^= 0xff;
    assert!(keys::Key::new(damaged).is_err());
    let short = scratch.len() - 1;
    assert_eq!(key.add_to(&mut scratch[..short], table), Err(Refusal::Scratch));
    assert_eq!(key.add_to(&mut scratch, &mut table[1..]), Err(Refusal::Table));
    assert_eq!(*table, before);
    assert_eq!(key.add_to(&mut scratch, table), Ok(()));
}

/// Several postings, single and multi, added by two partners in different orders, with refused calls
/// between; their tables sum to what was posted.
#[test]
fn a_whole_day() {
    let any = &mut Any(7);
    let (pairs, plain) = day(any);
    let mut table0 = any.numbers(DAY as usize);
    let mut table1: Vec<u64> = table0.iter().map(|x| 0u64.wrapping_sub(*x)).collect();
    for turn in 0..pairs.len() {
        adds(&pairs[turn][0], &mut table0, any);
        adds(&pairs[(turn * 5 + 3) % pairs.len()][1], &mut table1, any);
    }
    let sums: Vec<u64> = table0.iter().zip(&table1).map(|(a, b)| a.wrapping_add(*b)).collect();
    assert_eq!(sums, plain);
}

/// Hash keys are drawn again where placement gives up, as often as allowed and no oftener.
#[test]
fn fresh_hash_keys() {
    let any = &mut Any(8);
    let points = [1, 2];
    let bad: Vec<[u8; 48]> = (0..3).map(|_| hash_keys(10, 2, &points, false, any)).collect();
    let good = hash_keys(10, 2, &points, true, any);
    let supply = |mut keys: Vec<[u8; 48]>| {
        keys.reverse();
        move || Ok(keys.pop().expect("no more draws than allowed"))
    };
    let list = [bad[0], bad[1], bad[2], good];
    let pair = keys::make_multi_with(10, 2, &points, &[5, 6], 4, supply(list.to_vec()));
    let pair = pair.expect("the fourth draw fits");
    assert_eq!(pair.draws, 4);
    assert_eq!(pair.images[0][24..72], good);
    let problem = keys::make_multi_with(10, 2, &points, &[5, 6], 3, supply(list.to_vec()));
    let text = problem.expect_err("three draws do not fit").to_string();
    assert!(text.contains("6 Place") && text.contains("3 draws"), "{text}");
}

#[test]
fn default_bucket_counts() {
    for (points, buckets) in [(1, 50), (2, 52), (1000, 1848), (36_381, 65_534), (36_382, 65_535)] {
        assert_eq!(keys::default_buckets(points), buckets);
    }
    assert_eq!(keys::default_buckets(65_535), 65_535);
    // it seldom gives up: here never, in 40 draws of hash keys for each count
    let any = &mut Any(9);
    for points in [1, 2, 3, 5, 10, 30, 100, 300] {
        let list: Vec<u64> = (0..points).map(|i| 7 * i).collect();
        let buckets = keys::default_buckets(points);
        for _ in 0..40 {
            let mut scratch = vec![0; (buckets + points) as usize];
            let placed = face::place(7 * points, buckets, &any.hash_keys(), &list, &mut scratch);
            assert!(placed.is_ok(), "{points} points in {buckets} buckets");
        }
    }
}

#[test]
fn random_words_differ() {
    let (first, second) = (random::numbers(64).unwrap(), random::numbers(64).unwrap());
    assert_ne!(first, second);
    assert!(first.iter().any(|x| *x != 0));
    assert_ne!(random::hash_keys().unwrap(), random::hash_keys().unwrap());
}
