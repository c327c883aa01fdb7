//! The oracle's answers, replayed over the safe wrapper: its lists, whose format is in
//! oracle/README.md. Before a call every byte of a key buffer, an output or a table is a5, and every byte of scratch 5a, so that
//! what is copied out of scratch shows; every slice is compared as a whole.

use morgnet::{face, Refusal};
use std::path::Path;

const FILL: u64 = 0xa5a5_a5a5_a5a5_a5a5;
const SCRATCH: u64 = 0x5a5a_5a5a_5a5a_5a5a;
const HEAD: usize = 256;
// How cells are read; a sum says several ways.
const AT: u64 = 1;
const DOMAIN: u64 = 2;
const ADD: u64 = 4;
const RECORD: u64 = 8;

/// The fields of a record, taken from the front.
struct Fields<'a>(&'a [u64]);

impl Fields<'_> {
    fn next(&mut self) -> u64 {
        self.numbers(1)[0]
    }

    fn numbers(&mut self, count: u64) -> Vec<u64> {
        let (front, rest) = self.0.split_at(count as usize);
        self.0 = rest;
        front.to_vec()
    }

    fn bytes(&mut self, length: u64) -> Vec<u8> {
        let packed = self.numbers(length.div_ceil(8));
        let mut bytes: Vec<u8> = packed.iter().flat_map(|n| n.to_le_bytes()).collect();
        bytes.truncate(length as usize);
        bytes
    }

    fn array<const N: usize>(&mut self) -> [u8; N] {
        self.bytes(N as u64).try_into().expect("as many bytes")
    }
}

fn filled(fill: u64, count: u64) -> Vec<u64> {
    vec![fill; count as usize]
}

/// A slice whose first elements are `front` and whose others are as they were.
fn fronted(front: &[u64], fill: u64, count: u64) -> Vec<u64> {
    let mut slice = filled(fill, count);
    slice[..front.len()].copy_from_slice(front);
    slice
}

/// Scratch whose first elements are zeros and whose others are as they were.
fn zeroed(zeros: u64, count: u64) -> Vec<u64> {
    fronted(&vec![0; zeros as usize], SCRATCH, count)
}

fn buffer(front: &[u8], length: u64) -> Vec<u8> {
    let mut bytes = vec![FILL as u8; length as usize];
    bytes[..front.len()].copy_from_slice(front);
    bytes
}

fn answer<T>(number: u64, result: T) -> Result<T, Refusal> {
    Refusal::of(number).map_or(Ok(result), Err)
}

/// A list that is being replayed: the last pair made, and how many calls there were.
struct Replay {
    pair: [Vec<u8>; 2],
    calls: u64,
}

impl Replay {
    fn single_make(&mut self, f: &mut Fields) {
        let (domain, point, value) = (f.next(), f.next(), f.next());
        let (length0, length1, number) = (f.next(), f.next(), f.next());
        let (length, used, count) = (f.next(), f.next(), f.next());
        let words = f.numbers(count);
        let images = [f.bytes(length), f.bytes(length)];
        let (mut key0, mut key1) = (buffer(&[], length0), buffer(&[], length1));
        let made = face::single_generate_keys(domain, point, value, &words, &mut key0, &mut key1);
        let wanted = face::Made { length: length as usize, words: used };
        assert_eq!(made, answer(number, wanted));
        self.made(number, images, [key0, key1], [length0, length1]);
    }

    fn made(&mut self, number: u64, images: [Vec<u8>; 2], keys: [Vec<u8>; 2], lengths: [u64; 2]) {
        for party in 0..2 {
            assert_eq!(keys[party], buffer(&images[party], lengths[party]));
        }
        if number == 0 {
            self.pair = images;
        }
    }

    fn multi_make(&mut self, f: &mut Fields) {
        let (domain, buckets) = (f.next(), f.next());
        let (points, values, words) = (f.next(), f.next(), f.next());
        let (room, zeros, length0, length1) = (f.next(), f.next(), f.next(), f.next());
        let (number, length, used, evictions) = (f.next(), f.next(), f.next(), f.next());
        let hash_keys = f.array();
        let (points, values, words) = (f.numbers(points), f.numbers(values), f.numbers(words));
        let images = [f.bytes(length), f.bytes(length)];
        let (mut key0, mut key1) = (buffer(&[], length0), buffer(&[], length1));
        let mut scratch = filled(SCRATCH, room);
        let made = face::multi_generate_keys(
            domain,
            buckets,
            &hash_keys,
            &points,
            &values,
            &words,
            &mut scratch,
            &mut key0,
            &mut key1,
        );
        let wanted = face::MadeMulti { length: length as usize, words: used, evictions };
        assert_eq!(made, answer(number, wanted));
        assert_eq!(scratch, zeroed(zeros, room));
        self.made(number, images, [key0, key1], [length0, length1]);
    }

    fn cells(&mut self, f: &mut Fields, multi: bool) {
        let (party, how, first, count) = (f.next(), f.next(), f.next(), f.next());
        let (at_room, at_zeros, room, zeros, out) =
            (f.next(), f.next(), f.next(), f.next(), f.next());
        let shares = f.numbers(count);
        let key = &self.pair[party as usize];
        for (cell, share) in (first..).zip(&shares).filter(|_| how & AT != 0) {
            let mut scratch = filled(SCRATCH, at_room);
            let read = match multi {
                false => face::single_evaluate_at(key, cell),
                true => face::multi_evaluate_at(key, cell, &mut scratch),
            };
            assert_eq!(read, Ok(*share));
            assert_eq!(scratch, zeroed(at_zeros, at_room));
            self.calls += 1;
        }
        for way in [DOMAIN, ADD].into_iter().filter(|way| how & way != 0) {
            let mut scratch = filled(SCRATCH, room);
            let mut slice = filled(FILL, if way == DOMAIN { out } else { count });
            let done = match (multi, way) {
                (false, DOMAIN) => face::single_evaluate_domain(key, &mut scratch, &mut slice),
                (false, _) => face::single_add_to(key, &mut scratch, &mut slice),
                (true, DOMAIN) => face::multi_evaluate_domain(key, &mut scratch, &mut slice),
                (true, _) => face::multi_add_to(key, &mut scratch, &mut slice),
            };
            assert_eq!(done, Ok(()));
            assert_eq!(scratch, zeroed(zeros, room));
            let added: Vec<u64> = shares.iter().map(|share| FILL.wrapping_add(*share)).collect();
            assert_eq!(slice, if way == DOMAIN { fronted(&shares, FILL, out) } else { added });
            self.calls += 1;
        }
        // `calls` counts this record too
        self.calls -= 1;
    }

    fn read(&mut self, f: &mut Fields, multi: bool) {
        let (how, index, room, out, number) = (f.next(), f.next(), f.next(), f.next(), f.next());
        let (answer0, answer1, zeros, length) = (f.next(), f.next(), f.next(), f.next());
        let key = f.bytes(length);
        let (mut scratch, mut slice) = (filled(SCRATCH, room), filled(FILL, out));
        match (multi, how) {
            (false, AT) => {
                assert_eq!(face::single_evaluate_at(&key, index), answer(number, answer0));
            }
            (true, AT) => {
                let read = face::multi_evaluate_at(&key, index, &mut scratch);
                assert_eq!(read, answer(number, answer0));
            }
            (true, RECORD) => {
                let (from, to) = (answer0 as usize, (answer0 + answer1) as usize);
                assert_eq!(face::multi_record(&key, index), answer(number, &key[from..to]));
            }
            (false, DOMAIN) => {
                let done = face::single_evaluate_domain(&key, &mut scratch, &mut slice);
                assert_eq!(done, answer(number, ()));
            }
            (false, ADD) => {
                let done = face::single_add_to(&key, &mut scratch, &mut slice);
                assert_eq!(done, answer(number, ()));
            }
            (true, DOMAIN) => {
                let done = face::multi_evaluate_domain(&key, &mut scratch, &mut slice);
                assert_eq!(done, answer(number, ()));
            }
            (true, ADD) => {
                let done = face::multi_add_to(&key, &mut scratch, &mut slice);
                assert_eq!(done, answer(number, ()));
            }
            _ => panic!("no such reading: {how}"),
        }
        assert_eq!(scratch, zeroed(zeros, room));
        assert_eq!(slice, filled(FILL, out));
    }

    fn place(&mut self, f: &mut Fields) {
        let (domain, buckets, points, room) = (f.next(), f.next(), f.next(), f.next());
        let (number, evictions, written) = (f.next(), f.next(), f.next());
        let hash_keys = f.array();
        let (points, front) = (f.numbers(points), f.numbers(written));
        let mut scratch = filled(SCRATCH, room);
        let placed = face::place(domain, buckets, &hash_keys, &points, &mut scratch);
        assert_eq!(placed, answer(number, evictions));
        assert_eq!(scratch, fronted(&front, SCRATCH, room));
    }

    fn record(&mut self, kind: u64, f: &mut Fields) {
        match kind {
            1 => self.single_make(f),
            2 => self.cells(f, false),
            3 => self.read(f, false),
            4 => {
                let (size, number, height) = (f.next(), f.next(), f.next());
                assert_eq!(face::height(size), answer(number, height));
            }
            5 => {
                let (x, hash) = ([f.next(), f.next()], [f.next(), f.next()]);
                assert_eq!(face::tree_hash(x), hash);
            }
            6 => {
                let (key, x, hash) = (f.array(), [f.next(), f.next()], [f.next(), f.next()]);
                assert_eq!(face::hash_ccr(&key, x), hash);
            }
            11 => self.multi_make(f),
            12 => self.cells(f, true),
            13 => self.read(f, true),
            14 => self.place(f),
            15 => {
                let (key, buckets, item) = (f.array(), f.next(), f.next());
                let (number, bucket) = (f.next(), f.next());
                assert_eq!(face::bucket(&key, buckets, item), answer(number, bucket));
            }
            _ => panic!("no such record: {kind}"),
        }
        self.calls += 1;
        assert!(f.0.is_empty(), "the record has more fields");
    }
}

/// The bytes of a list, where the replay program of the gate has it.
fn list(name: &str) -> Vec<u8> {
    let top = Path::new(env!("CARGO_MANIFEST_DIR")).join("..");
    let file = top.join("crates/oracle_replay/data").join(format!("{name}.list"));
    std::fs::read(&file).unwrap_or_else(|e| panic!("{}: {e}: nothing to replay", file.display()))
}

fn replay(name: &str) {
    let bytes = list(name);
    let (head, rest) = bytes.split_at(HEAD);
    let head = String::from_utf8_lossy(head);
    let numbers: Vec<u64> =
        rest.chunks_exact(8).map(|c| u64::from_le_bytes(c.try_into().expect("8"))).collect();
    let mut all = Fields(&numbers);
    let mut replay = Replay { pair: [vec![], vec![]], calls: 0 };
    let mut records = 0;
    loop {
        let (kind, count) = (all.next(), all.next());
        let fields = all.numbers(count);
        if kind == 0 {
            assert_eq!(fields, [records], "as many records as the list says");
            break;
        }
        let at = records;
        let result = std::panic::catch_unwind(std::panic::AssertUnwindSafe(|| {
            replay.record(kind, &mut Fields(&fields));
        }));
        assert!(result.is_ok(), "{name}: record {at}, kind {kind}");
        records += 1;
    }
    assert!(all.0.is_empty() && records > 0);
    let told = format!("{records} records, {} calls", replay.calls);
    assert!(head.trim().ends_with(&told), "{told}: not what the list says of itself");
    println!("{}", head.trim());
    println!("{told}, 0 disagree");
}

#[test]
fn single_keys_as_the_rust_has_them() {
    replay("single_replay");
}

#[test]
fn multi_keys_as_the_rust_has_them() {
    replay("multi_replay");
}
