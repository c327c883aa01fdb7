//! Replay lists: the oracle's answers as a file that a small program can walk through. The format is
//! in oracle/README.md. Here lists are written from calls, and replayed over a face.

use crate::call::{After, Call};
use crate::expect::Oracle;
use crate::face::{self, Face};
use crate::image;
use crate::random::Random;

/// The first line's length, with its line feed.
pub const HEAD: usize = 256;
/// The most bytes of a list: what the replaying program reads.
pub const LARGEST: usize = 65_536;
/// What every byte of a key buffer is before a call.
pub const FILL: u8 = 0xa5;
/// The same as an element: of an output or a table.
pub const FILLED: u64 = 0xa5a5_a5a5_a5a5_a5a5;
/// What every element of scratch is, so that what is copied out of it shows.
pub const SCRATCH: u64 = 0x5a5a_5a5a_5a5a_5a5a;

/// The kinds of records.
pub mod kind {
    pub const END: u64 = 0;
    pub const SINGLE_MAKE: u64 = 1;
    pub const SINGLE_CELLS: u64 = 2;
    pub const SINGLE_READ: u64 = 3;
    pub const HEIGHT: u64 = 4;
    pub const TREE: u64 = 5;
    pub const CCR: u64 = 6;
    pub const MULTI_MAKE: u64 = 11;
    pub const MULTI_CELLS: u64 = 12;
    pub const MULTI_READ: u64 = 13;
    pub const PLACE: u64 = 14;
    pub const BUCKET: u64 = 15;
}

/// How cells are read; a sum says several ways.
pub mod how {
    pub const AT: u64 = 1;
    pub const DOMAIN: u64 = 2;
    pub const ADD: u64 = 4;
    pub const RECORD: u64 = 8;
}

/// An output or a table of `count` elements as it is before a call.
pub fn room(count: u64) -> Vec<u64> {
    vec![FILLED; count as usize]
}

/// Scratch of `count` elements as it is before a call.
pub fn work(count: u64) -> Vec<u64> {
    vec![SCRATCH; count as usize]
}

/// A buffer of `count` bytes as it is before a call.
pub fn buffer(count: usize) -> Vec<u8> {
    vec![FILL; count]
}

fn packed(bytes: &[u8]) -> Vec<u64> {
    bytes
        .chunks(8)
        .map(|chunk| {
            let mut eight = [0; 8];
            eight[..chunk.len()].copy_from_slice(chunk);
            u64::from_le_bytes(eight)
        })
        .collect()
}

fn unpacked(cells: &[u64], length: usize) -> Vec<u8> {
    let mut bytes: Vec<u8> = cells.iter().flat_map(|cell| cell.to_le_bytes()).collect();
    bytes.truncate(length);
    bytes
}

fn zeros_in_front(scratch: &[u64]) -> u64 {
    scratch.iter().take_while(|&&cell| cell == 0).count() as u64
}

/// The largest of each thing that the replaying program must hold, and what the list costs.
#[derive(Default, Debug, Clone, Copy)]
pub struct Extent {
    pub records: u64,
    pub calls: u64,
    pub image_bytes: u64,
    pub key_buffer: u64,
    pub scratch: u64,
    pub out: u64,
    pub words: u64,
    pub points: u64,
    pub domain: u64,
    pub buckets: u64,
    /// AES blocks of a plain replay: tree hashes and bucket hashes.
    pub blocks: u64,
    /// AES keys that it expands: one for each record made or read, three for each multi call.
    pub expansions: u64,
}

/// A list that is being written.
pub struct List {
    oracle: Oracle,
    cells: Vec<u64>,
    pub extent: Extent,
    pair: Option<[Vec<u8>; 2]>,
}

impl Default for List {
    fn default() -> Self {
        let (oracle, cells, extent) = (Oracle::default(), vec![], Extent::default());
        Self { oracle, cells, extent, pair: None }
    }
}

fn height(size: u64) -> u64 {
    image::height(size) as u64
}

/// Tree hashes of making a single key, of one cell, and of the whole domain.
fn tree_hashes(size: u64) -> (u64, u64, u64) {
    if size <= 1 {
        return (0, 0, 0);
    }
    let h = height(size);
    let inner: u64 = (0..h - 1).map(|level| ((size - 1) >> (h - level)) + 1).sum();
    (2 * (h - 1) + 4, h, inner + size)
}

impl List {
    fn push(&mut self, kind: u64, fields: Vec<u64>) {
        self.extent.records += 1;
        self.cells.extend([kind, fields.len() as u64]);
        self.cells.extend(fields);
    }

    fn expect(&mut self, call: &Call) -> After {
        self.measure(call);
        let after = self.oracle.expect(call).expect("the oracle agrees");
        if after.number == 0 {
            self.cost(call);
        }
        after
    }

    fn measure(&mut self, call: &Call) {
        let e = &mut self.extent;
        e.calls += 1;
        let most = |field: &mut u64, n: usize| *field = (*field).max(n as u64);
        match call {
            Call::SingleMake { words, key0, key1, .. } => {
                most(&mut e.words, words.len());
                most(&mut e.key_buffer, key0.len().max(key1.len()));
            }
            Call::SingleAt { key, .. } | Call::MultiRecord { key, .. } => {
                most(&mut e.image_bytes, key.len());
            }
            Call::SingleDomain { key, scratch, out }
            | Call::MultiDomain { key, scratch, out }
            | Call::SingleAdd { key, scratch, table: out }
            | Call::MultiAdd { key, scratch, table: out } => {
                most(&mut e.image_bytes, key.len());
                most(&mut e.scratch, scratch.len());
                most(&mut e.out, out.len());
            }
            Call::MultiMake { words, scratch, key0, key1, points, values, .. } => {
                most(&mut e.words, words.len());
                most(&mut e.scratch, scratch.len());
                most(&mut e.key_buffer, key0.len().max(key1.len()));
                most(&mut e.points, points.len().max(values.len()));
            }
            Call::MultiAt { key, scratch, .. } => {
                most(&mut e.image_bytes, key.len());
                most(&mut e.scratch, scratch.len());
            }
            Call::Place { points, scratch, .. } => {
                most(&mut e.points, points.len());
                most(&mut e.scratch, scratch.len());
            }
            _ => {}
        }
    }

    /// What a success costs a plain replay.
    fn cost(&mut self, call: &Call) {
        let records = |key: &[u8]| -> (u64, Vec<u64>) {
            let (key, _) = image::read_multi(key).expect("a success");
            (key.domain, key.records.iter().flatten().map(|r| r.size).collect())
        };
        let single = |key: &[u8]| image::read_single(key).expect("a success").1.size;
        let (blocks, expansions) = match call {
            Call::SingleMake { domain, .. } => (tree_hashes(*domain).0, 1),
            Call::SingleAt { key, .. } => (tree_hashes(single(key)).1, 1),
            Call::SingleDomain { key, .. } | Call::SingleAdd { key, .. } => {
                (tree_hashes(single(key)).2, 1)
            }
            Call::MultiMake { domain, buckets, hash_keys, .. } => {
                let keys = std::array::from_fn(|k| {
                    hash_keys[16 * k..16 * k + 16].try_into().expect("16 bytes")
                });
                let sizes = self.oracle.sizes(*domain, *buckets, keys);
                let made: u64 = sizes.iter().map(|&size| tree_hashes(size).0).sum();
                self.extent.domain = self.extent.domain.max(*domain);
                self.extent.buckets = self.extent.buckets.max(*buckets);
                (3 * domain + made, 3 + sizes.len() as u64)
            }
            Call::MultiAt { key, .. } => {
                let (domain, sizes) = records(key);
                let most = sizes.iter().map(|&size| tree_hashes(size).1).max().unwrap_or(0);
                (3 * domain + 3 * most, 6)
            }
            Call::MultiDomain { key, .. } | Call::MultiAdd { key, .. } => {
                let (domain, sizes) = records(key);
                let all: u64 = sizes.iter().map(|&size| tree_hashes(size).2).sum();
                (6 * domain + all, 3 + sizes.len() as u64)
            }
            Call::Place { points, .. } => (3 * points.len() as u64, 3),
            Call::Bucket { .. } | Call::Ccr { .. } | Call::Tree { .. } => (1, 1),
            _ => (0, 0),
        };
        self.extent.blocks += blocks;
        self.extent.expansions += expansions;
    }

    /// Writes the record of one call. A maker's images are the pair that [`List::cells`] reads.
    pub fn call(&mut self, call: &Call) -> After {
        let after = self.expect(call);
        match call {
            Call::SingleMake { domain, point, value, words, key0, key1 } => {
                let mut fields = vec![*domain, *point, *value];
                fields.extend([key0.len() as u64, key1.len() as u64, after.number]);
                fields.extend(&after.answer);
                fields.push(words.len() as u64);
                fields.extend(words);
                self.images(&mut fields, &after);
                self.push(kind::SINGLE_MAKE, fields);
            }
            Call::MultiMake {
                domain,
                buckets,
                hash_keys,
                points,
                values,
                words,
                scratch,
                key0,
                key1,
            } => {
                let mut fields = vec![*domain, *buckets, points.len() as u64, values.len() as u64];
                fields.extend([words.len() as u64, scratch.len() as u64]);
                fields.push(zeros_in_front(&after.cells[0]));
                fields.extend([key0.len() as u64, key1.len() as u64, after.number]);
                fields.extend(&after.answer);
                fields.extend(packed(hash_keys));
                fields.extend(points);
                fields.extend(values);
                fields.extend(words);
                self.images(&mut fields, &after);
                self.push(kind::MULTI_MAKE, fields);
            }
            Call::SingleAt { key, index } => {
                self.read(kind::SINGLE_READ, how::AT, *index, 0, 0, &after, key)
            }
            Call::SingleDomain { key, scratch, out } => {
                self.read(kind::SINGLE_READ, how::DOMAIN, 0, scratch.len(), out.len(), &after, key)
            }
            Call::SingleAdd { key, scratch, table } => {
                self.read(kind::SINGLE_READ, how::ADD, 0, scratch.len(), table.len(), &after, key)
            }
            Call::MultiAt { key, index, scratch } => {
                self.read(kind::MULTI_READ, how::AT, *index, scratch.len(), 0, &after, key)
            }
            Call::MultiDomain { key, scratch, out } => {
                self.read(kind::MULTI_READ, how::DOMAIN, 0, scratch.len(), out.len(), &after, key)
            }
            Call::MultiAdd { key, scratch, table } => {
                self.read(kind::MULTI_READ, how::ADD, 0, scratch.len(), table.len(), &after, key)
            }
            Call::MultiRecord { key, bucket } => {
                self.read(kind::MULTI_READ, how::RECORD, *bucket, 0, 0, &after, key)
            }
            Call::Height { size } => {
                self.push(kind::HEIGHT, vec![*size, after.number, after.answer[0]])
            }
            Call::Tree { x } => {
                self.push(kind::TREE, vec![x[0], x[1], after.answer[0], after.answer[1]])
            }
            Call::Ccr { key, x } => {
                let mut fields = packed(key);
                fields.extend(x);
                fields.extend(&after.answer);
                self.push(kind::CCR, fields);
            }
            Call::Place { domain, buckets, hash_keys, points, scratch } => {
                let mut fields = vec![*domain, *buckets, points.len() as u64];
                fields.extend([scratch.len() as u64, after.number, after.answer[0]]);
                let written = match after.number {
                    0 | crate::call::refusal::PLACE => *buckets as usize + points.len(),
                    _ => 0,
                };
                fields.push(written as u64);
                fields.extend(packed(hash_keys));
                fields.extend(points);
                fields.extend(&after.cells[0][..written]);
                self.push(kind::PLACE, fields);
            }
            Call::Bucket { hash_key, buckets, item } => {
                let mut fields = packed(hash_key);
                fields.extend([*buckets, *item, after.number, after.answer[0]]);
                self.push(kind::BUCKET, fields);
            }
            Call::Aes { .. } => panic!("lists have no record of a bare block"),
        }
        after
    }

    fn images(&mut self, fields: &mut Vec<u64>, after: &After) {
        let length = after.answer[0] as usize;
        if after.number == 0 {
            let pair = [0, 1].map(|p: usize| after.bytes[p][..length].to_vec());
            pair.iter().for_each(|image| fields.extend(packed(image)));
            self.extent.image_bytes = self.extent.image_bytes.max(length as u64);
            self.pair = Some(pair);
        }
    }

    #[allow(clippy::too_many_arguments)]
    fn read(
        &mut self,
        kind: u64,
        how: u64,
        index: u64,
        scratch: usize,
        out: usize,
        after: &After,
        key: &[u8],
    ) {
        assert!(after.number != 0 || how & (how::DOMAIN | how::ADD) == 0, "use `cells`");
        let answer = |i: usize| after.answer.get(i).copied().unwrap_or(0);
        let zeroed = after.cells.first().map_or(0, |scratch| zeros_in_front(scratch));
        let mut fields = vec![how, index, scratch as u64, out as u64, after.number];
        fields.extend([answer(0), answer(1), zeroed, key.len() as u64]);
        fields.extend(packed(key));
        self.push(kind, fields);
    }

    /// Writes a record of cells `first` and on of the last pair's key of `party`, read as `ways` says.
    /// Scratch and output are longer than needed by `more` elements.
    pub fn cells(&mut self, party: usize, ways: u64, first: u64, count: u64, more: u64) {
        let key = self.pair.as_ref().expect("a pair was made")[party].clone();
        let multi = image::read_single(&key).is_none();
        let (domain, buckets) = match multi {
            false => (image::read_single(&key).expect("fair").1.size, 0),
            true => {
                let (plain, _) = image::read_multi(&key).expect("fair");
                (plain.domain, plain.records.len() as u64)
            }
        };
        let (at_scratch, at_zeroed) = if multi { (buckets + more, buckets) } else { (0, 0) };
        let needed = if multi { 6 * domain + 2 * buckets } else { 2 * domain };
        let (zeroed, scratch, out) = match ways & (how::DOMAIN | how::ADD) {
            0 => (0, 0, 0),
            _ => (needed, needed + more, domain + more),
        };
        let mut shares = vec![];
        for index in first..first + count {
            let key = key.clone();
            let call = match multi {
                false => Call::SingleAt { key, index },
                true => Call::MultiAt { key, index, scratch: work(at_scratch) },
            };
            let after = match ways & how::AT {
                0 => self.oracle.expect(&call).expect("the oracle agrees"),
                _ => self.expect(&call),
            };
            shares.push(after.answer[0]);
        }
        for (way, call) in whole_calls(&key, multi, ways, scratch, out, domain) {
            assert_eq!((first, count), (0, domain), "the whole domain");
            let after = self.expect(&call);
            if way == how::DOMAIN {
                assert_eq!(shares, after.cells[1][..domain as usize]);
            }
        }
        let mut fields = vec![party as u64, ways, first, count, at_scratch, at_zeroed];
        fields.extend([scratch, zeroed, out]);
        fields.extend(shares);
        self.push(if multi { kind::MULTI_CELLS } else { kind::SINGLE_CELLS }, fields);
    }

    /// The pair that was made last.
    pub fn pair(&self) -> [Vec<u8>; 2] {
        self.pair.clone().expect("a pair was made")
    }

    /// The file: a first line that says how it was made, then the records.
    pub fn file(mut self, head: &str) -> Vec<u8> {
        assert!(head.len() < HEAD && head.is_ascii(), "the first line has {HEAD} bytes");
        let count = self.extent.records;
        self.push(kind::END, vec![count]);
        let mut file = format!("{head:<width$}\n", width = HEAD - 1).into_bytes();
        file.extend(self.cells.iter().flat_map(|cell| cell.to_le_bytes()));
        file
    }
}

/// Reading the whole domain and adding, as far as they are asked for.
fn whole_calls(
    key: &[u8],
    multi: bool,
    ways: u64,
    scratch: u64,
    out: u64,
    domain: u64,
) -> Vec<(u64, Call)> {
    let mut list = vec![];
    if ways & how::DOMAIN != 0 {
        let (key, scratch, out) = (key.to_vec(), work(scratch), room(out));
        let call = match multi {
            false => Call::SingleDomain { key, scratch, out },
            true => Call::MultiDomain { key, scratch, out },
        };
        list.push((how::DOMAIN, call));
    }
    if ways & how::ADD != 0 {
        let (key, scratch, table) = (key.to_vec(), work(scratch), room(domain));
        let call = match multi {
            false => Call::SingleAdd { key, scratch, table },
            true => Call::MultiAdd { key, scratch, table },
        };
        list.push((how::ADD, call));
    }
    list
}

// ---- replaying

/// Walks along the fields of a record. What is not there reads as 0.
struct Fields<'a> {
    cells: &'a [u64],
    at: usize,
}

impl Fields<'_> {
    fn next(&mut self) -> u64 {
        let cell = self.cells.get(self.at).copied().unwrap_or(0);
        self.at += 1;
        cell
    }

    fn list(&mut self, count: u64) -> Vec<u64> {
        (0..count).map(|_| self.next()).collect()
    }

    fn bytes(&mut self, length: u64) -> Vec<u8> {
        let cells = self.list(length.div_ceil(8));
        unpacked(&cells, length as usize)
    }

    fn array<const N: usize>(&mut self) -> [u8; N] {
        self.bytes(N as u64).try_into().expect("N bytes")
    }
}

fn zeroed(count: u64, length: u64) -> Vec<u64> {
    let mut scratch = work(length);
    scratch[..count as usize].fill(0);
    scratch
}

fn in_front<T: Copy>(slice: Vec<T>, front: &[T]) -> Vec<T> {
    let mut slice = slice;
    slice[..front.len()].copy_from_slice(front);
    slice
}

fn images(
    f: &mut Fields,
    number: u64,
    length: u64,
    rooms: [u64; 2],
) -> (Vec<Vec<u8>>, Vec<Vec<u8>>) {
    let made: Vec<Vec<u8>> = match number {
        0 => (0..2).map(|_| f.bytes(length)).collect(),
        _ => vec![vec![], vec![]],
    };
    let after = (0..2).map(|p| in_front(buffer(rooms[p] as usize), &made[p])).collect();
    (made, after)
}

/// The calls of a record, with what is wanted of each. `pair` is the last that was made.
fn calls(kind: u64, f: &mut Fields, pair: &mut Vec<Vec<u8>>) -> Vec<(Call, After)> {
    match kind {
        kind::SINGLE_MAKE => {
            let (domain, point, value) = (f.next(), f.next(), f.next());
            let rooms = [f.next(), f.next()];
            let (number, answer) = (f.next(), f.list(2));
            let count = f.next();
            let words = f.list(count);
            let (made, bytes) = images(f, number, answer[0], rooms);
            let [key0, key1] = rooms.map(|length| buffer(length as usize));
            if number == 0 {
                *pair = made;
            }
            let call = Call::SingleMake { domain, point, value, words, key0, key1 };
            vec![(call, After { number, answer, cells: vec![], bytes })]
        }
        kind::MULTI_MAKE => {
            let (domain, buckets) = (f.next(), f.next());
            let (points, values, words) = (f.next(), f.next(), f.next());
            let (length, zeros) = (f.next(), f.next());
            let rooms = [f.next(), f.next()];
            let (number, answer) = (f.next(), f.list(3));
            let hash_keys = f.array();
            let (points, values, words) = (f.list(points), f.list(values), f.list(words));
            let (made, bytes) = images(f, number, answer[0], rooms);
            let [key0, key1] = rooms.map(|length| buffer(length as usize));
            if number == 0 {
                *pair = made;
            }
            let scratch = work(length);
            let call = Call::MultiMake {
                domain,
                buckets,
                hash_keys,
                points,
                values,
                words,
                scratch,
                key0,
                key1,
            };
            vec![(call, After { number, answer, cells: vec![zeroed(zeros, length)], bytes })]
        }
        kind::SINGLE_CELLS | kind::MULTI_CELLS => cell_calls(kind, f, pair),
        kind::SINGLE_READ | kind::MULTI_READ => {
            let (way, index, scratch, out) = (f.next(), f.next(), f.next(), f.next());
            let (number, answer, zeros) = (f.next(), f.list(2), f.next());
            let length = f.next();
            let key = f.bytes(length);
            let (share, part) = (vec![answer[0]], answer);
            let scratch_after = zeroed(zeros, scratch);
            let (scratch, table) = (work(scratch), room(out));
            let whole = vec![scratch_after.clone(), table.clone()];
            let (call, answer, cells) = match (kind, way) {
                (kind::SINGLE_READ, how::AT) => (Call::SingleAt { key, index }, share, vec![]),
                (kind::SINGLE_READ, how::DOMAIN) => {
                    (Call::SingleDomain { key, scratch, out: table }, vec![], whole)
                }
                (kind::SINGLE_READ, how::ADD) => {
                    (Call::SingleAdd { key, scratch, table }, vec![], whole)
                }
                (_, how::AT) => (Call::MultiAt { key, index, scratch }, share, vec![scratch_after]),
                (_, how::DOMAIN) => (Call::MultiDomain { key, scratch, out: table }, vec![], whole),
                (_, how::ADD) => (Call::MultiAdd { key, scratch, table }, vec![], whole),
                _ => (Call::MultiRecord { key, bucket: index }, part, vec![]),
            };
            vec![(call, After { number, answer, cells, bytes: vec![] })]
        }
        kind::PLACE => {
            let (domain, buckets, points, length) = (f.next(), f.next(), f.next(), f.next());
            let (number, answer, written) = (f.next(), vec![f.next()], f.next());
            let hash_keys = f.array();
            let (points, front) = (f.list(points), f.list(written));
            let scratch = work(length);
            let cells = vec![in_front(scratch.clone(), &front)];
            let call = Call::Place { domain, buckets, hash_keys, points, scratch };
            vec![(call, After { number, answer, cells, bytes: vec![] })]
        }
        _ => {
            let (call, number, answer) = match kind {
                kind::HEIGHT => (Call::Height { size: f.next() }, f.next(), vec![f.next()]),
                kind::TREE => (Call::Tree { x: [f.next(), f.next()] }, 0, f.list(2)),
                kind::CCR => (Call::Ccr { key: f.array(), x: [f.next(), f.next()] }, 0, f.list(2)),
                kind::BUCKET => {
                    let (hash_key, buckets, item) = (f.array(), f.next(), f.next());
                    (Call::Bucket { hash_key, buckets, item }, f.next(), vec![f.next()])
                }
                other => panic!("no record has kind {other}"),
            };
            vec![(call, After { number, answer, cells: vec![], bytes: vec![] })]
        }
    }
}

fn cell_calls(kind: u64, f: &mut Fields, pair: &[Vec<u8>]) -> Vec<(Call, After)> {
    let (party, ways, first, count) = (f.next(), f.next(), f.next(), f.next());
    let (at_scratch, at_zeroed) = (f.next(), f.next());
    let (scratch, zeros, out) = (f.next(), f.next(), f.next());
    let shares = f.list(count);
    let key = pair[party as usize].clone();
    let multi = kind == kind::MULTI_CELLS;
    let mut list = vec![];
    if ways & how::AT != 0 {
        for (index, &share) in (first..).zip(&shares) {
            let (call, cells) = match multi {
                false => (Call::SingleAt { key: key.clone(), index }, vec![]),
                true => (
                    Call::MultiAt { key: key.clone(), index, scratch: work(at_scratch) },
                    vec![zeroed(at_zeroed, at_scratch)],
                ),
            };
            list.push((call, After { number: 0, answer: vec![share], cells, bytes: vec![] }));
        }
    }
    for (way, call) in whole_calls(&key, multi, ways, scratch, out, count) {
        let last = match way {
            how::DOMAIN => in_front(room(out), &shares),
            _ => shares.iter().map(|share| share.wrapping_add(FILLED)).collect(),
        };
        let cells = vec![zeroed(zeros, scratch), last];
        list.push((call, After { number: 0, answer: vec![], cells, bytes: vec![] }));
    }
    list
}

/// Replays a list over a face: the records, the calls, and each disagreement.
pub fn replay(file: &[u8], face: &dyn Face) -> (u64, u64, Vec<String>) {
    let cells: Vec<u64> = packed(&file[HEAD..]);
    let mut random = Random::new(0);
    let (mut at, mut records, mut made, mut bad) = (0, 0, 0, vec![]);
    let mut pair = vec![];
    loop {
        let (kind, length) = (cells[at], cells[at + 1] as usize);
        let mut fields = Fields { cells: &cells[at + 2..at + 2 + length], at: 0 };
        if kind == kind::END {
            assert_eq!(fields.next(), records, "as many records as the list says");
            return (records, made, bad);
        }
        records += 1;
        for (call, wanted) in calls(kind, &mut fields, &mut pair) {
            made += 1;
            let (got, complaints) = face::run(face, &call, &mut random);
            if let Some(text) = got.difference(&wanted).or_else(|| complaints.into_iter().next()) {
                bad.push(format!("record {records}: {text}\n{call}"));
            }
        }
        assert_eq!(fields.at, length, "record {records} is read to its end");
        at += 2 + length;
    }
}
