//! The C face in plain Rust, from document 01 alone: nothing of the source is used here, nor the
//! model of `expect`. It tests the runner where Morgnet is not linked, and it can be made wrong in the
//! ways of [`Fault`], each of which the runner and the lists must notice.

use crate::call::refusal::*;
use crate::face::Face;
use aes_bytes::Aes128;

macro_rules! faults {
    ($($(#[$doc:meta])* $name:ident,)*) => {
        /// What can be made wrong. The first are the slips that document 01 lists.
        #[derive(Clone, Copy, Debug, PartialEq, Eq)]
        pub enum Fault {
            /// Nothing is wrong.
            None,
            $($(#[$doc])* $name,)*
        }

        /// Every fault.
        pub const FAULTS: &[Fault] = &[$(Fault::$name,)*];
    };
}

faults! {
    /// The low half is taken and then shifted: bit 64 is lost.
    Bit64Lost,
    /// A cell's share is added twice where two functions name one bucket.
    ShareAddedTwice,
    /// A cell that names one bucket twice enters it once.
    BucketCountedOnce,
    /// With S odd, the right sibling of the last leaf is written.
    RightSiblingWritten,
    /// The first word is seed 0, the second delta.
    SeedBeforeDelta,
    /// The counter of the next function stays with the bucket.
    CounterWithBucket,

    DeltaBitNotSet,
    HcwBitNotCleared,
    HcwXorLcw,
    LcwSwapped,
    LastWordSign,
    CorrectionForOne,
    BitsFromTheLow,
    HeightOfPowers,
    MaskForgotten,
    SigmaHalvesSwapped,
    BigEndianBlock,
    PartyOneNotNegated,
    SizeOneNegated,
    SizeOneUsesTwoWords,
    LastOddLeafFromLeft,

    HighHalfModulo,
    FunctionsOneAndTwoSwapped,
    PositionIsLast,
    OneEvictionTooFew,
    OneEvictionTooMany,
    EvictionsOfTheLastInput,
    TurnsReported,
    CounterNotKept,
    UnoccupiedHasAlphaOne,
    EmptyBucketUsesWords,
    UnoccupiedUsesNoWords,
    ValueOfTheBucket,

    AddingDoesNothing,
    AddingOverwrites,
    AddingFirstCellOnly,
    OneShareForAll,

    OddWordCounts,
    LargestSingleRefused,
    LargestMultiRefused,
    LargestBucketsRefused,
    ZeroDomainTaken,
    PointAtDomainTaken,
    EqualPointsTaken,
    ValuesNotCounted,
    MorePointsThanBuckets,
    RoomOfKey0Alone,
    RoomBeforeScratch,
    ScratchBeforeTable,
    ScratchBeforeIndex,
    PointBeforeCount,
    WordsBeforePlace,
    RoomBeforeWords,
    MismatchBeforeRoom,

    PartyTwoTaken,
    OffsetNotRead,
    LcwFourTaken,
    SizeOneSeedTaken,
    SizeOneHcwTaken,
    LongImageTaken,
    NoPointsTaken,
    PointsNotHeldToBuckets,
    PointsHeldToDomain,
    GapTaken,
    DirectoryNotRead,
    LargeRecordTaken,
    BucketsNotHeld,
    DomainNotHeld,
    MismatchOfTheCellAlone,
    MismatchForgottenForNone,
    MismatchIsKey,
    IndexNotHeld,
    RecordOfNoneBegins,
    RecordWithoutWords,

    ScratchLeftOnSuccess,
    ScratchLeftOnPlace,
    ScratchLeftOnWords,
    ScratchLeftOnRoom,
    ScratchLeftOnMismatch,
    ScratchZeroedOnShort,
    ScratchZeroedOnKey,
    WholeScratchZeroed,
    ScratchOneShort,
    OutputWrittenOnMismatch,
    WholeOutputWritten,
    KeyBufferCleared,
    Key0WrittenOnRoom,
    AnswerLeftOnRefusal,
    PlaceNotZeroed,
}

/// The face, with a fault or with none.
pub struct Own {
    pub fault: Fault,
}

struct Rec {
    size: u64,
    seed: u128,
    hcw: u128,
    lcw: u64,
    last: u64,
    words: Vec<u128>,
}

/// A multi image's header, once it is known to be fair.
struct Multi {
    party: u64,
    buckets: usize,
    domain: u64,
    functions: [Aes128; 3],
}

fn number(image: &[u8], at: usize, bytes: usize) -> u128 {
    let mut n = 0;
    for i in 0..bytes {
        n += (image[at + i] as u128) << (8 * i);
    }
    n
}

fn put(image: &mut [u8], at: usize, bytes: usize, n: u128) {
    for i in 0..bytes {
        image[at + i] = (n >> (8 * i)) as u8;
    }
}

impl Own {
    fn has(&self, fault: Fault) -> bool {
        self.fault == fault
    }

    // ---- the hashes

    fn encrypt(&self, aes: &Aes128, x: u128) -> u128 {
        if self.has(Fault::BigEndianBlock) {
            return u128::from_be_bytes(aes.encrypted(x.to_be_bytes()));
        }
        u128::from_le_bytes(aes.encrypted(x.to_le_bytes()))
    }

    fn ccr(&self, aes: &Aes128, x: u128) -> u128 {
        let (left, right) = (x >> 64, x & u64::MAX as u128);
        let sigma = match self.has(Fault::SigmaHalvesSwapped) {
            false => (left ^ right) << 64 | left,
            true => left << 64 | (left ^ right),
        };
        self.encrypt(aes, sigma) ^ sigma
    }

    fn tree(&self) -> Aes128 {
        let half = [0x47, 0x42, 0x37, 0x13, 0xef, 0xbe, 0xad, 0xde];
        Aes128::with_key(std::array::from_fn(|i| half[i % 8]))
    }

    fn h(&self, tree: &Aes128, x: u128) -> u128 {
        let mask = match self.has(Fault::MaskForgotten) {
            false => 0xc000ffeec0ffffee_c0ffeeeec00ffeee,
            true => 0,
        };
        self.ccr(tree, x ^ mask)
    }

    fn bucket_of(&self, aes: &Aes128, buckets: u64, item: u64) -> usize {
        let hash = self.ccr(aes, item as u128);
        let half = if self.has(Fault::HighHalfModulo) { hash >> 64 } else { hash };
        (half as u64 % buckets) as usize
    }

    fn functions(&self, hash_keys: &[u8]) -> [Aes128; 3] {
        let of =
            |k: usize| Aes128::with_key(hash_keys[16 * k..16 * k + 16].try_into().expect("16"));
        match self.has(Fault::FunctionsOneAndTwoSwapped) {
            false => [of(0), of(1), of(2)],
            true => [of(0), of(2), of(1)],
        }
    }

    fn buckets_of(&self, functions: &[Aes128; 3], buckets: u64, item: u64) -> [usize; 3] {
        std::array::from_fn(|k| self.bucket_of(&functions[k], buckets, item))
    }

    // ---- the single key

    fn height_of(&self, size: u64) -> u32 {
        if self.has(Fault::HeightOfPowers) {
            return 64 - size.leading_zeros();
        }
        64 - (size - 1).leading_zeros()
    }

    fn record_len(&self, size: u64) -> usize {
        56 + 16 * (self.height_of(size) as usize).saturating_sub(1)
    }

    fn convert(&self, s: u128) -> u64 {
        if self.has(Fault::Bit64Lost) {
            return (s as u64) >> 1;
        }
        (s >> 1) as u64
    }

    fn bit(&self, x: u64, height: u32, level: u32) -> u128 {
        let place = if self.has(Fault::BitsFromTheLow) { level } else { height - 1 - level };
        (x >> place & 1) as u128
    }

    /// Both parties' records. `words` are exactly those that are used.
    fn make_records(&self, size: u64, alpha: u64, beta: u64, words: &[u128]) -> [Rec; 2] {
        if size == 1 {
            let share = words[0] as u64;
            return [share, beta.wrapping_sub(share)].map(|last| Rec {
                size,
                seed: 0,
                hcw: 0,
                lcw: 0,
                last,
                words: vec![],
            });
        }
        let (delta, seed0) = match self.has(Fault::SeedBeforeDelta) {
            false => (words[0], words[1]),
            true => (words[1], words[0]),
        };
        let delta = if self.has(Fault::DeltaBitNotSet) { delta } else { delta | 1 };
        let tree = self.tree();
        let h = |x| self.h(&tree, x);
        let height = self.height_of(size);
        let (mut s0, mut s1) = (seed0, seed0 ^ delta);
        let mut correction = vec![];
        for level in 0..height - 1 {
            let a = self.bit(alpha, height, level);
            let wanted = if self.has(Fault::CorrectionForOne) { 1 } else { 0 };
            let cw = h(s0) ^ h(s1) ^ if a == wanted { delta } else { 0 };
            let next =
                |s: u128| h(s) ^ if a == 1 { s } else { 0 } ^ if s & 1 == 1 { cw } else { 0 };
            (s0, s1) = (next(s0), next(s1));
            correction.push(cw);
        }
        let a = self.bit(alpha, height, height - 1);
        let mut hcw = h(s0 ^ (1 - a)) ^ h(s1 ^ (1 - a));
        if !self.has(Fault::HcwBitNotCleared) {
            hcw &= !1;
        }
        let mut lcw = [0, 1].map(|x| (h(s0 ^ x) ^ h(s1 ^ x)) & 1 ^ u128::from(x == a));
        if self.has(Fault::LcwSwapped) {
            lcw.swap(0, 1);
        }
        let last = |s: u128| h(s ^ a) ^ if s & 1 == 1 { hcw | lcw[a as usize] } else { 0 };
        let (s0, s1) = (last(s0), last(s1));
        let (c0, c1) = (self.convert(s0), self.convert(s1));
        let mut last = match (s0 & 1, s1 & 1) {
            (0, 1) => c0.wrapping_sub(c1).wrapping_sub(beta),
            (1, 0) => c1.wrapping_sub(c0).wrapping_add(beta),
            _ => 0,
        };
        if self.has(Fault::LastWordSign) && s0 & 1 == 0 {
            last = c0.wrapping_sub(c1).wrapping_add(beta);
        }
        let lcw = (lcw[0] | lcw[1] << 1) as u64;
        [seed0, seed0 ^ delta].map(|seed| Rec {
            size,
            seed,
            hcw,
            lcw,
            last,
            words: correction.clone(),
        })
    }

    fn put_record(&self, image: &mut [u8], at: usize, record: &Rec) {
        put(image, at, 8, record.size as u128);
        put(image, at + 8, 16, record.seed);
        put(image, at + 24, 16, record.hcw);
        put(image, at + 40, 8, record.lcw as u128);
        put(image, at + 48, 8, record.last as u128);
        for (i, word) in record.words.iter().enumerate() {
            put(image, at + 56 + 16 * i, 16, *word);
        }
    }

    /// One child of a node above the last layer.
    fn child(&self, tree: &Aes128, s: u128, a: u128, cw: u128) -> u128 {
        self.h(tree, s) ^ if a == 1 { s } else { 0 } ^ if s & 1 == 1 { cw } else { 0 }
    }

    /// One leaf below a node of the last layer.
    fn leaf(&self, tree: &Aes128, image: &[u8], at: usize, s: u128, a: u128) -> u128 {
        let hcw = number(image, at + 24, 16);
        let lcw = number(image, at + 40, 8) >> a & 1;
        let correction = if self.has(Fault::HcwXorLcw) { hcw ^ lcw } else { hcw | lcw };
        self.h(tree, s ^ a) ^ if s & 1 == 1 { correction } else { 0 }
    }

    fn share_of_leaf(&self, image: &[u8], at: usize, party: u64, s: u128) -> u64 {
        let last = number(image, at + 48, 8) as u64;
        let value = self.convert(s).wrapping_add(if s & 1 == 1 { last } else { 0 });
        if party == 1 && !self.has(Fault::PartyOneNotNegated) {
            0u64.wrapping_sub(value)
        } else {
            value
        }
    }

    fn share_of_one(&self, image: &[u8], at: usize, party: u64) -> u64 {
        let last = number(image, at + 48, 8) as u64;
        if self.has(Fault::SizeOneNegated) && party == 1 {
            0u64.wrapping_sub(last)
        } else {
            last
        }
    }

    /// The share of the cell `index` of the record at `at`.
    fn record_at(&self, image: &[u8], at: usize, party: u64, index: u64) -> u64 {
        let size = number(image, at, 8) as u64;
        if size == 1 {
            return self.share_of_one(image, at, party);
        }
        let tree = self.tree();
        let height = self.height_of(size);
        let mut s = number(image, at + 8, 16);
        for level in 0..height - 1 {
            let cw = number(image, at + 56 + 16 * level as usize, 16);
            s = self.child(&tree, s, self.bit(index, height, level), cw);
        }
        s = self.leaf(&tree, image, at, s, self.bit(index, height, height - 1));
        self.share_of_leaf(image, at, party, s)
    }

    /// The shares of all cells of the record at `at`, layer by layer.
    fn record_domain(&self, image: &[u8], at: usize, party: u64) -> Vec<u64> {
        let size = number(image, at, 8) as u64;
        if size == 1 {
            return vec![self.share_of_one(image, at, party)];
        }
        if self.has(Fault::OneShareForAll) {
            return vec![self.record_at(image, at, party, 0); size as usize];
        }
        let tree = self.tree();
        let height = self.height_of(size);
        let mut layer = vec![number(image, at + 8, 16)];
        for level in 0..height {
            // the nodes of the next layer that have a cell below them
            let width = ((size - 1) >> (height - 1 - level)) + 1;
            let cw = match level + 1 < height {
                true => number(image, at + 56 + 16 * level as usize, 16),
                false => 0,
            };
            layer = (0..width)
                .map(|node| {
                    let (parent, mut a) = (layer[node as usize / 2], node as u128 & 1);
                    if self.has(Fault::LastOddLeafFromLeft) && node + 1 == size && size % 2 == 0 {
                        a = 0;
                    }
                    match level + 1 < height {
                        true => self.child(&tree, parent, a, cw),
                        false => self.leaf(&tree, image, at, parent, a),
                    }
                })
                .collect();
        }
        layer.iter().map(|&s| self.share_of_leaf(image, at, party, s)).collect()
    }

    // ---- images

    /// The length of the record at `at`, or none where it breaks a rule.
    fn record_fair(&self, image: &[u8], at: usize) -> Option<usize> {
        if image.len() < at + 56 {
            return None;
        }
        let size = number(image, at, 8) as u64;
        let largest = if self.has(Fault::LargeRecordTaken) { 1 << 40 } else { 1 << 34 };
        if size == 0 || size > largest {
            return None;
        }
        if number(image, at + 40, 8) > if self.has(Fault::LcwFourTaken) { 4 } else { 3 } {
            return None;
        }
        let seed_bad = number(image, at + 8, 16) != 0 && !self.has(Fault::SizeOneSeedTaken);
        let hcw_bad = number(image, at + 24, 16) != 0 && !self.has(Fault::SizeOneHcwTaken);
        if size == 1 && (seed_bad || hcw_bad || number(image, at + 40, 8) != 0) {
            return None;
        }
        let length = self.record_len(size);
        (image.len() >= at + length).then_some(length)
    }

    fn length_fair(&self, length: usize, end: usize) -> bool {
        length == end || self.has(Fault::LongImageTaken) && length > end
    }

    fn single_fair(&self, image: &[u8]) -> bool {
        if image.len() < 8 {
            return false;
        }
        let party = number(image, 0, 4);
        let offset = self.has(Fault::OffsetNotRead) || number(image, 4, 4) == 8;
        if party > if self.has(Fault::PartyTwoTaken) { 2 } else { 1 } || !offset {
            return false;
        }
        self.record_fair(image, 8).is_some_and(|l| self.length_fair(image.len(), 8 + l))
    }

    /// Where the record of each bucket stands, or none where the image breaks a rule.
    fn multi_fair(&self, image: &[u8]) -> Option<(Multi, Vec<(usize, usize)>)> {
        if image.len() < 72 {
            return None;
        }
        let (party, buckets) = (number(image, 0, 4) as u64, number(image, 4, 4) as u64);
        let (domain, n) = (number(image, 8, 8) as u64, number(image, 16, 4) as u64);
        if party > if self.has(Fault::PartyTwoTaken) { 2 } else { 1 } {
            return None;
        }
        if buckets == 0 || (buckets > 65535 && !self.has(Fault::BucketsNotHeld)) {
            return None;
        }
        if domain == 0 || (domain >= 1 << 32 && !self.has(Fault::DomainNotHeld)) {
            return None;
        }
        if n == 0 && !self.has(Fault::NoPointsTaken)
            || n > buckets && !self.has(Fault::PointsNotHeldToBuckets)
            || n > domain && self.has(Fault::PointsHeldToDomain)
        {
            return None;
        }
        if number(image, 20, 4) != 72 && !self.has(Fault::OffsetNotRead) {
            return None;
        }
        let buckets = buckets as usize;
        let mut next = 72 + 8 * buckets;
        if image.len() < next {
            return None;
        }
        let mut parts = vec![];
        for b in 0..buckets {
            let entry = number(image, 72 + 8 * b, 8) as u64;
            if entry == 0 {
                parts.push((0, 0));
                continue;
            }
            if self.has(Fault::GapTaken) && entry > next as u64 && entry < image.len() as u64 {
                next = entry as usize;
            }
            if entry != next as u64 && !self.has(Fault::DirectoryNotRead) {
                return None;
            }
            let length = self.record_fair(image, next)?;
            parts.push((next, length));
            next += length;
        }
        if !self.length_fair(image.len(), next) {
            return None;
        }
        let functions = self.functions(&image[24..72]);
        Some((Multi { party, buckets, domain, functions }, parts))
    }

    // ---- buckets and placement

    /// What a cell adds to the sizes of its buckets.
    fn enter(&self, sizes: &mut [u64], cell: [usize; 3]) {
        for k in 0..3 {
            if self.has(Fault::BucketCountedOnce) && cell[..k].contains(&cell[k]) {
                continue;
            }
            sizes[cell[k]] += 1;
        }
    }

    /// The positions of a cell in its three buckets, given the sizes over the cells before it.
    fn positions(&self, sizes: &[u64], cell: [usize; 3]) -> [u64; 3] {
        std::array::from_fn(|k| {
            let again = match self.has(Fault::PositionIsLast) {
                true => cell.iter().filter(|&&b| b == cell[k]).count() as u64 - 1,
                false => 0,
            };
            sizes[cell[k]] + again
        })
    }

    fn sizes_of(&self, functions: &[Aes128; 3], buckets: u64, domain: u64) -> Vec<u64> {
        let mut sizes = vec![0; buckets as usize];
        for x in 0..domain {
            self.enter(&mut sizes, self.buckets_of(functions, buckets, x));
        }
        sizes
    }

    /// The walk: for each bucket 0 or 1 + a point's place, the counters, and the evictions; none where
    /// it gives up.
    fn walk(
        &self,
        functions: &[Aes128; 3],
        buckets: u64,
        points: &[u64],
    ) -> Option<(Vec<u64>, Vec<u64>, u64)> {
        let cells: Vec<_> =
            points.iter().map(|&p| self.buckets_of(functions, buckets, p)).collect();
        let mut table = vec![0u64; buckets as usize];
        let mut counters = vec![0u64; points.len()];
        let mut of_bucket = vec![0u64; buckets as usize];
        let (mut evictions, mut turns) = (0, 0);
        let mut most = points.len() + 1;
        if self.has(Fault::OneEvictionTooFew) {
            most -= 1;
        }
        if self.has(Fault::OneEvictionTooMany) {
            most += 1;
        }
        for p in 0..points.len() {
            let (mut hand, mut tries) = (p, 0);
            if self.has(Fault::EvictionsOfTheLastInput) {
                evictions = 0;
            }
            loop {
                let b = match self.has(Fault::CounterWithBucket) {
                    false => cells[hand][counters[hand] as usize],
                    true => cells[hand][of_bucket[cells[hand][0]] as usize % 3],
                };
                if !self.has(Fault::CounterNotKept) {
                    counters[hand] = (counters[hand] + 1) % 3;
                }
                of_bucket[b] += 1;
                turns += 1;
                let held = table[b];
                table[b] = hand as u64 + 1;
                if held == 0 {
                    break;
                }
                evictions += 1;
                tries += 1;
                if tries == most {
                    return None;
                }
                hand = held as usize - 1;
            }
        }
        if self.has(Fault::TurnsReported) {
            evictions = turns;
        }
        Some((table, counters, evictions))
    }

    // ---- what refusals and successes leave

    fn clear(&self, scratch: &mut [u64], needed: u64) {
        let mut count = needed as usize;
        if self.has(Fault::WholeScratchZeroed) {
            count = scratch.len();
        }
        if self.has(Fault::ScratchOneShort) {
            count -= 1;
        }
        scratch[..count].fill(0);
    }

    /// Zeroes the scratch unless the planted fault is `left`.
    fn clear_unless(&self, left: Fault, scratch: &mut [u64], needed: u64) {
        if !self.has(left) {
            self.clear(scratch, needed);
        }
    }

    fn short(&self, scratch: &mut [u64], needed: u64) -> bool {
        if scratch.len() as u64 >= needed {
            return false;
        }
        if self.has(Fault::ScratchZeroedOnShort) {
            scratch.fill(0);
        }
        true
    }

    fn bad_key(&self, scratch: &mut [u64]) -> u64 {
        if self.has(Fault::ScratchZeroedOnKey) {
            scratch.fill(0);
        }
        KEY
    }

    fn write_shares(&self, out: &mut [u64], shares: &[u64]) {
        if self.has(Fault::WholeOutputWritten) {
            out.fill(0);
        }
        out[..shares.len()].copy_from_slice(shares);
    }

    fn add_shares(&self, table: &mut [u64], shares: &[u64]) {
        if self.has(Fault::AddingDoesNothing) {
            return;
        }
        for (i, (cell, share)) in table.iter_mut().zip(shares).enumerate() {
            if self.has(Fault::AddingFirstCellOnly) && i != 0 {
                return;
            }
            *cell = match self.has(Fault::AddingOverwrites) {
                false => cell.wrapping_add(*share),
                true => *share,
            };
        }
    }

    fn sibling(&self, size: u64, scratch: &mut [u64]) {
        let right = 2 * size as usize;
        if self.has(Fault::RightSiblingWritten) && size % 2 == 1 && right < scratch.len() {
            scratch[right] = size;
        }
    }

    fn points_fair(&self, points: &[u64], domain: u64) -> bool {
        let mut low = 0;
        for &p in points {
            let above = self.has(Fault::PointAtDomainTaken) && p == domain;
            if p < low || p >= domain && !above {
                return false;
            }
            low = if self.has(Fault::EqualPointsTaken) { p } else { p + 1 };
        }
        true
    }

    /// Domain, Buckets, Count and Point of making and placing.
    fn list_number(&self, domain: u64, buckets: u64, points: &[u64], values: usize) -> u64 {
        let last = match self.has(Fault::LargestMultiRefused) {
            false => u32::MAX as u64,
            true => u32::MAX as u64 - 1,
        };
        if domain == 0 && !self.has(Fault::ZeroDomainTaken) || domain > last {
            return DOMAIN;
        }
        let most = if self.has(Fault::LargestBucketsRefused) { 65534 } else { 65535 };
        if buckets == 0 || buckets > most {
            return BUCKETS;
        }
        let n = points.len();
        if self.has(Fault::PointBeforeCount) && !self.points_fair(points, domain) {
            return POINT;
        }
        if n == 0 || n as u64 > buckets && !self.has(Fault::MorePointsThanBuckets) {
            return COUNT;
        }
        if values != n && !(self.has(Fault::ValuesNotCounted) && values > n) {
            return COUNT;
        }
        if !self.points_fair(points, domain) {
            return POINT;
        }
        0
    }

    fn words_of(&self, size: u64, occupied: bool) -> usize {
        match size {
            0 if self.has(Fault::EmptyBucketUsesWords) => 1,
            0 => 0,
            _ if self.has(Fault::UnoccupiedUsesNoWords) && !occupied => 0,
            1 if self.has(Fault::SizeOneUsesTwoWords) => 2,
            1 => 1,
            _ => 2,
        }
    }

    fn words_given(&self, words: &[u64]) -> Vec<u128> {
        let mut wide: Vec<u128> =
            words.chunks_exact(2).map(|w| w[0] as u128 + ((w[1] as u128) << 64)).collect();
        if self.has(Fault::OddWordCounts) && words.len() % 2 == 1 {
            wide.push(words[words.len() - 1] as u128);
        }
        wide
    }

    /// The sum over the distinct buckets of a cell.
    fn sum(&self, cell: [usize; 3], share: impl Fn(usize) -> u64) -> u64 {
        let mut sum = 0u64;
        for k in 0..3 {
            if !cell[..k].contains(&cell[k]) || self.has(Fault::ShareAddedTwice) {
                sum = sum.wrapping_add(share(k));
            }
        }
        sum
    }

    /// Whether a record has another size than its bucket.
    fn mismatch(&self, image: &[u8], parts: &[(usize, usize)], sizes: &[u64]) -> bool {
        parts.iter().zip(sizes).any(|(&(at, _), &size)| match at {
            0 => size != 0 && !self.has(Fault::MismatchForgottenForNone),
            _ => number(image, at, 8) != size as u128,
        })
    }

    /// The shares of all cells, or a refusal.
    fn multi_shares(
        &self,
        image: &[u8],
        multi: &Multi,
        parts: &[(usize, usize)],
    ) -> Option<Vec<u64>> {
        let sizes = self.sizes_of(&multi.functions, multi.buckets as u64, multi.domain);
        if self.mismatch(image, parts, &sizes) {
            return None;
        }
        let values: Vec<Vec<u64>> = parts
            .iter()
            .map(|&(at, _)| match at {
                0 => vec![],
                _ => self.record_domain(image, at, multi.party),
            })
            .collect();
        let mut before = vec![0; multi.buckets];
        let mut shares = vec![];
        for x in 0..multi.domain {
            let cell = self.buckets_of(&multi.functions, multi.buckets as u64, x);
            let positions = self.positions(&before, cell);
            let value =
                |k: usize| values[cell[k]].get(positions[k] as usize).copied().unwrap_or_default();
            shares.push(self.sum(cell, value));
            self.enter(&mut before, cell);
        }
        Some(shares)
    }

    fn single_make_number(
        &self,
        domain: u64,
        point: u64,
        words: &[u128],
        lengths: [usize; 2],
    ) -> u64 {
        let last = (1 << 34) - u64::from(self.has(Fault::LargestSingleRefused));
        if domain == 0 || domain > last {
            return DOMAIN;
        }
        if point >= domain && !(self.has(Fault::PointAtDomainTaken) && point == domain) {
            return POINT;
        }
        let words_short = words.len() < self.words_of(domain, true);
        let least =
            if self.has(Fault::RoomOfKey0Alone) { lengths[0] } else { lengths[0].min(lengths[1]) };
        let room_short = least < 8 + self.record_len(domain);
        if self.has(Fault::RoomBeforeWords) && room_short {
            return ROOM;
        }
        if words_short {
            return WORDS;
        }
        if room_short {
            return ROOM;
        }
        0
    }
}

impl Face for Own {
    fn single_generate_keys(
        &self,
        domain: u64,
        point: u64,
        value: u64,
        words: &[u64],
        key0: &mut [u8],
        key1: &mut [u8],
        answer: &mut [u64; 2],
    ) -> u64 {
        let words = self.words_given(words);
        let number = self.single_make_number(domain, point, &words, [key0.len(), key1.len()]);
        if number != 0 {
            if self.has(Fault::Key0WrittenOnRoom) && number == ROOM && !key0.is_empty() {
                key0[0] = 0;
            }
            if !self.has(Fault::AnswerLeftOnRefusal) {
                *answer = [0; 2];
            }
            return number;
        }
        let used = self.words_of(domain, true);
        let records = self.make_records(domain, point, value, &words[..used]);
        let length = 8 + self.record_len(domain);
        for (party, (key, record)) in [key0, key1].into_iter().zip(&records).enumerate() {
            if key.len() < length {
                continue;
            }
            if self.has(Fault::KeyBufferCleared) {
                key.fill(0);
            }
            put(key, 0, 4, party as u128);
            put(key, 4, 4, 8);
            self.put_record(key, 8, record);
        }
        *answer = [length as u64, used as u64];
        0
    }

    fn single_evaluate_at(&self, key: &[u8], index: u64, share: &mut u64) -> u64 {
        *share = 0;
        if !self.single_fair(key) {
            return KEY;
        }
        if index >= number(key, 8, 8) as u64 {
            if self.has(Fault::IndexNotHeld) {
                return 0;
            }
            return INDEX;
        }
        *share = self.record_at(key, 8, number(key, 0, 4) as u64, index);
        0
    }

    fn single_evaluate_domain(&self, key: &[u8], scratch: &mut [u64], out: &mut [u64]) -> u64 {
        if !self.single_fair(key) {
            return self.bad_key(scratch);
        }
        let size = number(key, 8, 8) as u64;
        let room = (out.len() as u64) < size;
        if self.has(Fault::RoomBeforeScratch) && room {
            return ROOM;
        }
        if self.short(scratch, 2 * size) {
            return SCRATCH;
        }
        if room {
            return ROOM;
        }
        self.write_shares(out, &self.record_domain(key, 8, number(key, 0, 4) as u64));
        self.sibling(size, scratch);
        self.clear_unless(Fault::ScratchLeftOnSuccess, scratch, 2 * size);
        0
    }

    fn single_add_to(&self, key: &[u8], scratch: &mut [u64], table: &mut [u64]) -> u64 {
        if !self.single_fair(key) {
            return self.bad_key(scratch);
        }
        let size = number(key, 8, 8) as u64;
        if self.has(Fault::ScratchBeforeTable) && self.short(scratch, 2 * size) {
            return SCRATCH;
        }
        if table.len() as u64 != size {
            return TABLE;
        }
        if self.short(scratch, 2 * size) {
            return SCRATCH;
        }
        self.add_shares(table, &self.record_domain(key, 8, number(key, 0, 4) as u64));
        self.sibling(size, scratch);
        self.clear_unless(Fault::ScratchLeftOnSuccess, scratch, 2 * size);
        0
    }

    fn multi_generate_keys(
        &self,
        domain: u64,
        buckets: u64,
        hash_keys: &[u8; 48],
        points: &[u64],
        values: &[u64],
        words: &[u64],
        scratch: &mut [u64],
        key0: &mut [u8],
        key1: &mut [u8],
        answer: &mut [u64; 3],
    ) -> u64 {
        if !self.has(Fault::AnswerLeftOnRefusal) {
            *answer = [0; 3];
        }
        let number = self.list_number(domain, buckets, points, values.len());
        if number != 0 {
            return number;
        }
        let needed = 4 * buckets + points.len() as u64;
        if self.short(scratch, needed) {
            return SCRATCH;
        }
        let functions = self.functions(hash_keys);
        let words = self.words_given(words);
        let early = self.has(Fault::WordsBeforePlace) && words.is_empty();
        if early {
            self.clear(scratch, needed);
            return WORDS;
        }
        let Some((table, _, evictions)) = self.walk(&functions, buckets, points) else {
            self.clear_unless(Fault::ScratchLeftOnPlace, scratch, needed);
            return PLACE;
        };
        let mut sizes = vec![0; buckets as usize];
        let mut alphas = vec![0; buckets as usize];
        for x in 0..domain {
            let cell = self.buckets_of(&functions, buckets, x);
            let positions = self.positions(&sizes, cell);
            for k in 0..3 {
                let held = table[cell[k]];
                if held != 0 && points[held as usize - 1] == x {
                    alphas[cell[k]] = positions[k];
                }
            }
            self.enter(&mut sizes, cell);
        }
        let used: Vec<usize> =
            (0..table.len()).map(|b| self.words_of(sizes[b], table[b] != 0)).collect();
        let words_short = words.len() < used.iter().sum();
        let records: usize =
            sizes.iter().filter(|&&size| size != 0).map(|&size| self.record_len(size)).sum();
        let length = 72 + 8 * buckets as usize + records;
        let room = match self.has(Fault::RoomOfKey0Alone) {
            false => key0.len().min(key1.len()),
            true => key0.len(),
        };
        if self.has(Fault::RoomBeforeWords) && room < length {
            self.clear(scratch, needed);
            return ROOM;
        }
        if words_short {
            self.clear_unless(Fault::ScratchLeftOnWords, scratch, needed);
            return WORDS;
        }
        if room < length {
            if self.has(Fault::Key0WrittenOnRoom) && !key0.is_empty() {
                key0[0] = 0;
            }
            self.clear_unless(Fault::ScratchLeftOnRoom, scratch, needed);
            return ROOM;
        }
        let mut next = 72 + 8 * buckets as usize;
        let mut word = 0;
        let mut keys = [key0, key1];
        for (party, key) in keys.iter_mut().enumerate() {
            if key.len() < length {
                continue;
            }
            if self.has(Fault::KeyBufferCleared) {
                key.fill(0);
            }
            put(key, 0, 4, party as u128);
            put(key, 4, 4, buckets as u128);
            put(key, 8, 8, domain as u128);
            put(key, 16, 4, points.len() as u128);
            put(key, 20, 4, 72);
            key[24..72].copy_from_slice(hash_keys);
        }
        for b in 0..buckets as usize {
            let entry = if sizes[b] == 0 { 0 } else { next };
            let (alpha, beta) = match table[b] {
                0 if self.has(Fault::UnoccupiedHasAlphaOne) && sizes[b] > 1 => (1, 1),
                0 => (0, 0),
                _ if self.has(Fault::ValueOfTheBucket) => (alphas[b], values[b % values.len()]),
                held => (alphas[b], values[held as usize - 1]),
            };
            let mut drawn = words[word..word + used[b]].to_vec();
            word += used[b];
            if drawn.is_empty() {
                drawn = vec![0; 2];
            }
            let made = (sizes[b] != 0).then(|| self.make_records(sizes[b], alpha, beta, &drawn));
            for (party, key) in keys.iter_mut().enumerate() {
                if key.len() < length {
                    continue;
                }
                put(key, 72 + 8 * b, 8, entry as u128);
                if let Some(records) = &made {
                    self.put_record(key, next, &records[party]);
                }
            }
            if sizes[b] != 0 {
                next += self.record_len(sizes[b]);
            }
        }
        self.clear_unless(Fault::ScratchLeftOnSuccess, scratch, needed);
        *answer = [length as u64, word as u64, evictions];
        0
    }

    fn multi_evaluate_at(
        &self,
        key: &[u8],
        index: u64,
        scratch: &mut [u64],
        share: &mut u64,
    ) -> u64 {
        *share = 0;
        let Some((multi, parts)) = self.multi_fair(key) else {
            return self.bad_key(scratch);
        };
        let buckets = multi.buckets as u64;
        if self.has(Fault::ScratchBeforeIndex) && self.short(scratch, buckets) {
            return SCRATCH;
        }
        if index >= multi.domain {
            return INDEX;
        }
        if self.short(scratch, buckets) {
            return SCRATCH;
        }
        let cell = self.buckets_of(&multi.functions, buckets, index);
        let mut positions = [0; 3];
        let mut sizes = vec![0; multi.buckets];
        for x in 0..multi.domain {
            let cell = self.buckets_of(&multi.functions, buckets, x);
            if x == index {
                positions = self.positions(&sizes, cell);
            }
            self.enter(&mut sizes, cell);
        }
        let bad = match self.has(Fault::MismatchOfTheCellAlone) {
            false => self.mismatch(key, &parts, &sizes),
            true => cell.iter().any(|&b| self.mismatch(key, &parts[b..=b], &sizes[b..=b])),
        };
        if bad {
            self.clear_unless(Fault::ScratchLeftOnMismatch, scratch, buckets);
            return if self.has(Fault::MismatchIsKey) { KEY } else { MISMATCH };
        }
        self.clear_unless(Fault::ScratchLeftOnSuccess, scratch, buckets);
        *share = self.sum(cell, |k| match parts[cell[k]].0 {
            0 => 0,
            at => self.record_at(key, at, multi.party, positions[k]),
        });
        0
    }

    fn multi_evaluate_domain(&self, key: &[u8], scratch: &mut [u64], out: &mut [u64]) -> u64 {
        let Some((multi, parts)) = self.multi_fair(key) else {
            return self.bad_key(scratch);
        };
        let needed = 6 * multi.domain + 2 * multi.buckets as u64;
        let room = (out.len() as u64) < multi.domain;
        if self.has(Fault::RoomBeforeScratch) && room {
            return ROOM;
        }
        if self.short(scratch, needed) {
            return SCRATCH;
        }
        let early = self.has(Fault::MismatchBeforeRoom) && multi.domain < 1 << 20;
        if room && !early {
            return ROOM;
        }
        let Some(shares) = self.multi_shares(key, &multi, &parts) else {
            if self.has(Fault::OutputWrittenOnMismatch) {
                out.fill(0);
            }
            self.clear_unless(Fault::ScratchLeftOnMismatch, scratch, needed);
            return if self.has(Fault::MismatchIsKey) { KEY } else { MISMATCH };
        };
        if room {
            return ROOM;
        }
        self.write_shares(out, &shares);
        self.clear_unless(Fault::ScratchLeftOnSuccess, scratch, needed);
        0
    }

    fn multi_add_to(&self, key: &[u8], scratch: &mut [u64], table: &mut [u64]) -> u64 {
        let Some((multi, parts)) = self.multi_fair(key) else {
            return self.bad_key(scratch);
        };
        let needed = 6 * multi.domain + 2 * multi.buckets as u64;
        if self.has(Fault::ScratchBeforeTable) && self.short(scratch, needed) {
            return SCRATCH;
        }
        if table.len() as u64 != multi.domain {
            return TABLE;
        }
        if self.short(scratch, needed) {
            return SCRATCH;
        }
        let Some(shares) = self.multi_shares(key, &multi, &parts) else {
            if self.has(Fault::OutputWrittenOnMismatch) {
                table.fill(0);
            }
            self.clear_unless(Fault::ScratchLeftOnMismatch, scratch, needed);
            return if self.has(Fault::MismatchIsKey) { KEY } else { MISMATCH };
        };
        self.add_shares(table, &shares);
        self.clear_unless(Fault::ScratchLeftOnSuccess, scratch, needed);
        0
    }

    fn multi_record(&self, key: &[u8], bucket: u64, part: &mut [u64; 2]) -> u64 {
        *part = [0; 2];
        let Some((multi, parts)) = self.multi_fair(key) else {
            return KEY;
        };
        if bucket >= multi.buckets as u64 {
            return if self.has(Fault::IndexNotHeld) { 0 } else { INDEX };
        }
        let (at, length) = parts[bucket as usize];
        *part = [at as u64, length as u64];
        if self.has(Fault::RecordOfNoneBegins) && at == 0 {
            *part = [72 + 8 * multi.buckets as u64, 0];
        }
        if self.has(Fault::RecordWithoutWords) && at != 0 {
            part[1] = 56;
        }
        0
    }

    fn height(&self, size: u64, height: &mut u64) -> u64 {
        *height = 0;
        if size == 0 || size > (1 << 34) - u64::from(self.has(Fault::LargestSingleRefused)) {
            return DOMAIN;
        }
        *height = self.height_of(size) as u64;
        0
    }

    fn bucket(&self, hash_key: &[u8; 16], buckets: u64, item: u64, bucket: &mut u64) -> u64 {
        *bucket = 0;
        if buckets == 0 || buckets > 65535 {
            return BUCKETS;
        }
        *bucket = self.bucket_of(&Aes128::with_key(*hash_key), buckets, item) as u64;
        0
    }

    fn place(
        &self,
        domain: u64,
        buckets: u64,
        hash_keys: &[u8; 48],
        points: &[u64],
        scratch: &mut [u64],
        evictions: &mut u64,
    ) -> u64 {
        *evictions = 0;
        let number = self.list_number(domain, buckets, points, points.len());
        if number != 0 {
            return number;
        }
        let needed = buckets + points.len() as u64;
        if self.short(scratch, needed) {
            return SCRATCH;
        }
        match self.walk(&self.functions(hash_keys), buckets, points) {
            None => {
                self.clear_unless(Fault::PlaceNotZeroed, scratch, needed);
                PLACE
            }
            Some((table, counters, total)) => {
                scratch[..table.len()].copy_from_slice(&table);
                scratch[table.len()..needed as usize].copy_from_slice(&counters);
                *evictions = total;
                0
            }
        }
    }

    fn aes_encrypt(&self, key: &[u8; 16], block: &[u8; 16], out: &mut [u8; 16]) {
        let x = self.encrypt(&Aes128::with_key(*key), u128::from_le_bytes(*block));
        *out = x.to_le_bytes();
    }

    fn hash_ccr(&self, key: &[u8; 16], x: &[u64; 2], out: &mut [u64; 2]) {
        let x = x[0] as u128 + ((x[1] as u128) << 64);
        let hash = self.ccr(&Aes128::with_key(*key), x);
        *out = [hash as u64, (hash >> 64) as u64];
    }

    fn tree_hash(&self, x: &[u64; 2], out: &mut [u64; 2]) {
        let hash = self.h(&self.tree(), x[0] as u128 + ((x[1] as u128) << 64));
        *out = [hash as u64, (hash >> 64) as u64];
    }
}
