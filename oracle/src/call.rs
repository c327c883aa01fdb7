//! A call of the C face with all that is lent to it, and what stands there afterwards.

use std::fmt::{self, Write};

/// Document 01's refusal numbers.
pub mod refusal {
    pub const DOMAIN: u64 = 1;
    pub const BUCKETS: u64 = 2;
    pub const COUNT: u64 = 3;
    pub const POINT: u64 = 4;
    pub const SCRATCH: u64 = 5;
    pub const PLACE: u64 = 6;
    pub const WORDS: u64 = 7;
    pub const ROOM: u64 = 8;
    pub const KEY: u64 = 9;
    pub const INDEX: u64 = 10;
    pub const TABLE: u64 = 11;
    pub const MISMATCH: u64 = 12;

    /// The name of a number.
    pub fn name(number: u64) -> &'static str {
        const NAMES: [&str; 13] = [
            "success", "Domain", "Buckets", "Count", "Point", "Scratch", "Place", "Words", "Room",
            "Key", "Index", "Table", "Mismatch",
        ];
        NAMES.get(number as usize).copied().unwrap_or("unknown")
    }
}

/// A call with its arguments. What is lent to be written stands here as it is before the call.
#[derive(Clone)]
pub enum Call {
    SingleMake {
        domain: u64,
        point: u64,
        value: u64,
        words: Vec<u64>,
        key0: Vec<u8>,
        key1: Vec<u8>,
    },
    SingleAt {
        key: Vec<u8>,
        index: u64,
    },
    SingleDomain {
        key: Vec<u8>,
        scratch: Vec<u64>,
        out: Vec<u64>,
    },
    SingleAdd {
        key: Vec<u8>,
        scratch: Vec<u64>,
        table: Vec<u64>,
    },
    MultiMake {
        domain: u64,
        buckets: u64,
        hash_keys: [u8; 48],
        points: Vec<u64>,
        values: Vec<u64>,
        words: Vec<u64>,
        scratch: Vec<u64>,
        key0: Vec<u8>,
        key1: Vec<u8>,
    },
    MultiAt {
        key: Vec<u8>,
        index: u64,
        scratch: Vec<u64>,
    },
    MultiDomain {
        key: Vec<u8>,
        scratch: Vec<u64>,
        out: Vec<u64>,
    },
    MultiAdd {
        key: Vec<u8>,
        scratch: Vec<u64>,
        table: Vec<u64>,
    },
    MultiRecord {
        key: Vec<u8>,
        bucket: u64,
    },
    Height {
        size: u64,
    },
    Bucket {
        hash_key: [u8; 16],
        buckets: u64,
        item: u64,
    },
    Place {
        domain: u64,
        buckets: u64,
        hash_keys: [u8; 48],
        points: Vec<u64>,
        scratch: Vec<u64>,
    },
    Aes {
        key: [u8; 16],
        block: [u8; 16],
    },
    Ccr {
        key: [u8; 16],
        x: [u64; 2],
    },
    Tree {
        x: [u64; 2],
    },
}

impl Call {
    /// The name of the function of the C face.
    pub fn function(&self) -> &'static str {
        match self {
            Call::SingleMake { .. } => "morgnet_single_generate_keys",
            Call::SingleAt { .. } => "morgnet_single_evaluate_at",
            Call::SingleDomain { .. } => "morgnet_single_evaluate_domain",
            Call::SingleAdd { .. } => "morgnet_single_add_to",
            Call::MultiMake { .. } => "morgnet_multi_generate_keys",
            Call::MultiAt { .. } => "morgnet_multi_evaluate_at",
            Call::MultiDomain { .. } => "morgnet_multi_evaluate_domain",
            Call::MultiAdd { .. } => "morgnet_multi_add_to",
            Call::MultiRecord { .. } => "morgnet_multi_record",
            Call::Height { .. } => "morgnet_height",
            Call::Bucket { .. } => "morgnet_bucket",
            Call::Place { .. } => "morgnet_place",
            Call::Aes { .. } => "morgnet_aes_encrypt",
            Call::Ccr { .. } => "morgnet_hash_ccr",
            Call::Tree { .. } => "morgnet_tree_hash",
        }
    }
}

/// What a call leaves behind.
#[derive(Clone, PartialEq, Eq)]
pub struct After {
    /// 0, or the refusal's number.
    pub number: u64,
    /// The results: image length, words used and evictions; a share; a part; ..
    pub answer: Vec<u64>,
    /// Every slice of elements that was lent to be written, in the order of the C face.
    pub cells: Vec<Vec<u64>>,
    /// Every slice of bytes that was lent to be written, in the order of the C face.
    pub bytes: Vec<Vec<u8>>,
}

impl After {
    /// What differs from `wanted`, in one line; none where nothing does.
    pub fn difference(&self, wanted: &After) -> Option<String> {
        let number = |n: u64| format!("{n} {}", refusal::name(n));
        if self.number != wanted.number {
            return Some(format!(
                "answers {}, wanted {}",
                number(self.number),
                number(wanted.number)
            ));
        }
        if self.answer != wanted.answer {
            return Some(format!(
                "after {} gives {:?}, wanted {:?}",
                number(self.number),
                self.answer,
                wanted.answer
            ));
        }
        first_difference("elements", &self.cells, &wanted.cells)
            .or_else(|| first_difference("bytes", &self.bytes, &wanted.bytes))
            .map(|text| format!("after {} {text}", number(self.number)))
    }
}

fn first_difference<T: PartialEq + fmt::LowerHex>(
    what: &str,
    got: &[Vec<T>],
    wanted: &[Vec<T>],
) -> Option<String> {
    for (i, (got, wanted)) in got.iter().zip(wanted).enumerate() {
        if got == wanted {
            continue;
        }
        let differ = || got.iter().zip(wanted).enumerate().filter(|(_, (g, w))| g != w);
        let (at, (g, w)) = differ().next().expect("two slices of one length that differ");
        return Some(format!(
            "slice {i} of {what}: element {at} of {} is {g:#x}, wanted {w:#x} ({} elements differ)",
            got.len(),
            differ().count()
        ));
    }
    None
}

fn hex(bytes: &[u8]) -> String {
    bytes.iter().fold(String::new(), |mut text, b| {
        let _ = write!(text, "{b:02x}");
        text
    })
}

/// A slice of elements in full, or its length alone where it only lends room.
fn list(cells: &[u64]) -> String {
    let text: Vec<_> = cells.iter().map(|c| format!("{c:#x}")).collect();
    format!("{} [{}]", cells.len(), text.join(" "))
}

/// The whole input: numbers, lists and images in full; of slices that are lent to be written, their
/// lengths and (where they are not long) what they held.
impl fmt::Display for Call {
    fn fmt(&self, f: &mut fmt::Formatter<'_>) -> fmt::Result {
        let room = |cells: &[u64]| match cells.len() {
            0..=64 => list(cells),
            n => format!("{n} [{:#x} ..]", cells[0]),
        };
        let bytes = |bytes: &[u8]| format!("{} {}", bytes.len(), hex(bytes));
        let buffer = |bytes: &[u8]| format!("{} bytes", bytes.len());
        writeln!(f, "{}", self.function())?;
        match self {
            Call::SingleMake { domain, point, value, words, key0, key1 } => {
                writeln!(f, "  domain {domain}\n  point {point}\n  value {value}")?;
                writeln!(f, "  words {}", list(words))?;
                writeln!(f, "  key0 {}\n  key1 {}", buffer(key0), buffer(key1))
            }
            Call::SingleAt { key, index } => writeln!(f, "  key {}\n  index {index}", bytes(key)),
            Call::SingleDomain { key, scratch, out } | Call::MultiDomain { key, scratch, out } => {
                writeln!(f, "  key {}\n  scratch {}", bytes(key), room(scratch))?;
                writeln!(f, "  out {}", room(out))
            }
            Call::SingleAdd { key, scratch, table } | Call::MultiAdd { key, scratch, table } => {
                writeln!(f, "  key {}\n  scratch {}", bytes(key), room(scratch))?;
                writeln!(f, "  table {}", room(table))
            }
            Call::MultiMake {
                domain,
                buckets,
                hash_keys,
                points,
                values,
                words,
                scratch,
                key0,
                key1,
            } => {
                writeln!(f, "  domain {domain}\n  buckets {buckets}")?;
                writeln!(f, "  hash_keys {}", hex(hash_keys))?;
                writeln!(f, "  points {}\n  values {}", list(points), list(values))?;
                writeln!(f, "  words {}\n  scratch {}", list(words), room(scratch))?;
                writeln!(f, "  key0 {}\n  key1 {}", buffer(key0), buffer(key1))
            }
            Call::MultiAt { key, index, scratch } => {
                writeln!(f, "  key {}\n  index {index}\n  scratch {}", bytes(key), room(scratch))
            }
            Call::MultiRecord { key, bucket } => {
                writeln!(f, "  key {}\n  bucket {bucket}", bytes(key))
            }
            Call::Height { size } => writeln!(f, "  size {size}"),
            Call::Bucket { hash_key, buckets, item } => {
                writeln!(f, "  hash_key {}\n  buckets {buckets}\n  item {item}", hex(hash_key))
            }
            Call::Place { domain, buckets, hash_keys, points, scratch } => {
                writeln!(f, "  domain {domain}\n  buckets {buckets}")?;
                writeln!(f, "  hash_keys {}\n  points {}", hex(hash_keys), list(points))?;
                writeln!(f, "  scratch {}", room(scratch))
            }
            Call::Aes { key, block } => writeln!(f, "  key {}\n  block {}", hex(key), hex(block)),
            Call::Ccr { key, x } => writeln!(f, "  key {}\n  x {}", hex(key), list(x)),
            Call::Tree { x } => writeln!(f, "  x {}", list(x)),
        }
    }
}
