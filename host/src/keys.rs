//! Pairs of keys made with random words from the system; keys read from bytes, and added to tables.

use crate::{face, files, memory, random, Problem, Refusal};
use std::path::Path;

/// The most cells of a multi key's table.
pub const MOST_MULTI: u64 = (1 << 32) - 1;
/// The most buckets.
const MOST_BUCKETS: u64 = 65_535;
/// How often hash keys are drawn for one posting, unless the user says otherwise.
pub const TRIES: u64 = 20;

/// The bucket count for `points` points, unless the user names one: 9 buckets for 5 points and 48 more,
/// at most 65,535. Placement then seldom gives up: measured, once in 114,000 draws of hash keys for 2
/// points, seldomer for 3 to 5, and in none of those tried for 10 to 58,000 (docs/BENCH.md). Above 60,000
/// points they do not fit into 65,535 buckets.
pub fn default_buckets(points: u64) -> u64 {
    (points.saturating_mul(9).div_ceil(5)).saturating_add(48).min(MOST_BUCKETS)
}

/// Which kind of key an image is.
#[derive(Clone, Copy, Debug, PartialEq, Eq)]
pub enum Kind {
    Single,
    Multi,
}

/// A key that the library accepts.
#[derive(Clone, Debug)]
pub struct Key {
    image: Vec<u8>,
    pub kind: Kind,
    /// 0 or 1.
    pub party: u64,
    /// The number of cells of its table.
    pub cells: u64,
    /// The number of buckets; 0 for a single key.
    pub buckets: u64,
    /// The number of points posted; 1 for a single key.
    pub points: u64,
}

fn field(image: &[u8], at: usize, bytes: usize) -> u64 {
    image[at..at + bytes].iter().rev().fold(0, |n, b| n << 8 | u64::from(*b))
}

impl Key {
    /// Takes an image, of either kind.
    ///
    /// # Errors
    /// [`Refusal::Key`] where it is neither.
    pub fn new(image: Vec<u8>) -> Result<Key, Refusal> {
        // an image that both readers take would have 8 buckets and a hash key whose upper half is
        // below 4; a made one has that once in 2^62, and is then read as the multi key that it is
        if face::multi_record(&image, 0).is_ok() {
            let (party, buckets) = (field(&image, 0, 4), field(&image, 4, 4));
            let (cells, points) = (field(&image, 8, 8), field(&image, 16, 4));
            return Ok(Key { image, kind: Kind::Multi, party, cells, buckets, points });
        }
        face::single_evaluate_at(&image, 0)?;
        let (party, cells) = (field(&image, 0, 4), field(&image, 8, 8));
        Ok(Key { image, kind: Kind::Single, party, cells, buckets: 0, points: 1 })
    }

    /// Reads a key file.
    ///
    /// # Errors
    /// Where it cannot be read, or is no key.
    pub fn read(path: &Path) -> Result<Key, Problem> {
        let image = files::front(path, files::LONGEST_KEY + 1)?;
        let length = image.len();
        Key::new(image).map_err(|refusal| {
            let bytes = match length > files::LONGEST_KEY {
                true => "longer than any key".into(),
                false => format!("{length} bytes"),
            };
            Problem::refused(format!("{} ({bytes})", path.display()), refusal)
        })
    }

    /// The bytes of the image.
    pub fn image(&self) -> &[u8] {
        &self.image
    }

    /// What it is, for a person.
    pub fn about(&self) -> String {
        let (party, cells) = (self.party, self.cells);
        match self.kind {
            Kind::Single => format!("party {party}, single key over {cells} cells"),
            Kind::Multi => format!(
                "party {party}, {} points in {} buckets over {cells} cells",
                self.points, self.buckets
            ),
        }
    }

    /// The scratch that adding it needs, in elements.
    pub fn scratch(&self) -> u64 {
        match self.kind {
            Kind::Single => 2 * self.cells,
            Kind::Multi => 6 * self.cells + 2 * self.buckets,
        }
    }

    /// About how many AES blocks adding it takes.
    pub fn blocks_to_add(&self) -> u64 {
        match self.kind {
            Kind::Single => self.cells * 3 / 2,
            Kind::Multi => self.cells * 21 / 2,
        }
    }

    /// About how many AES blocks reading one cell takes.
    pub fn blocks_to_read(&self) -> u64 {
        match self.kind {
            Kind::Single => 64,
            Kind::Multi => self.cells * 3,
        }
    }

    /// Adds the key's shares to a table, modulo 2^64.
    ///
    /// # Errors
    /// [`Refusal::Table`], [`Refusal::Scratch`], [`Refusal::Mismatch`]; the table is then as it was.
    pub fn add_to(&self, scratch: &mut [u64], table: &mut [u64]) -> Result<(), Refusal> {
        match self.kind {
            Kind::Single => face::single_add_to(&self.image, scratch, table),
            Kind::Multi => face::multi_add_to(&self.image, scratch, table),
        }
    }

    /// The share of one cell.
    ///
    /// # Errors
    /// [`Refusal::Index`], [`Refusal::Mismatch`].
    pub fn share_of(&self, cell: u64) -> Result<u64, Refusal> {
        match self.kind {
            Kind::Single => face::single_evaluate_at(&self.image, cell),
            Kind::Multi => {
                let mut scratch = vec![0; self.buckets as usize];
                face::multi_evaluate_at(&self.image, cell, &mut scratch)
            }
        }
    }
}

/// A pair of keys, as images, and how it was made.
#[derive(Clone, Debug)]
pub struct Pair {
    pub images: [Vec<u8>; 2],
    /// How often hash keys were drawn; 0 for single keys.
    pub draws: u64,
    /// How often a point moved on to its next bucket.
    pub evictions: u64,
}

/// The two keys of one point.
///
/// # Errors
/// [`Refusal::Domain`] and [`Refusal::Point`], told in words; or the system has no random bytes.
pub fn make_single(cells: u64, point: u64, value: u64) -> Result<Pair, Problem> {
    let words = random::numbers(4)?;
    let mut images = [vec![0; 592], vec![0; 592]];
    let [key0, key1] = &mut images;
    let made = face::single_generate_keys(cells, point, value, &words, key0, key1)
        .map_err(|refusal| Problem::refused("making the keys", refusal))?;
    for image in &mut images {
        image.truncate(made.length);
    }
    Ok(Pair { images, draws: 0, evictions: 0 })
}

/// Room for every image over so many cells and buckets, in bytes.
fn room(cells: u64, buckets: u64) -> u64 {
    let height = face::height(3 * cells).unwrap_or(34).max(1);
    72 + buckets * (8 + 56 + 16 * (height - 1))
}

/// A posting that keys are to be made of.
#[derive(Clone, Copy, Debug)]
struct Wanted<'a> {
    cells: u64,
    buckets: u64,
    points: &'a [u64],
    values: &'a [u64],
}

/// What making lends to the library, the same at every draw of hash keys.
struct Lent {
    words: Vec<u64>,
    scratch: Vec<u64>,
    images: [Vec<u8>; 2],
}

impl Lent {
    fn new(wanted: Wanted) -> Result<Lent, Problem> {
        let Wanted { cells, buckets, points, .. } = wanted;
        let room = room(cells, buckets);
        Ok(Lent {
            words: random::numbers(4 * buckets as usize)?,
            scratch: memory::zeros(4 * buckets + points.len() as u64, "making the keys")?,
            images: [memory::zeros(room, "one key")?, memory::zeros(room, "one key")?],
        })
    }

    fn make(&mut self, wanted: Wanted, hash_keys: &[u8; 48]) -> Result<face::MadeMulti, Refusal> {
        let Wanted { cells, buckets, points, values } = wanted;
        let Lent { words, scratch, images: [key0, key1] } = self;
        face::multi_generate_keys(
            cells, buckets, hash_keys, points, values, words, scratch, key0, key1,
        )
    }
}

/// The two keys of a posting. Where placement gives up, it draws fresh hash keys, at most `tries`
/// times in all.
///
/// # Errors
/// [`Refusal::Domain`], [`Refusal::Buckets`], [`Refusal::Count`], [`Refusal::Point`], told in words;
/// [`Refusal::Place`] where placement gave up at every try; or the system gives no random bytes.
pub fn make_multi(
    cells: u64,
    buckets: u64,
    points: &[u64],
    values: &[u64],
    tries: u64,
) -> Result<Pair, Problem> {
    make_multi_with(cells, buckets, points, values, tries, random::hash_keys)
}

/// The same, with hash keys from elsewhere.
///
/// # Errors
/// As [`make_multi`].
pub fn make_multi_with(
    cells: u64,
    buckets: u64,
    points: &[u64],
    values: &[u64],
    tries: u64,
    mut hash_keys: impl FnMut() -> Result<[u8; 48], Problem>,
) -> Result<Pair, Problem> {
    // the limits first: what is lent below is measured by them
    let refused = |refusal| Err(Problem::refused("making the keys", refusal));
    if cells == 0 || cells > MOST_MULTI {
        return refused(Refusal::Domain);
    }
    if buckets == 0 || buckets > MOST_BUCKETS {
        return refused(Refusal::Buckets);
    }
    let wanted = Wanted { cells, buckets, points, values };
    let mut lent = Lent::new(wanted)?;
    for draws in 1..=tries {
        match lent.make(wanted, &hash_keys()?) {
            Ok(made) => {
                lent.images.iter_mut().for_each(|image| image.truncate(made.length));
                return Ok(Pair { images: lent.images, draws, evictions: made.evictions });
            }
            Err(Refusal::Place) => {}
            Err(refusal) => return refused(refusal),
        }
    }
    let count = points.len();
    let about =
        format!("making the keys, {count} points in {buckets} buckets, {tries} draws of hash keys");
    Err(Problem::refused(about, Refusal::Place))
}
