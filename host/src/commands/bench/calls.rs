//! The library's calls by themselves: how long they take, how that grows, and what memory they take.

use super::{over_cells, time, wanted, Sequence, BUCKETS, CALLS, POINTS};
use crate::say::{grouped, Say};
use morgnet::progress::Progress;
use morgnet::{face, memory, Problem, Refusal};
use std::time::Duration;

const SINGLE: [u32; 3] = [12, 16, 20];
const MULTI: [u32; 4] = [14, 16, 18, 20];

const GROWTH: &str = "
## How the cost grows

The library alone. A tree over S cells has the least height h with 2^h at least S: making a single key and reading one cell of it
grow with h, everything else with the number of cells. A cell of a single key costs 1.5 tree hashes. A cell of a multi key costs 3
bucket hashes where the buckets are counted (making, one cell), and 6 and 4.5 tree hashes where all cells are read; a tree over
an odd number of cells takes one tree hash more.

";

/// What was measured of one table size.
struct Measured {
    cells: u64,
    /// Nanoseconds of each call of [`CALLS`].
    times: [f64; 4],
    /// The most memory that the process had, where the system tells, and what was lent for adding.
    peak: Option<u64>,
    lent: u64,
}

fn single(k: u32, budget: Duration, any: &mut Sequence) -> Result<Measured, Problem> {
    let cells = 1u64 << k;
    let (point, value, words) = (any.next() % cells, any.next(), any.numbers(4));
    let (mut key0, mut key1) = (vec![1; 592], vec![1; 592]);
    let mut make = || face::single_generate_keys(cells, point, value, &words, &mut key0, &mut key1);
    let length = wanted(make())?.length;
    let making = time(budget, make);
    let key = key0[..length].to_vec();
    memory::forget_peak();
    let n = cells as usize;
    let (mut scratch, mut table) = (vec![1; 2 * n], vec![1; n]);
    let index = any.next() % cells;
    let adding = time(budget, || face::single_add_to(&key, &mut scratch, &mut table));
    let peak = memory::peak();
    let one = time(budget, || face::single_evaluate_at(&key, index));
    let whole = time(budget, || face::single_evaluate_domain(&key, &mut scratch, &mut table));
    let lent = 8 * 3 * cells + key.len() as u64;
    Ok(Measured { cells, times: [making, one, whole, adding], peak, lent })
}

/// A multi key over 2^k cells, and how long making it took.
fn multi_key(k: u32, budget: Duration, any: &mut Sequence) -> Result<(Vec<u8>, f64), Problem> {
    let (cells, buckets) = (1u64 << k, BUCKETS as usize);
    let points = any.rising(POINTS, cells);
    let (values, words) = (any.numbers(POINTS), any.numbers(4 * buckets));
    let mut scratch = vec![1; 4 * buckets + POINTS];
    let (mut key0, mut key1) = (vec![1; 72 + 592 * buckets], vec![1; 72 + 592 * buckets]);
    let mut make = |keys: &[u8; 48]| {
        face::multi_generate_keys(
            cells,
            BUCKETS,
            keys,
            &points,
            &values,
            &words,
            &mut scratch,
            &mut key0,
            &mut key1,
        )
    };
    let (hash_keys, made) = loop {
        let drawn = any.hash_keys();
        match make(&drawn) {
            Err(Refusal::Place) => {}
            made => break (drawn, wanted(made)?),
        }
    };
    let making = time(budget, || make(&hash_keys));
    key0.truncate(made.length);
    Ok((key0, making))
}

fn multi(k: u32, budget: Duration, any: &mut Sequence) -> Result<Measured, Problem> {
    let cells = 1u64 << k;
    let (key, making) = multi_key(k, budget, any)?;
    memory::forget_peak();
    let n = cells as usize;
    let needed = 6 * n + 2 * BUCKETS as usize;
    let (mut scratch, mut table) = (vec![1; needed], vec![1; n]);
    let index = any.next() % cells;
    let adding = time(budget, || face::multi_add_to(&key, &mut scratch, &mut table));
    let peak = memory::peak();
    let one = time(budget, || face::multi_evaluate_at(&key, index, &mut scratch));
    let whole = time(budget, || face::multi_evaluate_domain(&key, &mut scratch, &mut table));
    let lent = 8 * (needed + n) as u64 + key.len() as u64;
    Ok(Measured { cells, times: [making, one, whole, adding], peak, lent })
}

/// Three or four digits, for a column of times in microseconds.
fn micros(nanos: f64) -> String {
    match nanos / 1000.0 {
        us if us < 10.0 => format!("{us:.2}"),
        us if us < 1000.0 => format!("{us:.1}"),
        us => grouped(us as u64),
    }
}

/// The rows of one call over rising sizes.
fn rows(say: &mut Say, kind: &str, i: usize, sizes: &[Measured]) -> Result<(), Problem> {
    let mut before: Option<&Measured> = None;
    for size in sizes {
        let (call, time) = (CALLS[i], size.times[i]);
        let each = match over_cells(kind, call) {
            true => format!("{:.1}", time / size.cells as f64),
            false => "-".into(),
        };
        let grows = before.map_or("-".into(), |less| {
            format!("{:.2} for {} times the cells", time / less.times[i], size.cells / less.cells)
        });
        let power = size.cells.trailing_zeros();
        say.line(format!("| {kind}: {call} | 2^{power} | {} | {each} | {grows} |", micros(time)))?;
        before = Some(size);
    }
    Ok(())
}

fn growth(say: &mut Say, kinds: &[(&str, Vec<Measured>)]) -> Result<(), Problem> {
    say.text(GROWTH)?;
    say.line("| call | cells | us | ns a cell | times as long |")?;
    say.line("|---|---:|---:|---:|---:|")?;
    for (kind, sizes) in kinds {
        for i in 0..CALLS.len() {
            rows(say, kind, i, sizes)?;
        }
    }
    Ok(())
}

fn memory_taken(say: &mut Say, kinds: &[(&str, Vec<Measured>)]) -> Result<(), Problem> {
    say.line("\n## Memory\n")?;
    say.line(
        "The library allocates nothing. Lent for adding: the key, the scratch and the table.\n",
    )?;
    say.line("| key | cells | lent, bytes | bytes a cell | most that the process had |")?;
    say.line("|---|---:|---:|---:|---:|")?;
    for (kind, sizes) in kinds {
        for size in sizes {
            say.line(format!(
                "| {kind} | 2^{} | {} | {:.1} | {} |",
                size.cells.trailing_zeros(),
                grouped(size.lent),
                size.lent as f64 / size.cells as f64,
                size.peak.map_or("-".into(), memory::size)
            ))?;
        }
    }
    Ok(())
}

/// Measures all, and prints both tables.
pub fn tables(
    say: &mut Say,
    budget: Duration,
    largest: u64,
    any: &mut Sequence,
) -> Result<(), Problem> {
    let fits = |k: &u32| u64::from(*k) <= largest;
    let all = SINGLE.iter().chain(&MULTI).filter(|k| fits(k)).count() as u64;
    let mut kinds = [("single", vec![]), ("multi", vec![])];
    {
        let progress = Progress::steps("timing the library", all);
        for k in SINGLE.into_iter().filter(fits) {
            kinds[0].1.push(single(k, budget, any)?);
            progress.at(kinds[0].1.len() as u64);
        }
        for k in MULTI.into_iter().filter(fits) {
            kinds[1].1.push(multi(k, budget, any)?);
            progress.at((kinds[0].1.len() + kinds[1].1.len()) as u64);
        }
    }
    growth(say, &kinds)?;
    memory_taken(say, &kinds)
}
