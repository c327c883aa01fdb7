//! `morgnet bench`: how long each call takes, how it grows, what memory it takes, how often placement
//! gives up; and the Rust beside it where the oracle is built. It prints these tables of docs/BENCH.md;
//! the blocks that were counted and the check time there were made by hand.

mod beside;
mod calls;
mod placement;

use crate::arguments::{Arguments, Known};
use crate::say::{counted, Say};
use morgnet::{face, Problem, Refusal};
use std::hint::black_box;
use std::time::{Duration, Instant};

pub const HELP: &str = "\
morgnet bench [--seconds S] [--largest K] [--draws N] [--oracle FOLDER]

Times every call of the library on made-up inputs, the same in every run: single keys over 2^12, 2^16
and 2^20 cells, multi keys of 1000 points over 2^14, 2^16, 2^18 and 2^20. A time is the least
processor time of several runs in one thread; buffers are lent, touched before, and not cleared
between runs. Where the oracle is built, it times the Rust and the library beside each other. Prints
the whole of docs/BENCH.md, which takes some minutes.

  --seconds S        about how long each call is tried (1 without it)
  --largest K        leave out tables above 2^K cells (20 without it)
  --draws N          draws of hash keys for 1000 points in the placement table, more for fewer and
                     fewer for more points (2000 without it; 0: no table)
  --oracle FOLDER    where the oracle's programs bench and bench_aes are, linked with this library
                     (oracle/target/release of this repository where they are there)

Examples
  morgnet bench --seconds 0.2 --largest 16
  morgnet bench --draws 100000 > docs/BENCH.md
";

pub const OPTIONS: &[Known] =
    &[("--seconds", true), ("--largest", true), ("--draws", true), ("--oracle", true)];

// As the source counts buckets for 1000 points, so that the oracle's table has the same.
const POINTS: usize = 1000;
const BUCKETS: u64 = 1783;
const CALLS: [&str; 4] = ["make", "one cell", "whole domain", "adding"];

/// Numbers that look like chance, the same in every run.
struct Sequence(u64);

impl Sequence {
    fn next(&mut self) -> u64 {
        self.0 ^= self.0 << 13;
        self.0 ^= self.0 >> 7;
        self.0 ^= self.0 << 17;
        self.0.wrapping_mul(2685821657736338717)
    }

    fn numbers(&mut self, count: usize) -> Vec<u64> {
        (0..count).map(|_| self.next()).collect()
    }

    fn hash_keys(&mut self) -> [u8; 48] {
        std::array::from_fn(|_| (self.next() >> 32) as u8)
    }

    fn rising(&mut self, count: usize, below: u64) -> Vec<u64> {
        let mut points = std::collections::BTreeSet::new();
        while points.len() < count {
            points.insert(self.next() % below);
        }
        points.into_iter().collect()
    }
}

/// The least processor time of a call, in nanoseconds: short calls in batches, three batches at least.
fn time<T>(budget: Duration, mut call: impl FnMut() -> T) -> f64 {
    let began = Instant::now();
    black_box(call());
    let batch = (200_000 / began.elapsed().as_nanos().max(1) + 1) as u32;
    let (mut least, mut runs) = (f64::MAX, 0);
    while runs < 3 || began.elapsed() < budget {
        let started = face::thread_time();
        for _ in 0..batch {
            black_box(call());
        }
        let took = face::thread_time() - started;
        least = least.min(took.as_nanos() as f64 / f64::from(batch));
        runs += 1;
    }
    least
}

fn wanted<T>(result: Result<T, Refusal>) -> Result<T, Problem> {
    result.map_err(|refusal| Problem::refused("the benchmark's own input", refusal))
}

/// Whether the time of a call goes over all cells.
fn over_cells(kind: &str, call: &str) -> bool {
    kind == "multi" || call == "whole domain" || call == "adding"
}

fn processor() -> String {
    let text = std::fs::read_to_string("/proc/cpuinfo").unwrap_or_default();
    let name = text.lines().find_map(|line| line.strip_prefix("model name")?.split_once(": "));
    name.map_or("unknown processor", |(_, name)| name).to_string()
}

const HEAD: &str = "# Measurements

Printed by `morgnet bench` (`--help` says more) where the oracle is built with the same library (`MORGNET_LIB=.. sh oracle/build.sh`).
Ratios are what counts: all columns of a table come from one run on one machine.

";

fn head(say: &mut Say) -> Result<(), Problem> {
    let processors = std::thread::available_parallelism().map_or(1, |n| n.get()) as u64;
    let (points, buckets) = (counted(POINTS as u64, "point"), counted(BUCKETS, "bucket"));
    say.text(HEAD)?;
    say.line(format!(
        "- Machine: {}, {}; {}.",
        processor(),
        counted(processors, "processor"),
        env!("RUST_VERSION")
    ))?;
    say.line("- Library: `tools/library`, compiled for plain x86-64 (no AES instructions); programs built for release.")?;
    say.line("- Times: the least processor time of several runs in one thread. Buffers are lent, touched before, and not cleared.")?;
    say.line(format!("- Multi keys have {points} in {buckets}, as the source counts buckets."))?;
    say.line("- Nothing is constant time: the cipher looks bytes up in a table by secret bytes.")
}

pub fn run(arguments: Arguments, say: &mut Say) -> Result<(), Problem> {
    arguments.no_files()?;
    let seconds = arguments.word_if("--seconds", "a number of seconds")?.unwrap_or(1.0f64);
    if !(0.0..=3600.0).contains(&seconds) {
        return Err(Problem::Usage("--seconds is 0 to 3600".into()));
    }
    let largest = arguments.number_if("--largest")?.unwrap_or(20);
    let draws = arguments.number_if("--draws")?.unwrap_or(2000);
    let oracle = match arguments.path_if("--oracle")? {
        Some(folder) => Some(beside::checked(folder)?),
        None => beside::there(),
    };
    head(say)?;
    match oracle {
        Some(folder) => beside::tables(say, &folder, seconds, largest)?,
        None => say.line("\nThe oracle is not built (oracle/build.sh): no column of the Rust.")?,
    }
    let mut any = Sequence(88172645463325252);
    calls::tables(say, Duration::from_secs_f64(seconds), largest, &mut any)?;
    match draws {
        0 => Ok(()),
        _ => placement::table(say, draws, &mut any),
    }
}
