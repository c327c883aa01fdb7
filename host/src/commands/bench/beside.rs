//! The Rust beside the library: the oracle's programs time both, on the same inputs, in one run.

use super::over_cells;
use crate::say::{self, Say};
use morgnet::progress::Progress;
use morgnet::Problem;
use std::path::{Path, PathBuf};
use std::process::{Command, Stdio};

/// The oracle's programs, where they are built: beside this program's own repository.
pub fn there() -> Option<PathBuf> {
    let own = std::env::current_exe().ok()?;
    let folders = own.ancestors().map(|up| up.join("oracle/target/release"));
    folders.into_iter().find(|folder| folder.join("bench").is_file())
}

/// The folder that the user named, where the oracle's programs must be.
pub fn checked(folder: PathBuf) -> Result<PathBuf, Problem> {
    match ["bench", "bench_aes"].into_iter().find(|name| !folder.join(name).is_file()) {
        None => Ok(folder),
        Some(name) => Err(Problem::new(format!("there is no {name} in {}", folder.display()))),
    }
}

/// What one of the oracle's programs prints.
fn printed(program: &Path, words: &[String]) -> Result<String, Problem> {
    let _line = Progress::steps(format!("running {}", program.display()), 1);
    let output = Command::new(program)
        .args(words)
        .stderr(Stdio::inherit())
        .output()
        .map_err(|e| Problem::file("cannot run", program, &e))?;
    if !output.status.success() {
        return Err(Problem::new(format!("{} failed: {}", program.display(), output.status)));
    }
    Ok(String::from_utf8_lossy(&output.stdout).into_owned())
}

/// A row of the oracle's table of calls: the call, what it is over, and the microseconds with software
/// AES, byte-wise AES, AES-NI, and of the library.
struct Row {
    call: String,
    size: String,
    columns: Vec<Option<f64>>,
}

/// The rows of the oracle's table.
fn rows(text: &str) -> Vec<Row> {
    let row = |line: &str| {
        let parts: Vec<&str> = line.trim().trim_matches('|').split('|').map(str::trim).collect();
        let (call, size) = (parts.first()?.to_string(), parts.get(1)?.to_string());
        size.strip_prefix("2^")?;
        let columns = parts.get(2..6)?.iter().map(|part| part.parse().ok()).collect();
        Some(Row { call, size, columns })
    };
    text.lines().filter_map(row).collect()
}

impl Row {
    /// Nanoseconds a cell for a microsecond of the call; none where the call does not go over all cells.
    fn each(&self) -> Option<f64> {
        let power = self.size.strip_prefix("2^")?.split(|c: char| !c.is_ascii_digit()).next()?;
        let cells = 1u64.checked_shl(power.parse().ok()?)?;
        let (kind, call) = self.call.split_once(": ")?;
        over_cells(kind, call).then_some(1000.0 / cells as f64)
    }

    fn line(&self) -> String {
        let shown = |n: &Option<f64>| match (n, self.each()) {
            (None, _) => "-".into(),
            (Some(us), Some(each)) => format!("{:.1}", us * each),
            (Some(us), None) => format!("{us:.2} us"),
        };
        let ratio = |of: &Option<f64>| match (self.columns[3], of) {
            (Some(ours), Some(of)) => format!("{:.2}", ours / of),
            _ => "-".into(),
        };
        let times: Vec<String> = self.columns.iter().map(shown).collect();
        let ratios: Vec<String> = self.columns[..3].iter().map(ratio).collect();
        format!(
            "| {} | {} | {} | {} |",
            self.call,
            self.size,
            times.join(" | "),
            ratios.join(" | ")
        )
    }
}

const CALLS: &str = "
## Beside the Rust

One process times each call with the Rust's three ciphers and with the library, in turns, on the same inputs, and compares what they
give. The Rust allocates what it returns; adding, in the Rust, is the whole domain and a loop. Software AES is RustCrypto's (Debian's
`aes` 0.6); byte-wise AES is FIPS 197 byte by byte with a table of 256 bytes, a round in one pass; AES-NI is the processor's. Each
call of the Rust and of the library expands its keys once.

Nanoseconds a cell; microseconds for the whole call where it does not go over all cells (us). The whole domain of a multi key, and
adding it, take 10.5 blocks a cell here and 7.5 in the Rust: it keeps the buckets of all cells in memory, where the library, which
has no room for them in its scratch, hashes each cell again. \"Hashes kept\": the Rust can keep them between calls too.

| call | cells, buckets, points | software AES | byte-wise AES | AES-NI | Morgnet | / software | / byte-wise | / AES-NI |
|---|---|---:|---:|---:|---:|---:|---:|---:|
";

const BLOCK: &str = "
## One block

Blocks in a chain, each the one before encrypted. The C face expands the key at each call, so it has no row without that.

";

/// Runs the oracle's programs and prints their tables.
pub fn tables(say: &mut Say, folder: &Path, seconds: f64, largest: u64) -> Result<(), Problem> {
    let text = printed(&folder.join("bench"), &[seconds.to_string(), largest.to_string()])?;
    let rows = rows(&text);
    say.text(CALLS)?;
    rows.iter().try_for_each(|row| say.line(row.line()))?;
    if rows.iter().all(|row| row.columns[3].is_none()) {
        say::note("the oracle's bench is built without the library: see oracle/build.sh");
    }
    let blocks = printed(&folder.join("bench_aes"), &[seconds.to_string()])?;
    say.text(BLOCK)?;
    say.text(&blocks)
}
