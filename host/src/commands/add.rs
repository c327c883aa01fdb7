//! `morgnet add`: key files to a table file.

use crate::arguments::{Arguments, Known};
use crate::commands::tell_unfinished;
use crate::say::{self, counted, seconds, Say};
use morgnet::files::{self, Kind, Whole};
use morgnet::keys::Key;
use morgnet::progress::Progress;
use morgnet::{memory, Problem, Refusal};
use std::path::{Path, PathBuf};
use std::time::Instant;

pub const HELP: &str = "\
morgnet add --table FILE [--new] KEY..

Adds to each cell of the table each key's share of it, modulo 2^64. All the keys are added, or none:
where one is refused, or the run is stopped, the table file stays as it was. When the keys are in it,
the last line says so. The same key given twice is added twice.

  --table FILE   the table: 8 bytes for each cell, little-endian
  --new          begin the table with zeros, as many cells as the first key has; no file may be there

A table of N cells takes 8 N bytes of memory, and adding 48 N more (16 N for single keys). A FILE named
.key is taken for a key and refused as a table.

Examples
  morgnet add --new --table a.table monday.0.key
  morgnet add --table a.table tuesday.0.key wednesday.0.key
";

pub const OPTIONS: &[Known] = &[("--table", true), ("--new", false)];

pub fn run(arguments: Arguments, say: &mut Say) -> Result<(), Problem> {
    let path = arguments.path("--table")?;
    let new = arguments.flag("--new");
    let keys = read_keys(arguments.files(1, "name the keys to add")?)?;
    let (mut file, mut table) = begin(&path, new, keys[0].1.cells)?;
    say.line(format!(
        "{} {}: {}",
        if new { "began " } else { "read  " },
        path.display(),
        counted(table.len() as u64, "cell")
    ))?;
    all_fit(&keys, table.len() as u64)?;
    add_all(&keys, &mut table, say)?;
    file.write_cells(&table)?;
    file.finish()?;
    say.line(format!("wrote  {}", path.display()))
        .map_err(|problem| Problem::new(format!("{problem}; {} is written", path.display())))
}

/// The keys, each with what to call it.
fn read_keys(names: Vec<PathBuf>) -> Result<Vec<(String, Key)>, Problem> {
    let named = |name: PathBuf| {
        let key = Key::read(&name)?;
        Ok((format!("{} ({})", name.display(), key.about()), key))
    };
    names.into_iter().map(named).collect()
}

/// The table, and the file that it will be written to: from here on no other run changes it.
fn begin(path: &Path, new: bool, cells: u64) -> Result<(Whole, Vec<u64>), Problem> {
    files::no_key(path)?;
    if new == path.exists() {
        let text = match new {
            true => "is there already; without --new the keys are added to it",
            false => "is not there; --new begins a table of zeros",
        };
        return Err(Problem::new(format!("{} {text}", path.display())));
    }
    let file = Whole::begin(path, if new { Kind::New } else { Kind::Replace })?;
    tell_unfinished(&file);
    let table = match new {
        true => memory::zeros(cells, "the new table")?,
        false => files::read_table(path)?,
    };
    Ok((file, table))
}

/// Every key is for a table of so many cells. Keys of both parties are told.
fn all_fit(keys: &[(String, Key)], cells: u64) -> Result<(), Problem> {
    if let Some((name, _)) = keys.iter().find(|(_, key)| key.cells != cells) {
        return Err(Problem::refused(name, Refusal::Table));
    }
    if keys.iter().any(|(_, key)| key.party != keys[0].1.party) {
        say::note("keys of both parties go into one table: it will hold values in clear");
    }
    Ok(())
}

/// Adds the keys, one after the other.
fn add_all(keys: &[(String, Key)], table: &mut [u64], say: &mut Say) -> Result<(), Problem> {
    let most = keys.iter().map(|(_, key)| key.scratch()).max().unwrap_or(0);
    let mut scratch = memory::zeros(most, "adding")?;
    for (i, (name, key)) in keys.iter().enumerate() {
        let started = Instant::now();
        {
            let what = format!("adding key {} of {}", i + 1, keys.len());
            let _line = Progress::of(what, key.blocks_to_add());
            key.add_to(&mut scratch, table).map_err(|refusal| Problem::refused(name, refusal))?;
        }
        say.line(format!("added  {name}, in {}", seconds(started.elapsed())))?;
    }
    Ok(())
}
