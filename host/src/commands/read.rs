//! `morgnet read`: one cell of keys or tables.

use crate::arguments::{Arguments, Known};
use crate::say::Say;
use morgnet::keys::Key;
use morgnet::progress::Progress;
use morgnet::{files, Problem};
use std::path::{Path, PathBuf};

pub const HELP: &str = "\
morgnet read --cell X [--keys | --tables] FILE..

Reads one cell: of a table file what it holds, of a key file the key's share. Of several files the sum
modulo 2^64 follows: the value posted, for the two keys of a pair; the value that both tables hold
together, for the two partners' tables.

  --cell X    the cell, from 0
  --keys      take every FILE as a key
  --tables    take every FILE as a table

Without these two, a FILE whose name ends in .key is a key, and any other a table.

Examples
  morgnet read --cell 404 a.table b.table
  morgnet read --cell 404 monday.0.key monday.1.key
";

pub const OPTIONS: &[Known] = &[("--cell", true), ("--keys", false), ("--tables", false)];

/// The cell in a key file, and what the key is.
fn share(path: &Path, cell: u64) -> Result<(u64, String), Problem> {
    let key = Key::read(path)?;
    let about = key.about();
    let _line = Progress::of("reading", key.blocks_to_read());
    let share = key.share_of(cell).map_err(|refusal| {
        Problem::refused(format!("{} ({about}), cell {cell}", path.display()), refusal)
    })?;
    Ok((share, format!("key of {about}")))
}

pub fn run(arguments: Arguments, say: &mut Say) -> Result<(), Problem> {
    let cell = arguments.number("--cell")?;
    let names = arguments.files(1, "name the files to read")?;
    let (keys, tables) = (arguments.flag("--keys"), arguments.flag("--tables"));
    if keys && tables {
        return Err(Problem::Usage("give --keys or --tables, not both".into()));
    }
    let look = |name: &PathBuf| match keys || !tables && files::is_key(name) {
        true => share(name, cell),
        false => Ok((files::read_cell(name, cell)?, "table".into())),
    };
    let found = names.iter().map(look).collect::<Result<Vec<_>, Problem>>()?;
    for (name, (value, about)) in names.iter().zip(&found) {
        say.line(format!("{value:>20}  {}: {about}", name.display()))?;
    }
    if found.len() > 1 {
        let sum = found.iter().fold(0u64, |sum, (value, _)| sum.wrapping_add(*value));
        say.line(format!("{sum:>20}  sum modulo 2^64, cell {cell}"))?;
    }
    Ok(())
}
