//! `morgnet sum`: the partners' tables into one.

use crate::arguments::{Arguments, Known};
use crate::commands::tell_unfinished;
use crate::say::{counted, grouped, Say};
use morgnet::files::{self, Kind, TableFile, Whole};
use morgnet::progress::Progress;
use morgnet::Problem;
use std::path::PathBuf;

pub const HELP: &str = "\
morgnet sum [--out FILE] [--list] [--force] TABLE TABLE..

Sums tables cell by cell, modulo 2^64. The two partners' tables give the values posted.

  --out FILE   where the sums go, as a table
  --list       print the cells that are not 0, as lines 'cell,value'
  --force      replace the file that is there

At least one of --out and --list.

Examples
  morgnet sum --out sum.table a.table b.table
  morgnet sum --list a.table b.table > overrides.csv
";

pub const OPTIONS: &[Known] = &[("--out", true), ("--list", false), ("--force", false)];

// Cells that are summed at a time.
const CHUNK: usize = 1 << 17;

pub fn run(arguments: Arguments, say: &mut Say) -> Result<(), Problem> {
    let names = arguments.files(2, "name the tables to sum, at least two")?;
    let (out, list) = (arguments.path_if("--out")?, arguments.flag("--list"));
    if out.is_none() && !list {
        return Err(Problem::Usage("say --out FILE or --list, or both".into()));
    }
    let mut tables = open(&names)?;
    let kind = if arguments.flag("--force") { Kind::Replace } else { Kind::New };
    let mut file = out.as_ref().map(|out| Whole::begin(out, kind)).transpose()?;
    file.iter().for_each(tell_unfinished);
    let set = sum(&mut tables, file.as_mut(), list.then_some(&mut *say))?;
    let (Some(file), Some(out)) = (file, out) else { return Ok(()) };
    file.finish()?;
    if list {
        return Ok(());
    }
    let cells = tables[0].cells;
    say.line(format!(
        "summed {} of {}",
        counted(names.len() as u64, "table"),
        counted(cells, "cell")
    ))?;
    say.line(format!(
        "wrote  {}: {} of {} cells are not 0",
        out.display(),
        grouped(set),
        grouped(cells)
    ))
}

/// The tables, all of one size.
fn open(names: &[PathBuf]) -> Result<Vec<TableFile>, Problem> {
    names.iter().try_for_each(|name| files::no_key(name))?;
    let tables = names.iter().map(|name| TableFile::open(name)).collect::<Result<Vec<_>, _>>()?;
    let cells = tables[0].cells;
    if let Some(i) = tables.iter().position(|table| table.cells != cells) {
        return Err(Problem::new(format!(
            "{} has {} and {} has {}: they are no tables of one posting",
            names[0].display(),
            counted(cells, "cell"),
            names[i].display(),
            counted(tables[i].cells, "cell")
        )));
    }
    Ok(tables)
}

/// Sums the tables, part by part, into a file and as lines for a person, as asked. Gives how many cells
/// are not 0.
fn sum(
    tables: &mut [TableFile],
    mut file: Option<&mut Whole>,
    mut list: Option<&mut Say>,
) -> Result<u64, Problem> {
    let (mut sums, mut next) = (vec![0; CHUNK], vec![0; CHUNK]);
    let (mut done, mut set) = (0, 0u64);
    let progress = list.is_none().then(|| Progress::steps("summing", tables[0].cells));
    while done < tables[0].cells {
        let count = tables[0].next(&mut sums)?;
        for table in &mut tables[1..] {
            table.next(&mut next[..count])?;
            sums.iter_mut().zip(&next).for_each(|(sum, cell)| *sum = sum.wrapping_add(*cell));
        }
        let sums = &sums[..count];
        set += sums.iter().filter(|sum| **sum != 0).count() as u64;
        if let Some(say) = &mut list {
            say.text(&lines(done, sums))?;
        }
        if let Some(file) = &mut file {
            file.write_cells(sums)?;
        }
        done += count as u64;
        progress.iter().for_each(|line| line.at(done));
    }
    Ok(set)
}

/// A line 'cell,value' for each cell that is not 0, from a cell on.
fn lines(first: u64, sums: &[u64]) -> String {
    let rows = (first..).zip(sums).filter(|(_, sum)| **sum != 0);
    rows.map(|(cell, sum)| format!("{cell},{sum}\n")).collect()
}
