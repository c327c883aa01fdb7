//! `morgnet make`: a posting into two key files.

use crate::arguments::{Arguments, Known};
use crate::commands::tell_unfinished;
use crate::say::{self, counted, grouped, seconds, Say};
use morgnet::files::{Kind, Whole};
use morgnet::keys::{self, Pair};
use morgnet::posting::Posting;
use morgnet::progress::Progress;
use morgnet::Problem;
use std::ffi::OsString;
use std::path::{Path, PathBuf};
use std::time::Instant;

pub const HELP: &str = "\
morgnet make --cells N --posting FILE --out NAME [--buckets B] [--tries T] [--force]
morgnet make --cells N --point CELL,VALUE --out NAME [--force]

Makes the two keys of a posting: NAME.0.key for one partner, NAME.1.key for the other. Random words
and hash keys come from the system.

  --cells N            cells of the table: up to 4294967295, or 17179869184 with --point
  --posting FILE       lines 'cell,value', in any order, no cell twice, at most 65,535 lines
  --point CELL,VALUE   one override, as a single key: shorter, and quicker to add
  --out NAME           where the keys go: NAME.0.key and NAME.1.key, which only you may read
  --buckets B          buckets of the keys, at most 65,535; without it 9 for 5 lines and 48 more
  --tries T            how often hash keys are drawn where the lines do not fit into the buckets
                       (20 without it); how often it was is told
  --force              replace keys of that name

A line of another form, a cell outside the table or a cell that stands twice is told with its line,
and nothing is written.

Examples
  morgnet make --cells 100000 --posting monday.csv --out monday
  morgnet make --cells 10000000000 --point 4915112345,7 --out fix
";

pub const OPTIONS: &[Known] = &[
    ("--cells", true),
    ("--posting", true),
    ("--point", true),
    ("--out", true),
    ("--buckets", true),
    ("--tries", true),
    ("--force", false),
];

/// The two files of a pair.
pub fn names(out: &Path) -> [PathBuf; 2] {
    [".0.key", ".1.key"].map(|end| {
        let mut name = OsString::from(out);
        name.push(end);
        PathBuf::from(name)
    })
}

pub fn run(arguments: Arguments, say: &mut Say) -> Result<(), Problem> {
    arguments.no_files()?;
    let cells = arguments.number("--cells")?;
    let out = arguments.path("--out")?;
    match (arguments.path_if("--posting")?, arguments.has("--point")) {
        (Some(_), true) => Err(Problem::Usage("give --posting or --point, not both".into())),
        (None, false) => Err(Problem::Usage("give --posting FILE or --point CELL,VALUE".into())),
        (None, true) => of_point(&arguments, cells, &out, say),
        (Some(posting), false) => of_posting(&arguments, cells, &posting, &out, say),
    }
}

/// One override, as single keys.
fn of_point(arguments: &Arguments, cells: u64, out: &Path, say: &mut Say) -> Result<(), Problem> {
    if arguments.has("--buckets") || arguments.has("--tries") {
        return Err(Problem::Usage("--point makes a key without buckets".into()));
    }
    let (cell, value) = arguments.pair("--point")?;
    let files = Files::begin(out, arguments.flag("--force"))?;
    let started = Instant::now();
    let pair = keys::make_single(cells, cell, value)?;
    let took = started.elapsed();
    files.write(&pair)?;
    say.line(format!(
        "made   2 single keys over {}, {} bytes each, in {}",
        counted(cells, "cell"),
        grouped(pair.images[0].len() as u64),
        seconds(took)
    ))?;
    told(out, say)
}

/// The overrides of a file, as multi keys.
fn of_posting(
    arguments: &Arguments,
    cells: u64,
    posting: &Path,
    out: &Path,
    say: &mut Say,
) -> Result<(), Problem> {
    let tries = arguments.number_if("--tries")?.unwrap_or(keys::TRIES);
    if tries == 0 {
        return Err(Problem::Usage("--tries is at least 1".into()));
    }
    let posted = Posting::read(posting, cells)?;
    let count = posted.points.len() as u64;
    let buckets = arguments.number_if("--buckets")?.unwrap_or(keys::default_buckets(count));
    say.line(format!("read   {}: {}", posting.display(), counted(count, "override")))?;
    let files = Files::begin(out, arguments.flag("--force"))?;
    let started = Instant::now();
    let pair = {
        let _line = Progress::of("making keys", 3 * cells + 80 * buckets);
        keys::make_multi(cells, buckets, &posted.points, &posted.values, tries)?
    };
    let took = started.elapsed();
    files.write(&pair)?;
    say.line(format!(
        "made   2 keys over {} in {}, {} bytes each, in {}",
        counted(cells, "cell"),
        counted(buckets, "bucket"),
        grouped(pair.images[0].len() as u64),
        seconds(took)
    ))?;
    say.line(format!(
        "       hash keys drawn {}, {}",
        counted(pair.draws, "time"),
        counted(pair.evictions, "eviction")
    ))?;
    told(out, say)
}

fn told(out: &Path, say: &mut Say) -> Result<(), Problem> {
    for (party, name) in names(out).iter().enumerate() {
        say.line(format!("wrote  {}   for partner {party} alone", name.display()))?;
    }
    Ok(())
}

/// Both key files of a pair, on their way.
pub struct Files([Whole; 2]);

impl Files {
    /// Begins both, so that what stands in the way is told before the work.
    pub fn begin(out: &Path, force: bool) -> Result<Files, Problem> {
        let names = names(out);
        let there = names.each_ref().map(|name| name.exists());
        if !force && there[0] != there[1] {
            let (one, other) = if there[0] { (0, 1) } else { (1, 0) };
            return Err(Problem::new(format!(
                "{} is there and {} is not: a run was stopped between the two, or one was moved; \
                 name another, or say --force to make both anew",
                names[one].display(),
                names[other].display()
            )));
        }
        let kind = if force { Kind::Key } else { Kind::NewKey };
        let files = [Whole::begin(&names[0], kind)?, Whole::begin(&names[1], kind)?];
        files.iter().for_each(tell_unfinished);
        Ok(Files(files))
    }

    /// Puts both at their places. Both are on the disk before anything changes there; then a second key
    /// that is to be replaced goes first, so that never two keys stand there that are no pair.
    pub fn write(self, pair: &Pair) -> Result<(), Problem> {
        let [mut first, mut second] = self.0;
        first.write(&pair.images[0])?;
        second.write(&pair.images[1])?;
        first.sync()?;
        second.sync()?;
        let replaced = second.clear()?;
        let name = first.target().to_path_buf();
        let alone = |_: &Problem| drop(std::fs::remove_file(&name));
        let put = first.finish().and_then(|()| second.finish().inspect_err(alone));
        put.inspect_err(|_| {
            if replaced {
                say::note(
                    "the keys that were to be replaced are no pair any more: make both again",
                );
            }
        })
    }
}
