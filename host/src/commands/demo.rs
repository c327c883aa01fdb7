//! `morgnet demo`: a posting from the desk to the summed tables, on made-up overrides.

use crate::arguments::{Arguments, Known};
use crate::commands::make;
use crate::say::{counted, grouped, seconds, Say};
use morgnet::files::{self, Kind, Whole};
use morgnet::keys::{self, Key, Pair};
use morgnet::posting::Posting;
use morgnet::progress::Progress;
use morgnet::{face, memory, Problem, Refusal};
use std::collections::BTreeMap;
use std::fs;
use std::path::{Path, PathBuf};
use std::time::Instant;

pub const HELP: &str = "\
morgnet demo [--folder DIR] [--cells N]

Runs the main job on made-up route overrides: the desk makes keys of three postings, two partners add
them at the same time and in different orders, with calls between that are refused, the halves are
summed and every cell is compared with the plain table, and one cell is read for a complaint.

  --folder DIR   where the files go ('morgnet-demo' without it); made anew, or an earlier demo's
  --cells N      cells of the table, at least 5000 (100000 without it)

Example
  morgnet demo --folder demo
";

pub const OPTIONS: &[Known] = &[("--folder", true), ("--cells", true)];

// Stands in a folder that is a demo's.
const MARK: &str = ".morgnet-demo";
// Where the number ranges with overrides begin, in thousandths of the table, and how many each has.
const RANGES: [(u64, u64); 5] = [(52, 40), (231, 110), (402, 25), (618, 95), (877, 30)];
const COLUMNS: u64 = 60;

/// Numbers that look like chance and are the same in every demo.
struct Sequence(u64);

impl Sequence {
    fn below(&mut self, bound: u64) -> u64 {
        self.0 = self.0.wrapping_mul(6364136223846793005).wrapping_add(1442695040888963407);
        (self.0 >> 33) % bound
    }
}

/// One posting of the demo: its name, why it is made, and what it has.
struct Job {
    name: &'static str,
    why: &'static str,
    posting: Posting,
}

impl Job {
    /// Its keys: single ones where it has one override.
    fn pair(&self, cells: u64) -> Result<Pair, Problem> {
        let Posting { points, values } = &self.posting;
        if let ([point], [value]) = (&points[..], &values[..]) {
            return keys::make_single(cells, *point, *value);
        }
        let buckets = keys::default_buckets(points.len() as u64);
        keys::make_multi(cells, buckets, points, values, keys::TRIES)
    }
}

fn posting(rows: BTreeMap<u64, u64>) -> Posting {
    let (points, values) = rows.into_iter().unzip();
    Posting { points, values }
}

/// The demo's postings: overrides in a few ranges, a correction of some of them, one urgent override.
fn jobs(cells: u64) -> Vec<Job> {
    let mut any = Sequence(2024);
    let mut monday = BTreeMap::new();
    for (from, count) in RANGES {
        let start = cells * from / 1000;
        let wide = (cells / 50).max(2 * count);
        let before = monday.len();
        while monday.len() < before + count as usize {
            monday.insert((start + any.below(wide)).min(cells - 1), 100 + any.below(900));
        }
    }
    // one carrier takes over from another: the difference is posted, modulo 2^64
    let mut tuesday = BTreeMap::new();
    for (cell, value) in monday.iter().step_by(8) {
        tuesday.insert(*cell, 777u64.wrapping_sub(*value));
    }
    let urgent = BTreeMap::from([(cells * 3 / 4, 911)]);
    vec![
        Job { name: "monday", why: "the week's route overrides", posting: posting(monday) },
        Job { name: "tuesday", why: "corrections: another carrier", posting: posting(tuesday) },
        Job { name: "urgent", why: "made as single keys", posting: posting(urgent) },
    ]
}

/// A call that must be refused, and with what.
struct Refused {
    what: &'static str,
    wanted: Refusal,
    /// The image, how many scratch elements and how many cells too few.
    image: Vec<u8>,
    scratch_short: usize,
    cells_short: usize,
}

/// Calls that go wrong, from a good multi key.
fn mishaps(key: &Key) -> Vec<Refused> {
    let good = key.image().to_vec();
    let mut cut = good.clone();
    cut.pop();
    let mut party = good.clone();
    party[0] = 2;
    let mut hash_key = good.clone();
    hash_key[30] ^= 1;
    let plain =
        |what, wanted, image| Refused { what, wanted, image, scratch_short: 0, cells_short: 0 };
    vec![
        plain("a key that lost its last byte", Refusal::Key, cut),
        plain("a key with one byte of its head changed", Refusal::Key, party),
        plain("a key with one bit of a hash key changed", Refusal::Mismatch, hash_key),
        Refused {
            cells_short: 1,
            ..plain("a table of another size", Refusal::Table, good.clone())
        },
        Refused { scratch_short: 1, ..plain("too little scratch", Refusal::Scratch, good) },
    ]
}

/// What a partner tells of its work, line by line, and its table at the end.
struct Partner {
    lines: Vec<String>,
    table: Vec<u64>,
}

/// Adds the keys in order to a new table, with a refused call or two before each.
fn partner(
    keys: &[(String, Key)],
    order: [usize; 3],
    mut mishaps: Vec<Refused>,
) -> Result<Partner, Problem> {
    let cells = keys[0].1.cells;
    let mut table = memory::zeros(cells, "a partner's table")?;
    let most = keys.iter().map(|(_, key)| key.scratch()).max().unwrap_or(0) as usize;
    let mut scratch = memory::zeros(most as u64, "a partner's scratch")?;
    let mut lines = Vec::new();
    for (turn, at) in order.into_iter().enumerate() {
        for bad in mishaps.drain(..mishaps.len().div_ceil(order.len() - turn)) {
            let before = table.clone();
            let needed = keys[0].1.scratch() as usize - bad.scratch_short;
            let answer = face::multi_add_to(
                &bad.image,
                &mut scratch[..needed],
                &mut table[..cells as usize - bad.cells_short],
            );
            if answer != Err(bad.wanted) || table != before {
                return Err(Problem::new(format!(
                    "{}: {answer:?}, wanted {}",
                    bad.what, bad.wanted
                )));
            }
            lines.push(format!(
                "  refused  {:<44} {:>2} {}, table as it was",
                bad.what,
                bad.wanted.number(),
                bad.wanted.name()
            ));
        }
        let (name, key) = &keys[at];
        let started = Instant::now();
        key.add_to(&mut scratch, &mut table).map_err(|refusal| Problem::refused(name, refusal))?;
        lines.push(format!("  added    {name:<44} {:>10}", seconds(started.elapsed())));
    }
    Ok(Partner { lines, table })
}

/// How many cells of each column hold something, as a bar of eight heights.
fn strip(table: &[u64]) -> String {
    const BARS: [char; 9] = [' ', '▁', '▂', '▃', '▄', '▅', '▆', '▇', '█'];
    let mut counts = vec![0u64; COLUMNS as usize];
    for (cell, value) in table.iter().enumerate() {
        if *value != 0 {
            counts[(cell as u64 * COLUMNS / table.len() as u64) as usize] += 1;
        }
    }
    let most = counts.iter().copied().max().unwrap_or(0).max(1);
    counts.iter().map(|count| BARS[(count * 8).div_ceil(most) as usize]).collect()
}

fn set(table: &[u64]) -> u64 {
    table.iter().filter(|cell| **cell != 0).count() as u64
}

/// A few cells that tell something: one of each posting, and two of none.
fn telling(jobs: &[Job], plain: &[u64]) -> Vec<(u64, &'static str)> {
    let (kept, corrected) = (jobs[0].posting.points[1], jobs[1].posting.points[3]);
    let posted =
        [(kept, "override"), (corrected, "corrected"), (jobs[2].posting.points[0], "urgent")];
    let others = [(kept + 1, "its neighbour"), (plain.len() as u64 - 1, "last cell")];
    let empty = others.into_iter().filter(|(cell, _)| plain[*cell as usize] == 0);
    posted.into_iter().chain(empty).collect()
}

/// The folder, new or of an earlier demo.
fn prepare(folder: &Path) -> Result<(), Problem> {
    let failed = |e: std::io::Error| Problem::file("cannot use the folder", folder, &e);
    fs::create_dir_all(folder).map_err(failed)?;
    let mark = folder.join(MARK);
    let empty = fs::read_dir(folder).map_err(failed)?.next().is_none();
    if !empty && !mark.exists() {
        return Err(Problem::new(format!(
            "{} has files of another kind; name another --folder",
            folder.display()
        )));
    }
    fs::write(&mark, "").map_err(failed)
}

struct Demo {
    folder: PathBuf,
    step: u64,
}

impl Demo {
    fn heading(&mut self, say: &mut Say, text: &str) -> Result<(), Problem> {
        self.step += 1;
        say.line(format!("\n{}. {text}", self.step))
    }

    fn file(&self, name: &str) -> PathBuf {
        self.folder.join(name)
    }

    fn write_table(&self, name: &str, table: &[u64]) -> Result<(), Problem> {
        let mut file = Whole::begin(&self.file(name), Kind::Replace)?;
        file.write_cells(table)?;
        file.finish()
    }

    /// The desk: postings into pairs of key files.
    fn desk(&mut self, jobs: &[Job], cells: u64, say: &mut Say) -> Result<(), Problem> {
        self.heading(say, "The desk makes two keys of each posting")?;
        for job in jobs {
            let mut text = Whole::begin(&self.file(&format!("{}.csv", job.name)), Kind::Replace)?;
            text.write(job.posting.text().as_bytes())?;
            text.finish()?;
            let (count, started) = (job.posting.points.len() as u64, Instant::now());
            let files = make::Files::begin(&self.file(job.name), true)?;
            let pair = {
                let _line = Progress::of(format!("making {}", job.name), 3 * cells);
                job.pair(cells)?
            };
            files.write(&pair)?;
            let drawn = match pair.draws {
                0 => String::new(),
                draws => format!(", hash keys drawn {}", counted(draws, "time")),
            };
            say.line(format!(
                "  {:<12} {:>4} {:<10} {}",
                format!("{}.csv", job.name),
                count,
                if count == 1 { "override," } else { "overrides," },
                job.why
            ))?;
            say.line(format!(
                "    wrote {0}.0.key and {0}.1.key, {1} bytes each{drawn}, in {2}",
                job.name,
                grouped(pair.images[0].len() as u64),
                seconds(started.elapsed())
            ))?;
        }
        Ok(())
    }

    /// The keys of one party, read back from their files.
    fn keys(&self, jobs: &[Job], party: usize) -> Result<Vec<(String, Key)>, Problem> {
        jobs.iter()
            .map(|job| {
                let name = format!("{}.{party}.key", job.name);
                Ok((name.clone(), Key::read(&self.file(&name))?))
            })
            .collect()
    }

    /// Both partners, at the same time.
    fn partners(&mut self, jobs: &[Job], say: &mut Say) -> Result<[Vec<u64>; 2], Problem> {
        self.heading(say, "Two partners add their keys, at the same time and in different orders")?;
        let (ours, theirs) = (self.keys(jobs, 0)?, self.keys(jobs, 1)?);
        let started = Instant::now();
        let line = Progress::of("adding", ours.iter().map(|(_, key)| key.blocks_to_add()).sum());
        let (first, second) = std::thread::scope(|scope| {
            let a = scope.spawn(|| partner(&ours, [0, 1, 2], mishaps(&ours[0].1)));
            let mut bad = mishaps(&theirs[0].1);
            bad.reverse();
            let b = scope.spawn(|| partner(&theirs, [2, 1, 0], bad));
            (a.join().expect("no panic"), b.join().expect("no panic"))
        });
        drop(line);
        let (first, second) = (first?, second?);
        for (name, partner) in [("A", &first), ("B", &second)] {
            say.line(format!("  partner {name}"))?;
            for line in &partner.lines {
                say.line(line)?;
            }
        }
        self.write_table("a.table", &first.table)?;
        self.write_table("b.table", &second.table)?;
        say.line(format!("  wrote a.table and b.table, in {}", seconds(started.elapsed())))?;
        Ok([first.table, second.table])
    }

    /// The sums, every cell held against what was posted.
    fn sums(
        &mut self,
        plain: &[u64],
        tables: &[Vec<u64>; 2],
        say: &mut Say,
    ) -> Result<Vec<u64>, Problem> {
        self.heading(
            say,
            "The two tables are summed, and every cell is compared with the plain table",
        )?;
        let started = Instant::now();
        let (a, b) =
            (files::read_table(&self.file("a.table"))?, files::read_table(&self.file("b.table"))?);
        if [&a, &b] != tables.each_ref() {
            return Err(Problem::new("the tables read back are not those written"));
        }
        let sums: Vec<u64> = a.iter().zip(&b).map(|(a, b)| a.wrapping_add(*b)).collect();
        self.write_table("sum.table", &sums)?;
        self.write_table("plain.table", plain)?;
        if let Some(cell) = sums.iter().zip(plain).position(|(sum, plain)| sum != plain) {
            return Err(Problem::new(format!(
                "cell {cell} sums to {} and {} was posted",
                sums[cell], plain[cell]
            )));
        }
        say.line(format!(
            "  all {} cells are equal: {} hold an override, {} hold 0",
            grouped(sums.len() as u64),
            grouped(set(&sums)),
            grouped(sums.len() as u64 - set(&sums))
        ))?;
        say.line(format!(
            "  read a.table and b.table, wrote sum.table and plain.table, in {}",
            seconds(started.elapsed())
        ))?;
        Ok(sums)
    }

    /// What each of them sees: where something stands, and a few cells.
    fn picture(
        &mut self,
        jobs: &[Job],
        plain: &[u64],
        tables: &[Vec<u64>; 2],
        sums: &[u64],
        say: &mut Say,
    ) -> Result<(), Problem> {
        self.heading(say, "What each of them sees")?;
        let last = grouped(plain.len() as u64 - 1);
        let width = COLUMNS as usize;
        say.line(format!("              cell 0{last:>0$}   cells not 0", width - 6))?;
        for (who, table) in [
            ("posted", plain),
            ("partner A", &tables[0]),
            ("partner B", &tables[1]),
            ("A + B", sums),
        ] {
            say.line(format!("  {who:<10} |{}| {:>9}", strip(table), grouped(set(table))))?;
        }
        say.line("")?;
        say.line("      cell     partner A holds      partner B holds    A + B   posted")?;
        say.line("  --------  ------------------   ------------------   ------   ------")?;
        for (cell, what) in telling(jobs, plain) {
            let at = cell as usize;
            say.line(format!(
                "  {cell:>8}  0x{:016x}   0x{:016x}   {:>6}   {:>6}   {what}",
                tables[0][at], tables[1][at], sums[at], plain[at]
            ))?;
        }
        Ok(())
    }

    /// One cell, from both keys of the first posting.
    fn complaint(&mut self, jobs: &[Job], say: &mut Say) -> Result<(), Problem> {
        let cell = jobs[0].posting.points[7];
        let wanted = jobs[0].posting.values[7];
        self.heading(
            say,
            &format!("A customer complains about cell {cell}: one cell of monday's keys is read"),
        )?;
        let mut sum = 0u64;
        for party in 0..2 {
            let (name, key) = self.keys(&jobs[..1], party)?.remove(0);
            let started = Instant::now();
            let share = key.share_of(cell).map_err(|refusal| Problem::refused(&name, refusal))?;
            sum = sum.wrapping_add(share);
            say.line(format!("  {share:>20}  {name}   {}", seconds(started.elapsed())))?;
        }
        say.line(format!("  {sum:>20}  sum modulo 2^64; monday.csv has '{cell},{wanted}'"))?;
        match sum == wanted {
            true => Ok(()),
            false => Err(Problem::new(format!("cell {cell} reads {sum} and {wanted} was posted"))),
        }
    }
}

pub fn run(arguments: Arguments, say: &mut Say) -> Result<(), Problem> {
    arguments.no_files()?;
    let cells = arguments.number_if("--cells")?.unwrap_or(100_000);
    if !(5_000..=keys::MOST_MULTI).contains(&cells) {
        return Err(Problem::Usage("--cells is 5000 to 4294967295".into()));
    }
    let folder = arguments.path_if("--folder")?.unwrap_or_else(|| PathBuf::from("morgnet-demo"));
    prepare(&folder)?;
    let mut demo = Demo { folder, step: 0 };
    let jobs = jobs(cells);
    let mut plain: Vec<u64> = memory::zeros(cells, "the plain table")?;
    for job in &jobs {
        for (cell, value) in job.posting.points.iter().zip(&job.posting.values) {
            plain[*cell as usize] = plain[*cell as usize].wrapping_add(*value);
        }
    }
    say.line(format!("Morgnet demo: {} postings over {}", jobs.len(), counted(cells, "cell")))?;
    let started = Instant::now();
    demo.desk(&jobs, cells, say)?;
    let tables = demo.partners(&jobs, say)?;
    let sums = demo.sums(&plain, &tables, say)?;
    demo.picture(&jobs, &plain, &tables, &sums, say)?;
    demo.complaint(&jobs, say)?;
    let place = demo.folder.canonicalize().unwrap_or(demo.folder);
    say.line(format!(
        "\nDone in {}. The files are in {}",
        seconds(started.elapsed()),
        place.display()
    ))?;
    say.line("  *.csv postings, *.0.key and *.1.key the partners' keys, a.table and b.table the partners'")?;
    say.line("  tables, sum.table their sum, plain.table what was posted. 'morgnet --help' has the commands.")
}
