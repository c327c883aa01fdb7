//! The program `morgnet`: what the desk and its two partners run.
#![forbid(unsafe_code)]

mod arguments;
mod commands;
mod say;

use arguments::{Arguments, Known};
use morgnet::Problem;
use say::Say;
use std::ffi::OsString;
use std::process::ExitCode;

const HELP: &str = "\
morgnet: postings for two partners, each of whom holds only a half of what was posted.

The desk turns a posting into two keys, one for each partner. Each partner adds its key to its own
table. The two tables, summed cell by cell, hold every value posted. Every calculation on keys is done
by libmorgnet.a, whose calls are proved; this program reads and writes the files, and sums tables.

  morgnet make    a posting into two key files                (the desk)
  morgnet add     key files to a table file                   (each partner)
  morgnet read    one cell of keys or tables                  (a complaint)
  morgnet sum     the partners' tables into one               (the desk)
  morgnet demo    all of it, on a made-up posting
  morgnet bench   how long each call takes, and how it grows

  morgnet COMMAND --help    tells the rest

Examples
  printf '17,5\\n404,6\\n' > monday.csv
  morgnet make --cells 100000 --posting monday.csv --out monday
  morgnet add --new --table a.table monday.0.key
  morgnet add --new --table b.table monday.1.key
  morgnet sum --list --out sum.table a.table b.table
  morgnet read --cell 404 a.table b.table

Files
  posting   lines 'cell,value', decimal, a line feed after each; cells count from 0
  key       the bytes of a key image (include/morgnet.h); keep it from the other partner
  table     8 bytes for each cell, little-endian

Files appear whole or not at all: they are written beside their place, synced, and renamed. A run that
is stopped can leave '.NAME.morgnet-part' there; the next run over NAME throws it away and says so.
Exit status: 0 done, 1 refused or failed (standard error says why), 2 the command line is not understood.
";

/// A command: its name, its help, the options it takes, and what it does.
struct Command {
    name: &'static str,
    help: &'static str,
    options: &'static [Known],
    run: fn(Arguments, &mut Say) -> Result<(), Problem>,
}

macro_rules! commands {
    ($($name:ident)*) => {
        [$(Command {
            name: stringify!($name),
            help: commands::$name::HELP,
            options: commands::$name::OPTIONS,
            run: commands::$name::run,
        }),*]
    };
}

const COMMANDS: [Command; 6] = commands![make add read sum demo bench];

fn run(mut words: Vec<OsString>) -> Result<(), Problem> {
    let mut say = Say::new();
    if words.is_empty() {
        return Err(Problem::Usage("no command is named; 'morgnet --help' has them".into()));
    }
    let name = words.remove(0);
    if name == "--help" || name == "-h" || name == "help" {
        return say.text(HELP);
    }
    let Some(command) = COMMANDS.iter().find(|command| name == command.name) else {
        return Err(Problem::Usage(format!(
            "there is no command '{}'; 'morgnet --help' has those that there are",
            name.to_string_lossy()
        )));
    };
    if words.iter().any(|word| word == "--help" || word == "-h") {
        return say.text(command.help);
    }
    (command.run)(Arguments::parse(words, command.options)?, &mut say)
}

fn main() -> ExitCode {
    match run(std::env::args_os().skip(1).collect()) {
        Ok(()) => ExitCode::SUCCESS,
        Err(problem) => {
            say::complain(&problem);
            match problem {
                Problem::Usage(_) => ExitCode::from(2),
                Problem::Failed(_) => ExitCode::FAILURE,
            }
        }
    }
}
