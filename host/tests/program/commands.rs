//! The commands, and command lines and postings that are refused.

use crate::folder::{says, summed, told, Folder, MORGNET};
use std::fs;
use std::path::Path;
use std::process::Command;

#[test]
fn help_has_examples() {
    let folder = Folder::new();
    for words in [&["--help"][..], &["help"], &["-h"]] {
        says(&folder.good(words), &["Examples", "morgnet make", "morgnet bench", "Exit status"]);
    }
    for command in ["make", "add", "read", "sum", "demo", "bench"] {
        says(&folder.good(&[command, "--help"]), &["Example", &format!("morgnet {command} ")]);
    }
    assert!(folder.all().is_empty());
}

/// Runs the examples of a help text, one after the other, as a shell would.
fn run_examples(folder: &Folder, help: &str) {
    let examples = help.split_once("\nExample").expect("examples").1;
    let lines: Vec<&str> =
        examples.lines().skip(1).take_while(|line| line.starts_with("  ")).collect();
    assert!(!lines.is_empty());
    let place = Path::new(MORGNET).parent().expect("a folder");
    let path = format!("{}:{}", place.display(), std::env::var("PATH").unwrap_or_default());
    let mut command = Command::new("sh");
    command.args(["-e", "-c", &lines.join("\n")]).current_dir(&folder.0).env("PATH", path);
    let output = command.output().expect("a shell");
    assert!(output.status.success(), "{lines:?}: {}", told(&output));
}

#[test]
fn examples_of_the_help_run() {
    let folder = Folder::new();
    run_examples(&folder, &folder.good(&["--help"]));
    assert_eq!(folder.good(&["sum", "--list", "a.table", "b.table"]), "17,5\n404,6\n");
    for command in ["read", "sum", "demo"] {
        let _ = fs::remove_file(folder.file("sum.table"));
        run_examples(&folder, &folder.good(&[command, "--help"]));
    }
    assert_eq!(folder.read("overrides.csv"), b"17,5\n404,6\n");
    let folder = Folder::new();
    folder.write("monday.csv", b"17,5\n404,6\n");
    run_examples(&folder, &folder.good(&["make", "--help"]));
    for name in ["tuesday", "wednesday"] {
        folder.good(&["make", "--cells", "100000", "--point", "3,4", "--out", name]);
    }
    run_examples(&folder, &folder.good(&["add", "--help"]));
}

/// Command lines of `make` that are not understood, and what is said.
const BAD_MAKE: &[(&[&str], &str)] = &[
    (&[], "--cells is missing"),
    (&["--cells"], "wants a value"),
    (&["--cells", "5x", "--posting", "day.csv", "--out", "x"], "only the digits"),
    (&["--cells", "-5", "--posting", "day.csv", "--out", "x"], "only the digits"),
    (&["--cells", "18446744073709551616", "--point", "1,1", "--out", "x"], "above 2^64"),
    (&["--cells", "5", "--cells", "5"], "twice"),
    (&["--cells", "5", "--out", "x"], "--posting FILE or --point"),
    (&["--cells", "5", "--out", "x", "--posting", "p", "--point", "1,1"], "not both"),
    (&["--cells", "5", "--out", "x", "--point", "1"], "a number is missing"),
    (&["--cells", "5", "--out", "x", "--point", "1,2,3"], "only the digits"),
    (&["--cells", "5", "--out", "x", "--point", "1,1", "--buckets", "4"], "without buckets"),
    (&["--cells", "500", "--out", "x", "--posting", "day.csv", "--tries", "0"], "at least 1"),
    (&["--cells", "5", "--out", "", "--point", "1,1"], "empty name"),
    (&["--cells", "5", "--out", "x", "--point", "1,1", "extra"], "'extra'"),
    (&["--force=yes"], "takes no value"),
];

/// And of the others.
const BAD_OTHERS: &[(&[&str], &str)] = &[
    (&[], "no command"),
    (&["mak"], "no command 'mak'"),
    (&["add", "day.0.key"], "--table is missing"),
    (&["add", "--table", "a.table"], "name the keys"),
    (&["add", "--sable", "a.table"], "no option '--sable'"),
    (&["read", "a.table"], "--cell is missing"),
    (&["read", "--cell", "4"], "name the files"),
    (&["read", "--cell", "4", "--keys", "--tables", "a.table"], "not both"),
    (&["sum", "a.table", "b.table"], "--out FILE or --list"),
    (&["sum", "--list", "a.table"], "at least two"),
    (&["demo", "--cells", "4"], "5000"),
    (&["bench", "--seconds", "x"], "a number of seconds"),
    (&["bench", "--seconds", "-1"], "0 to 3600"),
];

#[test]
fn command_lines_that_are_not_understood() {
    let folder = Folder::posted();
    let before = folder.all();
    let make = BAD_MAKE.iter().map(|(words, part)| ([&["make"], *words].concat(), *part));
    let others = BAD_OTHERS.iter().map(|(words, part)| (words.to_vec(), *part));
    for (words, part) in make.chain(others) {
        let output = folder.run(&words);
        assert_eq!(output.status.code(), Some(2), "{words:?}: {}", told(&output));
        says(&told(&output), &["morgnet: ", part]);
        assert!(output.stdout.is_empty());
    }
    assert!(before == folder.all());
}

#[test]
fn a_posting_from_end_to_end() {
    let folder = Folder::posted();
    let mut plain = vec![0u64; 500];
    (plain[17], plain[404], plain[0]) = (5, 6, u64::MAX);
    assert_eq!(summed(&folder), plain);

    // a second posting, with a point key, in another order; the options may stand anywhere
    folder.write("more.csv", b"499,1\n17,18446744073709551615\n00000000000000000018,3\n");
    let made = folder.good(&["make", "--posting=more.csv", "--cells=500", "--out=more"]);
    says(&made, &["3 overrides", "hash keys drawn 1 time", "more.0.key", "more.1.key"]);
    folder.good(&["make", "--cells", "500", "--point", "404,10", "--out", "point"]);
    folder.good(&["add", "more.0.key", "--table", "a.table", "point.0.key"]);
    folder.good(&["add", "--table", "b.table", "--", "point.1.key", "more.1.key"]);
    (plain[499], plain[17], plain[18], plain[404]) = (1, 4, 3, 16);
    assert_eq!(summed(&folder), plain);

    let list = folder.good(&["sum", "--list", "a.table", "b.table"]);
    assert_eq!(list, "0,18446744073709551615\n17,4\n18,3\n404,16\n499,1\n");
    says(
        &folder.good(&["sum", "--out", "sum.table", "a.table", "b.table"]),
        &["2 tables of 500 cells", "5 of 500 cells are not 0"],
    );
    assert_eq!(folder.cells("sum.table"), plain);

    says(
        &folder.good(&["read", "--cell", "404", "a.table", "b.table"]),
        &[" 16  sum", "a.table: table"],
    );
    let read = folder.good(&["read", "--cell", "17", "day.0.key", "day.1.key"]);
    says(&read, &["  5  sum modulo 2^64, cell 17", "party 0", "party 1"]);
    says(&folder.good(&["read", "--cell", "404", "point.0.key", "point.1.key"]), &[" 10  sum"]);
    assert_eq!(
        folder.good(&["read", "--cell", "1", "sum.table"]).split_whitespace().next(),
        Some("0")
    );
    assert_eq!(folder.all().keys().filter(|name| name.starts_with('.')).count(), 0);
}

#[test]
fn sizes_at_their_limits() {
    let folder = Folder::new();
    folder.write("one.csv", b"0,7\n");
    folder.good(&["make", "--cells", "1", "--posting", "one.csv", "--out", "one"]);
    says(&folder.good(&["read", "--cell", "0", "one.0.key", "one.1.key"]), &["  7  sum"]);
    let far = ["--cells", "17179869184", "--point", "17179869183,7", "--out", "far"];
    folder.good(&[&["make"], &far[..]].concat());
    says(&folder.good(&["read", "--cell", "17179869183", "far.0.key", "far.1.key"]), &["  7  sum"]);
    says(&folder.bad(&["read", "--cell", "17179869184", "far.0.key"]), &["10 Index"]);
    let out = ["--out", "x"];
    for (cells, given, part) in [
        ("0", ["--point", "0,7"], "1 Domain"),
        ("17179869185", ["--point", "0,7"], "1 Domain"),
        ("9", ["--point", "9,7"], "4 Point"),
        ("0", ["--posting", "one.csv"], "outside the table"),
        ("4294967296", ["--posting", "one.csv"], "1 Domain"),
    ] {
        says(&folder.bad(&[&["make", "--cells", cells], &given[..], &out[..]].concat()), &[part]);
    }
    for (buckets, part) in [("0", "2 Buckets"), ("65536", "2 Buckets")] {
        let words =
            ["make", "--cells", "9", "--posting", "one.csv", "--buckets", buckets, "--out", "x"];
        says(&folder.bad(&words), &[part]);
    }
    // a table that no memory holds is told and not begun
    says(
        &folder.bad(&["add", "--new", "--table", "t", "far.0.key"]),
        &["the new table takes 128.0 GiB"],
    );
}

/// Postings over 10 cells that are refused, and what is said.
const BAD_POSTINGS: &[(&str, &[&str])] = &[
    ("", &["line 1", "empty"]),
    ("\n", &["line 1", "the line is empty"]),
    ("1,2\n\n3,4\n", &["line 2", "the line is empty"]),
    ("1,2\n3;4\n", &["line 2", "'3;4'", "no comma"]),
    ("1,2\n3,4,5\n", &["line 2", "only the digits"]),
    ("1,2\n3, 4\n", &["line 2", "only the digits"]),
    (" 1,2\n", &["line 1", "only the digits"]),
    ("1,2\n3,\n", &["line 2", "a number is missing"]),
    ("1,2\n,3\n", &["line 2", "a number is missing"]),
    ("1,-2\n", &["line 1", "only the digits"]),
    ("1,+2\n", &["line 1", "only the digits"]),
    ("1,0x2\n", &["line 1", "only the digits"]),
    ("1,18446744073709551616\n", &["line 1", "above 2^64 - 1"]),
    ("1,000000000000000000002\n", &["line 1", "more than 20 digits"]),
    ("1,2\r\n", &["line 1", "carriage return"]),
    ("\u{feff}1,2\n", &["line 1", "only the digits"]),
    ("1,2\n3,4", &["line 2", "no line feed", "cut short"]),
    ("1,2\n3,4\n1,5\n", &["line 3", "cell 1 stands in line 1"]),
    ("1,2\n001,5\n", &["line 2", "cell 1 stands in line 1"]),
    ("9,2\n10,2\n", &["line 2", "cell 10 is outside", "last cell is 9"]),
    ("18446744073709551615,2\n", &["line 1", "outside"]),
    ("10,2\n9\n", &["line 1", "outside"]),
    ("cell,value\n1,2\n", &["line 1", "'cell,value' is not", "only the digits"]),
    ("\0\0\0\n", &["line 1", "\\x00"]),
];

const MAKE_OF_10: &[&str] = &["make", "--cells", "10", "--posting", "p.csv", "--out", "x"];

#[test]
fn postings_that_are_refused() {
    let folder = Folder::new();
    for (text, parts) in BAD_POSTINGS {
        folder.write("p.csv", text.as_bytes());
        let told = folder.bad(MAKE_OF_10);
        says(&told, &["p.csv"]);
        says(&told, parts);
    }
    folder.write("p.csv", &[0xff; 3000]);
    says(&folder.bad(MAKE_OF_10), &["line 1"]);
    // one line more than there are buckets for
    let long: String = (0..65_536).map(|i| format!("{i},1\n")).collect();
    folder.write("p.csv", long.as_bytes());
    let words = ["make", "--cells", "100000", "--posting", "p.csv", "--out", "x"];
    says(&folder.bad(&words), &["line 65536", "at most 65535 lines"]);
}

#[test]
fn postings_that_cannot_be_read() {
    let folder = Folder::new();
    says(&folder.bad(MAKE_OF_10), &["cannot read p.csv"]);
    fs::create_dir(folder.file("p.csv")).unwrap();
    says(&folder.bad(MAKE_OF_10), &["cannot read p.csv"]);
}

#[test]
fn placement_that_gives_up() {
    let folder = Folder::new();
    let many: String = (0..200).map(|i| format!("{},1\n", 3 * i)).collect();
    folder.write("p.csv", many.as_bytes());
    let make = ["make", "--cells", "600", "--posting", "p.csv", "--out", "x"];
    // as many buckets as points: it never fits
    let told = folder.bad(&[&make[..], &["--buckets", "200", "--tries", "3"]].concat());
    says(&told, &["6 Place", "200 points in 200 buckets", "3 draws", "more --buckets"]);
    says(&folder.bad(&[&make[..], &["--buckets", "199"]].concat()), &["3 Count"]);
    let made = folder.good(&make);
    says(&made, &["408 buckets", "hash keys drawn", "evictions"]);
}
