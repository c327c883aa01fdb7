//! Files that stand there, are missing, damaged or short, links, and the names of keys.

use crate::folder::{says, told, Folder, ADD, SUM};
use std::fs;
use std::os::unix::fs::{symlink, PermissionsExt};

#[test]
fn nothing_is_replaced_unasked() {
    let folder = Folder::posted();
    let make = ["make", "--cells", "500", "--posting", "day.csv", "--out", "day"];
    says(&folder.bad(&make), &["day.0.key is there already", "--force"]);
    says(
        &folder.bad(&["add", "--new", "--table", "a.table", "day.0.key"]),
        &["a.table is there already", "without --new"],
    );
    folder.good(&["sum", "--out", "sum.table", "a.table", "b.table"]);
    says(&folder.bad(&["sum", "--out", "sum.table", "a.table", "b.table"]), &["is there already"]);
    folder.good(&["sum", "--force", "--out", "sum.table", "a.table", "b.table"]);

    fs::remove_file(folder.file("day.1.key")).unwrap();
    says(
        &folder.bad(&make),
        &["day.0.key is there and day.1.key is not", "stopped between the two"],
    );
    let before = folder.read("day.0.key");
    folder.good(&[&make[..], &["--force"]].concat());
    assert_ne!(before, folder.read("day.0.key"));
    says(&folder.good(&["read", "--cell", "17", "day.0.key", "day.1.key"]), &["  5  sum"]);
}

#[test]
fn files_that_are_missing_or_no_files() {
    let folder = Folder::posted();
    says(&folder.bad(&["add", "--table", "none", "day.0.key"]), &["none is not there", "--new"]);
    says(&folder.bad(&["add", "--table", "a.table", "none.key"]), &["cannot read none.key"]);
    says(&folder.bad(&["add", "--table", "a.table", "."]), &["cannot read ."]);
    says(&folder.bad(&["read", "--cell", "0", "none"]), &["cannot read none"]);
    says(&folder.bad(&["sum", "--list", "a.table", "none"]), &["cannot read none"]);
    fs::create_dir(folder.file("folder")).unwrap();
    says(&folder.bad(&["add", "--table", "folder", "day.0.key"]), &["no plain file"]);
    says(&folder.bad(&["sum", "--out", "folder", "a.table", "b.table"]), &["no plain file"]);
    says(&folder.bad(&["sum", "--list", "a.table", "folder"]), &["no plain file"]);
    let make = ["make", "--cells", "500", "--posting", "day.csv", "--out"];
    says(&folder.bad(&[&make[..], &["none/day"]].concat()), &["no file can be made in"]);
    says(&folder.bad(&[&make[..], &["/proc/day"]].concat()), &["no file can be made in /proc"]);
}

#[test]
fn keys_that_are_damaged_or_short() {
    let folder = Folder::posted();
    folder.good(&["make", "--cells", "500", "--point", "3,4", "--out", "point"]);
    for name in ["day.0.key", "point.0.key"] {
        let good = folder.read(name);
        let mut cuts: Vec<usize> = vec![0, 1, 7, 8, 23, 24, 63, 71, 72, good.len() - 1];
        cuts.retain(|cut| *cut < good.len());
        for cut in cuts {
            folder.write("bad.key", &good[..cut]);
            let told = folder.bad(&["add", "--table", "a.table", "bad.key"]);
            says(&told, &["bad.key", &format!("{cut} bytes"), "9 Key", "sent again"]);
        }
        let longer = [&good[..], b"\n"].concat();
        folder.write("bad.key", &longer);
        says(&folder.bad(&["add", "--table", "a.table", "bad.key"]), &["9 Key"]);
        // one byte of the head after the other
        for at in 0..16 {
            let mut bad = good.clone();
            bad[at] ^= 0x40;
            folder.write("bad.key", &bad);
            let told = folder.bad(&["add", "--table", "a.table", "day.0.key", "bad.key"]);
            assert!(told.contains("9 Key") || told.contains("11 Table"), "{told}");
        }
    }
    let mut other = folder.read("day.0.key");
    other[50] ^= 1;
    folder.write("bad.key", &other);
    says(&folder.bad(&["add", "--table", "a.table", "bad.key"]), &["12 Mismatch"]);
    says(&folder.bad(&["add", "--table", "a.table", "day.0.key", "bad.key"]), &["12 Mismatch"]);
    says(&folder.bad(&["read", "--cell", "3", "bad.key"]), &["12 Mismatch"]);
    says(&folder.bad(&["read", "--cell", "500", "day.0.key"]), &["10 Index"]);
    folder.write("bad.key", &vec![0; 40_000_000]);
    says(&folder.bad(&["add", "--table", "a.table", "bad.key"]), &["longer than any key", "9 Key"]);
}

/// A damaged key is never read as a table, and no key is summed or added to as one.
#[test]
fn keys_are_known_by_their_names() {
    let folder = Folder::posted();
    let mut bad = folder.read("day.0.key");
    bad[0] = 2;
    folder.write("bad.key", &bad);
    folder.write("bad", &bad);
    says(&folder.bad(&["read", "--cell", "3", "bad.key"]), &["bad.key", "9 Key"]);
    says(&folder.bad(&["read", "--cell", "3", "--keys", "bad"]), &["bad", "9 Key"]);
    folder.write("good", &folder.read("day.0.key"));
    let (named, said) =
        (["read", "--cell", "3", "day.0.key"], ["read", "--cell", "3", "--keys", "good"]);
    let share = |words: &[&str]| folder.good(words).split_whitespace().next().map(str::to_owned);
    assert_eq!(share(&named), share(&said));
    says(&folder.good(&["read", "--cell", "3", "--tables", "day.0.key"]), &["table"]);
    for words in [
        &["add", "--table", "day.0.key", "day.0.key"][..],
        &["add", "--new", "--table", "new.key", "day.0.key"],
        &["sum", "--list", "day.0.key", "day.1.key"],
    ] {
        says(&folder.bad(words), &[".key is a key by its name, no table"]);
    }
}

#[test]
fn tables_of_another_size() {
    let folder = Folder::posted();
    let good = folder.read("a.table");
    for (length, parts) in [
        (0, &["empty"][..]),
        (1, &["1 bytes", "no whole number of cells", "cut short"]),
        (3999, &["3999 bytes", "no whole number of cells"]),
        (3992, &["11 Table", "another table"]),
        (4008, &["11 Table"]),
    ] {
        let bytes: Vec<u8> = good.iter().copied().cycle().take(length).collect();
        folder.write("t", &bytes);
        says(&folder.bad(&["add", "--table", "t", "day.0.key"]), parts);
        if length % 8 != 0 {
            says(&folder.bad(&["sum", "--list", "a.table", "t"]), parts);
            says(&folder.bad(&["read", "--cell", "0", "t"]), parts);
        }
    }
    folder.write("t", &good[..3992]);
    let why = folder.bad(&["sum", "--out", "s", "a.table", "t"]);
    says(&why, &["a.table has 500 cells", "t has 499 cells"]);
    says(&folder.bad(&["read", "--cell", "499", "t"]), &["cell 499", "last cell is 498"]);
    // the two parties' keys in one table: it works, and is told
    let output = folder.run(&["add", "--new", "--table", "both", "day.0.key", "day.1.key"]);
    assert!(output.status.success());
    says(&told(&output), &["note", "both parties"]);
    assert_eq!(folder.cells("both")[404], 6);
}

#[test]
fn links_and_permissions() {
    let folder = Folder::posted();
    let mode = |name: &str| fs::metadata(folder.file(name)).unwrap().permissions().mode() & 0o777;
    assert_eq!((mode("day.0.key"), mode("day.1.key")), (0o600, 0o600));
    fs::set_permissions(folder.file("a.table"), fs::Permissions::from_mode(0o640)).unwrap();
    fs::create_dir(folder.file("elsewhere")).unwrap();
    symlink("../a.table", folder.file("elsewhere/link")).unwrap();
    let before = folder.cells("a.table");
    folder.good(&["add", "--table", "elsewhere/link", "day.0.key"]);
    assert_eq!(mode("a.table"), 0o640);
    assert!(fs::symlink_metadata(folder.file("elsewhere/link")).unwrap().is_symlink());
    let doubled: Vec<u64> = before.iter().map(|x| x.wrapping_mul(2)).collect();
    assert_eq!(folder.cells("a.table"), doubled);
    // a link where the unfinished file would stand is not followed, wherever it leads
    folder.write("precious", b"precious");
    symlink("precious", folder.file(".a.table.morgnet-part")).unwrap();
    says(&folder.bad(ADD), &["is a link"]);
    assert_eq!(folder.read("precious"), b"precious");
    symlink("nothing", folder.file(".sum.table.morgnet-part")).unwrap();
    says(&folder.bad(SUM), &["is a link"]);
}
