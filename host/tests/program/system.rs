//! The system says no: folders that take no file, disks that are full or broken.

use crate::folder::*;
use std::fs;
use std::os::unix::fs::PermissionsExt;
use std::os::unix::process::CommandExt;
use std::process::{Command, Output};

/// Run by root, who may write everywhere, the program is started as another user.
#[test]
fn a_folder_that_takes_no_files() {
    let nobody = 65_534;
    let folder = Folder::posted();
    let allow = |name: &str, mode| {
        fs::set_permissions(folder.file(name), fs::Permissions::from_mode(mode)).unwrap();
    };
    fs::copy(MORGNET, folder.file("program")).unwrap();
    allow("program", 0o755);
    allow("day.0.key", 0o644);
    allow("", 0o555);
    let root = fs::write(folder.file("probe"), b"").is_ok();
    let _ = fs::remove_file(folder.file("probe"));
    let before = folder.all();
    for words in WRITERS {
        let mut command = Command::new(folder.file("program"));
        command.args(words).current_dir(&folder.0);
        if root {
            command.uid(nobody).gid(nobody);
        }
        let output = command.output().expect("morgnet runs");
        assert_eq!(output.status.code(), Some(1), "{words:?}");
        says(&told(&output), &["no file can be made in", "ermission denied"]);
        assert!(before == folder.all());
    }
    allow("", 0o755);
}

/// The system's answer to the first call of a kind, and what a person is told of it.
const NO: [(&str, i32, &str); 4] = [
    ("write", NO_SPACE, "No space left"),
    ("fsync", NO_SPACE, "No space left"),
    ("fsync", BROKEN, "Input/output error"),
    ("rename", BROKEN, "Input/output error"),
];

#[test]
fn a_disk_that_is_full_or_broken() {
    for words in WRITERS {
        let folder = Folder::posted();
        let before = folder.all();
        for (call, error, part) in NO {
            let output = folder.fault(&format!("{call}:1:{error}"), words);
            assert_eq!(output.status.code(), Some(1), "{call} {words:?}: {}", told(&output));
            says(&told(&output), &["cannot write", part]);
            assert!(before == folder.all(), "{call} {words:?}");
        }
        // and then it works
        folder.good(words);
    }
}

/// The second key of a pair cannot be put at its place: the first does not stay alone.
#[test]
fn a_disk_that_breaks_between_two_keys() {
    let folder = Folder::posted();
    let before = folder.all();
    for fault in [format!("rename:2:{BROKEN}"), format!("write:2:{NO_SPACE}")] {
        assert_eq!(folder.fault(&fault, MAKE).status.code(), Some(1));
        assert!(before == folder.all(), "{fault}");
    }
    // over an older pair, which is whole or told to be none
    folder.good(MAKE);
    let before = folder.all();
    let again = [MAKE, &["--force"]].concat();
    for fault in ["write:2", "fsync:2", "unlink:1"] {
        let output = folder.fault(&format!("{fault}:{BROKEN}"), &again);
        assert_eq!(output.status.code(), Some(1));
        assert!(!told(&output).contains("no pair"));
        let mut after = folder.all();
        // nothing can be removed either, the unfinished files not excepted
        after.retain(|name, _| fault != "unlink:1" || !name.ends_with(UNFINISHED));
        assert!(before == after, "{fault}");
    }
    for fault in ["rename:1", "rename:2"] {
        let output = folder.fault(&format!("{fault}:{BROKEN}"), &again);
        assert_eq!(output.status.code(), Some(1));
        says(&told(&output), &["cannot write", "no pair any more", "make both again"]);
        assert!(!folder.file("new.1.key").exists());
        folder.good(&again);
    }
}

fn limited(folder: &Folder, words: &str) -> Output {
    let script = format!("ulimit -f 64; trap '' XFSZ; exec {MORGNET} {words}");
    Command::new("bash").args(["-c", &script]).current_dir(&folder.0).output().expect("bash")
}

fn with_a_big_key() -> Folder {
    let folder = Folder::posted();
    let rows: String = (0..3000).map(|i| format!("{},1\n", 30 * i)).collect();
    folder.write("big.csv", rows.as_bytes());
    folder.good(&["make", "--cells", "100000", "--posting", "big.csv", "--out", "big"]);
    folder
}

/// A limit on the size of a file is met in the middle of a real one.
#[test]
fn a_file_that_grows_too_large() {
    let folder = with_a_big_key();
    let before = folder.all();
    for words in [
        "make --cells 100000 --posting big.csv --out other",
        "add --new --table big.table big.0.key",
    ] {
        let output = limited(&folder, words);
        assert_eq!(output.status.code(), Some(1), "{words}: {}", told(&output));
        says(&told(&output), &["cannot write", "too large", "nothing was left there"]);
        assert!(before == folder.all(), "{words}");
    }
}

/// A file system of 64 KiB.
#[test]
#[ignore = "mounts a file system, which only root may: cargo test -- --ignored"]
fn a_disk_that_is_really_full() {
    let folder = with_a_big_key();
    let small = folder.file("small");
    fs::create_dir(&small).unwrap();
    let mount = ["-t", "tmpfs", "-o", "size=64k", "none"];
    let mounted = Command::new("mount").args(mount).arg(&small).status().expect("mount");
    assert!(mounted.success(), "no file system can be mounted here");
    let output = folder.run(&["add", "--new", "--table", "small/big.table", "big.0.key"]);
    let left: Vec<_> = fs::read_dir(&small).unwrap().collect();
    let unmounted = Command::new("umount").arg(&small).status().expect("umount");
    assert!(unmounted.success());
    assert_eq!(output.status.code(), Some(1));
    says(&told(&output), &["cannot write", "No space left", "nothing was left there"]);
    assert!(left.is_empty(), "{left:?}");
}

#[test]
fn standard_output_that_is_full() {
    let folder = Folder::posted();
    let before = folder.all();
    for words in [
        &["--help"][..],
        &["sum", "--list", "a.table", "b.table"],
        &["read", "--cell", "1", "a.table"],
        ADD,
    ] {
        let full = fs::File::options().write(true).open("/dev/full").expect("/dev/full");
        let output = folder.command(words).stdout(full).output().expect("morgnet runs");
        assert_eq!(output.status.code(), Some(1), "{words:?}");
        says(&told(&output), &["cannot write to standard output"]);
        assert!(before == folder.all(), "{words:?}");
    }
    // the last line is lost when the table is written already: that is told, so that nothing is added twice
    let output = folder.fault(&format!("print:3:{NO_SPACE}"), ADD);
    assert_eq!(output.status.code(), Some(1));
    says(&told(&output), &["standard output", "a.table is written"]);
    assert_ne!(before["a.table"], folder.read("a.table"));
}
