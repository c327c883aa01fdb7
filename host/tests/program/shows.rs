//! The demo and the benchmark.

use crate::folder::{says, Folder};
use std::fs;
use std::os::unix::fs::PermissionsExt;

#[test]
fn the_demo() {
    let folder = Folder::new();
    let text = folder.good(&["demo", "--cells", "8000"]);
    says(
        &text,
        &[
            "300 overrides",
            "all 8,000 cells are equal",
            "9 Key, table as it was",
            "12 Mismatch, table as it was",
            "11 Table, table as it was",
            "A customer complains about cell",
            "morgnet-demo",
        ],
    );
    // its files are what it says, and the commands take them
    let (a, b) = (folder.cells("morgnet-demo/a.table"), folder.cells("morgnet-demo/b.table"));
    let sum: Vec<u64> = a.iter().zip(&b).map(|(a, b)| a.wrapping_add(*b)).collect();
    assert_eq!(sum, folder.cells("morgnet-demo/sum.table"));
    assert_eq!(sum, folder.cells("morgnet-demo/plain.table"));
    folder.good(&["read", "--cell", "5", "morgnet-demo/monday.0.key", "morgnet-demo/monday.1.key"]);
    // again over its own folder, but over no other
    folder.good(&["demo", "--cells", "8000"]);
    fs::create_dir(folder.file("mine")).unwrap();
    folder.write("mine/monday.csv", b"mine");
    says(&folder.bad(&["demo", "--folder", "mine"]), &["files of another kind"]);
    assert_eq!(folder.read("mine/monday.csv"), b"mine");
    says(&folder.bad(&["demo", "--folder", "/proc/none"]), &["cannot use the folder"]);
}

/// A program that stands in for one of the oracle's.
fn stands_in(folder: &Folder, name: &str, script: &str) {
    folder.write(name, format!("#!/bin/sh\n{script}\n").as_bytes());
    fs::set_permissions(folder.file(name), fs::Permissions::from_mode(0o755)).unwrap();
}

#[test]
fn the_benchmark() {
    let folder = Folder::new();
    let words = ["bench", "--seconds", "0", "--largest", "14", "--draws", "1", "--oracle", "."];
    says(&folder.bad(&words), &["there is no bench in ."]);
    // the oracle's numbers are shown a cell, and the ratios made
    let row = "| multi: adding | 2^14, 1783, n 1000 | 32.768 | 16.384 | - | 16.384 |";
    stands_in(&folder, "bench", &format!("echo '{row}'"));
    says(&folder.bad(&words), &["there is no bench_aes in ."]);
    stands_in(&folder, "bench_aes", "echo '| a block | 3 |'");
    let text = folder.good(&words);
    says(
        &text,
        &[
            "| single: make | 2^12 |",
            "| single: adding | 2^12 |",
            "| multi: one cell | 2^14 |",
            "| 58,000 | 65,535 |",
            "| multi: adding | 2^14, 1783, n 1000 | 2.0 | 1.0 | - | 1.0 | 0.50 | 1.00 | - |",
            "| a block | 3 |",
        ],
    );
    stands_in(&folder, "bench", "exit 3");
    says(&folder.bad(&words), &["./bench failed"]);
}
