//! Compiles tests/face against the header and the library, with every warning an error, and runs it.

use std::path::{Path, PathBuf};
use std::process::Command;

const SOURCES: [&str; 10] = [
    "main.c",
    "support.c",
    "layers.c",
    "place.c",
    "single.c",
    "single_refusals.c",
    "multi.c",
    "multi_refusals.c",
    "threads.c",
    "stack.c",
];

/// Compiles C sources, linked with the library, and runs them. Gives what they print.
fn compiled_and_run(name: &str, sources: &[PathBuf], more: &[&str]) -> String {
    let program = Path::new(env!("CARGO_TARGET_TMPDIR")).join(name);
    let compiled = Command::new("gcc")
        .args(["-O2", "-Wall", "-Wextra", "-Werror", "-pedantic", "-pthread"])
        .args(more)
        .arg("-I")
        .arg(Path::new(env!("CARGO_MANIFEST_DIR")).join("../include"))
        .args(sources)
        .arg(env!("MORGNET_LINKED"))
        .arg("-o")
        .arg(&program)
        .status()
        .expect("gcc is there");
    assert!(compiled.success(), "{name} does not compile");
    let run = Command::new(&program).output().expect("the program runs");
    let text = String::from_utf8_lossy(&run.stdout).into_owned();
    assert!(run.status.success(), "{name} fails:\n{text}");
    text
}

#[test]
fn the_c_test_passes() {
    let here = Path::new(env!("CARGO_MANIFEST_DIR")).join("tests/face");
    let text = compiled_and_run("face", &SOURCES.map(|name| here.join(name)), &["-std=c11"]);
    println!("{text}");
    assert!(text.ends_with(" passed, 0 failed\n"), "{text}");
}

/// The lines of code that the header shows as an example.
fn example() -> String {
    let header = Path::new(env!("CARGO_MANIFEST_DIR")).join("../include/morgnet.h");
    let text = std::fs::read_to_string(header).expect("the header");
    let from = text.find(" * Example.").expect("an example");
    let comment = text[from..].split(" */").next().expect("a comment");
    let lines = comment.lines().filter_map(|line| line.strip_prefix(" *   "));
    lines.map(|line| format!("{line}\n")).collect()
}

/// The header's example, with a table for it, and the other key read at a cell that was posted.
#[test]
fn the_headers_example_runs() {
    let source = Path::new(env!("CARGO_TARGET_TMPDIR")).join("example.c");
    let program = format!(
        "#include \"morgnet.h\"\n#include <stdlib.h>\n#include <sys/random.h>\n\
         int main(void)\n{{\nuint64_t table[1000] = {{0}}, share;\n{}\
         return number || morgnet_multi_evaluate_at(key0, answer[0], 404, scratch, BUCKETS, &share)\n\
         || share + table[404] != 6 || share + table[405] == 6;\n}}\n",
        example()
    );
    std::fs::write(&source, program).expect("a file of the test");
    compiled_and_run("example", &[source], &[]);
}

/// The header by itself, taken by a compiler for a language.
fn takes(compiler: &str, language: &str, more: &[&str]) {
    let header = Path::new(env!("CARGO_MANIFEST_DIR")).join("../include/morgnet.h");
    let status = Command::new(compiler)
        .args(["-fsyntax-only", "-Wall", "-Wextra", "-Werror", "-pedantic", "-x", language])
        .args(more)
        .arg(&header)
        .status()
        .unwrap_or_else(|e| panic!("{compiler}: {e}"));
    assert!(status.success(), "{compiler} does not take the header");
}

/// Also in the oldest C that has its types.
#[test]
fn the_header_stands_alone() {
    takes("gcc", "c", &["-std=c99"]);
    takes("gcc", "c", &["-std=c17"]);
}

#[test]
#[ignore = "needs a compiler for C++: cargo test -- --ignored"]
fn the_header_is_c_plus_plus_too() {
    takes("g++", "c++", &["-std=c++11"]);
}
