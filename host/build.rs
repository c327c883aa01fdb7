//! Links libmorgnet.a: the one that MORGNET_LIB names, else target/staticlib/libmorgnet.a of this
//! repository, which `tools/library` writes.
use std::path::{Path, PathBuf};
use std::process::Command;

/// What the compiler calls itself, for the benchmark's head.
fn version() -> Option<String> {
    let output = Command::new(std::env::var_os("RUSTC")?).arg("--version").output().ok()?;
    let text = String::from_utf8(output.stdout).ok()?;
    Some(text.split(" (").next()?.trim().to_string())
}

fn main() {
    println!("cargo:rustc-env=RUST_VERSION={}", version().unwrap_or("rustc".into()));
    println!("cargo:rerun-if-env-changed=MORGNET_LIB");
    let here = PathBuf::from(std::env::var_os("CARGO_MANIFEST_DIR").expect("cargo sets it"));
    let library = match std::env::var_os("MORGNET_LIB") {
        Some(named) => PathBuf::from(named),
        None => here.join("../target/staticlib/libmorgnet.a"),
    };
    println!("cargo:rerun-if-changed={}", library.display());
    let Ok(library) = library.canonicalize() else {
        eprintln!("{} is not there.", library.display());
        eprintln!("Run 'tools/library' at the top of the repository first ('./demo' does).");
        std::process::exit(1);
    };
    if library.file_name() != Some("libmorgnet.a".as_ref()) {
        eprintln!("MORGNET_LIB names {}, which is not called libmorgnet.a", library.display());
        std::process::exit(1);
    }
    let folder = library.parent().unwrap_or(Path::new("/"));
    println!("cargo:rustc-link-search=native={}", folder.display());
    println!("cargo:rustc-link-lib=static=morgnet");
    // For the tests that compile C against the same library.
    println!("cargo:rustc-env=MORGNET_LINKED={}", library.display());
}
