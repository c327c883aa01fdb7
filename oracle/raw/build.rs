//! With the feature `linked`: links the static library that MORGNET_LIB names.
use std::path::PathBuf;

fn main() {
    println!("cargo:rerun-if-env-changed=MORGNET_LIB");
    if std::env::var_os("CARGO_FEATURE_LINKED").is_none() {
        return;
    }
    let library = std::env::var_os("MORGNET_LIB").expect("MORGNET_LIB names libmorgnet.a");
    let library = PathBuf::from(library).canonicalize().expect("MORGNET_LIB is a file");
    assert_eq!(library.file_name().and_then(|n| n.to_str()), Some("libmorgnet.a"));
    let folder = library.parent().expect("a file stands in a folder");
    println!("cargo:rerun-if-changed={}", library.display());
    println!("cargo:rustc-link-search=native={}", folder.display());
    println!("cargo:rustc-link-lib=static=morgnet");
}
