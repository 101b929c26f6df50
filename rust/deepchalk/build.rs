//! Links the proved library, by default where `bin/library` writes it.

use std::env;
use std::path::PathBuf;

fn main() {
    println!("cargo::rerun-if-env-changed=DEEPCHALK_LIB_DIR");
    let folder = match env::var_os("DEEPCHALK_LIB_DIR") {
        Some(folder) => PathBuf::from(folder),
        None => repository().join("target/staticlib"),
    };
    let library = folder.join("libdeepchalk.a");
    println!("cargo::rerun-if-changed={}", library.display());
    if !library.is_file() {
        println!(
            "cargo::error={} is missing: run bin/library first",
            library.display()
        );
        return;
    }
    println!("cargo::rustc-link-search=native={}", folder.display());
    println!("cargo::rustc-link-lib=static=deepchalk");
    // For the test that compiles a C program against the header.
    println!("cargo::rustc-env=DEEPCHALK_LIB={}", library.display());
}

/// This package stands in `rust/deepchalk`.
fn repository() -> PathBuf {
    let package = PathBuf::from(env::var_os("CARGO_MANIFEST_DIR").expect("cargo sets it"));
    package.join("../..").canonicalize().expect("it exists")
}
