//! Finds the static library that `./sgub` builds from the proved crates, and puts into target/staticlib.

use std::env;
use std::path::{Path, PathBuf};

fn main() {
    println!("cargo::rerun-if-changed=build.rs");
    println!("cargo::rerun-if-env-changed=SGUB_LIB_DIR");
    let directory = directory();
    let archive = directory.join("libsgub.a");
    println!("cargo::rerun-if-changed={}", archive.display());
    if archive.is_file() {
        println!("cargo::rustc-link-search=native={}", directory.display());
        println!("cargo::rustc-link-lib=static=sgub");
        // For the test that links a C program.
        println!("cargo::rustc-env=SGUB_ARCHIVE={}", archive.display());
    } else {
        println!(
            "cargo::error={} is missing: run `./sgub` at the root of the repository, which builds it, \
             or name the directory of libsgub.a in SGUB_LIB_DIR",
            archive.display()
        );
    }
}

/// What SGUB_LIB_DIR names, else where `./sgub` puts it.
fn directory() -> PathBuf {
    if let Some(named) = env::var_os("SGUB_LIB_DIR") {
        return PathBuf::from(named);
    }
    let package = env::var_os("CARGO_MANIFEST_DIR").expect("cargo sets CARGO_MANIFEST_DIR");
    let root = Path::new(&package).ancestors().nth(2);
    root.expect("the package is in rust/sgub")
        .join("target/staticlib")
}
