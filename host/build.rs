//! Links the proved static libraries, which `./build` writes.

use std::env;
use std::path::Path;
use std::process::exit;

/// The libraries that have the functions of include/udgornwy.h: those of board and tool, and those on captures.
const LIBRARIES: [&str; 2] = ["firmware", "dataset"];

fn main() {
    let host = env::var("CARGO_MANIFEST_DIR").unwrap_or_else(|_| String::from("."));
    let folder = Path::new(&host).join("../target/staticlib");
    for library in LIBRARIES {
        let archive = folder.join(format!("lib{library}.a"));
        if !archive.is_file() {
            eprintln!("target/staticlib/lib{library}.a is missing: run `./build {library}` in the repository's root first");
            exit(1);
        }
        println!("cargo:rerun-if-changed={}", archive.display());
        println!("cargo:rustc-link-lib=static={library}");
    }
    println!("cargo:rustc-link-search=native={}", folder.display());
    // Where the archives stand that a C program links: tests compile some.
    println!("cargo:rustc-env=UDGORNWY_ARCHIVES={}", folder.display());
}
