//! Finds the archive of the proved library.

use std::env;
use std::path::{Path, PathBuf};
use std::process::exit;

fn main() {
    println!("cargo:rerun-if-changed=build.rs");
    println!("cargo:rerun-if-env-changed=HADLEPHOGA_LIB_DIR");
    let folder = folder();
    let archive = folder.join("libhadlephoga.a");
    println!("cargo:rerun-if-changed={}", archive.display());
    if !archive.is_file() {
        eprintln!("{} is not there.", archive.display());
        eprintln!("From the top of the project, run: tools/build");
        eprintln!("or set HADLEPHOGA_LIB_DIR to the folder that holds libhadlephoga.a.");
        exit(1);
    }
    println!("cargo:rustc-link-search=native={}", folder.display());
    println!("cargo:rustc-link-lib=static=hadlephoga");
}

/// Where the archive is looked for; a relative folder is taken from this package.
fn folder() -> PathBuf {
    let package = env::var_os("CARGO_MANIFEST_DIR").expect("cargo sets CARGO_MANIFEST_DIR");
    let package = Path::new(&package);
    match env::var_os("HADLEPHOGA_LIB_DIR") {
        Some(folder) => package.join(folder),
        None => package.join("../../target/staticlib"),
    }
}
