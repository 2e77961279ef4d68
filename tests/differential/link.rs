//! How a build script links the proved library; the benchmark's uses it too.

use std::env;
use std::path::Path;

const FOLDER: &str = "GWIRANDOL_LIB";
const FILE: &str = "libgwirandol.a";

/// Links the library from the folder that the environment names, or from the
/// usual one. Both are relative to the package that is built.
pub fn library(usual: &str) {
    println!("cargo::rerun-if-env-changed={FOLDER}");
    let folder = env::var(FOLDER).unwrap_or_else(|_| usual.to_string());
    let file = Path::new(&folder).join(FILE);
    // Before the test below, so that a library that comes later is seen.
    println!("cargo::rerun-if-changed={}", file.display());
    if !file.is_file() {
        println!(
            "cargo::error={} is missing: build it with `share/build library` in the \
             repository's root, or name its folder in {FOLDER}",
            file.display()
        );
        return;
    }
    match Path::new(&folder).canonicalize() {
        Ok(path) => println!("cargo::rustc-link-search=native={}", path.display()),
        Err(error) => println!("cargo::error={folder} has no path: {error}"),
    }
    println!("cargo::rustc-link-lib=static=gwirandol");
}
