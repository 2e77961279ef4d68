//! Links the proved library and the check in plain C.

use std::env;
use std::path::Path;
use std::process::Command;

#[path = "../tests/differential/link.rs"]
mod link;

fn main() {
    link::library("../crates/gwirandol/out");
    if let Err(error) = plain_check() {
        println!("cargo::error={error}");
    }
}

/// Compiles `check.c` as C programs usually are.
fn plain_check() -> Result<(), String> {
    println!("cargo::rerun-if-changed=check.c");
    println!("cargo::rerun-if-env-changed=CC");
    let out = env::var("OUT_DIR").map_err(|error| error.to_string())?;
    let (object, archive) = (
        Path::new(&out).join("check.o"),
        Path::new(&out).join("libplain_check.a"),
    );
    let compiler = env::var("CC").unwrap_or_else(|_| "cc".to_string());
    let flags = ["-std=c11", "-O3", "-Wall", "-Wextra", "-Werror", "-c"];
    run(Command::new(compiler)
        .args(flags)
        .arg("check.c")
        .arg("-o")
        .arg(&object))?;
    run(Command::new("ar").arg("crs").arg(&archive).arg(&object))?;
    println!("cargo::rustc-link-search=native={out}");
    println!("cargo::rustc-link-lib=static=plain_check");
    Ok(())
}

fn run(command: &mut Command) -> Result<(), String> {
    match command.status() {
        Ok(status) if status.success() => Ok(()),
        Ok(status) => Err(format!("{command:?}: {status}")),
        Err(error) => Err(format!("{command:?}: {error}")),
    }
}
