//! Compiles `solver.c` with libslvs' own header and links both.

use std::env;
use std::path::PathBuf;
use std::process::Command;

fn main() {
    let folder = PathBuf::from(env::var_os("OUT_DIR").expect("cargo names a folder"));
    let (object, archive) = (folder.join("solver.o"), folder.join("libsolver.a"));
    run(Command::new("cc").args(["-std=c99", "-O2", "-Wall", "-Wextra", "-c", "solver.c", "-o"]).arg(&object));
    run(Command::new("ar").arg("rcs").arg(archive).arg(object));
    println!("cargo:rustc-link-search=native={}", folder.display());
    println!("cargo:rustc-link-lib=static=solver");
    println!("cargo:rustc-link-lib=slvs");
    println!("cargo:rustc-link-lib=m");
    println!("cargo:rerun-if-changed=solver.c");
}

/// Runs a command that must succeed.
fn run(command: &mut Command) {
    let done = command.status().map_or(false, |status| status.success());
    assert!(done, "{command:?}");
}
