//! Links the static library, `libpattern_c.a` or the installed `libpattern.a`: from the folder that PATTERN_LIB_DIR
//! names; else from this package's own for the target, from where `make` and `make targets` leave it under the
//! repository's root, or from the folder lib of the prefix that this package is installed in; else from where
//! pkg-config says.

use std::env;
use std::path::{Path, PathBuf};
use std::process::Command;

/// The folder of a target's library: in a package, and under the repository's root.
const FOLDERS: [(&str, &str, &str); 4] = [
    ("x86_64-unknown-linux-gnu", "lib/x86_64-linux", "target/staticlib"),
    ("aarch64-unknown-linux-gnu", "lib/aarch64-linux", "target/targets/aarch64-linux"),
    ("x86_64-pc-windows-gnu", "lib/x86_64-windows", "target/targets/x86_64-windows"),
    ("wasm32-unknown-unknown", "lib/wasm32", "target/targets/wasm32"),
];

/// The file of the library in a folder, by the library's name: the proved functions alone, or the installed one.
fn file(folder: &Path, name: &str) -> PathBuf {
    folder.join(format!("lib{name}.a"))
}

/// The name of the library that a folder holds.
fn held(folder: &Path) -> Option<&'static str> {
    ["pattern_c", "pattern"].into_iter().find(|name| file(folder, name).exists())
}

/// Where the library may be installed, where the program is for this machine: in the prefix of this package, or where
/// pkg-config says.
fn installed(root: &Path, target: &str) -> Vec<PathBuf> {
    if env::var("HOST").ok().as_deref() != Some(target) {
        return Vec::new();
    }
    let asked = Command::new("pkg-config").args(["--variable=libdir", "pattern"]).output();
    let said = asked.map_or(String::new(), |asked| String::from_utf8_lossy(&asked.stdout).trim().to_string());
    vec![root.join("../../../lib"), PathBuf::from(said)]
}

/// The folder to link from.
fn folder() -> PathBuf {
    if let Some(folder) = env::var_os("PATTERN_LIB_DIR") {
        return folder.into();
    }
    let target = env::var("TARGET").expect("cargo names the target");
    let root = Path::new(env!("CARGO_MANIFEST_DIR"));
    let known = FOLDERS.iter().find(|(name, _, _)| *name == target);
    let (_, packed, built) = known.unwrap_or_else(|| panic!("there is no library for {target}: set PATTERN_LIB_DIR"));
    let (packed, built) = (root.join(packed), root.join("../..").join(built));
    let places = [packed, built.clone()].into_iter().chain(installed(root, &target));
    // what only looks at the code needs no library
    places.into_iter().find(|folder| held(folder).is_some()).unwrap_or(built)
}

fn main() {
    let folder = folder();
    let name = held(&folder).unwrap_or_else(|| {
        println!("cargo:warning=no libpattern.a in {}: install it, or set PATTERN_LIB_DIR", folder.display());
        "pattern_c"
    });
    println!("cargo:rerun-if-env-changed=PATTERN_LIB_DIR");
    println!("cargo:rerun-if-env-changed=PKG_CONFIG_PATH");
    println!("cargo:rerun-if-changed={}", file(&folder, name).display());
    println!("cargo:rustc-link-search=native={}", folder.display());
    println!("cargo:rustc-link-lib=static={name}");
}
