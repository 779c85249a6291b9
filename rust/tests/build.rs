//! Links the static library that `make proved` leaves under the repository's root.

use std::path::PathBuf;

fn main() {
    let folder = PathBuf::from(env!("CARGO_MANIFEST_DIR")).join("../../target/staticlib");
    let library = folder.join("libpattern_c.a");
    println!("cargo:rustc-link-search=native={}", folder.display());
    println!("cargo:rustc-link-lib=static=pattern_c");
    println!("cargo:rerun-if-changed={}", library.display());
}
