//! Links the yardstick's C engine where it was built.

fn main() {
    if std::env::var_os("CARGO_FEATURE_YARDSTICK").is_some() {
        println!("cargo:rustc-link-search=native={}/../../target/yardstick", env!("CARGO_MANIFEST_DIR"));
        println!("cargo:rustc-link-lib=static=yard");
    }
}
