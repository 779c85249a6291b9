//! Takes the version from the C header, its one place.

const HEADER: &str = "../../include/pattern_text.h";

fn main() {
    let header = std::fs::read_to_string(HEADER).expect(HEADER);
    let version = header.lines().find_map(|line| line.strip_prefix("#define PATTERN_VERSION ")).expect("a version");
    println!("cargo:rustc-env=PATTERN_VERSION={}", version.trim().trim_matches('"'));
    println!("cargo:rerun-if-changed={HEADER}");
}
