//! File names with `*` and `?`, which Windows leaves to the program.

use std::ffi::OsString;
use std::path::Path;

use crate::disk;

/// The files that an argument stands for, by name; itself where it has no wildcard in its last part, or no file has such a name.
pub fn expand(argument: OsString) -> Vec<OsString> {
    let found = argument.to_str().map_or(Vec::new(), files);
    if found.is_empty() {
        vec![argument]
    } else {
        found
    }
}

/// The files of a pattern's folder that it matches.
fn files(pattern: &str) -> Vec<OsString> {
    let cut = pattern.rfind(|c| c == '/' || cfg!(windows) && (c == '\\' || c == ':')).map_or(0, |at| at + 1);
    let (folder, wanted) = pattern.split_at(cut);
    if !wanted.contains(['*', '?']) {
        return Vec::new();
    }
    let entries = disk::list(Path::new(if folder.is_empty() { "." } else { folder })).unwrap_or_default();
    let names = entries.into_iter().filter_map(|entry| entry.name.into_string().ok());
    let mut found: Vec<String> = names.filter(|name| matches(&wanted.to_lowercase(), &name.to_lowercase())).collect();
    found.sort();
    found.into_iter().map(|name| OsString::from(folder.to_string() + &name)).collect()
}

/// Whether a name matches: a star stands for any characters, a question mark for one.
fn matches(wanted: &str, name: &str) -> bool {
    let (mut left, mut rest) = (wanted.chars(), name.chars());
    match left.next() {
        None => name.is_empty(),
        Some('*') => name.char_indices().map(|(i, _)| &name[i..]).chain([""]).any(|rest| matches(left.as_str(), rest)),
        Some(c) => rest.next().map_or(false, |d| c == '?' || c == d) && matches(left.as_str(), rest.as_str()),
    }
}

#[cfg(test)]
mod tests {
    use super::*;

    #[test]
    fn names_match() {
        for (wanted, name) in
            [("*.txt", "a.txt"), ("*", "a"), ("a?c", "aäc"), ("*a*b", "xaab"), ("a*", "a"), ("**", "")]
        {
            assert!(matches(wanted, name), "{wanted} {name}");
        }
        for (wanted, name) in [("*.txt", "a.txt.old"), ("?", ""), ("a?c", "ac"), ("*a*b", "ba"), ("", "a")] {
            assert!(!matches(wanted, name), "{wanted} {name}");
        }
    }

    #[test]
    fn files_of_a_folder() {
        let expanded = |pattern: &str| expand(pattern.into());
        assert_eq!(expanded("src/wild*.RS"), ["src/wildcard.rs"]);
        assert_eq!(expanded("?argo.toml"), ["Cargo.toml"]);
        for as_it_is in ["src/main.rs", "src/none*.rs", "*/main.rs", "no folder/*", "distance A B 5"] {
            assert_eq!(expanded(as_it_is), [as_it_is]);
        }
    }
}
