//! The files of a page: a table of names and bytes, in memory. A name with a slash is a file of a folder; standard
//! input is the file "-". Its complaints are worded as Linux words them.

use std::cell::RefCell;
use std::collections::BTreeMap;
use std::ffi::OsStr;
use std::io::{self, ErrorKind};
use std::path::Path;

use super::Entry;

/// The files, and the names of those that were written since the table was laid.
type Table = (BTreeMap<String, Vec<u8>>, Vec<String>);

thread_local! {
    static FILES: RefCell<Table> = RefCell::new(Table::default());
}

/// Lays the table: from now on there are these files alone.
pub fn lay(files: impl IntoIterator<Item = (String, Vec<u8>)>) {
    let files = files.into_iter().map(|(name, content)| (key(Path::new(&name)), content)).collect();
    FILES.with(|table| *table.borrow_mut() = (files, Vec::new()));
}

/// Clears the table: the files that were written, in the order of their first writing.
pub fn take_written() -> Vec<(String, Vec<u8>)> {
    let (mut files, written) = FILES.with(RefCell::take);
    written.into_iter().filter_map(|name| files.remove(&name).map(|content| (name, content))).collect()
}

/// The name of a path in the table: without "." and a slash at its end.
fn key(path: &Path) -> String {
    let path = path.components().collect::<std::path::PathBuf>();
    path.strip_prefix(".").unwrap_or(&path).to_string_lossy().into_owned()
}

/// What a folder's files begin with.
fn beginning(folder: &Path) -> String {
    match key(folder).as_str() {
        "" => String::new(),
        name => format!("{}/", name.trim_end_matches('/')),
    }
}

/// The first bytes of a file.
pub fn read(path: &OsStr, most: u64) -> io::Result<Vec<u8>> {
    let path = Path::new(path);
    if is_folder(path) {
        return Err(io::Error::new(ErrorKind::Other, "Is a directory"));
    }
    let most = usize::try_from(most).unwrap_or(usize::MAX);
    let content = FILES.with(|table| {
        let found = table.borrow().0.get(&key(path)).map(|content| content[..content.len().min(most)].to_vec());
        found.or_else(|| (path == Path::new("-")).then(Vec::new))
    });
    content.ok_or_else(|| io::Error::new(ErrorKind::NotFound, "No such file or directory"))
}

/// Writes a file.
pub fn write(path: &Path, content: &[u8]) -> io::Result<()> {
    if is_folder(path) {
        return Err(io::Error::new(ErrorKind::Other, "Is a directory"));
    }
    FILES.with(|table| {
        let (files, written) = &mut *table.borrow_mut();
        let name = key(path);
        if !written.contains(&name) {
            written.push(name.clone());
        }
        files.insert(name, content.to_vec());
    });
    Ok(())
}

/// Makes a folder: folders are there as soon as they hold a file.
pub fn make_folder(_: &Path) -> io::Result<()> {
    Ok(())
}

/// Whether a name is that of a folder.
pub fn is_folder(path: &Path) -> bool {
    let beginning = beginning(path);
    beginning.is_empty() || FILES.with(|table| table.borrow().0.keys().any(|name| name.starts_with(&beginning)))
}

/// What a folder holds, in the order of the names.
pub fn list(folder: &Path) -> io::Result<Vec<Entry>> {
    let beginning = beginning(folder);
    let entry = |rest: &str| match rest.split_once('/') {
        Some((name, _)) => Entry { name: name.into(), folder: true },
        None => Entry { name: rest.into(), folder: false },
    };
    let mut entries: Vec<Entry> = FILES
        .with(|table| table.borrow().0.keys().filter_map(|name| name.strip_prefix(&beginning)).map(entry).collect());
    entries.sort();
    entries.dedup();
    match entries[..] {
        [] => Err(io::Error::new(ErrorKind::NotFound, "No such file or directory")),
        _ => Ok(entries),
    }
}

#[cfg(test)]
mod tests {
    use super::*;

    #[test]
    fn files_and_folders() {
        lay([("a.txt", "one"), ("./b/c.txt", "two"), ("b/d/e.txt", "three")].map(|(name, s)| (name.into(), s.into())));
        assert_eq!(read("a.txt".as_ref(), 2).ok(), Some(b"on".to_vec()));
        assert_eq!(read("./b/c.txt".as_ref(), 9).ok(), Some(b"two".to_vec()));
        assert_eq!(read("b/".as_ref(), 9).map_err(|error| error.to_string()), Err("Is a directory".to_string()));
        assert_eq!(read("c.txt".as_ref(), 9).map_err(|error| error.kind()), Err(ErrorKind::NotFound));
        assert_eq!(read("-".as_ref(), 9).ok(), Some(Vec::new()));
        assert!(is_folder(Path::new("b/d")) && is_folder(Path::new(".")) && !is_folder(Path::new("a.txt")));
        let names = |folder: &str| {
            list(Path::new(folder)).map(|entries| entries.into_iter().map(|e| (e.name, e.folder)).collect::<Vec<_>>())
        };
        assert_eq!(names(".").ok(), Some(vec![("a.txt".into(), false), ("b".into(), true)]));
        assert_eq!(names("b/").ok(), Some(vec![("c.txt".into(), false), ("d".into(), true)]));
        assert!(names("no").is_err());
    }

    #[test]
    fn what_is_written_is_given_once() {
        lay([("a".to_string(), b"old".to_vec())]);
        for (name, content) in [("b", "1"), ("a", "2"), ("b", "3")] {
            write(Path::new(name), content.as_bytes()).expect("it is written");
        }
        let wanted = [("b", "3"), ("a", "2")].map(|(name, content)| (name.to_string(), content.as_bytes().to_vec()));
        assert_eq!(take_written(), wanted);
        assert_eq!(take_written(), []);
    }
}
