//! The files that a command works on: operands, the sheets in folders, and names from a list.

use std::collections::{HashMap, HashSet};
use std::ffi::{OsStr, OsString};
use std::io::{Error, ErrorKind};
use std::path::{Path, PathBuf};

use crate::cli::{Call, LIST};
use crate::fault::Fault;
use crate::{disk, document};

/// How the names of sheets end, by which they are found in a folder: in text, in bytes.
const ENDINGS: [&str; 2] = ["txt", "sheet"];

/// A file to work on.
#[derive(Clone, PartialEq, Eq, Debug)]
pub struct Found {
    pub path: OsString,
    /// Where it stands in the folder that it was found in, or its name: what is made from it is named after this.
    pub name: PathBuf,
}

/// The files of a call: its operands, then those of its list; a folder stands for the sheets in it and below, in the
/// order of their names.
pub fn of(call: &Call) -> Result<Vec<Found>, Fault> {
    let listed = match call.value(&LIST) {
        Some(path) => names(&document::read_all(path)?),
        None => Vec::new(),
    };
    let mut found = Vec::new();
    for path in call.operands.iter().chain(&listed) {
        if path != "-" && disk::is_folder(Path::new(path)) {
            let before = found.len();
            gather(Path::new(path), Path::new(""), &mut found)?;
            if found.len() == before {
                let error = Error::new(ErrorKind::NotFound, "no file in this folder ends in .txt or .sheet");
                return Err(Fault::File { path: document::shown(path), error });
            }
        } else {
            let name = Path::new(path).file_name().unwrap_or_else(|| OsStr::new("sheet"));
            let name = if path == "-" { OsStr::new("sheet") } else { name };
            found.push(Found { path: path.clone(), name: PathBuf::from(name) });
        }
    }
    Ok(found)
}

/// The sheets of a folder and of the folders in it; what begins with a dot is passed over, and so are links to
/// folders.
fn gather(folder: &Path, within: &Path, found: &mut Vec<Found>) -> Result<(), Fault> {
    let fault = |error| Fault::File { path: folder.display().to_string(), error };
    for entry in disk::list(folder).map_err(fault)? {
        let (path, name) = (folder.join(&entry.name), within.join(&entry.name));
        if entry.name.to_string_lossy().starts_with('.') {
            continue;
        } else if entry.folder {
            gather(&path, &name, found)?;
        } else if path.extension().map_or(false, |ending| ENDINGS.iter().any(|known| ending == *known)) {
            found.push(Found { path: path.into_os_string(), name });
        }
    }
    Ok(())
}

/// The names of a list: a line each, or, where it has zero bytes, what stands between these.
fn names(list: &[u8]) -> Vec<OsString> {
    let end = if list.contains(&0) { 0 } else { b'\n' };
    let trimmed = |name: &[u8]| match name {
        [rest @ .., b'\r'] if end == b'\n' => rest.to_vec(),
        _ => name.to_vec(),
    };
    list.split(|byte| *byte == end).map(trimmed).filter(|name| !name.is_empty()).map(os).collect()
}

/// A name from its bytes.
#[cfg(unix)]
fn os(name: Vec<u8>) -> OsString {
    std::os::unix::ffi::OsStringExt::from_vec(name)
}

/// A name from its bytes, which are UTF-8 where names are not bytes.
#[cfg(not(unix))]
fn os(name: Vec<u8>) -> OsString {
    String::from_utf8_lossy(&name).into_owned().into()
}

/// The names of what is made from files, in a folder: each file's own with another ending. Where two would be one,
/// they keep their old endings before it, and where these are one too, they are numbered.
pub fn outputs(folder: &Path, files: &[Found], ending: &str) -> Vec<PathBuf> {
    let short = |found: &Found| found.name.with_extension(ending);
    let long = |found: &Found, number: usize| {
        let mut name = found.name.clone().into_os_string();
        name.push(if number == 0 { format!(".{ending}") } else { format!(".{number}.{ending}") });
        PathBuf::from(name)
    };
    let mut wanted: HashMap<PathBuf, usize> = HashMap::new();
    files.iter().for_each(|found| *wanted.entry(short(found)).or_default() += 1);
    let mut taken = HashSet::new();
    let mut choose = |found: &Found| {
        let alone = wanted.get(&short(found)) == Some(&1);
        let first = if alone { short(found) } else { long(found, 0) };
        let mut names = std::iter::once(first).chain((1..).map(|number| long(found, number)));
        names.find(|name| taken.insert(name.clone())).unwrap_or_default()
    };
    files.iter().map(|found| folder.join(choose(found))).collect()
}

#[cfg(test)]
mod tests {
    use super::*;

    #[test]
    fn lists_are_lines_or_zero_ended() {
        assert_eq!(names(b"a b\r\n\nc"), ["a b", "c"]);
        assert_eq!(names(b"a\nb\0c\0"), ["a\nb", "c"]);
        assert!(names(b"").is_empty());
    }

    #[test]
    fn no_two_outputs_have_one_name() {
        let found = |name: &str| Found { path: name.into(), name: name.into() };
        let files = ["a.txt", "b.sheet", "a.sheet", "sub/a.txt", "a.txt"].map(found);
        let wanted = ["a.txt.svg", "b.svg", "a.sheet.svg", "sub/a.svg", "a.txt.1.svg"];
        assert_eq!(outputs(Path::new("out"), &files, "svg"), wanted.map(|name| Path::new("out").join(name)));
    }
}
