//! The files of the machine.

use std::ffi::OsStr;
use std::fs::{self, File};
use std::io::{self, Read};
use std::path::Path;

use super::Entry;

/// The first bytes of a file, or of standard input by the name "-".
pub fn read(path: &OsStr, most: u64) -> io::Result<Vec<u8>> {
    let mut content = Vec::new();
    if path == "-" {
        io::stdin().lock().take(most).read_to_end(&mut content)?;
    } else {
        File::open(path)?.take(most).read_to_end(&mut content)?;
    }
    Ok(content)
}

/// Writes a file.
pub fn write(path: &Path, content: &[u8]) -> io::Result<()> {
    fs::write(path, content)
}

/// Makes a folder, and those above it, where it is not there.
pub fn make_folder(path: &Path) -> io::Result<()> {
    fs::create_dir_all(path)
}

/// Whether a name is that of a folder.
pub fn is_folder(path: &Path) -> bool {
    path.is_dir()
}

/// What a folder holds, in the order of the names.
pub fn list(folder: &Path) -> io::Result<Vec<Entry>> {
    let entry =
        |entry: fs::DirEntry| entry.file_type().map(|kind| Entry { name: entry.file_name(), folder: kind.is_dir() });
    let mut entries = fs::read_dir(folder)?.map(|found| found.and_then(entry)).collect::<io::Result<Vec<_>>>()?;
    entries.sort();
    Ok(entries)
}
