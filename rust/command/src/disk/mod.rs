//! The one place that reads and writes files: those of the machine, or, in a page, a table of names and bytes.

#[cfg(not(target_family = "wasm"))]
mod machine;
#[cfg(any(test, target_family = "wasm"))]
pub mod table;

#[cfg(not(target_family = "wasm"))]
pub use machine::{is_folder, list, make_folder, read, write};
#[cfg(target_family = "wasm")]
pub use table::{is_folder, list, make_folder, read, write};

use std::ffi::OsString;

/// What a folder holds.
#[derive(Clone, PartialEq, Eq, PartialOrd, Ord, Debug)]
pub struct Entry {
    pub name: OsString,
    /// Whether it is a folder; a link to one is none.
    pub folder: bool,
}
