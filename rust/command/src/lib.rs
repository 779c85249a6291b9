//! The command `pattern`: sheets as text, verdicts in words, plans and pictures, over the proved library.
//!
//! Every sheet passes through the proved reader or writer, and every verdict, plan and report is the proved library's. What is plain Rust here is the
//! text form, the words, and the layout of pictures.

pub mod advice;
pub mod cli;
pub mod commands;
pub mod csv;
pub mod describe;
pub mod disk;
pub mod document;
pub mod draw;
pub mod encoding;
pub mod engine;
pub mod fault;
pub mod fields;
pub mod files;
pub mod finding;
pub mod hint;
pub mod json;
pub mod merges;
pub mod near;
#[cfg_attr(target_family = "wasm", path = "alone.rs")]
pub mod parallel;
pub mod plans;
pub mod prices;
pub mod program;
pub mod sheet;
pub mod steps;
pub mod text;
pub mod wildcard;
