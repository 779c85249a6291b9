//! A plain Rust implementation of documents 01 and 02, written by their definitions, and what is needed to run the
//! proved library beside it: random sheets, damage, lent space with guards, counts.
//!
//! The reference: `facts`, `rules`, `reader`, `first`, `writer`, `over`, `matching`, `merging`, `rings`, `verdict`, `placements`,
//! `report`, `records`, `parts`, `plans`, `sketch`, `missing`, `opens`, and `interface`, which gives the answers the C interface must give.
//! The runs: `random`, `graph`, `shapes`, `dress`, `layout`, `tags`, `damage`, `space`, `run`, `calls`, `answers`, and `ffi`, the only unsafe code.

pub mod answers;
pub mod calls;
pub mod chain;
pub mod damage;
#[cfg(test)]
mod document_01;
#[cfg(test)]
mod document_02;
pub mod dress;
pub mod facts;
pub mod ffi;
pub mod first;
pub mod graph;
pub mod interface;
pub mod layout;
pub mod matching;
pub mod merging;
pub mod missing;
pub mod opens;
pub mod orders;
pub mod over;
pub mod parts;
pub mod placements;
pub mod plans;
pub mod random;
pub mod reader;
pub mod records;
pub mod report;
pub mod rings;
pub mod rules;
pub mod run;
pub mod set;
pub mod shapes;
pub mod sketch;
pub mod space;
pub mod tags;
pub mod verdict;
pub mod writer;
