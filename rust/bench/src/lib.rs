//! The proved library beside plain Rust that is written to be fast: time a call, as ratios in one run.

pub mod cases;
pub mod held;
pub mod picture;
pub mod plain;
#[cfg(feature = "slvs")]
pub mod slvs;
pub mod summary;
pub mod table;
pub mod timing;
pub mod words;
#[cfg(feature = "yardstick")]
pub mod yardstick;
