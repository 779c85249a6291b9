//! The geometric constraint engine for flat patterns, in safe Rust over its static library.
//!
//! A call answers what it wrote at the front of the lent space, or the [`Rule`] that refuses it; a refused call leaves
//! the space as it was.
//!
//! ```
//! use pattern::{Constraint, Facts, Kind, MOST_BYTES, MOST_REPORT};
//!
//! // three points, 30 mm apart
//! let constraints = [
//!     Constraint::sized(0, 1, 300),
//!     Constraint::sized(0, 2, 300),
//!     Constraint::sized(1, 2, 300),
//! ];
//! let facts = Facts::pf01(&[Kind::Point; 3], &constraints);
//! let mut space = [0; MOST_BYTES];
//! let sheet = pattern::write(&facts, &mut space)?;
//! assert_eq!(sheet.len(), 28);
//!
//! let mut space = [0; MOST_REPORT];
//! let report = pattern::report(sheet, &mut space)?;
//! assert_eq!(report.lines().next(), Some("verdict well"));
//! # Ok::<(), pattern::Rule>(())
//! ```

mod answer;
mod c;
mod facts;
mod limits;
mod plan;
mod report;
mod rule;
mod sheet;
mod sketch;
mod verdict;

pub use facts::{Constraint, Dimension, Facts, Kind, Opening};
pub use limits::*;
pub use plan::{chain, clusters, initial, open, plan, rests, saved_steps, shared, steps, JointKind, Step};
pub use report::{check_plan, part, part_bytes, part_steps, report};
pub use rule::Rule;
pub use sheet::{longest, rewrite, write};
pub use sketch::Sketch;
pub use verdict::{card, missing, over, verdict, Over, Verdict};
