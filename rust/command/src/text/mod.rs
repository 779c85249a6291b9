//! A sheet as text: a statement a line, with names, units and comments.
//!
//! ```text
//! point A B            # points, numbered from 0 in the order of their names
//! line bottom
//! circle lamp 45.0 mm  # its radius
//! distance A B 600.0 mm
//! distance A bottom 30
//! angle bottom left 90 deg
//! on A bottom
//! tangent lamp bottom
//! tangent lamp ring other
//! point C at 300 200   # rough places for the layout, in millimetres
//! line ridge from 0 400 to 600 400
//! ```

mod edit;
mod line;
mod number;
mod parse;
pub mod places;
mod print;

pub use edit::{change, placed};
pub use line::{quoted, Line};
pub use number::{degrees, millimetres};
pub use parse::{parse, pull, statement, Text};
pub use places::Rough;
pub use print::{constraint, default_names, print, print_placed};

/// The word of the other contact.
const OTHER: &str = "other";
