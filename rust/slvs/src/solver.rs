//! libslvs, made safe.

use pattern_tests::facts::{MOST_CONSTRAINTS, MOST_ELEMENTS};
use pattern_tests::graph::Graph;

use crate::layout::Layout;

mod c {
    extern "C" {
        pub fn solver_solve(
            n: usize,
            at: *const [f64; 2],
            e: usize,
            pairs: *const [u8; 2],
            rough: i32,
            dof: *mut i32,
        ) -> i32;
        pub fn solver_clock() -> f64;
    }
}

/// What libslvs says of a graph's distances, measured in a layout.
#[derive(Clone, Copy, PartialEq, Eq, Debug)]
pub enum Solved {
    /// They depend on each other. (libslvs has one number for redundant and inconsistent; measured distances do
    /// not contradict each other.)
    Redundant,
    /// They do not, and leave this many freedoms beyond the plane's three motions.
    Freedoms(i32),
    /// The solver gave up, with this number.
    Failed(i32),
}

/// What the solver starts from.
#[derive(Clone, Copy, PartialEq, Eq, Debug)]
pub enum Drawing {
    /// The layout in which the distances are measured: no point has to move.
    Exact,
    /// Points to the nearest millimetre, and distances in whole tenths of one, as a sheet holds them.
    Rough,
}

/// Solves the graph with the distances that are measured in the layout.
pub fn solve(graph: &Graph, layout: &Layout, drawing: Drawing) -> Solved {
    let pairs: Vec<[u8; 2]> = graph.pairs.iter().map(|&(a, b)| [a as u8, b as u8]).collect();
    let n = layout.places.len();
    assert!(n == graph.n && n <= MOST_ELEMENTS && pairs.len() <= MOST_CONSTRAINTS);
    assert!(pairs.iter().flatten().all(|&end| usize::from(end) < n));
    let mut dof = 0;
    let rough = i32::from(drawing == Drawing::Rough);
    let result = unsafe { c::solver_solve(n, layout.places.as_ptr(), pairs.len(), pairs.as_ptr(), rough, &mut dof) };
    match result {
        0 => Solved::Freedoms(dof - 3),
        1 => Solved::Redundant,
        other => Solved::Failed(other),
    }
}

/// The processor time that this program has had, in nanoseconds: what other programs had in between does not count.
pub fn clock() -> f64 {
    unsafe { c::solver_clock() }
}
