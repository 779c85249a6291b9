//! The time of a solve by SolveSpace's libslvs.
//!
//! It is not asked which constraints are redundant. Started from the layout in which the distances are measured it
//! has nothing to move; started from a drawing that is right to the millimetre, no point moves far.

use pattern_slvs::layout::Layout;
use pattern_slvs::solver::{clock, solve, Drawing};
use pattern_tests::graph::Graph;
use pattern_tests::random::Random;
use pattern_tests::reader::read;

use crate::timing::black_box;

/// How many sheets of a pool are solved.
const SHEETS: usize = 8;
/// How often each is solved; the lowest time counts.
const TURNS: usize = 5;

/// The processor time of a solve in nanoseconds, the mean over some sheets of a pool.
pub fn solve_time(pool: &[Vec<u8>], drawing: Drawing) -> f64 {
    let random = &mut Random::new(1);
    let times = pool.iter().take(SHEETS).map(|bytes| lowest(&graph(bytes), drawing, random));
    times.sum::<f64>() / SHEETS.min(pool.len()) as f64
}

/// The lowest time of a graph's solves.
fn lowest(graph: &Graph, drawing: Drawing, random: &mut Random) -> f64 {
    let layout = Layout::random(graph.n, random);
    let time = |_| {
        let start = clock();
        black_box(solve(black_box(graph), &layout, drawing));
        clock() - start
    };
    (0..TURNS).map(time).fold(f64::INFINITY, f64::min)
}

/// The constraint graph of a sheet.
fn graph(bytes: &[u8]) -> Graph {
    let sheet = read(bytes).expect("an accepted sheet");
    Graph::of(sheet.n(), sheet.constraints.iter().map(|c| (c.first.into(), c.second.into())))
}
