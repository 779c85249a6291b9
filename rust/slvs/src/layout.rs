//! Points laid out in the plane.

use pattern_tests::facts::{Constraint, Kind, Sheet};
use pattern_tests::graph::Graph;
use pattern_tests::random::Random;

/// The places of the points, in tenths of a millimetre.
pub struct Layout {
    pub places: Vec<[f64; 2]>,
}

/// The side of the square that points are laid out in: its diagonal is below the longest distance of a sheet.
const SIDE: f64 = 28_000.0;

impl Layout {
    /// n points at random places.
    pub fn random(n: usize, random: &mut Random) -> Layout {
        let mut place = || (random.bits() >> 11) as f64 / (1_u64 << 53) as f64 * SIDE;
        Layout { places: (0..n).map(|_| [place(), place()]).collect() }
    }

    /// The sheet that measures the graph's pairs in this layout, rounded to what a sheet takes.
    pub fn measured(&self, graph: &Graph) -> Sheet {
        let size = |a, b| self.distance(a, b).round().max(1.0) as i32;
        let constraint = |&(a, b): &(usize, usize)| Constraint::sized(a as u8, b as u8, size(a, b));
        Sheet::first(vec![Kind::Point; graph.n], graph.pairs.iter().map(constraint).collect())
    }

    /// The distance of two points.
    fn distance(&self, a: usize, b: usize) -> f64 {
        let ([ax, ay], [bx, by]) = (self.places[a], self.places[b]);
        (ax - bx).hypot(ay - by)
    }
}
