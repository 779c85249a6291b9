//! Constraint graphs of points, of many shapes, most of them near the line between over and not.

use pattern_tests::facts::MOST_ELEMENTS;
use pattern_tests::graph::Graph;
use pattern_tests::random::Random;
use pattern_tests::shapes;

/// The graphs of document 01's "Sheets to try" that are points with distances, and its count of 64.
pub fn document_01() -> [Graph; 8] {
    let report = [(0, 1), (0, 2), (1, 2), (1, 3), (2, 3)];
    let over = [(0, 1), (0, 2), (1, 2), (1, 3), (2, 3), (0, 3)];
    [
        Graph::new(2),
        shapes::strip(2),
        shapes::bipartite(1, 4),
        Graph::of(4, report),
        Graph::of(4, over),
        Graph::of(5, over),
        shapes::bipartite(3, 6),
        shapes::strip(64),
    ]
}

/// A random graph, mostly of few elements.
pub fn any(random: &mut Random) -> Graph {
    let n = match random.below(20) {
        0 => random.between(25, MOST_ELEMENTS),
        1..=4 => random.between(2, 6),
        _ => random.between(6, 24),
    };
    let mut graph = match random.below(8) {
        0 => nearly(shapes::henneberg(n, random.pick(&[0, 30, 90]), random), random),
        1 => nearly(shapes::merge_tree(n, random), random),
        2 => stuck(n, random),
        3 => over_in_part(n, random),
        _ => return shapes::any(n, random),
    };
    graph.rename(random);
    random.shuffle(&mut graph.pairs);
    graph
}

/// A graph of 2n-3 pairs with up to one pair less and up to one pair more.
fn nearly(mut full: Graph, random: &mut Random) -> Graph {
    full.part_random(random.below(2), random);
    full.join_random(random.below(2), random);
    full
}

/// A graph grown from one that is full and has no open merge; for few elements any graph.
fn stuck(n: usize, random: &mut Random) -> Graph {
    if n < 6 {
        return shapes::any(n, random);
    }
    let core = if random.chance(50) { shapes::bipartite(3, 6) } else { shapes::prism(6) };
    shapes::grown(&core, n, random.pick(&[0, 0, 30, 90]), random)
}

/// A loose graph on whose first elements a part is full, with up to one pair more.
fn over_in_part(n: usize, random: &mut Random) -> Graph {
    let m = random.between(2, n.min(9));
    let mut part = shapes::henneberg(m, random.pick(&[0, 30, 90]), random);
    part.join_random(random.below(2), random);
    let mut graph = Graph { n, pairs: part.pairs };
    graph.join_random(random.below(n), random);
    graph
}
