//! The merges that are open beside plain Rust, by all threes: after every count of steps, and more than there are, on small sheets of every kind and
//! on the bench's shapes, in their order and in others.

use std::process::ExitCode;

use pattern_tests::facts::{Rule, Sheet, MOST_CONSTRAINTS};
use pattern_tests::graph::Graph;
use pattern_tests::interface::Found;
use pattern_tests::random::Random;
use pattern_tests::run::{rules, Hex, Run};
use pattern_tests::{calls, damage, dress, shapes, tags, writer};

fn main() -> ExitCode {
    let mut run = Run::start("open", 50_463_042);
    for _ in 0..10_000 {
        let most = run.random.between(2, 16);
        let sheet = dress::any(most, &mut run.random);
        every_count(&mut run, &sheet);
    }
    for shape in SHAPES {
        for n in [12, 16, 32, 64] {
            mixed(&mut run, n, shape);
        }
    }
    for rule in rules((1..=11).chain(17..=20)) {
        run.must("pattern_open", &rule, 20);
    }
    for (open, least) in [("0", 1_000), ("1", 1_000), ("2", 500), ("10", 50), ("40", 3), ("62", 2)] {
        run.must("open", open, least);
    }
    run.must("order", "not by the numbers alone", 500);
    run.finish()
}

/// A family of graphs.
type Shape = fn(usize, &mut Random) -> Graph;

/// The shapes of the bench.
const SHAPES: [Shape; 17] = [
    |n, _| shapes::strip(n),
    |n, _| shapes::fan(n),
    |n, _| shapes::book(n),
    |n, _| shapes::row(n),
    |n, _| shapes::closed_late(n, n / 2),
    |n, _| shapes::closed_late(n, n * 2 / 3),
    shapes::merge_tree,
    shapes::frame,
    |n, random| shapes::henneberg(n, 0, random),
    |n, random| shapes::henneberg(n, 30, random),
    |n, random| shapes::henneberg(n, 90, random),
    |n, random| less(shapes::merge_tree(n, random), n / 8, random),
    |n, random| less(shapes::strip(n), 1, random),
    |n, random| shapes::scattered(n, n + n / 2, random),
    |n, random| shapes::scattered(n, MOST_CONSTRAINTS, random),
    |n, _| {
        Graph::of(n, (0..(n - 1) / 2).flat_map(|k| [(2 * k, 2 * k + 1), (2 * k, 2 * k + 2), (2 * k + 1, 2 * k + 2)]))
    },
    |n, _| Graph::of(n, (0..n / 2).map(|k| (2 * k, 2 * k + 1)).chain((2..n).map(|k| (k - 2, k)))),
];

/// The graph without some of its pairs.
fn less(mut graph: Graph, count: usize, random: &mut Random) -> Graph {
    graph.part_random(count, random);
    graph
}

/// Asks of a graph as it is, listed backwards, and twice with other names in another order.
fn mixed(run: &mut Run, n: usize, shape: Shape) {
    let mut graph = shape(n, &mut run.random);
    straight(run, &graph);
    graph.pairs.reverse();
    straight(run, &graph);
    for _ in 0..2 {
        graph.rename(&mut run.random);
        run.random.shuffle(&mut graph.pairs);
        straight(run, &graph);
    }
}

fn straight(run: &mut Run, graph: &Graph) {
    let sheet = dress::dress(graph, &mut run.random);
    every_count(run, &sheet);
}

/// Asks after every count of steps, after more, and of a damaged sheet.
fn every_count(run: &mut Run, sheet: &Sheet) {
    let bytes = tags::any(sheet, &mut run.random);
    let found = Found::of(&bytes);
    let plan = found.plan().unwrap_or_default();
    let steps = plan.len() / 3;
    for count in (0..=steps + 1).chain([64, 255, 256, 65_536, 1 << 32, usize::MAX]) {
        let answer = asked(run, &bytes, &found, count);
        if let Ok(numbers) = answer {
            ordered(run, sheet, &numbers, plan.chunks(3).nth(count));
        }
    }
    let damaged = damage::aimed(&bytes, &mut run.random);
    let count = run.random.below(steps + 2);
    let _ = asked(run, &damaged, &Found::of(&damaged), count);
}

/// Compares one call, and counts the merges that it lists.
fn asked(run: &mut Run, bytes: &[u8], found: &Found, count: usize) -> Result<Vec<u16>, Rule> {
    let answer = calls::open(run, bytes, found, count);
    if let Ok(numbers) = &answer {
        run.count("open", numbers.len() / 3);
    }
    answer
}

/// Compares, in the reference, the list with the plan: its first merge by the numbers alone is the next step, no list has more than n-2, and none is
/// left after all steps.
fn ordered(run: &mut Run, sheet: &Sheet, numbers: &[u16], next: Option<&[u16]>) {
    let first = numbers.chunks(3).min();
    let input = Hex(&writer::bytes(sheet)).to_string();
    run.same("reference", &input, first, next);
    run.same("reference", &input, numbers.len() / 3 + 2 <= sheet.n(), true);
    if numbers.chunks(3).zip(numbers.chunks(3).skip(1)).any(|(merge, next)| merge > next) {
        run.count("order", "not by the numbers alone");
    }
}
