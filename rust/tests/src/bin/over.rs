//! The search for an over set beside the reference: `pattern_over`.

use std::process::ExitCode;

use pattern_tests::calls::over;
use pattern_tests::facts::{Sheet, MOST_ELEMENTS};
use pattern_tests::graph::Graph;
use pattern_tests::matching::by_matching;
use pattern_tests::over::by_subsets;
use pattern_tests::run::{rules, Hex, Run};
use pattern_tests::set::size;
use pattern_tests::{damage, dress, tags};

const ROUNDS: usize = 30_000;
/// The most elements for which every set is looked at.
const FEW: usize = 10;
const NOT_OVER: &str = "not over";

fn main() -> ExitCode {
    let mut run = Run::start("over", 50_463_032);
    for pairs in 0..1 << 10 {
        let mut graph = five_points(pairs);
        sheet(&mut run, &graph);
        run.random.shuffle(&mut graph.pairs);
        sheet(&mut run, &graph);
    }
    for _ in 0..ROUNDS {
        let few = dress::any(FEW, &mut run.random);
        found(&mut run, &few);
        let many = dress::any(MOST_ELEMENTS, &mut run.random);
        found(&mut run, &many);
        let bytes = tags::any(&many, &mut run.random);
        let damaged = damage::aimed(&bytes, &mut run.random);
        over(&mut run, &damaged);
    }
    rules((1..=10).chain(17..=19)).for_each(|rule| run.must("pattern_over", &rule, 500));
    rules([20]).for_each(|rule| run.must("pattern_over", &rule, 50));
    for set in [NOT_OVER, "set of 4", "set of 5 to 16", "set of 17 to 64"] {
        run.must("sheets", set, 1_000);
    }
    for set in [NOT_OVER, "set of 4", "set of 5 to 16"] {
        run.must("sheets looked at set by set", set, 1_000);
    }
    run.finish()
}

/// Five elements with those of the ten pairs, in dictionary order, whose bit stands.
fn five_points(pairs: usize) -> Graph {
    let all = (0..4).flat_map(|a| (a + 1..5).map(move |b| (a, b)));
    Graph::of(5, all.enumerate().filter(|(bit, _)| pairs >> bit & 1 == 1).map(|(_, pair)| pair))
}

/// Compares a graph's sheet.
fn sheet(run: &mut Run, graph: &Graph) {
    let sheet = dress::dress(graph, &mut run.random);
    found(run, &sheet);
}

/// Compares an accepted sheet; where it has few elements, the reference's two methods too.
fn found(run: &mut Run, sheet: &Sheet) {
    let bytes = tags::any(sheet, &mut run.random);
    let answer = by_matching(sheet);
    let name = answer.map_or(NOT_OVER, |over| match size(over.set) {
        0..=4 => "set of 4",
        5..=16 => "set of 5 to 16",
        _ => "set of 17 to 64",
    });
    run.count("sheets", name);
    if sheet.n() <= FEW {
        run.count("sheets looked at set by set", name);
        run.same("reference", &Hex(&bytes), answer, by_subsets(sheet));
    }
    over(run, &bytes);
}
