//! The proved library beside libslvs on sheets of points: over means redundant, and where it is not over the
//! freedoms left are 2n-3-e. What the library names of an over sheet is tried too, and the dimensions that it says are missing
//! of one that is under.

use std::process::ExitCode;

use pattern_slvs::layout::Layout;
use pattern_slvs::sheets;
use pattern_slvs::solver::{solve, Drawing, Solved};
use pattern_tests::facts::Opening;
use pattern_tests::graph::Graph;
use pattern_tests::run::{Hex, Run};
use pattern_tests::set::{elements, one, size, within, Set};
use pattern_tests::{ffi, writer};

const SHEETS: usize = 2_500;
/// How many layouts are tried before a difference counts: one may be too near a special layout for the solver's
/// arithmetic.
const LAYOUTS: usize = 5;

/// The verdicts by their numbers.
const VERDICTS: [&str; 5] = ["over", "angle", "well", "stuck", "under"];
const OVER: i32 = 0;
const WELL: i32 = 2;
const STUCK: i32 = 3;
const UNDER: i32 = 4;

/// Over sheets by their constraint count.
const MORE: &str = "e above 2n-3";
const FEW: &str = "e at most 2n-3";

fn main() -> ExitCode {
    let mut run = Run::start("slvs", 31_415_926);
    bounds(&mut run);
    for graph in sheets::document_01() {
        sheet(&mut run, &graph);
    }
    for _ in 0..SHEETS {
        let graph = sheets::any(&mut run.random);
        sheet(&mut run, &graph);
    }
    for (verdict, least) in [("over", 500), ("well", 200), ("stuck", 200), ("under", 500)] {
        run.must("sheets", verdict, least);
    }
    ["by 1 to 20", "by more than 20"].iter().for_each(|which| run.must("completed", which, 50));
    [MORE, FEW].iter().for_each(|which| run.must("over sheets", which, 200));
    run.finish()
}

/// The ends of the ranges in document 01's "Sheets to try": the verdict, or the rule that must refuse.
fn bounds(run: &mut Run) {
    let (points, lines) = (0, 0b11);
    for (bytes, answer) in [
        (small_sheet(64, points, None), UNDER),
        (small_sheet(1, points, None), -3),
        (small_sheet(65, points, None), -3),
        (small_sheet(2, points, Some(40_000)), WELL),
        (small_sheet(2, points, Some(40_001)), -9),
        (small_sheet(2, lines, Some(17_999)), WELL),
        (small_sheet(2, lines, Some(18_000)), -9),
    ] {
        run.same("pattern_verdict", &Hex(&bytes), ffi::verdict(&bytes), answer);
        run.same("pattern_over", &Hex(&bytes), ffi::over(&bytes, &mut [0; 2]), answer.min(0));
    }
}

/// The bytes of n elements, of the first eight kinds given as bits, with at most one constraint, on (0,1).
fn small_sheet(n: u8, kinds: u8, size: Option<i32>) -> Vec<u8> {
    let mut bytes = [Opening::Pf01.bytes(), &[n, kinds]].concat();
    bytes.resize(5 + (usize::from(n) + 7) / 8, 0);
    bytes.push(u8::from(size.is_some()));
    bytes.extend(size.iter().flat_map(|size| [&[0, 1, 1][..], &size.to_le_bytes()].concat()));
    bytes
}

/// Compares a graph's sheet.
fn sheet(run: &mut Run, graph: &Graph) {
    let bytes = writer::bytes(&Layout::random(graph.n, &mut run.random).measured(graph));
    let verdict = ffi::verdict(&bytes);
    run.count("sheets", usize::try_from(verdict).ok().and_then(|i| VERDICTS.get(i)).unwrap_or(&"refused"));
    run.count("elements", if graph.n < 25 { "2 to 24" } else { "25 to 64" });
    let said = match verdict {
        OVER => Solved::Redundant,
        WELL | STUCK => Solved::Freedoms(0),
        UNDER if freedoms(graph) > 0 => Solved::Freedoms(freedoms(graph)),
        other => Solved::Failed(other),
    };
    compare(run, "pattern_verdict", &bytes, graph, said);
    let mut out = [0; 2];
    let items = ffi::over(&bytes, &mut out);
    run.same("pattern_over", &Hex(&bytes), items, if verdict == OVER { 2 } else { 0 });
    if verdict == OVER {
        run.count("over sheets", if freedoms(graph) < 0 { MORE } else { FEW });
        named(run, &bytes, graph, out[0] as usize, out[1]);
    }
    if verdict == UNDER {
        complete(run, &bytes, graph);
    }
}

/// Compares a graph with the dimensions that it lacks, at random prices: no freedom and no redundancy is left.
fn complete(run: &mut Run, bytes: &[u8], graph: &Graph) {
    let prices: Vec<u16> = (0..graph.n * (graph.n - 1) / 2).map(|_| run.random.below(1_001) as u16).collect();
    let mut out = [0; 125];
    let count = ffi::missing(bytes, &prices, &mut out);
    run.same("pattern_missing", &Hex(bytes), count, freedoms(graph));
    run.count("completed", if count > 20 { "by more than 20" } else { "by 1 to 20" });
    let mut whole = Graph { n: graph.n, pairs: graph.pairs.clone() };
    whole.pairs.extend(out[..count as usize].iter().map(|&pair| (usize::from(pair / 256), usize::from(pair % 256))));
    compare(run, "pattern_missing", bytes, &whole, Solved::Freedoms(0));
}

/// The freedoms that a graph leaves if it is not over: 2n-3-e.
fn freedoms(graph: &Graph) -> i32 {
    2 * graph.n as i32 - 3 - graph.pairs.len() as i32
}

/// Compares what is named of an over sheet. The constraints before the first are not over, with it they are; so they
/// are within the set, which carries 2m-3 of those before, but not within the set less an element.
fn named(run: &mut Run, bytes: &[u8], graph: &Graph, first: usize, set: Set) {
    let all = Set::MAX;
    let (before, with) = (first, first + 1);
    let tight = kept(graph, before, set);
    run.same("set", &Hex(bytes), tight.pairs.len() + 3, 2 * size(set));
    let members: Vec<usize> = elements(set).collect();
    let less = set & !one(run.random.pick(&members));
    for (what, part, over) in [
        ("first", kept(graph, before, all), false),
        ("first", kept(graph, with, all), true),
        ("set", kept(graph, with, set), true),
        ("set", kept(graph, with, less), false),
    ] {
        let said = if over { Solved::Redundant } else { Solved::Freedoms(freedoms(&part)) };
        compare(run, what, bytes, &part, said);
    }
}

/// The graph with those of its first pairs, as many as given, whose ends are in a set.
fn kept(graph: &Graph, count: usize, set: Set) -> Graph {
    let inside = |&&(a, b): &&(usize, usize)| within(one(a) | one(b), set);
    Graph { n: graph.n, pairs: graph.pairs.iter().take(count).filter(inside).copied().collect() }
}

/// Compares what is said of a graph with what libslvs finds, in one of several layouts.
fn compare(run: &mut Run, what: &str, bytes: &[u8], graph: &Graph, said: Solved) {
    let mut found = said;
    for layout in 1..=LAYOUTS {
        run.count("solved in layout", layout);
        found = solve(graph, &Layout::random(graph.n, &mut run.random), Drawing::Exact);
        if found == said {
            break;
        }
    }
    run.same(what, &Hex(bytes), said, found);
}
