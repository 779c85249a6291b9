//! The chain from one element to another beside plain Rust: between all pairs of elements of small sheets, strips of
//! parts that share single elements, paths, ladders and unconnected sheets up to 64 elements.

use std::process::ExitCode;

use pattern_tests::facts::{Sheet, MOST_ELEMENTS};
use pattern_tests::graph::Graph;
use pattern_tests::interface::{Found, NO_RUN};
use pattern_tests::random::Random;
use pattern_tests::run::{rules, Run};
use pattern_tests::verdict::Judged;
use pattern_tests::{calls, chain, dress, shapes, tags, writer};

/// How many final clusters are few enough for every run to be tried.
const FEW: usize = 9;

fn main() -> ExitCode {
    let mut run = Run::start("chain", 50_463_038);
    for _ in 0..1_500 {
        let most = run.random.between(2, 9);
        let sheet = dress::any(most, &mut run.random);
        every_pair(&mut run, &sheet);
    }
    for shape in [parts, path, ladder, apart, scattered] {
        for _ in 0..30 {
            let n = run.random.between(4, MOST_ELEMENTS);
            some_pairs(&mut run, n, shape);
        }
        for _ in 0..12 {
            some_pairs(&mut run, MOST_ELEMENTS, shape);
        }
    }
    for rule in rules([11, 17, 25, NO_RUN]) {
        run.must("pattern_chain", &rule, 300);
    }
    for (length, least) in [("0", 1_000), ("1", 1_000), ("2", 1_000), ("5", 50), ("20", 5), ("63", 5)] {
        run.must("clusters", length, least);
    }
    run.must("every run tried", "same", 5_000);
    run.finish()
}

/// Asks between all pairs of elements of a small sheet, and beyond them.
fn every_pair(run: &mut Run, sheet: &Sheet) {
    let bytes = tags::any(sheet, &mut run.random);
    let found = Found::of(&bytes);
    for from in 0..=sheet.n() {
        for to in 0..=sheet.n() {
            let answer = asked(run, &bytes, &found, from, to);
            let merges = match found.accepted() {
                Ok((_, Judged::Merged(merges))) => merges,
                _ => continue,
            };
            if from.max(to) < sheet.n() && merges.finals.len() <= FEW {
                let wanted = chain::by_every_run(&merges.finals, from, to).ok_or(NO_RUN);
                run.same("the reference", &format_args!("{sheet:?} from {from} to {to}"), answer, wanted);
                run.count("every run tried", "same");
            }
        }
    }
    for beyond in [64, 65, 255, 256, 320, 1 << 32, usize::MAX] {
        let _ = asked(run, &bytes, &found, beyond, 0);
        let _ = asked(run, &bytes, &found, 0, beyond);
        let _ = asked(run, &bytes, &found, beyond, beyond);
    }
}

/// Asks between some pairs of elements of a graph with other names and in another order, and between its ends as it is.
fn some_pairs(run: &mut Run, n: usize, shape: fn(usize, &mut Random) -> Graph) {
    let mut graph = shape(n, &mut run.random);
    let straight = dress::dress(&graph, &mut run.random);
    let bytes = writer::bytes(&straight);
    let found = Found::of(&bytes);
    let _ = asked(run, &bytes, &found, 0, n - 1);
    let _ = asked(run, &bytes, &found, n - 1, 0);
    graph.rename(&mut run.random);
    run.random.shuffle(&mut graph.pairs);
    let mixed = dress::dress(&graph, &mut run.random);
    let bytes = tags::any(&mixed, &mut run.random);
    let found = Found::of(&bytes);
    for _ in 0..40 {
        let (from, to) = (run.random.below(n), run.random.below(n));
        let _ = asked(run, &bytes, &found, from, to);
    }
}

/// Compares one call, and counts the clusters of its run.
fn asked(run: &mut Run, bytes: &[u8], found: &Found, from: usize, to: usize) -> Result<Vec<u16>, u8> {
    let answer = calls::chain(run, bytes, found, from, to);
    if let Ok(clusters) = &answer {
        run.count("clusters", clusters.len());
    }
    answer
}

/// Rigid parts, each sharing one element with the next.
fn parts(n: usize, random: &mut Random) -> Graph {
    let mut graph = Graph::new(n);
    let mut from = 0;
    while from + 1 < n {
        let size = random.between(2, 7).min(n - from);
        graph.take_in(&shapes::strip(size), from);
        from += size - 1;
    }
    graph
}

/// One constraint after another.
fn path(n: usize, _: &mut Random) -> Graph {
    Graph::of(n, (1..n).map(|k| (k - 1, k)))
}

/// Two paths with rungs between them.
fn ladder(n: usize, _: &mut Random) -> Graph {
    let rails = (2..n).map(|k| (k - 2, k));
    Graph::of(n, (0..n / 2).map(|k| (2 * k, 2 * k + 1)).chain(rails))
}

/// Parts without some of their constraints: unconnected, often.
fn apart(n: usize, random: &mut Random) -> Graph {
    let mut graph = parts(n, random);
    let less = random.between(1, 6).min(graph.pairs.len());
    graph.part_random(less, random);
    graph
}

/// Few random constraints.
fn scattered(n: usize, random: &mut Random) -> Graph {
    let e = random.between(n / 2, n + n / 8).min(n * (n - 1) / 2);
    shapes::scattered(n, e, random)
}
