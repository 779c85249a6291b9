//! The sheets that are timed, some shapes at n 16, 32 and 64.

use pattern_tests::dress::Mix;
use pattern_tests::facts::{Constraint, Kind, Opening, Sheet};
use pattern_tests::graph::Graph;
use pattern_tests::random::Random;
use pattern_tests::{dress, shapes, tags, writer};

/// Sheets of one shape.
pub struct Case {
    pub name: String,
    pub n: usize,
    pub e: usize,
    pub pool: Vec<Vec<u8>>,
}

/// How many sheets a case has.
const POOL: usize = 32;
/// The element counts between which growth is shown.
const SIZES: [usize; 3] = [16, 32, 64];

/// What a case's elements and constraints look like, in hundredths.
#[derive(Clone, Copy)]
struct Dress {
    lines: usize,
    tags: usize,
}

const PLAIN: Dress = Dress { lines: 0, tags: 0 };

/// What the elements and constraints of a case of round lights look like, in hundredths.
#[derive(Clone, Copy)]
struct Round {
    lines: usize,
    circles: usize,
    contacts: usize,
    tags: usize,
}

/// A case of graphs, each with other names and, if `mixed`, in another order.
fn case(name: &str, dress: Dress, mixed: bool, graph: impl Fn(&mut Random) -> Graph) -> Case {
    let random = &mut Random::new(name.len() as u64);
    let mut sheet = || {
        let mut graph = graph(random);
        if mixed {
            graph.rename(random);
            random.shuffle(&mut graph.pairs);
        }
        dressed(&graph, dress, random)
    };
    let sheets: Vec<Sheet> = (0..POOL).map(|_| sheet()).collect();
    let (n, e) = (sheets[0].n(), sheets[0].e());
    let pool = sheets.iter().map(|sheet| tags::on(&writer::bytes(sheet), dress.tags, random)).collect();
    Case { name: name.to_string(), n, e, pool }
}

/// A graph as a sheet.
fn dressed(graph: &Graph, dress: Dress, random: &mut Random) -> Sheet {
    let kind = |random: &mut Random| if random.chance(dress.lines) { Kind::Line } else { Kind::Point };
    let kinds: Vec<Kind> = (0..graph.n).map(|_| kind(random)).collect();
    let constraint = |&(a, b): &(usize, usize)| match kinds[a] == kinds[b] || random.chance(70) {
        true => Constraint::sized(a as u8, b as u8, random.between(1, 17_999) as i32),
        false => Constraint::bare(a as u8, b as u8),
    };
    let constraints = graph.pairs.iter().map(constraint).collect();
    Sheet::first(kinds, constraints)
}

/// A case of round lights: graphs with other names and in another order, as PF02 sheets.
fn round(name: &str, round: Round, graph: impl Fn(&mut Random) -> Graph) -> Case {
    let random = &mut Random::new(name.len() as u64);
    let mut sheet = || {
        let mut graph = graph(random);
        graph.rename(random);
        random.shuffle(&mut graph.pairs);
        let mix = Mix { opening: Opening::Pf02, lines: round.lines, circles: round.circles, contacts: round.contacts };
        dress::by_mix(&graph, mix, random)
    };
    let sheets: Vec<Sheet> = (0..POOL).map(|_| sheet()).collect();
    let (n, e) = (sheets[0].n(), sheets[0].e());
    let pool = sheets.iter().map(|sheet| tags::on(&writer::bytes(sheet), round.tags, random)).collect();
    Case { name: name.to_string(), n, e, pool }
}

/// PF02 sheets for reading and writing.
pub fn for_round_sheet() -> Vec<Case> {
    let full = |random: &mut Random| shapes::scattered(64, 200, random);
    let tree = |random: &mut Random| shapes::merge_tree(64, random);
    vec![
        round("64 circles, 200 contacts", Round { lines: 0, circles: 100, contacts: 100, tags: 0 }, full),
        round("64 circles, 200 distances", Round { lines: 0, circles: 100, contacts: 0, tags: 0 }, full),
        round("64 circles, half of each", Round { lines: 0, circles: 100, contacts: 50, tags: 0 }, full),
        round("64 circles, contacts, every tag", Round { lines: 0, circles: 100, contacts: 100, tags: 100 }, full),
        round("64 circles, merge tree", Round { lines: 0, circles: 100, contacts: 50, tags: 0 }, tree),
        round("points, lines and circles", Round { lines: 30, circles: 50, contacts: 50, tags: 50 }, full),
        round("no circle, 200 mixed", Round { lines: 40, circles: 0, contacts: 0, tags: 0 }, full),
    ]
}

/// PF02 sheets for verdicts and reports.
pub fn for_round() -> Vec<Case> {
    let circles = Round { lines: 0, circles: 100, contacts: 70, tags: 0 };
    let mixed = Round { lines: 20, circles: 70, contacts: 50, tags: 0 };
    vec![
        round("64 circles, strip", circles, |_| shapes::strip(64)),
        round("64 circles, merge tree", circles, |random| shapes::merge_tree(64, random)),
        round("64 circles, Henneberg, no split", circles, |random| shapes::henneberg(64, 0, random)),
        round("64 circles, over", circles, |random| shapes::scattered(64, 200, random)),
        round("mixed, merge tree", mixed, |random| shapes::merge_tree(64, random)),
        round("mixed, merge tree less 8", mixed, |random| less(shapes::merge_tree(64, random), 8, random)),
    ]
}

/// Sheets for reading and writing.
pub fn for_sheet() -> Vec<Case> {
    let full = |random: &mut Random| shapes::scattered(64, 200, random);
    let mut cases = vec![
        case("200 distances", PLAIN, true, full),
        case("200 distances, every tag", Dress { lines: 0, tags: 100 }, true, full),
        case("200 mixed, half the tags", Dress { lines: 40, tags: 50 }, true, full),
    ];
    cases.extend(growing("strip", false, |n, _| shapes::strip(n)));
    cases
}

/// The same shape at each of the element counts.
fn growing(name: &str, mixed: bool, graph: impl Fn(usize, &mut Random) -> Graph) -> [Case; 3] {
    SIZES.map(|n| case(name, PLAIN, mixed, |random| graph(n, random)))
}

/// Sheets for the search of an over set.
pub fn for_over() -> Vec<Case> {
    let mut cases = Vec::new();
    cases.extend(growing("strip", false, |n, _| shapes::strip(n)));
    cases.extend(growing("merge tree", true, shapes::merge_tree));
    cases.extend(growing("Henneberg, 30 % split", true, |n, random| shapes::henneberg(n, 30, random)));
    cases.extend(growing("Henneberg, 90 % split", true, |n, random| shapes::henneberg(n, 90, random)));
    cases.extend([
        case("fan, spokes first", PLAIN, false, |_| shapes::fan(64)),
        case("book, spine last", PLAIN, false, |_| shapes::book(64)),
        case("scattered", PLAIN, false, |random| shapes::scattered(64, 100, random)),
        case("over, the last of 126", PLAIN, false, |random| full_and_more(30, 126, random)),
        case("over, full first", PLAIN, false, |random| full_and_more(90, 200, random)),
        case("over, scattered", PLAIN, false, |random| shapes::scattered(64, 200, random)),
    ]);
    cases
}

/// Sheets that lack dimensions.
pub fn for_missing() -> Vec<Case> {
    let mut cases = Vec::new();
    cases.extend(growing("no constraint", false, |n, _| Graph::new(n)));
    cases.extend(growing("merge tree less a quarter", true, |n, random| {
        let mut graph = shapes::merge_tree(n, random);
        graph.part_random(n / 2, random);
        graph
    }));
    cases.extend(growing("strip", false, |n, _| shapes::strip(n)));
    cases
}

/// Sheets for plans, verdicts and reports.
pub fn for_plan() -> Vec<Case> {
    let lines = Dress { lines: 30, tags: 50 };
    let few = Dress { lines: 6, tags: 0 };
    let most = Dress { lines: 90, tags: 0 };
    let all = Dress { lines: 100, tags: 0 };
    let mut cases = for_over();
    cases.extend(growing("Henneberg, no split", true, |n, random| shapes::henneberg(n, 0, random)));
    cases.extend([
        case("strip, mixed", PLAIN, true, |_| shapes::strip(64)),
        case("book, mixed", PLAIN, true, |_| shapes::book(64)),
        case("merge tree, lines and tags", lines, true, |random| shapes::merge_tree(64, random)),
        case("Henneberg, no split, lines", lines, true, |random| shapes::henneberg(64, 0, random)),
        case("K2,31 closed late, lines", lines, false, |_| shapes::closed_late(64, 31)),
        case("Henneberg less 1, lines", lines, true, |random| less(shapes::henneberg(64, 0, random), 1, random)),
        case("strip, 6% lines", few, false, |_| shapes::strip(64)),
        case("strip less 1, 6% lines", few, true, |random| less(shapes::strip(64), 1, random)),
        case("merge tree less 8, 6% lines", few, true, |random| less(shapes::merge_tree(64, random), 8, random)),
        case("row, all lines", all, false, |_| shapes::row(64)),
        case("row, mixed, all lines", all, true, |_| shapes::row(64)),
        case("tree, mixed, all lines", all, true, |random| shapes::tree(64, random)),
        case("comb, mixed, all lines", all, true, |_| shapes::comb(64)),
        case("four rows, mixed, all lines", all, true, |_| rows(64, 16)),
        lined("row of lines and five round, mixed", true, &row_and_round(64), |k| k < 63),
        lined("parts that share lines, in a row", false, &triangles(63), |k| k % 2 == 0),
        lined("the same, mixed", true, &triangles(63), |k| k % 2 == 0),
        case("ring of parts, all lines", all, true, |random| shapes::frame(64, random)),
        case("merge tree less 8, 90% lines", most, true, |random| less(shapes::merge_tree(64, random), 8, random)),
        case("K2,31 closed late", PLAIN, false, |_| shapes::closed_late(64, 31)),
        case("K2,44 closed late", PLAIN, false, |_| shapes::closed_late(64, 44)),
        case("fan, spokes last", PLAIN, false, |_| reversed(shapes::fan(64))),
        case("merge tree less 8", PLAIN, true, |random| less(shapes::merge_tree(64, random), 8, random)),
        case("scattered, few", PLAIN, false, |random| shapes::scattered(64, 60, random)),
    ]);
    cases
}

/// Five shapes at any n from 4 on, for the picture of time against n.
pub fn for_picture(n: usize) -> [Case; 5] {
    let all = Dress { lines: 100, tags: 0 };
    [
        case("strip", PLAIN, false, |_| shapes::strip(n)),
        case("Henneberg, no split", PLAIN, true, |random| shapes::henneberg(n, 0, random)),
        case("Henneberg, 90 % split", PLAIN, true, |random| shapes::henneberg(n, 90, random)),
        case("merge tree", PLAIN, true, |random| shapes::merge_tree(n, random)),
        case("row, all lines", all, false, |_| shapes::row(n)),
    ]
}

/// Sheets for chains: those for plans, and such as have long ones.
pub fn for_chain() -> Vec<Case> {
    let mut cases = for_plan();
    cases.extend(growing("path", false, |n, _| path(n)));
    cases.extend(growing("path, mixed", true, |n, _| path(n)));
    cases.extend(growing("ladder", false, |n, _| ladder(n)));
    cases.extend(growing("triangles on a string, mixed", true, |n, _| triangles(n)));
    cases.push(case("two paths apart", PLAIN, false, |_| less_middle(path(64))));
    cases
}

/// One constraint after another.
fn path(n: usize) -> Graph {
    Graph::of(n, (1..n).map(|k| (k - 1, k)))
}

/// Two paths with rungs between them.
fn ladder(n: usize) -> Graph {
    let rails = (2..n).map(|k| (k - 2, k));
    Graph::of(n, (0..n / 2).map(|k| (2 * k, 2 * k + 1)).chain(rails))
}

/// Triangles, each sharing one element with the next.
fn triangles(n: usize) -> Graph {
    Graph::of(n, (0..(n - 1) / 2).flat_map(|k| [(2 * k, 2 * k + 1), (2 * k, 2 * k + 2), (2 * k + 1, 2 * k + 2)]))
}

/// Rows side by side, each of `length` elements.
fn rows(n: usize, length: usize) -> Graph {
    Graph::of(n, (1..n).filter(|k| k % length != 0).map(|k| (k - 1, k)))
}

/// A row of all but five elements, and these round.
fn row_and_round(n: usize) -> Graph {
    let round = (n - 5..n).map(|k| (k, if k + 1 < n { k + 1 } else { n - 5 }));
    Graph::of(n, (1..n - 5).map(|k| (k - 1, k)).chain(round))
}

/// A graph in which the given elements are lines, each sheet with other names and in another order if `mixed`.
fn lined(name: &str, mixed: bool, graph: &Graph, line: fn(usize) -> bool) -> Case {
    let random = &mut Random::new(name.len() as u64);
    let mut sheet = || {
        let (mut pairs, mut names) = (graph.pairs.clone(), (0..graph.n).collect::<Vec<usize>>());
        if mixed {
            random.shuffle(&mut pairs);
            random.shuffle(&mut names);
        }
        let mut kinds = vec![Kind::Point; graph.n];
        for element in (0..graph.n).filter(|&element| line(element)) {
            kinds[names[element]] = Kind::Line;
        }
        let constraint = |&(a, b): &(usize, usize)| {
            Constraint::sized(names[a].min(names[b]) as u8, names[a].max(names[b]) as u8, 300)
        };
        writer::bytes(&Sheet::first(kinds, pairs.iter().map(constraint).collect()))
    };
    let pool = (0..POOL).map(|_| sheet()).collect();
    Case { name: name.to_string(), n: graph.n, e: graph.pairs.len(), pool }
}

/// The graph without the pair in the middle of its list.
fn less_middle(mut graph: Graph) -> Graph {
    graph.pairs.remove(graph.pairs.len() / 2);
    graph
}

/// Every set of distances among five points.
pub fn five_points() -> Vec<Case> {
    let pairs: Vec<(usize, usize)> = shapes::complete(5, 5).pairs;
    let set = |number: usize| Graph::of(5, (0..pairs.len()).filter(|bit| number >> bit & 1 == 1).map(|bit| pairs[bit]));
    let random = &mut Random::new(5);
    let pool = (0..1 << pairs.len()).map(|number| writer::bytes(&dressed(&set(number), PLAIN, random))).collect();
    vec![Case { name: "five points, every set".to_string(), n: 5, e: 5, pool }]
}

/// The graph with its pairs listed backwards.
fn reversed(mut graph: Graph) -> Graph {
    graph.pairs.reverse();
    graph
}

/// The graph without some of its pairs.
fn less(mut graph: Graph, count: usize, random: &mut Random) -> Graph {
    graph.part_random(count, random);
    graph
}

/// A full Henneberg graph on 64 elements in a random order, and then random pairs up to e.
fn full_and_more(split: usize, e: usize, random: &mut Random) -> Graph {
    let mut graph = shapes::henneberg(64, split, random);
    graph.rename(random);
    random.shuffle(&mut graph.pairs);
    let more = e - graph.pairs.len();
    graph.join_random(more, random);
    graph
}
