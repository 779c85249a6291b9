//! Families of constraint graphs.

use crate::facts::MOST_CONSTRAINTS;
use crate::graph::Graph;
use crate::random::Random;

/// A triangle after a triangle: pair (0,1), then (k-2,k) and (k-1,k).
pub fn strip(n: usize) -> Graph {
    Graph::of(n, (1..n).flat_map(|k| [(k.saturating_sub(2), k), (k - 1, k)]))
}

/// Element 0 to all others, and each of these to the next.
pub fn fan(n: usize) -> Graph {
    let spokes = (1..n).map(|k| (0, k));
    Graph::of(n, spokes.chain((2..n).map(|k| (k - 1, k))))
}

/// A fan whose last element is joined to its first: over from four elements on.
pub fn wheel(n: usize) -> Graph {
    let mut graph = fan(n);
    graph.join(1, n - 1);
    graph
}

/// Each element to the next.
pub fn row(n: usize) -> Graph {
    Graph::of(n, (1..n).map(|k| (k - 1, k)))
}

/// Each element to one before it, whichever.
pub fn tree(n: usize, random: &mut Random) -> Graph {
    Graph::of(n, (1..n).map(|k| (random.below(k), k)))
}

/// A row of half the elements, each with one more at its side.
pub fn comb(n: usize) -> Graph {
    let half = n / 2;
    Graph::of(n, (1..n).map(|k| (if k < half { k - 1 } else { k - half }, k)))
}

/// Each element to the next, and the last to the first.
pub fn ring(n: usize) -> Graph {
    Graph::of(n, (0..n).map(|k| (k, (k + 1) % n)))
}

/// Each of the first `left` elements to each of the others.
pub fn bipartite(left: usize, n: usize) -> Graph {
    Graph::of(n, (0..left).flat_map(|a| (left..n).map(move |b| (a, b))))
}

/// Triangles on one common side, which is listed last.
pub fn book(n: usize) -> Graph {
    let mut graph = bipartite(2, n);
    graph.join(0, 1);
    graph
}

/// Two rings of half the elements, each element joined to its fellow: two triangles are stuck.
pub fn prism(n: usize) -> Graph {
    let half = n / 2;
    let around = move |k: usize| (k + 1) % half;
    Graph::of(n, (0..half).flat_map(|k| [(k, around(k)), (half + k, half + around(k)), (k, half + k)]))
}

/// Every pair of the first `m` elements, as far as a sheet takes them.
pub fn complete(m: usize, n: usize) -> Graph {
    Graph::of(n, (1..m.min(n)).flat_map(|b| (0..b).map(move |a| (a, b))))
}

/// A graph grown from a pair by Henneberg's steps: 2n-3 pairs, not over.
pub fn henneberg(n: usize, split: usize, random: &mut Random) -> Graph {
    grown(&strip(2), n, split, random)
}

/// A graph grown from another: each new element is joined to two old ones or, with a chance of `split` in a
/// hundred, splits a pair and is joined to a third (Henneberg's steps). What was full and not over stays so.
pub fn grown(from: &Graph, n: usize, split: usize, random: &mut Random) -> Graph {
    let mut graph = Graph { n, pairs: from.pairs.clone() };
    for new in from.n..n {
        let splits = new >= 3 && random.chance(split);
        let (a, b) =
            if splits { graph.pairs.swap_remove(random.below(graph.pairs.len())) } else { two_below(new, random) };
        graph.join(a, new);
        graph.join(b, new);
        while splits && !graph.join(random.below(new), new) {}
    }
    graph
}

/// Two different elements below `end`.
fn two_below(end: usize, random: &mut Random) -> (usize, usize) {
    let a = random.below(end);
    (a, (a + random.between(1, end - 1)) % end)
}

/// A graph that merges to one cluster, by a random tree of merges.
pub fn merge_tree(n: usize, random: &mut Random) -> Graph {
    let mut graph = Graph::new(n);
    grow_tree(&mut graph, &(0..n).collect::<Vec<usize>>(), random);
    graph
}

/// Makes the elements one cluster: a pair, or three clusters that share the first three elements two by two.
fn grow_tree(graph: &mut Graph, elements: &[usize], random: &mut Random) {
    if elements.len() == 2 {
        graph.join(elements[0], elements[1]);
        return;
    }
    let mut parts: [Vec<usize>; 3] = [0, 1, 2].map(|k| vec![elements[k], elements[(k + 1) % 3]]);
    for &element in &elements[3..] {
        parts[random.below(3)].push(element);
    }
    for mut part in parts {
        random.shuffle(&mut part);
        grow_tree(graph, &part, random);
    }
}

/// Two hubs with `m` leaves listed first, then a chain of merges, listed backwards, that takes in the second hub
/// last: a search that starts over after each merge looks through all the leaves each time.
pub fn closed_late(n: usize, m: usize) -> Graph {
    let side = 2 + m;
    let mut graph = bipartite(2, side);
    let leaves = graph.pairs.len();
    graph.n = n;
    graph.join_all([(0, side), (0, side + 1), (side, side + 1)]);
    graph.join_all((side + 2..n).flat_map(|k| [(if k % 2 == 0 { 0 } else { side }, k), (k - 1, k)]));
    graph.join_all([(1, n - 1), (1, side)]);
    graph.pairs[leaves..].reverse();
    graph
}

/// Random pairs.
pub fn scattered(n: usize, e: usize, random: &mut Random) -> Graph {
    let mut graph = Graph::new(n);
    graph.join_random(e, random);
    graph
}

/// Small graphs side by side, neighbours with an element in common or without.
fn islands(n: usize, random: &mut Random) -> Graph {
    let mut graph = Graph::new(n);
    let mut from = 0;
    while from + 3 < n {
        let island = basic(random.between(2, 9.min(n - from)), random);
        graph.take_in(&island, from);
        from += island.n - random.below(2);
    }
    graph
}

/// Parts in a ring, each with an element in common with the next.
pub fn frame(n: usize, random: &mut Random) -> Graph {
    let mut graph = Graph::new(n);
    let mut corner = 0;
    while corner + 1 < n {
        let size = random.between(2, 6.min(n - corner));
        let part = if size < 3 || random.chance(50) { strip(size) } else { merge_tree(size, random) };
        graph.take_in(&part, corner);
        corner += size - 1;
    }
    graph.join(0, corner);
    graph
}

/// A graph of one of the plain families.
fn basic(n: usize, random: &mut Random) -> Graph {
    match random.below(18) {
        0 => strip(n),
        1 => fan(n),
        2 => wheel(n),
        3 => ring(n),
        4 => bipartite(random.between(1, 4), n),
        5 => book(n),
        6 => prism(n),
        7 => complete(random.between(3, 7), n),
        8 => henneberg(n, random.pick(&[0, 30, 90]), random),
        9 | 10 => merge_tree(n, random),
        11 | 12 if n >= 6 => {
            let stuck = if random.chance(50) { prism(6) } else { bipartite(3, 6) };
            grown(&stuck, n, random.pick(&[0, 0, 30, 90]), random)
        }
        13 => scattered(n, random.below(2 * n), random),
        14 if n >= 5 => frame(n, random),
        15 | 16 => tree(n, random),
        _ => scattered(n, random.below(MOST_CONSTRAINTS + 1), random),
    }
}

/// A graph of n elements from some family, often with pairs more or fewer, other names and another order.
pub fn any(n: usize, random: &mut Random) -> Graph {
    let mut graph = match random.below(8) {
        0 if n >= 12 => closed_late(n, random.between(1, n - 5)),
        1 | 2 => islands(n, random),
        _ => basic(n, random),
    };
    if random.chance(25) {
        let count = random.between(1, 8);
        graph.part_random(count, random);
    }
    if random.chance(25) {
        let count = random.pick(&[1, 1, 2, 5, 200]);
        graph.join_random(count, random);
    }
    if random.chance(50) {
        graph.rename(random);
    }
    match random.below(4) {
        0 => graph.pairs.reverse(),
        1 => {}
        _ => random.shuffle(&mut graph.pairs),
    }
    graph
}
