//! Angles that run round (document 02, 2026-03): four or more different final clusters, each sharing a line with the
//! next and the last with the first, those lines all different.

use crate::set::{elements, one, Set};

/// Whether final clusters make such a ring, on a sheet that is not over: two clusters share at most one element there
/// and no three are open, so that every way round through clusters and their lines is a ring of four or more. A way
/// round is found where a cluster is joined to a line that hangs together with it already.
pub fn has_ring(clusters: &[Set], lines: Set) -> bool {
    let mut above: Vec<usize> = (0..64 + clusters.len()).collect();
    for (number, &cluster) in clusters.iter().enumerate() {
        for line in elements(cluster & lines) {
            let (a, b) = (top(&above, 64 + number), top(&above, line));
            if a == b {
                return true;
            }
            above[a] = b;
        }
    }
    false
}

fn top(above: &[usize], mut node: usize) -> usize {
    while above[node] != node {
        node = above[node];
    }
    node
}

/// The same by the words of the request: every run of different clusters by different lines is tried.
pub fn search(clusters: &[Set], lines: Set) -> bool {
    (0..clusters.len()).any(|first| goes_round(clusters, lines, &mut vec![first], 0))
}

fn goes_round(clusters: &[Set], lines: Set, run: &mut Vec<usize>, used: Set) -> bool {
    let (first, last) = (clusters[run[0]], clusters[*run.last().unwrap()]);
    if run.len() >= 4 && last & first & lines & !used != 0 {
        return true;
    }
    for next in 0..clusters.len() {
        if run.contains(&next) {
            continue;
        }
        for line in elements(last & clusters[next] & lines & !used) {
            run.push(next);
            if goes_round(clusters, lines, run, used | one(line)) {
                return true;
            }
            run.pop();
        }
    }
    false
}
