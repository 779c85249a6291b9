//! The steps of one cluster (document 02, request 2026-14), by a stack of clusters that wait.

use crate::merging::{Merges, Step};

/// The steps from which a cluster is made, each part's before the step that uses it, lowest part first; none of an
/// initial cluster, and nothing where no cluster has the number.
pub fn steps(e: usize, merges: &Merges, number: usize) -> Option<Vec<&Step>> {
    if number >= e + merges.steps.len() {
        return None;
    }
    let mut listed = Vec::new();
    let mut waiting = vec![(number, false)];
    while let Some((cluster, parts_listed)) = waiting.pop() {
        if cluster < e {
            continue;
        }
        let step = &merges.steps[cluster - e];
        if parts_listed {
            listed.push(step);
            continue;
        }
        let [i, j, k] = step.parts;
        waiting.extend([(cluster, true), (k, false), (j, false), (i, false)]);
    }
    Some(listed)
}
