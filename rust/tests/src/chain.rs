//! The chain from one element to another, from the start forwards: of the runs to each cluster the first one is kept,
//! and on few clusters every run is tried.

use std::collections::BTreeMap;

use crate::set::{one, Set};

/// A run of clusters by number.
pub type Chain = Vec<u16>;

/// The shortest run between two elements, first among equals; nothing where they are not connected.
pub fn chain(finals: &[(usize, Set)], from: usize, to: usize) -> Option<Chain> {
    if from == to {
        return Some(Vec::new());
    }
    let mut seen = BTreeMap::new();
    let mut last = reached(finals, one(from), &[], &seen);
    while !last.is_empty() {
        let ends = last.values().filter(|(_, set)| set & one(to) != 0).map(|(run, _)| run.clone());
        if let Some(run) = ends.min() {
            return Some(run);
        }
        seen.append(&mut last.clone());
        let mut next: BTreeMap<u16, (Chain, Set)> = BTreeMap::new();
        for (run, set) in last.values() {
            for (number, longer) in reached(finals, *set, run, &seen) {
                let first = next.entry(number).or_insert_with(|| longer.clone());
                if longer.0 < first.0 {
                    *first = longer;
                }
            }
        }
        last = next;
    }
    None
}

/// The clusters not yet seen that share an element with a set, each with the run that leads to it.
fn reached(
    finals: &[(usize, Set)],
    set: Set,
    run: &[u16],
    seen: &BTreeMap<u16, (Chain, Set)>,
) -> BTreeMap<u16, (Chain, Set)> {
    let new = |&&(number, other): &&(usize, Set)| set & other != 0 && !seen.contains_key(&(number as u16));
    let longer = |&(number, other): &(usize, Set)| (number as u16, ([run, &[number as u16]].concat(), other));
    finals.iter().filter(new).map(longer).collect()
}

/// The same by trying every run of one cluster, of two, and so on.
pub fn by_every_run(finals: &[(usize, Set)], from: usize, to: usize) -> Option<Chain> {
    if from == to {
        return Some(Vec::new());
    }
    (1..=finals.len()).find_map(|length| {
        let mut runs = Vec::new();
        extend(finals, one(from), one(to), length, &mut Vec::new(), &mut runs);
        runs.into_iter().min()
    })
}

/// Adds every run that has so many clusters more and ends at `to`.
fn extend(finals: &[(usize, Set)], set: Set, to: Set, more: usize, run: &mut Chain, runs: &mut Vec<Chain>) {
    if more == 0 {
        if set & to != 0 {
            runs.push(run.clone());
        }
        return;
    }
    for &(number, other) in finals {
        if set & other != 0 && !run.contains(&(number as u16)) {
            run.push(number as u16);
            extend(finals, other, to, more - 1, run, runs);
            run.pop();
        }
    }
}
