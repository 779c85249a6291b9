//! The merges that are open after a number of the engine's steps (document 02, 2026-07), by all threes of clusters.

use crate::facts::Sheet;
use crate::merging::{joint, Clusters, Merges, Three};

/// The open merges after a number of steps, or after all if there are fewer: by the lowest element of the joint, then by
/// the three numbers.
pub fn after(sheet: &Sheet, merges: &Merges, count: usize) -> Vec<Three> {
    let mut clusters = Clusters::initial(sheet);
    for step in merges.steps.iter().take(count) {
        clusters.merge(step.parts);
    }
    let living = clusters.all_living();
    let mut open = Vec::new();
    for (i, &(p, a)) in living.iter().enumerate() {
        for (j, &(q, b)) in living.iter().enumerate().skip(i + 1) {
            for &(r, c) in &living[j + 1..] {
                if let Some(joint) = joint(a, b, c) {
                    open.push((joint.trailing_zeros(), [p, q, r]));
                }
            }
        }
    }
    open.sort_unstable();
    open.into_iter().map(|(_, three)| three).collect()
}
