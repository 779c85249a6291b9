//! Step records (document 02, 2026-04): what a step's report line gives, as seven numbers.

use crate::facts::Sheet;
use crate::merging::Merges;
use crate::placements::{kind, ways};

/// The numbers of a step.
pub const NUMBERS: usize = 7;

/// Stands for placements that are not known.
pub const UNKNOWN: u64 = 256;

/// The numbers of each step, in order: the cluster made, its parts, the joint, the count of its lines, the placements.
pub fn numbers(sheet: &Sheet, merges: &Merges) -> Vec<u64> {
    let record = |step: &crate::merging::Step| {
        let [i, j, k] = step.parts.map(|part| part as u64);
        let lines = kind(sheet, step.joint).matches('l').count() as u64;
        let ways = ways(sheet, step).map_or(UNKNOWN, |count| count as u64);
        [step.made as u64, i, j, k, step.joint, lines, ways]
    };
    merges.steps.iter().flat_map(record).collect()
}

/// The report line that a record stands for.
pub fn line(record: &[u64]) -> String {
    let [made, i, j, k, joint, lines, ways]: [u64; 7] = record.try_into().expect("a record has seven numbers");
    let elements: Vec<String> = (0..64).filter(|x| joint >> x & 1 == 1).map(|x| x.to_string()).collect();
    let kind = ["ppp", "ppl", "pll", "lll"][lines as usize];
    let ways = if ways == UNKNOWN { "?".to_string() } else { ways.to_string() };
    format!("step {made} from {i} {j} {k} joint {} kind {kind} ways {ways}", elements.join(" "))
}
