//! Joint kinds and placements (document 01, "Joint kinds and placements"; document 02, 2026-01: contacts count as the distances they mean, circles as
//! points).

use crate::facts::Sheet;
use crate::merging::Step;
use crate::set::{size, Set};

/// A step's kind after its joint: ppp, ppl, pll or lll.
pub fn kind(sheet: &Sheet, joint: Set) -> &'static str {
    ["ppp", "ppl", "pll", "lll"][size(joint & sheet.lines())]
}

/// How many placements a step has; `None` where that is not known.
pub fn ways(sheet: &Sheet, step: &Step) -> Option<usize> {
    if step.parts.iter().any(|&part| part >= sheet.e()) {
        return None;
    }
    let parts = step.parts.map(|part| sheet.constraints[part]);
    let length = |lines: usize| {
        let sizes = parts.iter().filter(move |c| size(c.ends() & sheet.lines()) == lines);
        sizes.map(|c| sheet.distance(c)).collect::<Vec<i64>>()
    };
    let (distances, to_line) = (length(0), length(1));
    match kind(sheet, step.joint) {
        "ppp" => {
            let longest = *distances.iter().max()?;
            let others = distances.iter().sum::<i64>() - longest;
            Some(compared(others, longest))
        }
        "ppl" => Some(compared(distances[0], (to_line[1] - to_line[0]).abs())),
        "pll" => Some(1),
        _ => None,
    }
}

/// 0, 1 or 2 placements where the reach is below, equal to or above what is to be spanned.
fn compared(reach: i64, span: i64) -> usize {
    1 + usize::from(reach > span) - usize::from(reach < span)
}
