//! The report (document 01, "The report").

use crate::facts::Sheet;
use crate::merging::Step;
use crate::placements::{kind, ways};
use crate::set::{elements, Set};
use crate::verdict::{verdict, Judged};

/// The report's lines on what was found of a sheet.
pub fn report(sheet: &Sheet, judged: &Judged) -> String {
    let mut lines = vec![
        format!("verdict {}", verdict(sheet, judged).name()),
        format!("elements {} constraints {}", sheet.n(), sheet.e()),
    ];
    match judged {
        Judged::Over(over) => {
            lines.push(format!("first {}", over.first));
            lines.push(format!("set {}", listed(elements(over.set))));
        }
        Judged::Merged(merges) => {
            lines.extend(merges.steps.iter().map(|step| step_line(sheet, step)));
            let numbered = merges.finals.iter().zip(&merges.rests);
            lines.extend(numbered.map(|(&(number, set), rests)| cluster_line(number, set, rests)));
        }
    }
    lines.iter().map(|line| format!("{line}\n")).collect()
}

/// The line of a final cluster, which ends with what it rests on (document 02, 2026-04).
fn cluster_line(number: usize, set: Set, rests: &[usize]) -> String {
    format!("cluster {number} holds {} rests on {}", listed(elements(set)), listed(rests.iter().copied()))
}

/// The line of a step.
pub fn step_line(sheet: &Sheet, step: &Step) -> String {
    let ways = ways(sheet, step).map_or("?".to_string(), |count| count.to_string());
    let (parts, joint) = (listed(step.parts.iter().copied()), listed(elements(step.joint)));
    format!("step {} from {parts} joint {joint} kind {} ways {ways}", step.made, kind(sheet, step.joint))
}

/// Numbers with one space between.
fn listed(numbers: impl Iterator<Item = usize>) -> String {
    numbers.map(|number| number.to_string()).collect::<Vec<String>>().join(" ")
}
