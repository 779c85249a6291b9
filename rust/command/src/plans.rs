//! Saved plans: from text or bytes, and why one is refused.

use pattern::Rule;

use crate::document::Document;
use crate::fault::{Fault, Refusal, Spot};
use crate::text::Line;
use crate::{describe, encoding, engine};

/// The numbers of a saved plan: text, or 16 bits each. No plan of a sheet is both: 16-bit numbers without a control
/// character are far above the numbers of any cluster.
pub fn numbers(path: &str, content: &[u8]) -> Result<Vec<u16>, Fault> {
    let refused = |refusals| Fault::Refused { path: path.to_string(), refusals };
    if let Some(text) = encoding::plain(content).ok().filter(|_| !content.is_empty()) {
        let (numbers, complaints) = listed(text);
        return if complaints.is_empty() { Ok(numbers) } else { Err(refused(complaints)) };
    }
    if content.len() % 2 == 1 {
        let words = "expected 16-bit numbers or text, found an odd number of bytes";
        return Err(refused(vec![Refusal::file(words)]));
    }
    Ok(content.chunks(2).map(|pair| u16::from_le_bytes([pair[0], pair[1]])).collect())
}

/// The most complaints about one plan.
const MOST_COMPLAINTS: usize = 20;

/// The numbers of a text, and the first word of each line that is none.
fn listed(text: &str) -> (Vec<u16>, Vec<Refusal>) {
    if encoding::is_text_form(text) {
        return (
            Vec::new(),
            vec![Refusal::file("expected a plan, numbers of clusters, three a step; found a sheet in text")],
        );
    }
    let (mut numbers, mut complaints) = (Vec::new(), Vec::new());
    for line in Line::all(text) {
        let parsed = line.words().iter().map(|&word| word.text.parse().map_err(|_| word));
        match parsed.collect::<Result<Vec<u16>, _>>() {
            Ok(row) => numbers.extend(row),
            Err(word) => complaints.push(line.unexpected("the number of a cluster", word)),
        }
    }
    complaints.truncate(MOST_COMPLAINTS);
    (numbers, complaints)
}

/// Why a plan is refused, and at which step: the last of the shortest beginning that the rule refuses.
pub fn refusal(document: &Document, plan: &[u16], rule: Rule) -> Refusal {
    let words = match rule.0 {
        12 => format!("{} numbers", plan.len()),
        13 | 15 => {
            let refused = |steps: &usize| engine::check_plan(&document.bytes, &plan[..3 * steps]) == Err(rule);
            let steps = (1..=plan.len() / 3).find(refused).unwrap_or(plan.len() / 3);
            let step = &plan[3 * steps - 3..3 * steps];
            format!("step {} of the plan: {} {} {}", steps, step[0], step[1], step[2])
        }
        16 => format!("after {}", describe::counted(plan.len() / 3, "step")),
        _ => String::new(),
    };
    let hint = match rule.0 {
        11 => "pattern check says which dimension is one too many",
        12 => "the file is cut, or is no plan",
        13 => "the plan is of another sheet, or its steps stand in another order",
        15 => "the sheet may have been changed since the plan was saved",
        16 => "pattern plan has the rest",
        _ => "",
    };
    Refusal::rule(Spot::Whole, rule, words).hint(hint)
}
