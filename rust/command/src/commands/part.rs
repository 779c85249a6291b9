//! `pattern part`: the steps of one cluster.

use super::WORDS;
use crate::cli::{Answer, Call, JSON};
use crate::document::Document;
use crate::fault::{Fault, Status};
use crate::json::Json;
use crate::{describe, draw, engine, steps};

/// Runs the command.
pub fn run(call: &Call) -> Result<Answer, Fault> {
    let document = Document::load(&call.operands[0])?;
    let text = call.text(1)?;
    let number = text.parse().map_err(|_| Fault::Usage(format!("a cluster is a number, found {text}")))?;
    let refused = |rule| document.refused(rule);
    let lines = engine::part(&document.bytes, number).map_err(refused)?;
    if !call.has(&JSON) && !call.has(&WORDS) {
        return Ok(Answer::print(lines, Status::Well));
    }
    let made = |line: &str| line.split(' ').nth(1).and_then(|word| word.parse::<usize>().ok());
    let steps = pattern::steps(&document.bytes).map_err(refused)?;
    let places: Vec<usize> =
        lines.lines().filter_map(made).filter_map(|made| steps.iter().position(|step| step.made == made)).collect();
    if !call.has(&JSON) {
        let words = steps::numbered(&steps::each(&document, &steps));
        let out: String = places.iter().map(|&place| format!("{}\n", words[place])).collect();
        return Ok(Answer::print(out, Status::Well));
    }
    if call.has(&WORDS) {
        let views = draw::views(&document, &steps);
        let chosen = describe::views::json(&document, places.iter().map(|&place| &views[place]));
        return Ok(Answer::json(call, Json::Object(vec![("steps", chosen)]), Status::Well));
    }
    let chosen = places.iter().map(|&place| &steps[place]);
    Ok(Answer::json(call, describe::steps_json(&document, chosen), Status::Well))
}
