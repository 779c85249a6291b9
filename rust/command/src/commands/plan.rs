//! `pattern plan` and `pattern verify`: plans saved and taken over.

use pattern::Rule;

use super::check::status_of;
use super::WORDS;
use crate::cli::{Answer, Call, JSON, OUTPUT};
use crate::document::{self, Document};
use crate::fault::{Fault, Status};
use crate::json::Json;
use crate::{describe, draw, engine, merges, plans, steps};

/// Prints or saves the plan.
pub fn plan(call: &Call) -> Result<Answer, Fault> {
    let document = Document::load(&call.operands[0])?;
    let refused = |rule| document.refused(rule);
    let steps = pattern::steps(&document.bytes).map_err(refused)?;
    if call.has(&JSON) {
        let value = if call.has(&WORDS) {
            let views = draw::views(&document, &steps);
            let open = describe::views::merges(&document, &draw::open_first(&document));
            Json::Object(vec![("open", open), ("steps", describe::views::json(&document, &views))])
        } else {
            describe::steps_json(&document, &steps)
        };
        return Ok(Answer::deliver_json(call, value, Status::Well));
    }
    if call.has(&WORDS) {
        return Ok(Answer::deliver(call, lines(&steps::words(&document, &steps)), Status::Well));
    }
    let plan = engine::plan(&document.bytes).map_err(refused)?;
    let out = if call.value(&OUTPUT).is_some() {
        plan.iter().flat_map(|number| number.to_le_bytes()).collect()
    } else {
        plan.chunks(3).map(|step| format!("{} {} {}\n", step[0], step[1], step[2])).collect::<String>().into_bytes()
    };
    Ok(Answer::deliver(call, out, Status::Well))
}

/// Lines, each ended.
fn lines(lines: &[String]) -> String {
    lines.iter().map(|line| format!("{line}\n")).collect()
}

/// Checks a saved plan, and prints the report for it.
pub fn verify(call: &Call) -> Result<Answer, Fault> {
    let document = Document::load(&call.operands[0])?;
    let path = document::shown(&call.operands[1]);
    let plan = plans::numbers(&path, &document::read(&call.operands[1])?)?;
    let verdict = pattern::verdict(&document.bytes).map_err(|rule| document.refused(rule))?;
    let refused = |rule| Fault::refused(&path, plans::refusal(&document, &plan, rule));
    let steps = pattern::saved_steps(&document.bytes, &plan);
    if call.has(&WORDS) {
        let status = steps.as_ref().map_or(Status::Refused, |steps| status_of(verdict, steps));
        return Ok(step_by_step(call, &document, &plan, steps.err().map(|rule| (rule, refused(rule))), status));
    }
    let steps = steps.map_err(refused)?;
    let status = status_of(verdict, &steps);
    if call.has(&JSON) {
        return Ok(Answer::json(call, describe::steps_json(&document, &steps), status));
    }
    Ok(Answer::print(engine::check_plan(&document.bytes, &plan).map_err(refused)?, status))
}

/// The steps of a saved plan that are right, each in words, and the first that is not, with its rule.
fn step_by_step(
    call: &Call,
    document: &Document,
    plan: &[u16],
    refused: Option<(Rule, Fault)>,
    status: Status,
) -> Answer {
    let steps = merges::right_steps(document, plan);
    if call.has(&JSON) {
        let pieces = draw::pieces(document, &steps);
        let wrong = plan.chunks_exact(3).nth(steps.len());
        let refused = refused.map(|(rule, fault)| {
            let wrong = wrong.filter(|_| [13, 15].contains(&rule.0));
            let from = wrong.map(|parts| Json::list(parts.iter().map(|&part| usize::from(part))));
            let known = wrong.into_iter().flatten().filter_map(|&part| pieces.get(usize::from(part)));
            let parts = known.map(|piece| describe::views::piece(document, piece)).collect();
            Json::Object(vec![
                ("step", Json::maybe(wrong.map(|_| steps.len() + 1))),
                ("from", Json::maybe(from)),
                ("parts", Json::List(parts)),
                ("errors", fault.json()),
            ])
        });
        let views = draw::saved_views(document, &steps, plan.len() / 3);
        let views = describe::views::json(document, &views);
        return Answer::json(call, Json::Object(vec![("steps", views), ("refused", Json::maybe(refused))]), status);
    }
    let words = match refused {
        Some(_) => steps::numbered(&steps::each(document, &steps)),
        None => steps::words(document, &steps),
    };
    let notes = refused.iter().flat_map(|(_, fault)| fault.lines()).map(|line| format!("pattern: {line}"));
    Answer { notes: notes.collect(), ..Answer::print(lines(&words), status) }
}
