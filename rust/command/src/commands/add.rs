//! `pattern add`: what more dimensions would do.

use std::path::Path;

use pattern::Rule;

use super::check::status_of;
use super::STRICT;
use crate::advice;
use crate::cli::{Answer, Call, JSON, OUTPUT};
use crate::describe;
use crate::document::Document;
use crate::draw::{self, Agreement};
use crate::engine::{self, Cluster};
use crate::fault::{Fault, Fixed, Refusal, Spot, Status};
use crate::finding::Finding;
use crate::json::Json;
use crate::prices::Prices;
use crate::sheet::{Constraint, Part};
use crate::{disk, hint, text};

/// Runs the command.
pub fn run(call: &Call) -> Result<Answer, Fault> {
    let document = Document::load(&call.operands[0])?;
    let mut statements = Vec::new();
    let mut more = Vec::new();
    for place in 1..call.operands.len() {
        let statement = call.text(place)?;
        let parsed = text::statement(statement, &document.sheet.elements, &document.names);
        more.push(parsed.map_err(|refusal| Fault::refused(&format!("statement {place}"), refusal))?);
        statements.push(statement);
    }
    let bytes = engine::place(&document.bytes, &more).map_err(|(place, rule)| match place {
        Some(place) => refused(&document, &more[..=place], statements[place], rule),
        None => document.refused(rule),
    })?;
    let mut grown = Document::of(&document.path, &bytes)?;
    grown.names = document.names.clone();
    grown.places = document.places.clone();
    let prices = Prices::default();
    let finding = Finding::advised(&grown, &prices.of(&grown)?).map_err(|rule| grown.refused(rule))?;
    let position = draw::examine(&grown, &finding);
    let strict = call.has(&STRICT) && !describe::warnings(&grown, &finding, position.as_ref()).is_empty();
    let status = if strict { Status::Other } else { status_of(finding.verdict, &finding.steps) };
    if call.value(&OUTPUT).is_some() {
        let out = match &document.source {
            Some(source) => extended(source.clone(), &statements).into_bytes(),
            None => bytes,
        };
        let said = format!("{}: {}", grown.path, finding.verdict.name());
        let saved = Answer { notes: vec![said], ..Answer::deliver(call, out, status) };
        match (call.has(&JSON), &saved.to) {
            (false, _) => return Ok(saved),
            (true, Some(to)) => save(to, &saved.out)?,
            (true, None) => return Err(Fault::Usage("--json and -o - both want standard output".to_string())),
        }
    }
    let before = Finding::of(&document, &prices.of(&document)?).map_err(|rule| document.refused(rule))?;
    let joined = joined(&before.clusters, &finding.clusters);
    if call.has(&JSON) {
        let mut fields = describe::json(&grown, &finding, position.as_ref());
        let part = |(part, from): &(u64, Vec<u64>)| {
            let from = from.iter().map(|&part| Json::list(grown.named(part))).collect();
            Json::Object(vec![("part", Json::list(grown.named(*part))), ("from", Json::List(from))])
        };
        fields.push(("joined", Json::List(joined.iter().map(part).collect())));
        return Ok(Answer::json(call, Json::Object(fields), status));
    }
    let mut lines = describe::lines(&grown, &finding, position.as_ref());
    let words = joined.iter().map(|(part, from)| {
        let from: Vec<_> = from.iter().map(|&part| grown.named(part).join(" ")).collect();
        format!("joined: {}, from {}", grown.named(*part).join(" "), from.join("; "))
    });
    lines.splice(1..1, words);
    let out = format!("{}: {}\n  {}\n", grown.path, finding.verdict.name(), lines.join("\n  "));
    Ok(Answer::print(out, status))
}

/// Saves the sheet beside an answer.
fn save(to: &Path, sheet: &[u8]) -> Result<(), Fault> {
    disk::write(to, sheet).map_err(|error| Fault::File { path: to.display().to_string(), error })
}

/// Why the last of more constraints is refused; where a part cannot take it, which part, and whether it agrees there.
fn refused(document: &Document, more: &[Constraint], statement: &str, rule: Rule) -> Fault {
    let mut sheet = document.sheet.clone();
    sheet.constraints.extend(more);
    let last = Part::Constraint(sheet.constraints.len() - 1);
    let mut hint = hint::of(&sheet, &document.names, rule, last);
    let mut fixed = None;
    if let Some(extra) = advice::fixed_without_last(&sheet).filter(|_| rule == Rule(11)) {
        let by: Vec<_> =
            extra.fixed_by.iter().map(|&k| text::constraint(&sheet, &document.names, &sheet.constraints[k])).collect();
        let part = document.named(extra.part);
        hint = format!("the part {} is fixed already, by {}", part.join(" "), by.join(", "));
        fixed = Some(Fixed { part: part.into_iter().map(str::to_string).collect(), by: extra.fixed_by.clone() });
        let grown = Document { sheet: sheet.clone(), ..document.clone() };
        if let Some(Some(agreement)) = Agreement::of(&grown, std::slice::from_ref(&extra)).first() {
            hint.extend(["; numeric, not proved: ", &agreement.words(&sheet, extra.constraint)]);
        }
    }
    let refusal = Refusal { fixed, ..Refusal::rule(Spot::Whole, rule, statement).hint(hint) };
    Fault::refused(&format!("statement {}", more.len()), refusal)
}

/// The parts that hold more than they did, each with the old parts in it.
fn joined(before: &[Cluster], after: &[Cluster]) -> Vec<(u64, Vec<u64>)> {
    let inside = |part: u64| before.iter().map(|old| old.elements).filter(|old| old & !part == 0).collect::<Vec<_>>();
    let parts = after.iter().map(|part| (part.elements, inside(part.elements)));
    parts.filter(|(part, from)| !from.is_empty() && !from.contains(part)).collect()
}

/// A text with more statements at its end.
fn extended(mut source: String, statements: &[&str]) -> String {
    if !source.ends_with('\n') {
        source.push('\n');
    }
    source + &statements.join("\n") + "\n"
}
