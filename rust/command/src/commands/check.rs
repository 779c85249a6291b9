//! `pattern check`: verdicts of any number of files, on all cores.

use std::collections::BTreeMap;
use std::ffi::OsStr;

use pattern::{Step, Verdict};

use super::{CSV, FAILED, PRICES, QUIET, SHORT, STRICT, VERDICT};
use crate::cli::{Answer, Call, JSON};
use crate::document::{self, Document};
use crate::draw::{self, Position};
use crate::fault::{Fault, Spot, Status};
use crate::finding::Finding;
use crate::json::Json;
use crate::prices::Prices;
use crate::{csv, describe, files, parallel};

/// What is found of one file.
type Checked = Result<(Document, Finding, Option<Position>), Fault>;

/// Checks one file: what the proved library says of it, and, where more than the verdict is wanted, what to change and
/// what its sizes are like.
fn check(path: &OsStr, prices: &Prices, more: bool) -> Checked {
    let document = Document::load(path)?;
    let found = if more { Finding::advised } else { Finding::of };
    let finding = found(&document, &prices.of(&document)?).map_err(|rule| document.refused(rule))?;
    let position = if more { draw::examine(&document, &finding) } else { None };
    Ok((document, finding, position))
}

/// The status of a verdict and the steps of a plan: 0 where it is well and no step is known to have no placement.
pub fn status_of(verdict: Verdict, steps: &[Step]) -> Status {
    let closes = steps.iter().all(|step| step.ways != Some(0));
    if verdict == Verdict::Well && closes {
        Status::Well
    } else {
        Status::Other
    }
}

/// The status of one file.
fn status(checked: &Checked) -> Status {
    match checked {
        Ok((_, finding, _)) => status_of(finding.verdict, &finding.steps),
        Err(fault) => fault.status(),
    }
}

/// The word for one file in the table.
fn word(checked: &Checked) -> &'static str {
    match checked {
        Ok((_, finding, _)) => finding.verdict.name(),
        Err(fault) => fault.name(),
    }
}

/// One file in words.
fn block(checked: &Checked) -> String {
    match checked {
        Ok((document, finding, position)) => {
            let lines = describe::lines(document, finding, position.as_ref());
            format!("{}: {}\n  {}\n", document.path, finding.verdict.name(), lines.join("\n  "))
        }
        Err(fault) => format!("{fault}\n"),
    }
}

/// One file for a program.
fn object(path: &OsStr, checked: &Checked) -> Json {
    let mut fields = vec![("file", document::shown(path).into())];
    match checked {
        Ok((document, finding, position)) => fields.extend(describe::json(document, finding, position.as_ref())),
        Err(fault) => fields.extend([("status", fault.name().into()), ("errors", fault.json())]),
    }
    Json::Object(fields)
}

/// How many warnings one file has.
fn warnings(checked: &Checked) -> Vec<String> {
    checked.as_ref().map_or(Vec::new(), |(d, f, p)| describe::warnings(d, f, p.as_ref()))
}

/// One file in a line.
fn line(checked: &Checked) -> String {
    match checked {
        Ok((document, finding, position)) => {
            let lines = describe::lines(document, finding, position.as_ref());
            let warnings = match warnings(checked).len() {
                0 => String::new(),
                count => format!(" ({})", describe::counted(count, "warning")),
            };
            format!("{}: {}: {}{warnings}\n", document.path, finding.verdict.name(), lines[0])
        }
        Err(fault) => {
            let lines = fault.lines();
            let more = if lines.len() > 1 { format!(" (and {} more)", lines.len() - 1) } else { String::new() };
            format!("{}{more}\n", lines[0])
        }
    }
}

/// The titles of the table of files.
const TITLES: [&str; 10] =
    ["file", "status", "elements", "constraints", "missing", "warnings", "rule", "line", "column", "message"];

/// One file as a row of the table of files.
fn row(path: &OsStr, checked: &Checked) -> String {
    let mut cells = vec![document::shown(path), word(checked).to_string()];
    match checked {
        Ok((document, finding, _)) => {
            let (n, e) = (document.sheet.elements.len(), document.sheet.constraints.len());
            let warnings = warnings(checked);
            cells.extend([n, e, finding.freedoms, warnings.len()].map(|count| count.to_string()));
            cells.extend(["", "", ""].map(str::to_string));
            cells.push(warnings.join("; "));
        }
        Err(Fault::Refused { refusals, .. }) if !refusals.is_empty() => {
            let (line, column) = match refusals[0].spot {
                Spot::Text { line, column } => (line.to_string(), column.to_string()),
                _ => (String::new(), String::new()),
            };
            let rule = refusals[0].rule.map_or(String::new(), |rule| rule.0.to_string());
            cells.extend(["", "", "", ""].map(str::to_string));
            cells.extend([rule, line, column, refusals[0].to_string()]);
        }
        Err(fault) => {
            cells.extend(["", "", "", "", "", "", ""].map(str::to_string));
            cells.push(fault.to_string());
        }
    }
    csv::row(&cells)
}

/// How many files got which word; of those refused, how many by which rule, each with an example.
fn table(results: &[Checked]) -> String {
    let words = ["well", "under", "stuck", "angle", "over", "refused", "unreadable"];
    let count = |wanted: &str| results.iter().filter(|checked| word(checked) == wanted).count();
    let mut table = String::new();
    for (word, count) in words.map(|word| (word, count(word))).into_iter().filter(|(_, count)| *count > 0) {
        let row = format!("{word:10} {count:6}\n");
        table += &row;
        if word == "refused" {
            table += &reasons(results);
        }
    }
    let warned = results.iter().filter(|checked| !warnings(checked).is_empty()).count();
    table + &format!("{:10} {:6}\n{:10} {warned:6}\n", "files", results.len(), "warnings")
}

/// Why files were refused: each reason with how many it refused and the first of them. Rules by number, then texts
/// that were not understood.
fn reasons(results: &[Checked]) -> String {
    let mut reasons: BTreeMap<u8, (usize, String)> = BTreeMap::new();
    for (rule, example) in results.iter().filter_map(|checked| checked.as_ref().err()?.reason()) {
        reasons.entry(rule.unwrap_or(u8::MAX)).or_insert((0, example)).0 += 1;
    }
    let name = |rule: &u8| if *rule == u8::MAX { "text".to_string() } else { format!("rule {rule}") };
    let row = |(rule, (count, example)): (&u8, &(usize, String))| format!("  {:8} {count:6}  {example}\n", name(rule));
    reasons.iter().map(row).collect()
}

/// Runs the command.
pub fn run(call: &Call) -> Result<Answer, Fault> {
    let prices = match call.value(&PRICES) {
        Some(path) => Prices::load(path)?,
        None => Prices::default(),
    };
    let files = files::of(call)?;
    let results = parallel::map(&files, |found| check(&found.path, &prices, !call.has(&VERDICT)));
    let warned = call.has(&STRICT) && results.iter().any(|checked| !warnings(checked).is_empty());
    let least = if warned { Status::Other } else { Status::Well };
    let status = results.iter().map(status).fold(least, Status::max);
    let failed = |checked: &Checked| self::status(checked) != Status::Well || !warnings(checked).is_empty();
    let told: Vec<_> =
        files.iter().zip(&results).filter(|(_, checked)| !call.has(&FAILED) || failed(checked)).collect();
    if call.has(&JSON) {
        let objects = told.iter().map(|(found, checked)| object(&found.path, checked));
        let files = Json::List(objects.collect());
        return Ok(Answer::json(call, Json::Object(vec![("files", files)]), status));
    }
    if call.has(&CSV) {
        let rows: String = told.iter().map(|(found, checked)| row(&found.path, checked)).collect();
        return Ok(Answer::print(csv::row(&TITLES) + &rows, status));
    }
    let words = if call.has(&SHORT) { line } else { block };
    let blocks =
        if call.has(&QUIET) { String::new() } else { told.iter().map(|(_, checked)| words(checked)).collect() };
    let table = if results.len() > 1 || call.has(&QUIET) { table(&results) } else { String::new() };
    let gap = if blocks.is_empty() || table.is_empty() { "" } else { "\n" };
    Ok(Answer::print(blocks + gap + &table, status))
}
