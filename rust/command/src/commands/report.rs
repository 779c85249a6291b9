//! `pattern report`: the proved report.

use super::check::status_of;
use crate::cli::{Answer, Call, JSON};
use crate::describe;
use crate::document::Document;
use crate::engine;
use crate::fault::Fault;
use crate::finding::Finding;
use crate::json::Json;
use crate::prices::Prices;

/// Prints the report.
pub fn report(call: &Call) -> Result<Answer, Fault> {
    let document = Document::load(&call.operands[0])?;
    let refused = |rule| document.refused(rule);
    let prices = Prices::default().of(&document)?;
    let find = if call.has(&JSON) { Finding::advised } else { Finding::of };
    let finding = find(&document, &prices).map_err(refused)?;
    let status = status_of(finding.verdict, &finding.steps);
    if call.has(&JSON) {
        return Ok(Answer::json(call, Json::Object(describe::json(&document, &finding, None)), status));
    }
    Ok(Answer::print(engine::report(&document.bytes).map_err(refused)?, status))
}
