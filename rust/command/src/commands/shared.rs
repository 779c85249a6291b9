//! `pattern shared`: what two parts of a plan share.

use pattern::Rule;

use crate::cli::{Answer, Call, JSON};
use crate::document::Document;
use crate::fault::{Fault, Status};
use crate::json::Json;
use crate::{describe, draw};

/// Runs the command.
pub fn run(call: &Call) -> Result<Answer, Fault> {
    let document = Document::load(&call.operands[0])?;
    let steps = pattern::steps(&document.bytes).map_err(|rule| document.refused(rule))?;
    let pieces = draw::pieces(&document, &steps);
    let piece = |place: usize| {
        let text = call.text(place)?;
        let number: usize = text.parse().map_err(|_| Fault::Usage(format!("a cluster is a number, found {text}")))?;
        pieces.get(number).copied().ok_or_else(|| document.refused(Rule(26)))
    };
    let (one, two) = (piece(1)?, piece(2)?);
    let names = document.named(pattern::shared(one.elements, two.elements));
    let status = if names.is_empty() { Status::Other } else { Status::Well };
    if call.has(&JSON) {
        let clusters = Json::List([one, two].iter().map(|piece| describe::views::piece(&document, piece)).collect());
        let fields = vec![("shared", Json::list(names)), ("clusters", clusters)];
        return Ok(Answer::json(call, Json::Object(fields), status));
    }
    let out = if names.is_empty() { "none".to_string() } else { names.join(" ") };
    Ok(Answer::print(format!("{out}\n"), status))
}
