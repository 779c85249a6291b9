//! `pattern longest`: the sheet with the longest plan.

use pattern::MOST_BYTES;

use super::show;
use crate::cli::{Answer, Call, JSON, OUTPUT};
use crate::document::Document;
use crate::fault::{Fault, Status};
use crate::text;

/// Runs the command.
pub fn run(call: &Call) -> Result<Answer, Fault> {
    let count = call.text(0)?;
    let n = count.parse().map_err(|_| Fault::Usage(format!("a count of points is a number, found {count}")))?;
    let path = format!("longest {n}");
    let mut space = [0; MOST_BYTES];
    let bytes = pattern::longest(n, &mut space).map_err(|rule| Fault::rule(&path, rule))?;
    let document = Document::of(&path, bytes)?;
    if call.has(&JSON) {
        return Ok(Answer::deliver_json(call, show::json(&document), Status::Well));
    }
    if call.value(&OUTPUT).is_some() {
        return Ok(Answer::deliver(call, bytes, Status::Well));
    }
    Ok(Answer::print(text::print(&document.sheet, &document.names), Status::Well))
}
