//! `pattern edit`: a text changed in place.

use std::ffi::OsStr;

use crate::cli::{Answer, Call, JSON};
use crate::document::{self, Document};
use crate::encoding;
use crate::fault::{Fault, Refusal, Status};
use crate::json::Json;
use crate::text;

/// Runs the command.
pub fn run(call: &Call) -> Result<Answer, Fault> {
    let path = &call.operands[0];
    let mut source = understood(path, &document::read(path)?)?;
    for place in 1..call.operands.len() {
        let refused = |refusal| Fault::refused(&format!("change {place}"), refusal);
        source = text::change(&source, call.text(place)?).map_err(refused)?;
    }
    understood(path, source.as_bytes())?;
    if call.has(&JSON) {
        return Ok(Answer::deliver_json(call, Json::Object(vec![("text", source.into())]), Status::Well));
    }
    Ok(Answer::deliver(call, source, Status::Well))
}

/// The text of a file that is understood. It may have too few elements for a sheet: it is not finished.
fn understood(path: &OsStr, content: &[u8]) -> Result<String, Fault> {
    let shown = document::shown(path);
    let source = match encoding::text(content) {
        Some(source) => source,
        None if content.is_empty() => return Ok(String::new()),
        None => return Err(Fault::refused(&shown, Refusal::file("edit changes texts, and this is none"))),
    };
    let fault = match Document::of(&shown, content) {
        Ok(_) => return Ok(source.to_string()),
        Err(fault) => fault,
    };
    let (parsed, complaints) = text::parse(source);
    if complaints.is_empty() && parsed.names.len() < 2 {
        Ok(source.to_string())
    } else {
        Err(fault)
    }
}
