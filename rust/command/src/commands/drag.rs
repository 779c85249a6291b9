//! `pattern drag`: where everything is when some elements are pulled.

use super::draw::options;
use super::scene::{few, window};
use super::WINDOW;
use crate::cli::{Answer, Call, JSON};
use crate::document::{self, Document};
use crate::draw;
use crate::fault::{Fault, Refusal, Status};
use crate::finding::Finding;
use crate::json::Json;
use crate::prices::Prices;
use crate::text::{self, Rough};

/// Runs the command.
pub fn run(call: &Call) -> Result<Answer, Fault> {
    let mut options = options(call)?;
    options.window = call.value(&WINDOW).map(window).transpose()?;
    let path = &call.operands[0];
    let content = document::read(path)?;
    let (mut document, finding) = match Document::of(&document::shown(path), &content) {
        Ok(document) => (document, None),
        Err(fault) => few(path, &content).map(|(document, finding, _)| (document, Some(finding))).ok_or(fault)?,
    };
    let refused = |refusal: Refusal| Fault::refused("the pull", refusal);
    let (pulled, by) = text::pull(call.text(1)?, &document.sheet.elements, &document.names).map_err(refused)?;
    let found = draw::drag(&document, pulled, by);
    if !found.places.iter().all(text::places::within) {
        return Err(refused(Refusal::text(1, 1, "it leads farther than 1000000 mm".to_string())));
    }
    let before = std::mem::replace(&mut document.places, found.places.iter().copied().map(Some).collect());
    let text = match &document.source {
        Some(source) => text::placed(source, &changed(&before, &found.places)),
        None => text::print_placed(&document.sheet, &document.names, &document.places),
    };
    let status = if found.layout.unmet.is_empty() { Status::Well } else { Status::Other };
    if !call.has(&JSON) {
        return Ok(Answer::deliver(call, text, status));
    }
    let finding = match finding {
        Some(finding) => finding,
        None => {
            let prices = Prices::default().of(&document)?;
            Finding::of(&document, &prices).map_err(|rule| document.refused(rule))?
        }
    };
    let mut fields = draw::fields(&document, &finding, &found.layout, options);
    fields.push(("text", text.into()));
    Ok(Answer::deliver_json(call, Json::Object(fields), status))
}

/// The places that are not as the text has them.
fn changed(before: &[Option<Rough>], after: &[Rough]) -> Vec<(usize, Rough)> {
    let words = |place: &Option<Rough>| place.map(|place| place.words());
    let pairs = before.iter().zip(after).enumerate();
    pairs.filter(|(_, (a, b))| words(a) != Some(b.words())).map(|(i, (_, b))| (i, *b)).collect()
}
