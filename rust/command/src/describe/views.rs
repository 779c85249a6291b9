//! The steps of a plan as they are shown, as JSON.

use super::step_json;
use crate::document::Document;
use crate::draw::{joint, Piece, View};
use crate::json::Json;
use crate::sheet::members;

/// The steps with their words, their parts, what is built before them and what is open after them.
pub fn json<'a>(document: &Document, views: impl IntoIterator<Item = &'a View>) -> Json {
    Json::List(views.into_iter().map(|view| step(document, view)).collect())
}

/// Merges for a program: the three parts, and the elements in which they meet.
pub fn merges(document: &Document, merges: &[[Piece; 3]]) -> Json {
    let object = |merge: &[Piece; 3]| {
        let from = merge.map(|piece| piece.number);
        Json::Object(vec![("from", Json::list(from)), ("joint", Json::list(document.named(joint(merge))))])
    };
    Json::List(merges.iter().map(object).collect())
}

/// A step for a program: what every step has, and what is shown of it.
fn step(document: &Document, view: &View) -> Json {
    let mut fields = match step_json(document, &view.step) {
        Json::Object(fields) => fields,
        _ => Vec::new(),
    };
    fields.extend([
        ("place", (view.step.made - document.sheet.constraints.len() + 1).into()),
        ("words", view.words.as_str().into()),
        ("next_words", view.next_words(document).into()),
        ("parts", Json::List(view.parts.iter().map(|part| piece(document, part)).collect())),
        ("built", Json::Object(held(document, &view.built))),
        ("next", merges(document, &view.next)),
    ]);
    Json::Object(fields)
}

/// A part for a program.
pub fn piece(document: &Document, piece: &Piece) -> Json {
    let number = [("number", piece.number.into())];
    Json::Object(number.into_iter().chain(held(document, piece)).collect())
}

/// What a part holds, and the constraints that it rests on.
fn held(document: &Document, piece: &Piece) -> Vec<(&'static str, Json)> {
    let rests = (0..128usize).filter(|k| piece.constraints >> k & 1 == 1);
    let holds = members(piece.elements).map(|i| document.names[i].as_str());
    vec![("holds", Json::list(holds)), ("rests_on", Json::list(rests))]
}
