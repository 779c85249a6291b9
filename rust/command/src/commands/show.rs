//! `pattern show` and `pattern make`: a sheet as text, and back.

use crate::cli::{Answer, Call, JSON};
use crate::document::Document;
use crate::fault::{Fault, Status};
use crate::json::Json;
use crate::sheet::{Dimension, Kind};
use crate::text::{self, Rough};

/// Prints a sheet as text.
pub fn show(call: &Call) -> Result<Answer, Fault> {
    let document = Document::load(&call.operands[0])?;
    if call.has(&JSON) {
        return Ok(Answer::deliver_json(call, json(&document), Status::Well));
    }
    Ok(Answer::deliver(call, text::print_placed(&document.sheet, &document.names, &document.places), Status::Well))
}

/// Makes the bytes of a sheet.
pub fn make(call: &Call) -> Result<Answer, Fault> {
    let document = Document::load(&call.operands[0])?;
    if call.has(&JSON) {
        let hex: String = document.bytes.iter().map(|byte| format!("{byte:02x}")).collect();
        let fields = vec![("bytes", document.bytes.len().into()), ("hex", hex.into())];
        return Ok(Answer::deliver_json(call, Json::Object(fields), Status::Well));
    }
    Ok(Answer::deliver(call, document.bytes, Status::Well))
}

/// The facts of a sheet for a program: sizes in tenths of a millimetre and hundredths of a degree.
pub fn json(document: &Document) -> Json {
    let sheet = &document.sheet;
    let elements = sheet.elements.iter().zip(&document.names).zip(&document.places).map(|((kind, name), place)| {
        let mut fields = vec![("name", name.into()), ("kind", kind.name().into())];
        if let Kind::Circle(radius) = kind {
            fields.push(("radius", (*radius as usize).into()));
        }
        fields.extend(place.iter().flat_map(place_json));
        Json::Object(fields)
    });
    let constraints = sheet.constraints.iter().enumerate().map(|(k, constraint)| {
        let ends = [constraint.first, constraint.second].map(|end| document.names[end].as_str());
        let (what, size) = demand(constraint.dimension);
        let fields = [("ends", Json::list(ends)), ("demand", what.into()), ("size", Json::maybe(size))];
        let text = ("text", document.statement(k).into());
        Json::Object(fields.into_iter().chain([text]).collect())
    });
    Json::Object(vec![
        ("opening", sheet.opening.name().into()),
        ("elements", Json::List(elements.collect())),
        ("constraints", Json::List(constraints.collect())),
    ])
}

/// What a constraint demands for a program, and its size.
pub fn demand(dimension: Dimension) -> (&'static str, Option<i32>) {
    match dimension {
        Dimension::Size(size) => ("size", Some(size)),
        Dimension::On => ("on", None),
        Dimension::Tangent => ("tangent", None),
        Dimension::OtherTangent => ("tangent other", None),
    }
}

/// A rough place for a program, in millimetres.
pub fn place_json(place: &Rough) -> Vec<(&'static str, Json)> {
    match *place {
        Rough::At(at) => vec![("at", Json::list(at))],
        Rough::Along([from, to]) => vec![("from", Json::list(from)), ("to", Json::list(to))],
    }
}
