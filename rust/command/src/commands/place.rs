//! `pattern place`: the places of a layout, as text, JSON, CSV or DXF.

use super::show::place_json;
use super::{CSV, DXF};
use crate::cli::{Answer, Call, JSON};
use crate::document::Document;
use crate::draw::{self, dxf, Layout};
use crate::fault::{Fault, Status};
use crate::json::Json;
use crate::sheet::Kind;
use crate::text::{self, Rough};

/// Runs the command.
pub fn run(call: &Call) -> Result<Answer, Fault> {
    let document = Document::load(&call.operands[0])?;
    if [&JSON, &CSV, &DXF].iter().filter(|flag| call.has(flag)).count() > 1 {
        return Err(Fault::Usage("place takes one of --json, --csv and --dxf".to_string()));
    }
    let layout = draw::layout(&document);
    let places = draw::rough(&document, &layout);
    let (status, notes) = match layout.unmet[..] {
        [] => (Status::Well, Vec::new()),
        _ => (Status::Other, vec![unmet(&document, &layout)]),
    };
    if call.has(&JSON) {
        let value = json(&document, &layout, &places);
        return Ok(Answer::deliver_json(call, value, status));
    }
    let out = if call.has(&CSV) {
        csv(&document, &places)
    } else if call.has(&DXF) {
        dxf::drawing(&document, &places)
    } else {
        let places: Vec<Option<Rough>> = places.into_iter().map(Some).collect();
        text::print_placed(&document.sheet, &document.names, &places)
    };
    Ok(Answer { notes, ..Answer::deliver(call, out, status) })
}

/// What a layout does not meet, in words.
fn unmet(document: &Document, layout: &Layout) -> String {
    let statements: Vec<String> = layout.unmet.iter().map(|&k| document.statement(k)).collect();
    let path = &document.path;
    format!("{path}: no layout that meets every size was found; these are not met: {}", statements.join(", "))
}

/// The places for a program: millimetres.
fn json(document: &Document, layout: &Layout, places: &[Rough]) -> Json {
    let elements = document.sheet.elements.iter().zip(&document.names).zip(places).map(|((kind, name), place)| {
        let mut fields = vec![("name", name.into()), ("kind", kind.name().into())];
        fields.extend(place_json(place));
        if let Kind::Circle(radius) = kind {
            fields.push(("radius", (f64::from(*radius) / 10.0).into()));
        }
        Json::Object(fields)
    });
    Json::Object(vec![
        ("how", layout.how.name().into()),
        ("unmet", Json::list(layout.unmet.iter().map(|&k| document.statement(k)))),
        ("elements", Json::List(elements.collect())),
    ])
}

/// The places as a table: a line has two ends, a circle a radius. Millimetres.
fn csv(document: &Document, places: &[Rough]) -> String {
    let row = |((kind, name), place): ((&Kind, &String), &Rough)| {
        let numbers = match *place {
            Rough::At([x, y]) => [Some(x), Some(y), None, None],
            Rough::Along([[x, y], [z, w]]) => [Some(x), Some(y), Some(z), Some(w)],
        };
        let radius = match kind {
            Kind::Circle(radius) => Some(f64::from(*radius) / 10.0),
            _ => None,
        };
        let cells = numbers.iter().copied().chain([radius]);
        let cells: String =
            cells.map(|cell| format!(",{}", cell.map_or(String::new(), text::places::coordinate))).collect();
        format!("{name},{}{cells}\n", kind.name())
    };
    let rows: String = document.sheet.elements.iter().zip(&document.names).zip(places).map(row).collect();
    format!("name,kind,x,y,to_x,to_y,radius\n{rows}")
}
