//! `pattern measure`: what may hold two elements, with sizes taken from the drawing.

use super::show::demand;
use crate::cli::{Answer, Call, JSON};
use crate::document::Document;
use crate::draw;
use crate::fault::{Fault, Status};
use crate::json::Json;
use crate::sheet::{Constraint, Dimension, Sheet};
use crate::text;

/// So near, in millimetres, is a point drawn on a line, and a circle in contact.
const NEAR: f64 = 0.5;

/// Runs the command.
pub fn run(call: &Call) -> Result<Answer, Fault> {
    let document = Document::load(&call.operands[0])?;
    let [a, b] = [document.element(call.text(1)?)?, document.element(call.text(2)?)?];
    let count = document.names.len();
    if let Some(end) = [a, b].iter().find(|end| **end >= count) {
        return Err(Fault::Usage(format!("{}: elements are 0 to {}, and not {end}", document.path, count - 1)));
    }
    if a == b {
        return Err(Fault::Usage("measure takes two elements".to_string()));
    }
    let found = choices(&document, a.min(b), a.max(b));
    let statement = |c: &Constraint| text::constraint(&document.sheet, &document.names, c);
    if !call.has(&JSON) {
        let lines: String = found.iter().map(|c| statement(c) + "\n").collect();
        return Ok(Answer::print(lines, Status::Well));
    }
    let choice = |c: &Constraint| {
        let (demand, size) = demand(c.dimension);
        Json::Object(vec![("text", statement(c).into()), ("demand", demand.into()), ("size", Json::maybe(size))])
    };
    let held = document.sheet.constraints.iter().position(|c| (c.first, c.second) == (a.min(b), a.max(b)));
    let fields = vec![("held", Json::maybe(held)), ("statements", Json::List(found.iter().map(choice).collect()))];
    Ok(Answer::json(call, Json::Object(fields), Status::Well))
}

/// What may hold two elements, what is drawn first.
fn choices(document: &Document, first: usize, second: usize) -> Vec<Constraint> {
    let sheet = &document.sheet;
    let measured = draw::measured(document, first, second);
    let lines = [first, second].map(|end| sheet.elements[end].is_line());
    let (unit, range) = if lines == [true, true] { (100.0, 17_999) } else { (10.0, 40_000) };
    let size = ((measured * unit).round() as i64).clamp(-range, range) as i32;
    let size = if lines == [false, false] { size.max(1) } else { size };
    let sized = Some(Dimension::Size(size)).filter(|_| size != 0);
    let more = [Dimension::On, Dimension::Tangent, Dimension::OtherTangent];
    let all = sized.into_iter().chain(more).map(|dimension| Constraint { first, second, dimension });
    let mut allowed: Vec<Constraint> = all.filter(|c| accepted(sheet, *c)).collect();
    // what the drawing shows already comes first
    allowed.sort_by_key(|c| match c.dimension {
        Dimension::Size(_) => 1,
        _ if (sheet.size(c) as f64 / unit - measured).abs() < NEAR => 0,
        _ => 2,
    });
    allowed
}

/// Whether the proved writer takes a constraint between two elements of a sheet.
fn accepted(sheet: &Sheet, constraint: Constraint) -> bool {
    crate::engine::write(&Sheet { constraints: vec![constraint], ..sheet.clone() }).is_ok()
}
