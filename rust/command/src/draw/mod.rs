//! A picture of a sheet, and a look at its position. Everything here is in floating point: tested, not proved.

mod agreement;
mod clear;
mod construct;
mod data;
mod drag;
pub mod dxf;
mod firmness;
mod fit;
mod html;
mod labels;
mod layout;
mod legend;
mod linear;
mod math;
mod place;
mod scene;
mod solve;
mod spots;
mod steps;
mod svg;
mod system;

use pattern::Verdict;

use crate::document::Document;
use crate::finding::Finding;
use crate::sheet::Sheet;
use crate::text::Rough;
use system::System;

pub use agreement::Agreement;
pub use data::{data, fields};
pub use drag::drag;
pub use firmness::Weak;
pub use html::page;
pub use layout::{layout, How, Layout, Stop};
pub use scene::{Labels, Options, Window, SIZES};
pub use steps::{first_pieces, joined, joint, open_first, pieces, saved_views, views, Piece, View};
pub use svg::{picture, step_picture};

/// What a layout shows of a sheet that is "well" by its count.
#[derive(Clone, Copy, PartialEq, Eq, Debug)]
pub enum Position {
    /// The parts of a step do not close.
    Open(usize),
    /// The search for a layout gave up at a step.
    GaveUp(usize),
    /// A step does not hold firmly what it joins.
    Weak(Weak),
}

impl Position {
    /// The warning in words.
    pub fn warning(&self, document: &Document, finding: &Finding) -> String {
        let meeting = |made: usize| {
            let joint = finding.steps.iter().find(|step| step.made == made).map_or(0, |step| step.joint);
            format!("step {made}, where {} meet", document.named(joint).join(" "))
        };
        let words = match *self {
            Position::Open(made) => format!("these sizes do not close at {}: every placement was tried", meeting(made)),
            Position::GaveUp(made) => {
                let hint = "whether the sizes close is not known; rough places in the text (point A at 0 0) help";
                format!("the search for a layout gave up at {}; {hint}", meeting(made))
            }
            Position::Weak(weak) => weak.words(document),
        };
        format!("warning (numeric, not proved): {words}")
    }
}

/// Lays a "well" sheet out and looks whether it closes, and whether it is held firmly. Nothing where the report tells
/// already that it does not close.
pub fn examine(document: &Document, finding: &Finding) -> Option<Position> {
    if finding.verdict != Verdict::Well || finding.open_steps().next().is_some() {
        return None;
    }
    examine_layout(document, finding, &layout::any_layout(document))
}

/// Looks at a layout of a sheet in the same way.
pub fn examine_layout(document: &Document, finding: &Finding, found: &Layout) -> Option<Position> {
    if finding.verdict != Verdict::Well || finding.open_steps().next().is_some() {
        return None;
    }
    match found.stop {
        Some(Stop::Open(made)) => return Some(Position::Open(made)),
        Some(Stop::GaveUp(made)) => return Some(Position::GaveUp(made)),
        None if found.how == How::GaveUp => return finding.steps.last().map(|step| Position::GaveUp(step.made)),
        None => {}
    }
    let places = layout::centred(&document.sheet, found.places.clone());
    firmness::weak(&document.sheet, &finding.steps, &places).map(Position::Weak)
}

/// How far a layout is from meeting its sheet's dimensions, beside the largest of them.
pub fn error(document: &Document, layout: &Layout) -> f64 {
    System::of(&document.sheet).error(&layout.places)
}

/// The places of a layout as the text form has them: a line between the outermost points on it. Where the text says
/// nothing of places the first point is at 0 0.
pub fn rough(document: &Document, layout: &Layout) -> Vec<Rough> {
    let first = origin(document, layout);
    let shifted = |place: place::Place| place::between(first, place);
    let ends = scene::line_ends(document, &layout.places);
    let place = |i: usize| match ends[i] {
        Some(ends) => Rough::Along(ends.map(shifted)),
        None => Rough::At(shifted(layout.places[i])),
    };
    (0..layout.places.len()).map(place).collect()
}

/// What two elements measure in the layout of a sheet: millimetres, or degrees between two lines.
pub fn measured(document: &Document, first: usize, second: usize) -> f64 {
    let places = layout(document).places;
    let lines = [first, second].map(|end| document.sheet.elements[end].is_line());
    place::measured(lines, [places[first], places[second]])
}

/// The layout of an element alone, where the text says.
pub fn alone(sheet: &Sheet, places: &[Option<Rough>]) -> Layout {
    let place = |place: &Option<Rough>| match *place {
        Some(Rough::At(at)) => at,
        Some(Rough::Along(ends)) => fit::line_through(ends),
        None => [0.0; 2],
    };
    let places = places.iter().map(place).take(sheet.elements.len()).collect();
    Layout { places, how: How::Near, stop: None, unmet: Vec::new() }
}

/// What stands at 0 0: where the text says nothing of places the first point.
fn origin(document: &Document, layout: &Layout) -> place::Place {
    let is_line = |i: usize| document.sheet.elements[i].is_line();
    let given = document.places.iter().any(Option::is_some);
    (0..layout.places.len()).find(|&i| !given && !is_line(i)).map_or([0.0; 2], |i| layout.places[i])
}

/// A sentence on how a layout was found.
fn note(how: How) -> &'static str {
    match how {
        How::Near => "Laid out from the rough places of the text, by a numeric search. Tested, not proved.",
        How::Plan => {
            "Laid out from the dimensions, step by step by the plan; of two placements the clearer one. \
             Tested, not proved."
        }
        How::Search => "Laid out from the dimensions by a numeric search. Tested, not proved.",
        How::GaveUp => {
            "No layout that meets every size was found: this one comes near. \
             What it does not meet stands as asked \u{2260} drawn."
        }
    }
}
